"""Builds a program of a benchmark in a folder of its own, over the libraries of this checkout.

Such a program is no crate of crates.txt, since the gate would prove it, and build it with two compilers.
"""
import pathlib
import shutil
import subprocess

TOP = pathlib.Path(__file__).resolve().parent.parent


def below(name, lines, found):
    """The crates of the repository that a crate stands on, lowest first, and itself."""
    for low in lines[name].split():
        if low in lines:
            below(low, lines, found)
    if name not in found:
        found.append(name)
    return found


def build(room, name, uses, files, words=()):
    """Proves and builds a program of these files in a folder, over the libraries as they are proved here, and runs it with these words once.

    Of the libraries that it uses, the first stands on the others.
    """
    top = uses.split()[0]
    subprocess.run(["rt", "lib"], cwd=TOP / "crates" / top, check=True, stdout=subprocess.DEVNULL)
    text = (TOP / "crates.txt").read_text()
    lines = dict(line.split(":", 1) for line in text.splitlines() if ":" in line and not line.startswith("#"))
    crates = below(top, lines, [])
    for low in crates:
        for part in ("src", "specs", "proofs", "out/rlib"):
            if (TOP / "crates" / low / part).is_dir():
                shutil.copytree(TOP / "crates" / low / part, room / "crates" / low / part)
    own = room / "crates" / name
    (own / "src").mkdir(parents=True)
    for path, source in files.items():
        (own / "src" / path).write_text(source)
    (room / "crates.txt").write_text("".join(f"{low}:{lines[low]}\n" for low in crates) + f"{name}: {uses}\n")
    shutil.copy(TOP / "HANDLES", room / "HANDLES")
    ran = subprocess.run(["rt", "run", "--", *words], cwd=own, stdout=subprocess.PIPE, stderr=subprocess.STDOUT, text=True)
    program = own / "out" / name
    if not program.is_file():
        raise SystemExit(ran.stdout)
    return program
