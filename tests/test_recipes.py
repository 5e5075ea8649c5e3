"""Docs/RECIPES.md and docs/RECIPES_OPERATION.md: the files that they show are those of examples/recipes, the folders have no warnings, what they
tell someone to type is typed, and what they say is printed is printed.

    tests/programs test_recipes
"""
import contextlib
import os
import pathlib
import re
import shutil
import signal
import subprocess
import sys
import tempfile
import threading
import time
import unittest

sys.path.insert(0, str(pathlib.Path(__file__).resolve().parent))
from harness import INITCTL, INITD, TOP

FOLDER = TOP / "examples" / "recipes"
PAGES = [TOP / "docs" / "RECIPES.md", TOP / "docs" / "RECIPES_OPERATION.md"]
RECIPES = 20
LONGEST = 95
MARK = "== end of a command"
# Seconds for what one recipe types.
PATIENCE = 60
# A command that only looks.
LOOK = r"(sleep \d+|initctl (list|status) [^;]*|initctl list|(cat|ls|grep|head|sed|wc|readlink|\[) [^;>]*)"
LOOKS = re.compile(rf"{LOOK}(; {LOOK})*\n")
# The events that come from outside, besides `shutdown`: by hand, by a hook of the system, or by a client.
OUTSIDE = {
    "from-systemd": ["net-up"],
    "from-upstart": ["runlevel"],
    "one-file-many": ["queue-added", "queue-removed"],
    "suite-against-services": ["suite"],
    "wait-for-two.bundle": ["disk-up", "net-up"],
    "when-it-comes": ["card-removed", "net-down", "net-up"],
}
# The folders that show mistakes.
WRONG = {"does-not-start", "from-upstart-before"}


class Recipe:
    """A section of a page: the files that it shows, and what it tells someone to type, with what is printed."""

    def __init__(self, number, title, text):
        self.name = f"{number}. {title}"
        self.text = text
        self.files = dict(re.findall(r"^`([\w./-]+)`\n```\w*\n(.*?)^```$", text, flags=re.M | re.S))
        self.typed = re.findall(r"^```console\n(.*?)^```$", text, flags=re.M | re.S)
        needs = re.findall(r"^Needs (.*?)\n\n|^```(console)$", text, flags=re.M | re.S)
        self.needs = [before[0] if block[1] else None for before, block in zip([("", "")] + needs, needs)]
        self.needs = [needed for needed in self.needs if needed is not None]

    def stored(self):
        """The file beside the recipe's first folder or bundle that has what is typed, and what is printed."""
        return pathlib.Path(next(iter(self.files)).split("/")[0]).with_suffix(".out")

    def commands(self, block):
        """The commands with what each prints: `$ ` begins a command, `> ` goes on with it, and all other lines are printed."""
        found = []
        for line in block.splitlines(keepends=True):
            if line.startswith("$ "):
                found.append([line[2:], ""])
            elif line.startswith("> "):
                found[-1][0] += line[2:]
            else:
                found[-1][1] += line
        return found


def recipes():
    found = {}
    for page in PAGES:
        for part in re.split(r"^## (?=\d+\. )", page.read_text(), flags=re.M)[1:]:
            head, text = part.split("\n", 1)
            number, title = head.split(". ", 1)
            found[int(number)] = Recipe(number, title, text)
    return found


def ending():
    """What is typed after each recipe. What it prints is nobody's concern: it may be that no init runs."""
    return re.search(r"^    (initctl emit shutdown; .*\n)", PAGES[0].read_text(), flags=re.M).group(1), ""


def without_numbers(text):
    """The text without numbers of processes, which are others each time."""
    return re.sub(r"process \d+", "process PID", text)


class Desk:
    """A place at which a recipe is tried: what the pages have in /tmp and in /usr/local/sbin is in a folder of its own."""

    def __init__(self, work):
        self.work = work
        (work / "bin").mkdir()
        for tool in INITD, INITCTL, TOP / "examples" / "stop-in-order":
            shutil.copy(tool, work / "bin")
            (work / "bin" / tool.name).chmod(0o755)
        (work / "distribution").symlink_to(TOP / "examples" / "distribution")
        for path in FOLDER.rglob("*"):
            if path.is_file():
                copy = work / "recipes" / path.relative_to(FOLDER)
                copy.parent.mkdir(parents=True, exist_ok=True)
                copy.write_text(self.moved(path.read_text()))
                shutil.copymode(path, copy)

    def moved(self, text):
        return re.sub(r"/tmp\b", str(self.work), text).replace("/usr/local/sbin", f"{self.work}/bin")

    def shell(self):
        """A shell that reads what is typed, and prints on one output."""
        how = {**os.environ, "PATH": f"{self.work}/bin:{os.environ['PATH']}", "INITCTL_SOCKET": f"{self.work}/init.socket", "LC_ALL": "C"}
        streams = {"stdin": subprocess.PIPE, "stdout": subprocess.PIPE, "stderr": subprocess.STDOUT}
        return subprocess.Popen(["bash", "-s"], text=True, cwd=self.work / "recipes", env=how, **streams)

    def type(self, commands):
        """Each command with what it prints, and what the page says. One that only looks is typed again for a while if it shows something else:
        a busy machine takes longer."""
        with self.shell() as shell:
            timer = threading.Timer(PATIENCE, shell.kill)
            timer.start()
            try:
                for command, wanted in commands:
                    found = self.answer(shell, command)
                    end = time.time() + 10
                    while LOOKS.fullmatch(command) and without_numbers(found) != without_numbers(wanted) and time.time() < end:
                        time.sleep(0.2)
                        found = self.answer(shell, command)
                    yield command, found, wanted
            finally:
                timer.cancel()

    def answer(self, shell, command):
        """What one command prints. After one that starts an init, its socket is waited for."""
        ready = f"for try in {{1..200}}; do [ -S {self.work}/init.socket ] && break; sleep 0.05; done\n" if command.endswith("&\n") else ""
        shell.stdin.write(f"{self.moved(command)}{ready}echo '{MARK}'\n")
        shell.stdin.flush()
        printed = ""
        for line in shell.stdout:
            printed += line
            if printed.endswith(f"{MARK}\n"):
                break
        printed = printed.removesuffix(f"{MARK}\n")
        return printed.replace(f"{self.work}/bin", "/usr/local/sbin").replace(str(self.work), "/tmp")

    def clear(self):
        """Ends what goes on: the inits at this place, and their services."""
        for init in self.inits():
            left = pathlib.Path(f"/proc/{init}/task/{init}/children").read_text().split()
            for pid in [init, *left]:
                with contextlib.suppress(ProcessLookupError):
                    os.kill(int(pid), signal.SIGKILL)

    def inits(self):
        found = []
        for words in pathlib.Path("/proc").glob("[0-9]*/cmdline"):
            with contextlib.suppress(OSError):
                if f"{self.work}/init.socket".encode() in words.read_bytes().split(b"\0"):
                    found.append(int(words.parent.name))
        return found


class Pages(unittest.TestCase):
    """What the pages say, and what examples/recipes has."""

    def test_numbers(self):
        self.assertEqual(list(recipes()), list(range(1, RECIPES + 1)))

    def test_files(self):
        shown = {}
        for recipe in recipes().values():
            shown.update(recipe.files)
        found = {str(path.relative_to(FOLDER)): path.read_text() for path in FOLDER.rglob("*") if path.is_file() and path.suffix != ".out"}
        self.assertEqual(sorted(shown), sorted(found))
        for path in shown:
            with self.subTest(path):
                self.assertEqual(shown[path], found[path])

    def test_outputs(self):
        stored = sorted(str(recipe.stored()) for recipe in recipes().values())
        self.assertEqual(stored, sorted(path.name for path in FOLDER.glob("*.out")))
        for recipe in recipes().values():
            with self.subTest(recipe.name):
                self.assertEqual("".join(recipe.typed), (FOLDER / recipe.stored()).read_text())

    def test_a_screen_each(self):
        for recipe in recipes().values():
            with self.subTest(recipe.name):
                lines = [line for line in recipe.text.splitlines() if line and not line.startswith("|")]
                self.assertLessEqual(len(lines), LONGEST)

    def test_warnings(self):
        for folder in sorted({path.split("/")[0] for recipe in recipes().values() for path in recipe.files}):
            with self.subTest(folder), tempfile.TemporaryDirectory(prefix="rec-") as work:
                where = FOLDER / folder
                if where.suffix == ".bundle":
                    where = pathlib.Path(work)
                    for part in re.split(r"^%file ", (FOLDER / folder).read_text().split("%script\n")[0], flags=re.M)[1:]:
                        path, text = part.split("\n", 1)
                        (where / path).write_text(text)
                events = [word for event in ["shutdown", *OUTSIDE.get(folder, [])] for word in ("--event", event)]
                made = subprocess.run([INITD, "lint", *events, where], capture_output=True, text=True, timeout=60)
                if folder not in WRONG:
                    self.assertEqual(made.stdout, "")


def missing(needs):
    """What isn't here of the programs, the files and the rights that a block of commands needs."""
    for thing in re.findall(r"`([^`]+)`", needs):
        if not (os.access(thing, os.W_OK) if "/" in thing else shutil.which(thing)):
            return f"{thing} isn't here"
    if "root" in needs and os.geteuid() != 0:
        return "it takes root"
    return None


class Tried(unittest.TestCase):
    """Each recipe, typed."""

    maxDiff = None


def trial(number):
    def test(self):
        recipe = recipes()[number]
        lacks = [missing(needs) for needs in recipe.needs]
        commands = [command for block, lack in zip(recipe.typed, lacks) if not lack for command in recipe.commands(block)]
        with tempfile.TemporaryDirectory(prefix="rec-") as work:
            os.chmod(work, 0o755)
            desk = Desk(pathlib.Path(work))
            try:
                for command, found, wanted in desk.type([*commands, ending()]):
                    if command != ending()[0]:
                        self.assertEqual(without_numbers(f"$ {command}{found}"), without_numbers(f"$ {command}{wanted}"))
                self.assertEqual(desk.inits(), [])
            finally:
                desk.clear()
        for lack in filter(None, lacks):
            with self.subTest(recipe.name):
                self.skipTest(lack)
    return test


for at in range(1, RECIPES + 1):
    setattr(Tried, f"test_{at:02}", trial(at))

if __name__ == "__main__":
    unittest.main()
