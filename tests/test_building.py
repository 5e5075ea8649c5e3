"""`make`, with another `rt` in the place of Rattle's: what it builds and says, and how it ends; what `make dist` packs; and what `make install` copies."""
import contextlib
import hashlib
import importlib.machinery
import importlib.util
import os
import pathlib
import shutil
import signal
import subprocess
import tarfile
import time

from harness import PATIENCE, TOP, Case, ran, wait_for

# Lines of a real `rt ci`, with most of those between them left out.
STORED = """rt: up_pattern is kept: an earlier run on this machine proved the same files over the same libraries
rt: up_value is kept: an earlier run on this machine proved the same files over the same libraries
== up_text
./proofs/Gaps.antt:62:14: note: `simp` left alone at least one place where it could have applied `both.0`: the kernel refuses the goal rewritten there
enum up_text::expansion::Expanded: proved
fn up_text::expansion::laws::literal: proved
empty contracts: 0 found; tried 118 of 118 functions
statements std: modules loaded=340 checked=0
logic=proved functions=104 sum=dac8208d650f15bf native=nat,char,string logic-built=trusted libraries-built=trusted statements=trusted
rt: up_text proved
rt: up_expr: another run on this machine is proving the same; waiting for it
== up_expr
by-macro: thiserror::Error,core::split_item,thiserror::__impls,thiserror::__display,thiserror::__from blocks=2
struct up_expr::branch::Branch: proved
branch.rt:40:5: it is not proved that what the function ensures holds when it returns (`returns`)
rt: up_expr NOT PROVED
rt: up_stanza NOT PROVED: its library up_expr failed
rt: initd ran, and wrote what its file stdout has
rt: FAILED: up_expr up_stanza
3 passed, 2 failed"""

# A toolchain that writes what it was called with, and proves each crate of crates.txt in a moment, but the one that is named in `fails`.
RT = r"""#!/bin/bash
here=$(dirname "$0")
[[ $1 == version ]] && exec echo "kit logic 0123"
[[ $* == ci ]] || exit 2
printf '%s\n' "$RT_JOBS: $(ls crates | tr '\n' ' ')$(ls crates/low)" >> "$here/calls"
fails=$(cat "$here/fails" 2> /dev/null)
status=0 lost=
while IFS=: read -r name libraries; do
    if [[ $lost && " $libraries " == *" $lost "* ]]; then
        echo "rt: $name NOT PROVED: its library $lost failed"
        continue
    fi
    mkdir -p "crates/$name/out"
    if [[ -e $here/kept-$name ]]; then
        echo "rt: $name is kept: an earlier run on this machine proved the same files over the same libraries"
    else
        sleep 0.7
        [[ ! -e $here/waits ]] || sleep 1000
        echo "== $name"
        for i in {1..50}; do echo "fn $name::f$i: proved"; done
        if [[ $name == "$fails" ]]; then
            echo "$name.rt:1:1: it is not proved that it ends"
            echo "rt: $name NOT PROVED"
            lost=$name status=1
            continue
        fi
        : > "$here/kept-$name"
        echo "rt: $name proved"
    fi
    if [[ $name == init* ]]; then
        printf '#!/bin/sh\ncat\n' > "crates/$name/out/$name"
    fi
done < crates.txt
echo "4 passed, 0 failed"
exit $status
"""

CRATES = """# the lowest
low: std_things
high: low
# not below the programs
other: low
initctl: low
initd: high low
"""

WEIGHTS = """# The gate

## Where the time goes

| Crate | Proof | Tests | Bodies | | Crate | Proof | Tests | Bodies |
|---|---|---|---|---|---|---|---|---|
| low | 30 | | 3: 4 | | high | 90 | 100 | |
| initd, initctl | 10, 20 | | | | | | | |

## Habits
"""


def script():
    """The module of tools/build."""
    loader = importlib.machinery.SourceFileLoader("tools_build", str(TOP / "tools" / "build"))
    module = importlib.util.module_from_spec(importlib.util.spec_from_loader("tools_build", loader))
    loader.exec_module(module)
    return module


class Reading(Case):
    """What tools/build makes of files, and of what `rt` prints."""

    def test_the_tree(self):
        build = script()
        below = build.crates_of((TOP / "crates.txt").read_text())
        weights = build.weights_of((TOP / "docs" / "GATE.md").read_text())
        self.check("the libraries that README.md counts", f"their {len(below) - 2} libraries" in (TOP / "README.md").read_text(), True)
        self.check("crates of tests aren't among them", [name for name in below if name.endswith("_tests")], [])
        self.check("docs/GATE.md has the seconds of each", [name for name in below if name not in weights], [])

    def test_a_log(self):
        build = script()
        log = build.Log({name: [] for name in ("up_pattern", "up_value", "up_text", "up_expr", "up_stanza", "initd")})
        found = [told for line in STORED.splitlines() if (told := log.read(line))]
        wanted = [
            ("up_pattern", "kept"),
            ("up_value", "kept"),
            ("up_text", "proved"),
            (None, "up_expr: another run on this machine is proving the same; waiting for it"),
            ("up_expr", "failed"),
            ("up_stanza", "failed"),
        ]
        self.check("who ended, and how", found, wanted)
        self.check("what was said of one that failed", log.said["up_expr"][-1].endswith("(`returns`)"), True)
        self.check("and of one above it", log.said["up_stanza"], ["its library up_expr failed"])
        self.check("who failed", log.failed(), ["up_expr", "up_stanza"])

    def test_the_time_that_is_left(self):
        build = script()
        below = build.crates_of(CRATES)
        weights = build.weights_of(WEIGHTS)
        self.check("the table", weights, {"low": 30, "high": 90, "initd": 10, "initctl": 20})
        for name, done, running, jobs, wanted in (
            ("one after another", (), {}, 1, 150),
            ("two at once", (), {}, 2, 130),
            ("a part is done", ("low",), {"high": 60}, 2, 40),
            ("all is done", tuple(below), {}, 2, 0),
        ):
            self.check(name, build.time_left(below, weights, done, running, jobs, 1.0), wanted)
        self.check("a slow machine", build.time_left(below, weights, (), {}, 1, 3.0), 450)
        self.check("as people say it", [build.spoken(it) for it in (0, 89, 90, 2400, 9000)], ["1 seconds", "89 seconds", "2 minutes", "40 minutes", "2.5 hours"])


class Building(Case):
    """`make` in a small tree."""

    def setUp(self):
        super().setUp()
        self.tree, self.bin = self.work / "tree", self.work / "bin"
        for folder in (self.tree / "docs", self.tree / "examples", self.bin):
            folder.mkdir(parents=True)
        shutil.copytree(TOP / "tools", self.tree / "tools", ignore=shutil.ignore_patterns("__pycache__"))
        shutil.copy(TOP / "Makefile", self.tree)
        (self.tree / "crates.txt").write_text(CRATES)
        (self.tree / "docs" / "GATE.md").write_text(WEIGHTS)
        (self.tree / "examples" / "one-service.bundle").write_text("what was replayed\n")
        for name in ("low", "high", "other", "initctl", "initd"):
            (self.tree / "crates" / name / "src").mkdir(parents=True)
            (self.tree / "crates" / name / "src" / "a.rt").write_text(name)
        (self.tree / "crates" / "low" / "must-fail").mkdir()
        self.rooms = self.work / "rooms"
        self.rooms.mkdir()
        (self.bin / "rt").write_text(RT)
        (self.bin / "rt").chmod(0o755)
        own = {key: value for key, value in os.environ.items() if key not in ("JOBS", "VERBOSE", "MAKEFLAGS")}
        self.how = {"cwd": self.tree, "env": {**own, "TMPDIR": str(self.rooms), "PATH": f"{self.bin}:{os.environ['PATH']}"}}

    def make(self, *words):
        """What `make` prints, without the times, and its status."""
        made = ran(["make", "-s", *words], **self.how)
        lines = [line[9:] if line[2:3] == line[5:6] == ":" else line for line in made.stdout.splitlines()]
        return lines, made.returncode, made.stderr

    def calls(self):
        file = self.bin / "calls"
        return file.read_text().splitlines() if file.exists() else []

    def living(self):
        """The processes that run this test's `rt`."""
        found = []
        for path in pathlib.Path("/proc").glob("[0-9]*/cmdline"):
            with contextlib.suppress(OSError):
                found += [path.parent.name] * (str(self.bin / "rt").encode() in path.read_bytes())
        return found

    def test_a_whole_build(self):
        lines, status, errors = self.make("JOBS=3", "demo")
        self.check("it ends well", (status, errors), (0, ""))
        self.check("it says what is to come", lines[0], "4 crates to prove, 3 at once: about 2 minutes from nothing on the machine of docs/GATE.md")
        self.check("which crate begins", [line for line in lines if line.endswith("begins")], [f"{name} begins" for name in ("low", "high", "initctl", "initd")])
        ended = [line for line in lines if " proved in " in line]
        self.check("which ends", [line.split()[0] for line in ended], ["low", "high", "initctl", "initd"])
        self.check("how many are left", [line.partition("; ")[2].split()[:2] for line in ended], [["3", "left,"], ["2", "left,"], ["1", "left,"], []])
        self.check("then it replays", lines[-1], "what was replayed")
        self.check("rt gets the crates below the programs, and no wrong bodies", self.calls(), ["3: high initctl initd low out src".replace(" out", "")])
        self.check("nothing is left among temporary files", os.listdir(self.rooms), [])
        begun = time.monotonic()
        again = self.make("demo")
        self.check("what is built is answered at once", (again[0], time.monotonic() - begun < 2 * PATIENCE), (["initd and initctl are built.", "what was replayed"], True))
        self.check("and not proved again", len(self.calls()), 1)
        (self.tree / "crates" / "other" / "src" / "a.rt").write_text("another")
        self.check("another crate doesn't matter", self.make()[0], ["initd and initctl are built."])
        (self.tree / "crates" / "high" / "src" / "a.rt").write_text("another")
        lines, status, _ = self.make("JOBS=2", "VERBOSE=1")
        self.check("a change is proved, by as many as are named", (status, self.calls()[-1].split(":")[0]), (0, "2"))
        self.check("all that rt says", "rt: low is kept: an earlier run on this machine proved the same files over the same libraries" in lines, True)
        (self.tree / "crates" / "initd" / "out" / "initd").write_text("damaged")
        self.make()
        self.check("a program that was changed is built again", len(self.calls()), 3)

    def test_a_failure(self):
        (self.bin / "fails").write_text("high")
        lines, status, errors = self.make()
        self.check("the status", (status, "Error 1" in errors), (2, True))
        self.check("its name", "high isn't proved. rt said at last:" in lines, True)
        self.check("the end of what rt said", "    high.rt:1:1: it is not proved that it ends" in lines, True)
        self.check("not all of it", "    fn high::f1: proved" in lines, False)
        self.check("what doesn't stand on it is proved", any(line.startswith("initctl proved") for line in lines), True)
        self.check("what does isn't shown", any("initd isn't proved. rt" in line for line in lines), False)
        self.check("there are no programs", (self.tree / "crates" / "initd" / "out").exists(), False)
        (self.bin / "fails").unlink()
        lines, status, _ = self.make()
        self.check("mended, it goes on", (status, "low was proved before; 3 left, about 2 minutes" in lines), (0, True))

    def test_an_interrupt(self):
        (self.bin / "waits").write_text("")
        child = subprocess.Popen([self.tree / "tools" / "build"], stdin=subprocess.DEVNULL, stdout=subprocess.PIPE, text=True, **self.how)
        self.check("it works", (wait_for(lambda: self.calls()), len(self.living())), (True, 1))
        child.send_signal(signal.SIGINT)
        said = child.communicate(timeout=30 * PATIENCE)[0]
        self.check("it ends, and says how to go on", (child.returncode, "the next call goes on" in said), (130, True))
        self.check("nothing is left", os.listdir(self.rooms), [])
        self.check("rt ended, too", self.living(), [])
        (self.bin / "waits").unlink()
        self.check("called again it builds", self.make()[1], 0)

    def test_other_ends(self):
        for name, words, wanted in (
            ("no number", ["JOBS=many"], "JOBS=many is no number of jobs\n"),
            ("none", ["JOBS=0"], "JOBS=0 is no number of jobs\n"),
        ):
            self.check(name, self.make(*words)[2].splitlines(True)[0], wanted)
        (self.bin / "rt").unlink()
        self.how["env"]["PATH"] = f"{self.bin}:/usr/bin:/bin"
        if not shutil.which("rt", path=self.how["env"]["PATH"]):
            self.check("no rt", self.make()[2].splitlines()[0], "There is no `rt` on the path, the toolchain of Rattle: README.md says which.")

    def test_what_make_would_do(self):
        made = ran(["make", "-n", "demo"], **self.how)
        wanted = ["JOBS='' VERBOSE='' tools/build", "crates/initd/out/initd < examples/one-service.bundle"]
        self.check("make -n demo", made.stdout.splitlines(), wanted)
        self.check("nothing was called", self.calls(), [])
        self.make()
        self.check("make clean", (self.make("clean")[1], (self.tree / "out").exists(), (self.tree / "crates" / "low" / "out").exists()), (0, False, False))
        self.check("and no file of the tree", (self.tree / "crates" / "low" / "src" / "a.rt").exists(), True)
        for goal, wanted in (("check", ["tests/gate"]), ("test", ["tests/programs "])):
            self.check(f"make {goal}", ran(["make", "-n", goal], **self.how).stdout.splitlines(), wanted)


class Packing(Case):
    """What `make dist` and `make install` do with the programs."""

    installed = [
        "usr/sbin/initctl",
        "usr/sbin/initd",
        "usr/sbin/stop-in-order",
        "usr/share/bash-completion/completions/initctl",
        "usr/share/bash-completion/completions/initd",
        "usr/share/doc/tadrovec/LICENSE-APACHE",
        "usr/share/doc/tadrovec/LICENSE-MIT",
        "usr/share/man/man5/init.5",
        "usr/share/man/man8/initctl.8",
        "usr/share/man/man8/initd.8",
    ]

    def files(self, folder):
        return sorted(str(path.relative_to(folder)) for path in folder.rglob("*") if path.is_file())

    def test_installation(self):
        """What is copied, and that it is taken away again."""

        def make(goal):
            return ran(["make", "-s", "-C", TOP, goal, f"DESTDIR={self.work}", "PREFIX=/usr"]).returncode

        self.check("make install", (make("install"), self.files(self.work)), (0, self.installed))
        self.check("again", (make("install"), self.files(self.work)), (0, self.installed))
        self.check("make uninstall", (make("uninstall"), self.files(self.work)), (0, []))

    def test_a_package(self):
        version = (TOP / "VERSION").read_text().strip()
        sums = []
        for folder in (self.work / "one", self.work / "two"):
            folder.mkdir()
            made = ran([TOP / "tools" / "dist", folder])
            self.check(f"{folder.name}: it is packed", (made.returncode, made.stderr), (0, ""))
            sums.append(hashlib.sha256((folder / os.path.basename(made.stdout.strip())).read_bytes()).hexdigest())
        self.check("the same bytes each time", sums[0], sums[1])
        name = f"tadrovec-{version}-linux-{os.uname().machine}"
        self.check("its name", os.listdir(self.work / "one"), [f"{name}.tar.gz"])
        with tarfile.open(self.work / "one" / f"{name}.tar.gz") as tar:
            self.check("nobody's name, one time", {(it.uid, it.gid, it.uname, it.gname, it.mtime) for it in tar}, {(0, 0, "", "", 1796083200)})
            tar.extractall(self.work)
        to = self.work / "installed"
        how = {"cwd": self.work, "env": {"PATH": "/usr/bin:/bin", "PREFIX": "/usr", "DESTDIR": str(to)}}
        self.check("it installs without rt", (ran([self.work / name / "install"], **how).returncode, self.files(to)), (0, self.installed))
        self.check("what runs", ran([to / "usr/sbin/initd", "check", TOP / "examples" / "recipes" / "service-at-boot"]).stdout, "1 jobs, 0 faults\n")
        self.check("it uninstalls", (ran([self.work / name / "install", "--uninstall"], **how).returncode, self.files(to)), (0, []))
        self.check("the changelog begins with this version", f"\n\n## {version} (" in (TOP / "CHANGELOG.md").read_text()[:60], True)
