"""The gate itself, with other programs in the place of those that it runs: what it counts, and that it ends, and leaves nothing, in any case."""
import os
import resource
import shutil
import signal
import subprocess
import time

from harness import PATIENCE, TOP, Case, ran, wait_for

PARTS = ("tests/programs", "bench/faults", "bench/soak", "tests/slips", "tests/wrong-bodies")
ONE = "echo 1 passed, 0 failed"


def few_bytes():
    """No file becomes larger than this: a write ends there as on a full disk."""
    signal.signal(signal.SIGXFSZ, signal.SIG_IGN)
    resource.setrlimit(resource.RLIMIT_FSIZE, (20_000, 20_000))


class Gate(Case):
    def setUp(self):
        super().setUp()
        self.tree, self.rooms, self.bin = (self.work / name for name in ("tree", "rooms", "bin"))
        for folder in (self.rooms, self.bin, self.tree / "tests", self.tree / "bench", self.tree / "crates" / "a" / "must-fail"):
            folder.mkdir(parents=True)
        shutil.copy(TOP / "tests" / "gate", self.tree / "tests")
        (self.tree / "crates" / "a" / "must-fail" / "x.edit").write_text("")
        self.script(self.tree / "tests" / "speed", "exec sleep 1000")

    def script(self, path, text):
        path.write_text(f"#!/bin/bash\n{text}\n")
        path.chmod(0o755)

    def gate(self, rt=ONE, **parts):
        """The words and the environment of a gate whose parts do this, named as `programs` or `wrong_bodies`; each of the others passes one test."""
        for path in PARTS:
            self.script(self.tree / path, parts.get(path.split("/")[1].replace("-", "_"), ONE))
        self.script(self.bin / "rt", rt)
        for words in (["init", "-q"], ["add", "-A"]):
            ran(["git", "-C", self.tree, *words])
        how = {**os.environ, "TMPDIR": str(self.rooms), "PATH": f"{self.bin}:{os.environ['PATH']}"}
        return {"args": [self.tree / "tests" / "gate"], "env": how, "cwd": self.work}

    def ended(self, **parts):
        """The last line of a gate, its status, and what it left."""
        how = self.gate(**parts)
        made = ran(how.pop("args"), **how)
        return made.stdout.splitlines()[-1], made.returncode, os.listdir(self.rooms)

    def test_counts(self):
        for name, parts, last, status in (
            ("all passed", {}, "6 passed, 0 failed", 0),
            ("numbers that begin with 0", {"rt": "echo 08 passed, 09 failed; exit 1"}, "13 passed, 9 failed", 1),
            ("a failure without a status", {"programs": "echo 5 passed, 2 failed"}, "10 passed, 2 failed", 1),
            ("a status without a failure", {"faults": "echo 5 passed, 0 failed; exit 3"}, "10 passed, 1 failed", 1),
            ("nothing counted", {"soak": "exit 0"}, "5 passed, 1 failed", 1),
            ("none passed", {"slips": "echo 0 passed, 0 failed"}, "5 passed, 1 failed", 1),
            ("a number that is none", {"programs": "echo 99999999999999999999 passed, 0 failed"}, "5 passed, 1 failed", 1),
            ("a wrong body isn't refused", {"wrong_bodies": "echo 3 passed, 1 failed; exit 1"}, "8 passed, 1 failed", 1),
            ("wrong bodies are killed", {"wrong_bodies": "kill -9 $$"}, "5 passed, 1 failed", 1),
        ):
            self.check(name, self.ended(**parts), (last, status, []))

    def test_what_is_skipped_is_printed(self):
        how = self.gate(programs="echo 'SKIP: a page: there is no groff'; echo 5 passed, 0 failed, 2 skipped")
        made = ran(how.pop("args"), **how)
        lines = made.stdout.splitlines()
        # It comes in the log, and once more at the end.
        found = lines.count("SKIP: a page: there is no groff"), *lines[-2:]
        self.check("it is among the last lines", found, (2, "2 skipped", "10 passed, 0 failed"))
        self.check("and no failure", made.returncode, 0)

    def test_what_git_tracks_alone_counts(self):
        how = self.gate(rt='[[ ! -e other && ! -e crates/a/must-fail ]] && echo 1 passed, 0 failed')
        (self.tree / "other").write_text("")
        made = ran(how.pop("args"), **how)
        self.check("a file that git doesn't track isn't there", (made.stdout.splitlines()[-1], made.returncode), ("6 passed, 0 failed", 0))
        (self.tree / "crates" / "a" / "must-fail" / "x.edit").unlink()
        how = self.gate()
        ran(["git", "-C", self.tree, "rm", "-q", "--cached", "bench/soak"])
        made = ran(how.pop("args"), **how)
        self.check("nor is a part of the gate", (made.stdout.splitlines()[-1], made.returncode), ("5 passed, 1 failed", 1))

    def test_a_full_disk(self):
        """The log of `rt ci` can't be written, for whose last line the wrong bodies wait."""
        waits = 'while [[ "$(tail -n 1 "${@: -1}")" != *passed* ]]; do sleep 0.1; done; echo 1 passed, 0 failed'
        self.check("while it is not full", self.ended(wrong_bodies=waits), ("6 passed, 0 failed", 0, []))
        for name, size in (("the log can't be written", "30000"), ("the copies can't be made", "0")):
            rt = f"head -c {size} /dev/zero | tr '\\0' '\\n'; echo 1 passed, 0 failed"
            if size == "0":
                (self.tree / "large").write_bytes(bytes(30_000))
            last, status, left = self.ended_on_a_full_disk(rt=rt, wrong_bodies=waits)
            self.check(name, (last.endswith(" 0 failed"), status, left), (False, 1, []))

    def ended_on_a_full_disk(self, **parts):
        how = self.gate(**parts)
        made = ran(how.pop("args"), preexec_fn=few_bytes, **how)
        return made.stdout.splitlines()[-1], made.returncode, os.listdir(self.rooms)

    def test_what_a_part_leaves_behind(self):
        """It ends with the part, whose output it would hold open."""
        begun = time.monotonic()
        found = self.ended(programs="sleep 1000 & echo 4 passed, 0 failed", slips="(trap '' TERM; sleep 1000) & echo 2 passed, 0 failed")
        self.check("it is ended", (found, time.monotonic() - begun < 20 * PATIENCE), (("10 passed, 0 failed", 0, []), True))

    def test_a_limit_of_time(self):
        """Each part has one, which is shorter here."""
        self.script(self.bin / "timeout", 'exec /usr/bin/timeout -k 1 1 "${@:4}"')
        for part in ("rt", "programs", "wrong_bodies"):
            begun = time.monotonic()
            last, status, left = self.ended(**{part: "trap '' TERM; sleep 1000 & wait; sleep 1000"})
            self.check(f"{part} is ended", (last, status, left, time.monotonic() - begun < 20 * PATIENCE), ("5 passed, 1 failed", 1, [], True))

    def test_a_gate_that_is_killed(self):
        """What it began ends with it, and its room is gone."""
        pids = self.work / "pids"
        signals = signal.SIGTERM, signal.SIGINT, signal.SIGHUP
        # (what is started in the background may ignore some)
        heed = lambda: [signal.signal(number, signal.SIG_DFL) for number in signals]
        for number in signals:
            pids.write_text("")
            how = self.gate(rt=f"echo $$ >> {pids}; exec sleep 1000", wrong_bodies=f"echo $$ >> {pids}; exec sleep 1000")
            with subprocess.Popen(how.pop("args"), stdout=subprocess.DEVNULL, start_new_session=True, preexec_fn=heed, **how) as child:
                wait_for(lambda: len(pids.read_text().split()) == 2)
                child.send_signal(number)
                status = child.wait(40 * PATIENCE)
            gone = wait_for(lambda: not any(os.path.exists(f"/proc/{pid}") for pid in pids.read_text().split()), 5)
            self.check(f"a gate that gets {number.name}", (status != 0, gone, os.listdir(self.rooms)), (True, True, []))
