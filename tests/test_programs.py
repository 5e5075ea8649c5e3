"""tests/programs itself: what it counts, and that it fails where a test does, where none ran, and where a file of tests compares less than before."""
import contextlib
import os
import pathlib
import shutil
import subprocess

from harness import PATIENCE, TOP, Case, ran, wait_for, write

TESTS = """
import unittest

class Some(unittest.TestCase):
    def test_parts(self):
        for number in range(4):
            with self.subTest(number):
                if number == SKIPPED:
                    self.skipTest("there is no such number")
                self.assertNotEqual(number, WRONG)

    def test_whole(self):
        if BROKEN:
            raise ValueError

    @unittest.expectedFailure
    def test_known(self):
        self.assertTrue(MENDED)
"""
GOOD = {"SKIPPED": None, "WRONG": None, "BROKEN": False, "MENDED": False}


class Programs(Case):
    def counted(self, names=(), floors="test_some 6", **how):
        """The last line of a run, and its status."""
        values = "".join(f"{name} = {value}\n" for name, value in {**GOOD, **how}.items())
        write(self.work, {"test_some.py": values + TESTS, "floors": f"# a comment\n{floors}\n"})
        shutil.copy(TOP / "tests" / "programs", self.work)
        made = ran([self.work / "programs", *names])
        return made.stdout.splitlines()[-1], made.returncode

    def test_counts(self):
        for name, how, wanted in (
            ("all", {}, ("5 passed, 0 failed, 1 skipped", 0)),
            ("one of several", {"WRONG": 2}, ("4 passed, 1 failed, 1 skipped", 1)),
            ("one is skipped", {"SKIPPED": 2}, ("4 passed, 0 failed, 2 skipped", 0)),
            ("one is broken", {"BROKEN": True}, ("4 passed, 1 failed, 1 skipped", 1)),
            ("one is mended that was known to fail", {"MENDED": True}, ("5 passed, 1 failed", 1)),
            ("a table is lost", {"floors": "test_some 7"}, ("5 passed, 1 failed, 1 skipped", 1)),
            ("a file is lost", {"floors": "test_some 6\ntest_other 1"}, ("5 passed, 1 failed, 1 skipped", 1)),
            ("a file has no floor", {"floors": ""}, ("5 passed, 1 failed, 1 skipped", 1)),
            ("one by its name", {"names": ["test_some.Some.test_whole"], "floors": ""}, ("1 passed, 0 failed", 0)),
            ("skipped alone", {"names": ["test_some.Some.test_known"]}, ("0 passed, 0 failed, 1 skipped", 1)),
            ("no such name", {"names": ["test_none"]}, ("0 passed, 1 failed", 1)),
            ("a file that can't be read", {"SKIPPED": "("}, ("0 passed, 2 failed", 1)),
        ):
            self.check(name, self.counted(**how), wanted)

    def test_one_that_is_stopped(self):
        """What it began ends with it, and nothing is left."""
        words = [TOP / "tests" / "programs", "test_faults.Clients.test_patient_inits"]
        with subprocess.Popen(words, env={**os.environ, "TMPDIR": str(self.work)}, stdout=subprocess.DEVNULL, stderr=subprocess.DEVNULL) as child:
            self.check("its inits run", wait_for(lambda: len(list(self.work.glob("*/*.socket"))) == 2), True)
            child.terminate()
            self.check("it ends and fails", child.wait(30 * PATIENCE) != 0, True)
        left = []
        for path in pathlib.Path("/proc").glob("[0-9]*/cmdline"):
            with contextlib.suppress(OSError):
                left += [line for line in [path.read_bytes()] if bytes(self.work) in line]
        self.check("no process is left", left, [])
        self.check("nor a file", os.listdir(self.work), [])
