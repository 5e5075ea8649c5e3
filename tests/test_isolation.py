"""That a job does the same beside other jobs, at random: tests/isolation."""
import contextlib
import importlib.machinery
import importlib.util
import io
import sys
import unittest.mock

from harness import TOP, Case, ran

PROGRAM = TOP / "tests" / "isolation"


class Isolation(Case):
    def test_at_random(self):
        made = ran([PROGRAM], seconds=300)
        # It prints its seed, by which it can be run again.
        self.assertEqual((made.returncode, made.stderr), (0, ""), made.stdout)

    def test_nothing_is_compared(self):
        """Pairs that don't differ since nothing came in them don't pass."""
        loader = importlib.machinery.SourceFileLoader("isolation", str(PROGRAM))
        isolation = importlib.util.module_from_spec(importlib.util.spec_from_loader("isolation", loader))
        loader.exec_module(isolation)
        enough = {name: 100 * floor for name, floor in isolation.FLOORS.items()}
        cases = {"enough": (enough, 0), "nothing": ({}, 1), **{f"no {name}": ({**enough, name: 0}, 1) for name in enough}}
        for name, (found, status) in cases.items():
            isolation.try_pair = lambda seed, counts: counts.update(found) or True
            with self.subTest(name), unittest.mock.patch.object(sys, "argv", ["isolation", "1", "100"]), contextlib.redirect_stdout(io.StringIO()):
                with self.assertRaises(SystemExit) as end:
                    isolation.main()
                self.assertEqual(end.exception.code, status)
