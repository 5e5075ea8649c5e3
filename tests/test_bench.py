"""bench/faults itself: programs that fail, or ask for no memory, don't pass, and a request that is refused is noticed."""
import shutil

from harness import INITCTL, INITD, TOP, Case, ran

# Asks for memory three times, and then does what the program does. Where a request is refused it ends with the status that it was built with.
PROGRAM = r"""
#include <signal.h>
#include <stdlib.h>
#include <sys/prctl.h>
#include <sys/wait.h>
#include <unistd.h>
int main(int count, char **words) {
    int status, child;
    for (int size = 1; size < 4; size++)
        if (!malloc(size)) return REFUSED;
    child = fork();
    if (!child) {
        prctl(PR_SET_PDEATHSIG, SIGKILL);
        execv(INSTEAD, words);
        _exit(99);
    }
    waitpid(child, &status, 0);
    return WIFEXITED(status) ? WEXITSTATUS(status) : 98;
}
"""


class Faults(Case):
    def setUp(self):
        super().setUp()
        self.tree = self.work / "tree"
        for part in ("bench", "examples", "tests/rows"):
            shutil.copytree(TOP / part, self.tree / part)
        (self.work / "program.c").write_text(PROGRAM)

    def tried(self, name, initd, initctl):
        """The last line of a trial of these programs, and its status. A number stands for the built one, which ends so if it is refused."""
        for path, how in ((INITD, initd), (INITCTL, initctl)):
            program = self.tree / path.relative_to(TOP)
            program.parent.mkdir(parents=True, exist_ok=True)
            if isinstance(how, int):
                words = ["cc", "-Wno-unused-result", "-O0", f"-DREFUSED={how}", f'-DINSTEAD="{path}"', "-o", program, self.work / "program.c"]
                self.assertEqual(ran(words).returncode, 0)
            else:
                shutil.copy(how, program)
        made = ran([self.tree / "bench" / "faults", "--short", *name])
        return made.stdout.splitlines()[-1], made.returncode

    def test_other_programs(self):
        # One run each of a bundle, of check, compile, show and run, and five of the client, with three requests each.
        for name, words, programs, wanted in (
            ("programs that check", ("crashing-service", "initctl"), (4, 4), ("30 passed, 0 failed", 0)),
            ("an initd that doesn't", ("crashing-service",), (5, 4), ("0 passed, 15 failed", 1)),
            ("an initctl that doesn't", ("initctl",), (4, 5), ("0 passed, 15 failed", 1)),
            ("an initd that fails", ("crashing-service",), ("/bin/false", 4), ("0 passed, 5 failed", 1)),
            ("an initd that does nothing", ("crashing-service",), ("/bin/true", 4), ("0 passed, 5 failed", 1)),
            ("an initctl that fails", ("initctl",), (4, "/bin/false"), ("0 passed, 5 failed", 1)),
            ("an initctl that does nothing", ("initctl",), (4, "/bin/true"), ("0 passed, 5 failed", 1)),
            ("no run", ("no such run",), (4, 4), ("0 passed, 0 failed", 1)),
        ):
            with self.subTest(name):
                if not shutil.which("cc"):
                    self.skipTest("there is no cc")
                self.assertEqual(self.tried(words, *programs), wanted)
