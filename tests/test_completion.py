"""The completions of bash, with an initctl in the place of the built one; and the manual pages."""
import os
import shlex
import shutil

from harness import TOP, Case, ran

LISTED = "clock start/running, process 12\ntty (tty1) start/running, process 13\ntty (tty2) stop/waiting\nweb stop/waiting\n"


class Completion(Case):
    def completed(self, program, *words):
        """What bash offers for the last of these words."""
        line = " ".join(shlex.quote(word) for word in (program, *words))
        script = (
            f"source {shlex.quote(str(TOP / 'completion' / program))}\n"
            f"COMP_WORDS=({line}) COMP_CWORD={len(words)}\n_{program}\nprintf '%s\\n' \"${{COMPREPLY[@]}}\"\n"
        )
        path = f"{self.work}:{os.environ['PATH']}"
        return ran(["bash", "-c", script], seconds=20, cwd=self.work, env={**os.environ, "PATH": path}).stdout.split()

    def test_completions(self):
        (self.work / "jobs").mkdir()
        (self.work / "jobs.image").write_text("")
        fake = self.work / "initctl"
        # It lists only if it is asked at the socket that was named, or at none.
        fake.write_text(f"#!/bin/sh\ncase \"$*\" in list|'--socket s list') printf '%b' {shlex.quote(LISTED)};; *) exit 2;; esac\n")
        fake.chmod(0o755)
        for words, wanted in [
            (["sta"], ["start", "status"]),
            (["--"], ["--socket", "--help", "--version"]),
            (["start", ""], ["clock", "tty", "web"]),
            (["stop", "--no-wait", "t"], ["tty"]),
            (["--socket", "s", "status", "w"], ["web"]),
            (["--socket", "=", "s", "status", "w"], ["web"]),
            (["--socket", "else", "status", "w"], []),
            (["--socket", "jobs.i"], ["jobs.image"]),
            (["restart", "--"], ["--no-wait", "--help"]),
            (["status", "--"], ["--help"]),
            (["start", "tty", ""], []),
            (["emit", "--n"], ["--no-wait"]),
            (["help", "reload"], ["reload", "reload-configuration"]),
        ]:
            self.check(f"initctl {' '.join(words)}", self.completed("initctl", *words), wanted)
        for words, wanted in [
            (["re"], ["replay"]),
            (["c"], ["chart", "check", "compile"]),
            (["blame", "j"], ["jobs", "jobs.image"]),
            (["check", "j"], ["jobs"]),
            (["graph", "j"], ["jobs"]),
            (["show", "j"], ["jobs", "jobs.image"]),
            (["run", "--record"], ["--record", "--record-over"]),
            (["run", "--pause", ""], []),
            (["check", "--"], ["--against", "--explain", "--help"]),
            (["check", "jobs", "--against", "j"], ["jobs", "jobs.image"]),
            (["lint", "--"], ["--allow", "--event", "--help"]),
            (["lint", "--allow", "un"], ["unknown-event", "unknown-job", "unset-export"]),
            (["lint", "--allow", "ne"], ["never-started", "never-stopped"]),
            (["lint", "--event", ""], []),
            (["lint", "j"], ["jobs"]),
            (["chart", "--"], ["--bundle", "--help"]),
        ]:
            self.check(f"initd {' '.join(words)}", sorted(self.completed("initd", *words)), wanted)

    def test_pages(self):
        """groff formats the manual pages without a warning."""
        for page in sorted((TOP / "docs" / "man").iterdir()):
            with self.subTest(page.name):
                if not shutil.which("groff"):
                    self.skipTest("there is no groff")
                made = ran(["groff", "-ww", "-mandoc", "-Tutf8", page])
                self.assertEqual((made.returncode, made.stderr), (0, ""))
