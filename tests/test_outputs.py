"""Each command of both programs where its output can't be written: a full device, a pipe that nobody reads, and no standard output at all.

initd then ends with status 3 and initctl with 1 (initd(8) and initctl(8), "Exit status"). An initd that was started without standard output has the
null device there, so that its status is that of the command.
"""
import os

from harness import INITCTL, INITD, TOP, Case, ran, write

FILES = {
    "jobs/a.conf": "start on startup\nexec sleep 1000\n",
    "jobs/b.conf": "exec sleep 1000\n",
    "old/a.conf": "start on startup\nexec sleep 1001\n",
    "faulty/a.conf": "start onn x\n",
    "faulty/b.conf": "exec sleep 1000\n",
    "up.script": 'emit startup\nturn 4\nclock 9\nspawned a "" main 100\nturn 4\n',
}
# The words of each command that prints something, and its status; %s is the socket of a run.
PRINTED = {
    "check jobs": 0,
    "check faulty": 1,
    "check --explain faulty": 1,
    "check jobs --against old": 1,
    "graph jobs": 0,
    "lint jobs": 1,
    "compile jobs again.image": 0,
    "show jobs.image": 0,
    "replay jobs up.script": 0,
    "replay --bundle a.bundle": 0,
    "chart jobs up.script": 0,
    "blame jobs up.script": 0,
    "run faulty %s --rounds 2": 1,
    "--help": 0,
    "--version": 0,
    "run --help": 0,
}
# Those of a client: what it prints by itself, replies in the order in which they are asked for, and requests whose reply has no text.
OWN = ["", "--help", "--version", "help start"]
REPLIES = ["version", "list", "status a", "start b", "restart b", "stop b", "start --no-wait b", "stop --no-wait b"]
SILENT = ["reload-configuration", "emit --no-wait go"]


def broken(words, cwd, kind):
    """The status of a command whose output can't be written."""
    if kind == "closed":
        return ran(words, cwd=cwd, stdout=None, preexec_fn=lambda: os.close(1)).returncode
    if kind == "full":
        with open("/dev/full", "wb") as full:
            return ran(words, cwd=cwd, stdout=full).returncode
    reader, writer = os.pipe()
    os.close(reader)
    try:
        return ran(words, cwd=cwd, stdout=writer).returncode
    finally:
        os.close(writer)


class Outputs(Case):
    def setUp(self):
        super().setUp()
        write(self.work, FILES)
        bundle = f"%file a.conf\n{FILES['jobs/a.conf']}%script\n{FILES['up.script']}"
        write(self.work, {"a.bundle": bundle})
        self.assertEqual(ran([INITD, "compile", "jobs", "jobs.image"], cwd=self.work).returncode, 0)

    def test_initd(self):
        for place, (line, status) in enumerate(PRINTED.items()):
            for kind, wanted in (("full", 3), ("unread", 3), ("closed", status)):
                words = line.replace("%s", f"{place}-{kind}").split()
                self.check(f"initd {line}, {kind}", broken([INITD, *words], self.work, kind), wanted)
            words = line.replace("%s", f"{place}").split()
            found = ran([INITD, *words], cwd=self.work)
            self.check(f"initd {line} prints something", (found.stdout != "", found.returncode), (True, status))

    def test_a_bundle(self):
        with open(TOP / "examples" / "one-service.bundle", "rb") as bundle, open("/dev/full", "wb") as full:
            self.assertEqual(ran([INITD], stdin=bundle, stdout=full).returncode, 3)

    def test_a_run_goes_on(self):
        """What --verbose prints can be lost; the init says so and goes on."""
        with open("/dev/full", "wb") as full, self.running("full", self.work / "jobs", "--verbose", stdout=full) as run:
            self.check("it answers", run.ask("start", "b"), ("b start/running, process PID\n", 0))
            wanted = "initd: the output of --verbose isn't printed any more: No space left on device\n"
            self.check("it says so once", run.err.read_text(), wanted)

    def test_initctl(self):
        with self.running("client", self.work / "jobs") as run:
            for kind in ("full", "unread", "closed"):
                for line in OWN:
                    self.check(f"initctl {line}, {kind}", broken([INITCTL, *line.split()], self.work, kind), 1)
                for line in REPLIES if kind != "closed" else []:
                    self.check(f"initctl {line}, {kind}", broken([INITCTL, "--socket", run.socket, *line.split()], self.work, kind), 1)
                for line in SILENT:
                    self.check(f"initctl {line}, {kind}", broken([INITCTL, "--socket", run.socket, *line.split()], self.work, kind), 0)

    def test_a_reply_without_standard_output(self):
        """The socket doesn't get the descriptor of the standard output: the text can't be printed."""
        with self.running("closed", self.work / "jobs") as run:
            found = {line: broken([INITCTL, "--socket", run.socket, *line.split()], self.work, "closed") for line in REPLIES}
        self.assertEqual(found, dict.fromkeys(REPLIES, 1))
