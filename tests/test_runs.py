"""Runs over a folder of real services: what clients are answered, crashes, signals, and that the replay of a record prints what the run told."""
import os
import signal

from harness import SEARCHED, Case, initd, wait_for, without_comments, write

FILES = {
    "clock.conf": "start on startup\nrespawn\nexec sleep 1000\n",
    "web.conf": "start on go\nstop on halt\nexec sleep 1001\n",
    "once.conf": "task\nexec /bin/true\n",
    "bad.conf": "task\nexec /bin/false\n",
    "gone.conf": "exec no-such-program\n",
    "text.conf": "exec /etc/hostname\n",
    "away.conf": "chdir /no/such/folder\nexec sleep 1002\n",
    "tty.conf": "instance $TTY\nexport TTY\nexec sleep 1003\n",
    "loop.conf": "respawn\nrespawn limit 3 60\nconsole none\nexec /bin/false\n",
}


def catcher(work, name, stanza, signal_name):
    """A service that makes a file once it catches a signal, and another for each one that it catches."""
    ready, caught = work / f"{name}.ready", work / f"{name}.caught"
    return f"{stanza}script\n  trap 'echo {signal_name} >> {caught}' {signal_name}\n  : > {ready}\n  while :; do sleep 0.05; done\nend script\n"


class Runs(Case):
    def setUp(self):
        super().setUp()
        self.folder = self.work / "jobs"
        write(self.folder, FILES)

    def clients(self, run):
        """What the init answers, request by request."""
        self.check("version", run.ask("version"), ("init (upstart profile 1)\n", 0))
        self.check("startup starts a service", wait_for(lambda: run.pid("clock")), True)
        self.check("status of a service", run.ask("status", "clock"), ("clock start/running, process PID\n", 0))
        self.check("start", run.ask("start", "web"), ("web start/running, process PID\n", 0))
        self.check("start of what runs", run.ask("start", "web"), ("initctl: Job is already running: web\n", 1))
        first = run.pid("web")
        self.check("restart", run.ask("restart", "web"), ("web start/running, process PID\n", 0))
        self.check("restart is another process", run.pid("web") != first, True)
        self.check("stop", run.ask("stop", "web"), ("web stop/waiting\n", 0))
        self.check("stop of what is stopped", run.ask("stop", "web"), ("initctl: Unknown instance: web\n", 1))
        self.check("emit starts", run.ask("emit", "go"), ("", 0))
        self.check("emitted service runs", run.ask("status", "web"), ("web start/running, process PID\n", 0))
        self.check("emit stops", run.ask("emit", "--no-wait", "halt"), ("", 0))
        self.check("it is stopped", wait_for(lambda: run.ask("status", "web")[0] == "web stop/waiting\n"), True)
        self.check("a task", run.ask("start", "once"), ("once stop/waiting\n", 0))
        self.check("a task that fails", run.ask("start", "bad"), ("initctl: Job failed to start\n", 1))
        self.check("an unknown job", run.ask("start", "nobody"), ("initctl: Unknown job: nobody\n", 1))
        self.check("a missing parameter", run.ask("start", "tty"), ("initctl: Unknown parameter: TTY\n", 1))
        self.check("an instance", run.ask("start", "tty", "TTY=one two"), ("tty (one two) start/running, process PID\n", 0))
        self.check("stop of an instance", run.ask("stop", "tty", "TTY=one two"), ("tty (one two) stop/waiting\n", 0))
        self.check("reload of what is stopped", run.ask("reload", "web"), ("initctl: Unknown instance: web\n", 1))
        self.check("reload of an unknown job", run.ask("reload", "nobody"), ("initctl: Unknown job: nobody\n", 1))
        self.check("reload of an instance without its parameter", run.ask("reload", "tty"), ("initctl: Unknown parameter: TTY\n", 1))

    def programs_that_fail(self, run):
        for name, what in [("gone", "a missing program"), ("text", "a program that can't be executed"), ("away", "a missing folder")]:
            self.check(f"{what} fails the job", run.ask("start", name), ("initctl: Job failed to start\n", 1))
            self.check(f"{what}: the job is stopped", run.ask("status", name), (f"{name} stop/waiting\n", 0))

    def crashes(self, run):
        first = run.pid("clock")
        os.kill(first, signal.SIGKILL)
        self.check("a crashed service is started again", wait_for(lambda: run.pid("clock") not in (None, first)), True)
        run.ask("start", "--no-wait", "loop")
        self.check("a respawn limit is reached", wait_for(lambda: run.ask("status", "loop")[0] == "loop stop/waiting\n"), True)

    def lists(self, run):
        lines = run.ask("list")[0].splitlines()
        wanted = [f"{name} stop/waiting" for name in ["away", "bad", "gone", "loop", "once", "text", "tty", "web"]]
        self.check("list", sorted(lines), sorted(wanted + ["clock start/running, process PID"]))

    def test_a_run(self):
        """A run over a folder, told and recorded; and the replay of its record."""
        record = self.work / "run.record"
        with self.running("run", self.folder, "--verbose", "--record", record) as run:
            self.clients(run)
            self.programs_that_fail(run)
            self.crashes(run)
            self.lists(run)
            second = initd("run", self.folder, run.socket)
            self.check("a socket that is there", second, (f"initd: cannot use {run.socket}\n", 3))
        told = run.out.read_text()
        head = record.read_text().splitlines()[:2]
        self.check("the record begins with its command", head, [f"# initd replay {self.folder} {record} --env {SEARCHED}", "emit startup"])
        replayed = initd("replay", self.folder, record, "--env", SEARCHED)
        self.check("the replay of the record prints what was told", replayed, (without_comments(told), 0))
        self.check("much was told", len(told.splitlines()) > 100, True)

    def test_a_refused_record(self):
        """A value that no step can say ends the record, and not the run."""
        record = self.work / "short.record"
        with self.running("short", self.folder, "--record", record) as run:
            self.check("a value with a line feed", run.ask("emit", "--no-wait", "x", "A=1\n2"), ("", 0))
            self.check("the run goes on", run.ask("start", "once"), ("once stop/waiting\n", 0))
            last = record.read_text().splitlines()[-1]
            wanted = '# The record ends: no statement of a script can express this input: request 1 emit "x" A="1\\n2"'
            self.check("the record says that it ends, and what came", last, wanted)

    def test_reloads(self):
        """Services that catch their reload signal go on, and the client is told when it was sent."""
        folder = self.work / "reloads"
        jobs = {"hup": ("", "HUP"), "usr": ("reload signal USR1\n", "USR1")}
        write(folder, {f"{name}.conf": catcher(self.work, name, *how) for name, how in jobs.items()})
        write(folder, {"late.conf": "post-start exec sleep 1004\nexec sleep 1005\n"})
        with self.running("reloads", folder) as run:
            for name, (_, signal_name) in jobs.items():
                self.check(f"{name} is started", run.ask("start", name), (f"{name} start/running, process PID\n", 0))
                self.check(f"{name} is ready", wait_for((self.work / f"{name}.ready").exists), True)
                first = run.pid(name)
                self.check(f"reload of {name}", run.ask("reload", name), ("", 0))
                caught = self.work / f"{name}.caught"
                self.check(f"{name} catches {signal_name}", wait_for(lambda: caught.exists() and caught.read_text()), True)
                self.check(f"{name} caught it once", caught.read_text(), f"{signal_name}\n")
                self.check(f"{name} goes on", run.pid(name), first)
            self.check("a service that isn't up yet", run.ask("start", "--no-wait", "late"), ("late start/starting\n", 0))
            self.check("it is in post-start", wait_for(lambda: "post-start" in run.ask("status", "late")[0]), True)
            self.check("reload of it", run.ask("reload", "late"), ("initctl: Job is not running: late\n", 1))
