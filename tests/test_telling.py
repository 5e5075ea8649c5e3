"""What a run tells: why jobs failed, its lines to a file, and to a pipe and a terminal that nobody reads, its record, and how it is stopped in order."""
import contextlib
import os
import pty
import re
import signal
import subprocess
import termios
import time
import tty

from harness import INITCTL, INITD, PATIENCE, SEARCHED, TOP, Case, initd, ran, wait_for, without_comments, write

FAILING = {
    "a.conf": "start on startup\nstop on shutdown\nexec sleep 1000\n",
    "says.conf": "exec echo hello\n",
    "silent.conf": "task\nconsole none\nexec /bin/true\n",
    "gone.conf": "exec no-such-program\n",
    "away.conf": "chdir /no/such/folder\nexec sleep 1002\n",
    "early.conf": "pre-start exec no-such-program\nexec sleep 1003\n",
    "bad.conf": "task\nexec /bin/false\n",
    "killed.conf": 'task\nexec sh -c "kill -9 $$"\n',
    "loop.conf": "instance $X\nrespawn\nrespawn limit 2 60\nexec /bin/false\n",
}
SAID = """\
initd: gone: main couldn't be started: No such file or directory
initd: away: main couldn't be started: No such file or directory
initd: early: pre-start couldn't be started: No such file or directory
initd: bad: main ended with status 1
initd: killed: main was killed by signal KILL
initd: loop (one two): respawning too fast, stopped
"""


def fail_all(run):
    for job in ["gone", "away", "early", "bad", "killed"]:
        run.ask("start", job)
    run.ask("start", "--no-wait", "loop", "X=one two")
    wait_for(lambda: run.ask("status", "loop", "X=one two")[1] == 1)


def read_all(reader, seconds=2):
    """What can be read, until nothing comes for some time."""
    os.set_blocking(reader, False)
    read = b""
    end = time.time() + seconds
    while time.time() < end:
        try:
            read += os.read(reader, 65_536)
            end = time.time() + seconds
        except BlockingIOError:
            time.sleep(0.01)
    return read


class Telling(Case):
    def setUp(self):
        super().setUp()
        self.folder = self.work / "failing"
        write(self.folder, FAILING)

    def test_failures(self):
        with self.running("failing", self.folder) as run:
            fail_all(run)
        self.check("why jobs failed", run.err.read_text(), SAID)
        with self.running("quiet", self.folder, "--quiet") as run:
            fail_all(run)
        self.check("a quiet run", run.err.read_text(), "")

    def test_an_image_and_a_file(self):
        """The lines of a run over an image go to a file, and the first line of the record replays them."""
        image, record, told = self.work / "an image", self.work / "it's a record", self.work / "told"
        self.check("compile", initd("compile", self.folder, image)[1], 0)
        with self.running("told", image, "--tell", told, "--record", record, "--quiet") as run:
            fail_all(run)
            run.ask("start", "says")
            run.ask("stop", "a")
        printed = run.out.read_text()
        self.check("what services print is apart", printed, "hello\n")
        first = record.read_text().splitlines()[0]
        quoted = f"{self.work}/it'\\''s a record"
        self.check("the first line quotes its paths", first, f"# initd replay '{image}' '{quoted}' --env {SEARCHED}")
        shell = f'initd() {{ "{INITD}" "$@"; }}\n{first[2:]}\n'
        again = ran(["sh", "-c", shell])
        self.check("the first line replays what was told", (again.stdout, again.returncode), (without_comments(told.read_text()), 0))
        self.check("much was told", len(told.read_text().splitlines()) > 50, True)
        broken = self.work / "broken image"
        broken.write_bytes(image.read_bytes()[:-1])
        self.check("replay of a broken image", initd("replay", broken, record), ("initd: 32 Truncated\n", 3))

    def test_nobody_reads(self):
        """A pipe that nobody reads holds nobody up, and how many lines were lost is said once it is read."""
        reader, writer = os.pipe()
        self.addCleanup(os.close, reader)
        with self.running("unread", self.folder, "--verbose", stdout=writer) as run:
            os.close(writer)
            wait_for(lambda: run.pid("a"))
            for number in range(60):
                run.ask("start", "silent", "A=" + "x" * 30_000)
            self.check("an init whose output nobody reads answers", run.ask("version")[1], 0)
            os.set_blocking(reader, False)
            read = b""
            end = time.time() + 10
            while time.time() < end and not run.err.read_text():
                try:
                    read += os.read(reader, 65_536)
                except BlockingIOError:
                    time.sleep(0.01)
            # What the pipe still has.
            with contextlib.suppress(BlockingIOError):
                while more := os.read(reader, 65_536):
                    read += more
            said = run.err.read_text()
            self.check("lost lines are counted", bool(re.fullmatch(r"initd: \d+ lines of output are lost: nothing read them in time\n", said)), True)
            self.check("the others are whole", read.endswith(b"\n") and len(read) > 500_000, True)

    def test_a_stopped_terminal(self):
        """A terminal that is stopped (stty(1), Control-S) holds nobody up, nor does one that nobody reads; its lines come later."""
        reader, terminal = pty.openpty()
        self.addCleanup(os.close, reader)
        self.addCleanup(os.close, terminal)
        tty.setraw(terminal)
        told = self.work / "terminal.told"
        termios.tcflow(terminal, termios.TCOOFF)
        with self.running("terminal", self.folder, "--verbose", "--tell", told, stdout=terminal) as run:
            wait_for(lambda: run.pid("a"))
            for number in range(10):
                run.ask("start", "silent", "A=" + "x" * 30_000)
            self.check("an init whose terminal is stopped answers", run.ask("version")[1], 0)
            termios.tcflow(terminal, termios.TCOON)
            for number in range(10):
                run.ask("start", "silent", "A=" + "y" * 30_000)
            self.check("one whose terminal nobody reads does too", run.ask("version")[1], 0)
            read = read_all(reader)
            self.check("all that it told comes once it is read", read.decode() == told.read_text() and len(read) > 500_000, True)

    def test_a_reader_that_goes(self):
        reader, writer = os.pipe()
        with self.running("gone", self.folder, "--verbose", stdout=writer) as run:
            os.close(writer)
            os.close(reader)
            self.check("an init whose reader went goes on", run.ask("start", "silent"), ("silent stop/waiting\n", 0))
            said = run.err.read_text()
            self.check("and says so once", (said.startswith("initd: the output of --verbose isn't printed any more: "), said.count("\n")), (True, 1))

    def test_services_keep_their_output(self):
        """An init that waits for no reader of its output leaves that of its services as it is: they wait."""
        folder = self.work / "prints"
        write(folder, {"prints.conf": "task\nexec sh -c \"head -c 300000 /dev/zero | tr '\\0' x\"\n"})
        reader, writer = os.pipe()
        self.addCleanup(os.close, reader)
        with self.running("prints", folder, "--verbose", stdout=writer) as run:
            os.close(writer)
            run.ask("start", "--no-wait", "prints")
            time.sleep(0.5)
            self.check("a service whose output nobody reads waits", "prints start/running" in run.ask("status", "prints")[0], True)
            read = read_all(reader)
            self.check("all that it wrote comes", (read.count(b"x") >= 300_000, run.ask("status", "prints")), (True, ("prints stop/waiting\n", 0)))

    def test_closed_descriptors(self):
        """Started with its standard descriptors closed, an init gives its files other numbers."""
        record = self.work / "closed.record"

        def close_all():
            for number in range(3):
                os.close(number)

        socket = self.work / "closed.socket"
        words = [INITD, "run", self.folder, socket, "--verbose", "--record", record]
        child = subprocess.Popen(words, preexec_fn=close_all)
        try:
            wait_for(lambda: record.exists() and "clock" in record.read_text())
            found = [os.readlink(f"/proc/{child.pid}/fd/{number}") for number in range(3)]
            self.check("the null device stands in", found, ["/dev/null"] * 3)
            self.check("the record is a record", record.read_text().startswith("# initd replay "), True)
            services = ran([INITCTL, "--socket", socket, "stop", "a"])
            self.check("the init answers", (services.stdout, services.returncode), ("a stop/waiting\n", 0))
        finally:
            child.terminate()
            status = child.wait(20 * PATIENCE)
        self.check("it lived until it was ended", status, -signal.SIGTERM)

    def test_stopped_in_order(self):
        socket = self.work / "order.socket"
        words = [TOP / "examples" / "stop-in-order", socket, INITD, "run", self.folder, socket]
        how = {"env": {**os.environ, "INITCTL": str(INITCTL)}, "stdout": subprocess.DEVNULL, "stderr": subprocess.PIPE}
        child = subprocess.Popen(words, text=True, **how)
        pid = None

        def runs():
            nonlocal pid
            made = ran([INITCTL, "--socket", socket, "status", "a"])
            found = re.search(r"process (\d+)", made.stdout)
            pid = int(found.group(1)) if found else None
            return pid

        wait_for(runs)
        child.send_signal(signal.SIGTERM)
        try:
            said = child.communicate(timeout=30 * PATIENCE)[1]
        finally:
            child.kill()
        self.check("an init that is stopped in order", (said, child.returncode), ("", 0))
        self.check("its service ended before", os.path.exists(f"/proc/{pid}"), False)
        self.check("its socket is gone", socket.exists(), False)
