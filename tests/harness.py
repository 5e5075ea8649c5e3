"""What the tests of the built programs share: the programs, a test with a folder of its own, and a running init.

The tests are standard unittest: `python3 -m unittest` in this folder runs all of them, and `python3 -m unittest test_limits.Limits` some.
`tests/programs` and `make test NAME=..` do the same, and count.
"""
import atexit
import contextlib
import os
import pathlib
import re
import signal
import subprocess
import tempfile
import time
import unittest

TOP = pathlib.Path(__file__).resolve().parent.parent
INITD = TOP / "crates" / "initd" / "out" / "initd"
INITCTL = TOP / "crates" / "initctl" / "out" / "initctl"
SEARCHED = "PATH=/usr/sbin:/usr/bin:/sbin:/bin"

# By how much all limits of time are longer: for programs that are built with checks, which are much slower.
PATIENCE = float(os.environ.get("PATIENCE", "1"))


def ran(words, seconds=60, input=None, **how):
    """A command that ended. One that isn't done in time is killed with all that it started, and the test fails."""
    kinds = {"stdin": subprocess.DEVNULL if input is None else subprocess.PIPE, "stdout": subprocess.PIPE, "stderr": subprocess.PIPE, "text": True}
    with subprocess.Popen(list(map(str, words)), start_new_session=True, **{**kinds, **how}) as child:
        try:
            out, err = child.communicate(input, timeout=seconds * PATIENCE)
        except BaseException:
            os.killpg(child.pid, signal.SIGKILL)
            raise
    return subprocess.CompletedProcess(words, child.returncode, out, err)


def initd(*words, stdin=None):
    """What initd prints, and its status."""
    made = ran([INITD, *words], input=stdin)
    return made.stdout, made.returncode


def initd_said(*words, **how):
    """What initd prints on each output, and its status."""
    made = ran([INITD, *words], **how)
    return made.stdout, made.stderr, made.returncode


def write(folder, files):
    for path, text in files.items():
        whole = folder / path
        whole.parent.mkdir(parents=True, exist_ok=True)
        whole.write_text(text)


def without_comments(told):
    """What a run told without the calls that failed, which no replay makes."""
    return "".join(line for line in told.splitlines(keepends=True) if not line.startswith("# "))


def unpack(bundle, folder):
    """Writes the files of a bundle."""
    for part in re.split(r"^%file ", bundle, flags=re.M)[1:]:
        path, text = part.split("\n", 1)
        write(folder, {path: text})


def examples(work):
    """The folders of examples/, unpacked where they are bundles, by their names."""
    folders = {"distribution": TOP / "examples" / "distribution"}
    for path in sorted((TOP / "examples").glob("*.bundle")):
        folders[path.stem] = work / path.stem
        unpack(path.read_text().split("%script\n")[0], folders[path.stem])
    return folders


def wait_for(is_done, seconds=10):
    end = time.time() + seconds * PATIENCE
    while time.time() < end:
        if is_done():
            return True
        time.sleep(0.01)
    return False


class Run:
    """A running init over a folder or an image."""

    def __init__(self, work, name, source, *options, **how):
        self.socket, self.out, self.err = (work / f"{name}.{kind}" for kind in ("socket", "out", "err"))
        words = [INITD, "run", source, self.socket, *map(str, options)]
        with open(self.out, "wb") as out, open(self.err, "wb") as err:
            self.child = subprocess.Popen(words, **{"stdout": out, "stderr": err, "stdin": subprocess.DEVNULL, **how})
        # It ends with the tests, also if these are broken off.
        atexit.register(self.kill)
        if not wait_for(self.socket.exists):
            self.kill()
            raise AssertionError(f"the init made no socket: {self.out.read_text()}{self.err.read_text()}")

    def asked(self, *words):
        return ran([INITCTL, "--socket", self.socket, *words], seconds=30)

    def ask(self, *words):
        """What a client prints, on both outputs, and its status."""
        made = self.asked(*words)
        return re.sub(r"process \d+", "process PID", made.stdout + made.stderr), made.returncode

    def pid(self, job):
        found = re.search(r"process (\d+)", self.asked("status", job).stdout)
        return int(found.group(1)) if found else None

    def services(self):
        """The processes that the init started and that live."""
        pid = self.child.pid
        children = pathlib.Path(f"/proc/{pid}/task/{pid}/children").read_text()
        return [int(word) for word in children.split()]

    def wait(self, seconds=60):
        """The status of an init that ends by itself."""
        return self.child.wait(seconds * PATIENCE)

    def kill(self, number=signal.SIGKILL):
        """Ends the init by a signal, and then its services, which would go on; answers its status."""
        atexit.unregister(self.kill)
        left = []
        if self.child.poll() is None:
            left = self.services()
            self.child.send_signal(number)
            self.child.wait(20 * PATIENCE)
        for pid in left:
            with contextlib.suppress(ProcessLookupError):
                os.kill(pid, signal.SIGKILL)
        return self.child.returncode

    def end(self):
        """Ends the init, which must have lived until now, and answers what it printed."""
        status = self.kill(signal.SIGTERM)
        if status != -signal.SIGTERM:
            raise AssertionError(f"the init had ended before, with status {status}: {self.err.read_text()}")
        return self.out.read_text()


class Case(unittest.TestCase):
    """A test with a folder of its own, in which it may have inits run; all is gone when it is over."""

    maxDiff = 2_000

    def setUp(self):
        for program in (INITD, INITCTL):
            self.assertTrue(program.exists(), f"{program} isn't there: `make` builds it")
        room = tempfile.TemporaryDirectory()
        self.addCleanup(room.cleanup)
        self.work = pathlib.Path(room.name)

    def check(self, name, found, wanted):
        """Compares one thing, which counts by itself; the test goes on."""
        with self.subTest(name):
            self.assertEqual(found, wanted)

    def check_stored(self, command, kind, words, name, status=0):
        """Compares what a command prints with the whole of what is stored beside the examples."""
        stored = TOP / "examples" / f"{name}.{kind}"
        self.check(f"{stored.name} is stored", initd(command, *words), (stored.read_text(), status))

    @contextlib.contextmanager
    def running(self, name, source, *options, **how):
        """An init that runs within the block, and must live until its end."""
        run = Run(self.work, name, source, *options, **how)
        try:
            yield run
            run.end()
        finally:
            run.kill()
