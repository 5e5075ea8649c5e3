"""What the built programs refuse and what they say then, and that nothing is lost by it."""
import fcntl
import os
import pathlib
import re
import resource
import signal
import socket
import stat
import subprocess
import time

from harness import INITCTL, INITD, PATIENCE, Case, initd, initd_said, ran, wait_for, write

SLEEPER = {"clock.conf": "start on startup\nexec sleep 1000\n"}


def unusable(path, why, named=None):
    """What initd prints on each output when a path can't be used, and its status."""
    return f"initd: cannot use {path}\n", f"initd: {named or path}: {why}\n", 3


def a_device(work):
    """A device that it is no harm to lose: one of our own, or one that we couldn't replace."""
    own = work / "null"
    try:
        os.mknod(own, stat.S_IFCHR | 0o600, os.makedev(1, 3))
    except OSError:
        return pathlib.Path("/dev/null")
    return own


def small_files():
    """What a process can't go past is a size of files: a write is cut short there, as on a full disk."""
    signal.signal(signal.SIGXFSZ, signal.SIG_IGN)
    resource.setrlimit(resource.RLIMIT_FSIZE, (4000, 4000))


def little_memory():
    resource.setrlimit(resource.RLIMIT_DATA, (6_000_000, 6_000_000))


# The commands of a client, as its help describes them.
COMMANDS = {
    "start": "Starts an instance of a job",
    "stop": "Stops an instance of a job",
    "restart": "Stops an instance of a job and starts it again",
    "status": "Prints the status of an instance of a job",
    "reload": "Sends the main process of an instance of a job its reload signal",
    "emit": "Emits an event",
    "list": "Prints the status of every job",
    "reload-configuration": "Reads the job files again",
    "version": "Prints the version of the init",
}


class Refusals(Case):
    def setUp(self):
        super().setUp()
        self.folder = self.work / "sleeper"
        write(self.folder, SLEEPER)
        write(self.work / "idle", {"a.conf": "exec /bin/true\n"})

    def test_an_image_that_replaces_nothing(self):
        link, pipe, there = self.work / "link.image", self.work / "pipe.image", self.work / "there.image"
        link.symlink_to(self.work / "elsewhere.image")
        os.mkfifo(pipe)
        self.check("compile to a link", initd_said("compile", self.folder, link), unusable(link, "it is a symbolic link, which is never replaced"))
        self.check("the link is still there", link.is_symlink() and not link.exists(), True)
        self.check("compile to a pipe", initd_said("compile", self.folder, pipe), unusable(pipe, "it isn't a regular file, and is never replaced"))
        self.check("the pipe is still there", pipe.is_fifo(), True)
        why = "it is a folder, which is never replaced"
        self.check("compile to a folder", initd_said("compile", self.folder, self.folder), unusable(self.folder, why))
        device = a_device(self.work)
        why = "it isn't a regular file, and is never replaced"
        self.check("compile to a device", initd_said("compile", self.folder, device), unusable(device, why))
        self.check("the device is still there", stat.S_ISCHR(os.stat(device).st_mode), True)
        output = pathlib.Path("/dev/stdout")
        why = "it is a symbolic link, which is never replaced"
        self.check("compile to the standard output", initd_said("compile", self.folder, output), unusable(output, why))
        away = self.work / "no" / "image"
        self.check("compile to no folder", initd_said("compile", self.folder, away), unusable(away, "No such file or directory"))
        there.write_text("an older one")
        self.check("compile over a file", initd("compile", self.folder, there), ("1 jobs, 0 faults\n", 0))
        self.check("the file is an image", initd("show", there)[1], 0)
        left = self.work / "there.image.new"
        left.write_text("half")
        why = "it exists: another compile uses it, or one that was killed left it; remove it if none runs"
        self.check("compile beside a left-over", initd_said("compile", self.folder, there), unusable(there, why, left))
        self.check("the left-over is as it was", left.read_text(), "half")

    def test_a_record_that_is_there(self):
        record = self.work / "kept.record"
        with self.running("kept", self.folder, "--record", record) as run:
            wait_for(lambda: run.pid("clock"))
            before = record.read_text()
            why = "it exists, and a process listens on it"
            second = initd_said("run", self.folder, run.socket, "--record", record, "--record-over")
            self.check("a second run at a socket", second, unusable(run.socket, why))
            self.check("the record of the first goes on", record.read_text().startswith(before), True)
        kept = record.read_text()
        why = "it exists, and no process listens on it any more: remove it"
        self.check("a run at a socket that was left", initd_said("run", self.folder, run.socket), unusable(run.socket, why))
        other = self.work / "other.socket"
        why = "it exists; --record-over overwrites it"
        self.check("a run over a record", initd_said("run", self.folder, other, "--record", record), unusable(record, why))
        self.check("no socket is left of it", other.exists(), False)
        self.check("the record is as it was", record.read_text(), kept)
        ended = initd_said("run", self.work / "idle", other, "--record", record, "--record-over", "--rounds", "2")
        self.check("a run that may write over a record", ended, ("", "", 0))
        self.check("the record is that of the last run", ("spawned clock" in kept, "spawned clock" in record.read_text()), (True, False))
        other.unlink()
        away = self.work / "no" / "record"
        self.check("a record in no folder", initd_said("run", self.folder, other, "--record", away), unusable(away, "No such file or directory"))
        self.check("no socket is left of that", other.exists(), False)

    def test_sockets_that_cant_be_made(self):
        idle = self.work / "idle"
        path = self.work / "folder"
        path.mkdir()
        self.check("a folder for a socket", initd_said("run", idle, path), unusable(path, "it exists, and isn't a socket"))
        away = self.work / "no" / "socket"
        self.check("a socket in no folder", initd_said("run", idle, away), unusable(away, "No such file or directory"))
        long = self.work / ("s" * 102)
        self.check("a long path", initd_said("run", idle, long), unusable(long, "the path of a socket has at most 101 bytes"))
        self.check("an empty path", initd_said("run", idle, ""), unusable("", "the path is empty"))
        path = self.work / "left.socket"
        left = self.work / "left.socket.new"
        left.mkdir(0o700)
        there = socket.socket(socket.AF_UNIX)
        there.bind(str(left / "s"))
        there.close()
        self.check("a run beside what a killed start left", initd_said("run", idle, path, "--rounds", "2"), ("", "", 0))
        self.check("nothing is left beside it", left.exists(), False)
        path.unlink()
        left.mkdir(0o700)
        (left / "s").write_text("")
        why = "it exists, and isn't a folder that an init of this user left: remove it"
        self.check("a run beside something else", initd_said("run", idle, path, "--rounds", "2"), unusable(path, why, left))
        self.check("which is as it was", (left / "s").exists() and not path.exists(), True)

    def test_starts_at_once(self):
        """Of inits that start at one path in the same moment one wins, also beside what a killed start left, and nothing is left of the others."""
        idle = self.work / "idle"
        path = self.work / "race.socket"
        left = self.work / "race.socket.new"
        for number in range(12):
            if number % 2:
                left.mkdir(0o700)
                with socket.socket(socket.AF_UNIX) as there:
                    there.bind(str(left / "s"))
            how = {"stdout": subprocess.PIPE, "stderr": subprocess.PIPE, "stdin": subprocess.DEVNULL, "text": True}
            started = [subprocess.Popen([INITD, "run", idle, path], **how) for _ in range(6)]
            for child in started:
                self.addCleanup(child.kill)
            wait_for(lambda: sum(child.poll() is not None for child in started) == 5)
            living = [child for child in started if child.poll() is None]
            ended = [child for child in started if child.poll() is not None]
            made = ran([INITCTL, "--socket", path, "version"])
            found = (len(living), made.returncode, left.exists())
            for child in living:
                child.kill()
            said = [child.communicate(timeout=20 * PATIENCE) for child in started if child in ended]
            whole = all(out == f"initd: cannot use {path}\n" and err.startswith(f"initd: {path}") for out, err in said)
            if (*found, whole) != (1, 0, False, True):
                break
            path.unlink()
        self.check("of inits that start at once one wins", (number, *found, whole), (11, 1, 0, False, True))
        path.unlink(missing_ok=True)
        left.mkdir(0o700)
        held = os.open(left, os.O_RDONLY)
        fcntl.flock(held, fcntl.LOCK_EX)
        why = "another init is starting on it"
        self.check("a run beside another start", initd_said("run", idle, path, "--rounds", "2"), unusable(path, why))
        self.check("whose folder stays", left.exists(), True)
        os.close(held)
        self.check("a run after it", initd_said("run", idle, path, "--rounds", "2"), ("", "", 0))
        self.check("the folder is gone", left.exists(), False)

    def test_bundles_that_cant_be_read(self):
        def said(**how):
            made = ran([INITD], **how)
            return made.stdout, made.stderr, made.returncode

        folder = os.open("/", os.O_RDONLY)
        self.check("a folder as standard input", said(stdin=folder), unusable("-", "Is a directory"))
        os.close(folder)
        self.check("a long bundle", said(input="#" * 67_108_865), unusable("-", "it is larger than 64 MiB (67108864 bytes)"))

    def test_sources_that_cant_be_read(self):
        folder = self.work / "odd"
        write(folder, {"a.conf": "exec /bin/true\n"})
        (folder / "nowhere").symlink_to("/no/such/file")
        self.check("a link to nothing is passed over", initd_said("check", folder), ("1 jobs, 0 faults\n", "", 0))
        link = folder / "round"
        link.symlink_to("round")
        (folder / "to").symlink_to("fro")
        (folder / "fro").symlink_to("to")
        self.check("a link to itself is passed over", initd_said("check", folder), ("1 jobs, 0 faults\n", "", 0))
        job = folder / "itself.conf"
        job.symlink_to("itself.conf")
        self.check("a job file that is a link to itself", initd_said("check", folder), unusable(job, "Too many levels of symbolic links"))
        job.unlink()
        again = folder / "again"
        again.symlink_to(".")
        found = initd_said("check", folder)
        found = found[0], "Too many levels of symbolic links" in found[1], found[2]
        self.check("a folder that lies in itself", found, (f"initd: cannot use {folder}\n", True, 3))
        again.unlink()
        (folder / "sub").mkdir()
        names = [bytes(folder) + b"/caf\xe9.conf", bytes(folder) + b"/sub/\xff"]
        for name in names:
            with open(name, "w") as file:
                file.write("exec /bin/true\n")
        found = initd_said("check", folder)
        lines = [f"initd: {below}: an entry of it is skipped, since its name isn't UTF-8" for below in (f"{folder}/", f"{folder}/sub/")]
        self.check("names that aren't UTF-8 are passed over", (found[0], sorted(found[1].splitlines()), found[2]), ("1 jobs, 0 faults\n", lines, 0))
        for name in names:
            os.unlink(name)
        job = folder / "x.conf"
        job.symlink_to("/no/such/file")
        self.check("a job file that is a link to nothing", initd_said("check", folder), unusable(job, "No such file or directory"))
        job.unlink()
        os.mkfifo(job)
        self.check("a pipe as a job file", initd_said("check", folder), unusable(job, "it is named like a job file, and isn't a regular file"))
        missing = self.work / "missing"
        self.check("no folder", initd_said("run", missing, self.work / "s"), unusable(missing, "No such file or directory"))
        self.check("no image", initd_said("show", missing), unusable(missing, "No such file or directory"))
        self.check("no script", initd_said("replay", self.work / "idle", missing), unusable(missing, "No such file or directory"))
        why = "it is neither a folder nor a regular file"
        self.check("a device as jobs", initd_said("run", "/dev/null", self.work / "s"), unusable("/dev/null", why))

    def test_a_record_on_a_full_disk(self):
        record = self.work / "full.record"
        how = {"stdout": subprocess.DEVNULL, "preexec_fn": small_files}
        with self.running("full", self.folder, "--record", record, **how) as run:
            for number in range(200):
                run.ask("emit", "--no-wait", f"event-{number}", "A=" + "x" * 30)
            self.check("the run goes on", run.ask("version")[1], 0)
        self.check("the record ended", run.err.read_text(), "initd: the record ends: File too large\n")
        text = record.read_text()
        self.check("the record ends with a whole line", text.endswith("\n") and len(text) > 3000, True)
        replayed = initd("replay", self.folder, record)
        self.check("the record is replayed", replayed[1], 0)
        rounds = re.findall(r"^request (\d+) ", text, flags=re.M)
        self.check("each request in it has its answer", replayed[0].count("reply "), len(rounds))

    def test_out_of_memory(self):
        script = self.work / "long.script"
        script.write_text("emit A B=1\n" * 200_000)
        found = initd_said("replay", self.work / "idle", script, preexec_fn=little_memory)
        self.check("little memory", found, ("", "initd: out of memory\n", 4))

    def test_words_of_a_client(self):
        def said(*words):
            made = ran([INITCTL, "--socket", self.work / "s", *words])
            return made.stderr, made.returncode

        self.check("a bad variable", said("start", "a", "A=1", "b"), ("initctl: Bad word\n  neither a name nor KEY=VALUE: b\n", 1))
        self.check("a bad key", said("start", "a", "1=2"), ("initctl: Bad word\n  neither a name nor KEY=VALUE: 1=2\n", 1))
        self.check("a bad name", said("emit", "a b"), ("initctl: Bad word\n  neither a name nor KEY=VALUE: a b\n", 1))
        self.check("a large request", said("emit", "a", "A=" + "x" * 70_000), ("initctl: Bad word\n  the request is too large\n", 1))
        text, status = said("start", "--socket", "x", "web")
        found = "'--socket PATH' comes before the command" in text, "-- --socket" in text, status
        self.check("an option that stands too late", found, (True, False, 2))
        helped = ran([INITCTL, "--help"]).stdout
        described = dict(re.findall(r"^  (\w\S*) {2,}(.+?) *$", helped, flags=re.M))
        self.check("the help describes each command", {name: described.get(name) for name in COMMANDS}, COMMANDS)

    def test_pauses(self):
        """The pauses of an idle run grow to the longest within the time that OPERATING.md says."""
        record = self.work / "pace.record"
        with self.running("pace", self.work / "idle", "--pause", "100", "--record", record) as run:
            time.sleep(4)
            run.ask("emit", "--no-wait", "x")
        clocks = [int(word) for word in re.findall(r"^clock (\d+)$", record.read_text(), flags=re.M)]
        gaps = [(old, new - old) for old, new in zip(clocks, clocks[1:])]
        # On a busy machine a pause may last longer than it was to.
        self.check("pauses begin short", any(gap <= 10 for old, gap in gaps if old < clocks[0] + 20), True)
        self.check("pauses grow to the longest", any(gap >= 95 for old, gap in gaps if old < clocks[0] + 3_000), True)

    def test_no_socket_named(self):
        """Both programs go by one path if they are told none. A second run at what a run left is told so, and so is who may not write there."""
        place = pathlib.Path("/run/initd.socket")
        bare = {name: value for name, value in os.environ.items() if name != "INITCTL_SOCKET"}
        # Only one test of a machine may use it at a time.
        held = os.open(place.parent, os.O_RDONLY)
        self.addCleanup(os.close, held)
        fcntl.flock(held, fcntl.LOCK_EX)
        is_there = place.exists()
        if is_there or not os.access(place.parent, os.W_OK):
            self.check("a run at a path that can't be used", initd("run", self.work / "idle", "--rounds", "1"), (f"initd: cannot use {place}\n", 3))
            self.check("what is there stays", place.exists(), is_there)
            self.skipTest(f"{place} can't be made")
        self.addCleanup(place.unlink, missing_ok=True)
        with subprocess.Popen([INITD, "run", self.work / "idle"], stdin=subprocess.DEVNULL) as child:
            try:
                self.check("an init that names no socket", wait_for(place.exists), True)
                asked = ran([INITCTL, "version"], env=bare)
                self.check("answers a client that names none", (asked.stdout, asked.stderr, asked.returncode), ("init (upstart profile 1)\n", "", 0))
            finally:
                child.terminate()
        self.check("a second run at it", initd("run", self.work / "idle", "--rounds", "1"), (f"initd: cannot use {place}\n", 3))
        place.unlink()
        asked = ran([INITCTL, "list"], env=bare)
        self.check("a client without an init", (asked.stdout, asked.stderr, asked.returncode), ("", "initctl: Unable to connect\n", 1))
