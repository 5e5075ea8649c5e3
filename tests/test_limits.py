"""Each limit at its last good value and at the first bad one, by the built programs (docs/man/init.5, initd.8 and initctl.8)."""
import contextlib
import os
import re
import shutil
import socket
import struct

from harness import Case, initd, wait_for, write

FILE = 1_048_576
BUNDLE = 67_108_864
IMAGE = 16_777_216
FRAME = 65_536
GOOD = ("1 jobs, 0 faults\n", 0)


def faulty(code):
    return f"a.conf: {code}\n0 jobs, 1 faults\n", 1


def padded(size):
    start = "exec /bin/d\n#"
    return start + "x" * (size - len(start))


def leaves(count):
    return "start on " + " or ".join(["a"] * count) + "\nexec /bin/d\n"


def parentheses(depth):
    return "start on " + "(" * depth + "a" + ")" * depth + "\nexec /bin/d\n"


def nested(depth):
    """A value that expands as deep as this."""
    return "start on a X=" + "${K-" * depth + "x" + "}" * depth + "\nexec /bin/d\n"


def keys(stanza, count):
    return "exec /bin/d\n" + "".join(f"{stanza} K{i}{'=v' if stanza == 'env' else ''}\n" for i in range(count))


def values(count):
    return "start on a" + " v" * count + "\nexec /bin/d\n"


def words(count):
    """The program and its arguments."""
    return "exec /bin/d" + " x" * (count - 1) + "\n"


# What is limited, the last good file, the first bad one, and the fault.
FILES = [
    ("a file of 1 MiB", padded(FILE), padded(FILE + 1), "16 TooLarge"),
    ("an expression of 2,048 leaves", leaves(2_048), leaves(2_049), "16 TooLarge"),
    ("256 parentheses", parentheses(256), parentheses(257), "16 TooLarge"),
    ("65,535 values of an event", values(65_535), values(65_536), "16 TooLarge"),
    ("65,535 words of a command", words(65_535), words(65_536), "16 TooLarge"),
    ("an expansion 16 deep", nested(16), nested(17), "14 BadExpansion"),
    ("30,000 keys", keys("env", 30_000), keys("env", 30_001), "16 TooLarge"),
    ("30,000 exported keys", keys("export", 30_000), keys("export", 30_001), "16 TooLarge"),
    ("a respawn count of 65,535", "respawn limit 65535 5\nexec /bin/d\n", "respawn limit 65536 5\nexec /bin/d\n", "10 BadNumber"),
    ("a respawn interval of 2,147,483,647", "respawn limit 1 2147483647\nexec /bin/d\n", "respawn limit 1 2147483648\nexec /bin/d\n", "10 BadNumber"),
    ("a kill timeout of 2,147,483,647", "kill timeout 2147483647\nexec /bin/d\n", "kill timeout 2147483648\nexec /bin/d\n", "10 BadNumber"),
    ("a normal exit of 255", "normal exit 255\nexec /bin/d\n", "normal exit 256\nexec /bin/d\n", "10 BadNumber"),
    ("signal 31", "kill signal 31\nexec /bin/d\n", "kill signal 32\nexec /bin/d\n", "11 BadSignal"),
    ("reload signal 31", "reload signal 31\nexec /bin/d\n", "reload signal 32\nexec /bin/d\n", "11 BadSignal"),
]


# What is limited, the last good step and the first bad one.
STEPS = [
    ("a million turns", "turn 1000000", "turn 1000001"),
    ("one turn", "turn 1", "turn 0"),
    ("a reading of 64 bits", "clock 18446744073709551615", "clock 18446744073709551616"),
    ("a number of 32 bits", 'spawned a "" main 4294967295', 'spawned a "" main 4294967296'),
    ("an exit status of 255", 'ended a "" main exit 255', 'ended a "" main exit 256'),
]


def request(command, name=b"", value=None):
    """The payload of a request with at most one variable."""
    short = lambda text: struct.pack(">H", len(text)) + text
    variables = b"" if value is None else short(b"K") + short(value)
    return struct.pack(">BB", command, 0) + short(name) + struct.pack(">H", 0 if value is None else 1) + variables


def asked(peer, payload, length=None):
    """What a client gets for a frame within a second: a status, or None if it is closed, or nothing comes."""
    peer.settimeout(1)
    try:
        peer.sendall(struct.pack(">I", len(payload) if length is None else length) + payload)
        return peer.recv(65_536)[4:5]
    except (TimeoutError, OSError):
        return None


class Limits(Case):
    def checked(self, text):
        """What a check prints for one job file, with the number of the faulty line left out, and its status."""
        folder = self.work / "one"
        shutil.rmtree(folder, ignore_errors=True)
        write(folder, {"a.conf": text})
        printed, status = initd("check", folder)
        return re.sub(r"^a\.conf:\d+:", "a.conf:", printed), status

    def test_files(self):
        for name, good, bad, code in FILES:
            self.check(f"{name}", self.checked(good), GOOD)
            self.check(f"more than {name}", self.checked(bad), faulty(code))

    def test_jobs(self):
        """A folder of 1,024 jobs is checked, replayed and run; one of 1,025 is refused."""
        folder, script = self.work / "many", self.work / "many.script"
        names = [f"job{i:04}" for i in range(1_024)]
        write(folder, {f"{name}.conf": "exec sleep 1000\n" for name in names})
        write(folder, {f"{name}.conf": "start on startup\nexec sleep 1000\n" for name in (names[0], names[-1])})
        self.check("1,024 jobs", initd("check", folder), ("1024 jobs, 0 faults\n", 0))
        script.write_text("emit startup\nturn 2\nrequest 1 status job1023\n")
        wanted = "".join(f'event starting JOB="{name}" INSTANCE=""\n' for name in (names[0], names[-1])) + 'reply 1 ok "job1023 start/starting"\n'
        self.check("1,024 jobs are replayed", initd("replay", folder, script), (wanted, 0))
        with self.running("many", folder) as run:
            self.check("1,024 jobs are run", wait_for(lambda: run.pid(names[-1])), True)
            running = f"{names[0]} start/running, process PID\n", f"{names[-1]} start/running, process PID\n"
            self.check("all are listed", run.ask("list"), (running[0] + "".join(f"{name} stop/waiting\n" for name in names[1:-1]) + running[1], 0))
        write(folder, {"more.conf": "exec /bin/d\n"})
        for line in (["check", folder], ["replay", folder, script], ["run", folder, self.work / "none.socket"]):
            self.check(f"{line[0]} of 1,025 jobs", initd(*line), ("initd: 20 TooManyJobs\n", 3))

    def test_depth(self):
        """A folder is 64 levels deep at most."""
        top = self.work / "deep"
        folder = top.joinpath(*["d"] * 64)
        write(folder, {"a.conf": "exec /bin/d\n"})
        self.check("64 levels", initd("check", top), ("1 jobs, 0 faults\n", 0))
        (folder / "d").mkdir()
        self.check("65 levels", initd("check", top), (f"initd: cannot use {top}\n", 3))

    def test_entries(self):
        """A folder has 65,536 entries at most, with those below it."""
        folder = self.work / "entries"
        write(folder, {"a.conf": "exec /bin/d\n", "sub/b.conf": "exec /bin/d\n"})
        for number in range(65_536 - 3):
            os.mknod(folder / f"{number}")
        self.check("65,536 entries", initd("check", folder), ("2 jobs, 0 faults\n", 0))
        os.mknod(folder / "sub" / "one")
        self.check("65,537 entries", initd("check", folder), (f"initd: cannot use {folder}\n", 3))

    def test_options(self):
        """The options of a run at their largest and least, and beyond; the defaults are those of initd(8)."""
        folder = self.work / "empty"
        folder.mkdir()
        largest = ["--rounds", "4294967295", "--pause", "60000", "--client-timeout", "86400"]
        with self.running("largest", folder, *largest) as run:
            self.check("an init with the largest options", run.ask("version"), ("init (upstart profile 1)\n", 0))
        least = ["--rounds", "1", "--pause", "0", "--client-timeout", "0"]
        self.check("an init with the least options", initd("run", folder, self.work / "least.socket", *least), ("", 0))
        for option, value in (("rounds", 4_294_967_296), ("rounds", 0), ("pause", 60_001), ("client-timeout", 86_401)):
            words = [f"--{option}", value, *(["--rounds", "1"] if option != "rounds" else [])]
            self.check(f"--{option} {value}", initd("run", folder, self.work / "none.socket", *words), ("", 2))
        self.check("no socket is made", (self.work / "none.socket").exists(), False)
        helped = initd("run", "--help")[0]
        self.check("defaults", re.findall(r"by default (\d+)", helped), ["10", "60"])

    def test_sockets(self):
        """A socket's path has 101 bytes at most."""
        folder = self.work / "empty"
        folder.mkdir()
        name = "s" * (101 - len(f"{self.work}/.socket"))
        with self.running(name, folder) as run:
            self.check("a path of 101 bytes", (len(bytes(run.socket)), run.ask("version")), (101, ("init (upstart profile 1)\n", 0)))
        path = self.work / f"{name}s.socket"
        self.check("a path of 102 bytes", initd("run", folder, path, "--rounds", "1"), (f"initd: cannot use {path}\n", 3))

    def test_requests(self):
        """A request of a client has 65,536 bytes at most: 12 beside the value here."""
        folder = self.work / "empty"
        folder.mkdir()
        with self.running("requests", folder) as run:
            self.check("the largest request", run.ask("emit", "--no-wait", "E", "K=" + "v" * (FRAME - 12)), ("", 0))
            self.check("a larger one", run.ask("emit", "--no-wait", "E", "K=" + "v" * (FRAME - 11)), ("initctl: Bad word\n  the request is too large\n", 1))

    def test_steps(self):
        for name, good, bad in STEPS:
            self.check(f"{name}", initd(stdin=f"%script\n{good}\n")[1], 0)
            self.check(f"more than {name}", initd(stdin=f"%script\n{bad}\n"), ("-:2: bad step\n", 2))

    def test_bundles(self):
        start = "%script\n#"
        self.check("a bundle of 64 MiB", initd(stdin=start + "x" * (BUNDLE - len(start))), ("", 0))
        self.check("a larger bundle", initd(stdin=start + "x" * (BUNDLE + 1 - len(start))), ("initd: cannot use -\n", 3))

    def test_queues(self):
        """32,768 events that haven't finished are the last with which a client may add one; a job has 1,024 instances."""
        for count, answer in ((32_767, 'reply 1 ok ""\n'), (32_768, 'reply 1 failed "Too many events"\n')):
            script = "emit X\n" * count + "request 1 emit --no-wait Y\nemit Y\n"
            self.check(f"{count:,} events", initd(stdin=f"%script\n{script}"), (answer, 0))
        script = "".join(f"request {i} start --no-wait g TTY={i}\n" for i in range(1, 1_026))
        printed, status = initd(stdin=f"%file g.conf\ninstance $TTY\nexec /bin/d\n%script\n{script}")
        replies = [line for line in printed.splitlines() if line.startswith("reply ")]
        self.check("1,024 instances", (sum(" ok " in line for line in replies), status), (1_024, 0))
        self.check("1,025 instances", replies[-1], 'reply 1025 failed "Too many instances: g"')

    def test_images(self):
        """The largest image, and one that is a byte larger."""
        folder, image = self.work / "large", self.work / "large.image"
        script = "x" * (FILE - 200)
        write(folder, {f"{name}.conf": f"script\n{script}\nend script\n" for name in "abcdefghijklmnop"})

        def compiled(size):
            write(folder, {"q.conf": "script\n" + "x" * size + "\nend script\n"})
            image.unlink(missing_ok=True)
            printed, status = initd("compile", folder, image)
            return printed, status, image.stat().st_size if image.exists() else None

        # Each byte of a script is one of the image.
        more = IMAGE - compiled(1_000)[2]
        self.check("an image of 16 MiB", compiled(1_000 + more), ("17 jobs, 0 faults\n", 0, IMAGE))
        self.check("a larger image", compiled(1_001 + more), ("initd: 22 ImageTooLarge\n", 3, None))
        image.unlink(missing_ok=True)
        shutil.rmtree(folder)

    def test_clients(self):
        folder = self.work / "empty"
        folder.mkdir()
        with self.running("limits", folder) as run:
            with contextlib.ExitStack() as held:
                def connected():
                    peer = held.enter_context(socket.socket(socket.AF_UNIX))
                    peer.connect(str(run.socket))
                    return peer

                rest = len(request(6, b"E", b""))
                self.check("a frame of 65,536 bytes", asked(connected(), request(6, b"E", b"v" * (FRAME - rest))), b"\x00")
                self.check("a longer frame", asked(connected(), b"", FRAME + 1), b"")
                # The first client is there still; the second was closed.
                for _ in range(62):
                    connected()
                self.check("64 clients", asked(connected(), request(9)), b"\x00")
            with contextlib.ExitStack() as held:
                peers = [held.enter_context(socket.socket(socket.AF_UNIX)) for _ in range(65)]
                for peer in peers:
                    peer.connect(str(run.socket))
                self.check("65 clients", asked(peers[-1], request(9)), None)
                peers[0].close()
                peers[-1].settimeout(5)
                self.check("one of 65 clients leaves", peers[-1].recv(65_536)[4:5], b"\x00")
