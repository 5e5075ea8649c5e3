"""What an init does with clients that say nothing or go, and what it tells of calls that failed."""
import contextlib
import resource
import socket
import struct
import time

from harness import Case, Run, write

JOBS = {
    "slow.conf": "task\nexec sleep 3\n",
    "gone.conf": "exec no-such-program\n",
    "a.conf": "exec sleep 1000\n",
}
VERSION, START = 9, 1


def request(command, name=b""):
    """A request that waits, without variables, as a frame."""
    payload = struct.pack(">BBH", command, 0, len(name)) + name + struct.pack(">H", 0)
    return struct.pack(">I", len(payload)) + payload


def connected(held, run):
    peer = held.enter_context(socket.socket(socket.AF_UNIX))
    peer.settimeout(20)
    peer.connect(str(run.socket))
    return peer


def answer(peer):
    """The first bytes of an answer; none if the init closes."""
    try:
        return peer.recv(4096)
    except ConnectionError:
        return b""


def is_closed_within(peer, seconds):
    peer.settimeout(seconds)
    try:
        return peer.recv(4096) == b""
    except TimeoutError:
        return False
    except ConnectionError:
        return True


def few_files():
    resource.setrlimit(resource.RLIMIT_NOFILE, (16, 16))


def comments(text):
    return [line for line in text.splitlines() if line.startswith("# ")]


class Clients(Case):
    def setUp(self):
        super().setUp()
        self.folder = self.work / "jobs"
        write(self.folder, JOBS)

    def test_silent_clients(self):
        """Clients that say nothing, or half a request, give way to others; one that waits for its answer doesn't."""
        with self.running("silent", self.folder, "--client-timeout", "1") as run:
            with contextlib.ExitStack() as held:
                waiting = connected(held, run)
                waiting.sendall(request(START, b"slow"))
                silent = [connected(held, run) for _ in range(63)]
                silent[0].sendall(request(VERSION)[:3])
                last = connected(held, run)
                last.sendall(request(VERSION))
                begun = time.time()
                said = answer(last)
                took = time.time() - begun
                self.check("a client after 64 is served once they were silent", b"init (upstart profile 1)" in said, True)
                self.check("and not before", took > 0.5, True)
                closed = [is_closed_within(peer, 10) for peer in silent]
                self.check("silent clients are closed", closed.count(True), 63)
                self.check("one that waits is answered", b"slow stop/waiting" in answer(waiting), True)

    def test_a_client_that_was_answered(self):
        with self.running("answered", self.folder, "--client-timeout", "1") as run:
            with contextlib.ExitStack() as held:
                peer = connected(held, run)
                peer.sendall(request(START, b"slow"))
                self.check("a request that takes long is answered", b"slow stop/waiting" in answer(peer), True)
                begun = time.time()
                self.check("its client is closed later", is_closed_within(peer, 10), True)
                self.check("after the same time", time.time() - begun > 0.5, True)

    def test_a_client_that_drips(self):
        """A client that sends a byte at a time and no whole request is closed too."""
        closed = False
        with self.running("drips", self.folder, "--client-timeout", "1") as run, contextlib.ExitStack() as held:
            peer = connected(held, run)
            frame = struct.pack(">I", 60_000)
            end = time.time() + 15
            while time.time() < end and not closed:
                try:
                    peer.sendall(frame[:1] or b"x")
                    frame = frame[1:]
                    time.sleep(0.05)
                except ConnectionError:
                    closed = True
        self.check("a client that drips is closed", closed, True)

    def test_patient_inits(self):
        """A client that says nothing stays for ever, or without the option for a minute: here for longer than the default of another option, 10."""
        with self.running("never", self.folder, "--client-timeout", "0") as never, self.running("default", self.folder) as default:
            with contextlib.ExitStack() as held:
                peers = {"never": connected(held, never), "by default": connected(held, default)}
                for name, seconds in (("never", 11), ("by default", 0.1)):
                    self.check(f"a silent client stays: {name}", is_closed_within(peers[name], seconds), False)
                    peers[name].sendall(request(VERSION))
                    self.check(f"and is served: {name}", b"init (upstart profile 1)" in answer(peers[name]), True)

    def test_calls_that_fail(self):
        """Each call of the host and of the door that fails is told in a comment, and all are counted at the end."""
        told = self.work / "faults.told"
        words = ["--verbose", "--tell", told, "--pause", "1", "--rounds", "5000", "--quiet"]
        run = Run(self.work, "faults", self.folder, *words, preexec_fn=few_files)
        try:
            self.check("a start that fails", run.ask("start", "gone")[1], 1)
            with contextlib.ExitStack() as held:
                # It goes with an answer that it didn't read.
                peer = connected(held, run)
                peer.sendall(request(VERSION))
                time.sleep(0.2)
            with contextlib.ExitStack() as held:
                for _ in range(30):
                    connected(held, run)
                time.sleep(0.2)
            self.check("it ends after its rounds", run.wait(), 0)
        finally:
            run.kill()
        printed = run.out.read_text()
        found = comments(printed)
        kinds = set(found[:-1])
        wanted = {"# host fault: spawn", "# door fault: read", "# door fault: accept"}
        self.check("the calls that failed are told", wanted <= kinds, True)
        self.check("only such", kinds - wanted <= {"# door fault: write"}, True)
        host = sum(line.startswith("# host fault: ") for line in found)
        door = sum(line.startswith("# door fault: ") for line in found)
        self.check("and counted at the end", found[-1], f"# host faults: {host}, door faults: {door}, source faults: 0")
        self.check("one start failed", host, 1)
        self.check("a file gets the same", told.read_text(), printed)
        quiet = Run(self.work, "no-faults", self.folder, "--verbose", "--rounds", "3")
        self.check("a run without them ends", quiet.wait(), 0)
        self.check("a run without them says nothing of them", comments(quiet.out.read_text()), [])
