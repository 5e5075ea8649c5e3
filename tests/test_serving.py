"""Clients of the built daemon that ask for more than it reads at once, beside others that are served all the while."""
import socket
import struct
import threading

from harness import PATIENCE, Case, write

START, LIST = 1, 5
MANY = 10_000


def frame(command, name=b""):
    payload = struct.pack(">BBH", command, 0, len(name)) + name + struct.pack(">H", 0)
    return struct.pack(">I", len(payload)) + payload


class Client:
    """One client, which reads whole answers."""

    def __init__(self, path):
        self.peer = socket.socket(socket.AF_UNIX)
        self.peer.settimeout(30 * PATIENCE)
        self.peer.connect(str(path))
        self.stream = self.peer.makefile("rb")

    def send(self, data):
        self.peer.sendall(data)

    def answer(self):
        """Whether an answer is ok, and its text."""
        (length,) = struct.unpack(">I", self.stream.read(4))
        payload = self.stream.read(length)
        return payload[:1] == b"\x00", payload[1:].decode()


class Serving(Case):
    def test_a_crowd_behind_a_task(self):
        """One client starts a task that waits for another's, and asks for ten thousand lists behind it; a second one starts the other task."""
        folder, made = self.work / "tasks", self.work / "made"
        write(folder, {
            "w.conf": f"task\nscript\nuntil [ -e {made} ]; do sleep 0.01; done\nend script\n",
            "m.conf": f"task\nscript\n: > {made}\nend script\n",
        })
        with self.running("crowd", folder) as run:
            first, second = Client(run.socket), Client(run.socket)
            # The daemon stops reading where many requests wait, so the bytes are sent beside.
            sending = threading.Thread(target=first.send, args=(frame(START, b"w") + frame(LIST) * MANY,), daemon=True)
            sending.start()
            second.send(frame(START, b"m"))
            self.check("a second client's task", second.answer(), (True, "m stop/waiting"))
            self.check("the first client's task", first.answer(), (True, "w stop/waiting"))
            lists = [first.answer() for _ in range(MANY)]
            self.check("each list is answered", sum(ok and len(text.splitlines()) == 2 for ok, text in lists), MANY)
            self.check("the last list", lists[-1], (True, "m stop/waiting\nw stop/waiting"))
            sending.join(30 * PATIENCE)
            self.check("all was taken", sending.is_alive(), False)
