"""initctl and what comes from its init: whole answers and those in pieces, ends of the connection, and words that can't be read."""
import contextlib
import os
import signal
import socket
import struct
import subprocess
import threading

from harness import INITCTL, INITD, PATIENCE, Case, ran, wait_for, write

LOST = ("", "initctl: Connection lost\n", 1)


def answer(status, text):
    """A reply as a frame: 0 if the request succeeded, else 1, and a text."""
    return struct.pack(">IB", 1 + len(text), status) + text


class Client(Case):
    def told(self, *pieces, pause=0.1):
        """What a client prints on each output, and its status, whose init answers with these pieces, one after another, and closes."""
        path = self.work / "fake.socket"
        path.unlink(missing_ok=True)
        with socket.socket(socket.AF_UNIX) as door:
            door.bind(str(path))
            door.listen()

            def serve():
                peer, _ = door.accept()
                with peer, contextlib.suppress(ConnectionError):
                    peer.recv(65_536)
                    for piece in pieces:
                        peer.sendall(piece)
                        threading.Event().wait(pause)

            serving = threading.Thread(target=serve, daemon=True)
            serving.start()
            made = ran([INITCTL, "--socket", path, "list"], seconds=30)
            serving.join(10)
        return made.stdout, made.stderr, made.returncode

    def test_answers(self):
        good = answer(0, b"a stop/waiting\nb stop/waiting")
        printed = ("a stop/waiting\nb stop/waiting\n", "", 0)
        for name, pieces, wanted in (
            ("in one piece", [good], printed),
            ("in two", [good[:12], good[12:]], printed),
            ("its length alone first", [good[:4], good[4:]], printed),
            ("half of its length first", [good[:2], good[2:]], printed),
            ("its last byte later", [good[:-1], good[-1:]], printed),
            ("byte by byte", [good[place : place + 1] for place in range(len(good))], printed),
            ("a refusal in two pieces", [answer(1, b"Unknown job: a")[:7], answer(1, b"Unknown job: a")[7:]], ("", "initctl: Unknown job: a\n", 1)),
            ("an empty text", [answer(0, b"")], ("", "", 0)),
            ("nothing", [], LOST),
            ("half of its length", [good[:2]], LOST),
            ("its length", [good[:4]], LOST),
            ("all but its last byte", [good[:-1]], LOST),
            ("a status that is none", [answer(2, b"a")], LOST),
            ("no status", [struct.pack(">I", 0)], LOST),
            ("what is no text", [answer(0, b"\xff")], LOST),
        ):
            self.check(name, self.told(*pieces, pause=0.01 if len(pieces) > 2 else 0.1), wanted)

    def test_an_init_that_dies(self):
        folder = self.work / "jobs"
        write(folder, {"slow.conf": "task\nexec sleep 1000\n"})
        with contextlib.ExitStack() as held:
            how = {"stdin": subprocess.DEVNULL, "stdout": subprocess.PIPE, "stderr": subprocess.PIPE, "text": True}
            path = self.work / "dies.socket"
            init = held.enter_context(subprocess.Popen([INITD, "run", folder, path], stdout=subprocess.DEVNULL, stderr=subprocess.DEVNULL))
            held.callback(init.kill)
            wait_for(path.exists)
            client = held.enter_context(subprocess.Popen([INITCTL, "--socket", path, "start", "slow"], **how))
            held.callback(client.kill)
            status = lambda: ran([INITCTL, "--socket", path, "status", "slow"]).stdout
            self.check("the task runs", wait_for(lambda: "start/running, process" in status()), True)
            pid = int(status().split()[-1])
            held.callback(os.kill, pid, signal.SIGKILL)
            init.kill()
            out, err = client.communicate(timeout=20 * PATIENCE)
            self.check("a client that waited is told", (out, err, client.returncode), LOST)
            made = ran([INITCTL, "--socket", path, "list"])
            self.check("and one that comes later", (made.stdout, made.stderr, made.returncode), ("", "initctl: Unable to connect\n", 1))

    def unreadable(self, program, *words):
        """What a program prints on each output, and its status, for words of bytes."""
        words = [bytes(program), *words]
        made = subprocess.run(words, capture_output=True, stdin=subprocess.DEVNULL, cwd=self.work, timeout=30 * PATIENCE)
        return made.stdout, made.stderr != b"", made.returncode

    def test_unreadable_words(self):
        """A word that isn't UTF-8 is a wrong command line, and nothing is printed or done."""
        for words in ([b"\xff"], [b"start", b"a\xff"], [b"emit", b"go", b"A=\xff"], [b"--socket", b"\xff", b"list"]):
            printed, _, status = self.unreadable(INITCTL, *words)
            self.check(f"initctl {words}", (printed, status), (b"", 2))
        for words in ([b"\xff"], [b"check", b"\xff"], [b"run", b"jobs", b"socket", b"--record", b"\xff"]):
            printed, _, status = self.unreadable(INITD, *words)
            self.check(f"initd {words}", (printed, status != 0, os.listdir(self.work)), (b"", True, []))

    def test_unreadable_words_are_said(self):
        """Both manuals have status 2 for them, with the error and the usage on standard error."""
        self.assertEqual([self.unreadable(program, b"\xff") for program in (INITD, INITCTL)], [(b"", True, 2)] * 2)
