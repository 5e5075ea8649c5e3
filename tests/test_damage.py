#!/usr/bin/env python3
"""Damages images and frames, and gives them to the built programs.

An image is either refused, with one of the five refusals that images have, or it is one that job files give: then the files that
`initd show` prints are compiled to the same bytes again. A frame is answered if it is a request by a reader that stands here, and else its client is
closed, or heard no more. Run as a program it tries each other value of each byte, each length, and so many
images with two bytes changed at random (10,000 if no number is given), from a seed that it prints: `tests/test_damage.py 100`.
"""
import os
import random
import re
import shutil
import socket
import sys
import unittest

from harness import INITD, TOP, Case, initd, ran, write

REFUSALS = re.compile(rb"initd: (30 BadMagic|31 BadVersion|32 Truncated|33 Trailing|34 BadTable)\n")

# The image of one service, and the files of a folder with every field used.
SMALL = bytes.fromhex(
    "55505442 0002 0001 00000071 00000001 61 00 00000000 00000000 0000000a 00000005 0f 01 00000005 0000 0000 0000"
    "01 0002 00000009 2f62696e2f74727565 00000001 78 00 00 00 00 0001 00 00000007 73746172747570 0000 0000"
    "00000001 00000007 73746172747570 00000001 0000 01 0000"
)
WHOLE = {
    "a.conf": (
        "task\nrespawn\nrespawn limit 3 60\nconsole none\ninstance $N\nchdir /tmp\nkill signal INT\nkill timeout 9\nreload signal USR1\n"
        "env A=b\nenv C\nexport A C\nnormal exit 0 TERM\n"
        "exec /bin/d one two\npre-start exec /bin/e $A\npost-start script\n  true\nend script\npre-stop exec /bin/f\npost-stop exec /bin/g\n"
        "start on a X=1 and (b Y!=2 or c 3)\nstop on halt or stopped a\n"
    ),
    "net/b.conf": "start on a\nexec /bin/h\n",
}


# The image of that service in version 1, as programs before version 2 wrote it.
OLD = TOP / "tests" / "images" / "version-1.image"


def renewed(data):
    """The image of version 2 for that of one job in version 1: with HUP after the kill signal, before which its number parts stand."""
    at = 12
    for flags in (1, 0, 0):
        at += 4 + int.from_bytes(data[at : at + 4], "big") + flags
    at += 9
    return data[:4] + b"\0\2" + data[6:8] + (len(data) + 1).to_bytes(4, "big") + data[12:at] + b"\1" + data[at:]


class Trial:
    """Tries damaged images, and counts how they were answered."""

    def __init__(self, work):
        self.image, self.folder, self.again = work / "image", work / "jobs", work / "again"
        self.refused, self.read, self.wrong = 0, 0, []

    def give(self, data, name):
        self.image.write_bytes(data)
        # Bytes, since a text's line ends would be changed.
        made = ran([INITD, "show", self.image], text=False)
        printed, status = made.stdout, made.returncode
        if status == 3 and REFUSALS.fullmatch(printed):
            self.refused += 1
            return
        if status == 0 and self.is_given_by(printed, data):
            self.read += 1
        else:
            self.wrong.append((name, status, printed[:80]))

    def is_given_by(self, printed, data):
        """Whether the files that were printed give the image. A path that no disk has, as `/.conf`, can be in a bundle alone: it has no fault there."""
        parts = [part.split(b"\n", 1) for part in re.split(rb"^%file ", printed, flags=re.M)[1:]]
        if any(step in (b"", b".", b"..") for path, _ in parts for step in path.split(b"/")):
            return ran([INITD], input=printed + b"%script\n", text=False).returncode == 0
        shutil.rmtree(self.folder, ignore_errors=True)
        for path, text in parts:
            whole = self.folder / os.fsdecode(path)
            whole.parent.mkdir(parents=True, exist_ok=True)
            whole.write_bytes(text)
        self.again.unlink(missing_ok=True)
        made = initd("compile", self.folder, self.again)[1]
        return made == 0 and self.again.read_bytes() == (renewed(data) if data[5] == 1 else data)


def replaced(data, values, count=None):
    """The data with each byte, or each of so many first ones, replaced by each of these values that it hasn't."""
    for at, byte in enumerate(data[:count]):
        for value in values(byte):
            if value != byte:
                yield f"byte {at} is {value}", data[:at] + bytes([value]) + data[at + 1 :]


def near(byte):
    return {0, 255, (byte + 1) % 256, (byte - 1) % 256, byte ^ 0x80, byte ^ 0x20}


def cut(data):
    """The data cut at each length, and a byte longer."""
    for length in range(len(data)):
        yield f"the first {length} bytes", data[:length]
    yield "a byte more", data + b"\0"


def at_random(data, times, chance):
    for _ in range(times):
        changed = bytearray(data)
        for at in chance.sample(range(len(data)), 2):
            changed[at] = chance.randrange(256)
        yield f"{changed.hex()}", bytes(changed)


# A request `start a`, and one with variables.
START = bytes.fromhex("00000007 01 00 0001 61 0000")
VARIABLES = bytes.fromhex("00000018 04 00 0003 7765 62 0002 0001 4b 0001 76 0002 4b32 0003 e282ac")
NAME = re.compile(rb"[!%&*-<>-\[\]-~]+")
KEY = re.compile(rb"[A-Za-z_][A-Za-z0-9_]*")


def short(data, at):
    """A short text and where it ends, or None."""
    if at + 2 > len(data):
        return None
    end = at + 2 + int.from_bytes(data[at : at + 2], "big")
    return (data[at + 2 : end], end) if end <= len(data) else None


def is_value(text):
    try:
        return "\0" not in text.decode()
    except UnicodeDecodeError:
        return False


def is_request(payload):
    """Whether a payload is a request."""
    if len(payload) < 2 or not 1 <= payload[0] <= 9 or payload[1] > (1 if payload[0] in (1, 2, 3, 6) else 0):
        return False
    named = short(payload, 2)
    if named is None or named[1] + 2 > len(payload):
        return False
    name, at = named
    count, at = int.from_bytes(payload[at : at + 2], "big"), at + 2
    keys = []
    for _ in range(count):
        key = short(payload, at)
        value = short(payload, key[1]) if key else None
        if not value or not KEY.fullmatch(key[0]) or not is_value(value[0]):
            return False
        keys.append(key[0])
        at = value[1]
    if at != len(payload) or len(set(keys)) != len(keys):
        return False
    return (name == b"" and count == 0) if payload[0] in (5, 8, 9) else NAME.fullmatch(name) is not None


def answer_to(data):
    """What a client that sends this gets: an answer, its end, or nothing yet."""
    if len(data) < 4:
        return "nothing yet"
    length = int.from_bytes(data[:4], "big")
    if length > 65_536:
        return "its end"
    if len(data) < 4 + length:
        return "nothing yet"
    return "an answer" if is_request(data[4 : 4 + length]) else "its end"


def got(path, data, wanted):
    """What a client gets that sends this: nothing yet, if it gets its end only once it has ended its own side."""
    with socket.socket(socket.AF_UNIX) as peer:
        peer.connect(str(path))
        peer.sendall(data)
        try:
            peer.settimeout(0.05 if wanted == "nothing yet" else 5)
            return "an answer" if peer.recv(65_536) else "its end"
        except TimeoutError:
            peer.settimeout(5)
            peer.shutdown(socket.SHUT_WR)
            return "nothing yet" if peer.recv(65_536) == b"" else "an answer"


# How a byte is changed, how many bytes of an image, how many images have two others, and the seed of those: in a test, and in a long trial.
SHORT, LONG = (near, 113, 100, 1), (lambda byte: range(256), None, 10_000, random.randrange(1 << 32))


class Damage(Case):
    how = SHORT

    def tried(self, name, changes):
        trial = Trial(self.work)
        for what, data in changes:
            trial.give(data, what)
        self.check(f"{name}: {trial.refused:,} refused, {trial.read:,} read, no other answer", trial.wrong[:3], [])

    def test_images(self):
        """The image of one service, also in version 1, and that of a folder with every field used."""
        values, count, times, seed = self.how
        chance = random.Random(seed)
        folder, image = self.work / "whole", self.work / "whole.image"
        write(folder, WHOLE)
        self.check("every field is compiled", initd("compile", folder, image), ("2 jobs, 0 faults\n", 0))
        self.check("the image of version 1 says the same", renewed(OLD.read_bytes()), SMALL)
        for name, data in ("one service", SMALL), ("one service in version 1", OLD.read_bytes()), ("every field", image.read_bytes()):
            self.tried(f"{name}, as it is", [("nothing", data)])
            self.tried(f"{name}, cut", cut(data))
            self.tried(f"{name}, other bytes", replaced(data, values, count))
            self.tried(f"{name}, two bytes", at_random(data, times, chance))

    def test_frames(self):
        """A request, and one with variables, with each byte changed, and cut at each length."""
        folder = self.work / "empty"
        folder.mkdir()
        with self.running("frames", folder) as run:
            for name, data in (("start a", START), ("status with variables", VARIABLES)):
                wrong, answers = [], {}
                others = *replaced(data, self.how[0]), *((f"the first {n} bytes", data[:n]) for n in range(1, len(data)))
                for what, sent in [("as it is", data), *others]:
                    wanted = answer_to(sent)
                    answers[wanted] = answers.get(wanted, 0) + 1
                    if got(run.socket, sent, wanted) != wanted:
                        wrong.append((what, wanted))
                told = ", ".join(f"{count:,} got {what}" for what, count in sorted(answers.items()))
                self.check(f"{name}: {told}, no other answer", wrong[:3], [])
            self.check("the init goes on", run.ask("version"), ("init (upstart profile 1)\n", 0))


if __name__ == "__main__":
    values, count, times, seed = LONG
    if len(sys.argv) > 1:
        times = int(sys.argv.pop(1))
    Damage.how = values, count, times, seed
    print(f"seed {seed}")
    unittest.main()
