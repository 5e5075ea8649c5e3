"""`initd chart` and `initd blame`: a record's picture and its starts, worked out by hand; what they refuse; and that a long record takes no long time."""
import time
import xml.etree.ElementTree

from harness import PATIENCE, TOP, Case, examples, initd, write

FILES = {
    "a.conf": "start on startup\nexec /bin/a\npost-start exec /bin/ready\n",
    "b.conf": "start on started a\nrespawn\nexec /bin/b\n",
}
# a runs main from 0 to the end, and is up after 100 ms; b crashes after 500 ms and is stopped after 800.
RECORD = """clock 1000
emit startup
turn 20
clock 1010
spawned a "" main 100
turn 20
clock 1050
spawned a "" post-start 101
clock 1100
ended a "" post-start exit 0
turn 20
clock 1130
spawned b "" main 102
turn 20
clock 1500
ended b "" main signal SEGV
turn 20
clock 1520
spawned b "" main 103
turn 20
clock 1800
request 1 stop b
turn 20
clock 2000
ended b "" main signal TERM
turn 20
"""
HEAD = '<svg xmlns="http://www.w3.org/2000/svg" width="1191" height="120" font-family="sans-serif" font-size="11">'
DRAWN = """<g transform="translate(31,44)">
<path class="tick" d="M0 0V44"/><text class="time" x="0" y="58">0 ms</text>
<path class="tick" d="M200 0V44"/><text class="time" x="200" y="58">200 ms</text>
<path class="tick" d="M400 0V44"/><text class="time" x="400" y="58">400 ms</text>
<path class="tick" d="M600 0V44"/><text class="time" x="600" y="58">600 ms</text>
<path class="tick" d="M800 0V44"/><text class="time" x="800" y="58">800 ms</text>
<path class="tick" d="M1000 0V44"/><text class="time" x="1000" y="58">1000 ms</text>
<path class="line" d="M0 0h1000"/><text class="name" x="-8" y="14">a</text>
<path class="line" d="M0 20h1000"/><text class="name" x="-8" y="34">b</text>
<rect class="spawned" x="0" y="3" width="10" height="14"><title>spawned, 0 to 10 ms</title></rect>
<rect class="post-start" x="10" y="3" width="90" height="14"><title>post-start, 10 to 100 ms</title></rect>
<rect class="spawned" x="100" y="23" width="30" height="14"><title>spawned, 100 to 130 ms</title></rect>
<rect class="running" x="130" y="23" width="370" height="14"><title>running, 130 to 500 ms</title></rect>
<rect class="spawned" x="500" y="23" width="20" height="14"><title>spawned, 500 to 520 ms</title></rect>
<rect class="running" x="520" y="23" width="280" height="14"><title>running, 520 to 800 ms</title></rect>
<rect class="stopping" x="800" y="23" width="200" height="14"><title>stopping, 800 to 1000 ms</title></rect>
<rect class="running" x="100" y="3" width="900" height="14"><title>running, 100 to 1000 ms</title></rect>
<path class="arrow" d="M0 -8V3"/>
<path class="arrow" d="M100 10V23"/>
<text class="by" dx="3" x="0" y="13">startup</text>
<text class="by" dx="3" x="100" y="33">started</text>
<path class="crash" d="M500 24l5 11h-10z"><title>main failed</title></path>
<path class="signal" d="M800 22v16"><title>TERM</title></path>
</g>
</svg>
"""
BLAMED = "100 ms a\n 30 ms b\n 20 ms b\n"


def drawn(text):
    """What a picture has after what its colours say."""
    return text[text.index("<g ") :]


STOPPED = """clock 10
emit go X=<&>
turn 20
clock 12
emit halt
turn 20
clock 15
ended c "<&>" pre-start signal KILL
turn 20
clock 17
emit go X=<&>
turn 20
ended c "<&>" pre-start exit 0
turn 20
refused c "<&>" main
turn 20
"""


ARROWS = {
    "a.conf": "start on startup\nexec /bin/a\n",
    "b.conf": "start on go and started a\nexec /bin/b\n",
    "c.conf": "start on startup or started d\nstop on halt\nexec /bin/c\n",
    "d.conf": "exec /bin/d\n",
    "e.conf": "start on started a and started d\nexec /bin/e\n",
}
# The rows are a, c, b, d, e, and the run takes 1,000 ms, so that x is the time. b waits for a from 100 to 200; c is started by startup, and again
# by d, whose row is below its own; a client starts d; of e's two events only the last is known.
ARROWS_RECORD = """clock 0
emit startup
turn 20
clock 100
request 1 emit go
turn 20
clock 200
spawned a "" main 1
spawned c "" main 2
turn 20
clock 300
spawned b "" main 3
emit halt
turn 20
clock 400
ended c "" main signal TERM
turn 20
request 2 start d
turn 20
clock 500
spawned d "" main 4
turn 20
clock 1000
"""
ARROWS_DRAWN = ["M0 -8V3", "M0 -8V23", "M200 10V43", "M100 -8V50H200", "M400 -8V63", "M500 70V37", "M500 70V83"]

UNKNOWN = {
    "a.conf": "exec /bin/a\n",
    "b.conf": "exec /bin/b\n",
    "f.conf": "start on go/failed\nexec /bin/f\n",
    "h.conf": "task\nstart on starting s\nexec /bin/h\n",
    "p.conf": "start on started a\nstop on stopping b\npost-stop exec /bin/post\nexec /bin/p\n",
    "q.conf": "task\nstart on starting p\nexec /bin/q\n",
    "s.conf": "start on started a\nexec /bin/s\n",
    "t.conf": "task\nstart on go\nexec /bin/t\n",
}
# The rows are b, a, p, s, q, h, t, f. q and h hold p and s from 100 on. Before s has a process a is started again, at 300, and before p has one b stops,
# which stops p: so neither has an arrow from a row. A client starts b, and a twice. `go/failed` is the init's own, and comes from outside.
UNKNOWN_RECORD = """clock 0
request 1 start b
turn 20
spawned b "" main 1
turn 20
request 2 start a
turn 20
clock 100
spawned a "" main 2
turn 20
clock 200
spawned q "" main 3
spawned h "" main 4
turn 20
request 3 stop a
turn 20
ended a "" main signal TERM
turn 20
request 4 start a
turn 20
clock 300
spawned a "" main 5
turn 20
clock 400
request 5 stop b
turn 20
ended b "" main signal TERM
turn 20
clock 500
ended q "" main exit 0
turn 20
spawned p "" post-stop 6
ended p "" post-stop exit 0
turn 20
clock 600
ended h "" main exit 0
turn 20
spawned s "" main 7
turn 20
clock 700
emit go
turn 20
spawned t "" main 8
turn 20
clock 800
ended t "" main exit 1
turn 20
clock 1000
"""
UNKNOWN_DRAWN = ["M0 -8V3", "M0 -8V23", "M100 50V83", "M100 70V103", "M200 -8V23", "M700 -8V123", "M800 -8V143"]

OFTEN = {"k.conf": "start on A and B\nexec /bin/k\n", "l.conf": "start on go\nexec /bin/l\n"}
# The rows are l, k. The `go` at 200 finds l running. The first life of k has an arrow from B alone, as A came twice; the second from both.
OFTEN_RECORD = """clock 0
emit A
turn 20
clock 100
emit A
emit go
turn 20
spawned l "" main 1
turn 20
clock 200
emit go
turn 20
clock 300
ended l "" main exit 0
turn 20
clock 400
emit go
turn 20
spawned l "" main 2
turn 20
clock 500
emit B
turn 20
clock 600
spawned k "" main 3
ended k "" main exit 0
turn 20
emit A
turn 20
clock 700
emit B
turn 20
clock 1000
"""
OFTEN_DRAWN = ["M100 -8V3", "M400 -8V3", "M500 -8V23", "M600 -8V30H700", "M700 -8V23"]


def found(text, mark):
    """What the lines with a mark say between its end and the next quote."""
    return [line.split(mark, 1)[1].split('"', 1)[0] for line in drawn(text).splitlines() if mark in line]


def names(text):
    return [line.split(">")[-2].split("<")[0] for line in drawn(text).splitlines() if 'class="name"' in line]


class Charts(Case):
    def test_pictures(self):
        jobs, record = self.work / "jobs", self.work / "boot.record"
        write(jobs, FILES)
        record.write_text(RECORD)
        text, status = initd("chart", jobs, record)
        self.check("chart: how large it is", (text.splitlines()[0], status), (HEAD, 0))
        self.check("chart: what is drawn", drawn(text), DRAWN)
        self.check("blame: the longest first", initd("blame", jobs, record), (BLAMED, 0))
        initd("compile", jobs, self.work / "jobs.image")
        self.check("chart: of an image", initd("chart", self.work / "jobs.image", record), (text, 0))
        self.check("blame: of an image", initd("blame", self.work / "jobs.image", record), (BLAMED, 0))
        record.write_text("")
        text, status = initd("chart", jobs, record)
        wanted = '<g transform="translate(24,44)">\n<path class="tick" d="M0 0V4"/><text class="time" x="0" y="18">0 ms</text>\n'
        wanted += '<path class="tick" d="M1000 0V4"/><text class="time" x="1000" y="18">1 ms</text>\n</g>\n</svg>\n'
        self.check("chart: nothing happened", (drawn(text), status), (wanted, 0))
        self.check("blame: nothing happened", initd("blame", jobs, record), ("", 0))

    def test_signs(self):
        """A start that is broken off, a main process that can't be started, and names that XML has to have written otherwise."""
        jobs, record = self.work / "signs", self.work / "signs.record"
        write(jobs, {"c.conf": "start on go\nstop on halt\ninstance $X\npre-start exec /bin/pre\nexec /bin/c\n"})
        record.write_text(STOPPED.replace("ended c", 'spawned c "<&>" pre-start 7\nended c'))
        text, status = initd("chart", jobs, record)
        self.check("chart: names are escaped", (text.count(">c (&lt;&amp;&gt;)</text>"), text.count(">go</text>"), status), (1, 2, 0))
        root = xml.etree.ElementTree.fromstring(text)
        names = [part.text for part in root.iter("{http://www.w3.org/2000/svg}text") if part.get("class") == "name"]
        self.check("chart: a name as XML reads it", names, ["c (<&>)"])
        self.check("chart: main can't be started", text.count("<title>main failed</title>"), 1)
        self.check("blame: no start came to its end", initd("blame", jobs, record), ("", 0))

    def test_arrows(self):
        """From where and when an event came that started an instance, to where and when its life began."""
        cases = {
            "arrows": (ARROWS, ARROWS_RECORD, ["a", "c", "b", "d", "e"], ARROWS_DRAWN),
            "unknown": (UNKNOWN, UNKNOWN_RECORD, ["b", "a", "p", "s", "q", "h", "t", "f"], UNKNOWN_DRAWN),
            "often": (OFTEN, OFTEN_RECORD, ["l", "k"], OFTEN_DRAWN),
        }
        lives = {"arrows": 5, "unknown": 6, "often": 4}
        for name, (files, steps, rows, wanted) in cases.items():
            jobs, record = self.work / name, self.work / f"{name}.record"
            write(jobs, files)
            record.write_text(steps)
            text, status = initd("chart", jobs, record)
            self.check(f"chart: rows of {name}", (names(text), status), (rows, 0))
            self.check(f"chart: arrows of {name}", found(text, '<path class="arrow" d="'), wanted)
            started = [line for line in drawn(text).splitlines() if 'class="by"' in line]
            self.check(f"chart: lives of {name} that events started", len(started), lives[name])

    def test_refusals(self):
        jobs, record = self.work / "jobs", self.work / "bad.record"
        write(jobs, FILES)
        record.write_text("emit startup\nbogus\n")
        away = self.work / "away"
        write(self.work / "faulty", FILES | {"x.conf": "setuid root\n"})
        good = self.work / "good.record"
        good.write_text(RECORD)
        bad = self.work / "bad.image"
        bad.write_bytes(b"no image")
        for command in ("chart", "blame"):
            self.check(f"{command}: a bad step", initd(command, jobs, record), (f"{record}:2: bad step\n", 2))
            self.check(f"{command}: no folder", initd(command, away, good), (f"initd: cannot use {away}\n", 3))
            self.check(f"{command}: no record", initd(command, jobs, away), (f"initd: cannot use {away}\n", 3))
            self.check(f"{command}: no image", initd(command, bad, good), ("initd: 30 BadMagic\n", 3))
            wanted = f"x.conf:1: 2 NotInProfile\n{record}:2: bad step\n", 2
            self.check(f"{command}: faulty files and a bad step", initd(command, self.work / "faulty", record), wanted)
        text, status = initd("chart", self.work / "faulty", good)
        self.check("chart: faulty files", (drawn(text), status), (DRAWN, 1))
        self.check("blame: faulty files", initd("blame", self.work / "faulty", good), (BLAMED, 1))

    def test_long_record(self):
        """A service that crashes and comes up again seven thousand times: more than a hundred thousand inputs."""
        jobs, record = self.work / "long", self.work / "long.record"
        write(jobs, {"d.conf": "start on startup\nrespawn\nrespawn limit unlimited\nexec /bin/d\n"})
        lines = ["clock 0", "emit startup", "turn 20", 'spawned d "" main 1', "turn 20"]
        for place in range(1, 7_001):
            lines += [f"clock {place}", 'ended d "" main exit 1', "turn 4", "turn 4", 'spawned d "" main 1', "turn 4"]
        record.write_text("\n".join(lines) + "\n")
        begun = time.monotonic()
        text, status = initd("chart", jobs, record)
        took = time.monotonic() - begun
        self.check("chart: a long record", (text.count('class="running"'), text.count("<title>main failed"), status), (7_001, 7_000, 0))
        self.check("chart: it takes less than two seconds", took < 2 * PATIENCE, True)
        self.check("blame: a long record", initd("blame", jobs, record), ("0 ms d\n" * 7_001, 0))

    def test_examples(self):
        """The pictures of the documents, and the starts of the examples."""
        folders = examples(self.work)
        server, distribution = ([folders[name], TOP / "examples" / f"{name}.record"] for name in ("server", "distribution"))
        text, status = initd("chart", *server)
        self.check("chart: the picture of the documents", (text, status), ((TOP / "docs" / "boot.svg").read_text(), 0))
        self.check("chart: XML reads it", xml.etree.ElementTree.fromstring(text).tag, "{http://www.w3.org/2000/svg}svg")
        self.check_stored("blame", "blame", server, "server")
        # Nine files of the distribution are faulty.
        self.check_stored("chart", "svg", distribution, "distribution", 1)
        self.check_stored("blame", "blame", distribution, "distribution", 1)
