"""Short bundles and single steps, with what `initd` prints for them and its status (docs/man/initd.8).

The worked rows stand in tests/rows, a bundle and what it prints each (docs/ROWS.md).
"""
import re

from harness import INITD, TOP, Case, initd, ran

SPAWNED = (
    'event starting JOB="a" INSTANCE=""\n'
    'spawn a main "/bin/d"\n'
    '  X="b c"\n'
    '  UPSTART_EVENTS="A"\n'
    '  UPSTART_JOB="a"\n'
    '  UPSTART_INSTANCE=""\n'
)
VERSION = 'reply 1 ok "init (upstart profile 1)"\n'

# What is a header, what a file, and what is told first.
BUNDLES = [
    (b'', '', 0),
    (b'%script', '', 0),
    (b'%file a.conf\nstart on startup\n', '', 0),
    (b'\n%file a.conf\n', '-:1: bad step\n', 2),
    (b'%file\n%script\nturn\n', '-:1: bad step\n', 2),
    (b'%script \n', '-:1: bad step\n', 2),
    (b'turn\n%script\nnonsense\n', '-:1: bad step\n', 2),
    (b'%file a.conf\nexec /bin/x\n%file \xff\n%script\nnonsense\n', '-:3: bad step\n', 2),
    (b'%file a.conf\nexec /bin/x\n%script\nturn\n\nnonsense\n%file b.conf\n', '-:6: bad step\n', 2),
    (b'%script\n%file a.conf\n', '-:2: bad step\n', 2),
    (b'%file  b.conf\n\nnonsense\n%script\nrequest 1 version\n', ' b.conf:1: 12 BadName\nreply 1 ok "init (upstart profile 1)"\n', 1),
    (b'%file b.conf\nnonsense\n%file a.conf\n\nexec /bin/x\nnonsense\n%script\nturn 0\n', 'a.conf:3: 1 UnknownStanza\nb.conf:1: 1 UnknownStanza\n-:8: bad step\n', 2),
    (b'%file a.conf\nexec /bin/x\n%file a.conf\n%script\nturn 0\n', 'initd: 21 SameName\n', 3),
    (b'%file a.conf\nexec /bin/x\n%scripts\n%script\n', 'a.conf:2: 1 UnknownStanza\n', 1),
    (b'%script\nended a "" main exit 0\nspawned a "" main 1\nrefused a "" main\n', 'refused 40 NotExpected\nrefused 40 NotExpected\nrefused 40 NotExpected\n', 0),
    (b'%script\n # "\'\\ \nrequest 1 list#"\n', 'reply 1 ok ""\n', 0),
    (b'%script\nturn\nturn # \xff\n', '', 0),
    (b'%script\nturn\nclock 1\x00\n', '-:3: bad step\n', 2),
    (b'%file a.conf\nstart on go\nstop on halt\nexec /bin/d x\n%script\nemit go B=1 \'A=b\'\\=c B=\nturn 3\nspawned a "" main 4294967295\nturn 3\nemit halt\nturn 3\n', 'event starting JOB="a" INSTANCE=""\nspawn a main "/bin/d" "x"\n  B=""\n  A="b=c"\n  UPSTART_EVENTS="go"\n  UPSTART_JOB="a"\n  UPSTART_INSTANCE=""\nevent started JOB="a" INSTANCE=""\nevent stopping JOB="a" INSTANCE="" RESULT="ok"\nsignal a 4294967295 TERM\n', 0),
]

# A line `%folder` begins the next folder. All are compiled before the first step, and each `load` takes the next one.
FOLDERS = [
    (b'%folder\n', '', 0),
    (b'%folder', '', 0),
    (b'%folder\n%file a.conf\nexec /bin/d\n%script\nrequest 1 list\nload 2\nrequest 3 list\n', 'reply 1 ok ""\nreply 2 ok ""\nreply 3 ok "a stop/waiting"\n', 0),
    (b'%file a.conf\nexec /bin/d\n%folder\n%folder\n%file b.conf\nexec /bin/d\n%script\nrequest 1 list\nload 2\nrequest 3 list\nload 18446744073709551615\nrequest 4 list\n', 'reply 1 ok "a stop/waiting"\nreply 2 ok ""\nreply 3 ok ""\nreply 18446744073709551615 ok ""\nreply 4 ok "b stop/waiting"\n', 0),
    (b'%file a.conf\nexec /bin/d\n%folder\n%file a.conf\nexec /bin/d\n%script\nload 1\n', 'reply 1 ok ""\n', 0),
    (b'%file a.conf\nexec /bin/d\n%folders\n%folder \n%script\n', 'a.conf:2: 1 UnknownStanza\n', 1),
    (b'%file a.conf\nexec /bin/d\n%folder\n\n%file b.conf\n%script\nnonsense\n', '-:4: bad step\n', 2),
    (b'%folder\nexec /bin/d\n', '-:2: bad step\n', 2),
    (b'%folder\n%file \xff\n%folder\nexec /bin/d\n', '-:2: bad step\n', 2),
    (b'\n%folder\n\n', '-:1: bad step\n', 2),
    (b'%script\nturn\n%folder\n', '-:3: bad step\n', 2),
    (b'%folder\n%script\nload 1\nload 1\nnonsense\n', '-:4: bad step\n', 2),
    (b'%folder\n%script\nturn\n\nload 1 2\n', '-:5: bad step\n', 2),
    (b'%folder\n%script\nload\n', '-:3: bad step\n', 2),
    (b'%file a.conf\nexec /bin/d\n%folder\n%script\nload 1 refused 32\nload 2 unread\nrequest 3 list\nload 4\nrequest 5 list\n', 'reply 1 failed "Configuration refused: 32"\nreply 2 failed "Configuration not read"\nreply 3 ok "a stop/waiting"\nreply 4 ok ""\nreply 5 ok ""\n', 0),
    (b'%script\nload 1 refused 0\nload 2 "unread"\n', 'reply 1 failed "Configuration refused: 0"\nreply 2 failed "Configuration not read"\n', 0),
    (b'%folder\n%script\nload 1 refused\n', '-:3: bad step\n', 2),
    (b'%folder\n%script\nload 1 refused 256\n', '-:3: bad step\n', 2),
    (b'%folder\n%script\nload 1 unread 1\n', '-:3: bad step\n', 2),
    (b'%folder\n%script\nload 1 refused 20 1\n', '-:3: bad step\n', 2),
    (b'%folder\n%script\nload refused 20\n', '-:3: bad step\n', 2),
    (b'%folder\n%script\nload 1\nload 1 Unread\n', '-:4: bad step\n', 2),
    (b'%folder\n%script\nload 18446744073709551616\n', '-:3: bad step\n', 2),
    (b'%file b.conf\nnonsense\n%folder\n%file a.conf\nexec /bin/d\nnonsense\n%script\nload 1\n', 'b.conf:1: 1 UnknownStanza\na.conf:2: 1 UnknownStanza\nreply 1 ok ""\n', 1),
    (b'%folder\n%file a.conf\nnonsense\n%script\nturn\nload one\n', 'a.conf:1: 1 UnknownStanza\n-:6: bad step\n', 2),
    (b'%file a.conf\nnonsense\n%folder\n%file b.conf\n%file b.conf\n%folder\n%file c.conf\nnonsense\n%script\nnonsense\n', 'initd: 21 SameName\n', 3),
    (b'%file a.conf\n%folder\n\n%folder\n%file a.conf\n%file a.conf\n', 'initd: 21 SameName\n', 3),
]

# A quoted piece goes on over line ends, and a run of blanks with a line end in it is one space.
QUOTED = [
    (b'%file a.conf\nstart on A\nexec /bin/d\n%script\nemit A X="b\n c"\nturn 3\n', SPAWNED, 0),
    (b"%file a.conf\nstart on A\nexec /bin/d\n%script\nemit A 'X=b\t\n\n c'\nturn 3\n", SPAWNED, 0),
    (b'%file a.conf\nstart on A\nexec /bin/d\n%script\nemit A X="b\\\n c" # "\nturn 3', SPAWNED, 0),
    (b"%file a.conf\nstart on A\nexec /bin/d\n%script\nemit A X='#\n%file b.conf\n#'\nturn 3\n", 'event starting JOB="a" INSTANCE=""\nspawn a main "/bin/d"\n  X="# %file b.conf #"\n  UPSTART_EVENTS="A"\n  UPSTART_JOB="a"\n  UPSTART_INSTANCE=""\n', 0),
    (b'%script\n"request" 1 \'version\n\'\nrequest 2 \'version\'\n', '-:2: bad step\n', 2),
]

# A backslash before a line end joins lines.
JOINED = [
    (b"%file a.conf\nstart on A\nexec /bin/d\n%script\nemit A X='b c'\nturn \\\n2\n", 'event starting JOB="a" INSTANCE=""\n', 0),
    (b"%file a.conf\nstart on A\nexec /bin/d\n%script\nemit A X='b c'\nturn \\\n2\nturn\n", SPAWNED, 0),
    (b"%file a.conf\nstart on A\nexec /bin/d\n%script\nemit\\\nA \\\n\\\n\tX='b c'\n\\\nturn\\\n3\\\n", SPAWNED, 0),
    (b'%script\nrequest 1 version\\\n', VERSION, 0),
    (b'%script\nrequest 1 version\\', '-:2: bad step\n', 2),
    (b'%script\nturn # a \\\nrequest 1 version\n', VERSION, 0),
]

# A bad step is told by the line on which it begins.
BAD = [
    (b'%script\nturn\n\nemit A X="b\nturn\n\nturn', '-:4: bad step\n', 2),
    (b"%script\nemit A 'b\nc'\nnonsense\n", '-:2: bad step\n', 2),
    (b'%script\nturn \\\n\\\n0\nnonsense\n', '-:2: bad step\n', 2),
    (b'%script\nturn \\\nemit X="b', '-:2: bad step\n', 2),
    (b'%script\nemit A X="b\n\nc"\nnonsense\nemit A "b', '-:5: bad step\n', 2),
    (b'%file a.conf\nexec /bin/d\n%script\nturn \\\n2\nnonsense\n', '-:6: bad step\n', 2),
    (b'%script\n\n# a "quote\n\t \nturn # b\n\n nonsense\n', '-:7: bad step\n', 2),
    (b'%script\nturn\n\\\n \\\nnonsense\n', '-:5: bad step\n', 2),
    (b'%script\n\n\n"', '-:4: bad step\n', 2),
]

# A line that is no text ends what is read, and is bad itself if no step before it is.
NO_TEXT = [
    (b'%script\nturn\nclock \xff\nnonsense\n', '-:3: bad step\n', 2),
    (b'%script\nturn\nclock 1\x00', '-:3: bad step\n', 2),
    (b'%script\nturn\nnonsense\n\n\xff\n', '-:3: bad step\n', 2),
    (b'%script\nemit A X="b\n\xff"\n', '-:2: bad step\n', 2),
    (b'%script\nturn \\\n\xff\n', '-:3: bad step\n', 2),
    (b'%script\nemit A X="b\nc"\n\xc3\n\xa9\n', '-:4: bad step\n', 2),
    (b'%script\n\xff\n\x00\n', '-:2: bad step\n', 2),
    (b'%script\nrequest 1 version # \xc3\xa9\n', VERSION, 0),
]

# A comment has any bytes, also if the script is no text.
COMMENTS = [
    (b'%script\n# \xff\x00 "\nrequest 1 version#\xff', VERSION, 0),
    (b"%file a.conf\nstart on A\nexec /bin/d\n%script\nemit A X='b\nc' # '\xff\nturn \\\n3", SPAWNED, 0),
    (b'%script\nturn # \xff\nnonsense\n', '-:3: bad step\n', 2),
    (b'%script\nturn # \xff \\\nnonsense\n', '-:3: bad step\n', 2),
    (b'%script\nturn \\\n# \xff\n2', '-:4: bad step\n', 2),
    (b'%script\n# \xff\nturn \\#\xff\n', '-:3: bad step\n', 2),
    (b"%script\n# \xff\nemit A X='#\xff'\n", '-:3: bad step\n', 2),
    (b'%script\nemit A X="b\n#\xff"\n', '-:2: bad step\n', 2),
    (b'%script\nemit A X="b\\"#\xff"\n', '-:2: bad step\n', 2),
    (b'%script\nturn # \xff\nturn \xff\nnonsense\n', '-:3: bad step\n', 2),
    (b'%script\nturn # \xff\nnonsense\nturn \xff\n', '-:3: bad step\n', 2),
]

# Lines that are steps, and what is answered where there is no job.
STEPS = [
    (b'turn', ''),
    (b'turn 1', ''),
    (b'turn 002', ''),
    (b'emit go', ''),
    (b'\t emit  go A=1\tA=2 _b3== # x', ''),
    (b'clock 0', ''),
    (b'clock 18446744073709551615', ''),
    (b'request 0 start a', 'reply 0 failed "Unknown job: a"\n'),
    (b'request 007 start --no-wait a K=V', 'reply 7 failed "Unknown job: a"\n'),
    (b'request 18446744073709551615 stop a', 'reply 18446744073709551615 failed "Unknown job: a"\n'),
    (b'request 1 stop --no-wait a', 'reply 1 failed "Unknown job: a"\n'),
    (b'request 1 restart a', 'reply 1 failed "Unknown job: a"\n'),
    (b'request 1 restart --no-wait a', 'reply 1 failed "Unknown job: a"\n'),
    (b'request 1 status a K=V', 'reply 1 failed "Unknown job: a"\n'),
    (b'request 1 status --no-wait', 'reply 1 failed "Unknown job: --no-wait"\n'),
    (b'request 1 list', 'reply 1 ok ""\n'),
    (b'request 1 emit go', ''),
    (b'request 1 emit --no-wait go K=', 'reply 1 ok ""\n'),
    (b'request 1 reload a', 'reply 1 failed "Unknown job: a"\n'),
    (b'request 1 reload a K=V', 'reply 1 failed "Unknown job: a"\n'),
    (b'request 1 reload --no-wait', 'reply 1 failed "Unknown job: --no-wait"\n'),
    (b'request 1 reload-configuration', 'reply 1 failed "Not supported: reload-configuration"\n'),
    (b'request 1 version', VERSION),
    (b'spawned a "" main 0', 'refused 40 NotExpected\n'),
    (b'spawned a i pre-start 4294967295', 'refused 40 NotExpected\n'),
    (b'refused a "" post-start', 'refused 40 NotExpected\n'),
    (b'refused a "" pre-stop', 'refused 40 NotExpected\n'),
    (b'refused a "" post-stop', 'refused 40 NotExpected\n'),
    (b'ended a "" main exit 0', 'refused 40 NotExpected\n'),
    (b'ended a "" main exit 255', 'refused 40 NotExpected\n'),
    (b'ended a "" main signal HUP', 'refused 40 NotExpected\n'),
    (b'ended a "" main signal SIGSYS', 'refused 40 NotExpected\n'),
    (b'ended a "" main signal 31', 'refused 40 NotExpected\n'),
    (b'ended a "" main signal 01', 'refused 40 NotExpected\n'),
    (b'# turn " \\ \'', ''),
]

# Lines that are none.
BAD_STEPS = [
    b'nonsense',
    b'""',
    b'Turn',
    b'turn 0',
    b'turn 1000001',
    b'turn +1',
    b'turn -1',
    b'turn 1 1',
    b'turn ""',
    b"turn 'a'",
    b'turn a\\',
    b'emit',
    b'emit ""',
    b'emit a(b',
    b'emit go K',
    b'emit go =V',
    b'emit go 1=V',
    b'emit go K="a',
    b'emit go ""',
    b'clock',
    b'clock -1',
    b'clock 18446744073709551616',
    b'clock 1 2',
    b'clock one',
    b'load',
    b'load 1',
    b'request',
    b'request 1',
    b'request one list',
    b'request 18446744073709551616 list',
    b'request 1 Start a',
    b'request 1 start',
    b'request 1 start --no-wait',
    b'request 1 start a --no-wait',
    b'request 1 start ""',
    b'request 1 start a K',
    b'request 1 list a',
    b'request 1 list --no-wait',
    b'request 1 version K=V',
    b'request 1 reload-configuration a',
    b'request 1 reload',
    b'request 1 status',
    b'request 1 emit',
    b'spawned a "" main',
    b'spawned a "" main 4294967296',
    b'spawned a "" main 1 1',
    b'spawned "" "" main 1',
    b'refused a "" Main',
    b'refused a "" main 1',
    b'ended a "" main exit 256',
    b'ended a "" main signal 0',
    b'ended a "" main signal 32',
    b'ended a "" main signal SIG9',
    b'ended a "" main killed 9',
]

TOPICS = [
    ("bundles", BUNDLES),
    ("folders after the first", FOLDERS),
    ("quoted pieces span lines", QUOTED),
    ("backslashes join lines", JOINED),
    ("a bad step is told where it begins", BAD),
    ("lines that are no text", NO_TEXT),
    ("comments have any bytes", COMMENTS),
]

# The rows of which a file is faulty; the status of all others is 0.
FAULTY = {"bad_expressions", "invalid_override"}


def replayed(bundle):
    """What initd prints for a bundle, as bytes, and its status."""
    made = ran([INITD], input=bundle, text=False)
    return made.stdout, made.returncode


ALONE = "%file a.conf\nstart on go\nexec /bin/d\n"
FAILING = "%file b.conf\nstart on go\nexec /bin/b\n"
WAITING = "%file a.conf\nstart on A and B\nexec /bin/d\n"


def lines_of(job, printed):
    """The lines of a job in what a replay prints: its starts with their environments, and its events."""
    lines, is_its = [], False
    for line in printed.splitlines():
        if not line.startswith("  "):
            is_its = line.startswith(f"spawn {job} ") or f'JOB="{job}"' in line
        if is_its:
            lines.append(line)
    return lines


class Bundles(Case):
    def test_rows(self):
        for path in sorted((TOP / "tests" / "rows").glob("*.bundle")):
            wanted = path.with_suffix(".out").read_bytes(), 1 if path.stem in FAULTY else 0
            self.check(f"row {path.stem}", replayed(path.read_bytes()), wanted)

    def test_rows_that_are_stored(self):
        """Each row of docs/ROWS.md that is to be stored, whose name may have `, by an event` behind it, and which may be two, is there."""
        names = re.findall(r"^\| ([^|]*) \|.*\bstored\b[^|]* \|$", (TOP / "docs" / "ROWS.md").read_text(), flags=re.M)
        wanted = {name for row in names for name in row.replace(", by an event", "_by_an_event").split(", ")}
        self.check("so many", len(wanted) >= 55, True)
        self.check("each is stored", {name for name in wanted if not (TOP / "tests" / "rows" / f"{name}.bundle").exists()}, set())

    def test_short_ones(self):
        for topic, cases in TOPICS:
            for place, (bundle, printed, status) in enumerate(cases):
                self.check(f"{topic}, at {place}", replayed(bundle), (printed.encode(), status))

    def test_steps(self):
        for line, printed in STEPS:
            self.check(f"step {line!r}", replayed(b"%script\n" + line + b"\n"), (printed.encode(), 0))
        for line in BAD_STEPS:
            self.check(f"no step: {line!r}", replayed(b"%script\n" + line + b"\n"), (b"-:2: bad step\n", 2))

    def test_a_job_beside_one_that_fails(self):
        """A job does the same alone, and beside one that the same event starts and that can't be started."""
        wanted = [
            'event starting JOB="a" INSTANCE=""',
            'spawn a main "/bin/d"',
            '  UPSTART_EVENTS="go"',
            '  UPSTART_JOB="a"',
            '  UPSTART_INSTANCE=""',
            'event started JOB="a" INSTANCE=""',
        ]
        alone = 'emit go\nturn\nturn 2\nspawned a "" main 100\nturn\n'
        beside = 'emit go\nturn\nturn 2\nturn 2\nrefused b "" main\nspawned a "" main 100\nturn\n'
        found, status = initd(stdin=f"{ALONE}%script\n{alone}")
        self.check("a job alone", (found.splitlines(), status), (wanted, 0))
        found, status = initd(stdin=f"{ALONE}{FAILING}%script\n{beside}")
        self.check("a job beside one that fails", (lines_of("a", found), status), (wanted, 0))
        self.check("the one that fails", 'event stopping JOB="b" INSTANCE="" RESULT="failed" PROCESS="main"' in found, True)

    def test_a_long_wait(self):
        """Between the two events that a job waits for a hundred thousand others come and go."""
        wanted = [
            'event starting JOB="a" INSTANCE=""',
            'spawn a main "/bin/d"',
            '  X="1"',
            '  UPSTART_EVENTS="A B"',
            '  UPSTART_JOB="a"',
            '  UPSTART_INSTANCE=""',
            'event started JOB="a" INSTANCE=""',
        ]
        script = "emit A X=1\nturn 2\n" + "emit Z\nturn 2\n" * 100_000 + 'emit B\nturn 3\nspawned a "" main 100\n'
        found, status = initd(stdin=f"{WAITING}%script\n{script}")
        self.check("a long wait", (found.splitlines(), status), (wanted, 0))

    def test_many_turns(self):
        """A hundred million turns that find no event take no time, and what comes after them is the same."""
        wanted = ['event starting JOB="a" INSTANCE=""', 'spawn a main "/bin/d"', '  UPSTART_EVENTS="go"', '  UPSTART_JOB="a"', '  UPSTART_INSTANCE=""', 'event started JOB="a" INSTANCE=""']
        script = "emit go\n" + "turn 1000000\n" * 100 + 'spawned a "" main 100\n'
        found, status = initd(stdin=f"%file a.conf\nstart on go\nexec /bin/d\n%script\n{script}")
        self.check("many turns", (found.splitlines(), status), (wanted, 0))
