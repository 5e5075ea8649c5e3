"""What command lines of initd ask for: options in any order, values that look like options, options that come again, and lines that are refused."""
import time

from harness import PATIENCE, Case, initd, initd_said, wait_for, write

JOB = "start on go\nexec /bin/d\n"
SCRIPT = "emit go\nturn 3\n"
FILES = {
    "jobs/a.conf": JOB,
    "-x/a.conf": JOB,
    "-x/b.conf": JOB,
    "check/a.conf": JOB,
    "a script": SCRIPT,
    "replay": SCRIPT,
    "a.bundle": f"%file a.conf\n{JOB}%script\n{SCRIPT}",
}


def started(*variables):
    """What a replay of the script prints, with these variables in the job's environment."""
    own = ['UPSTART_EVENTS="go"', 'UPSTART_JOB="a"', 'UPSTART_INSTANCE=""']
    lines = ['event starting JOB="a" INSTANCE=""', 'spawn a main "/bin/d"', *(f"  {it}" for it in (*variables, *own))]
    return "".join(f"{line}\n" for line in lines)


# The words with commas between them, and what is printed for them. The status is 0.
ASKED = [
    ("check,jobs", "1 jobs, 0 faults\n"),
    ("check,--,-x", "2 jobs, 0 faults\n"),
    ("replay,jobs/,a script", started()),
    ("replay,check,replay", started()),
    ("replay,jobs,a script,--env,A=1,--env,B=x=y,--env,A=", started('A=""', 'B="x=y"')),
    ("replay,--env,A=1,jobs,a script", started('A="1"')),
    ("replay,--bundle,a.bundle,--env,A=1", started('A="1"')),
    ("lint,--allow,crash-loop,--event,up,jobs,--allow,never-stopped,--event,go", ""),
    ("compile,jobs,jobs.image", "1 jobs, 0 faults\n"),
    ("check,jobs,--against,jobs.image", ""),
    ("replay,jobs.image,replay", started()),
    ("run,jobs.image,--verbose,first,--record,r,--rounds,3", ""),
    ("run,--quiet,jobs,second,--tell=t,--record=r,--record-over,--pause,0,--client-timeout=1,--rounds=2", ""),
]

# Lines that are refused, with status 2: nothing is done, and nothing is printed on standard output.
REFUSED = [
    "check",
    "check,a,b",
    "check,a,--against",
    "check,--explain,a,--against,b",
    "replay,a",
    "replay,a,b,c",
    "replay,--bundle,a,b",
    "chart,a",
    "blame,a,b,--bundle",
    "replay,a,b,--env,A",
    "replay,a,b,--env,1=2",
    "check,a,--env,A=1",
    "lint,a,--allow,crash-loops",
    "compile,a",
    "show",
    "chek,a",
    "a.bundle",
    "--fast",
    "check,--fast,a",
]


class CommandLines(Case):
    def setUp(self):
        super().setUp()
        write(self.work, FILES)

    def test_asked(self):
        for line, wanted in ASKED:
            self.check(f"initd {line.replace(',', ' ')}", initd_said(*line.split(","), cwd=self.work), (wanted, "", 0))
        self.check("--record wrote a record, and --tell a file", [(self.work / name).is_file() for name in ("r", "t")], [True, True])
        self.check("initd --version", initd_said("--version", cwd=self.work), ("initd 1.0.0\n", "", 0))
        printed, said, status = initd_said("--help", cwd=self.work)
        self.check("initd --help", ("Usage: initd" in printed, said, status), (True, "", 0))

    def test_refused(self):
        for line in REFUSED:
            printed, said, status = initd_said(*line.split(","), cwd=self.work)
            self.check(f"initd {line.replace(',', ' ')} is refused", (printed, bool(said), status), ("", True, 2))

    def test_a_pause_that_is_left_out(self):
        """Without `--pause` a pause grows to 10 milliseconds: 200 quiet rounds take 1.7 seconds, 0.2 at most 1 millisecond, and 13 at most 100."""
        begun = time.monotonic()
        ended = initd_said("run", "jobs", "quiet", "--rounds", "200", cwd=self.work)
        self.check("initd run without --pause", (ended, 1.2 < time.monotonic() - begun < 8 * PATIENCE), (("", "", 0), True))

    def test_statuses(self):
        folder, script = self.work / "jobs", self.work / "replay"
        shown = initd("replay", folder, script, "--env", "A=1", "--env", "A=2 3")
        self.check("replay with variables", shown, (started('A="2 3"'), 0))
        self.check("a word that is no variable", initd("replay", folder, script, "--env", "A")[1], 2)
        for words, said in (
            (("replay", folder), "SCRIPT is missing; "),
            (("chart", folder), "RECORD is missing; "),
            (("replay", "--bundle", folder, script), "--bundle takes one file"),
            (("blame", "--bundle", folder, script), "--bundle takes one file"),
        ):
            out, err, status = initd_said(*words)
            self.check(f"{' '.join(map(str, words[:2]))}: it is said which word is wrong", (out, said in err, status), ("", True, 2))
        self.check("a key that is none", initd("replay", folder, script, "--env", "1=2")[1], 2)
        self.check("a bad option", initd("run", folder, "s", "--loud")[1], 2)
        write(self.work / "faulty", {"x.conf": "setuid root\n", "y.conf": "exec y\n"})
        said = ("x.conf:1: 2 NotInProfile\n1 jobs, 1 faults\n", 1)
        self.check("check of a faulty folder", initd("check", self.work / "faulty"), said)
        self.check("compile of a faulty folder", initd("compile", self.work / "faulty", self.work / "faulty.image"), said)
        self.check("its image is there", initd("show", self.work / "faulty.image")[0].startswith("%file y.conf\n"), True)
        ended = initd("run", self.work / "faulty", self.work / "faulty.socket", "--rounds", "3")
        self.check("run of a faulty folder", ended, ("x.conf:1: 2 NotInProfile\n", 1))
        write(self.work / "faulty", {"z.conf": "start on startup\nexec sleep 1000\n"})
        with self.running("is-run", self.work / "faulty") as run:
            self.check("a faulty folder is run", wait_for(lambda: run.ask("status", "z") == ("z start/running, process PID\n", 0)), True)
            self.check("without the faulty job", run.ask("list"), ("y stop/waiting\nz start/running, process PID\n", 0))
