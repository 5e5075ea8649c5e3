"""`initd lint`: a folder with and one without each kind of warning, worked out by hand; lines, order, options and refused folders."""
from harness import Case, examples, initd, write

RUN = "exec /bin/d\n"

# What a folder shows, its files, the options, and what is printed.
CASES = [
    (
        "unknown-event",
        {"a.conf": f"# a job\nstart on (startup\n   and go)\nstop on halt\n{RUN}"},
        [],
        "a.conf:2: warning: unknown-event: nothing gives the event `go`\na.conf:4: warning: unknown-event: nothing gives the event `halt`\n",
    ),
    (
        "events that come",
        {
            "a.conf": f"start on startup or go or said or go/failed or outer or started b\n{RUN}",
            "b.conf": f"emits other go\nstart on outer or shout\npost-start exec initctl emit --no-wait said\n{RUN}",
        },
        ["--event", "outer", "--event", "shout"],
        "",
    ),
    (
        "an event that is named twice",
        {"a.conf": f"start on go A=1 or (go A=2 and gone)\n{RUN}"},
        [],
        "a.conf:1: warning: unknown-event: nothing gives the event `go`\na.conf:1: warning: unknown-event: nothing gives the event `gone`\n",
    ),
    (
        "unknown-job",
        {"a.conf": f"start on started b\nstop on stopping JOB=c or stopping JOB=d*\n{RUN}"},
        [],
        "a.conf:1: warning: unknown-job: there is no job `b`\na.conf:2: warning: unknown-job: there is no job `c`\n",
    ),
    (
        "jobs that are there, or may be",
        {"a.conf": f"start on started b or starting $X or stopped JOB!=c\n{RUN}", "b.conf": f"start on startup\n{RUN}"},
        [],
        "",
    ),
    ("never-started", {"a.conf": f"\n{RUN}", "b.conf": "exec start b\n"}, [], "a.conf:1: warning: never-started: nothing starts the job `a`\nb.conf:1: warning: never-started: nothing starts the job `b`\n"),
    (
        "jobs that are started by hand or by commands",
        {
            "a.conf": f"manual\n{RUN}",
            "b.conf": RUN,
            "c.conf": RUN,
            "d.conf": "start on startup\nexec initctl start --no-wait b\npost-stop script\n  start c; true\nend script\n",
            "e.conf": RUN,
            "e.override": "manual\n",
        },
        [],
        "",
    ),
    (
        "unset-export",
        {"a.conf": f"start on startup\nenv A=1\nexport A B\nexport C\n{RUN}"},
        [],
        "a.conf:3: warning: unset-export: nothing sets the variable `B`\na.conf:4: warning: unset-export: nothing sets the variable `C`\n",
    ),
    (
        "exports that stand elsewhere",
        {
            "a.conf": "start on startup or started b D=1\ninstance $E\nexport A C D E F JOB\nenv A\nexec /bin/d ${F}\n",
            "b.conf": f"start on startup\nenv C=1\n{RUN}",
        },
        [],
        "",
    ),
    (
        "crash-loop",
        {
            "a.conf": f"start on startup\nrespawn\nrespawn limit 5 10\nrespawn limit unlimited\n{RUN}",
            "b.conf": f"start on startup\nrespawn limit 0 5\nrespawn\n{RUN}",
            "c.conf": f"start on startup\nrespawn\n{RUN}",
            "c.override": "respawn limit 3 0\n",
        },
        [],
        "a.conf:4: warning: crash-loop: nothing limits the respawns of the job `a`\n"
        "b.conf:2: warning: crash-loop: nothing limits the respawns of the job `b`\n"
        "c.override:1: warning: crash-loop: nothing limits the respawns of the job `c`\n",
    ),
    (
        "respawns with a limit, and a limit without respawns",
        {"a.conf": f"start on startup\nrespawn limit unlimited\n{RUN}", "b.conf": f"start on startup\nrespawn\n{RUN}"},
        [],
        "",
    ),
    (
        "blocks-itself",
        {"a.conf": f"start on startup\nstop on starting JOB=a\n{RUN}", "b.conf": f"start on startup or stopping b\n{RUN}"},
        [],
        "a.conf:2: warning: blocks-itself: the job waits for its own event `starting`\nb.conf:1: warning: blocks-itself: the job waits for its own event `stopping`\n",
    ),
    (
        "own events that don't block",
        {"a.conf": f"start on startup or stopped a\nstop on started a or starting a INSTANCE=x\n{RUN}"},
        [],
        "",
    ),
    (
        "start-circle",
        {
            "a.conf": f"start on started b\n{RUN}",
            "b.conf": f"start on starting JOB=c and startup\n{RUN}",
            "c.conf": f"\nstart on started a\n{RUN}",
            "d.conf": f"start on started a\n{RUN}",
        },
        [],
        "a.conf:1: warning: start-circle: only jobs that wait for one another start the job `a`\n"
        "b.conf:1: warning: start-circle: only jobs that wait for one another start the job `b`\n"
        "c.conf:2: warning: start-circle: only jobs that wait for one another start the job `c`\n"
        "d.conf:1: warning: start-circle: only jobs that wait for one another start the job `d`\n",
    ),
    (
        "circles that are left by an event",
        {"a.conf": f"start on started b\n{RUN}", "b.conf": f"start on starting JOB=c or startup\n{RUN}", "c.conf": f"start on started a\n{RUN}"},
        [],
        "",
    ),
    (
        "circles that are left by a command",
        {"a.conf": f"start on started b\n{RUN}", "b.conf": f"start on started a\n{RUN}", "c.conf": "start on startup\nexec start b\n"},
        [],
        "",
    ),
    (
        "never-stopped",
        {
            "a.conf": f"start on startup\nstop on startup\n{RUN}",
            "b.conf": f"start on go\nstop on (startup and go) or (go and\n   stopped JOB=c)\n{RUN}",
            "c.conf": f"start on started d\n{RUN}",
            "d.conf": f"start on started c\n{RUN}",
            "e.conf": f"start on go\nstop on go\n{RUN}",
            "e.override": "\nstop on stopping c\n",
        },
        ["--event", "go", "--allow", "start-circle"],
        "a.conf:2: warning: never-stopped: no event that still comes stops the job `a`\n"
        "b.conf:2: warning: never-stopped: no event that still comes stops the job `b`\n"
        "e.override:2: warning: never-stopped: no event that still comes stops the job `e`\n",
    ),
    (
        "events that come again, of other jobs, or later",
        {
            "a.conf": f"start on startup\nstop on startup or startup/failed\n{RUN}",
            "b.conf": f"start on startup\nstop on startup or stopped b\n{RUN}",
            "c.conf": f"start on startup\nstop on startup or stopping $X\n{RUN}",
            "d.conf": f"manual\nstop on startup\n{RUN}",
            "e.conf": f"start on started f\nstop on startup\n{RUN}",
            "f.conf": f"start on started e\n{RUN}",
        },
        ["--allow", "start-circle"],
        "",
    ),
    ("an event that a command gives again", {"a.conf": "start on startup\nstop on startup\nexec initctl emit startup\n"}, [], ""),
    ("an event that comes from outside again", {"a.conf": f"start on startup\nstop on startup\n{RUN}"}, ["--event", "startup"], ""),
    ("an event that a job declares", {"a.conf": f"start on startup\nstop on startup\nemits startup\n{RUN}"}, [], ""),
    (
        "kinds of one line",
        {"a.conf": f"start on started a\nstop on started b or go\n{RUN}"},
        [],
        "a.conf:1: warning: blocks-itself: the job waits for its own event `started`\n"
        "a.conf:1: warning: start-circle: only jobs that wait for one another start the job `a`\n"
        "a.conf:2: warning: unknown-event: nothing gives the event `go`\n"
        "a.conf:2: warning: unknown-job: there is no job `b`\n",
    ),
    (
        "paths in byte order, and lines",
        {"a.conf": f"stop on x\nstart on y\n{RUN}", "a-b.conf": f"start on z\n{RUN}"},
        [],
        "a-b.conf:1: warning: unknown-event: nothing gives the event `z`\n"
        "a.conf:1: warning: unknown-event: nothing gives the event `x`\n"
        "a.conf:2: warning: unknown-event: nothing gives the event `y`\n",
    ),
    (
        "the line in an override",
        {"a.conf": f"start on go\n{RUN}", "a.override": "\n\nstart on stay\n"},
        [],
        "a.override:3: warning: unknown-event: nothing gives the event `stay`\n",
    ),
    (
        "an override that is faulty",
        {"a.conf": f"start on go\n{RUN}", "a.override": "bogus\nstart on stay\n"},
        [],
        "a.override:1: 1 UnknownStanza\na.conf:1: warning: unknown-event: nothing gives the event `go`\n",
    ),
    (
        "a line after a script",
        {"a.conf": f"pre-start script\n  start on nothing\n  echo don't\nend script\nexec /bin/d '(' \\\n  x\nstart on go\n"},
        [],
        "a.conf:7: warning: unknown-event: nothing gives the event `go`\n",
    ),
    (
        "a stanza of several lines whose name is quoted",
        {"a.conf": f"{RUN}'start' \\\n  on (go\n  or startup)\nstop \"on\" halt\n"},
        [],
        "a.conf:2: warning: unknown-event: nothing gives the event `go`\na.conf:5: warning: unknown-event: nothing gives the event `halt`\n",
    ),
    (
        "a kind that is left out",
        {"a.conf": f"start on go or started b\n{RUN}", "c.conf": RUN},
        ["--allow", "unknown-event", "--allow", "never-started"],
        "a.conf:1: warning: unknown-job: there is no job `b`\n",
    ),
    ("all that is left out", {"a.conf": f"start on go\n{RUN}"}, ["--allow", "unknown-event"], ""),
    ("no job", {}, [], ""),
]


class Lints(Case):
    def test_cases(self):
        for place, (name, files, options, wanted) in enumerate(CASES):
            jobs = self.work / str(place)
            jobs.mkdir()
            write(jobs, files)
            self.check(name, initd("lint", *options, jobs), (wanted, 1 if wanted else 0))

    def test_refusals(self):
        away = self.work / "away"
        self.check("no folder", initd("lint", away), (f"initd: cannot use {away}\n", 3))
        write(self.work / "many", {f"{place}.conf": RUN for place in range(1025)})
        self.check("a folder that is refused", initd("lint", self.work / "many"), ("initd: 20 TooManyJobs\n", 3))
        self.check("a kind that isn't one", initd("lint", "--allow", "unknown", self.work / "many"), ("", 2))
        self.check("an option without its value", initd("lint", self.work / "many", "--event"), ("", 2))

    def test_examples(self):
        folders = examples(self.work)
        for name in ("distribution", "server"):
            self.check_stored("lint", "lint", [folders[name]], name, 1)
