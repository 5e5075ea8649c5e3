"""Runs whose configuration is read again for a client: that of a folder, and that of an image which is compiled once more."""
from harness import SEARCHED, Case, initd, wait_for, without_comments, write

SLEEPS = "exec sleep 1006\n"


class Loading(Case):
    def test_over_a_folder(self):
        """A job goes whose instance goes on, one comes, and one is faulty now."""
        folder = self.work / "loaded"
        write(folder, {"a.conf": SLEEPS, "b.conf": SLEEPS})
        with self.running("loaded", folder) as run:
            self.check("a service runs", run.ask("start", "a"), ("a start/running, process PID\n", 0))
            first = run.pid("a")
            (folder / "a.conf").unlink()
            write(folder, {"b.conf": "umask 022\n" + SLEEPS, "c.conf": SLEEPS})
            self.check("its folder is read again", run.ask("reload-configuration"), ("", 0))
            self.check("the faulty file is said", run.err.read_text(), "initd: b.conf:1: 2 NotInProfile\n")
            self.check("a service whose file is gone goes on", run.pid("a"), first)
            self.check("and can't be started", run.ask("start", "a"), ("initctl: Unknown job: a\n", 1))
            self.check("nor can one whose file is faulty", run.ask("start", "b"), ("initctl: Unknown job: b\n", 1))
            self.check("a new one can", run.ask("start", "c"), ("c start/running, process PID\n", 0))
            self.check("both are listed", run.ask("list"), ("a start/running, process PID\nc start/running, process PID\n", 0))
            self.check("the first is stopped", run.ask("stop", "a"), ("a stop/waiting\n", 0))
            self.check("and is unknown then", run.ask("status", "a"), ("initctl: Unknown job: a\n", 1))
            write(folder, {f"{number}.conf": SLEEPS for number in range(1025)})
            self.check("a folder of too many jobs is refused", run.ask("reload-configuration"), ("initctl: Configuration refused: 20\n", 1))
            said = f"initd: {folder}: 20 TooManyJobs: the configuration is unchanged"
            self.check("which is said", run.err.read_text().splitlines()[-1], said)
            self.check("and changes nothing", run.ask("list"), ("c start/running, process PID\n", 0))

    def test_over_an_image(self):
        """The image is compiled once more, then cut, then removed."""
        folder, image = self.work / "images", self.work / "jobs.image"
        write(folder, {"a.conf": SLEEPS})
        self.check("an image is compiled", initd("compile", folder, image), ("1 jobs, 0 faults\n", 0))
        with self.running("images", image) as run:
            write(folder, {"b.conf": "start on go\n" + SLEEPS})
            self.check("and once more", initd("compile", folder, image), ("2 jobs, 0 faults\n", 0))
            self.check("a job that isn't loaded is unknown", run.ask("status", "b"), ("initctl: Unknown job: b\n", 1))
            self.check("the image is read again", run.ask("reload-configuration"), ("", 0))
            self.check("an event starts the new job", run.ask("emit", "go"), ("", 0))
            self.check("it runs", wait_for(lambda: run.pid("b")), True)
            whole = image.read_bytes()
            image.write_bytes(whole[:-1])
            self.check("an image that was cut is refused", run.ask("reload-configuration"), ("initctl: Configuration refused: 32\n", 1))
            image.unlink()
            self.check("one that is gone isn't read", run.ask("reload-configuration"), ("initctl: Configuration not read\n", 1))
            wanted = [f"initd: {image}: 32 Truncated: the configuration is unchanged", f"initd: {image}: No such file or directory"]
            self.check("both are said", run.err.read_text().splitlines(), wanted)
            self.check("neither changes anything", run.ask("list"), ("a stop/waiting\nb start/running, process PID\n", 0))

    def test_recorded(self):
        """A run whose jobs are exchanged is recorded as a bundle, whose replay prints what the run told."""
        folder, record = self.work / "recorded", self.work / "run.record"
        write(folder, {"a.conf": "start on startup\nexec sleep 1006\n", "b.conf": "start on started a\nrespawn\nexec sleep 1006\n"})
        with self.running("recorded", folder, "--verbose", "--record", record) as run:
            self.check("two services come up", wait_for(lambda: run.pid("b")), True)
            head = record.read_text().splitlines()[0]
            self.check("the record is a script", head, f"# initd replay {folder} {record} --env {SEARCHED}")
            for jobs in ({"c.conf": "start on go\nexec sleep 1006\n"}, {"c.conf": "start on go\ntask\nexec /bin/true\n"}, {"d.conf": "exec sleep 1006\n"}):
                for old in folder.iterdir():
                    old.unlink()
                write(folder, jobs)
                self.check("other jobs are loaded", run.ask("reload-configuration"), ("", 0))
                run.ask("emit", "go")
            self.check("one whose file is gone can't be restarted", run.ask("restart", "b"), ("initctl: Unknown job: b\n", 1))
            self.check("and is stopped", run.ask("stop", "b"), ("b stop/waiting\n", 0))
            lines = record.read_text().splitlines()
            self.check("the record is a bundle", (lines[0], lines.count("%folder")), ("%file a.conf", 3))
            script = lines.index("%script")
            self.check("its script begins with a comment", lines[script + 1], f"# initd replay --bundle {record} --env {SEARCHED}")
            self.check("nothing is left beside it", sorted(path.name for path in self.work.glob("run.record*")), ["run.record"])
        told = run.out.read_text()
        again, status = initd("replay", "--bundle", record, "--env", SEARCHED)
        self.check("its replay prints the same", (again, status), (without_comments(told), 0))
        starts, status = initd("blame", "--bundle", record)
        self.check("its starts are told", (sorted(line.split()[-1] for line in starts.splitlines()), status), (["a", "b", "c"], 0))
        picture, status = initd("chart", "--bundle", record)
        self.check("its picture has a row for each instance", ([f">{name}<" in picture for name in "abc"], status), ([True] * 3, 0))

    def test_refused(self):
        """Reloads that change nothing are lines of the record, which goes on as the script that it was."""
        folder, image, record = self.work / "refused", self.work / "refused.image", self.work / "refused.record"
        write(folder, {"a.conf": "start on startup\n" + SLEEPS})
        initd("compile", folder, image)
        with self.running("refused", image, "--verbose", "--record", record) as run:
            self.check("a service comes up", wait_for(lambda: run.pid("a")), True)
            image.write_bytes(b"")
            self.check("an empty image is refused", run.ask("reload-configuration"), ("initctl: Configuration refused: 32\n", 1))
            image.unlink()
            self.check("one that is gone isn't read", run.ask("reload-configuration"), ("initctl: Configuration not read\n", 1))
            self.check("the run goes on", run.ask("stop", "a"), ("a stop/waiting\n", 0))
        told = run.out.read_text()
        loads = [line.split(maxsplit=2)[2] for line in record.read_text().splitlines() if line.startswith("load ")]
        self.check("both are recorded", loads, ["refused 32", "unread"])
        self.check("nothing is said of the record", "the record" in run.err.read_text(), False)
        again = initd("replay", folder, record, "--env", SEARCHED)
        self.check("its replay prints the same", again, (without_comments(told), 0))

    def test_taken(self):
        """A file that stands where the record would be written anew is left alone, and the record ends."""
        folder, record, other = self.work / "taken", self.work / "taken.record", self.work / "taken.record.new"
        write(folder, {"a.conf": SLEEPS})
        write(self.work, {"taken.record.new": "somebody else's\n"})
        with self.running("taken", folder, "--record", record) as run:
            # Its first round is written when it is over; a client may come before.
            wait_for(lambda: record.exists() and record.read_text())
            self.check("jobs are loaded", run.ask("reload-configuration"), ("", 0))
            self.check("the record ends, which is said", wait_for(lambda: "initd: the record ends: File exists\n" in run.err.read_text()), True)
            self.check("the other file is left", other.read_text(), "somebody else's\n")
            self.check("the record is what it was", record.read_text().startswith(f"# initd replay {folder} "), True)
            self.check("the run goes on", run.ask("status", "a"), ("a stop/waiting\n", 0))
