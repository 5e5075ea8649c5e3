"""Images: a folder goes through one and back, those of version 1 are read, and others are refused; and the examples."""
import pathlib

import test_damage
from harness import TOP, Case, examples, initd, unpack, wait_for, write

FILES = {
    "clock.conf": "start on startup\nrespawn\nexec sleep 1000\n",
    "once.conf": "task\nexec /bin/true\n",
    "tty.conf": "instance $TTY\nexport TTY\nexec sleep 1003\n",
}
# The examples of which a file is faulty.
FAULTY = {"distribution": 1, "faulty-file": 1}


class Images(Case):
    def setUp(self):
        super().setUp()
        self.folder = self.work / "jobs"
        write(self.folder, FILES)

    def test_images(self):
        image, again, shown = self.work / "jobs.image", self.work / "again.image", self.work / "shown"
        self.check("compile", initd("compile", self.folder, image), (f"{len(FILES)} jobs, 0 faults\n", 0))
        self.check("nothing is left beside it", (self.work / "jobs.image.new").exists(), False)
        bundle, status = initd("show", image)
        self.check("show", status, 0)
        unpack(bundle, shown)
        self.check("what is shown is compiled", initd("compile", shown, again), (f"{len(FILES)} jobs, 0 faults\n", 0))
        self.check("to the same bytes", again.read_bytes() == image.read_bytes(), True)
        with self.running("image", image, "--verbose") as run:
            self.check("an image is run", run.ask("start", "once"), ("once stop/waiting\n", 0))
        told = run.out.read_text()
        # (a client may be let in before the first turn)
        self.check("its run starts what that of the folder does", 'event starting JOB="clock" INSTANCE=""' in told.splitlines(), True)

    def test_old_images(self):
        """An image that was written before images had reload signals is shown, replayed and run, and compiled to one of today."""
        old, folder, again = test_damage.OLD, self.work / "old", self.work / "renewed.image"
        bundle, status = initd("show", old)
        self.check("show of an image of version 1", status, 0)
        unpack(bundle, folder)
        self.check("what is shown is compiled", initd("compile", folder, again), ("1 jobs, 0 faults\n", 0))
        self.check("to the image of version 2", again.read_bytes() == test_damage.SMALL, True)
        script = self.work / "old.script"
        script.write_text((TOP / "tests" / "rows" / "startup.bundle").read_text().split("%script\n", 1)[1])
        self.check("replay of an image of version 1", initd("replay", old, script), ((TOP / "tests" / "rows" / "startup.out").read_text(), 0))
        with self.running("old", old, "--verbose") as run:
            self.check("run of an image of version 1", wait_for(lambda: run.ask("status", "a")[0] == "a stop/waiting\n"), True)
        told = run.out.read_text()
        self.check("its run begins", told.splitlines()[0], 'event starting JOB="a" INSTANCE=""')

    def test_refused_images(self):
        image, broken = self.work / "jobs.image", self.work / "broken.image"
        initd("compile", self.folder, image)
        good = image.read_bytes()
        socket = self.work / "none.socket"
        cases = [(good[:-1], "32 Truncated"), (good + b"x", "33 Trailing"), (b"V" + good[1:], "30 BadMagic")]
        cases += [(good[:4] + b"\0\3" + good[6:], "31 BadVersion"), (good[:12] + b"\xff" + good[13:], "34 BadTable")]
        cases += [(good[:4] + b"\0\1" + good[6:], "34 BadTable")]
        for bytes_, refusal in cases:
            broken.write_bytes(bytes_)
            self.check(f"run of an image: {refusal}", initd("run", broken, socket), (f"initd: {refusal}\n", 3))
            self.check(f"show of an image: {refusal}", initd("show", broken), (f"initd: {refusal}\n", 3))
        self.check("no socket was made", socket.exists(), False)
        missing = self.work / "missing"
        self.check("run of what isn't there", initd("run", missing, socket), (f"initd: cannot use {missing}\n", 3))
        self.check("show of what isn't there", initd("show", missing), (f"initd: cannot use {missing}\n", 3))
        self.check("check of what isn't there", initd("check", missing), (f"initd: cannot use {missing}\n", 3))
        self.check("compile of what isn't there", initd("compile", missing, broken), (f"initd: cannot use {missing}\n", 3))
        away = self.work / "no" / "image"
        self.check("compile to where nothing can be", initd("compile", self.folder, away), (f"initd: cannot use {away}\n", 3))
        self.check("compile to a folder", initd("compile", self.folder, self.folder), (f"initd: cannot use {self.folder}\n", 3))
        self.check("nothing is left of it", pathlib.Path(f"{self.folder}.new").exists(), False)

    def test_examples(self):
        """The folders of examples/ through their images and back, and what each bundle prints."""
        for name, folder in examples(self.work).items():
            first, second, shown = self.work / "1.image", self.work / "2.image", self.work / f"{name}.shown"
            status = initd("compile", folder, first)[1]
            bundle, _ = initd("show", first)
            unpack(bundle, shown)
            shown.mkdir(exist_ok=True)
            self.check(f"{name} is compiled", status, FAULTY.get(name, 0))
            self.check(f"{name} is shown and compiled again", (initd("compile", shown, second)[1], second.read_bytes()), (0, first.read_bytes()))
        for path in sorted((TOP / "examples").glob("*.bundle")):
            wanted = path.with_suffix(".out").read_text(), FAULTY.get(path.stem, 0)
            self.check(f"{path.stem} prints what stands beside it", initd(stdin=path.read_text()), wanted)
