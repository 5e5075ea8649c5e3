"""`initd check DIR --against OTHER`: what a reload adds, removes and changes, and what is printed where one of the two is faulty."""
from harness import Case, initd, write

OLD = {
    "gone.conf": "exec /bin/d\n",
    "same.conf": "description 'a'\nstart on go A=1\nexec /bin/d\n",
    "web.conf": "start on startup\nenv A=1\nexec /bin/d\n",
}
NEW = {
    "new.conf": "exec /bin/d\n",
    "same.conf": "exec /bin/d\nstart on go A=1\nauthor 'b'\n",
    "web.conf": "start on startup\nenv A=2\nexec /bin/e\n",
}
CHANGES = "gone: removed\nnew: added\nweb: changed: env, exec\n"

# A stanza of a job, and the name by which its change is told. The job has `exec /bin/d` beside it.
STANZAS = [
    ("task\n", "task"),
    ("respawn\n", "respawn"),
    ("console none\n", "console"),
    ("instance $A\n", "instance"),
    ("chdir /srv\n", "chdir"),
    ("respawn limit 3 60\n", "respawn limit"),
    ("kill signal INT\n", "kill signal"),
    ("kill timeout 6\n", "kill timeout"),
    ("reload signal USR1\n", "reload signal"),
    ("env A=1\n", "env"),
    ("export A\n", "export"),
    ("normal exit 1\n", "normal exit"),
    ("exec /bin/e\n", "exec"),
    ("script\n  true\nend script\n", "exec"),
    ("pre-start exec /bin/e\n", "pre-start"),
    ("post-start exec /bin/e\n", "post-start"),
    ("pre-stop exec /bin/e\n", "pre-stop"),
    ("post-stop exec /bin/e\n", "post-stop"),
    ("start on a and b\n", "start on"),
    ("stop on a or b C=d\n", "stop on"),
]


class Comparing(Case):
    def test_folders(self):
        old, new, bad, image = self.work / "old", self.work / "new", self.work / "bad", self.work / "old.image"
        write(old, OLD)
        write(new, NEW)
        write(bad, {"a.conf": "task now\n"})
        self.check("two folders", initd("check", new, "--against", old), (CHANGES, 1))
        self.check("a folder with itself", initd("check", old, "--against", old), ("", 0))
        initd("compile", old, image)
        self.check("with an image", initd("check", new, "--against", image), (CHANGES, 1))
        self.check("with the image of the same folder", initd("check", old, "--against", image), ("", 0))
        fault = "a.conf:1: 4 UnexpectedToken\n0 jobs, 1 faults\n"
        self.check("the folder is faulty", initd("check", bad, "--against", old), (fault, 1))
        self.check("the other one is faulty", initd("check", old, "--against", bad), (f"initd: in {bad}:\n{fault}", 1))
        away = self.work / "away"
        self.check("the other one isn't there", initd("check", old, "--against", away), (f"initd: cannot use {away}\n", 3))
        self.check("a file that is no image", initd("check", old, "--against", old / "gone.conf"), ("initd: 30 BadMagic\n", 3))

    def test_stanzas(self):
        plain = self.work / "plain"
        write(plain, {"a.conf": "exec /bin/d\n"})
        for place, (stanza, name) in enumerate(STANZAS):
            write(self.work / str(place), {"a.conf": "exec /bin/d\n" + stanza})
            compared = initd("check", self.work / str(place), "--against", plain)
            self.check(stanza.splitlines()[0], compared, (f"a: changed: {name}\n", 1))
