"""`initd check --explain`: each code of a fault, and each stanza that is left out, with the line that is shown and what is said of it."""
from harness import Case, initd, write

# A file, the line and the code of its fault, the line that is shown, and words of what is said.
FAULTS = [
    ("# a job\nstart onn x\n", "2: 1 UnknownStanza", "start onn x", "init(5)"),
    ("description 'a'\nsetuid root\n", "2: 2 NotInProfile", "setuid root", "setpriv --reuid"),
    ("export # keys\n", "1: 3 ExpectedToken", "export # keys", "missing"),
    ("task now\n", "1: 4 UnexpectedToken", "task now", "too many"),
    ("\nauthor 'me\nexec /bin/d\n", "2: 5 UnterminatedQuote", "author 'me", "never closed"),
    ("exec /bin/d\npost-stop script\n  true\n", "2: 6 UnterminatedBlock", "post-stop script", "end script"),
    ("author me\\", "1: 7 TrailingBackslash", "author me\\", "backslash"),
    ("start on a and\n", "1: 8 BadExpression", "start on a and", "`and` and `or`"),
    ("start on a K=v w\n", "1: 9 ValueBeforeKey", "start on a K=v w", "without keys first"),
    ("\tkill timeout soon\n", "1: 10 BadNumber", "\tkill timeout soon", "digits"),
    ("kill signal STOPP\n", "1: 11 BadSignal", "kill signal STOPP", "SIGTERM"),
    ("export 1st\n", "1: 12 BadName", "export 1st", "no digit first"),
    ("start on a [[:alpha:]]\n", "1: 13 BadPattern", "start on a [[:alpha:]]", "`[:`"),
    ("instance ${A\n", "1: 14 BadExpansion", "instance ${A", "${KEY}"),
    ("start on " + " and ".join(["a"] * 2049) + "\n", "1: 16 TooLarge", None, "limit"),
]
LEFT_OUT = [
    ("expect fork", "foreground"),
    ("chroot /srv", "chroot DIR"),
    ("setuid www", "--init-groups"),
    ("\tsetuid www", "--init-groups"),
    ("setgid www", "--regid"),
    ("umask 022", "umask 022"),
    ("nice 5", "nice -n"),
    ("limit nofile 1 2", "prlimit"),
    ("oom never", "choom"),
    ("apparmor load x", "aa-exec"),
    ("cgroup cpu", "cgroup.procs"),
    ("console owner", "setsid"),
]


class Explaining(Case):
    def explained(self, name, text, fault, shown, said):
        write(self.work / name, {"a.conf": text})
        printed, status = initd("check", "--explain", self.work / name)
        lines = printed.splitlines()
        wanted = [f"a.conf:{fault}"] + ([f"    {shown}"] if shown is not None else [])
        self.check(f"{fault}: its lines", (lines[: len(wanted)], lines[-1], status), (wanted, "0 jobs, 1 faults", 1))
        rest = lines[len(wanted) : -1]
        is_said = len(rest) == 1 and rest[0].startswith("    ") and (said in rest[0])
        self.check(f"{fault}: what is said", is_said, True)
        plain = initd("check", self.work / name)
        self.check(f"{fault}: without the option", plain, (f"a.conf:{fault}\n0 jobs, 1 faults\n", 1))

    def test_faults(self):
        for place, (text, fault, shown, said) in enumerate(FAULTS):
            self.explained(str(place), text, fault, shown, said)

    def test_stanzas_that_are_left_out(self):
        for stanza, said in LEFT_OUT:
            self.explained(stanza.split()[0], stanza + "\n", "1: 2 NotInProfile", stanza, said)

    def test_folders(self):
        (self.work / "bytes").mkdir()
        (self.work / "bytes" / "a.conf").write_bytes(b"exec /bin/\xff\n")
        lines = initd("check", "--explain", self.work / "bytes")[0].splitlines()
        self.check("bytes that are no text aren't shown", (lines[0], len(lines), "UTF-8" in lines[1]), ("a.conf:1: 15 NotText", 3, True))
        write(self.work / "good", {"a.conf": "exec /bin/d\n"})
        self.check("no fault", initd("check", "--explain", self.work / "good"), ("1 jobs, 0 faults\n", 0))
        write(self.work / "two", {"b.conf": "exec /bin/d\nbogus\n", "a.conf": "task x\n"})
        printed, status = initd("check", "--explain", self.work / "two")
        lines = printed.splitlines()
        wanted = ["a.conf:1: 4 UnexpectedToken", "    task x", "b.conf:2: 1 UnknownStanza", "    bogus", "0 jobs, 2 faults"]
        self.check("two faults", ([*lines[:2], *lines[3:5], *lines[6:]], status), (wanted, 1))
