"""Loads that replace jobs while these run: all of a table at once, ten times over, and one after another a thousand times."""
import socket
import struct

from harness import INITD, Case, ran, wait_for, write

# As many jobs as a folder may have.
MOST = 1024


def names(load):
    return [f"j{load:02}-{number:04}" for number in range(MOST)]


def folder_of(jobs):
    """A folder of a bundle, whose jobs the event `go` starts."""
    return "".join(f"%file {job}.conf\nstart on go\nexec /bin/d\n" for job in jobs)


def running(jobs):
    """A script by which the jobs of a folder come to run: `go` is taken up, and each `starting` finishes."""
    answers = "".join(f'spawned {job} "" main {number + 1}\n' for number, job in enumerate(jobs))
    return f"emit go\nturn {4 * len(jobs)}\n{answers}turn {4 * len(jobs)}\n"


def listed(jobs, state):
    return [f"{job} {state.format(number + 1)}" for number, job in enumerate(jobs)]


RUNNING, WAITING = "start/running, process {}", "stop/waiting"


class Replacing(Case):
    def replay(self, folders, script):
        """What a replay prints last, with its status."""
        made = ran([INITD], seconds=600, input="%folder\n".join(map(folder_of, folders)) + "%script\n" + script)
        return made.stdout.splitlines()[-1] if made.stdout else "", made.returncode

    def check_list(self, found, wanted):
        (line, status), text = found, "\\n".join(sorted(wanted, key=lambda line: line.split()[0].encode()))
        self.check("all jobs are listed", (line == f'reply 9 ok "{text}"', status), (True, 0))

    def test_replay_of_a_whole_table(self):
        """1,024 jobs that run are replaced by 1,024 others, which then run beside them."""
        first, second = names(0), names(1)
        script = running(first) + "load 1\n"
        found = self.replay([first, second], script + "request 9 list\n")
        self.check_list(found, listed(first, RUNNING) + listed(second, WAITING))
        found = self.replay([first, second], script + running(second) + "request 9 list\n")
        self.check_list(found, listed(first, RUNNING) + listed(second, RUNNING))

    def test_replay_ten_times_over(self):
        """Each table replaces one all of whose jobs run, so that 10,240 jobs run that are in no table, and 1,024 wait that are."""
        tables = [names(load) for load in range(11)]
        script = "".join(running(jobs) + f"load {load + 1}\n" for load, jobs in enumerate(tables[:10]))
        wanted = [line for jobs in tables[:10] for line in listed(jobs, RUNNING)] + listed(tables[10], WAITING)
        self.check_list(self.replay(tables, script + "request 9 list\n"), wanted)

    def test_replay_of_a_thousand_loads(self):
        """Each load takes one job away that runs, and brings another."""
        jobs = [f"job{number:04}" for number in range(1001)]
        script = "".join(running([job]) + f"load {number + 1}\n" for number, job in enumerate(jobs[:1000]))
        wanted = [f"{job} start/running, process 1" for job in jobs[:1000]] + [f"{jobs[1000]} stop/waiting"]
        self.check_list(self.replay([[job] for job in jobs], script + "request 9 list\n"), wanted)

    def ask(self, run, command, name=""):
        """An answer of the init, without a process for each client: whether it is ok, and its text."""
        payload = bytes([command, 0]) + struct.pack(">H", len(name)) + name.encode() + b"\0\0"
        with socket.socket(socket.AF_UNIX) as client:
            client.settimeout(120)
            client.connect(str(run.socket))
            client.sendall(struct.pack(">I", len(payload)) + payload)
            text, kind = b"", 2
            while kind == 2:
                head = self.exactly(client, 4)
                answer = self.exactly(client, struct.unpack(">I", head)[0])
                kind, text = answer[0], text + answer[1:]
        return kind == 0, text.decode()

    def exactly(self, client, count):
        found = b""
        while len(found) < count:
            more = client.recv(count - len(found))
            self.assertTrue(more, "the init closed the connection")
            found += more
        return found

    def exchange(self, folder, jobs):
        for old in folder.iterdir():
            old.unlink()
        write(folder, {f"{job}.conf": "start on go\nexec sleep 1007\n" for job in jobs})

    START, LIST, EMIT, RELOAD = 1, 5, 6, 8

    def lives(self, run):
        return sum("start/running" in line for line in self.ask(run, self.LIST)[1].splitlines())

    def test_run_of_whole_tables(self):
        """Real processes: three tables, one after another, while all jobs of those before go on."""
        folder = self.work / "jobs"
        folder.mkdir()
        self.exchange(folder, names(0))
        with self.running("tables", folder) as run:
            for load in range(3):
                self.check("all are started", self.ask(run, self.EMIT, "go"), (True, ""))
                self.check("and run", wait_for(lambda: self.lives(run) == (load + 1) * MOST, 300), True)
                self.exchange(folder, names(load + 1))
                self.check("others are loaded", self.ask(run, self.RELOAD), (True, ""))
            self.check("all are listed", len(self.ask(run, self.LIST)[1].splitlines()), 4 * MOST)
            self.check("nothing is said", run.err.read_text(), "")

    def test_run_of_many_loads(self):
        """Real processes: two hundred loads, each without a job that runs."""
        folder = self.work / "one"
        folder.mkdir()
        self.exchange(folder, ["job0000"])
        with self.running("one", folder) as run:
            for number in range(200):
                self.check("a job is started", self.ask(run, self.START, f"job{number:04}")[0], True)
                self.exchange(folder, [f"job{number + 1:04}"])
                self.check("and taken away", self.ask(run, self.RELOAD), (True, ""))
            self.check("all go on", self.lives(run), 200)
