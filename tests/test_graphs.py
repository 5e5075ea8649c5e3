"""`initd graph`: a folder's graph, worked out by hand; and that dot takes those of the examples, where it is installed."""
import shutil

from harness import Case, examples, initd, ran, write

FILES = {
    "a.conf": "start on (startup and net-up IFACE=eth0) or go\nstop on stopping b\nexec /bin/a\n",
    "b.conf": "start on started JOB=a\nexec /bin/b\n",
    "net/c.conf": 'start on x NAME!="a \\"b\\"" and started\nexec /bin/c\n',
}
WANTED = r"""digraph jobs {
  rankdir=LR;
  "job a" [label="a", shape=box];
  "a start on 4" [label="or", shape=circle];
  "a start on 4" -> "job a" [label="start on"];
  "a start on 2" [label="and", shape=circle];
  "a start on 2" -> "a start on 4";
  "event startup" [label="startup", shape=ellipse];
  "event startup" -> "a start on 2";
  "event net-up IFACE=eth0" [label="net-up IFACE=eth0", shape=ellipse];
  "event net-up IFACE=eth0" -> "a start on 2";
  "event go" [label="go", shape=ellipse];
  "event go" -> "a start on 4";
  "event stopping b" [label="stopping b", shape=ellipse];
  "job b" -> "event stopping b" [style=dotted];
  "event stopping b" -> "job a" [label="stop on", style=dashed];
  "job b" [label="b", shape=box];
  "event started JOB=a" [label="started JOB=a", shape=ellipse];
  "job a" -> "event started JOB=a" [style=dotted];
  "event started JOB=a" -> "job b" [label="start on"];
  "job net/c" [label="net/c", shape=box];
  "net/c start on 2" [label="and", shape=circle];
  "net/c start on 2" -> "job net/c" [label="start on"];
  "event x NAME!=a \"b\"" [label="x NAME!=a \"b\"", shape=ellipse];
  "event x NAME!=a \"b\"" -> "net/c start on 2";
  "event started" [label="started", shape=ellipse];
  "event started" -> "net/c start on 2";
}
"""


class Graphs(Case):
    def test_folders(self):
        write(self.work / "jobs", FILES)
        self.check("a folder's", initd("graph", self.work / "jobs"), (WANTED, 0))
        (self.work / "none").mkdir()
        self.check("an empty folder's", initd("graph", self.work / "none"), ("digraph jobs {\n  rankdir=LR;\n}\n", 0))
        write(self.work / "faulty", {"a.conf": "exec /bin/a\n", "b.conf": "bogus\n"})
        wanted = 'digraph jobs {\n  rankdir=LR;\n  "job a" [label="a", shape=box];\n}\n'
        self.check("a faulty file has no job", initd("graph", self.work / "faulty"), (wanted, 1))
        self.check("no folder", initd("graph", self.work / "away"), (f"initd: cannot use {self.work / 'away'}\n", 3))
        self.check_stored("graph", "dot", [examples(self.work)["distribution"]], "distribution", 1)

    def test_dot_takes_them(self):
        write(self.work / "jobs", FILES)
        for name, folder in {"jobs": self.work / "jobs", **examples(self.work)}.items():
            with self.subTest(name):
                if not shutil.which("dot"):
                    self.skipTest("there is no dot")
                drawn = ran(["dot", "-Tsvg"], input=initd("graph", folder)[0])
                self.assertEqual((drawn.returncode, drawn.stderr), (0, ""))
