"""README.md and docs/TOOLS.md: what they tell someone to type is typed, and prints what they say; their links lead somewhere; and README.md is short."""
import re
import shutil

from harness import TOP, Case, initd, ran, write

README = (TOP / "README.md").read_text()
TOOLS = (TOP / "docs" / "TOOLS.md").read_text()
MARK = "== end of a block"


def blocks(text):
    """The indented blocks of a page, each with the text before it and after it."""
    parts = re.split(r"((?:^    [^\n]*\n|^\n(?=    ))+)", text, flags=re.M)
    return [(re.sub(r"^    ", "", block.strip("\n"), flags=re.M) + "\n", before, after) for before, block, after in zip(parts[::2], parts[1::2], parts[2::2])]


def plain(text):
    """A text without the numbers that differ each time."""
    return re.sub(r"process \d+", "process N", text)


def anchor(heading):
    """The name by which a link leads to a heading."""
    return re.sub(r"[^\w\- ]", "", heading.lower()).replace(" ", "-")


def is_within(shown, found):
    """Whether these lines are printed, one after another, where `...` stands for any."""
    parts = [part for part in re.split(r"^\.\.\.\n", shown, flags=re.M) if part]
    if not shown.startswith("...") and not found.startswith(parts[0]) or not shown.endswith("...\n") and not found.endswith(parts[-1]):
        return False
    at = 0
    for part in parts:
        if (at := found.find(part, at)) < 0:
            return False
        at += len(part)
    return True


class Front(Case):
    def typed(self, commands):
        """What each block prints, in one shell, in a folder of its own from which the tree's are seen."""
        for name in ("examples", "crates", "docs"):
            (self.work / name).symlink_to(TOP / name)
        script = "trap 'kill $(jobs -p) 2> /dev/null' EXIT\n" + "".join(f"{block}echo '{MARK}'\n" for block in commands).replace("/tmp/", f"{self.work}/")
        made = ran(["bash", "-c", script], seconds=120, cwd=self.work)
        return made.stdout.split(f"{MARK}\n")[:-1]

    def test_the_first_page(self):
        lines = README.splitlines()
        self.check("its length", len(lines) <= 120, True)
        self.check("its first sentence", len(lines[2].split()) <= 25 and lines[2].endswith("."), True)
        self.check("no line is too long", [line for line in lines if len(line) > 150], [])
        self.check("it names the toolchain by its logic's sum", "`logic dac8208d650f15bf`" in README, True)
        self.check("the version", f"Version {(TOP / 'VERSION').read_text().strip()} " in README, True)
        four = re.findall(r"^- \*\*[^\n]*", README, flags=re.M)
        self.check("four things that no other init does", len(four), 4)

    def test_crates(self):
        for page in sorted((TOP / "crates").glob("*/README.md")):
            self.check(f"the length of {page.relative_to(TOP)}", len(page.read_text().splitlines()) <= 40, True)

    def test_links(self):
        pages = [TOP / "README.md", TOP / "CHANGELOG.md", *(TOP / "docs").glob("*.md"), *(TOP / "crates").glob("*.md"), *(TOP / "crates").glob("*/README.md")]
        for page in sorted(pages):
            lost = []
            for link in re.findall(r"\]\(([^)]+)\)", page.read_text()):
                path, _, part = re.sub(r"\s", " ", link).partition("#")
                target = page.parent / path if path else page
                if not target.exists():
                    lost.append(link)
                elif part and part not in map(anchor, re.findall(r"^#+ (.*)$", target.read_text(), flags=re.M)):
                    lost.append(link)
            self.check(f"the links of {page.relative_to(TOP)}", lost, [])

    def test_the_two_commands(self):
        found = [block for block, _, _ in blocks(README)]
        self.check("the blocks of README.md", len(found), 7)
        tried, printed, warning, first, second, _, _ = found
        self.check("what is tried without a proof", tried, "(cd crates/initd && rt try < ../../examples/one-service.bundle)\n")
        stored = (TOP / "examples" / "one-service.out").read_text()
        self.check("what that prints", printed, stored)
        self.check("a warning", warning in initd("lint", TOP / "examples" / "recipes" / "does-not-start")[0], True)
        for command, wanted in ((first, "crates/initd/out/initd < examples/one-service.bundle"), (second, "tests/gate")):
            made = ran(["make", "-n", *command.split()[1:]], cwd=TOP)
            self.check(command.strip(), (command.split()[0], made.returncode, made.stdout.splitlines()[-1]), ("make", 0, wanted))
        self.check("what the first replays", ran(["sh", "-c", "crates/initd/out/initd < examples/one-service.bundle"], cwd=TOP).stdout, stored)
        self.check("what decides runs the same", "exec tests/gate" in (TOP / ".ci" / "run").read_text(), True)

    def test_a_service(self):
        (block, _, _), (shown, _, _) = blocks(README)[-2:]
        printed = self.typed([block])
        self.check("a service in five minutes", [plain(text) for text in printed], [plain(shown)])

    def test_the_four(self):
        self.check("a boot", initd("replay", "--bundle", TOP / "examples" / "server.bundle"), ((TOP / "examples" / "server.out").read_text(), 0))
        self.check("is typed so", "`initd replay --bundle examples/server.bundle`" in README, True)
        for name, text in (("old", "exec /bin/a\n"), ("new", "exec /bin/b\n")):
            write(self.work / name, {"web.conf": text})
        self.check("what a reload changes", initd("check", self.work / "new", "--against", self.work / "old"), ("web: changed: exec\n", 1))
        self.check("is typed like that", "`initd check JOBS --against OLD-JOBS`" in README, True)

    def test_tools(self):
        texts = [block for block, _, _ in blocks(TOOLS)]
        is_typed = [text.startswith(("initd", "printf", "PATH")) for text in texts]
        found = [text for text, typed in zip(texts, is_typed) if typed]
        shown = {text: after for text, after, typed, more in zip(texts, texts[1:], is_typed, is_typed[1:]) if typed and not more}
        self.check("the blocks of commands", (len(found), len(shown)), (9, 5))
        write(self.work / "old", {"clock.conf": "exec /bin/clock\n", "web.conf": "exec /bin/web\n"})
        write(self.work / "jobs", {"web.conf": "env A=1\nexec /bin/web2\n"})
        commands = [block if shutil.which("dot") else block.replace("dot -Tsvg", "cat") for block in found]
        against = next(at for at, block in enumerate(commands) if "--against" in block)
        commands[against] = f"initd compile old jobs.image > compiled\n{commands[against]}"
        printed = self.typed(commands)
        self.check("each came to its end", len(printed), len(commands))
        for block, text in zip(found, printed):
            if block in shown:
                with self.subTest(block.splitlines()[0]):
                    self.assertTrue(is_within(shown[block], text), text)
        self.check("a picture", (self.work / "run.svg").read_text(), (TOP / "examples" / "distribution.svg").read_text())
        self.check("what lint prints is stored", printed[3], (TOP / "examples" / "distribution.lint").read_text())
        self.check("so is the graph", initd("graph", TOP / "examples" / "distribution")[0], (TOP / "examples" / "distribution.dot").read_text())
