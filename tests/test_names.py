"""Each name in backticks in README.md, docs/*.md and crates' READMEs that looks like a path, a file, a type, a function or a test stands in the tree."""
import re

from harness import TOP, Case

PAGES = [TOP / "README.md", *sorted((TOP / "docs").glob("*.md")), *sorted((TOP / "crates").glob("*.md")), *sorted((TOP / "crates").glob("*/README.md"))]
# What is named though it isn't there, and why.
EXAMPLE = "of the stanza that docs/CONTRIBUTING.md adds"
ELSEWHERE = {
    "DIR/clock.conf": "a folder of the reader",
    "x.service.d/y.conf": "a file of systemd",
    "ConditionPathExists": "a word of systemd",
    "control/t": "a file of runit",
    "log/run": "a file of runit",
    "NAME/failed": "an event",
    "go/failed": "an event",
    "go/failed/failed": "an event",
    "crates/NAME/specs/": "of any crate",
    "crates/NAME/must-fail/": "of any crate",
    "proofs/MODULE/FUNCTION/Invariants.antt": "of any function",
    "FUNCTION-slip.edit": "of any function",
    "finish_2": "a copy of `finish` that a check makes",
    "Lts": "a part of what Rattle generates",
    "is_kind": "of an earlier tree, on which docs/STRENGTH.md reports",
    "crates/initd/out/initd": "a program that is built",
    "crates/initctl/out/initctl": "a program that is built",
    **dict.fromkeys(("Wrapper", "read_wrapper", "wrapper_in", "wrapped-goes_last.edit", "with_stanza-wrapper_is_a_folder.edit"), EXAMPLE),
}
# What isn't part of the sources.
LEFT_OUT = {".git", "out", "__pycache__"}
# The files whose words count as names: a page can't vouch for another.
SOURCES = (".rt", ".antt", ".py", ".txt", ".5", ".8", "")
ENDINGS = "rt|antt|md|py|svg|bundle|out|record|edit|lint|dot|txt|blame"
PATH = re.compile(r"[\w.*-]+(/[\w.*-]+)+/?")
FILE = re.compile(rf"[\w*-]+\.({ENDINGS})")
# A function or a constant, a type, and either within another: what has but one small word may be anything else.
NAME = re.compile(r"(\w+::)+\w+|[a-z]\w*_\w+|[A-Z]+_[A-Z_]+|([A-Z][a-z0-9]+){1,6}")


def tree():
    """All files of the tree, and the folders above them."""
    found, left = [], [TOP]
    while left:
        for path in left.pop().iterdir():
            if path.name not in LEFT_OUT and not path.is_symlink():
                found.append(path)
                if path.is_dir():
                    left.append(path)
    return found


def ends_of(path):
    """A path as it may be named: whole, or without its first folders."""
    return ["/".join(path.parts[at:]) for at in range(len(path.parts))]


def code_of(path):
    """A source without its comments, where they could name what is gone."""
    text = path.read_text(errors="replace")
    return re.sub(r"^\s*(//|--|#(?!\[)).*", "", text, flags=re.M) if path.suffix in (".rt", ".antt", ".py", ".txt") else text


def named(text):
    """What a page has in backticks, outside its blocks."""
    text = re.sub(r"^```.*?^```$", "", text, flags=re.M | re.S)
    text = re.sub(r"(?<=\n)\n(    [^\n]*\n)+", "\n", text)
    return sorted({" ".join(it.split()) for it in re.findall(r"`([^`]+)`", text)})


class Names(Case):
    def test_pages(self):
        files = tree()
        ends = {end for path in files for end in ends_of(path.relative_to(TOP))}
        words = set()
        for path in files:
            if path.is_file() and path.suffix in SOURCES and path.name != "test_names.py":
                words.update(re.findall(r"\w+", code_of(path)))
        words |= {path.stem for path in files}
        # (the gate tests in a copy without wrong bodies, beside the whole one)
        for bodies in (TOP, TOP.parent / "whole"):
            if edits := sorted((bodies / "crates").glob("*/must-fail/*")):
                break
        words |= {path.stem for path in edits}
        ends |= {end for edit in edits for path in (edit, edit.parent) for end in ends_of(path.relative_to(bodies))}

        def stands(name, page):
            if name in ELSEWHERE:
                return True
            if PATH.fullmatch(name) or FILE.fullmatch(name):
                if "*" in name:
                    return any(re.fullmatch(re.escape(name.rstrip("/")).replace(r"\*", "[^/]*"), end) for end in ends)
                return name.rstrip("/") in ends
            if NAME.fullmatch(name):
                return words.issuperset(name.split("::"))
            return True

        used = set()
        for page in PAGES:
            found = named(page.read_text())
            used.update(found)
            self.check(str(page.relative_to(TOP)), [name for name in found if not stands(name, page)], [])
        self.check("no exception that nobody names", sorted(ELSEWHERE.keys() - used), [])
        self.check("a name that is gone is noticed", [stands(name, None) for name in ("no_such_function", "Engine::no_such", "docs/NONE.md", "none.rt")], [False] * 4)

    def test_headings(self):
        """Where a page names a part of another, as docs/X.md ("Y"), that page has it."""
        for page in PAGES:
            lost = []
            for name, heading in re.findall(r'(docs/\w+\.md|README\.md)`?,? \(?"([^"]+)"', " ".join(page.read_text().split())):
                text = (TOP / name).read_text()
                if not re.search(rf"^(#+ (\d+\. )?|\*\*){re.escape(heading)}", text, flags=re.M):
                    lost.append((name, heading))
            self.check(f"the headings that {page.relative_to(TOP)} names", lost, [])
