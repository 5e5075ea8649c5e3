"""Runs the commands of docs/OPERATING.md word by word, and compares what they print with what the page says that they print."""
import re

from harness import TOP, Case, ran

MARK = "== end of a block"
FIRST_WORDS = ("mkdir", "crates/", "export", "pid=", "sleep", "kill", "head", "INITCTL=", "grep", "cat")
# How many blocks of commands the page has, and after how many it says what they print.
BLOCKS, PROMISES = 15, 9


def plain(text):
    """A text without the numbers that differ each time."""
    return re.sub(r"(process |/proc/)(\d+|PID)|^\d+( ms)", lambda found: (found[1] or "") + "N" + (found[3] or ""), text, flags=re.M)


def page():
    """The blocks of commands of the sections from the job file on, each with what the page says that it prints, or None; and the page's text.

    A block is in a fence, or indented. After it the page says `prints` with the lines in backticks, or with an indented block.
    """
    text = re.search(r"^## 2\..*?(?=^## What it doesn't do)", (TOP / "docs" / "OPERATING.md").read_text(), flags=re.M | re.S).group(0)
    parts = re.split(r"(^```\n[^`]*^```\n|(?:^    [^\n]*\n|^\n(?=    ))+)", text, flags=re.M)
    found = []
    for part in parts:
        is_fenced, is_block = (part.lstrip("\n").startswith(begins) for begins in ("```", ("```", "    ")))
        block = part.strip("\n")[4:-3] if is_fenced else re.sub(r"^    ", "", part.strip("\n"), flags=re.M)
        if is_block and block.startswith(FIRST_WORDS):
            found.append([block.rstrip("\n") + "\n", None])
        elif found and found[-1][1] is None:
            if is_block and before.rstrip().endswith("prints"):
                found[-1][1] = block.splitlines()
            elif said := re.search(r"\bprints (?:a line for each start, as )?(`[^`]+`(?:,? (?:and|then) `[^`]+`)*)", " ".join(part.split())):
                found[-1][1] = re.findall(r"`([^`]+)`", said[1])
        before = part
    return found, " ".join(text.split())


class Operating(Case):
    def outputs(self, commands):
        """What each block prints, in one shell, on each output; in the same folder for all, and not in /tmp."""
        script = "".join(["trap 'kill $(jobs -p) 2> /dev/null' EXIT\n", *(f"{block}echo '{MARK}'\n" for block in commands)])
        script = script.replace("/tmp/", f"{self.work}/")
        out, err = self.work / "stdout", self.work / "stderr"
        with open(out, "wb") as to_out, open(err, "wb") as to_err:
            ran(["bash", "-c", script], seconds=120, stdout=to_out, stderr=to_err, cwd=TOP)
        return [plain(text) for text in out.read_text().replace(f"{self.work}/", "/tmp/").split(f"{MARK}\n")[:-1]], err.read_text()

    def test_the_page(self):
        blocks, text = page()
        self.check("the page has so many blocks of commands", len(blocks), BLOCKS)
        self.check("and says so often what they print", sum(promise is not None for _, promise in blocks), PROMISES)
        printed, said = self.outputs([block for block, _ in blocks])
        self.check("each block came to its end", len(printed), BLOCKS)
        for (block, promise), found in zip(blocks, printed):
            wanted, lines = [plain(line) for line in promise or []], found.splitlines()
            with self.subTest(block.splitlines()[0]):
                if "grep -lz" in block:
                    # A line for each service that lives, also of others.
                    self.assertLessEqual(set(lines), set(wanted))
                elif "initd blame" in block:
                    self.assertEqual(set(lines), set(wanted))
                elif "initd compile" in block:
                    self.assertEqual(lines[:2], ["1 jobs, 0 faults", "%file clock.conf"])
                elif promise is None:
                    self.assertEqual(found, "")
                else:
                    # A client prints statuses before the one that the page shows.
                    self.assertEqual(lines[-len(wanted) :], wanted)
                    self.assertLessEqual(set(lines) - set(wanted), {"clock start/running, process N"})
        wanted = re.search(r"On standard error the init prints `([^`]+)`", text)[1]
        self.check("what the init said", [line for line in said.splitlines() if "respawning" in line][:1], [wanted])
