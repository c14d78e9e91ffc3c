"""Plays every example of docs/SCRIPT.md and docs/EXAMPLES.md by the program, and prints each whose output or status is
not the one that stands there. No test, and no gate.

An example is a block marked `script`, which is standard input to `play`; one marked `words`, whose one line is the
words of the command as a shell splits them; or one marked `command`, which bash runs at the top of the repository with
`set -o pipefail`, where `crates/bus_open/out/bus_open` stands for the program. The next block is marked `output` and
the status. In all a line that ends with a backslash goes on in the next.

Usage: python3 bench/examples [PROGRAM]; without one, crates/bus_open/out/bus_open, which `rt run` leaves there."""
import dataclasses
import pathlib
import re
import shlex
import subprocess
import sys

PAGES = ["docs/SCRIPT.md", "docs/EXAMPLES.md"]
PROGRAM = "crates/bus_open/out/bus_open"
BLOCK = re.compile(r"^```(script|words|command|output (\d+))\n(.*?)^```$", re.MULTILINE | re.DOTALL)


@dataclasses.dataclass
class Example:
    line: int
    words: list
    given: bytes
    status: int
    output: bytes


def words_of(mark, text, program):
    """The words of an example's command, by the mark of its block."""
    if mark == "command":
        return ["bash", "-o", "pipefail", "-c", text.replace(PROGRAM, shlex.quote(program))]
    return [program] + (["play"] if mark == "script" else shlex.split(text))


def examples_of(page, program):
    asked = None
    for block in BLOCK.finditer(page):
        mark, status, text = block.groups()
        text = text.replace("\\\n", "")
        line = page.count("\n", 0, block.start()) + 1
        if (status is None) != (asked is None):
            sys.exit(f"line {line}: a block `{mark}` out of turn")
        if asked is None:
            asked = (line, words_of(mark, text, program), text.encode() if mark == "script" else b"")
        else:
            yield Example(*asked, int(status), text.encode())
            asked = None
    if asked is not None:
        sys.exit(f"line {asked[0]}: an example without an output")


def main():
    top = pathlib.Path(__file__).resolve().parent.parent.parent
    program = pathlib.Path(sys.argv[1] if len(sys.argv) > 1 else top / PROGRAM).resolve()
    count = differing = 0
    for page in PAGES:
        for example in examples_of((top / page).read_text(), str(program)):
            count += 1
            run = subprocess.run(example.words, input=example.given, stdout=subprocess.PIPE, cwd=top)
            if (run.returncode, run.stdout) != (example.status, example.output):
                differing += 1
                print(f"{page}, line {example.line}: status {run.returncode} and not {example.status}")
                print(run.stdout.decode(errors="replace"), end="")
    print(f"{count} examples, {differing} differ")
    sys.exit(1 if differing else 0)


if __name__ == "__main__":
    main()
