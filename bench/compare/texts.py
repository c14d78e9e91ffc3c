"""Checks random texts of all kinds by the program and by a plain reading of their grammars, which shares nothing with
it, and prints each text on which the two differ. It shows whether the definitions mean what the D-Bus specification
says. No test, and no gate.

Usage: python3 bench/compare/texts.py [PROGRAM [COUNT [SEED]]]; without a program, crates/bus_open/out/bus_open, which
`rt run` leaves there."""
import collections
import pathlib
import random
import subprocess
import sys

import grammars
import spelling


def main():
    top = pathlib.Path(__file__).resolve().parent.parent.parent
    program = sys.argv[1] if len(sys.argv) > 1 else top / "crates/bus_open/out/bus_open"
    count = int(sys.argv[2]) if len(sys.argv) > 2 else 6000
    seed = int(sys.argv[3]) if len(sys.argv) > 3 else 1
    statuses = collections.Counter()
    differing = 0
    for number in range(count):
        kind = grammars.KINDS[number % len(grammars.KINDS)]
        word = spelling.word(random.Random(f"{seed}:{number}"), kind)
        run = subprocess.run([program, "check", kind, word], stdin=subprocess.DEVNULL, stdout=subprocess.PIPE)
        status, line = grammars.checked(kind, word)
        statuses[kind, status] += 1
        if (run.returncode, run.stdout) != (status, line.encode()):
            differing += 1
            print(f"text {number} of seed {seed}: {kind} {word!r}")
            print(f"  program {run.returncode} {run.stdout!r}\n  reading {status} {line!r}")
    for kind in grammars.KINDS:
        print(f"{kind}: {statuses[kind, 0]} accepted, {statuses[kind, 1]} refused, {statuses[kind, 2]} not UTF-8")
    print(f"{count} texts, {differing} differ")
    sys.exit(1 if differing else 0)


if __name__ == "__main__":
    main()
