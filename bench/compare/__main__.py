"""Plays random scripts by the program and by a plain reading of the script's rules, which shares nothing with it, and prints each
script on which the two differ. It shows whether the definitions mean what the formats say. The scripts have every kind of line, with
deadlines, readings of the clock and answers of the poller, and end with every status of `play` but those of reading, writing and
memory. At the end it prints how often each kind of address, each question with its answer, each ending and each kind of round came,
and how the sessions ended whose deadline a round had reached: by the clock, or by what their wire then had. No test, and no gate.

Usage: python3 bench/compare [PROGRAM [COUNT [SEED]]]; without a program, crates/bus_open/out/bus_open, which `rt run` leaves there."""
import collections
import itertools
import pathlib
import random
import subprocess
import sys

import playing
import reading
import scripts
import tallies


def expected(data, tally):
    """The status and the text that a script gives, which are counted."""
    try:
        script = reading.read(data)
    except reading.Refused as refusal:
        return 2, f"refused {refusal.line} {refusal.reason}\n"
    status, text = playing.play(script)
    tally.count(script.sessions, text)
    return status, text


def first_difference(has, wanted):
    """The first line in which two texts differ."""
    pairs = itertools.zip_longest(has.splitlines(), wanted.splitlines())
    return next((f"\n  program {one!r}\n  reading {other!r}" for one, other in pairs if one != other), "")


def main():
    top = pathlib.Path(__file__).resolve().parent.parent.parent
    program = sys.argv[1] if len(sys.argv) > 1 else top / "crates/bus_open/out/bus_open"
    count = int(sys.argv[2]) if len(sys.argv) > 2 else 1000
    seed = int(sys.argv[3]) if len(sys.argv) > 3 else 1
    statuses = collections.Counter()
    tally = tallies.Tallies()
    differing = 0
    for number in range(count):
        data = scripts.script(random.Random(f"{seed}:{number}"))
        run = subprocess.run([program, "play"], input=data, stdout=subprocess.PIPE)
        status, text = expected(data, tally)
        statuses[status] += 1
        if (run.returncode, run.stdout) != (status, text.encode()):
            differing += 1
            print(f"script {number} of seed {seed}: status {run.returncode} and {status}{first_difference(run.stdout, text.encode())}")
            print(f"  {data!r}")
    for line in tally.lines():
        print(line)
    shares = ", ".join(f"{amount} of status {status}" for status, amount in sorted(statuses.items()))
    print(f"{count} scripts ({shares}): {differing} differ")
    sys.exit(1 if differing else 0)


if __name__ == "__main__":
    main()
