"""Draws what `play` prints as SVG: a lane for each session, a row for each event. No test, and no gate.

Usage: python3 bench/timeline [INPUT [OUTPUT]]; `-` or none stands for standard input and standard output."""
import sys

import record
from picture import Picture


def main():
    """Reads, draws and writes; ends with status 2 where the input isn't what `play` prints."""
    source, sink = (sys.argv[1:] + ["-", "-"])[:2]
    try:
        with open(0 if source == "-" else source, "rb") as printed:
            drawn = Picture(record.read(printed.read())).svg().encode()
        with open(1 if sink == "-" else sink, "wb") as taken:
            taken.write(drawn)
    except (record.NotPrinted, OSError) as why:
        print(why, file=sys.stderr)
        sys.exit(2)


if __name__ == "__main__":
    main()
