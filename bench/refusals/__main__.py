#!/usr/bin/env python3
"""Refuses each growth of memory in its turn, of the program on four scripts and a bulk run, of `open_all` with a second
call after it, and of a timer's polls, and prints how many growths there were and what came of each. The status is 0
where each came to want of memory or to what comes without a refusal. No gate.

Usage: bench/refusals; it runs what `rt ci` leaves in crates/bus_open/out and crates/react_tables/out. A C compiler
builds the library that refuses."""
import os
import pathlib
import re
import subprocess
import sys
import tempfile
from collections import Counter

HERE = pathlib.Path(__file__).resolve().parent
TOP = HERE.parent.parent

OUT_OF_MEMORY = 5

SCRIPTS = {
    "two clients": (TOP / "crates/bus_open/stdin").read_bytes(),
    "a deadline that comes": b"""rounds 1
client EXTERNAL 1000 - n 50 unix:path=/run/a
dial 0 open n
now 10
now 10
now 50
""",
    "a server": b"""rounds 5
server 1234deadbeef1234deadbeef12345678 EXTERNAL 1000 -
dial 0 open n
recv 0 bytes 00415554482045585445524e414c0d0a444154410d0a424547494e0d0a
""",
    "a nonce": b"""rounds 1
client - 0 - n - nonce-tcp:host=localhost,port=4142,family=ipv6,noncefile=/a/file/path%20to%20file%201234
dial 0 peers 6-00000000000000000000000000000001-4142
dial 0 open n
dial 0 nonce 564552494c5920534543524554495645
""",
}

BULK = "60"

# Tests, whose every call is repeated or whose second call has its memory: they fail for want of memory alone.
TESTS = [
    ("bus_open", "tests::again::a_call_after_another_opens_as_ever"),
    ("react_tables", "timed::a_poll_that_lacked_memory_goes_on_from_its_moment"),
]


def run(words, given, library, growth):
    """What came of it: status, output (of a test its complaint), and whether a growth was refused."""
    told, tells = os.pipe()
    environment = dict(os.environ, LD_PRELOAD=str(library), REFUSED_GROWTH=str(growth), REFUSED_TO=str(tells))
    ran = subprocess.run(
        words, input=given, stdout=subprocess.PIPE, stderr=subprocess.STDOUT, env=environment, pass_fds=[tells]
    )
    os.close(tells)
    refused = os.read(told, 1) == b"x"
    os.close(told)
    return ran.returncode, ran.stdout, refused


def refuse_all(name, words, given, library, lacks):
    """Refuses growth after growth until none is refused. Tells whether all came to one of the two."""
    status, output, _ = run(words, given, library, 0)
    if lacks(status, output):
        sys.exit(f"{name}: memory is wanting without a refusal")
    came, growth = Counter(), 0
    while True:
        growth += 1
        now, printed, refused = run(words, given, library, growth)
        if not refused:
            break
        if lacks(now, printed):
            came["want of memory"] += 1
        elif (now, printed) == (status, output):
            came["what comes without"] += 1
        else:
            came["neither"] += 1
            print(f"  growth {growth}: status {now}\n{printed.decode(errors='replace')}")
    print(f"{name}: {growth - 1} growths refused: " + ", ".join(f"{key} {count}" for key, count in sorted(came.items())))
    return came["neither"] == 0


def program_lacks(status, output):
    return (status, output) == (OUT_OF_MEMORY, b"")


def test_lacks(status, output):
    """A test that ended by a `?` for want of memory: no assertion failed."""
    return status != 0 and re.match(rb"\s*error: (AllocError|OutOfMemory|.*out of memory)", output) is not None


def main():
    program = TOP / "crates/bus_open/out/bus_open"
    good = True
    with tempfile.TemporaryDirectory() as room:
        library = pathlib.Path(room) / "refuse.so"
        subprocess.run(["cc", "-O2", "-shared", "-fPIC", "-o", library, HERE / "refuse.c"], check=True)
        for name, script in SCRIPTS.items():
            good &= refuse_all(name, [program, "play"], script, library, program_lacks)
        good &= refuse_all(f"bulk {BULK}", [program, "bulk", BULK], b"", library, program_lacks)
        for crate, test in TESTS:
            words = [TOP / f"crates/{crate}/out/{crate}_tests", test]
            good &= refuse_all(test, words, b"", library, test_lacks)
    sys.exit(0 if good else 1)


if __name__ == "__main__":
    main()
