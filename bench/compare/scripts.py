"""Random scripts: right ones, with every kind of line, and ones that are spoilt in a line or two."""

import addresses
import moments
import reading

GUID = addresses.GUID
OK = f"OK {GUID}\r\n".encode()

# lines that are put in anywhere: of other forms, at wrong places, out of range, or of no form
OTHERS = """rounds 3|rounds 03|rounds 18446744073709551615|rounds 18446744073709551616|rounds 1 | rounds 1|rounds 1\r|\r|start 1 2|start 1
start 0 18446744073709551615|start 18446744073709551616 0|start 00 0|now 18446744073709551615|now 18446744073709551616|now|now -|notify fault|notify
client EXTERNAL 1000 - n 18446744073709551616 unix:path=/a|client EXTERNAL 1000 - n 050 unix:path=/a|client EXTERNAL 1000 - n 50
server 1234deadbeef1234deadbeef12345678 ANONYMOUS - 18446744073709551615|server 1234deadbeef1234deadbeef12345678 ANONYMOUS - 5 |notify ok ok
server 1234deadbeef1234deadbeef12345678 EXTERNAL 1000 -|client ANONYMOUS 1000 - n - unix:path=/run/a|client EXTERNAL 1000 - n -
server 1234deadbeef1234deadbeef12345678 EXTERNAL 1000 5|server 1234deadbeef1234deadbeef1234567 EXTERNAL 1000 -|server - EXTERNAL - -
client EXTERNAL 1000 - n - |client EXTERNAL 1000 - y - unix:path=/a|client EXTERNAL 1000 . n - unix:path=/a|client EXTERNAL 1000 - n 5 unix:path=/a
client EXTERNAL 1000 - n - unix:path=/a b|client - 1000 - n - tcp:host=a,port=1|client EXTERNAL 4294967296 - n - unix:path=/a
client EXTERNAL 1 - n - unix:path=/a\r|dial 0 peers|dial 0 peers |dial 0 peers 4-7F000001-4142|dial 0 peers 4-7F000001-65536|dial 0 peers 4-7f00000-1
dial 0 nonce .|dial 0 output y 00|dial 0 output y|dial 9 fault|dial 4294967296 fault|dial 0 open y|dial 0 open|recv 0 bytes .|recv 0 bytes 0
recv 0 bytes 0g|recv 7 end|recv 0 fault|recv 0  end|recv 0 end |send 0 took 1|send 0 again|send 0 took 01|send 0 took 0|send 9 fault|now 5|now 4|notify ok
add fault|add|add ok|modify maybe|wait|wait reports |wait reports 0|wait reports 0wr|wait reports 99r|wait reports k99999r
wait reports k18446744073709551616r|wait reports k18446744073709551615r|wait interrupted |bogus|unix|# a note|"""
OTHERS = [line for row in OTHERS.split("\n") for line in row.split("|")]

# what a peer may say besides what leads on
COMMANDS = f"""AUTH|AUTH EXTERNAL|AUTH EXTERNAL 31303030|AUTH EXTERNAL 31303031|AUTH EXTERNAL 2b303037|AUTH EXTERNAL 34323934393637323936|AUTH EXTERNAL 78
AUTH EXTERNAL ff|AUTH ANONYMOUS|AUTH ANONYMOUS 7a|AUTH KERBEROS|AUTH EXTERNAL 3|CANCEL|BEGIN|BEGIN x|DATA|DATA 31303030|DATA 37|DATA zz|DATA 2b
ERROR|ERROR x y|NEGOTIATE_UNIX_FD|AGREE_UNIX_FD|REJECTED|REJECTED EXTERNAL|OK|OK {GUID}|OK {GUID.upper()}|OK {"0" * 32}|OK 12|NO||  OK  {GUID}  x
\tDATA\t37|caf\u00e9|begin|ERROR \u00e9"""
COMMANDS = [command for row in COMMANDS.split("\n") for command in row.split("|")]


def other_line(rng):
    line = rng.choice(COMMANDS).encode()
    if rng.random() < 0.03:
        line += b"\xff"
    return line + rng.choice([b"\r\n"] * 30 + [b"\n", b"\r\r\n", b" \r\n"])


def bus_says(rng):
    """All that the bus says to a client."""
    lines = [rng.choice([OK, OK, OK, other_line(rng)])]
    for _ in range(rng.choice([0, 0, 1, 2])):
        lines.append(rng.choice([b"AGREE_UNIX_FD\r\n"] * 4 + [b"ERROR\r\n", OK, other_line(rng)]))
    return b"".join(lines)


def client_says(rng):
    """All that a client says to a server."""
    good = rng.choice(["AUTH EXTERNAL 31303030|BEGIN", "AUTH EXTERNAL 31303030|NEGOTIATE_UNIX_FD|BEGIN", "AUTH EXTERNAL|DATA|BEGIN",
                       "AUTH EXTERNAL|DATA 31303030|NEGOTIATE_UNIX_FD|CANCEL|AUTH EXTERNAL 31303030|BEGIN", "AUTH ANONYMOUS 7a|BEGIN",
                       "AUTH ANONYMOUS|DATA 00|BEGIN", "AUTH EXTERNAL 2b37|BEGIN"])
    lines = [command.encode() + b"\r\n" for command in good.split("|")]
    for _ in range(rng.choice([0, 0, 1, 2])):
        lines.insert(rng.randrange(len(lines) + 1), other_line(rng))
    if rng.random() < 0.1:
        lines = [rng.choice([b"CANCEL\r\n", b"ERROR\r\n", b"BEGIN\r\n"]) for _ in range(rng.choice([62, 63, 64]))] + lines
    return rng.choice([b"\0"] * 12 + [b"", b"\0\0"]) + b"".join(lines)


def peer_says(rng, server):
    said = client_says(rng) if server else bus_says(rng)
    if rng.random() < 0.05:
        said = said[:rng.randrange(len(said) + 1)]
    if rng.random() < 0.05:
        long = b"a" * rng.choice([16382, 16383, 16384, 16385, 20000]) + rng.choice([b"\r\n", b"\n", b"", b"b"])
        said = rng.choice([said + long, long + said, b"\0" + long])
    return said + bytes(rng.randrange(256) for _ in range(rng.choice([0, 0, 0, 1, 3, 2000])))


def parts(rng, said):
    """What a peer says, cut anywhere, into lines, or not at all."""
    steps = [1, 5, 30] if len(said) < 300 else [100, 1023, 1024, 1025]
    cut = rng.choice(["whole", "lines", "steps"])
    if cut == "lines":
        return said.splitlines(keepends=True)
    step = rng.choice(steps) if cut == "steps" else len(said) + 1
    return [said[start:start + step] for start in range(0, len(said), step)]


def reads(rng, server, slow):
    """The answers to the reads of one session; the slower the peer, the more often nothing is there yet."""
    answers = []
    for part in parts(rng, peer_says(rng, server)):
        answers += ["again"] * (rng.choice([1, 1, 2]) if rng.random() < slow else 0)
        answers.append("bytes " + (part.hex().upper() if rng.random() < 0.1 else part.hex()))
    answers += ["again"] * rng.choice([0, 0, 1, 2])
    return answers + rng.choice([[], [], ["end"], ["fault"]])


def sends(rng, slow):
    """The answers to the sends of one session; of the slowest peers none is taken at once."""
    kind = rng.random()
    if kind < 0.4 and slow < 1:
        return []
    if kind < 0.6:
        return (["took 4000"] * rng.choice([0, 1]) + ["again", "took 4000"] * 4)[:rng.choice([3, 6, 9])]
    answers = []
    for _ in range(rng.choice([1, 2, 4, 8])):
        if rng.random() < slow / 2:
            answers += ["again"] * rng.choice([1, 1, 2])
        answers.append(rng.choice([f"took {rng.choice([1, 1, 3, 10, 50])}", "took 7"] + ["took 4000"] * 4))
    if rng.random() < 0.25:
        answers.insert(rng.randrange(len(answers) + 1), rng.choice(["fault", "took 0"]))
    return answers


def wait(rng, sessions, faults, mood):
    """The answer of a wait: quiet ones report little, lively ones mostly all sessions."""
    kind = rng.random()
    if kind < 0.1:
        return "wait interrupted"
    if kind < 0.16 and faults:
        return "wait fault"
    if mood == "lively" and kind < 0.8:
        return " ".join(["wait reports"] + [f"{number}rw" for number in range(sessions)])
    words = []
    for _ in range(rng.choice([0, 0, 0, 0, 0, 0, 1, 2] if mood == "quiet" else [0, 1, 1, 1, 2, 3, 5, 70])):
        named = str(rng.randrange(sessions)) if sessions and rng.random() < 0.8 else f"k{rng.choice([0, 1, 2, 3, 9])}"
        words.append(named + rng.choice(["r", "r", "w", "w", "rw"]))
    return " ".join(["wait reports"] + words)


def session(rng, deadlines):
    """A session's line, and the session."""
    deadline = rng.choice(deadlines)
    if rng.random() < 0.35:
        permitted = rng.choice([None, 1000, 1000, 7])
        server = reading.Server(GUID, rng.choice(["EXTERNAL", "EXTERNAL", "ANONYMOUS"]), permitted, None)
        return f"server {GUID} {server.mechanism} {'-' if permitted is None else permitted} {deadline}", server
    parts = [rng.choice(["-", "-", "EXTERNAL", "ANONYMOUS"]), str(rng.choice([0, 7, 1000, 4294967295])),
             rng.choice(["-", "-", ".", "6c01"]), rng.choice("yn"), deadline,
             "unix:path=/run/a" if rng.random() < 0.3 else addresses.clients_address(rng)]
    return f"client {' '.join(parts)}", reading.Client(parts[0], int(parts[1]), b"", parts[3] == "y", None, parts[5])


def queues(rng, sessions, readings):
    """The lines of each queue of answers, in order."""
    faults = rng.random() < 0.15
    slow, mood = rng.choice([0.15, 0.15, 0.5, 0.5, 0.9, 1]), rng.choice(["quiet", "quiet", "lively", "lively", "mixed"])
    found = []
    for number, one in enumerate(sessions):
        if rng.random() < 0.95:
            found.append([f"dial {number} {answer}" for answer in addresses.answers(rng, one)])
        if rng.random() < 0.9:
            server = isinstance(one, reading.Server)
            found.append([f"recv {number} {answer}" for answer in reads(rng, server, slow)])
        found.append([f"send {number} {answer}" for answer in sends(rng, slow)])
    for call in ("add", "modify", "delete", "notify"):
        answers = ["fault" if faults and rng.random() < 0.4 else "ok" for _ in range(rng.choice([0, 0, 1, 3]))]
        found.append([f"{call} {answer}" for answer in answers])
    found.append([f"now {moment}" for moment in readings])
    found.append([wait(rng, len(sessions), faults, mood) for _ in range(rng.randrange(12))])
    return [queue for queue in found if queue]


def right(rng):
    """The lines of a script."""
    lines = [f"rounds {rng.choice([0, 1, 2, 3, 5, 8, 12])}"]
    if rng.random() < 0.12:
        lines.append(moments.start(rng))
    count = rng.choice([0, 1, 1, 2, 2, 3, 4, 6])
    readings = moments.readings(rng, count)
    deadlines = moments.deadlines(rng, readings) if rng.random() < 0.7 else ["-"]
    sessions = []
    for _ in range(count):
        line, one = session(rng, deadlines)
        lines.append(line)
        sessions.append(one)
    left = queues(rng, sessions, readings)
    while left:
        queue = rng.choice(left)
        lines.append(queue.pop(0))
        left = [queue for queue in left if queue]
    return lines


def spoilt(rng, lines):
    lines = list(lines)
    for _ in range(rng.choice([1, 1, 2])):
        kind = rng.random()
        place = rng.randrange(len(lines))
        if kind < 0.6:
            lines.insert(place, rng.choice(OTHERS))
        elif kind < 0.75:
            lines.pop(place)
            lines = lines or ["# nothing"]
        elif kind < 0.85 and lines[place]:
            at = rng.randrange(len(lines[place]))
            lines[place] = lines[place][:at] + rng.choice(" 0ae\r\tz:-.\xe9") + lines[place][at + 1:]
        else:
            other = rng.randrange(len(lines))
            lines[place], lines[other] = lines[other], lines[place]
    return lines


def script(rng):
    """The bytes of a script."""
    lines = right(rng)
    if rng.random() < 0.3:
        lines = spoilt(rng, lines)
    end = "\n" if rng.random() < 0.9 else ""
    coding = "latin-1" if rng.random() < 0.02 else "utf-8"
    return ("\n".join(lines) + end).encode(coding, "replace")
