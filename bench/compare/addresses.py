"""Random addresses of clients, and the answers to their dialling, most of which lead on."""
import dialling
import spelling

GUID = spelling.GUIDS[0]

NAMES = ["/run/a", "/run/b", "a", "/tmp/bus-1.2_x", "/run/a%20b", "caf%C3%a9", "%41%00", "%2frun%2Fa", "*\\"]
NO_TEXTS = ["%ff", "/a%c3", "%ed%a0%80"]
HOSTS = ["h", "localhost", "127.0.0.1", "%3a%3a1", "bus.example", "%c3%a9"]
# a text for each kind of refusal
REFUSED = """unix|unix:path=/a,|unix:path=/a,guid=12|foo:path=/a|unix:|unix:path=/a,abstract=b|unix:abstract=a b|unix:path=/a%2
tcp:host=a,port=1,bind=b|tcp:port=1|tcp:host=a:b,port=1|tcp:host=%ff,port=1|tcp:host=a|tcp:host=a,port=65536|nonce-tcp:host=a,port=1
tcp:host=a,port=1,family=ipv5|tcp:host=a,port=1,noncefile=~|unixexec:argv0=a|unixexec:path=/a,argv1=b,argv2=%"""
REFUSED = [text for row in REFUSED.split("\n") for text in row.split("|")]
# each around an address: white space, the same in Unicode, and what is neither or no text
AROUND = ["", "", "", "\n", "\n", " ", "\t\r\n", "\x0b\x0c", "\x85", "\u00a0", "\u3000", "\u2028", "\u1680", "\u205f \u2003"]
NOT_WHITE = [text.encode() for text in ["\x1c", "\x1f", "\u200b", "\u180e", "\ufeff", "\0", "."]] + [b"\xff", b"\xa0", b"\xe3\x80"]


def name(rng):
    return rng.choice(NAMES if rng.random() < 0.93 else NO_TEXTS)


def unix(rng):
    key = rng.choice(["path"] * 6 + ["abstract"] * 4 + ["dir", "tmpdir"])
    return "unix", [f"{key}={name(rng)}"]


def tcp(rng):
    pairs = [f"host={rng.choice(HOSTS)}", f"port={rng.choice(spelling.PORTS)}"]
    if rng.random() < 0.5:
        pairs.append(f"family={rng.choice(spelling.FAMILIES)}")
    if rng.random() < 0.5:
        return "tcp", pairs
    return rng.choice(["nonce-tcp"] * 5 + ["tcp"]), pairs + [f"noncefile={name(rng)}"]


def unixexec(rng):
    keys = ["path"] + ["argv0"] * (rng.random() < 0.5) + [f"argv{number}" for number in range(1, rng.choice([1, 1, 2, 3, 5]))]
    if len(keys) > 1 and rng.random() < 0.2:
        keys.remove(rng.choice(keys[1:]))
    return "unixexec", [f"{key}={name(rng)}" for key in keys]


def refused(rng):
    """A text that is mostly no address, or one with keys that stand twice or mean nothing."""
    if rng.random() < 0.5:
        return rng.choice(REFUSED)
    text = spelling.address(rng)
    if rng.random() < 0.2:
        at = rng.randrange(len(text) + 1)
        text = text[:at] + rng.choice(spelling.ODD) + text[at + 1:]
    return rng.choice([text] * 9 + [""]).replace("\n", "")


def address(rng, kinds):
    """An address of one of these kinds, with or without the GUID that its bus mostly has."""
    kind = rng.choice(kinds)
    if kind is refused:
        return refused(rng)
    transport, pairs = kind(rng) if kind != "ibus" else ("ibus", [])
    if rng.random() < 0.35:
        pairs.append("guid=" + rng.choice([GUID, GUID, GUID.upper(), "0" * 32]))
    rng.shuffle(pairs)
    return f"{transport}:{','.join(pairs)}"


def clients_address(rng):
    return address(rng, [unix] * 6 + [tcp] * 5 + [unixexec] * 2 + ["ibus"] * 5 + [refused] * 2)


def peers(rng):
    found = []
    for _ in range(rng.choice([0, 1, 1, 2, 2, 3, 5])):
        digits = rng.choice(["4-7f000001", "4-0a000002", "6-" + "0" * 31 + "1", "6-fe80" + "0" * 27 + "A"])
        found.append(f"{digits}-{rng.choice([0, 80, 4142, 65535])}")
    return found


def output(rng):
    text = address(rng, [unix] * 4 + [tcp] * 6 + [unixexec] * 2 + ["ibus", refused])
    front, back = (rng.choice(AROUND).encode() for _ in range(2))
    if rng.random() < 0.1:
        back += rng.choice(NOT_WHITE)
    if rng.random() < 0.05:
        front = rng.choice(NOT_WHITE) + front
    return front + text.encode() + back


def nonce(rng):
    size = rng.choice([0, 1, 16, 16, 16, 40, 1500])
    return bytes(rng.randrange(256) for _ in range(size))


def kind_of_answer(rng, question):
    """The kind of an answer to a question, mostly the one that leads on; a peer after another is often tried."""
    if rng.random() < 0.04:
        return rng.choice(["open", "peers", "nonce", "output"])
    fault = {"tcp": 0.4, "unix": 0.15, "accept": 0.12}.get(question[0], 0.1)
    return "fault" if rng.random() < fault else dialling.TAKES[question[0]]


def answer(rng, question):
    kind = kind_of_answer(rng, question)
    if kind == "open":
        return kind, rng.choice("yn")
    if kind == "peers":
        return kind, [peer.lower() for peer in peers(rng)]
    if kind == "nonce":
        return kind, nonce(rng)
    if kind == "output":
        return kind, rng.choice("yyyyyyyn"), output(rng)
    return dialling.FAULT


def answers(rng, session):
    """The answers to a session's dialling: as many as it takes, and now and then fewer or more, in either case."""
    found = []

    def answer_to(question):
        found.append(answer(rng, question))
        return found[-1]

    try:
        dialling.dial(session, answer_to)
    except dialling.Ended:
        pass
    if found and rng.random() < 0.08:
        found.pop(rng.randrange(len(found)))
    if rng.random() < 0.08:
        found.insert(rng.randrange(len(found) + 1), answer(rng, rng.choice([("tcp",), ("nonce",), ("lookup",), ("ibus",)])))
    texts = [dialling.spelled(one) for one in found]
    return [upper(text) if rng.random() < 0.1 else text for text in texts]


def upper(text):
    """The same answer with its bytes in upper case."""
    kind, *words = text.split(" ")
    return " ".join([kind] + [word.upper() if len(word) > 1 else word for word in words])
