"""Reads the text of a script: its lines by one table of forms, and the first refusal."""
import dataclasses
import re

MOST_BYTES = 16777216

NUMBER = "0|[1-9][0-9]*"
BYTES = r"\.|(?:[0-9a-fA-F]{2})+"
PEER = r"(?:4-[0-9a-fA-F]{8}|6-[0-9a-fA-F]{32})-(?:0|[1-9][0-9]*)"
READY = r"k?(?:0|[1-9][0-9]*)(?:rw|r|w)"

# what a line says, and its form; a group's name begins with the bits of its number
FORMS = [
    ("rounds", rf"rounds (?P<u64>{NUMBER})"),
    ("start", rf"start (?P<u64_tick>{NUMBER}) (?P<u64_timer>{NUMBER})"),
    ("client", rf"client (?P<mech>-|EXTERNAL|ANONYMOUS) (?P<u32>{NUMBER}) (?P<hello>-|{BYTES}) (?P<flatpak>[yn])"
               rf" (?:-|(?P<u64>{NUMBER})) (?P<address>.*)"),
    ("server", rf"server (?P<guid>[0-9a-fA-F]{{32}}) (?P<mech>EXTERNAL|ANONYMOUS) (?:-|(?P<u32>{NUMBER}))"
               rf" (?:-|(?P<u64>{NUMBER}))"),
    ("dial open", rf"dial (?P<u32>{NUMBER}) open (?P<flag>[yn])"),
    ("dial peers", rf"dial (?P<u32>{NUMBER}) peers(?P<peers>(?: {PEER})*)"),
    ("dial nonce", rf"dial (?P<u32>{NUMBER}) nonce (?P<bytes>{BYTES})"),
    ("dial output", rf"dial (?P<u32>{NUMBER}) output (?P<flag>[yn]) (?P<bytes>{BYTES})"),
    ("dial fault", rf"dial (?P<u32>{NUMBER}) fault"),
    ("recv bytes", rf"recv (?P<u32>{NUMBER}) bytes (?P<bytes>(?:[0-9a-fA-F]{{2}})+)"),
    ("recv end", rf"recv (?P<u32>{NUMBER}) end"),
    ("recv again", rf"recv (?P<u32>{NUMBER}) again"),
    ("recv fault", rf"recv (?P<u32>{NUMBER}) fault"),
    ("send took", rf"send (?P<u32>{NUMBER}) took (?P<u64>{NUMBER})"),
    ("send again", rf"send (?P<u32>{NUMBER}) again"),
    ("send fault", rf"send (?P<u32>{NUMBER}) fault"),
    ("now", rf"now (?P<u64>{NUMBER})"),
    ("poller", r"(?P<call>add|modify|delete|notify) (?P<answer>ok|fault)"),
    ("wait reports", rf"wait reports(?P<reports>(?: {READY})*)"),
    ("wait interrupted", r"wait interrupted"),
    ("wait fault", r"wait fault"),
]
COMPILED = [(kind, re.compile(form, re.DOTALL)) for kind, form in FORMS]


class Refused(Exception):
    def __init__(self, line, reason):
        super().__init__(line, reason)
        self.line = line
        self.reason = reason


@dataclasses.dataclass
class Client:
    mechanism: str
    user: int
    hello: bytes
    flatpak: bool
    deadline: int | None
    address: str


@dataclasses.dataclass
class Server:
    guid: str
    mechanism: str
    permitted: int | None
    deadline: int | None


@dataclasses.dataclass
class Script:
    rounds: int = 0
    # the numbers of the last round and of the last timer before it
    tick: int = 0
    timer: int = 0
    sessions: list = dataclasses.field(default_factory=list)
    # the answers to each session's dialling (what kind each is, and what it carries), reads and sends
    dials: dict = dataclasses.field(default_factory=dict)
    reads: dict = dataclasses.field(default_factory=dict)
    sends: dict = dataclasses.field(default_factory=dict)
    readings: list = dataclasses.field(default_factory=list)
    poller: dict = dataclasses.field(default_factory=lambda: {"add": [], "modify": [], "delete": [], "notify": []})
    waits: list = dataclasses.field(default_factory=list)


def in_range(groups):
    bits = {"u32": 32, "u64": 64}
    return all(text is None or int(text) < 1 << bits[name[:3]] for name, text in groups.items() if name[:3] in bits)


def reports_of(text):
    """The reports of a wait: whether each names a key, the number, and the directions."""
    found = re.findall(r"(k?)([0-9]+)(rw|r|w)", text)
    return [(key == "k", int(number), "r" in dirs, "w" in dirs) for key, number, dirs in found]


def form_of(line):
    """What the line says, or None where it has no form."""
    for kind, form in COMPILED:
        match = form.fullmatch(line)
        if match is None:
            continue
        groups = match.groupdict()
        ports = re.findall(r"-([0-9]+)(?= |$)", groups.get("peers") or "")
        reports = reports_of(groups.get("reports") or "")
        fits = in_range(groups) and all(int(port) < 65536 for port in ports)
        fits = fits and all(number < 1 << (64 if key else 32) for key, number, _, _ in reports)
        return (kind, groups) if fits else None
    return None


def place_of(kind):
    return {"rounds": 0, "start": 1, "client": 2, "server": 2}.get(kind, 3)


def in_order(kind, last):
    """Whether such a line may come after lines up to this place; last is None before the first."""
    place = place_of(kind)
    if last is None:
        return place == 0
    return place > last or (place == last and place >= 2)


def names_of(kind, groups):
    """The sessions that an answer names."""
    if kind.split()[0] in ("dial", "recv", "send"):
        return [int(groups["u32"])]
    return [number for key, number, _, _ in reports_of(groups.get("reports") or "") if not key]


def falls(script, kind, groups):
    """Whether the clock would fall by this line."""
    return kind == "now" and script.readings != [] and int(groups["u64"]) < script.readings[-1]


def bytes_of(text):
    return b"" if text in "-." else bytes.fromhex(text)


def number_of(text):
    """The number that a group holds, or None where it was not there."""
    return None if text is None else int(text)


def dial_answer(kind, groups):
    """What kind a dial answer is, and what it carries."""
    if kind == "dial open":
        return "open", groups["flag"]
    if kind == "dial peers":
        return "peers", groups["peers"].lower().split()
    if kind == "dial nonce":
        return "nonce", bytes_of(groups["bytes"])
    if kind == "dial output":
        return "output", groups["flag"], bytes_of(groups["bytes"])
    return ("fault",)


def session_of(kind, groups):
    deadline = number_of(groups["u64"])
    if kind == "server":
        return Server(groups["guid"].lower(), groups["mech"], number_of(groups["u32"]), deadline)
    hello = bytes_of(groups["hello"])
    return Client(groups["mech"], int(groups["u32"]), hello, groups["flatpak"] == "y", deadline, groups["address"])


def add(script, kind, groups):
    if kind == "rounds":
        script.rounds = int(groups["u64"])
    elif kind == "start":
        script.tick, script.timer = int(groups["u64_tick"]), int(groups["u64_timer"])
    elif kind in ("client", "server"):
        script.sessions.append(session_of(kind, groups))
    elif kind.startswith("dial"):
        script.dials.setdefault(int(groups["u32"]), []).append(dial_answer(kind, groups))
    elif kind.startswith("send"):
        answer = int(groups["u64"]) if kind == "send took" else kind.split()[1]
        script.sends.setdefault(int(groups["u32"]), []).append(answer)
    elif kind.startswith("recv"):
        answer = bytes.fromhex(groups["bytes"]) if kind == "recv bytes" else kind.split()[1]
        script.reads.setdefault(int(groups["u32"]), []).append(answer)
    elif kind == "now":
        script.readings.append(int(groups["u64"]))
    elif kind == "poller":
        script.poller[groups["call"]].append(groups["answer"] == "ok")
    elif kind == "wait reports":
        script.waits.append(reports_of(groups["reports"]))
    else:
        script.waits.append(kind.split()[1])


def read(data):
    if len(data) > MOST_BYTES:
        raise Refused(0, "length")
    try:
        lines = data.decode("utf-8").split("\n")
    except UnicodeDecodeError:
        raise Refused(0, "text") from None
    script = Script()
    last = None
    for number, line in enumerate(lines, 1):
        if line == "" or line.startswith("#"):
            continue
        found = form_of(line)
        if found is None:
            raise Refused(number, "form")
        if not in_order(found[0], last):
            raise Refused(number, "order")
        if any(name >= len(script.sessions) for name in names_of(*found)):
            raise Refused(number, "session")
        if falls(script, *found):
            raise Refused(number, "clock")
        last = place_of(found[0])
        add(script, *found)
    if last is None:
        raise Refused(0, "order")
    return script
