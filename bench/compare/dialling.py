"""How a session dials: the questions that it asks by its address, and the wire that it comes to, or how it ends before."""
import dataclasses

import grammars
import reading

# the kind of answer that each question takes, besides a fault
TAKES = {"unix": "open", "abstract": "open", "start": "open", "accept": "open", "lookup": "peers", "tcp": "open",
         "nonce": "nonce", "ibus": "output"}
FAULT = ("fault",)
FAMILIES = {b"ipv4": "4", b"ipv6": "6"}
# Unicode's white space; str.strip() would take U+001C to U+001F too
WHITE = "\t\n\v\f\r \x85\xa0\u1680" + "".join(map(chr, range(0x2000, 0x200b))) + "\u2028\u2029\u202f\u205f\u3000"


class Ended(Exception):
    pass


@dataclasses.dataclass
class Wire:
    passes: bool
    tcp: bool = False
    nonce: bytes = b""


def printed(data):
    return data.hex() if data else "."


def spelled(parts):
    """A question or an answer as the script and the record have it."""
    words = []
    for part in parts:
        words += part if isinstance(part, list) else [part]
    return " ".join(printed(word) if isinstance(word, bytes) else "-" if word is None else str(word) for word in words)


def fitting(question, answer):
    """The answer, which is a fault where it is of another kind than the question asks."""
    return answer if answer[0] == TAKES[question[0]] else FAULT


def named(*names):
    """Nothing can be asked by a name that is no text."""
    for name in names:
        try:
            name.decode("utf-8")
        except UnicodeDecodeError:
            raise Ended("unsupported") from None


def wire(ask, *question):
    kind, *flag = ask(*question)
    if kind == "fault":
        raise Ended("connection")
    return Wire(flag == ["y"])


def by_socket(options, ask):
    if "abstract" in options:
        return wire(ask, "abstract", options["abstract"])
    if "path" not in options:
        raise Ended("unsupported")
    named(options["path"])
    return wire(ask, "unix", options["path"])


def by_program(options, ask):
    named(*options.values())
    arguments = [value for key, value in options.items() if key not in ("path", "argv0")]
    return wire(ask, "start", options["path"], options.get("argv0"), arguments)


def to_host(options, ask):
    """The first of the host's peers that opens."""
    kind, *found = ask("lookup", options["host"], int(options["port"]))
    if kind == "fault":
        raise Ended("connection")
    peers = [peer for peer in found[0] if "family" not in options or peer[0] == FAMILIES[options["family"]]]
    if not peers:
        raise Ended("address:no-address")
    for peer in peers:
        kind, *flag = ask("tcp", peer)
        if kind == "open":
            return Wire(flag == ["y"], True)
    raise Ended("connection")


def by_tcp(options, ask):
    if "noncefile" not in options:
        return to_host(options, ask)
    named(options["noncefile"])
    found = to_host(options, ask)
    kind, *nonce = ask("nonce", options["noncefile"])
    if kind == "fault":
        raise Ended("io")
    found.nonce = nonce[0]
    return found


def by_ibus(_, ask):
    """What ibus prints is dialled, and may not name ibus again."""
    kind, *output = ask("ibus")
    if kind == "fault" or output[0] != "y":
        raise Ended("address:ibus-failed")
    try:
        given = grammars.address_of(output[1].decode("utf-8").strip(WHITE))
    except (UnicodeDecodeError, grammars.Refused):
        raise Ended("address:ibus-failed") from None
    if given.transport == "ibus":
        raise Ended("unsupported")
    return BY[given.transport](given.options, ask)


BY = {"unix": by_socket, "tcp": by_tcp, "nonce-tcp": by_tcp, "unixexec": by_program, "ibus": by_ibus}


def dial(session, answer_to):
    """The wire that a session comes to, where `answer_to` gives what the script has for a question; or it has ended."""
    def ask(*question):
        return fitting(question, answer_to(question))

    if not isinstance(session, reading.Client):
        return wire(ask, "accept")
    try:
        address = grammars.address_of(session.address)
    except grammars.Refused as refusal:
        raise Ended(f"address:{refusal}") from None
    return BY[address.transport](address.options, ask)
