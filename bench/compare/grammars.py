"""What a text is: signatures, addresses and names, each read as a whole by the grammars of the D-Bus specification
(Type System, Server Addresses, Valid Names), and the line that `check` writes of it. Where the port departs from the
specification, so does this reading: a dictionary's key is any complete type, a signature has any length, an address is
one and no list, and `org.freedesktop.DBus` is a unique name too. A property's name has no grammar but its length."""
import dataclasses
import re

MOST_DEPTH = 32
MOST_NAME = 255

LETTERS = "ybnqiuxtdsgovh"
ALIGNMENTS = {head: size for size, heads in [(1, "ygv"), (2, "nq"), (4, "biusoah")] for head in heads}

ELEMENT = "[A-Za-z_][A-Za-z0-9_]*"
BUS_ELEMENT = "[A-Za-z_-][A-Za-z0-9_-]*"
NAMES = {
    "unique": r"org\.freedesktop\.DBus|:[A-Za-z0-9_-]+(?:\.[A-Za-z0-9_-]+)+",
    "well-known": rf"{BUS_ELEMENT}(?:\.{BUS_ELEMENT})+",
    "interface": rf"{ELEMENT}(?:\.{ELEMENT})+",
    "member": ELEMENT,
    "property": ".+",
    "error": rf"{ELEMENT}(?:\.{ELEMENT})+",
}
KINDS = ["signature", "address", "bus", *NAMES]

PAIR = re.compile(r"([A-Za-z0-9]+)=(.+)", re.DOTALL)
GUID = re.compile("[0-9a-fA-F]{32}")
PORT = re.compile(r"\+?[0-9]+")
ESCAPED = re.compile(r"(?:[-0-9A-Za-z_/.\\*]|%[0-9a-fA-F]{2})*")
PLAIN_BYTES = frozenset(b"-0123456789ABCDEFGHIJKLMNOPQRSTUVWXYZabcdefghijklmnopqrstuvwxyz_/.\\*")


class Refused(Exception):
    pass


@dataclasses.dataclass
class Type:
    """A complete type in a text: where it ends, and how many structures and arrays stand inside one another in it."""
    end: int
    structures: int
    arrays: int


def types_until(text, at, last):
    """The complete types from a place on, up to the character that closes them, or to the end where that is none."""
    types = []
    while text[at:at + 1] != last:
        types.append(type_at(text, at))
        at = types[-1].end
    return types


def deepest(types):
    return max(one.structures for one in types), max(one.arrays for one in types)


def type_at(text, at):
    head = text[at:at + 1]
    if head == "(":
        fields = types_until(text, at + 1, ")")
        if not fields:
            raise Refused("InvalidSignature")
        structures, arrays = deepest(fields)
        return Type(fields[-1].end + 1, structures + 1, arrays)
    if text.startswith("a{", at):
        entry = types_until(text, at + 2, "}")
        if len(entry) != 2:
            raise Refused("InvalidSignature")
        structures, arrays = deepest(entry)
        return Type(entry[-1].end + 1, structures, arrays + 1)
    if head == "a":
        child = type_at(text, at + 1)
        return Type(child.end, child.structures, child.arrays + 1)
    if head == "" or head not in LETTERS:
        raise Refused("InvalidSignature")
    return Type(at + 1, 0, 0)


def signature(text):
    types = types_until(text, 0, "")
    if types and max(deepest(types)) > MOST_DEPTH:
        raise Refused("InvalidSignature")
    printed = text if len(types) < 2 else f"({text})"
    return f"ok {printed} {len(printed)} {ALIGNMENTS.get(printed[:1], 8)}"


def unescaped(value):
    if not ESCAPED.fullmatch(value):
        raise Refused("BadEscape")
    return re.sub(rb"%(..)", lambda match: bytes.fromhex(match[1].decode()), value.encode())


def escaped(data):
    return "".join(chr(byte) if byte in PLAIN_BYTES else f"%{byte:02x}" for byte in data)


@dataclasses.dataclass
class Address:
    """What an address says: what it is printed with, in that order, and without its escapes."""
    transport: str
    options: dict
    guid: str | None = None

    def printed(self):
        pairs = [f"{key}={escaped(value)}" for key, value in self.options.items()]
        return f"{self.transport}:" + ",".join(pairs + ([f"guid={self.guid}"] if self.guid else []))


def unix(options):
    found = [key for key in ("path", "abstract", "dir", "tmpdir") if key in options]
    if len(found) != 1:
        raise Refused("Keys")
    return Address("unix", {found[0]: unescaped(options[found[0]])})


def host_of(options):
    if "bind" in options:
        raise Refused("Bind")
    if "host" not in options:
        raise Refused("MissingHost")
    host = unescaped(options["host"])
    try:
        host.decode("utf-8")
    except UnicodeDecodeError:
        raise Refused("HostText") from None
    return host


def tcp(transport, options):
    found = {"host": host_of(options)}
    if "port" not in options:
        raise Refused("MissingPort")
    if not PORT.fullmatch(options["port"]) or int(options["port"]) > 65535:
        raise Refused("BadPort")
    found["port"] = str(int(options["port"])).encode()
    if "family" in options:
        if options["family"] not in ("ipv4", "ipv6"):
            raise Refused("BadFamily")
        found["family"] = options["family"].encode()
    if "noncefile" in options:
        return Address("nonce-tcp", {"noncefile": unescaped(options["noncefile"])} | found)
    if transport == "nonce-tcp":
        raise Refused("MissingNonceFile")
    return Address("tcp", found)


def unixexec(options):
    if "path" not in options:
        raise Refused("MissingPath")
    keys = ["path"] + ["argv0"] * ("argv0" in options)
    number = 1
    while f"argv{number}" in options:
        keys.append(f"argv{number}")
        number += 1
    return Address("unixexec", {key: unescaped(options[key]) for key in keys})


def transport_of(transport, options):
    if transport == "unix":
        return unix(options)
    if transport in ("tcp", "nonce-tcp"):
        return tcp(transport, options)
    if transport == "unixexec":
        return unixexec(options)
    if transport == "ibus":
        return Address("ibus", {})
    raise Refused("UnknownTransport")


def address_of(text):
    transport, colon, rest = text.partition(":")
    pairs = [PAIR.fullmatch(pair) for pair in rest.split(",")] if rest else []
    if not transport or not colon or None in pairs:
        raise Refused("Form")
    options = dict(pair.groups() for pair in pairs)
    if "guid" in options and not GUID.fullmatch(options["guid"]):
        raise Refused("BadGuid")
    found = transport_of(transport, options)
    found.guid = options["guid"].lower() if "guid" in options else None
    return found


def address(text):
    return f"ok {address_of(text).printed()}"


def is_name(kind, text):
    return len(text.encode()) <= MOST_NAME and re.fullmatch(NAMES[kind], text, re.DOTALL) is not None


def name(kind, text):
    kinds = [one for one in ("unique", "well-known") if is_name(one, text)] if kind == "bus" else []
    if not kinds and (kind == "bus" or not is_name(kind, text)):
        raise Refused("InvalidName")
    return f"ok {kinds[0]}" if kind == "bus" else "ok"


def checked(kind, word):
    """The status and the line of a word, which may be no text."""
    try:
        text = word.decode("utf-8")
    except UnicodeDecodeError:
        return 2, "refused 0 words\n"
    try:
        readings = {"signature": signature, "address": address}
        return 0, (readings[kind](text) if kind in readings else name(kind, text)) + "\n"
    except Refused as refusal:
        return 1, f"refused {refusal}\n"
