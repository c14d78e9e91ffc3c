"""Random texts of the kinds that `check` reads: right ones, ones at the limits, and ones spoilt in a byte or two."""

LETTERS = "ybnqiuxtdsgovh"
ODD = """-_.:;,=%+*\\/(){}[]a09Zvs~@ \t\n\r\x01\x7f"'$\u00e9\u20ac"""
GUIDS = ["1234deadbeef1234deadbeef12345678", "1234DEADbeef1234deadBEEF12345678", "0" * 32]
BAD_GUIDS = ["1234", "0" * 31 + "g", "0" * 33, "%30" + "0" * 31]
VALUES = ["/run/a", "/run/user/1000/bus", "a", "bus-1.2_x", "%2ftmp", "%41%42", "/a%20b", "%c3%a9", "%C3%A9x", "*\\",
          "..", "%00", "%ff", "127.0.0.1"]
BAD_VALUES = ["/a b", "a%2", "%zz", "%", "a=b", "caf\u00e9", "a:b", "a;b", "+1"]
KEYS = ["path", "abstract", "dir", "tmpdir", "host", "port", "family", "bind", "noncefile", "guid", "argv0", "argv1",
        "argv2", "argv3", "argv01", "argv11", "x", "Path", "runtime", "9"]
FAMILIES = ["ipv4", "ipv6"]
BAD_FAMILIES = ["ipv7", "IPv4", "ip%764"]
PORTS = ["0", "1", "4142", "65535", "00080", "+80", "000000000000065535"]
BAD_PORTS = ["65536", "+", "-1", "99999999999999999999", "8o", "1 ", "\u0663", "++1"]
BEHIND = {"port": (PORTS, BAD_PORTS), "family": (FAMILIES, BAD_FAMILIES), "guid": (GUIDS, BAD_GUIDS)}
TRANSPORTS = ["unix", "tcp", "nonce-tcp", "unixexec", "ibus"]
OTHER_TRANSPORTS = ["foo", "Unix", "", "autolaunch", "launchd", "unix ", "a,b", "a=b", "\u00e9"]


def complete_type(rng, depth):
    kind = rng.randrange(6) if depth > 0 else 5
    if kind == 0:
        return "a" + complete_type(rng, depth - 1)
    if kind == 1:
        return f"a{{{complete_type(rng, depth - 1)}{complete_type(rng, depth - 1)}}}"
    if kind == 2:
        return "(" + "".join(complete_type(rng, depth - 1) for _ in range(rng.choice([1, 1, 2, 3]))) + ")"
    return rng.choice(LETTERS)


def deep_type(rng):
    """A type with so many structures and so many arrays inside one another, in any order."""
    shells = ["()"] * rng.choice([0, 1, 31, 32, 32, 33, 34]) + ["a"] * rng.choice([0, 1, 31, 32, 32, 33, 34])
    rng.shuffle(shells)
    text = rng.choice(LETTERS)
    for shell in shells:
        beside = complete_type(rng, 1) if rng.random() < 0.1 else ""
        if shell == "()":
            text = f"({text}{beside})"
        else:
            text = f"a{{{rng.choice(LETTERS)}{text}}}" if rng.random() < 0.3 else "a" + text
    return text


def signature(rng):
    kind = rng.random()
    if kind < 0.3:
        return rng.choice(["", "", "y"]) + deep_type(rng) + rng.choice(["", "", "y"])
    if kind < 0.35:
        return rng.choice(LETTERS) * rng.choice([254, 255, 256, 300])
    if kind < 0.45:
        return rng.choice("a({") * rng.choice([1, 31, 32, 33, 200]) + rng.choice(["", "i", "ii)", "}"])
    return "".join(complete_type(rng, rng.randrange(5)) for _ in range(rng.choice([0, 1, 1, 2, 3])))


def pair(rng, key):
    """A key and a value, mostly one that is right behind it."""
    good, bad = BEHIND.get(key, (VALUES, BAD_VALUES))
    value = rng.choice(good if rng.random() < 0.9 else bad)
    if good is VALUES and rng.random() < 0.25:
        value += rng.choice(VALUES)
    return f"{key}={value}"


def keys_of(rng, transport):
    """The keys that an address of this transport mostly has."""
    if transport == "unix":
        keys = [rng.choice(KEYS[:4])]
    elif transport == "unixexec":
        keys = ["path"] + [key for key in ("argv0", "argv1", "argv2", "argv3") if rng.random() < 0.5]
    elif transport == "ibus":
        keys = []
    else:
        keys = ["host", "port"] + ["family"] * rng.randrange(2)
        keys += ["noncefile"] * (transport == "nonce-tcp" or rng.random() < 0.2)
    keys += ["guid"] * (rng.random() < 0.3)
    while rng.random() < 0.25:
        keys.append(rng.choice(KEYS))
    while keys and rng.random() < 0.1:
        keys.remove(rng.choice(keys))
    rng.shuffle(keys)
    return keys


def address(rng):
    transport = rng.choice(TRANSPORTS if rng.random() < 0.9 else OTHER_TRANSPORTS)
    pairs = [pair(rng, key) for key in keys_of(rng, transport)]
    if rng.random() < 0.05:
        other = rng.choice(["", "x", "=", "=a", "x=", "guid=", "a-b=c", "x==", "\u00e9=a"])
        pairs.insert(rng.randrange(len(pairs) + 1), other)
    return transport + rng.choice([":"] * 30 + ["", "::", ";"]) + ",".join(pairs)


def element(rng, firsts, others):
    return rng.choice(firsts) + "".join(rng.choice(others) for _ in range(rng.choice([0, 0, 1, 3, 8])))


def elements(rng, firsts, others):
    return ".".join(element(rng, firsts, others) for _ in range(rng.choice([1, 2, 2, 2, 3, 5])))


def name(rng, kind):
    """A name that is mostly of the kind."""
    letters = "abzAZ_"
    if rng.random() < 0.15 or kind == "bus":
        kind = rng.choice(["unique", "well-known", "interface", "member", "property"])
    if rng.random() < 0.05:
        return "org.freedesktop" + rng.choice([".DBus", ".DBus", ".DBus.Error", "", ".dbus"])
    if kind == "unique":
        return ":" + elements(rng, letters + "019-", letters + "09-")
    if kind == "well-known":
        return elements(rng, letters + "-", letters + "09-")
    if kind == "member":
        return element(rng, letters, letters + "09")
    if kind == "property":
        return "".join(rng.choice("ab .\u00e9\u20ac\U0001f600\n") for _ in range(rng.choice([1, 2, 10])))
    return elements(rng, letters, letters + "09")


def of_length(rng, text, size):
    """A name made so many bytes long, by an element or by a character."""
    grown = rng.choice(["a", "a", "_", "9", ".b", "\u00e9"])
    missing = max(0, size - len(text.encode()))
    count = missing // len(grown.encode())
    return text + grown * count + "a" * (missing - count * len(grown.encode()))


def long_name(rng, kind):
    return of_length(rng, name(rng, kind), rng.choice([253, 254, 255, 255, 256, 256, 257]))


def edited(rng, word):
    """The bytes with one left out, put in, changed or changed over with its neighbour."""
    at = rng.randrange(len(word) + 1)
    kind = rng.randrange(4)
    new = rng.choice(ODD).encode() if rng.random() < 0.9 else bytes([rng.randrange(1, 256)])
    if kind == 0:
        return word[:at] + new + word[at:]
    if kind == 1:
        return word[:at] + new + word[at + 1:]
    if kind == 2:
        return word[:at] + word[at + 1:]
    return word[:at] + word[at + 1:at + 2] + word[at:at + 1] + word[at + 2:]


def mixed(rng):
    """A text of no kind."""
    return "".join(rng.choice(ODD + "abc.:=,sa") for _ in range(rng.choice([1, 2, 5, 20])))


def text(rng, kind):
    """A text that is mostly of the kind."""
    if rng.random() < 0.06:
        kind = rng.choice(["empty", "mixed", "signature", "address", "bus"])
    if kind == "empty":
        return ""
    if kind == "mixed":
        return mixed(rng)
    if kind == "signature":
        return signature(rng)
    if kind == "address":
        return address(rng)
    return name(rng, kind) if rng.random() < 0.75 else long_name(rng, kind)


def word(rng, kind):
    """The bytes of a text that is mostly of the kind, or next to it."""
    found = text(rng, kind).encode()
    for _ in range(rng.choice([0, 0, 0, 1, 1, 2])):
        found = edited(rng, found)
    return found
