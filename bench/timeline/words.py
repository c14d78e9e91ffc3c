"""The words in which a picture tells an event: bytes as text where they are text, cut to the room that there is."""
import re

from record import Kind, bytes_of

ESCAPES = {0: "\\0", 9: "\\t", 10: "\\n", 13: "\\r", 34: '\\"', 92: "\\\\"}
# what has bytes in a dialling, and which of its words is no bytes
WITH_BYTES = {"unix": None, "abstract": None, "nonce": None, "start": None, "lookup": 1, "output": 0}


def spelled(data):
    """Bytes piece by piece: lines of text in quotes, other lines as hexadecimal digits in angles."""
    words = []
    for piece in re.findall(rb"(?:[\0\t\r -~]*\n)*[\0\t\r -~]+\Z|(?:[\0\t\r -~]*\n)+|[^\n]*\n|[^\n]+\Z", data):
        text = "".join(ESCAPES.get(byte, chr(byte)) for byte in piece)
        words.append(f'"{text}"' if text.isascii() and text.isprintable() else f"<{piece.hex()}>")
    return " ".join(words) or '""'


def cut(text, room):
    """The text where it fits, else its first part and a mark."""
    return text if len(text) <= room else text[:max(room - 1, 0)] + "\u2026"


def dialled(words):
    """A question or an answer of a dialling, with its bytes as text."""
    name, *rest = words.split(" ")
    if name in WITH_BYTES:
        plain = WITH_BYTES[name]
        rest = [word if word == "-" or at == plain else spelled(bytes_of(word)) for at, word in enumerate(rest)]
    return " ".join([name] + rest)


def told(event, room):
    """What an event asked and was answered, in about so many letters at most."""
    if event.kind is Kind.DIAL:
        behind = f" = {cut(dialled(event.answer), max(room // 2, 8))}"
        return cut(f"dial {dialled(event.asked)}", max(room - len(behind), 8)) + behind
    if event.data:
        data, size = spelled(event.data), len(event.data)
        behind = "" if event.kind is Kind.RECV or event.answer == f"took {size}" else f" {event.answer}"
        if len("recv ") + len(data) + len(behind) > room:
            behind = f" {size} bytes{behind}"
        return f"{event.kind.word} {cut(data, max(room - len('recv ') - len(behind), 4))}{behind}"
    if event.kind is Kind.WAIT:
        reports = " ".join(f"k{report}" for report in event.answer.split(" ")[1:])
        return cut(f"wait {reports or event.answer.replace('reports', 'nothing')}", room)
    behind = [event.answer] if event.key is None else [f"k{event.key}", event.asked]
    return cut(" ".join([event.kind.word] + behind).rstrip(), room)
