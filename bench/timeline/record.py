"""What `play` prints, read into endings and events. docs/SCRIPT.md says it line by line."""
import dataclasses
import enum
import re

NUMBER = "(?:0|[1-9][0-9]{0,19})"
BYTES = r"(?:\.|(?:[0-9a-f]{2})+)"
PEER = f"(?:4-[0-9a-f]{{8}}|6-[0-9a-f]{{32}})-{NUMBER}"
OWN = f"(?P<session>{NUMBER})"
KEY = f"(?P<key>{NUMBER})"
QUESTION = (f"accept|ibus|(?:unix|abstract|nonce) {BYTES}|lookup {BYTES} {NUMBER}|tcp {PEER}"
            f"|start {BYTES} (?:-|{BYTES})(?: {BYTES})*")
ENDING = ("open:[0-9a-f]{32}:[yn]|address:[A-Za-z-]+|unsupported|connection|io|handshake|line-too-long"
          "|too-many-commands|timed-out|waiting")


class Kind(enum.Enum):
    """What an event asks, with the form of its line."""
    DIAL = (f"dial {OWN} (?P<asked>{QUESTION}) = (?P<answer>open [yn]|peers(?: {PEER})*|nonce {BYTES}"
            f"|output [yn] {BYTES}|fault)")
    RECV = f"recv {OWN} {NUMBER} (?P<answer>bytes (?P<data>{BYTES})|end|again|fault)"
    SEND = f"send {OWN} (?P<data>{BYTES}) (?P<answer>took {NUMBER}|again|fault)"
    ADD = f"add {OWN} {KEY} (?P<answer>ok)"
    MODIFY = f"modify {OWN} {KEY} (?P<asked>r|w|rw|n) (?P<answer>ok)"
    DELETE = f"delete {OWN} {KEY} (?P<answer>ok)"
    NOW = f"now (?P<answer>{NUMBER})"
    WAIT = f"wait (?:-|{NUMBER}) (?P<answer>reports(?: {NUMBER}(?:r|w|rw))*|interrupted)"

    @property
    def word(self):
        """The word that the line begins with."""
        return self.name.lower()


FORMS = {kind.word: (kind, re.compile(kind.value)) for kind in Kind}
SESSION = re.compile(f"session {OWN} (?P<word>{ENDING}) (?P<written>{BYTES}) (?P<leftover>{BYTES}) "
                     f"(?P<moment>-|{NUMBER})")


class NotPrinted(Exception):
    """The input isn't what `play` prints: which line, and why."""


@dataclasses.dataclass(frozen=True)
class Ending:
    """What one session came to; `name` is the word without what follows its colon."""
    name: str
    word: str
    written: int
    leftover: int
    moment: str


@dataclasses.dataclass(frozen=True)
class Event:
    """One question with its answer. That of the clock and a wait has no `session`; a wait has `reported` sessions."""
    kind: Kind
    line: str
    session: int | None
    key: int | None
    asked: str
    answer: str
    data: bytes
    reported: tuple


@dataclasses.dataclass
class Record:
    """The endings by session, the events in their order, and which session holds each key of the poller."""
    endings: list
    events: list
    holders: dict

    def end(self, line):
        """Takes the line of the next session."""
        found = SESSION.fullmatch(line)
        if found is None or self.events or int(found["session"]) != len(self.endings):
            raise NotPrinted("not a `session` line, or one out of its order")
        word, written, leftover = found["word"], bytes_of(found["written"]), bytes_of(found["leftover"])
        self.endings.append(Ending(word.split(":")[0], word, len(written), len(leftover), found["moment"]))

    def take(self, line):
        """Takes the line of the next event."""
        word = line.split(" ")[0]
        if word not in FORMS:
            raise NotPrinted(f"{word[:20]!a} begins no line that `play` prints")
        kind, form = FORMS[word]
        found = form.fullmatch(line)
        if found is None:
            raise NotPrinted(f"not the form of a `{word}` line")
        parts = found.groupdict()
        session, key = (None if parts.get(name) is None else int(parts[name]) for name in ("session", "key"))
        if session is not None and session >= len(self.endings):
            raise NotPrinted(f"session {session} has no line above")
        if key is not None and self.holders.get(key) != (None if kind is Kind.ADD else session):
            raise NotPrinted(f"key {key} is held by another, or by none")
        if key is not None:
            self.holders[key] = None if kind is Kind.DELETE else session
        keys = re.findall("[0-9]+", parts["answer"]) if kind is Kind.WAIT else []
        reported = sorted({self.holders.get(int(key)) for key in keys} - {None})
        self.events.append(Event(kind, line, session, key, parts.get("asked") or "", parts["answer"],
                                 bytes_of(parts.get("data") or "."), tuple(reported)))


def bytes_of(word):
    """The bytes that a word spells."""
    return b"" if word == "." else bytes.fromhex(word)


def read(printed):
    """The record that the bytes spell."""
    record = Record([], [], {})
    *lines, rest = printed.split(b"\n")
    for number, data in enumerate(lines, 1):
        try:
            line = data.decode("ascii", "replace")
            if line.startswith("refused "):
                raise NotPrinted("a refusal, which has no record")
            (record.end if line.startswith("session ") else record.take)(line)
        except NotPrinted as why:
            raise NotPrinted(f"line {number}: {why}") from None
    if rest:
        raise NotPrinted(f"line {len(lines) + 1}: no line feed at its end")
    return record
