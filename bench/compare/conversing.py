"""The two sides of a conversation: what each says after a line, and how it ends."""
import re

import grammars
import reading

MOST_LINE = 16384
MOST_COMMANDS = 64


def words_of(line):
    """The words of a line without its CR LF, or none where it is no text."""
    try:
        line.decode("utf-8")
    except UnicodeDecodeError:
        return []
    return [word.decode("utf-8") for word in re.split(rb"[\t\n\f\r ]+", line) if word]


def data_of(words):
    """The bytes that a word spells: None where there is no word, and no answer where it is no hexadecimal."""
    if not words:
        return True, None
    right = re.fullmatch("(?:[0-9a-fA-F]{2})+", words[0]) is not None
    return right, bytes.fromhex(words[0]) if right else None


def command_of(line):
    """A command's name and what it carries, or None where the line is none."""
    words = words_of(line)
    if not words:
        return None
    name, rest = words[0], words[1:]
    if name in ("CANCEL", "BEGIN", "ERROR", "NEGOTIATE_UNIX_FD", "AGREE_UNIX_FD", "REJECTED"):
        return name, None
    if name == "OK" and rest and re.fullmatch("[0-9a-fA-F]{32}", rest[0]):
        return name, rest[0].lower()
    if name == "DATA":
        right, data = data_of(rest)
        return (name, data) if right else None
    if name == "AUTH" and not rest:
        return name, (None, None)
    if name == "AUTH" and rest[0] in ("EXTERNAL", "ANONYMOUS"):
        right, data = data_of(rest[1:])
        return (name, (rest[0], data)) if right else None
    return None


class ClientSide:
    def __init__(self, client, wire):
        self.client = client
        self.passes = wire.passes
        self.expected = grammars.address_of(client.address).guid
        self.ending = None
        self.guid = None
        self.step = self.first
        mechanism = client.mechanism if client.mechanism != "-" else "ANONYMOUS" if wire.tcp else "EXTERNAL"
        shown = str(client.user).encode().hex() if mechanism == "EXTERNAL" else b"zbus".hex()
        self.pieces = [wire.nonce] * (wire.nonce != b"") + [f"\0AUTH {mechanism} {shown}\r\n".encode()]

    def look(self, line, _):
        command = command_of(line)
        if command is None:
            self.ending = "handshake"
        else:
            self.step(*command)

    def opens(self, flag):
        self.ending = f"open:{self.guid}:{flag}"

    def first(self, name, value):
        if name != "OK" or (self.expected is not None and value != self.expected):
            self.ending = "handshake"
            return
        self.guid = value
        if not self.passes:
            self.pieces.append(b"BEGIN\r\n" + self.client.hello)
            self.opens("n")
        elif self.client.flatpak:
            self.pieces.append(b"NEGOTIATE_UNIX_FD\r\n")
            self.step = self.before_begin
        else:
            self.pieces.append(b"NEGOTIATE_UNIX_FD\r\nBEGIN\r\n" + self.client.hello)
            self.step = self.behind_begin

    def before_begin(self, name, _):
        if name not in ("AGREE_UNIX_FD", "ERROR"):
            self.ending = "handshake"
            return
        self.pieces.append(b"BEGIN\r\n" + self.client.hello)
        self.opens("y" if name == "AGREE_UNIX_FD" else "n")

    def behind_begin(self, name, value):
        if name == "AGREE_UNIX_FD":
            self.opens("y")
        elif name == "ERROR" or (name == "OK" and value == self.guid):
            self.opens("n")
        else:
            self.ending = "handshake"


class ServerSide:
    def __init__(self, server, wire):
        self.server = server
        self.passes = wire.passes
        self.ending = None
        self.flag = "n"
        self.pieces = []
        self.step = self.auth

    def look(self, line, first):
        if first and not line.startswith(b"\0"):
            self.ending = "handshake"
            return
        command = command_of(line[1:] if first else line)
        if command is None:
            self.ending = "handshake"
        elif not self.step(*command):
            self.say("ERROR Unsupported or misplaced command")

    def say(self, text):
        self.pieces.append(text.encode() + b"\r\n")
        return True

    def reject(self):
        self.step = self.auth
        return self.say(f"REJECTED {self.server.mechanism}")

    def accept(self):
        self.step = self.begin
        return self.say(f"OK {self.server.guid}")

    def test(self, user):
        text = user.decode("utf-8", "replace")
        if not re.fullmatch(r"\+?[0-9]+", text) or int(text) >= 1 << 32:
            self.ending = "handshake"
            return True
        return self.accept() if int(text) == self.server.permitted else self.reject()

    def given(self, data):
        """Data, which may be none, under the server's mechanism."""
        if self.server.mechanism == "ANONYMOUS" or data is None:
            return self.accept()
        return self.test(data)

    def auth(self, name, value):
        if name in ("CANCEL", "ERROR"):
            return self.reject()
        if name != "AUTH":
            return False
        mechanism, data = value
        if mechanism != self.server.mechanism:
            return self.reject()
        if data is not None:
            return self.given(data)
        self.step = self.data
        return self.say("DATA")

    def data(self, name, value):
        return self.given(value) if name == "DATA" else False

    def begin(self, name, _):
        if name == "BEGIN":
            self.ending = f"open:{self.server.guid}:{self.flag}"
        elif name in ("CANCEL", "ERROR"):
            self.reject()
        elif name == "NEGOTIATE_UNIX_FD" and self.passes:
            self.flag = "y"
            self.say("AGREE_UNIX_FD")
        elif name == "NEGOTIATE_UNIX_FD":
            self.say("ERROR FD-passing not possible on this socket type")
        else:
            return False
        return True


class Conversation:
    def __init__(self, session, wire):
        self.side = ClientSide(session, wire) if isinstance(session, reading.Client) else ServerSide(session, wire)
        self.left = b""
        self.written = b""
        self.lines = 0

    def asks(self):
        """What is asked next: ("send", bytes), ("recv", None) or ("ends", ending)."""
        while True:
            said = b"".join(self.side.pieces)
            if len(self.written) < len(said):
                return "send", self.piece()
            if self.side.ending is not None:
                return "ends", self.side.ending
            if self.lines == MOST_COMMANDS:
                return "ends", "too-many-commands"
            if len(self.left) > MOST_LINE and b"\n" not in self.left[:MOST_LINE + 1]:
                return "ends", "line-too-long"
            if b"\n" not in self.left:
                return "recv", None
            line, _, self.left = self.left.partition(b"\n")
            self.lines += 1
            if line.endswith(b"\r"):
                self.side.look(line[:-1], self.lines == 1)
            else:
                self.side.ending = "handshake"

    def piece(self):
        """The rest of the piece that is being sent."""
        at = 0
        for piece in self.side.pieces:
            if len(self.written) < at + len(piece):
                return piece[len(self.written) - at:]
            at += len(piece)
        return b""
