"""How often each ending, each kind of address, each question with its kind of answer, and each kind of round came, in tables."""
import collections
import re

import grammars
import reading

DIAL = re.compile(r"dial \d+ (?P<question>[a-z]+).* = (?P<answer>[a-z]+)(?P<flag> [yn]\b)?")


def address_kind(session):
    if not isinstance(session, reading.Client):
        return "(server)"
    try:
        address = grammars.address_of(session.address)
    except grammars.Refused as refusal:
        return f"({refusal})"
    guid = " guid" if address.guid else ""
    return (f"unix:{next(iter(address.options))}" if address.transport == "unix" else address.transport) + guid


def ending_of(words):
    opened = words[2].split(":")
    return f"open {opened[2]}" if opened[0] == "open" else words[2]


def wait_of(words):
    """What kind of wait the words of its line tell."""
    timeout = {"-": "no timeout", "0": "timeout 0"}.get(words[1], "a timeout")
    answer = words[2] if words[2] == "interrupted" else "reports" if len(words) > 3 else "no reports"
    return f"{timeout}, {answer}"


class Tallies:
    def __init__(self):
        names = ["addresses", "questions", "endings", "armings", "asked again", "notices", "waits", "second readings", "late visits"]
        self.tables = {name: collections.Counter() for name in names}

    def count(self, sessions, text):
        """Counts what one script's sessions were, asked and came to, by its printed text. A late session's visit is its last."""
        self.tables["addresses"].update(map(address_kind, sessions))
        lines = [line.split(" ") for line in text.splitlines()]
        endings = [ending_of(words) for words in lines if words[0] == "session"]
        self.tables["endings"].update(endings)
        deadlines = [session.deadline for session in sessions]
        sleepers = set()
        for at, words in enumerate(lines):
            self.count_event(words)
            if words[0] == "add":
                sleepers.add(int(words[1]))
            elif words[0] == "delete":
                sleepers.discard(int(words[1]))
            elif words[0] == "wait":
                reading = self.count_readings(lines[at - 1:at + 2], [deadlines[wire] for wire in sleepers])
                late = [wire for wire in sleepers if deadlines[wire] is not None and deadlines[wire] <= reading]
                self.tables["late visits"].update(endings[wire] for wire in late)
            elif words[0] in ("recv", "send") and words[-1] == "again":
                self.count_asked_again(lines[:at], words)

    def count_event(self, words):
        if words[0] == "dial":
            found = DIAL.match(" ".join(words))
            self.tables["questions"][f"{found['question']} = {found['answer']}{found['flag'] or ''}"] += 1
        elif words[0] == "modify":
            self.tables["armings"][words[3]] += 1
        elif words[0] == "notify":
            self.tables["notices"][words[1]] += 1
        elif words[0] == "wait":
            self.tables["waits"][wait_of(words)] += 1

    def count_readings(self, lines, deadlines):
        """Counts what the second reading of a round brought; the last reading of that round."""
        (_, first), (_, timeout, *reports), *behind = lines
        if reports != ["reports"] or timeout == "0":
            return int(first)
        last = int(behind[0][1])
        reached = any(deadline is not None and deadline <= last for deadline in deadlines)
        self.tables["second readings"]["reached a deadline" if reached else "reached none"] += 1
        return last

    def count_asked_again(self, before, words):
        """Counts a question that was asked anew in vain, by whether a visit that stopped at the other direction lies between."""
        if before[-1] != words:
            return
        of_wire = [line[0] for line in before[:-1] if line[0] in ("recv", "send") and line[1] == words[1] and line[-1] == "again"]
        self.tables["asked again"]["once reported" if of_wire[-1] == words[0] else "after the other direction"] += 1

    def lines(self):
        for name, table in self.tables.items():
            yield f"{name}: " + ", ".join(f"{what} {count}" for what, count in sorted(table.items()))
