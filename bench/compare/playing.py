"""Plays a script: the sessions' visits, the rounds and the closing, and the printed text."""
import conversing
import dialling

MOST_READ = 1024
MOST_REPORTS = 64
LAST_NUMBER = (1 << 64) - 1


class PollerFailed(Exception):
    pass


class Exhausted(Exception):
    pass


def next_number(number):
    """The number behind one of a round or of a timer."""
    if number == LAST_NUMBER:
        raise Exhausted
    return number + 1


def directions(flags):
    return "".join(flag for flag in "rw" if flag in flags)


class Session:
    def __init__(self, session):
        self.session = session
        self.conversation = None
        self.ending = "waiting"
        self.key = None
        # how each direction stands: idle, waits, or reported since it began to wait
        self.sides = {"r": "idle", "w": "idle"}
        # the reading of the clock in its last visit, and whether it was once found to be below the deadline
        self.moment = None
        self.has_timer = False

    def waits(self):
        return directions([flag for flag, side in self.sides.items() if side == "waits"])

    def is_late(self, reading):
        return self.session.deadline is not None and reading >= self.session.deadline

    def line(self, wire):
        written, left = (self.conversation.written, self.conversation.left) if self.conversation else (b"", b"")
        moment = "-" if self.moment is None else self.moment
        return f"session {wire} {self.ending} {dialling.printed(written)} {dialling.printed(left)} {moment}"


class Player:
    def __init__(self, script):
        self.script = script
        self.sessions = [Session(session) for session in script.sessions]
        self.events = []
        self.free = []
        self.keys = 0
        self.holders = {}
        self.tick = script.tick
        self.timer = script.timer
        self.reading = 0

    def now(self):
        if self.script.readings:
            self.reading = self.script.readings.pop(0)
        self.events.append(f"now {self.reading}")
        return self.reading

    def poll(self, call, *named):
        answers = self.script.poller[call]
        ok = answers.pop(0) if answers else True
        self.events.append(" ".join([call, *map(str, named), "ok" if ok else "fault"]))
        if not ok:
            raise PollerFailed

    def delete(self, wire):
        session = self.sessions[wire]
        key, session.key = session.key, None
        del self.holders[key]
        self.free.append(key)
        self.poll("delete", wire, key)

    def end(self, wire, ending):
        self.sessions[wire].ending = ending
        self.delete(wire)

    def answer_to(self, wire, question):
        """The next answer to a session's dialling."""
        answers = self.script.dials.get(wire, [])
        answer = answers.pop(0) if answers else dialling.FAULT
        given = dialling.spelled(dialling.fitting(question, answer))
        self.events.append(f"dial {wire} {dialling.spelled(question)} = {given}")
        return answer

    def first_visit(self, wire):
        session = self.sessions[wire]
        try:
            opened = dialling.dial(session.session, lambda question: self.answer_to(wire, question))
        except dialling.Ended as ended:
            session.ending = str(ended)
            return
        session.conversation = conversing.Conversation(session.session, opened)
        if self.free:
            session.key = self.free.pop()
        else:
            session.key = self.keys
            self.keys += 1
        self.holders[session.key] = wire
        self.poll("add", wire, session.key)
        self.visit(wire)

    def visit(self, wire):
        """Asks the wire until it ends or isn't ready; only then the clock is looked at."""
        session = self.sessions[wire]
        session.moment = None
        goes_on = True
        while goes_on:
            what, value = session.conversation.asks()
            if what == "send":
                goes_on = self.send(wire, value)
            elif what == "recv":
                goes_on = self.read(wire)
            else:
                self.end(wire, value)
                goes_on = False
        if session.key is not None and session.session.deadline is not None:
            self.look_at_clock(wire)

    def look_at_clock(self, wire):
        session = self.sessions[wire]
        session.moment = self.now()
        if session.is_late(session.moment):
            self.end(wire, "timed-out")
        elif not session.has_timer:
            self.timer = next_number(self.timer)
            self.poll("notify")
            session.has_timer = True

    def send(self, wire, offered):
        """One send; whether the visit goes on."""
        answers = self.script.sends.get(wire, [])
        answer = answers.pop(0) if answers else len(offered)
        if answer == 0:
            answer = "fault"
        if isinstance(answer, int):
            taken = min(answer, len(offered))
            self.sessions[wire].conversation.written += offered[:taken]
            self.events.append(f"send {wire} {dialling.printed(offered)} took {taken}")
            return True
        self.events.append(f"send {wire} {dialling.printed(offered)} {answer}")
        return self.stopped(wire, "w", answer)

    def read(self, wire):
        """One read; whether the visit goes on."""
        answers = self.script.reads.get(wire, [])
        answer = answers.pop(0) if answers else "again"
        if isinstance(answer, bytes):
            if len(answer) > MOST_READ:
                answers.insert(0, answer[MOST_READ:])
            self.sessions[wire].conversation.left += answer[:MOST_READ]
            self.events.append(f"recv {wire} {MOST_READ} bytes {dialling.printed(answer[:MOST_READ])}")
            return True
        self.events.append(f"recv {wire} {MOST_READ} {answer}")
        return self.stopped(wire, "r", answer)

    def stopped(self, wire, flag, answer):
        """A call that moved nothing; whether the visit goes on."""
        session = self.sessions[wire]
        if answer != "again":
            self.end(wire, "handshake" if answer == "end" else "io")
            return False
        if session.sides[flag] == "reported":
            session.sides[flag] = "idle"
            return True
        if session.sides[flag] == "idle":
            session.sides[flag] = "waits"
            self.poll("modify", wire, session.key, session.waits())
        return False

    def reported(self, answer):
        if answer == "interrupted":
            return []
        named = [(number if key else self.sessions[number].key, "r" * read + "w" * write) for key, number, read, write in answer]
        return [report for report in named if report[0] is not None][:MOST_REPORTS]

    def timeout(self, reading):
        """How long the nearest deadline of a sleeper is away; none where no sleeper has one."""
        deadlines = [self.sessions[wire].session.deadline for wire in self.holders.values()]
        return min((max(deadline - reading, 0) for deadline in deadlines if deadline is not None), default=None)

    def round(self):
        self.tick = next_number(self.tick)
        reading = self.now()
        timeout = self.timeout(reading)
        answer = self.script.waits.pop(0) if self.script.waits else []
        if answer == "fault":
            raise PollerFailed
        reports = self.reported(answer)
        gave = "interrupted" if answer == "interrupted" else "reports" + "".join(f" {key}{flags}" for key, flags in reports)
        self.events.append(f"wait {'-' if timeout is None else timeout} {gave}")
        if gave == "reports" and timeout != 0:
            reading = self.now()
        late = {wire for wire in self.holders.values() if self.sessions[wire].is_late(reading)}
        for wire in sorted(late | self.rearmed(reports)):
            self.visit(wire)

    def rearmed(self, reports):
        """Arms what still waits, one report after another; the sessions that they make due."""
        due = set()
        for key, flags in reports:
            if key not in self.holders:
                continue
            wire = self.holders[key]
            session = self.sessions[wire]
            for flag in flags:
                if session.sides[flag] == "waits":
                    session.sides[flag] = "reported"
                    due.add(wire)
            if session.waits():
                self.poll("modify", wire, key, session.waits())
        return due

    def play(self):
        for wire in range(len(self.sessions)):
            self.first_visit(wire)
        rounds = self.script.rounds
        while rounds > 0 and self.holders:
            rounds -= 1
            self.round()
        for wire, session in enumerate(self.sessions):
            if session.key is not None:
                self.delete(wire)
        lines = [session.line(wire) for wire, session in enumerate(self.sessions)]
        opened = all(session.ending.startswith("open:") for session in self.sessions)
        return 0 if opened else 1, "".join(line + "\n" for line in lines + self.events)


def play(script):
    """The status and the text that a script gives."""
    try:
        return Player(script).play()
    except PollerFailed:
        return 6, ""
    except Exhausted:
        return 7, ""
