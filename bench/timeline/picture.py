"""Draws a record as SVG. Time runs from top to bottom: an event has a row, a session has a lane.

With few sessions a lane is wide, and its events' texts stand in it. Else it is narrow, and all texts stand behind."""
import html

import words
from record import Kind

WIDE_SESSIONS = 5
MARGIN, FIRST_LANE, LETTER = 16, 62, 0.61
INK, PALE, FAULT, TO_TEXT, TO_POLLER = "#202428", "#70767d", "#b00020", "#dde1e5", "#c0c6cc"
BAR, DOT, SENT, GOT, RUNS, SLEEPS = "#e6ecfa", "#5c7fd6", "#1f4e9c", "#0b7a75", "#3c444c", "#8a929a"
COLOURS = {"open": "#2e7d32", "handshake": "#c62828", "line-too-long": "#7b1fa2", "too-many-commands": "#ad1457",
           "waiting": "#a65f00", "timed-out": "#d84315", "connection": "#455a64", "io": "#00796b",
           "address": "#1565c0", "unsupported": "#6d4c41"}
LEGEND = [(Kind.SEND, "send"), (Kind.RECV, "recv"), (Kind.DIAL, "another question"), (Kind.WAIT, "reported by a wait"),
          ("runs", "it runs"), ("sleeps", "it sleeps, armed")]


class Layout:
    """The measures of a picture: `lanes` is where the first session's lane begins, `right` where the last one ends."""

    def __init__(self, sessions, events):
        self.wide = sessions <= WIDE_SESSIONS
        least, most, whole = (292.0, 400.0, 1100) if self.wide else (2.0, 24.0, 1000)
        self.pitch = max(least, min(most, whole / max(sessions, 1)))
        self.lanes, self.head, self.size, self.band = (280, 84, 12, 50) if self.wide else (120, 50, 11, 100)
        self.row = 15 if not self.wide else 22 if events <= 100 else 18
        self.right = self.lanes + sessions * self.pitch
        self.width = max(self.right + MARGIN + (0 if self.wide else 530), 720.0)

    def lane(self, session):
        """The middle of a session's lane, or of the poller's."""
        return FIRST_LANE + 9.0 if session is None else self.lanes + session * self.pitch + min(9, self.pitch / 2)

    def text(self, session):
        """Where the text of an event of a lane begins."""
        return self.lane(session) + 12 if self.wide else self.right + 14

    def room(self, session):
        """How many letters that text has room for."""
        lane_end = self.lanes if session is None else self.lane(session) + self.pitch
        end = lane_end if self.wide else self.width - MARGIN
        return int((end - self.text(session) - 14) / (self.size * LETTER))


class Picture:
    """The picture of a record, drawn from the top down."""

    def __init__(self, record):
        self.record = record
        self.layout = Layout(len(record.endings), len(record.events))
        self.last = {event.session: at for at, event in enumerate(record.events)}
        self.top, self.pieces = 0, []

    def draw(self, name, content=None, **attributes):
        """Adds an element; an underscore stands for a hyphen."""
        tag = name
        for key, value in attributes.items():
            value = f"{value:.1f}".removesuffix(".0") if isinstance(value, float) else value
            tag += f' {key.replace("_", "-")}="{value}"'
        self.pieces.append(f"<{tag}/>" if content is None else f"<{tag}>{content}</{name}>")

    def write(self, x, y, text, size=11, fill=INK, **attributes):
        """Adds a text, and returns where it ends."""
        self.draw("text", html.escape(text, quote=False), x=x, y=y, font_size=size, fill=fill, **attributes)
        return x + len(text) * size * LETTER

    def lane(self, x, upper, lower, asleep):
        """Adds a piece of a session's lane."""
        look = {"stroke": SLEEPS, "stroke_dasharray": "3 4"} if asleep else {"stroke": RUNS}
        self.draw("line", x1=x, x2=x, y1=upper, y2=lower, stroke_width=1.5 if self.layout.pitch > 8 else 1, **look)

    def chip(self, x, y, word):
        """Adds an ending in its colour, and returns where it ends."""
        width = len(word) * 6.8 + 10
        self.draw("rect", x=x, y=y - 11, width=width, height=15, rx=4, fill=COLOURS[word.split(":")[0]])
        self.write(x + 5, y, word, fill="#ffffff")
        return x + width

    def mark(self, kind, x, y, size):
        """Adds the mark of a kind of event."""
        if kind in (Kind.SEND, Kind.RECV):
            tip, fill = (size, SENT) if kind is Kind.SEND else (-size, GOT)
            self.draw("path", d=f"M{x + tip:.1f} {y:.1f}l{-2 * tip} {-size}v{2 * size}z", fill=fill)
        else:
            look = {"fill": DOT} if kind is Kind.WAIT else {"fill": "#ffffff", "stroke": INK}
            self.draw("circle", cx=x, cy=y, r=size * 0.8, **look)

    def title(self):
        """Adds the title, how many sessions came to each ending, and what the marks mean."""
        counts = [(len(self.record.endings), "session"), (len(self.record.events), "event"),
                  (sum(event.kind is Kind.WAIT for event in self.record.events), "wait")]
        text = ", ".join(f"{count} {noun}{'' if count == 1 else 's'}" for count, noun in counts)
        self.draw("title", text)
        self.write(MARGIN, 30, text, 18, font_weight="bold")
        x, self.top = MARGIN, 56
        names = [ending.name for ending in self.record.endings]
        for name in sorted(set(names), key=list(COLOURS).index):
            x = self.room(x, len(name) * 6.8 + 60)
            x = self.write(self.chip(x, self.top, name) + 5, self.top, str(names.count(name))) + 14
        x, self.top = MARGIN, self.top + 24
        for mark, text in LEGEND:
            x = self.room(x, len(text) * 6.8 + 24)
            if isinstance(mark, Kind):
                self.mark(mark, x + 8.0, self.top - 4.0, 5)
            else:
                self.lane(x + 8.0, self.top - 11, self.top + 3, mark == "sleeps")
            x = self.write(x + 22, self.top, text, fill=PALE) + 18
        self.top += 34

    def room(self, x, width):
        """Where something so wide begins: here, or in the next line."""
        fits = x + width <= self.layout.width - MARGIN
        self.top += 0 if fits else 20
        return x if fits else MARGIN

    def heads(self, y):
        """Adds the lanes' names, and what each session came to."""
        layout = self.layout
        self.write(FIRST_LANE + 4, y, "poller, clock" if layout.wide else "poller", 12 if layout.wide else 9)
        step = next(step for step in (1, 2, 5, 10, 20, 50, 100, 10 ** 9) if step * layout.pitch >= 24)
        for session, ending in enumerate(self.record.endings):
            x = layout.lane(session)
            if layout.wide:
                moment = "" if ending.moment == "-" else f", at {ending.moment}"
                self.write(x - 5, y, f"session {session}", 12)
                self.chip(x - 5, y + 19, f"open:{ending.word[-1]}" if ending.name == "open" else ending.word)
                self.write(x - 5, y + 37, f"wrote {ending.written}, left over {ending.leftover}{moment}", 10, PALE)
            else:
                self.draw("rect", x=x - layout.pitch / 2, y=y + 5, width=max(layout.pitch - 1, 1), height=7,
                          fill=COLOURS[ending.name])
                if session % step == 0:
                    self.write(x, y, str(session), 9, text_anchor="middle")

    def ground(self, event, y):
        """Adds what lies under the lanes: a wait's bar, and the lines from an event to the poller and to its text."""
        layout, x, middle = self.layout, self.layout.lane(event.session), y + self.layout.row / 2
        if event.kind is Kind.WAIT:
            self.draw("rect", x=FIRST_LANE, y=y, width=layout.width - FIRST_LANE - MARGIN, height=layout.row, fill=BAR)
        if event.key is not None:
            self.draw("line", x1=layout.lane(None), x2=x, y1=middle, y2=middle, stroke=TO_POLLER)
        if not layout.wide:
            self.draw("line", x1=x, x2=layout.right + 8, y1=middle, y2=middle, stroke=TO_TEXT)

    def lanes(self, first, behind):
        """Adds the pieces of all lanes within a band."""
        before = {}
        for at, event in enumerate(self.record.events):
            since, asleep = before.get(event.session, (at, False))
            before[event.session] = (at, event.kind is Kind.MODIFY)
            upper, lower = max(since + 0.5, first), min(at + 0.5, behind)
            if upper < lower and event.session is not None:
                upper, lower = (self.top + (place - first) * self.layout.row for place in (upper, lower))
                self.lane(self.layout.lane(event.session), upper, lower, asleep)

    def event(self, at, event, y):
        """Adds an event's number, mark and text, and behind the last one of a session its ending."""
        layout, session = self.layout, event.session
        ending = self.record.endings[session].name if session is not None and self.last[session] == at else ""
        owner = "" if layout.wide or session is None else f"{session} "
        text = owner + words.told(event, layout.room(session) - len(owner) - (len(ending) + 3 if ending else 0))
        ink = FAULT if event.line.endswith((" fault", " end")) else PALE if event.line.endswith(" again") else INK
        self.pieces.append(f"<g><title>{html.escape(words.cut(event.line, 300), quote=False)}</title>")
        self.write(FIRST_LANE - 12, y + 4, str(at + 1), 9, PALE, text_anchor="end")
        if event.kind is not Kind.WAIT:
            self.mark(event.kind, layout.lane(session), y, 5 if layout.pitch > 12 else 3.5)
        for reported in event.reported:
            self.mark(Kind.WAIT, layout.lane(reported), y, 6 if layout.pitch > 12 else 4)
        x = self.write(layout.text(session), y + 4, text, layout.size, ink)
        if ending:
            self.chip(x + 6, y + 4, ending)
        self.pieces.append("</g>")

    def band(self, first, bands):
        """Adds the band whose first event this is."""
        layout, events = self.layout, self.record.events[first:first + self.layout.band]
        behind, left = first + len(events), layout.lane(None)
        name = f"band {first // layout.band + 1} of {bands}, {layout.band} events a band: {first + 1} to {behind}"
        self.write(MARGIN, self.top, name if bands > 1 else f"one band, events: {behind}", 12, font_weight="bold")
        self.heads(self.top + 26)
        self.top += layout.head
        bottom = self.top + len(events) * layout.row
        for at, event in enumerate(events):
            self.ground(event, self.top + at * layout.row)
        self.draw("line", x1=left, x2=left, y1=self.top, y2=bottom, stroke=TO_POLLER, stroke_width=2)
        self.lanes(first, behind)
        for at, event in enumerate(events):
            self.event(first + at, event, self.top + (at + 0.5) * layout.row)
        self.top = bottom + 36

    def svg(self):
        """The whole picture."""
        self.title()
        starts = range(0, max(len(self.record.events), 1), self.layout.band)
        for first in starts:
            self.band(first, len(starts))
        width, height = round(self.layout.width), round(self.top - 16)
        root = (f'<svg xmlns="http://www.w3.org/2000/svg" width="{width}" height="{height}" xml:space="preserve" '
                f'viewBox="0 0 {width} {height}" font-family="DejaVu Sans Mono, Menlo, Consolas, monospace">')
        return "\n".join([root, '<rect width="100%" height="100%" fill="#ffffff"/>', *self.pieces, "</svg>", ""])
