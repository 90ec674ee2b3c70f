"""Scripts, transcripts and traces of clay as plain Python data, for notebooks, tools/look and checks/traffic.

    from clay_text import read_run, read_script
    script = read_script(Path("examples/rebuild.clay").read_text())
    steps, transcript = read_run(text)       # of clay play (no steps), or of clay_trace
    transcript.check(script)                 # each line's call is one of the script's
    sum(transcript.takes["r0.0"])            # the subchunks that the first rebuild read

A call is named as in the texts: c0.1 is client 0's call 1. What isn't of its form raises TextFault with one line of words. These readers
look at the form of lines alone: whether a transcript is legal, `clay verify` says."""

import re
from dataclasses import dataclass, field

NAME, NUM = r"[a-z0-9._-]{1,64}", r"(?:0|[1-9][0-9]*)"
DATA = rf"(?:hex:(?:[0-9a-f]{{2}})*|(?:fill|ramp):[0-9a-f]{{2}}:{NUM})"
CALL_LINE = re.compile(rf"put {NAME} {DATA}|write {NAME} {NUM} {DATA}|(?:get|stat|delete) {NAME}|read {NAME} {NUM} {NUM}")
REBUILD_LINE = re.compile(rf"rebuild {NAME} {NUM} {NUM}")
TOKEN = re.compile(rf"[cr] {NUM}|s|(?:wipe|down|up) {NUM}|reap [cr] {NUM}|drain")
CLIENT, REPAIRER = rf"c{NUM}\.{NUM}", rf"r{NUM}\.{NUM}"
TRIPLES = rf"unavailable stripe {NUM} missing(?: {NUM}/u?{NUM}/a?{NUM})+"
# The reply or cause of a client's line, with the calls that it may be of.
REPLIES = {r"ok": "put write delete", r"bytes hex:(?:[0-9a-f]{2})*": "get read", rf"length {NUM}": "stat", r"open": "put write",
           r"nosuch": "write get read stat delete", r"outrange": "write read", r"toolarge": "put write"}
CAUSES = {TRIPLES: "put write get read", rf"contended(?: {NUM}/{NUM})+": "write", rf"reaped {NUM}": "put write get read delete stat", r"nomem": "put write get read delete stat"}
RESULTS = {rf"rebuilt|here|nosuch|nomem|away {NUM}|superseded {NUM}|reaped {NUM}|{TRIPLES}": "rebuild"}
STEP = re.compile(rf"S ({NUM}) ({CLIENT}|{REPAIRER}|s|o)(!?) (d|{NUM}) (.+) = (.+)")


class TextFault(ValueError):
    """A text that isn't of its form."""


def seen(text):
    """A text as it can be shown: what can't be printed in escapes, and not too long."""
    shown = "".join(letter if letter.isprintable() else letter.encode("unicode_escape").decode() for letter in text[:100])
    return shown if len(text) <= 100 else f"{shown[:80]}.. ({len(text)} characters)"


@dataclass
class Script:
    form: int
    code: tuple                                    # K, M, W
    size: int = 65_536
    tries: int = 8
    actors: list = field(default_factory=list)     # c0, c1, .. r0, ..
    calls: dict = field(default_factory=dict)      # a call's name: its line
    leaves: dict = field(default_factory=dict)     # a call's name: after how many steps it is left
    schedule: list = field(default_factory=list)   # its lines

    @property
    def servers(self):
        return self.code[0] + self.code[1]


@dataclass
class Server:
    taken: int     # subchunks taken of it
    held: int      # versions of which it holds a chunk
    epoch: int     # how often it was emptied


@dataclass
class Transcript:
    points: dict = field(default_factory=dict)     # a call's name: its point in the history
    ends: dict = field(default_factory=dict)       # a call's name: its reply, cause or result, or None where it has no reply
    kinds: dict = field(default_factory=dict)      # a call's name: the first letter of its line, H, X, R or O
    objects: dict = field(default_factory=dict)    # an object's name: its length
    takes: dict = field(default_factory=dict)      # a call's name: the subchunks taken, by server
    servers: list = field(default_factory=list)

    def check(self, script):
        """Raises TextFault where this isn't of the form that a transcript of the script has."""
        if len(self.servers) != script.servers:
            raise TextFault(f"the transcript has {len(self.servers)} servers, and the script {script.servers}")
        for call in [*self.kinds, *self.takes]:
            if call not in script.calls:
                raise TextFault(f"the transcript has a call {call}, and the script has none of that name")
        for call, end in self.ends.items():
            forms = {"H": REPLIES, "X": CAUSES, "R": RESULTS}.get(self.kinds[call], {})
            verb = script.calls[call].split(" ")[0]
            if end is not None and not any(re.fullmatch(form, end) and verb in verbs.split() for form, verbs in forms.items()):
                raise TextFault(f"the transcript tells `{seen(end)}` of {call}, which is a {verb} in the script")
        names = {line.split(" ")[1] for line in script.calls.values()}
        stray = next((name for name in self.objects if name not in names), None)
        if stray:
            raise TextFault(f"the transcript has an object {stray}, which no call of the script names")


@dataclass
class Step:
    number: int
    call: str      # c0.1, r0.0, s the sweeper, o the operator
    is_short: bool # an allocation failed in the coding before it
    place: str     # d the directory, or a server's number
    act: str
    answer: str


def lines_of(text, what):
    """The lines of a text, of which each ends with a line feed."""
    if not text.endswith("\n"):
        raise TextFault(f"no {what}: it is empty" if not text else f"no {what}: its last line has no line feed")
    return text[:-1].split("\n")


def read_script(text):
    """The script that a text is."""
    lines = lines_of(text, "script")

    def fail(at):
        raise TextFault(f"no script: line {at + 1} is `{seen(lines[at])}`" if at < len(lines) else "no script: it ends before the line `end`")

    if not re.fullmatch("clay [12]", lines[0]):
        fail(0)
    if len(lines) < 2 or not re.fullmatch(f"code {NUM} {NUM} {NUM}", lines[1]):
        fail(1)
    script = Script(int(lines[0][5:]), tuple(map(int, lines[1].split(" ")[1:])))
    at, left, count, last = 2, None, 0, {}
    while at < len(lines) and lines[at] != "schedule":
        line, block = lines[at], script.actors[-1][0] if script.actors else ""
        if re.fullmatch(f"(size|tries) {NUM}", line) and not script.actors:
            setattr(script, line.split(" ")[0], int(line.split(" ")[1]))
        elif line in ("client", "repairer") and left is None:
            last[line] = last.get(line, -1) + 1
            script.actors.append(f"{line[0]}{last[line]}")
            count = 0
        elif re.fullmatch(f"leave {NUM}", line) and block and left is None:
            left = int(line.split(" ")[1])
        elif (block == "c" and CALL_LINE.fullmatch(line)) or (block == "r" and REBUILD_LINE.fullmatch(line)):
            name = f"{script.actors[-1]}.{count}"
            script.calls[name], count = line, count + 1
            if left is not None:
                script.leaves[name], left = left, None
        else:
            fail(at)
        at += 1
    for at in range(at + 1, len(lines)):
        if lines[at] == "end":
            if at + 1 < len(lines):
                fail(at + 1)
            return script
        if not TOKEN.fullmatch(lines[at]):
            fail(at)
        script.schedule.append(lines[at])
    return fail(len(lines))


def take_line(transcript, words):
    """Puts a line of a transcript into it; whether it has the form of one."""
    kind, line = words[0], " ".join(words)
    if re.fullmatch(rf"H {NUM} {CLIENT} .+", line):
        transcript.points[words[2]], call, end = int(words[1]), words[2], " ".join(words[3:])
    elif re.fullmatch(rf"X {CLIENT} .+|R {REPAIRER} .+", line):
        call, end = words[1], " ".join(words[2:])
    elif re.fullmatch(rf"O (?:{CLIENT}|{REPAIRER})", line):
        call, end = words[1], None
    elif re.fullmatch(rf"L {NAME} {NUM}", line):
        transcript.objects[words[1]] = int(words[2])
        return True
    elif re.fullmatch(rf"G (?:{CLIENT}|{REPAIRER})(?: {NUM})+", line):
        transcript.takes[words[1]] = list(map(int, words[2:]))
        return True
    elif re.fullmatch(rf"T {len(transcript.servers)} {NUM} {NUM} {NUM}", line):
        transcript.servers.append(Server(*map(int, words[2:])))
        return True
    else:
        return False
    # an open call has an H line and an O line
    if end is not None or call not in transcript.kinds:
        transcript.ends[call], transcript.kinds[call] = end, kind
    return True


def read_transcript(text):
    """The transcript that a text is."""
    lines, transcript = lines_of(text, "transcript"), Transcript()
    for at, line in enumerate(lines):
        if not (line == "end" and at + 1 == len(lines)) and not take_line(transcript, line.split(" ")):
            raise TextFault(f"no transcript: line {at + 1} is `{seen(line)}`")
    if lines[-1] != "end":
        raise TextFault("no transcript: it has no line `end` at its end")
    wide = next((call for call, taken in transcript.takes.items() if len(taken) != len(transcript.servers)), None)
    if wide:
        raise TextFault(f"no transcript: the G line of {wide} is not of {len(transcript.servers)} servers")
    return transcript


def read_trace(text):
    """The steps at the front of a text, and the text behind them."""
    steps = []
    while text.startswith("S "):
        line, _, text = text.partition("\n")
        step = STEP.fullmatch(line)
        if not step or int(step[1]) != len(steps):
            raise TextFault(f"no trace: line {len(steps) + 1} is `{seen(line)}`")
        steps.append(Step(int(step[1]), step[2], step[3] == "!", *step.groups()[3:]))
    return steps, text


def read_run(text):
    """The steps and the transcript of what clay_trace printed; without steps of what clay play or clay run did."""
    steps, rest = read_trace(text)
    return steps, read_transcript(rest)
