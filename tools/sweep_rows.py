"""The rows of a plan of a sweep, made by runs of `drsim`.

A point is reached if the tried line is answered that its server was stopped, or that one outside the disaster was and this one is off after it. How
many device writes each other server of the disaster makes before is asked pair by pair (`Counts`): which of the two was stopped first, if no
other server's fuse is ever reached? Groups, refusals and acknowledgements are answers. What the second volumes of a use hold as the recovery
begins, and what the first ones hold at the end, is seen on their tracks (`Holdings`). The phases of masters are those of `showgmir` before the
tried line; which members count after an `@recover` says `drsim recover` of an `@image` there, and how many there are `lssession`.
"""
import re
from concurrent.futures import ThreadPoolExecutor
from dataclasses import dataclass
from functools import cached_property

from plan_text import span, words_of
from sweep_runs import Fault, Holdings, Script, Writes, member_asks, members_in, phase_asks, phase_in, sessions_of

TORN = ("none", "00", "01")
HEADING = ("disaster,use,line,part,server,write,torn,place,phases,group,decision,members,newest,lost,lost writes,age,broken,refused,first refused line")
MOST_WRITES = 100_000
MOST_LISTED = 16
NEVER = (1 << 32) - 1  # device writes that no line makes


@dataclass
class Loss:
    """What is lost to a use: the writes, least first, how old the loss is, and a kept write with a lost one on which it depends."""

    lost: list
    age: int
    broken: tuple


@dataclass
class Point:
    """Where a disaster comes: in a tried step at a device write of a server, or (no server) in the gap after that many steps."""

    disaster: int
    place: int
    server: str = None
    torn: str = "-"
    counts: dict = None  # of each server of the disaster, how many device writes it makes in the step before

    @property
    def write(self):
        return self.counts[self.server] if self.server else 0


@dataclass
class Row:
    point: Point
    script: list  # its lines
    phases: list
    answers: list  # of the recovery: (line, counted from 1 there, answer)
    members: list  # after each `@recover` with a group: (how many count, how many there are)
    newest: int
    losses: list  # of each use

    @property
    def groups(self):
        """The groups that came back, with their decisions."""
        return [found.groups() for _, answer in self.answers if (found := re.fullmatch(r"ok group (\d+) (.*)", answer))]

    @property
    def came(self):
        """The phases, the groups that came back and their decisions, as text."""
        return [or_dash([f"{session}:{phase}" for session, phase in self.phases]), or_dash([n for n, _ in self.groups]), or_dash([decision for _, decision in self.groups])]

    @property
    def refused(self):
        return [line for line, answer in self.answers if answer.startswith("E")]


def fuse_of(server, count, torn):
    return f"@stop {server} after {count} torn {torn}"


def or_dash(words):
    return " ".join(words) or "-"


def dashed(value, front="w"):
    return "-" if value is None else f"{front}{value}"


def quoted(cell):
    return f'"{cell}"' if "," in cell else cell


class Counts:
    """How many device writes the other servers of a disaster make in a tried line before a device write of one of them."""

    def __init__(self, drsim, before, line, server, others, shows):
        """`shows` has of each server of the disaster a line that shows a track of it."""
        self.drsim, self.before, self.line, self.server, self.shows = drsim, before, line, server, shows
        self.known, self.never = dict.fromkeys(others, 0), dict.fromkeys(others, NEVER)

    def stopped(self, fuses):
        """Which server of the disaster stopped first in the tried line, if one did. The line says which server was stopped first of all; if that is
        another one, by a fuse of the plan, those are asked that went off in the line."""
        armed = {**self.never, **fuses}
        lines = self.before + [fuse_of(name, count, "none") for name, count in armed.items()] + [self.line]
        run = self.drsim.run(lines + list(self.shows.values()))
        found = re.fullmatch(r"E21 stopped (\S+)", run.answers.get(len(lines), [""])[-1])
        if not found or found[1] in armed:
            return found and found[1]
        gone = [name for at, name in enumerate(self.shows, len(lines) + 1) if self.is_off(run, at) and name not in self.off_before]
        if len(gone) > 1:
            raise Fault(f"`{self.line}` stops {found[1]}, and then {' and '.join(gone)}: nothing says in which order")
        return gone[0] if gone else None

    @cached_property
    def off_before(self):
        run = self.drsim.run(self.before + list(self.shows.values()))
        return [name for at, name in enumerate(self.shows, len(self.before) + 1) if self.is_off(run, at)]

    @staticmethod
    def is_off(run, at):
        return run.of(at)[-1].startswith("E05")

    def at(self, write):
        """The counts of the device write of that number: the least with which its server is the one that is stopped. They never fall from one
        write to the next, so those of the one before are where to begin."""
        for other in self.known:
            for _ in range(MOST_WRITES):
                if self.stopped({self.server: write, other: self.known[other]}) != other:
                    break
                self.known[other] += 1
            else:
                raise Fault(f"`{self.line}` has too many device writes")
        return {**self.known, self.server: write}


class Rows:
    """All rows of a plan, in order."""

    def __init__(self, plan, drsim):
        self.plan, self.drsim, self.known_phases = plan, drsim, {}
        self.servers = {}  # of each volume, by the first line that defines it
        for words in map(words_of, plan.setup):
            if words[:1] == ["@volume"]:
                self.servers.update({v: words[2] for v in span(words[1]) if v not in self.servers})
        self.firsts = list(dict.fromkeys(first for use in plan.uses for first, _ in use.pairs))
        self.seconds = list(dict.fromkeys(second for use in plan.uses for _, second in use.pairs))

    def all(self, workers):
        with ThreadPoolExecutor(workers) as pool:
            found = [pool.submit(rows, *where) for rows, where in self.parts()]
            return [row for part in found for row in part.result()]

    def parts(self):
        for disaster, servers in enumerate(self.plan.loses):
            yield self.gap, (disaster, 0)
            for place in range(len(self.plan.tried)):
                for server in servers:
                    yield self.cuts, (disaster, place, server)
                yield self.gap, (disaster, place + 1)

    def before(self, place):
        return self.plan.setup + [tried.text for tried in self.plan.tried[:place]]

    def gap(self, disaster, place):
        before = self.before(place)
        return [self.row(Point(disaster, place), before + [f"@stop {name}" for name in self.plan.loses[disaster]], len(before))]

    def cuts(self, disaster, place, server):
        """The points of a server in a tried step: as long as the server is stopped there."""
        found, line, before, servers = [], self.plan.tried[place].text, self.before(place), self.plan.loses[disaster]
        others = [name for name in servers if name != server]
        counts = Counts(self.drsim, before, line, server, others, self.shows_of(disaster))
        for write in range(1 if words_of(line) == ["@start", server] else 0, MOST_WRITES):
            if words_of(line)[0] == "@stop" or counts.stopped({server: write}) != server:
                return found
            count = counts.at(write)
            for torn in TORN:
                fuses = [fuse_of(name, count[name], torn if name == server else "none") for name in servers]
                front = before + fuses + [line] + [f"@stop {name}" for name in others]
                found.append(self.row(Point(disaster, place, server, torn, count), front, len(before), f"E21 stopped {server}"))
        raise Fault(f"`{line}` has too many device writes")

    def row(self, point, front, began, stops=None):
        """The row of a point by the lines before the recovery. The fuses or the stops begin after that many; the tried line answers `stops`."""
        plan, script = self.plan, front + self.plan.recovery
        run = self.drsim.run(script).answers
        if stops and not self.is_told(run[began + len(point.counts) + 1][-1], stops, point):
            raise Fault(f"`{front[began + len(point.counts)]}` isn't answered `{stops}` with {point.counts}")
        phases = self.phases(script[:began], run, point.place)
        off = list(self.shows_of(point.disaster).values())
        stop = Holdings(self.drsim, front, run, self.seconds, self.servers, {len(front): off})
        if not all(stop.script.answer(len(front), ask).startswith("E05") for ask in off):
            raise Fault(f"not all servers are off as the recovery begins: {point}")
        asked, sessions = self.member_questions(script, len(front), run)
        end = Holdings(self.drsim, script, run, self.firsts, self.servers, asked)
        members = [self.members_at(end.script, at, session, sessions[at]) for at, session in sorted(self.recoveries(script, len(front), run))]
        writes = Writes(front, run)
        answers = [(at - len(front), answer) for at in sorted(run) if at > len(front) for answer in run[at]]
        newest = writes.acknowledged[-1][0] if writes.acknowledged else None
        return Row(point, script, phases, answers, members, newest, [self.loss(use, writes, stop, end) for use in plan.uses])

    @staticmethod
    def is_told(answer, stops, point):
        """The tried line says that the server was stopped, or that one outside the disaster was before it."""
        return answer == stops or answer.startswith("E21 ") and answer.split(" ")[-1] not in point.counts

    def shows_of(self, disaster):
        """Of each server of the disaster a line that shows a track of it; one without a volume has no device writes."""
        return {name: f"@show {self.volume_on(name)} 0 " for name in self.plan.loses[disaster] if self.volume_on(name)}

    def volume_on(self, server):
        return next((volume for volume, name in self.servers.items() if name == server), None)

    def phases(self, before, run, place):
        """The phase of each session's master after the lines before; they are the same for all points of a place."""
        if place not in self.known_phases:
            sessions = sessions_of(before, run)
            asks = phase_asks(sessions)
            script = Script(self.drsim, before, {len(before): asks})
            listed = [row for ask in asks for row in script.listed(len(before), ask)]
            self.known_phases[place] = [(session, phase_in(listed, session)) for session in sessions]
        return self.known_phases[place]

    @staticmethod
    def recoveries(script, front, run):
        """The lines of the recovery with an `@recover` that is answered with a group, and their sessions."""
        lines = [(at, words_of(line)) for at, line in enumerate(script, 1) if at > front]
        return [(at, words[1].upper()) for at, words in lines if words[:1] == ["@recover"] and run[at][0].startswith("ok group")]

    def member_questions(self, script, front, run):
        """What is asked after each of these: an image, and the members of all sessions that there are."""
        sessions = {at: sessions_of(script[:at], run) for at, _ in self.recoveries(script, front, run)}
        return {at: ["@image", *member_asks(found)] for at, found in sessions.items()}, sessions

    def members_at(self, script, at, session, sessions):
        rows = [row for ask in member_asks(sessions) for row in script.listed(at, ask)]
        return self.drsim.members(session, script.image(at, "@image")), members_in(rows, session)

    @staticmethod
    def loss(use, writes, stop, end):
        """What a use loses: of the writes that its second volumes held as the recovery began."""
        seconds, tracks = {second for _, second in use.pairs}, {track for _, track in stop.held}
        lost = {w for first, second in use.pairs for track in tracks for w in stop.held[second, track] - end.held.get((first, track), set())}
        kept = stop.of(seconds) & end.of({first for first, _ in use.pairs})
        return Loss(sorted(lost), age_of(writes, lost, seconds), broken_in(writes, kept, lost))

    # ---- as text

    def lines(self, row):
        """The lines of a row, one for each use."""
        point, plan = row.point, self.plan
        line, _, part = self.place(point).partition(".")
        where = ["gap", "-", "-", "-"] if point.server is None else [point.server, str(point.write), point.torn, str(sum(point.counts.values()))]
        phases, groups, decisions = row.came
        came = [phases, groups, quoted(decisions), or_dash([f"{counted}/{every}" for counted, every in row.members]), dashed(row.newest)]
        refused = [str(len(row.refused)), str(plan.then_line + row.refused[0]) if row.refused else "-"]
        for use, loss in zip(plan.uses, row.losses):
            least = or_dash([f"w{w}" for w in loss.lost[:MOST_LISTED]]) + (" .." if len(loss.lost) > MOST_LISTED else "")
            lost = [str(len(loss.lost)), least, str(loss.age), "-" if loss.broken is None else "w%d on w%d" % loss.broken]
            yield ",".join([str(point.disaster + 1), use.name or "-", line, part or "-", *where, *came, *lost, *refused])

    def place(self, point):
        """The name of the point's line or part; a gap has that of the one before it."""
        return self.plan.place(point.place) if point.server is None else self.plan.tried[point.place].place

    def words(self, point):
        """The words of `sweep` that show the script of a point."""
        at = ["gap"] if point.server is None else [point.server, str(point.write), point.torn]
        return ["script", self.place(point), *at, *([str(point.disaster + 1)] if point.disaster else [])]


def age_of(writes, lost, seconds):
    """How many writes were acknowledged on the second volumes from the first acknowledgement of a lost one on."""
    order = [w for w, _ in writes.acknowledged]
    first = next((place for place, w in enumerate(order) if w in lost), len(order))
    return sum(writes.by_number[w].volume in seconds for w in order[first:])


def broken_in(writes, kept, lost):
    """Of the lost writes the one that was acknowledged first, and the first by issue of the kept ones that were issued after that."""
    first = next(((w, line) for w, line in writes.acknowledged if w in lost), None)
    if first is None:
        return None
    held = next((w for w in sorted(kept) if writes.by_number[w].issued > first[1]), None)
    return None if held is None else (held, first[0])
