#!/usr/bin/env python3
"""Tables of stops over three sites: bench/cascade_stops.py [PROGRAM]

1000 at the first site, 2000 at the second one, cascaded, and 3000 at the third one with its target 4000; one server a site, or one for the first
and the third site. A track comes to 2000, by a host write on 1000 or by a drain of two tracks, while 2000 records, or collides, or doesn't record, with
and without a FlashCopy target of its own. One server stops at one of its device writes, whatever is torn there; in a collision a second one
may stop in what follows. So do `mkpprc -cascade`, the failover of a cascaded volume, a hold on one, and a start of its server. What must be:

- the answer names the server that stopped first;
- 2000 is suspended only if the stop came in what it sends on first, and its server runs; 1000 only if its server runs and the stop came
  elsewhere, or in a host write, or if the server of 2000 is off by then;
- listings show the states and the counts that follow from the moves that were done;
- if the first and the second site are lost, recovery gives group 1;
- else all goes on after the starts: the write is acknowledged, both comparisons are equal, a group is formed after at most one abort, recovery
  gives it, and it has the last write.

The moves are written down here, from what is sent and stored in which order; no output is stored. Outside the gate. The program is
crates/drsim/out/drsim (`rt run` leaves it there). Ends with 1 if something is otherwise."""
import itertools
import re
import subprocess
import sys
from pathlib import Path

PROGRAM = Path(__file__).resolve().parent.parent / "crates" / "drsim" / "out" / "drsim"
TORN = ("none", "00", "01")
WRITES_OF_A_MOVE = 7
NEVER = 4_000_000_000
OLD, MIDDLE, NEW = "41", "42", "43"


class Places:
    """Which server each of the three sites has."""

    def __init__(self, first, second, third):
        self.first, self.second, self.third = first, second, third
        self.servers = list(dict.fromkeys((first, second, third)))
        self.of = {"1000": first, "2000": second, "2001": second, "3000": third, "4000": third}

    def define(self, group, cascades=True):
        """The lines that make servers, volumes and pairs."""
        lines = [f"@server {name}" for name in self.servers + ["M"]]
        lines += [f"@volume {volume} {server} 3" for volume, server in self.of.items()] + ["@volume 5000 M 1"]
        lines += [f"mkpprcpath -srclss 10 -tgtlss 20 {'-consistgrp ' if group else ''}I0000:I0100", "mkpprcpath -srclss 20 -tgtlss 30 I0000:I0100"]
        lines += ["mkpprc -type mmir -mode nocp 1000:2000"]
        return lines + (["mkpprc -type gcp -mode nocp -cascade 2000:3000"] if cascades else [])

    def starts(self):
        return [f"@start {name}" for name in self.servers]


THREE, SHARED = Places("A", "B", "C"), Places("A", "B", "A")
SESSION = ["mkflash -tgtinhibit -record -persist -nocp 3000:4000", "mksession -lss 20 -volume 2000 01", "mksession -lss 50 01", "mkgmir -lss 50 -session 01"]
FIRST_GROUP = [f"@write 1000 0 0 {OLD}", f"@write 1000 1 0 {OLD}", "@run 01 1"]


class Run:
    """A script that was run, with all answers of each of its lines."""

    count = 0

    def __init__(self, program, lines):
        Run.count += 1
        self.lines = lines
        text = "".join(f"{line}\n" for line in lines)
        self.printed = subprocess.run([program, "run"], input=text, capture_output=True, text=True, check=False).stdout
        self.answers = {}
        for line in self.printed.splitlines():
            number, _, answer = line.partition(" ")
            if number.isdigit():
                self.answers.setdefault(int(number), []).append(answer)

    def of(self, place):
        """What the line at a place printed; -1 is the last line."""
        return self.answers.get(1 + place % len(self.lines), [])

    def answer(self, place):
        return (self.of(place) or [""])[-1]

    def gates(self):
        """Which slot each volume's gate chooses in the last image."""
        image = self.printed.rpartition("image 1\n")[2]
        return {volume: int(gate, 16) & 1 for volume, gate in re.findall(r"^block (\w{4}) 0 (\w\w)", image, re.M)}


class Move:
    """A change of one volume: what brings it about, the track that it stores, and whether it is one of what is sent on first."""

    def __init__(self, volume, makes, track=None, stores=False, first=False):
        self.volume, self.makes, self.track, self.stores, self.first = volume, makes, track, stores, first


class State:
    """What the control records of 1000 and 2000 say of their pairs."""

    def __init__(self, unsent_first, unsent_second, records, paused):
        self.first, self.first_unsent = ("Copy Pending" if unsent_first else "Full Duplex"), set(unsent_first)
        self.secondary = self.first
        self.second, self.second_unsent, self.recorded = ("Suspended" if paused else "Copy Pending"), set(unsent_second), set()
        self.records = records
        self.landed = False

    def collides(self, track):
        return self.records and track in self.second_unsent

    def make(self, move):
        t = move.track
        if move.makes == "open":
            self.first_unsent.add(t)
        elif move.makes == "take":
            (self.recorded if self.records else self.second_unsent).add(t)
        elif move.makes == "drained":
            self.make(Move("2000", "take", t))
            if self.first_unsent == {t}:
                self.secondary = "Full Duplex"
        elif move.makes == "sent":
            self.second_unsent.discard(t)
        elif move.makes in ("struck", "landed"):
            self.first_unsent.discard(t)
            self.landed |= move.makes == "landed"
            if not self.first_unsent:
                self.first = "Full Duplex"

    def suspend_first(self):
        self.first = "Suspended"

    def suspend_second(self):
        self.second, self.records = "Suspended", False
        self.second_unsent |= self.recorded
        self.recorded = set()

    def listed(self):
        """What `lspprc` prints of the two volumes."""
        unsent = len(self.second_unsent | self.recorded)
        return ([f"1000:2000 {self.first} Metro Mirror {len(self.first_unsent)}", "ok"],
                [f"2000:3000 {self.second} Global Copy {unsent}", f"1000:2000 Target {self.secondary} Metro Mirror -", "ok"])


class Case:
    """A situation, and what brings a track, or two, to 2000."""

    def __init__(self, places, way, unsent, records, paused, own_target, group, session=True):
        self.places, self.way, self.group, self.session = places, way, group, session
        self.tracks = [0] if way == "write" else [0, 1]
        self.state = lambda: State(self.tracks if way == "drain" else [], [0, 1] if unsent else [], records, paused)
        self.own_target, self.unsent, self.records = own_target, unsent, records
        self.name = f"{way}, {len(places.servers)} servers" + "".join(
            f", {word}" for word, holds in (("unsent", unsent), ("records", records), ("paused", paused), ("own target", own_target),
                                            ("group path", group), ("no session", not session)) if holds)
        lines = places.define(group) + (SESSION + FIRST_GROUP if session else FIRST_GROUP[:2] + ["@drain 2000 all"])
        if unsent:
            lines += [f"@write 1000 0 0 {MIDDLE}", f"@write 1000 1 0 {MIDDLE}"]
        if way == "drain":
            lines += ["pausepprc 1000:2000", f"@write 1000 0 0 {NEW}", f"@write 1000 1 0 {NEW}", "resumepprc -type mmir 1000:2000"]
        if records:
            lines += [f"@exchange 01 {places.second}"] * 2
        if paused:
            lines += ["pausepprc 2000:3000"]
        if own_target:
            lines += ["mkflash -nocp 2000:2001"]
        self.before = lines + [f"@destage {volume}" for volume in places.of]
        self.step = f"@write 1000 0 0 {NEW}" if way == "write" else "@drain 1000 all"
        self.write = 3 + 2 * unsent  # the number of the write, of which two or four came before

    def moves(self):
        """The moves of the step, in order, if nothing stops."""
        state, moves = self.state(), []
        for t in self.tracks:
            if self.way == "write":
                moves.append(Move("1000", "open", t))
            if state.collides(t):
                moves += [Move("4000", "kept", t, True, True), Move("3000", "stored", t, True, True), Move("2000", "sent", t, False, True)]
            if self.own_target:
                moves.append(Move("2001", "kept", t, True))
            moves.append(Move("2000", "take" if self.way == "write" else "drained", t, True))
            moves.append(Move("1000", "landed", t, True) if self.way == "write" else Move("1000", "struck", t))
        return moves

    def stopped(self, server, writes, torn, gates):
        """The state that a stop leaves, and the move that it came in; no move if it isn't reached."""
        state, staged, turns, left = self.state(), {}, dict(gates), writes
        for move in self.moves():
            gate = turns[move.volume] = 1 - turns.get(move.volume, 0)
            if self.places.of[move.volume] == server:
                gives_way = move.stores and staged.get(move.volume, move.track) != move.track
                need = WRITES_OF_A_MOVE + gives_way
                if left < need:
                    if left == need - 1 and torn != "none" and int(torn) == gate:
                        state.make(move)
                    return state, move
                left -= need
            state.make(move)
            if move.stores:
                staged[move.volume] = move.track
        return state, None

    def follow(self, state, move, server, second=None):
        """What follows the stop; the second server's fuse may go off there, and says whether its move counts as done."""
        places, off = self.places, {server}
        if move.first and places.second not in off:
            if second is None or second:
                state.suspend_second()
            if second is not None:
                off.add(places.second)
        if places.first in off:
            return
        if not move.first or self.way == "write" or places.second in off:
            state.suspend_first()


def faults_behind(program, case, lines, pending=True):
    """What is wrong with what comes after a stop: the first two sites are lost, or all goes on; a write may be pending."""
    places = case.places
    if case.session:
        lost = Run(program, lines + [f"@stop {name}" for name in places.servers if name != places.third] + [f"@start {places.third}", "@recover 01", "@show 4000 0"])
        if not re.fullmatch(r"ok group 1 \w+\(.*\)", lost.answer(-2)) or lost.answer(-1) != f"ok {OLD}":
            yield f"lost: {lost.answer(-2)}, {lost.answer(-1)}"
    goes_on = places.starts() + ["resumepprc -type mmir 1000:2000", "resumepprc -type gcp 2000:3000", f"@apply {case.write}"]
    at = len(lines) + len(goes_on) - 1
    if case.session:
        goes_on += ["@run 01 1", "@abort 01"]
    goes_on += ["@drain 1000 all"] + (["@run 01 1", "@run 01 1"] if case.session else []) + ["@drain 2000 all", "@compare 1000 2000", "@compare 2000 3000"]
    end = len(lines) + len(goes_on)
    goes_on += ["lspprc 1000", "lspprc 2000"] + [f"@show {volume} {t}" for volume in ("1000", "3000") for t in case.tracks]
    if case.session:
        goes_on += ["@recover 01", "@show 4000 0"]
    run = Run(program, lines + goes_on)
    acknowledged = f"ok acked w{case.write}" in [run.answer(len(lines) + place) for place in range(len(places.servers))]
    if case.way == "write" and run.answer(at) != ("E02 unknown write" if acknowledged or not pending else f"ok w{case.write}"):
        yield f"the write is answered {run.answer(at)}"
    if [run.answer(end - 2), run.answer(end - 1)] != ["ok", "ok"]:
        yield f"comparisons: {run.answer(end - 2)}, {run.answer(end - 1)}"
    if (run.of(end), run.of(end + 1)) != State([], [], False, False).listed():
        yield f"at the end: {run.of(end)}, {run.of(end + 1)}"
    shown = [run.answer(end + 2 + place) for place in range(2 * len(case.tracks))]
    if shown != [f"ok {NEW}"] * len(shown):
        yield f"at the end 1000 and 3000 show {shown}"
    if case.session:
        formed = re.fullmatch(r"ok Idle (\d+)", run.answer(end - 4))
        if not formed or run.answer(-2) != f"ok group {formed[1]} Nothing({formed[1]})" or run.answer(-1) != f"ok {NEW}":
            yield f"groups: {run.answer(end - 4)}, {run.answer(-2)}, {run.answer(-1)}"


def faults_of_a_stop(program, case, lines, server, state):
    """What is wrong with the step's answer and with what the listings show, and then with what comes after."""
    run = Run(program, lines + ["lspprc 1000", "lspprc 2000"])
    if run.answer(-3) != f"E21 stopped {server}":
        yield f"the answer is {run.answer(-3)}"
    if (run.of(-2), run.of(-1)) != state.listed():
        yield f"listed {run.of(-2)}, {run.of(-1)}, and not {state.listed()}"
    yield from faults_behind(program, case, lines)


def stops_of_tracks(program, case):
    """Each stop in the step of a case; in a collision's send also those in which the second site's server stops in the suspension that follows."""
    gates = Run(program, case.before + ["@image"]).gates()
    for server in case.places.servers:
        for writes in itertools.count():
            if case.stopped(server, writes, "none", gates)[1] is None:
                break
            for torn in TORN:
                fuse = case.before + [f"@stop {server} after {writes} torn {torn}"]
                state, move = case.stopped(server, writes, torn, gates)
                case.follow(state, move, server)
                yield f"{case.name}: {server} after {writes} torn {torn}", faults_of_a_stop(program, case, fuse + [case.step], server, state)
                # Before the first collision the second site's server makes no device write, so its fuse goes off in the suspension.
                if move.first and server == case.places.third and move.track == 0 and torn == "none" and writes % WRITES_OF_A_MOVE == 0:
                    for more, also in itertools.product(range(WRITES_OF_A_MOVE), TORN):
                        state, move = case.stopped(server, writes, torn, gates)
                        done = more == WRITES_OF_A_MOVE - 1 and also != "none" and int(also) == 1 - gates.get("2000", 0)
                        case.follow(state, move, server, done)
                        both = fuse + [f"@stop {case.places.second} after {more} torn {also}", case.step]
                        yield f"{case.name}: {server} after {writes}, {case.places.second} after {more} torn {also}", faults_of_a_stop(program, case, both, server, state)
        last = case.before + [f"@stop {server} after {writes} torn none", case.step]
        answer = Run(program, last).answer(-1)
        if answer.startswith("E21"):
            yield f"{case.name}: {server} after {writes}", [f"the answer is {answer}, and the step has no such device write"]


def cases():
    for places, way in itertools.product((THREE, SHARED), ("write", "drain")):
        for unsent, records, own_target in itertools.product((False, True), repeat=3):
            yield Case(places, way, unsent, records, False, own_target, False)
        yield Case(places, way, True, False, True, True, False)
        yield Case(places, way, False, False, False, False, False, session=False)
        yield Case(places, way, True, True, False, True, True)


def stops_of_moves(program, places, name, before, step, moves, after):
    """The stops of a step that takes a few moves: `after` says what is wrong after so many of them were done."""
    gates = Run(program, before + ["@image"]).gates()
    counted = {}
    for done, volume in enumerate(moves):
        server = places.of[volume]
        for writes, torn in itertools.product(range(WRITES_OF_A_MOVE), TORN):
            at = counted.get(server, 0) + writes
            lines = before + [f"@stop {server} after {at} torn {torn}", step]
            made = writes == WRITES_OF_A_MOVE - 1 and torn != "none" and int(torn) == 1 - gates.get(volume, 0)
            answer = Run(program, lines).answer(-1)
            faults = [] if answer == f"E21 stopped {server}" else [f"the answer is {answer}"]
            yield f"{name}, {len(places.servers)} servers: {server} after {at} torn {torn}", itertools.chain(faults, after(lines, done + made))
        counted[server] = counted.get(server, 0) + WRITES_OF_A_MOVE


SECOND = "1000:2000 Target Full Duplex Metro Mirror -"


def stops_of_cascades(program, places):
    """`mkpprc -cascade`: the third site's volume first, then the second one's."""
    def after(lines, done):
        run = Run(program, lines + ["lspprc 2000", "lspprc 3000"])
        wanted = [["2000:3000 Copy Pending Global Copy 0"] * (done > 1) + [SECOND, "ok"], ["2000:3000 Target Copy Pending Global Copy -"] * (done > 0) + ["ok"]]
        if [run.of(-2), run.of(-1)] != wanted:
            yield f"listed {run.of(-2)}, {run.of(-1)}, and not {wanted}"
        again = places.starts() + ["mkpprc -type gcp -mode nocp -cascade 2000:3000", f"@write 1000 0 0 {OLD}", "@drain 2000 all", "@compare 1000 2000",
                                   "@compare 2000 3000"] + SESSION + ["@run 01 1", "@recover 01", "@show 4000 0"]
        run = Run(program, lines + again)
        at = len(lines) + len(places.servers)
        told = [run.answer(at + place) for place in range(5)]
        if told != ["E10 pair state 2000 Copy Pending" if done > 1 else "ok", "ok w1", "ok 1", "ok", "ok"]:
            yield f"again: {told}"
        if [run.answer(place) for place in (-3, -2, -1)] != ["ok Idle 1", "ok group 1 Nothing(1)", f"ok {OLD}"]:
            yield f"groups: {[run.answer(place) for place in (-3, -2, -1)]}"

    yield from stops_of_moves(program, places, "-cascade", places.define(False, False), "mkpprc -type gcp -mode nocp -cascade 2000:3000", ["3000", "2000"], after)


def stops_of_leaving(program, places):
    """The failover of a cascaded volume, that records or doesn't: one move."""
    for records in (False, True):
        before = places.define(False) + SESSION + FIRST_GROUP + [f"@write 1000 0 0 {MIDDLE}"]
        before += [f"@exchange 01 {places.second}"] * 2 + [f"@write 1000 1 0 {MIDDLE}"] if records else []

        def after(lines, done, records=records):
            run = Run(program, lines + ["lspprc 1000", "lspprc 2000"])
            wanted = [["1000:2000 Full Duplex Metro Mirror 0", "ok"], [f"2000:3000 Copy Pending Global Copy {1 + records}"] + [SECOND] * (1 - done) + ["ok"]]
            if [run.of(-2), run.of(-1)] != wanted:
                yield f"listed {run.of(-2)}, {run.of(-1)}, and not {wanted}"
            again = places.starts() + ["failoverpprc -type mmir 2000:1000", f"@write 2000 0 0 {NEW}", "@run 01 1", "@abort 01", "@run 01 1", "@run 01 1",
                                       "@drain 2000 all", "@compare 2000 3000", f"@write 1000 2 0 {NEW}", "lspprc 1000", "@recover 01", "@show 4000 0"]
            run = Run(program, lines + again)
            at = len(lines) + len(places.servers)
            if run.answer(at) != ("E10 pair state 2000 Copy Pending" if done else "ok") or not run.answer(at + 1).startswith("ok w"):
                yield f"again: {run.answer(at)}, {run.answer(at + 1)}"
            if run.answer(at + 7) != "ok" or run.of(at + 9)[:1] != ["1000:2000 Suspended Metro Mirror 1"]:
                yield f"at the end: {run.answer(at + 7)}, {run.of(at + 9)}"
            formed = re.fullmatch(r"ok Idle (\d+)", run.answer(at + 5))
            if not formed or run.answer(-2) != f"ok group {formed[1]} Nothing({formed[1]})" or run.answer(-1) != f"ok {NEW}":
                yield f"groups: {run.answer(at + 5)}, {run.answer(-2)}, {run.answer(-1)}"

        yield from stops_of_moves(program, places, f"failover, records {records}", before, "failoverpprc -type mmir 2000:1000", ["2000"], after)


def stops_of_holds(program, places):
    """A hold on a cascaded volume: one move; its server's start takes the hold off again. A write comes then, the third one."""
    case = Case(places, "write", False, False, False, False, False)

    def after(lines, done):
        # The second site is off: the first one's pair is suspended, and goes on by itself.
        run = Run(program, lines + [f"@write 1000 0 0 {NEW}", "lspprc 1000", f"@start {places.second}", "lspprc 2000", f"@exchange 01 {places.second}", "showgmir 50"])
        at = len(lines)
        if [run.answer(at), run.of(at + 1)[0]] != ["ok w3", "1000:2000 Suspended Metro Mirror 1"]:
            yield f"the write: {run.answer(at)}, {run.of(at + 1)}"
        if run.of(at + 3) != ["2000:3000 Copy Pending Global Copy 0", SECOND, "ok"]:
            yield f"listed {run.of(at + 3)}"
        # The attempt has begun if the hold was done, and then it is lost to 2000.
        if run.answer(at + 4) != ("E17 stale 2 2" if done else "ok Releasing 2"):
            yield f"asked again: {run.answer(at + 4)}"
        if run.of(-1)[0] != f"01 M {'Coordinating' if done else 'Releasing'} 2 running":
            yield f"the master: {run.of(-1)}"
        yield from faults_behind(program, case, lines + [f"@write 1000 0 0 {NEW}"], False)

    yield from stops_of_moves(program, places, "hold", places.define(False) + SESSION + FIRST_GROUP, f"@exchange 01 {places.second}", ["2000"], after)


def stops_of_starts(program, places):
    """A start of the second site's server, whose cascaded volume is held and has a staged track: that is written to its block, and then the hold goes.
    Each of its volumes with a staged track takes a device write, and 2000 a move more."""
    case = Case(places, "write", False, False, False, False, False)
    for released in (0, 1):
        before = places.define(False) + SESSION + FIRST_GROUP + [f"@exchange 01 {places.second}"] * (1 + released) + [f"@stop {places.second}"]
        for writes, torn in itertools.product(range(WRITES_OF_A_MOVE + 2), TORN):
            lines = before + [f"@stop {places.second} after {writes} torn {torn}", f"@start {places.second}"]
            run = Run(program, lines + ["lspprc 2000"])
            # A fuse that stands at 0 is taken away by the start.
            wanted = "ok" if writes in (0, WRITES_OF_A_MOVE + 1) else f"E21 stopped {places.second}"
            faults = [] if run.answer(-2) == wanted else [f"the start answers {run.answer(-2)}"]
            if run.of(-1) != ["2000:3000 Copy Pending Global Copy 0", SECOND, "ok"]:
                faults.append(f"listed {run.of(-1)}")
            # After another start nothing is held: the write goes over.
            unarmed = lines + [f"@stop {places.second} after {NEVER} torn none"]
            gone = Run(program, unarmed + places.starts() + [f"@write 1000 0 0 {NEW}", f"@exchange 01 {places.second}"])
            if gone.answer(-2) != "ok w3":
                faults.append(f"the write is answered {gone.answer(-2)}")
            if gone.answer(-1) != "E07 void 2":
                faults.append(f"the attempt is asked, and answers {gone.answer(-1)}")
            more = unarmed + [f"@start {places.second}", f"@write 1000 0 0 {NEW}"]
            name = f"start, {len(places.servers)} servers, released {released}: after {writes} torn {torn}"
            yield name, itertools.chain(faults, faults_behind(program, case, more, False))


def tables(program):
    for case in cases():
        yield from stops_of_tracks(program, case)
    for places in (THREE, SHARED):
        for table in (stops_of_cascades, stops_of_leaving, stops_of_holds, stops_of_starts):
            yield from table(program, places)


def main():
    if len(sys.argv) > 2:
        sys.exit(__doc__)
    program = sys.argv[1] if len(sys.argv) == 2 else PROGRAM
    stops = bad = 0
    for name, faults in tables(program):
        stops += 1
        for fault in faults:
            bad += 1
            print(f"{name}: {fault}")
    print(f"{Run.count} scripts over three sites, {stops} stops, {bad} faults")
    return 1 if bad else 0


if __name__ == "__main__":
    sys.exit(main())
