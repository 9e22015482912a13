#!/usr/bin/env python3
"""Tables of stops in orders that come late: bench/late_orders.py [PROGRAM]

A session of three members is at its second group. One order of its master, to a server with two members, travels as a message; behind what
happens meanwhile it comes, and a server stops at one of its device writes, whatever is torn there. The master runs on the server that
stops, or on another one. Behind that the order may come again; then the session goes on, or the first site is lost, or the second one is
recovered while the first one goes on. What must be:

- the same order by an exchange is stopped at the same writes;
- the first site lost, recovery gives group 2 from the first commit that counts on, else group 1, and a second recovery the same;
- the targets show this group, all of them, and show it still where the order comes once more behind the recovery;
- where the session goes on, a group is formed behind at most one abort, and its targets show what the hosts have written.

Outside the gate. The program is crates/drsim/out/drsim (`rt run` leaves it there). Ends with 1 where something is otherwise."""
import re
import subprocess
import sys
from pathlib import Path

PROGRAM = Path(__file__).resolve().parent.parent / "crates" / "drsim" / "out" / "drsim"

PLANT = """@server A1
@server A2
@server B1
@server B2
@server M
@volume 1000-1001 A1 2
@volume 1100 A2 2
@volume 2000-2001 B1 2
@volume 2100 B2 2
@volume 3000-3001 B1 2
@volume 3100 B2 2
@volume 4000 M 1
mkpprcpath -srclss 10 -tgtlss 20 I0000:I0100
mkpprcpath -srclss 11 -tgtlss 21 I0000:I0100
mkpprc -type gcp -mode nocp 1000-1001:2000-2001 1100:2100
mkflash -record -tgtinhibit -nocp 2000-2001:3000-3001 2100:3100
mksession -lss 10 -volume 1000-1001 01
mksession -lss 11 -volume 1100 01
"""
MASTER_AT = {"A1": "10", "B1": "20", "M": "40"}
GROUPS = {1: {"3000": "41", "3001": "42", "3100": "43"}, 2: {"3000": "51", "3001": "52", "3100": "53"}}

BOTH = ["@exchange 01 A1", "@exchange 01 A2"]
UP_TO = {
    "Coordinating": [],
    "Releasing": BOTH,
    "Draining": BOTH + BOTH + ["@drain 1000 all", "@drain 1001 all", "@drain 1100 all"],
}
UP_TO["Flashing"] = UP_TO["Draining"] + BOTH
UP_TO["Committing"] = UP_TO["Flashing"] + BOTH
UP_TO["Reverting"] = UP_TO["Flashing"] + ["@exchange 01 A1", "@abort 01"]
UP_TO["Finishing"] = UP_TO["Draining"] + ["@abort 01"]

# The phase in which each order is sent, and the server that stops in it.
ORDERS = {"Hold": ("Coordinating", "A1"), "Release": ("Releasing", "A1"), "Seal": ("Draining", "B1"), "Flash": ("Flashing", "B1"),
          "Commit": ("Committing", "B1"), "Revert": ("Reverting", "B1"), "Finish": ("Finishing", "A1")}
WRITES_OF_A_MOVE = 7
MEMBERS = 2
TORN = ("none", "00", "01")
NEVER = 4_000_000_000


def meanwhile(master):
    """What happens between the sending of an order and its coming, by name; behind the report of its server the order is old."""
    lost = [f"@stop {master}", f"@start {master}"]
    return {"at once": [], "behind an abort": ["@abort 01"], "behind a loss of the master": lost, "behind its report": lost + BOTH[:1],
            "behind all reports": lost + BOTH, "while the rest is settled": lost + BOTH + BOTH[1:]}


OLD = ("behind its report", "behind all reports", "while the rest is settled")


def prelude(order, master):
    """The lines up to the order, which is message 1."""
    phase, _ = ORDERS[order]
    subsystem = MASTER_AT[master]
    joins = [] if subsystem == "10" else [f"mksession -lss {subsystem} 01"]
    first = ["@write 1000 0 0 41", "@write 1001 0 0 42", "@write 1100 0 0 43", "@run 01 1"]
    second = ["@write 1000 0 0 51", "@write 1001 0 0 52", "@write 1100 0 0 53"]
    return joins + [f"mkgmir -lss {subsystem} -session 01"] + first + second + UP_TO[phase] + ["@send 01 A1"]


class Run:
    """A script that was run, with its answers by the places of its lines."""

    def __init__(self, program, lines):
        text = PLANT + "".join(f"{line}\n" for line in lines)
        printed = subprocess.run([program, "run"], input=text, capture_output=True, text=True, check=False).stdout
        self.lines = lines
        self.before = PLANT.count("\n")
        self.answers = {}
        for line in printed.splitlines():
            number, _, answer = line.partition(" ")
            self.answers[int(number)] = answer
        self.printed = printed

    def answer(self, place):
        """The last answer of the line at a place; -1 is the last line."""
        return self.answers[self.before + 1 + place % len(self.lines)]

    def answers_from(self, place):
        return [self.answers[self.before + 1 + at] for at in range(place, len(self.lines))]


SHOWS = [f"@show {volume} 0" for volume in GROUPS[1]]
LOST = ["@stop A1", "@stop A2", "@stop M", "@start B1", "@start B2", "@recover 01"] + SHOWS + ["@recover 01"] + SHOWS
RECOVERED = ["@start B1", "@recover 01"] + SHOWS + ["@deliver 1", "@recover 01"] + SHOWS
GOES_ON = ["@run 01 1", "@abort 01", "@run 01 1"]


def shown(group):
    return [f"ok {text}" for text in GROUPS[group].values()]


def faults_of_recovery(run, place, groups):
    """What is wrong with a recovery whose line is at a place, with the shows behind it."""
    match = re.fullmatch(r"ok group (\d+) \w+\(.*\)", run.answer(place))
    if not match or int(match[1]) not in groups:
        return None, [f"the recovery answers {run.answer(place)}, and not one of the groups {sorted(groups)}"]
    group = int(match[1])
    told = [run.answer(place + 1 + at) for at in range(len(SHOWS))]
    return group, [] if told == shown(group) else [f"the targets show {told} behind group {group}"]


def checked_recoveries(run, first, second, groups):
    group, found = faults_of_recovery(run, first, groups)
    again, more = faults_of_recovery(run, second, groups)
    if group != again:
        found.append(f"group {group}, and then group {again}")
    return group, found + more


def checked(program, lines, groups):
    """What is wrong behind these lines, and which group a recovery gives there."""
    found = []
    lost = Run(program, lines + LOST)
    at = len(lines) + LOST.index("@recover 01")
    group, faults = checked_recoveries(lost, at, at + 1 + len(SHOWS), groups)
    found += [f"lost: {fault}" for fault in faults]
    recovered = Run(program, lines + RECOVERED)
    at = len(lines) + RECOVERED.index("@recover 01")
    other, faults = checked_recoveries(recovered, at, at + 2 + len(SHOWS), groups)
    found += [f"recovered: {fault}" for fault in faults]
    if group != other:
        found.append(f"group {group} with the first site lost, and {other} with it")
    starts = [f"@start {server}" for server in ("A1", "B1")]
    run = Run(program, lines + starts + GOES_ON + SHOWS + ["@write 1000 1 0 61", "@write 1001 1 0 62", "@write 1100 1 0 63"])
    answers = run.answers_from(len(lines) + len(starts))
    if not re.fullmatch(r"ok Idle \d+", answers[2]) or answers[3:6] != shown(2) or any(not a.startswith("ok w") for a in answers[6:]):
        found.append(f"goes on: {answers}")
    for each in (lost, recovered, run):
        if "Impossible" in each.printed:
            found.append("a decision is impossible")
    return group, found


def groups_allowed(order, name, stopped, writes, torn):
    """The groups that a recovery may give behind an order that was stopped behind so many device writes, or wasn't stopped."""
    if order != "Commit" or name in OLD:
        return {1}
    if not stopped:
        return {1, 2}  # it may have been refused as old
    if writes >= WRITES_OF_A_MOVE:
        return {2}
    return {1, 2} if writes == WRITES_OF_A_MOVE - 1 and torn != "none" else {1}


def table(program, order, master, name, between):
    """The stops of one order in one situation: how many scripts, how many of them stopped, and what is wrong."""
    _, server = ORDERS[order]
    before = prelude(order, master) + between
    scripts = stops = 0
    by_gate = {}
    enough = WRITES_OF_A_MOVE * MEMBERS
    for writes in [enough] if name in OLD else range(enough + 1):
        for torn in TORN:
            fuse = before + [f"@stop {server} after {writes} torn {torn}"]
            # A fuse that wasn't reached gives way to one that never is.
            came = fuse + ["@deliver 1", f"@stop {server} after {NEVER} torn none"]
            answer = Run(program, came).answer(-2)
            stopped = answer == f"E21 stopped {server}"
            stops += stopped
            told = [f"the order is answered {answer}"] if name in OLD and answer != "E25 old message 1" else []
            if name == "at once":
                asked = Run(program, fuse + ["@exchange 01 A1 noreply"])
                if (asked.answer(-1) == f"E21 stopped {server}") != stopped:
                    told.append(f"a message {'is' if stopped else 'is not'} stopped, and an exchange says {asked.answer(-1)}")
            groups = groups_allowed(order, name, stopped, writes, torn)
            group, found = checked(program, came, groups)
            told += found
            if stopped and writes == WRITES_OF_A_MOVE - 1 and torn != "none":
                by_gate[torn] = group
            # The order comes again behind the start of the server that stopped.
            again = groups | ({2} if order == "Commit" and name not in OLD else set())
            _, found = checked(program, came + [f"@start {server}", "@deliver 1"], again)
            told += [f"again: {fault}" for fault in found]
            scripts += 8
            for fault in told:
                yield f"{order} {name}, master on {master}, {writes} writes, torn {torn}: {fault}", 0, 0
    if order == "Commit" and by_gate and name not in OLD and sorted(by_gate.values()) != [1, 2]:
        yield f"{order} {name}, master on {master}: a torn gate gives {by_gate}", 0, 0
    yield "", scripts, stops


def main():
    if len(sys.argv) > 2:
        sys.exit(__doc__)
    program = sys.argv[1] if len(sys.argv) == 2 else PROGRAM
    scripts = stops = bad = 0
    for order, (phase, server) in ORDERS.items():
        for master in (server, "M"):
            for name, between in meanwhile(master).items():
                if UP_TO[phase][-1:] == between:
                    continue  # it is sent behind an abort
                for fault, more, stopped in table(program, order, master, name, between):
                    scripts += more
                    stops += stopped
                    if fault:
                        bad += 1
                        print(fault)
    print(f"{scripts} scripts on late orders, {stops} stops in one, {bad} faults")
    return 1 if bad else 0


if __name__ == "__main__":
    sys.exit(main())
