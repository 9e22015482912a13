#!/usr/bin/env python3
"""Plans with tried `@run`s, small ones and random ones: what `SWEEP` says of them against what `tools/check_sweep.py` makes.

    tools/random_parts.py SWEEP DRSIM [NAME..]        the small plans, which stand below, or those whose names begin so
    tools/random_parts.py SWEEP DRSIM FIRST COUNT     random plans of these numbers
    tools/random_parts.py --written SWEEP DRSIM PLAN..
    tools/random_parts.py --plan NAME|NUMBER          prints a plan

Of each plan all is compared that `check_sweep.py` compares. Then the same plan is tried with the parts of each `@run` written out as lines: it has
to have the same rows except for the names of lines. Of plans that are files only this is asked (`--written`). Of a small plan it is also said what its
first tried `@run` is answered, and how many parts it has. Outside the gate. Exit status 1 where something differs, or a small plan's `@run` comes to
something else than is said here.
"""
import random
import subprocess
import sys
import tempfile
from pathlib import Path

sys.dont_write_bytecode = True
from check_sweep import check
from plan_text import lines_of, read_plan, text_of
from sweep_parts import is_run, taken_apart
from sweep_runs import Drsim, Fault

# ---- small plans

PLANT = """@server A1
@server A2
@server B1
@server B2
@server M
@volume 1000-1001 A1 2
@volume 1100 A2 2
@volume 2000-2001 B1 2
@volume 2100 B2 2
@volume 3000-3001 B1 2
@volume 3100 B2 2
@volume 4000 M 1
mkpprcpath -srclss 10 -tgtlss 20 I0000:I0100
mkpprcpath -srclss 11 -tgtlss 21 I0000:I0100
mkpprc -type gcp -mode nocp 1000-1001:2000-2001 1100:2100
mkflash -record -tgtinhibit -nocp 2000-2001:3000-3001 2100:3100""".split("\n")
JOINED = ["mksession -lss 10 -volume 1001 01", "chsession -lss 10 -action add -volume 1000 01", "mksession -lss 11 -volume 1100 01"]
MASTER = ["mkgmir -lss 10 -session 01"]
GROUP = ["@write 1000 0 0 01", "@write 1100 0 0 01", "@run 01 1"]
WRITES = ["@write 1000 0 0 02", "@write 1001 1 0 02", "@write 1100 0 0 02"]
SESSION = PLANT + JOINED + MASTER + GROUP + WRITES
DISASTER = ["#sweep lose A1 B2", "#sweep use 3000-3001 for 1000-1001", "#sweep use 3100 for 1100", "#sweep here"]
RECOVERY = ["#sweep then", "@start B1", "@start B2", "@recover 01"]

BOTH = ["@exchange 01 A1", "@exchange 01 A2"]
SENT = ["@drain 1001 all", "@drain 1000 all", "@drain 1100 all"]
REACH = {  # how an attempt comes to a phase in which both servers owe their order
    "Idle": [],
    "Coordinating": BOTH[:1],
    "Releasing": BOTH,
    "Draining": BOTH * 2,
    "Flashing": BOTH * 2 + SENT + BOTH,
    "Committing": BOTH * 2 + SENT + BOTH * 2,
    "Reverting": BOTH * 2 + SENT + BOTH + BOTH[:1] + ["@abort 01"],
    "Lost": BOTH * 2 + SENT + BOTH * 2 + BOTH[:1] + ["@abort 01"],
    "Finishing": BOTH * 2 + SENT + BOTH * 3,
}
FAULTS = {
    "goes-on": [],
    "server-off": ["@stop A2"],
    "master-off": ["@stop A1"],
    "secondary-off": ["@stop B2"],
    "link-down": ["@link A2 B2 down"],
    "masters-link-down": ["@link A1 A2 down"],
    "suspended": ["pausepprc 1100:2100"],
    "restarted": ["@stop A2", "@start A2"],
    "stops": ["@stop B2 after 9 torn 00"],
}


def small(before, tried):
    return before + DISASTER + tried + ["@write 1000 1 0 05"] + RECOVERY


def small_plans():
    """Each small plan by its name."""
    for phase, lines in REACH.items():
        for fault, cause in FAULTS.items():
            yield f"{phase}-{fault}", small(SESSION + lines + cause, ["@run 01 1"])
        if phase != "Idle":
            yield f"{phase}-half-done", small(SESSION + lines + (BOTH[:1] if phase != "Coordinating" else []), ["@run 01 1"])
            yield f"{phase}-no-reply", small(SESSION + lines + ["@exchange 01 A2 noreply"], ["@run 01 1"])
    pause = ["pausegmir -lss 10 -session 01"]
    yield "two-groups", small(SESSION, ["@run 01 2"])
    yield "three-groups-with-writes", small(SESSION, ["@run 01 1", "@write 1000 1 0 03", "@run 01 2"])
    yield "paused-idle", small(SESSION + pause, ["@run 01 1"])
    yield "paused-in-an-attempt", small(SESSION + REACH["Releasing"] + pause, ["@run 01 1"])
    yield "paused-and-two-asked-for", small(SESSION + REACH["Releasing"] + pause, ["@run 01 2"])
    yield "nobody-left-after-a-finish", small(SESSION + REACH["Finishing"] + pause, ["@run 01 1"])
    yield "nobody-left-after-a-revert", small(SESSION + REACH["Reverting"] + pause, ["@run 01 1"])
    yield "nobody-left-announced", small(SESSION + REACH["Finishing"] + pause, ["#sweep refused", "@run 01 1"])
    yield "announced-and-not-refused", small(SESSION, ["#sweep refused", "@run 01 1"])
    yield "announced-and-refused", small(SESSION + FAULTS["suspended"], ["#sweep refused", "@run 01 1"])
    yield "no-session", small(SESSION, ["@run 02 1"])
    yield "no-master", small(SESSION + ["rmgmir -lss 10 -session 01"], ["@run 01 1"])
    yield "no-group-asked-for", small(SESSION, ["@run 01 0"])
    yield "too-many-groups", small(SESSION, ["@run 01 10001"])
    yield "no-member", small(PLANT + ["mksession -lss 10 01"] + MASTER, ["@run 01 1"])
    alone = ["mksession -lss 11 -volume 1100 01", "mksession -lss 40 01", "mkgmir -lss 40 -session 01"]
    yield "master-without-members", small(PLANT + alone + ["@write 1100 0 0 01"], ["@run 01 1"])
    yield "master-without-members-off", small(PLANT + alone + ["@write 1100 0 0 01", "@stop M"], ["@run 01 1"])
    none = PLANT + ["mksession -lss 10 01", "mksession -lss 40 01", "mkgmir -lss 40 -session 01", "@stop M"]
    yield "no-member-and-master-off", small(none, ["@run 01 1"])
    named = small(PLANT + ["mksession -lss 10 -volume 1000-1001 ab", "mkgmir -lss 10 -session Ab", *WRITES], ["@run aB 1"])
    yield "letters-of-a-session", named[:-1] + ["@recover AB"]


# Of each the answer to its first tried `@run`, and how many parts that has.
SAID = {
    "Idle-goes-on": ("ok Idle 2", 15),
    "Idle-server-off": ("E05 server off A2", 2),
    "Idle-master-off": ("E05 server off A1", 1),
    "Idle-secondary-off": ("E05 server off B2", 8),
    "Idle-link-down": ("E06 link down A2 B2", 8),
    "Idle-masters-link-down": ("E06 link down A1 A2", 2),
    "Idle-suspended": ("E10 pair state 1100 Suspended", 2),
    "Idle-restarted": ("ok Idle 2", 15),
    "Idle-stops": ("E21 stopped B2", 8),
    "Coordinating-goes-on": ("ok Idle 2", 14),
    "Coordinating-server-off": ("E05 server off A2", 1),
    "Coordinating-master-off": ("E05 server off A1", 1),
    "Coordinating-secondary-off": ("E05 server off B2", 7),
    "Coordinating-link-down": ("E06 link down A2 B2", 7),
    "Coordinating-masters-link-down": ("E06 link down A1 A2", 1),
    "Coordinating-suspended": ("E10 pair state 1100 Suspended", 1),
    "Coordinating-restarted": ("ok Idle 2", 14),
    "Coordinating-stops": ("E21 stopped B2", 7),
    "Coordinating-half-done": ("ok Idle 2", 14),
    "Coordinating-no-reply": ("ok Idle 2", 14),
    "Releasing-goes-on": ("ok Idle 2", 13),
    "Releasing-server-off": ("E05 server off A2", 2),
    "Releasing-master-off": ("E05 server off A1", 1),
    "Releasing-secondary-off": ("E05 server off B2", 6),
    "Releasing-link-down": ("E06 link down A2 B2", 6),
    "Releasing-masters-link-down": ("E06 link down A1 A2", 2),
    "Releasing-suspended": ("E07 void 2", 2),
    "Releasing-restarted": ("E07 void 2", 2),
    "Releasing-stops": ("E21 stopped B2", 6),
    "Releasing-half-done": ("ok Idle 2", 12),
    "Releasing-no-reply": ("ok Idle 2", 13),
    "Draining-goes-on": ("ok Idle 2", 11),
    "Draining-server-off": ("E05 server off A2", 4),
    "Draining-master-off": ("E05 server off A1", 1),
    "Draining-secondary-off": ("E05 server off B2", 4),
    "Draining-link-down": ("E06 link down A2 B2", 4),
    "Draining-masters-link-down": ("E06 link down A1 A2", 5),
    "Draining-suspended": ("E07 void 2", 4),
    "Draining-restarted": ("E07 void 2", 5),
    "Draining-stops": ("E21 stopped B2", 4),
    "Draining-half-done": ("ok Idle 2", 11),
    "Draining-no-reply": ("ok Idle 2", 11),
    "Flashing-goes-on": ("ok Idle 2", 6),
    "Flashing-server-off": ("E05 server off A2", 2),
    "Flashing-master-off": ("E05 server off A1", 1),
    "Flashing-secondary-off": ("E05 server off B2", 2),
    "Flashing-link-down": ("E06 link down A2 B2", 2),
    "Flashing-masters-link-down": ("E06 link down A1 A2", 2),
    "Flashing-suspended": ("ok Idle 2", 6),
    "Flashing-restarted": ("ok Idle 2", 6),
    "Flashing-stops": ("E21 stopped B2", 4),
    "Flashing-half-done": ("ok Idle 2", 5),
    "Flashing-no-reply": ("ok Idle 2", 6),
    "Committing-goes-on": ("ok Idle 2", 4),
    "Committing-server-off": ("E05 server off A2", 2),
    "Committing-master-off": ("E05 server off A1", 1),
    "Committing-secondary-off": ("E05 server off B2", 2),
    "Committing-link-down": ("E06 link down A2 B2", 2),
    "Committing-masters-link-down": ("E06 link down A1 A2", 2),
    "Committing-suspended": ("ok Idle 2", 4),
    "Committing-restarted": ("ok Idle 2", 4),
    "Committing-stops": ("ok Idle 2", 4),
    "Committing-half-done": ("ok Idle 2", 3),
    "Committing-no-reply": ("ok Idle 2", 4),
    "Reverting-goes-on": ("ok Idle 3", 19),
    "Reverting-server-off": ("E05 server off A2", 2),
    "Reverting-master-off": ("E05 server off A1", 1),
    "Reverting-secondary-off": ("E05 server off B2", 2),
    "Reverting-link-down": ("E06 link down A2 B2", 2),
    "Reverting-masters-link-down": ("E06 link down A1 A2", 2),
    "Reverting-suspended": ("E10 pair state 1100 Suspended", 6),
    "Reverting-restarted": ("ok Idle 3", 19),
    "Reverting-stops": ("E21 stopped B2", 13),
    "Reverting-half-done": ("ok Idle 3", 18),
    "Reverting-no-reply": ("ok Idle 3", 19),
    "Lost-goes-on": ("ok Idle 2", 6),
    "Lost-server-off": ("E05 server off A2", 2),
    "Lost-master-off": ("E05 server off A1", 1),
    "Lost-secondary-off": ("E05 server off B2", 2),
    "Lost-link-down": ("E06 link down A2 B2", 2),
    "Lost-masters-link-down": ("E06 link down A1 A2", 2),
    "Lost-suspended": ("ok Idle 2", 6),
    "Lost-restarted": ("ok Idle 2", 6),
    "Lost-stops": ("ok Idle 2", 6),
    "Lost-half-done": ("ok Idle 2", 5),
    "Lost-no-reply": ("ok Idle 2", 6),
    "Finishing-goes-on": ("ok Idle 3", 17),
    "Finishing-server-off": ("E05 server off A2", 2),
    "Finishing-master-off": ("E05 server off A1", 1),
    "Finishing-secondary-off": ("E05 server off B2", 11),
    "Finishing-link-down": ("E06 link down A2 B2", 11),
    "Finishing-masters-link-down": ("E06 link down A1 A2", 2),
    "Finishing-suspended": ("E10 pair state 1100 Suspended", 4),
    "Finishing-restarted": ("ok Idle 3", 17),
    "Finishing-stops": ("E21 stopped B2", 13),
    "Finishing-half-done": ("ok Idle 3", 16),
    "Finishing-no-reply": ("ok Idle 3", 17),
    "two-groups": ("ok Idle 3", 30),
    "three-groups-with-writes": ("ok Idle 2", 15),
    "paused-idle": ("E15 out of order Idle", 0),
    "paused-in-an-attempt": ("ok Idle 2", 13),
    "paused-and-two-asked-for": ("E15 out of order Idle", 13),
    "nobody-left-after-a-finish": ("E15 out of order Idle", 2),
    "nobody-left-after-a-revert": ("E15 out of order Idle", 4),
    "nobody-left-announced": ("E15 out of order Idle", 2),
    "announced-and-not-refused": ("ok Idle 2", 15),
    "announced-and-refused": ("E10 pair state 1100 Suspended", 2),
    "no-session": ("E02 unknown session", 0),
    "no-master": ("E15 out of order none", 0),
    "no-group-asked-for": ("E04 limit groups", 0),
    "too-many-groups": ("E04 limit groups", 0),
    "no-member": ("E15 out of order Idle", 0),
    "master-without-members": ("ok Idle 1", 7),
    "master-without-members-off": ("E05 server off M", 1),
    "no-member-and-master-off": ("E15 out of order Idle", 0),
    "letters-of-a-session": ("ok Idle 1", 8),
}

# ---- random plans

HEAD = PLANT + """@volume 1200 A2 2
@volume 2200 B2 2
@volume 3200 B2 2
mkpprcpath -srclss 12 -tgtlss 22 I0000:I0100
mkpprc -type gcp -mode nocp 1200:2200
mkflash -record -tgtinhibit -nocp 2200:3200""".split("\n")
VOLUMES = ("1000", "1001", "1100", "1200")
SERVERS = ("A1", "A2", "B1", "B2", "M")
# How often each kind of line comes.
WEIGHTS = {"write": 20, "issue": 2, "apply": 2, "drain": 4, "exchange": 26, "noreply": 4, "send": 4, "deliver": 6, "abort": 2, "run": 4, "stop": 2, "fuse": 2,
           "start": 4, "link": 2, "pause": 2, "resume": 2, "pair": 2, "pairs": 1, "mend": 2, "member": 1, "destage": 1}


class Maker:
    """Makes a plan of a number."""

    def __init__(self, number):
        self.draw = random.Random(number)
        two = self.draw.random() < 0.4
        members = list(VOLUMES)
        self.draw.shuffle(members)
        self.members = {"01": members[:3], "0A": members[3:]} if two else {"01": members[:self.draw.randint(1, 4)]}
        self.masters = {session: self.draw.choice(["10", "11", "40"]) for session in self.members}
        self.writes = self.messages = 0

    def session(self):
        return self.draw.choice(list(self.members))

    def join(self):
        """The lines that make sessions and masters; members come one by one."""
        for session, volumes in self.members.items():
            for lss in dict.fromkeys([self.masters[session], *(volume[:2] for volume in volumes)]):
                yield f"mksession -lss {lss} {session}"
            for volume in volumes:
                yield f"chsession -lss {volume[:2]} -action add -volume {volume} {session}"
            yield f"mkgmir -lss {self.masters[session]} -session {session}"

    def write(self, word):
        self.writes += 1
        return f"@{word} {self.draw.choice(VOLUMES)} {self.draw.randrange(2)} 0 {self.writes:02X}"

    def line(self, weights):
        draw, session, volume = self.draw, self.session(), self.draw.choice(VOLUMES)
        kind, server = draw.choices(list(weights), list(weights.values()))[0], draw.choice(("A1", "A2"))
        if kind in ("write", "issue"):
            return self.write(kind)
        if kind in ("send", "deliver"):
            self.messages += 1
        return {
            "drain": f"@drain {volume} {draw.choice(['all', '1'])}",
            "exchange": f"@exchange {session} {server}",
            "noreply": f"@exchange {session} {server} noreply",
            "send": f"@send {session} {server}",
            "deliver": f"@deliver {draw.randint(max(1, self.messages - 4), self.messages + 1)}",
            "abort": f"@abort {session}",
            "stop": f"@stop {draw.choice(SERVERS)}",
            "start": f"@start {draw.choice(SERVERS)}",
            "fuse": f"@stop {draw.choice(SERVERS)} after {draw.randrange(30)} torn {draw.choice(['none', '00', '01'])}",
            "link": f"@link {draw.choice(['A1', 'A2', 'M'])} {draw.choice(['A2', 'B1', 'B2'])} {draw.choice(['up', 'up', 'down'])}".replace("A2 A2", "A2 A1"),
            "pause": f"pausegmir -lss {self.masters[session]} -session {session}",
            "resume": f"resumegmir -lss {self.masters[session]} -session {session}",
            "pair": f"pausepprc {volume}:2{volume[1:]}",
            "pairs": "pausepprc 1000-1001:2000-2001",
            "mend": f"resumepprc -type gcp {volume}:2{volume[1:]}",
            "member": f"chsession -lss {volume[:2]} -action {draw.choice(['add', 'remove'])} -volume {volume} {session}",
            "run": f"@run {session} {draw.choice([1, 1, 2])}",
            "apply": f"@apply {max(1, self.writes - draw.randrange(4))}",
            "destage": f"@destage {volume}",
        }[kind]

    def lines(self):
        draw = self.draw
        setup = [*HEAD, *self.join(), *(self.line(WEIGHTS) for _ in range(draw.randint(0, 24)))]
        if draw.random() < 0.6:  # one in which all servers are on goes on more often
            setup += [f"@start {name}" for name in SERVERS]
        yield from setup
        for _ in range(draw.randint(1, 2)):
            yield "#sweep lose " + " ".join(draw.sample(SERVERS, draw.randint(1, 4)))
        yield "#sweep use targets 3000-3001 for 1000-1001"
        yield "#sweep use secondaries 2100 for 1100"
        yield "#sweep here"
        tried = [self.line(WEIGHTS) for _ in range(draw.randint(1, 4))]
        for _ in range(draw.randint(1, 2)):
            tried.insert(draw.randint(0, len(tried)), f"@run {self.session()} {draw.choice([1, 1, 1, 2])}")
        for line in tried:
            if draw.random() < 0.15:
                yield "#sweep refused"
            yield line
        yield "#sweep then"
        yield from draw.sample([f"@start {name}" for name in SERVERS], draw.randint(1, 5))
        for session in self.members:
            yield f"@recover {session}"


# ---- what is looked at


def rows_of(sweep, lines):
    run = subprocess.run([sweep, "rows"], input=text_of(lines), stdout=subprocess.PIPE, stderr=subprocess.DEVNULL, check=False)
    return run.stdout.decode("latin-1").splitlines(), run.returncode


def written_out(lines, plan, tried):
    """The plan with its parts as lines, and where each line or part stands there."""
    runs = {step.line for step in plan.tried if is_run(step.text)}
    parts = {line: [step for step in tried.tried if step.line == line and step.part] for line in runs}
    made, places = [], {}
    for number, line in enumerate(lines, 1):
        if parts.get(number):
            for step in parts[number]:
                made.append(step.text)
                places[f"{number},{step.part}"] = f"{len(made)},-"
        else:
            made.append(line)
            places.update({f"{number},{part}": f"{len(made)},{part}" for part in ["-", *range(1, 300)]})
    return made, places


def moved(row, places):
    """A row with the names of lines that they have in the plan with the parts written out."""
    *cells, refused = row.split(",")
    text = ",".join(cells[:2] + [places.get(f"{cells[2]},{cells[3]}", "nowhere")] + cells[4:])
    return f"{text},{refused if refused == '-' else places[f'{refused},-'].split(',')[0]}"


def differs_written_out(sweep, lines, plan, tried):
    made, places = written_out(lines, plan, tried)
    (head, *rows), _ = rows_of(sweep, lines)
    (heading, *others), _ = rows_of(sweep, made)
    return [head, *(moved(row, places) for row in rows)] != [heading, *others]


def try_written(sweep, drsim, path):
    """Whether a plan that is a file has other rows with its parts written out."""
    text = Path(path).read_bytes()
    lines = lines_of(text)
    plan = read_plan(lines, drsim.steps(text))
    tried = taken_apart(plan, drsim)
    differs = differs_written_out(sweep, lines, plan, tried)
    rows = len(rows_of(sweep, lines)[0]) - 1
    runs = {step.line for step in plan.tried if is_run(step.text)}
    parts = sum(step.line in runs and step.part > 0 for step in tried.tried)
    print(f"{path}: {parts} parts, {rows} rows, {'others' if differs else 'the same'} with these written out", flush=True)
    return differs


def first_run(drsim, plan, tried):
    """What the first tried `@run` is answered, and how many parts it has."""
    place, run = next((place, step) for place, step in enumerate(plan.tried) if is_run(step.text))
    before = plan.setup + [step.text for step in plan.tried[:place + 1]]
    return drsim.run(before).answers[len(before)][-1], sum(step.line == run.line and step.part > 0 for step in tried.tried)


class Looked:
    """How a plan stands the checks."""

    def __init__(self, sweep, drsim, name, lines):
        with tempfile.TemporaryDirectory() as folder:
            path = Path(folder) / f"{name}.plan"
            path.write_bytes(text_of(lines))
            self.faults = check(sweep, drsim, path)
        text = text_of(lines)
        plan = read_plan(lines_of(text), drsim.steps(text))
        tried = taken_apart(plan, drsim)
        if differs_written_out(sweep, lines, plan, tried):
            print(f"{name}: with the parts written out the rows are others")
            self.faults += 1
        self.said = first_run(drsim, plan, tried)
        self.runs = [sum(part.line == step.line and part.part > 0 for part in tried.tried) for step in plan.tried if is_run(step.text)]


def try_small(sweep, drsim, heads):
    faults, chosen = 0, [(name, lines) for name, lines in small_plans() if name.startswith(heads)]
    for name, lines in chosen:
        looked = Looked(sweep, drsim, name, lines)
        faults += looked.faults
        if SAID.get(name) != looked.said:
            print(f"{name}: its first run comes to {looked.said}, and not to {SAID.get(name)}")
            faults += 1
    _, status = rows_of(sweep, small(SESSION, ["@run 01 10000"]))
    if status != 6:
        print(f"10,000 groups end with {status}")
        faults += 1
    print(f"{len(chosen)} small plans: {faults} faults")
    return int(faults > 0)


def try_random(sweep, drsim, first, count):
    faults, runs, taken = 0, [], 0
    for number in range(first, first + count):
        try:
            looked = Looked(sweep, drsim, f"random-{number}", list(Maker(number).lines()))
        except Fault as fault:
            print(f"random-{number}: {fault}")
            faults += 1
            continue
        taken += 1
        faults += looked.faults
        runs += looked.runs
    print(f"{taken} random plans from {first} on, {len(runs)} runs, {sum(parts > 0 for parts in runs)} of them with parts, {sum(runs)} parts: {faults} faults")
    return int(faults > 0)


def main(words):
    if len(words) == 2 and words[0] == "--plan":
        lines = list(Maker(int(words[1])).lines()) if words[1].isdigit() else dict(small_plans())[words[1]]
        print("\n".join(lines))
        return 0
    if len(words) > 3 and words[0] == "--written":
        return int(sum(try_written(words[1], Drsim(words[2]), path) for path in words[3:]) > 0)
    if len(words) < 2 or words[0].startswith("-"):
        sys.exit(__doc__)
    if len(words) == 4 and words[2].isdigit():
        return try_random(words[0], Drsim(words[1]), int(words[2]), int(words[3]))
    return try_small(words[0], Drsim(words[1]), tuple(words[2:]) or "")


if __name__ == "__main__":
    sys.exit(main(sys.argv[1:]))
