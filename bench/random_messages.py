#!/usr/bin/env python3
"""Random scripts of control messages, against what is promised: bench/random_messages.py [FIRST [COUNT [PROGRAM]]]

Each script is made line by line, by what the program has answered so far. One or two sessions are formed by exchanges and by messages, which
come late, twice, in another order, or never, while servers stop, links go down, masters are lost and dismissed, and the second site is
recovered. One host writes in order, and issues nothing while a write of its waits. What must be:

- each line on a message is answered as the rules say (`messages_model.py`): which message is unknown or old, which server is off, which
  master and link are asked, who is owed an order, and the number of each message;
- wherever the first site is lost, each session recovers, to no older group than before and than what was committed in full; a second recovery
  gives the same; and its targets show what the host's acknowledged writes were at one moment.

Outside the gate. The program is crates/drsim/out/drsim (`rt run` leaves it there). Ends with 1 where something is otherwise; the script is
left as random-messages-N.dscli then."""
import random
import re
import subprocess
import sys
from pathlib import Path

from messages_model import WORK, Model

PROGRAM = Path(__file__).resolve().parent.parent / "crates" / "drsim" / "out" / "drsim"
SERVERS = ("A1", "A2", "B1", "B2", "M")
TRACKS = 2
LINES = 160
PLANT = """@server A1
@server A2
@server B1
@server B2
@server M
@volume 1000-1002 A1 2
@volume 1100-1101 A2 2
@volume 2000-2002 B1 2
@volume 2100-2101 B2 2
@volume 3000-3002 B1 2
@volume 3100-3101 B2 2
@volume 4000 M 1
mkpprcpath -srclss 10 -tgtlss 20 I0000:I0100
mkpprcpath -srclss 11 -tgtlss 21 I0000:I0100
mkpprc -type gcp -mode nocp 1000-1002:2000-2002 1100-1101:2100-2101
mkflash -record -tgtinhibit -nocp 2000-2002:3000-3002 2100-2101:3100-3101
mksession -lss 10 -volume 1000-1001 01
mksession -lss 11 -volume 1100 01
mksession -lss 10 -volume 1002 02
mksession -lss 11 -volume 1101 02
"""
MEMBERS = {"01": ("1000", "1001", "1100"), "02": ("1002", "1101")}
SUBSYSTEMS = {"A1": "10", "B1": "20", "M": "40"}
NEVER = 4_000_000_000


def target(volume):
    return f"3{volume[1:]}"


class Fault(Exception):
    """Something isn't as it must be."""


class Script:
    """A script that runs as it is made, and its lines so far."""

    def __init__(self, program, text):
        self.lines = text.splitlines()
        self.process = subprocess.Popen([program, "run"], stdin=subprocess.PIPE, stdout=subprocess.PIPE, text=True, bufsize=1)
        self.process.stdin.write(text)
        self.do("@compare 1000 1000")

    def do(self, line):
        """The answer of a line of one step; what comes before it is passed over."""
        self.lines.append(line)
        self.process.stdin.write(f"{line}\n")
        self.process.stdin.flush()
        while True:
            number, _, answer = self.process.stdout.readline().rstrip("\n").partition(" ")
            if not number:
                raise Fault(f"the program ended at {line}")
            if int(number) == len(self.lines) and re.match(r"ok\b|held |E\d\d ", answer):
                return answer

    def end(self):
        self.process.stdin.close()
        self.process.wait()


class Host:
    """One host, whose writes come one after another; each writes its own number."""

    def __init__(self):
        self.acknowledged = []
        self.waits = None
        self.issued = 0

    def next_line(self, draw):
        if self.waits:
            return f"@apply {self.waits[0]}"
        volume = draw.choice([v for vs in MEMBERS.values() for v in vs])
        return f"@write {volume} {draw.randrange(TRACKS)} 0 {self.issued + 1:08X}"

    def hears(self, line, answer):
        word, *rest = line.split(" ")
        if word == "@write":
            self.issued += 1
            self.waits = (self.issued, rest[0], int(rest[1]))
        acknowledged = re.fullmatch(r"ok(?: acked)? w(\d+)", answer)
        if acknowledged:
            number, volume, track = self.waits
            if int(acknowledged[1]) != number:
                raise Fault(f"{line} acknowledges {answer}, and {number} waits")
            self.acknowledged.append((number, volume, track))
            self.waits = None
        elif word in ("@write", "@apply") and not re.match(r"held |E05|E21", answer):
            raise Fault(f"{line} answers {answer}")

    def moments(self, volumes):
        """What the volumes showed between any two writes."""
        shown = {(volume, track): "-" for volume in volumes for track in range(TRACKS)}
        seen = [tuple(shown.values())]
        for number, volume, track in self.acknowledged:
            if volume in volumes:
                shown[volume, track] = re.sub("(00)+$", "", f"{number:08X}")
                seen.append(tuple(shown.values()))
        return seen


def shows_of(session):
    return [f"@show {target(volume)} {track}" for volume in MEMBERS[session] for track in range(TRACKS)]


def lost(program, lines, sessions):
    """The answers where the first site is lost behind these lines: of each session its recovery, its shows, and the recovery again."""
    behind = [f"@stop {server} after {NEVER} torn none" for server in SERVERS]
    behind += ["@stop A1", "@stop A2", "@stop M", "@start B1", "@start B2"]
    for session in sessions:
        behind += [f"@recover {session}", *shows_of(session), f"@recover {session}"]
    text = "".join(f"{line}\n" for line in lines + behind)
    printed = subprocess.run([program, "run"], input=text, capture_output=True, text=True, check=False).stdout
    answers = dict(line.split(" ", 1) for line in printed.splitlines())
    place = len(lines) + len(behind) - sum(len(shows_of(session)) + 2 for session in sessions) + 1
    found = {}
    for session in sessions:
        count = len(shows_of(session)) + 2
        found[session] = [answers[str(place + at)] for at in range(count)]
        place += count
    return found


def check_loss(program, script, host, groups):
    """Each session recovers; `groups` has the least group that each may give."""
    for session, (first, *shown, again) in lost(program, script.lines, groups).items():
        match = re.fullmatch(r"ok group (\d+) \w+\(.*\)", first)
        if not match or int(match[1]) < groups[session]:
            raise Fault(f"session {session} recovers with {first}, behind group {groups[session]}")
        if not again.startswith(f"ok group {match[1]} "):
            raise Fault(f"session {session} recovers with {first}, and then with {again}")
        if tuple(answer.removeprefix("ok ") for answer in shown) not in host.moments(MEMBERS[session]):
            raise Fault(f"the targets of session {session} show {shown} at group {match[1]}: no moment of the host")
        groups[session] = int(match[1])


class Maker:
    """Makes a script, line by line."""

    def __init__(self, program, seed):
        self.program = program
        self.draw = random.Random(seed)
        self.sessions = ["01", "02"] if self.draw.random() < 0.4 else ["01"]
        masters = {session: self.draw.choice(list(SUBSYSTEMS)) for session in self.sessions}
        text = PLANT
        for session, server in masters.items():
            if SUBSYSTEMS[server] != "10":
                text += f"mksession -lss {SUBSYSTEMS[server]} {session}\n"
            text += f"mkgmir -lss {SUBSYSTEMS[server]} -session {session}\n"
        self.script = Script(program, text)
        self.host = Host()
        self.model = Model(SERVERS, masters, ("A1", "A2"))
        self.groups = {}
        for session in self.sessions:
            self.say(self.host.next_line(self.draw))
            self.say(f"@run {session} 1")
            self.groups[session] = 1

    def say(self, line):
        """A line, whose answer is what the model says, and which the host hears."""
        self.model.before(line)
        answer = self.script.do(line)
        fault = self.model.after(line, answer)
        if fault:
            raise Fault(f"line {len(self.script.lines)}: {line} answers {answer}: {fault}")
        self.host.hears(line, answer)
        if self.model.wants_look(line, answer):
            self.look()
        return answer

    def look(self):
        """Which servers are on, and the phase of each master."""
        on = {server: self.script.do(f"@compare {volume} {volume}") == "ok"
              for server, volume in zip(SERVERS, ("1000", "1100", "2000", "2100", "4000"))}
        self.model.saw_servers(on)
        for session in self.sessions:
            server = self.model.sessions[session].master
            if server:
                self.model.saw_phase(session, self.phase_of(session, server))

    def phase_of(self, session, server):
        """What a listing says of a master."""
        self.script.lines.append(f"showgmir {SUBSYSTEMS[server]}")
        self.script.process.stdin.write(self.script.lines[-1] + "\n")
        self.script.process.stdin.flush()
        phase = None
        while True:
            _, _, told = self.script.process.stdout.readline().rstrip("\n").partition(" ")
            if told == "ok":
                return phase
            if told.startswith(f"{session} "):
                _, _, name, number, _ = told.split(" ")
                phase = (name, int(number))

    def line(self):
        draw, model = self.draw, self.model
        session = draw.choice(self.sessions)
        server = draw.choice(["A1", "A2"])
        kind = draw.choices(list(WEIGHTS), list(WEIGHTS.values()))[0]
        if kind == "write":
            return self.host.next_line(draw)
        if kind == "drain":
            return f"@drain {draw.choice(MEMBERS[session])} all"
        if kind == "exchange":
            return f"@exchange {session} {server}{draw.choice(['', '', '', ' noreply'])}"
        if kind == "send":
            return f"@send {session} {server}"
        if kind == "forward":
            return self.line_forward(session, server)
        if kind in ("deliver", "lose"):
            return f"@{kind} {self.number()}"
        if kind == "abort" and model.sessions[session].phase in draw.choice([("Flashing", "Committing"), tuple(WORK)]):
            return f"@abort {session}"
        if kind == "run" and model.sessions[session].phase != "Lost":
            return f"@run {session} 1"
        if kind == "stop":
            return f"@stop {draw.choice(SERVERS)}"
        if kind == "fuse":
            return f"@stop {draw.choice(SERVERS)} after {draw.randrange(30)} torn {draw.choice(['none', '00', '01'])}"
        if kind == "start":
            off = [name for name in SERVERS if not model.on[name]]
            return f"@start {draw.choice(off or SERVERS)}"
        if kind == "link":
            return f"@link {draw.choice(['A1', 'A2'])} {draw.choice(['B1', 'B2', 'M'])} {draw.choice(['up', 'up', 'down'])}"
        if kind == "master":
            return self.line_on_master(session)
        return None

    def line_forward(self, session, server):
        """What moves an attempt on: before a seal what is left to send, and then the order itself, carried out at once or on its way."""
        of = self.model.sessions[session]
        if of.phase == "Draining" and self.draw.random() < 0.6:
            return f"@drain {self.draw.choice(MEMBERS[session])} all"
        owed = [name for name, is_owed in of.owed.items() if is_owed is not False]
        return f"@{self.draw.choice(['exchange', 'send'])} {session} {self.draw.choice(owed or [server])}"

    def number(self):
        """The number of a message: a recent one, an order of an attempt that is over, or one that comes seldom; now and then one that
        isn't in flight."""
        draw, made = self.draw, self.model.made
        if draw.random() < 0.5:
            return draw.randrange(max(0, made - 4), made + 2)
        older = self.model.of_older_attempts()
        if older and draw.random() < 0.4:
            return draw.choice(older)
        flying = list(self.model.messages)
        weights = [SELDOM.get(message.order[0], 1) for message in self.model.messages.values()]
        return draw.choices(flying, weights)[0] if flying else 1

    def line_on_master(self, session):
        """A master is dismissed, appointed, paused or resumed."""
        master = self.model.sessions[session]
        if not master.master:
            return f"mkgmir -lss {SUBSYSTEMS[master.home]} -session {session}"
        word = self.draw.choice(["rmgmir", "pausegmir", "resumegmir"])
        return f"{word} -lss {SUBSYSTEMS[master.home]} -session {session}"

    def recover(self):
        """The second site is recovered while the first one goes on, and the pairs are failed back."""
        for server in ("B1", "B2"):
            self.say(f"@start {server}")
        for session in self.sessions:
            self.say(f"@recover {session}")
        for volume in (v for session in self.sessions for v in MEMBERS[session]):
            self.say(f"failbackpprc -type gcp {volume}:2{volume[1:]}")

    def mend(self, answer):
        """What an operator does about a refusal: pairs are resumed, and attempts that can't end are aborted."""
        if answer.startswith("E10 ") and self.draw.random() < 0.5:
            for volume in (v for session in self.sessions for v in MEMBERS[session]):
                self.say(f"resumepprc -type gcp {volume}:2{volume[1:]}")
        if answer.startswith(("E07 ", "E16 ", "E17 ")) and self.draw.random() < 0.3:
            for session in self.sessions:
                self.say(f"@abort {session}")

    def make(self):
        for _ in range(LINES):
            if self.draw.random() < 0.01:
                self.recover()
            line = self.line()
            if not line:
                continue
            self.mend(self.say(line))
            committed = self.model.committed()
            for session, number in committed:
                self.groups[session] = max(self.groups[session], number)
            if committed or self.draw.random() < 0.03:
                check_loss(self.program, self.script, self.host, self.groups)
        check_loss(self.program, self.script, self.host, self.groups)


# How often each kind of line comes, and how much oftener a message is chosen where its order is one that comes seldom.
WEIGHTS = {"write": 25, "drain": 5, "exchange": 6, "send": 10, "forward": 40, "deliver": 40, "lose": 2, "abort": 3, "run": 1, "stop": 0.8, "fuse": 1.5,
           "start": 5, "link": 1.5, "master": 1}
SELDOM = {"Commit": 8, "Revert": 8, "Flash": 5, "Seal": 3, "Report": 2}


def main(words):
    first = int(words[0]) if words else 0
    count = int(words[1]) if len(words) > 1 else 200
    program = words[2] if len(words) > 2 else PROGRAM
    lines = messages = bad = 0
    for seed in range(first, first + count):
        maker = None
        try:
            maker = Maker(program, seed)
            maker.make()
        except Fault as fault:
            bad += 1
            print(f"seed {seed}: {fault}")
            if maker:
                Path(f"random-messages-{seed}.dscli").write_text("".join(f"{line}\n" for line in maker.script.lines), encoding="utf-8")
        finally:
            if maker:
                lines += len(maker.script.lines)
                messages += maker.model.made
                maker.script.end()
    print(f"{count} scripts of {lines} lines, {messages} messages, {bad} faults")
    return 1 if bad else 0


if __name__ == "__main__":
    sys.exit(main(sys.argv[1:]))
