#!/usr/bin/env python3
"""Random scripts over three sites, against what is claimed of them: bench/random_sites.py PROGRAM [COUNT [SEED]]

One to three chains: a host writes on 1X00, Metro Mirror keeps 2X00, and 3X00 with its target 4X00 gets groups from there. In part they are
members of a session, in part beside members whose primaries aren't cascaded (2A00, with 3A00 and 4A00). The first and the third site may be
one server, and the second site may have two. Each script has 60 to 150 lines: host writes, drains, exchanges, messages, groups and aborts; links that go
down, stops, fuses and torn blocks; pauses, freezes, holds, FlashCopy at all sites; second volumes that leave the first site, and pairs that are made anew.
After each line that may begin an attempt, and now and then elsewhere, an image is taken and read. What must be:

- from the first site: if 2X00 is cascaded, and 1X00 is its primary and has it as its secondary, both contain the same on each track that 1X00's record
  doesn't have out of sync;
- the first site lost: 1X00 contains what its acknowledged writes make, or on one track that with a write that is pending. So does its secondary, as long as
  the record of 1X00 says Full Duplex and the secondary has its part;
- both sites lost: at the end, and now and then after a group, the servers of sites one and two stop, those of site three start, and the session is
  recovered. The cut of the group that comes back is the first image in which each member has seen its number. Each target shows what its member contained
  then; and if that was cascaded, what 1X00 contained then, on each track that wasn't unsent there: on all if the pair was Full Duplex with nothing out of
  sync.

It prints what it looked at, and each fault with its script. Outside the gate; PROGRAM is a plain copy or crates/drsim/out/drsim. Ends with 1 if there is a
fault."""
import random
import re
import subprocess
import sys

sys.dont_write_bytecode = True
from image_reader import read_image

NEVER = 4_000_000_000
METRO, COPY = "Metro Mirror", "Global Copy"


class Fault(Exception):
    """Something isn't as it must be."""


class Counts:
    """What was looked at."""

    def __init__(self):
        self.scripts = self.lines = self.images = self.cascaded = self.recording = self.full_duplex = self.groups = self.clean_groups = self.mixed_groups = 0

    def text(self):
        return (f"{self.scripts} scripts of {self.lines} lines, {self.images} images, {self.cascaded} cascaded volumes and {self.recording} recording ones, "
                f"{self.full_duplex} Full Duplex pairs, {self.groups} groups, {self.clean_groups} of them with clean first pairs, {self.mixed_groups} mixed")


def shown_by(answer):
    """The track that `@show` has printed; none if it was refused."""
    found = re.fullmatch(r"ok (-|[0-9A-F]+)", answer)
    return bytes.fromhex(found[1].replace("-", "")).ljust(64, b"\0") if found else None


class Script:
    """A script that runs as it is made."""

    def __init__(self, program):
        self.lines = []
        self.process = subprocess.Popen([program, "run"], stdin=subprocess.PIPE, stdout=subprocess.PIPE, text=True, bufsize=1)

    def do(self, line):
        """The answer of a line of one step, and what is printed before it without a number."""
        self.lines.append(line)
        self.process.stdin.write(f"{line}\n")
        self.process.stdin.flush()
        before = []
        while True:
            printed = self.process.stdout.readline().rstrip("\n")
            number, _, answer = printed.partition(" ")
            if not number:
                raise Fault(f"the program ended at {line}")
            if number == str(len(self.lines)):
                return answer, before
            before.append(printed)

    def end(self):
        self.process.stdin.close()
        self.process.stdout.close()
        self.process.wait()


class Hosts:
    """What hosts have written on each volume, and what is pending."""

    def __init__(self, tracks):
        self.tracks = tracks
        self.pending, self.shown, self.issued = {}, {}, 0

    def of(self, volume):
        return self.shown.setdefault(volume, [bytes(64)] * self.tracks)

    @staticmethod
    def laid(track, offset, data):
        return track[:offset] + data + track[offset + len(data):]

    def hear(self, line, answer):
        word, *rest = line.split(" ")
        number = None
        if word in ("@write", "@issue") and not re.match(r"E0[124] |E23 ", answer):
            self.issued += 1
            number = self.issued
            self.pending[number] = (rest[0], int(rest[1]), int(rest[2]), bytes.fromhex(rest[3]))
        elif word == "@apply" and not answer.startswith("E02 "):
            number = int(rest[0])
        acknowledged = re.fullmatch(r"ok(?: acked)? w(\d+)", answer)
        if acknowledged and word != "@issue":
            if number is not None and number != int(acknowledged[1]):
                raise Fault(f"{line} answers {answer}, and write {number} was meant")
            volume, track, offset, data = self.pending.pop(int(acknowledged[1]))
            self.of(volume)[track] = self.laid(self.of(volume)[track], offset, data)
        elif number is not None and re.match(r"E08 |E09 |E11 ", answer):
            del self.pending[number]

    def fault_of(self, volume, contains):
        """How what a volume contains isn't what the writes on another one make, but for one write in flight."""
        wrong = [t for t, (ours, theirs) in enumerate(zip(self.of(volume), contains)) if ours != theirs]
        if not wrong:
            return None
        t = wrong[0]
        flying = [self.laid(self.of(volume)[t], offset, data) for of, track, offset, data in self.pending.values() if (of, track) == (volume, t)]
        if len(wrong) > 1 or contains[t] not in flying:
            return f"tracks {wrong} aren't what the writes on {volume} make: {[contains[t].hex() for t in wrong]}"
        return None


class Chain:
    """The volumes of a chain, or of a member that isn't cascaded, which has no first one."""

    def __init__(self, digit, cascades):
        self.digit, self.cascades = digit, cascades
        self.first, self.second, self.third, self.target = (f"{site}{digit}00" for site in range(1, 5))
        self.is_member = True

    def written(self):
        return self.first if self.cascades else self.second


class Plant:
    """The servers, volumes and pairs of a script, and the session if it has one."""

    def __init__(self, draw):
        self.tracks = draw.choice([2, 3, 3, 4])
        self.chains = [Chain(str(digit), True) for digit in range(draw.randint(1, 3))]
        self.one, self.three = draw.choice([("A", "C"), ("A", "C"), ("A", "A")])
        self.second_of = {chain.digit: draw.choice(["B", "B2"]) for chain in self.chains}
        if draw.random() < 0.35:
            self.chains.append(Chain("A", False))
            self.second_of["A"] = draw.choice(["B", "B2"])
        for chain in self.chains:
            chain.is_member = draw.random() < 0.85
        self.members = [chain for chain in self.chains if chain.is_member]
        self.servers = list(dict.fromkeys([self.one, *self.second_of.values(), self.three, "M"]))
        self.near = [name for name in self.servers if name not in (self.three, "M")] + [self.one]
        self.group_path = draw.random() < 0.3
        self.master = draw.choice(["50", "50", self.chains[0].second[:2], self.chains[0].third[:2]])
        self.modes = draw.choice(["nocp", "nocp", "full"])

    def path(self, source, target):
        flag = "-consistgrp " if self.group_path and source[0] == "1" else ""
        return f"mkpprcpath -srclss {source[:2]} -tgtlss {target[:2]} {flag}I0000:I0100"

    def paths(self):
        return [self.path(*pair) for chain in self.chains for pair in self.pairs_of(chain)]

    @staticmethod
    def pairs_of(chain):
        return ([(chain.first, chain.second)] if chain.cascades else []) + [(chain.second, chain.third)]

    def links(self):
        seconds = sorted(set(self.second_of.values()))
        return [(a, b) for a in dict.fromkeys((self.one, self.three)) for b in seconds] + [("M", name) for name in seconds]

    def define(self):
        lines = [f"@server {name}" for name in self.servers] + ["@volume 5000 M 1"]
        for chain in self.chains:
            second = self.second_of[chain.digit]
            if chain.cascades:
                lines += [f"@volume {chain.first} {self.one} {self.tracks}", f"@volume 1{chain.digit}01 {self.one} {self.tracks}"]
            lines += [f"@volume {chain.second} {second} {self.tracks}", f"@volume 2{chain.digit}01 {second} {self.tracks}"]
            lines += [f"@volume {volume} {self.three} {self.tracks}" for volume in (chain.third, chain.target, f"3{chain.digit}01")]
        lines += self.paths()
        for chain in self.chains:
            lines += self.pairs_made(chain, self.modes)
            lines += [f"mkflash -tgtinhibit -record -nocp {chain.third}:{chain.target}"]
        if self.members:
            for chain in self.members:
                lines += [f"mksession -lss {chain.second[:2]} 01", f"chsession -lss {chain.second[:2]} -action add -volume {chain.second} 01"]
            if self.master not in [chain.second[:2] for chain in self.members]:
                lines.append(f"mksession -lss {self.master} 01")
            lines.append(f"mkgmir -lss {self.master} -session 01")
        return lines

    @staticmethod
    def pairs_made(chain, mode):
        if not chain.cascades:
            return [f"mkpprc -type gcp -mode {mode} {chain.second}:{chain.third}"]
        return [f"mkpprc -type mmir -mode {mode} {chain.first}:{chain.second}", f"mkpprc -type gcp -mode {mode} -cascade {chain.second}:{chain.third}"]


class Maker:
    """Makes a script line by line, and looks at its images."""

    def __init__(self, program, seed, counts):
        self.draw = random.Random(seed)
        self.program, self.counts = program, counts
        self.plant = Plant(self.draw)
        self.script = Script(program)
        self.hosts = Hosts(self.plant.tracks)
        self.messages = 0
        self.cuts, self.known = {}, 0

    def say(self, line):
        answer, before = self.script.do(line)
        self.hosts.hear(line, answer)
        if re.fullmatch(r"ok m\d+", answer):
            self.messages = int(answer[4:])
        if line.startswith(("@exchange", "@send", "@deliver", "@run")):
            self.look()
        return answer, before

    def look(self):
        """Takes an image, and looks at the first two claims and at the cuts."""
        answer, lines = self.script.do("@image")
        if answer != "ok":
            raise Fault(f"@image answers {answer}")
        volumes = read_image(lines[1:-1])
        self.counts.images += 1
        for chain in self.plant.chains:
            if chain.cascades:
                self.look_at(volumes[chain.first], volumes[chain.second], volumes)
        if self.plant.members:
            for number in range(self.known + 1, min(volumes[chain.second].attempt for chain in self.plant.members) + 1):
                self.cuts[number] = volumes
                self.known = number

    def look_at(self, first, second, volumes):
        fault = self.hosts.fault_of(first.name, first.contains)
        if fault:
            raise Fault(f"{first.name}: {fault}")
        if first.is_primary_of(second, METRO) and second.is_secondary_of(first, METRO):
            if second.primary:
                self.counts.cascaded += not second.records
                self.counts.recording += second.records
                differ = [t for t in range(self.plant.tracks) if t not in first.unsent and first.contains[t] != second.contains[t]]
                if differ:
                    raise Fault(f"{second.name}, cascaded, differs from {first.name} on {differ}, which aren't out of sync")
            if first.state == "Full Duplex":
                self.counts.full_duplex += 1
                fault = self.hosts.fault_of(first.name, second.contains)
                if fault:
                    raise Fault(f"{second.name}, of a Full Duplex pair: {fault}")
        # What the pair of the second volume says of the third one is a claim over two sites, and is looked at, too.
        third = volumes["3" + second.name[1:]]
        if second.is_primary_of(third, COPY) and third.is_secondary_of(second, COPY):
            differ = [t for t in range(self.plant.tracks) if t not in second.unsent and second.contains[t] != third.contains[t]]
            if differ:
                raise Fault(f"{third.name} differs from {second.name} on {differ}, which aren't unsent")

    def lose_both(self):
        """The first two sites are lost after the lines so far, in a run of its own, and the session is recovered at the third."""
        plant = self.plant
        behind = [f"@stop {name} after {NEVER} torn none" for name in plant.servers] + [f"@stop {name}" for name in plant.near]
        behind += [f"@start {plant.three}", "@recover 01"] + [f"@show {chain.target} {t}" for chain in plant.members for t in range(plant.tracks)]
        lines = [line for line in self.script.lines if line != "@image"] + behind
        text = "".join(f"{line}\n" for line in lines)
        printed = subprocess.run([self.program, "run"], input=text, capture_output=True, text=True, check=False).stdout
        answers = dict(line.split(" ", 1) for line in printed.splitlines())
        at = len(lines) - plant.tracks * len(plant.members)
        try:
            self.judge(answers.get(str(at), "nothing"), [shown_by(answers.get(str(number), "")) for number in range(at + 1, len(lines) + 1)])
        except Fault:
            self.script.lines += behind
            raise

    def judge(self, answer, shown):
        """Looks at the answer of a recovery, and at what the targets show after it."""
        plant = self.plant
        found = re.fullmatch(r"ok group (\d+) \w+\(.*\)", answer)
        if not found:
            if not answer.startswith("E22 "):
                raise Fault(f"@recover answers {answer}")
            return
        group = int(found[1])
        if group not in self.cuts:
            raise Fault(f"group {group} comes back, and no image has its cut")
        self.counts.groups += 1
        cut = self.cuts[group]
        clean = []
        for place, chain in enumerate(plant.members):
            of_target = shown[place * plant.tracks:(place + 1) * plant.tracks]
            second = cut[chain.second]
            if chain.cascades:
                first = cut[chain.first]
                stands = first.is_primary_of(second, METRO) and second.is_secondary_of(first, METRO)
                clean.append(stands and first.state == "Full Duplex" and not first.unsent)
                if stands:
                    self.compare(group, chain.target, of_target, first, first.unsent)
            self.compare(group, chain.target, of_target, second, set())
        self.counts.clean_groups += bool(clean) and all(clean)
        self.counts.mixed_groups += bool(clean) and len(clean) < len(plant.members)

    @staticmethod
    def compare(group, target, shown, volume, without):
        differ = [t for t, track in enumerate(shown) if t not in without and track != volume.contains[t]]
        if differ:
            raise Fault(f"{target} shows group {group}, and differs on {differ} from what {volume.name} contained at its cut")

    def lines(self):
        """The next lines, as a list."""
        draw, plant = self.draw, self.plant
        chain = draw.choice(plant.chains)
        kind = draw.choices(list(WEIGHTS), list(WEIGHTS.values()))[0]
        pair = ":".join(draw.choice(plant.pairs_of(chain)))
        server = draw.choice(plant.servers)
        member_server = draw.choice([plant.second_of[member.digit] for member in plant.members] or ["B"])
        if kind == "write":
            return [self.write(draw.choice(["@write"] * 9 + ["@issue"]), chain)]
        if kind == "apply":
            return [f"@apply {number}" for number in draw.sample(sorted(self.hosts.pending), min(len(self.hosts.pending), 2))]
        if kind == "drain":
            return [f"@drain {pair[:4]} {draw.choice(['all', 'all', '1'])}"]
        if kind == "exchange":
            return [f"@exchange 01 {member_server}{draw.choice(['', '', '', ' noreply'])}"] * draw.choice([1, 1, 2])
        if kind == "attempt":
            return self.attempt(chain)
        if kind == "send":
            return self.travel(member_server)
        if kind in ("deliver", "lose"):
            return [f"@{kind} {draw.randint(max(1, self.messages - 5), self.messages + 1)}"] if self.messages else []
        if kind in SIMPLE:
            return [SIMPLE[kind].format(server=server, pair=pair, lss=f"{pair[:2]}:{pair[5:7]}", master=plant.master, chain=chain)]
        if kind == "fuse":
            torn = draw.choice(["none", "00", "01", f"{draw.randrange(256):02X}", draw.randbytes(64).hex().upper()])
            return [f"@stop {server} after {draw.randrange(40)} torn {torn}"]
        if kind == "link":
            a, b = draw.choice(plant.links())
            return [f"@link {a} {b} {draw.choice(['down', 'up'])}"]
        if kind == "resume":
            return [f"resumepprc -type {'mmir' if pair[0] == '1' else 'gcp'} {pair}"]
        if kind == "freeze":
            lss = f"{pair[:2]}:{pair[5:7]}"
            return [f"freezepprc {lss}"] + draw.choice([[f"unfreezepprc {lss}"], []])
        if kind == "leave":
            return [f"failoverpprc -type mmir {chain.second}:{chain.first}"] if chain.cascades else []
        if kind == "flash":
            return self.flash(chain)
        if kind == "mend":
            return self.mend()
        return self.remake(chain) if kind == "remake" else []

    def write(self, word, chain):
        volume = chain.written() if self.draw.random() < 0.95 else chain.second
        track = self.draw.choice([0, 0, 1, self.draw.randrange(self.plant.tracks)])
        return f"{word} {volume} {track} {self.draw.choice([0, 0, 2, 60])} {self.hosts.issued + 1:08X}"

    def travel(self, server):
        """An order that is sent, and mostly comes, as does its reply."""
        yield f"@send 01 {server}"
        for _ in range(2):
            if self.messages and self.draw.random() < 0.8:
                yield f"@deliver {self.messages}"

    def attempt(self, chain):
        """An attempt with writes and drains within it, some of which collide or meet a hold."""
        draw, chains = self.draw, [member for member in self.plant.chains if member.cascades]
        seconds = sorted({self.plant.second_of[member.digit] for member in self.plant.members})
        drained = draw.choice(chains)
        drain = f"@drain {drained.first} {draw.choice(['1', 'all'])}"
        lines = [self.write("@write", chain)]
        if draw.random() < 0.5:
            pair = f"{drained.first}:{drained.second}"
            lines.append(f"pausepprc {pair}")
            lines += [f"@write {drained.first} {t} 0 {draw.randbytes(4).hex().upper()}" for t in range(self.plant.tracks)]
            lines.append(f"resumepprc -type mmir {pair}")
        for _ in range(2):
            for name in seconds:
                lines += [f"@exchange 01 {name}"] + [self.write("@write", draw.choice(self.plant.chains)) for _ in range(draw.choice([0, 0, 1, 2]))]
                lines += [drain] * draw.choice([0, 0, 1])
        lines += [f"@write {chain.written()} {t} 1 {draw.randbytes(3).hex().upper()}" for t in range(self.plant.tracks)]
        lines += [drain] * draw.choice([0, 1])
        return lines[:draw.choice([len(lines), draw.randint(2, len(lines))])] + draw.choice([["@run 01 1"], ["@run 01 1"], []])

    def last_attempt(self):
        """After all is mended a last attempt goes as far as it happens to come."""
        draw, plant = self.draw, self.plant
        seconds = sorted({plant.second_of[member.digit] for member in plant.members})
        yield from self.mend()
        for chain in plant.chains:
            yield self.write("@write", chain)
        turns = draw.randint(0, 9)
        for turn in range(turns):
            if turn in (2, 3):
                yield from (f"@drain {chain.second} all" for chain in plant.members)
            if draw.random() < 0.3:
                yield self.write("@write", draw.choice(plant.chains))
            if draw.random() < 0.08:
                yield f"@stop {draw.choice(plant.servers)} after {draw.randrange(20)} torn {draw.choice(['none', '00', '01'])}"
            yield from (f"@exchange 01 {name}" for name in (seconds[:1] if turn == turns - 1 and draw.random() < 0.6 else seconds))

    def flash(self, chain):
        site = self.draw.choice("123" if chain.cascades else "23")
        volumes = f"{site}{chain.digit}00:{site}{chain.digit}01"
        return [self.draw.choice([f"mkflash -nocp {volumes}", f"mkflash -persist {volumes}", f"mkflash -freeze -record -persist {volumes}",
                                  f"rmflash {volumes}",
                                  f"@copy {volumes[5:]} 1", f"unfreezeflash {site}{chain.digit}", f"resyncflash {volumes}", f"mkflash -nocp {volumes}"])]

    def mend(self):
        """What an operator does until all goes on."""
        plant = self.plant
        lines = [f"@start {name}" for name in plant.servers] + [f"@link {a} {b} up" for a, b in plant.links()] + plant.paths()
        for chain in plant.chains:
            for pair in plant.pairs_of(chain):
                lines.append(f"resumepprc -type {'mmir' if pair[0][0] == '1' else 'gcp'} {':'.join(pair)}")
        if plant.members:
            lines += ["@run 01 1", "@abort 01"]
        lines += [f"@drain {chain.first} all" for chain in plant.chains if chain.cascades]
        return lines + (["@run 01 1"] if plant.members else [])

    def remake(self, chain):
        """The pairs of a chain that is in no session are made anew, from the first site."""
        if chain.is_member or not chain.cascades:
            return []
        lines = [f"rmpprc -unconditional -at src {a}:{b}" for a, b in
                 ((chain.second, chain.third), (chain.second, chain.first), (chain.first, chain.second))]
        lines += [f"failoverpprc -type gcp {chain.third}:{chain.second}", f"rmpprc -unconditional -at src {chain.third}:{chain.second}"]
        mode = self.draw.choice(["full", "full", "nocp"])
        made = self.plant.pairs_made(chain, mode)
        return lines + [made[0], f"@drain {chain.first} all", made[1]] + self.draw.choice([[f"@drain {chain.second} all"], []])

    def make(self):
        for line in self.plant.define():
            answer, _ = self.script.do(line)
            if not answer.startswith("ok"):
                raise Fault(f"{line} answers {answer}")
        for chain in self.plant.chains:
            self.say(self.write("@write", chain))
        if self.plant.members:
            for _ in range(2):
                for chain in self.plant.chains:
                    for pair in self.plant.pairs_of(chain):
                        self.say(f"@drain {pair[0]} all")
            self.say("@run 01 1")
        count = self.draw.randint(60, 150)
        made = 0
        while made < count:
            for line in self.lines():
                answer, _ = self.say(line)
                made += 1
                if answer.startswith("E21") or self.draw.random() < 0.25:
                    self.look()
                if self.plant.members and re.match(r"ok (Idle|Finishing|Committing) ", answer) and self.draw.random() < 0.5:
                    self.lose_both()
                if answer.startswith(("E05", "E06", "E07", "E10", "E16", "E17")) and self.draw.random() < 0.05:
                    for mending in self.mend():
                        self.say(mending)
                        made += 1
                if made >= count:
                    break
        if self.plant.members and self.draw.random() < 0.6:
            for line in self.last_attempt():
                self.say(line)
        self.look()
        if self.plant.members:
            self.lose_both()


# How often each kind of line comes.
WEIGHTS = {"write": 24, "apply": 6, "drain": 10, "exchange": 12, "attempt": 8, "send": 5, "deliver": 10, "lose": 1, "run": 5, "abort": 1.5, "stop": 1,
           "fuse": 5, "start": 5, "link": 2, "pause": 1.5, "resume": 3, "freeze": 1, "thaw": 1, "leave": 0.25, "expire": 0.7, "flash": 4, "mend": 1.5,
           "remake": 1.5, "destage": 1, "halt": 0.3, "go": 0.6}
SIMPLE = {"run": "@run 01 1", "abort": "@abort 01", "stop": "@stop {server}", "start": "@start {server}", "pause": "pausepprc {pair}",
          "thaw": "unfreezepprc {lss}", "expire": "@expire {server}", "destage": "@destage {chain.second}", "halt": "pausegmir -lss {master} -session 01",
          "go": "resumegmir -lss {master} -session 01"}


def main(words):
    if not 1 <= len(words) <= 3:
        sys.exit(__doc__)
    program = words[0]
    count = int(words[1]) if len(words) > 1 else 200
    first = int(words[2]) if len(words) > 2 else 0
    counts, bad = Counts(), 0
    for seed in range(first, first + count):
        maker = Maker(program, seed, counts)
        try:
            maker.make()
        except Fault as fault:
            bad += 1
            print(f"seed {seed}: {fault}")
            print("".join(f"    {line}\n" for line in maker.script.lines), end="")
        finally:
            counts.scripts += 1
            counts.lines += len(maker.script.lines)
            maker.script.end()
    print(f"{counts.text()}; {bad} faults")
    return 1 if bad else 0


if __name__ == "__main__":
    sys.exit(main(sys.argv[1:]))
