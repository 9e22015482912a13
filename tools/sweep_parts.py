"""Tried `@run`s of a plan, taken apart into the drains and exchanges to which they come in the calm run, by runs of `drsim` alone.

After the lines so far it is asked what comes next (`Walk`). Lines `@exchange SS NAME` of all servers, in order of definition, tell who is asked:
the first one that isn't answered `E15`, since such an answer leaves all as it is. `showgmir` tells the phase, `lspprc` which members are in Copy
Pending, `lssession` which volumes are members. A group has counted where the phases went from Committing to Finishing, and from there to Idle.

Then each set of parts is compared with its `@run` (`compare`): after both all listings and images are the same, each part but the last is ok,
and the last one is answered as the `@run` is. If that one ends with `E15`, since nobody is left to ask, the last part is ok.
"""
import re
from dataclasses import dataclass, replace

from plan_text import Tried, items, options_of, span, steps_of, words_of
from sweep_runs import Fault, Script, member_asks, phase_asks, phase_in, sessions_of

MOST_GROUPS = 10_000
COUNTED = re.compile("CF+I")  # the phases that an attempt goes through which counts
LETTERS = {"Committing": "C", "Finishing": "F", "Idle": "I"}


def is_run(line):
    return words_of(line)[:1] == ["@run"]


def steps_done(lines, answers):
    """The steps of lines that were carried out, each as a line, with their answers."""
    for number, line in enumerate(lines, 1):
        found = answers.get(number, [])
        yield from zip(steps_of(line) if len(found) > 1 else [line] * len(found), found, strict=True)


def joined(lines, answers):
    """The primaries of the members of each session, in the order in which they were added."""
    found = {}
    for line, answer in steps_done(lines, answers):
        words = words_of(line)
        if words[0] != "chsession" or answer != "ok":
            continue
        options, operands = options_of(words)
        members = found.setdefault(operands[0].upper(), [])
        if options["-action"] == "add":
            members += items(options["-volume"])
        else:
            members.remove(*items(options["-volume"]))
    return found


def servers_of(lines, answers):
    """The servers in order of definition, and the server of each volume."""
    servers, volumes = [], {}
    for line, answer in steps_done(lines, answers):
        words = words_of(line)
        if words[0] == "@server" and answer == "ok":
            servers.append(words[1])
        if words[0] == "@volume" and answer == "ok":
            volumes[span(words[1])[0]] = words[2]
    return servers, volumes


@dataclass
class Seen:
    """What is seen after some lines."""

    answer: str  # of the last one
    phase: str
    asked: str  # the server that is asked next, if one
    copying: list  # the session's members in Copy Pending, in order


class Walk:
    """The way of an `@run`: what it comes to after the lines before it, part by part."""

    def __init__(self, drsim, before, line):
        self.drsim, self.lines, self.parts = drsim, list(before), []
        word, groups = words_of(line)[1:]
        self.session, self.groups = word.upper(), int(groups)
        answers = drsim.run(before).answers
        self.subsystems = {session: lss for session, lss in sessions_of(before, answers).items() if session == self.session}
        self.members = joined(before, answers).get(self.session, [])
        self.servers, self.volumes = servers_of(before, answers)

    def take(self):
        """The parts."""
        if not self.subsystems or not 1 <= self.groups <= MOST_GROUPS:
            return []
        seen = self.look()
        phases = [seen.phase]
        while len(COUNTED.findall("".join(LETTERS.get(phase, "-") for phase in phases))) < self.groups:
            seen = self.turn(seen)
            if seen is None:
                break
            phases.append(seen.phase)
        return self.parts

    def turn(self, seen):
        """Asks the server that is asked next, and says what is seen after that; nothing if nobody is asked, or a part is refused."""
        name = seen.asked
        if name is None:
            return None
        if seen.phase == "Draining":
            for volume in [member for member in self.members if self.volumes[member] == name]:
                if volume in seen.copying:
                    seen = self.carry(f"@drain {volume} all")
                    if seen is None:
                        return None
        return self.carry(f"@exchange {self.session} {name}")

    def carry(self, part):
        self.parts.append(part)
        self.lines.append(part)
        seen = self.look()
        return None if seen.answer.startswith("E") else seen

    def look(self):
        at, phases, listings = len(self.lines), phase_asks(self.subsystems), member_asks(self.subsystems)
        pairs, orders = [f"lspprc {volume}" for volume in self.members], [self.order(name) for name in self.servers]
        run = Script(self.drsim, self.lines, {at: [*phases, *listings, *pairs, *orders]})
        listed = [row.split()[1][:4] for ask in listings for row in run.listed(at, ask) if row.startswith(f"{self.session} ")]
        if sorted(listed) != sorted(self.members):
            raise Fault(f"the members of {self.session} are {self.members}, and not {listed}")
        rows = [row for ask in phases for row in run.listed(at, ask)]
        copying = [volume for volume, ask in zip(self.members, pairs)
                   if any(re.match(f"{volume}:[0-9A-F]{{4}} Copy Pending ", row) for row in run.listed(at, ask))]
        answers = [(name, run.answer(at, ask)) for name, ask in zip(self.servers, orders)]
        return Seen(run.answers.get(at, [""])[-1], phase_in(rows, self.session), self.first_asked(answers, rows), copying)

    def order(self, name):
        return f"@exchange {self.session} {name}"

    def first_asked(self, answers, rows):
        """Who is asked, by what orders are answered. If the master's server is off they say no more than that, and it is started for the question;
        twice, since a fuse that is left may stop it as it starts, once."""
        master = next((found[1] for row in rows if (found := re.match(rf"{self.session} (\S+) ", row))), None)
        if any(answer == f"E05 server off {master}" for _, answer in answers):
            lines = self.lines + [f"@start {master}"] * 2
            run = self.drsim.run(lines + [self.order(name) for name in self.servers])
            answers = [(name, run.of(len(lines) + place)[-1]) for place, name in enumerate(self.servers, 1)]
        return next((name for name, answer in answers if not answer.startswith("E15")), None)


# ---- the parts against their `@run`


def shown(drsim, lines):
    """The answers of lines, and all that is listed after them: pairs, relationships, members, masters, and what the devices contain."""
    answers = drsim.run(lines).answers
    volumes = list(servers_of(lines, answers)[1])
    subsystems = dict.fromkeys(volume[:2] for volume in volumes)
    asks = [f"{word} {volume}" for word in ("lspprc", "lsflash") for volume in volumes]
    asks += [f"{word} {lss}" for word in ("lssession", "showgmir") for lss in subsystems] + ["@image"]
    asked = Script(drsim, lines, {len(lines): asks}).asked
    return answers, {ask: asked[len(lines), ask] for ask in asks}


def compare(drsim, before, line, parts):
    """That the parts come to what the line does."""
    whole, after = shown(drsim, before + [line])
    answer = whole[len(before) + 1][-1]
    if not parts:
        if not re.match("E(02|04|15) ", answer):
            raise Fault(f"`{line}` has no parts, and is answered {answer}")
        return
    apart, then = shown(drsim, before + parts)
    for ask, printed in after.items():
        if then[ask] != printed:
            raise Fault(f"after the parts of `{line}` `{ask}` shows something else")
    said = [apart[len(before) + place][-1] for place in range(1, len(parts) + 1)]
    if not all(each.startswith("ok") for each in said[:-1]):
        raise Fault(f"not all parts of `{line}` but the last are ok: {said}")
    if said[-1] != answer and not (answer.startswith("E15 ") and said[-1].startswith("ok")):
        raise Fault(f"`{line}` is answered {answer}, and its last part {said[-1]}")


def compare_calm(drsim, plan, apart):
    """That all other tried lines are answered as in the calm run of the plan as it stands."""
    def others(of):
        lines = plan.setup + [tried.text for tried in of.tried]
        runs = {tried.line for tried in plan.tried if is_run(tried.text)}
        answers = drsim.run(lines).answers
        return [(tried.place, answers[at]) for at, tried in enumerate(of.tried, len(plan.setup) + 1) if tried.line not in runs]

    if others(plan) != others(apart):
        raise Fault("a tried line is answered otherwise after the parts of an `@run`")


def taken_apart(plan, drsim):
    """The plan of which the points are tried: the same one, with each tried `@run` in its parts."""
    made = []
    for tried in plan.tried:
        before = plan.setup + [step.text for step in made]
        parts = Walk(drsim, before, tried.text).take() if is_run(tried.text) else []
        if is_run(tried.text):
            compare(drsim, before, tried.text, parts)
        made += [Tried(tried.line, part, text) for part, text in enumerate(parts, 1)] or [tried]
    apart = replace(plan, tried=made)
    compare_calm(drsim, plan, apart)
    return apart
