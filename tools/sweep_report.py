"""The report on a plan of a sweep, and whether it has a finding, by its rows and the calm run."""
import re
from dataclasses import dataclass

from plan_text import steps_of, words_of
from sweep_runs import Writes

LEGEND = ("strip: of each line the writes lost in the gap after it, and the most lost at one of its points; then the gap's character, and one for each device write\n"
          "! a kept write depends on a lost one; * torn bytes decide; m fewer members count; . nothing is lost; o writes are lost; - ")

# The columns of the table, and whether they have numbers.
COLUMNS = [("lost at once", False), ("use", False), ("points", True), ("most lost", True), ("age", True), ("line", False), ("phases", False),
           ("group", False), ("decision", False), ("shown by", False), ("broken", True), ("no group", True), ("fewer members", True), ("first finding", False)]


def aligned(rows, numbers):
    """The lines of a table: numbers stand at the right of their column, and text at the left."""
    widths = [max(map(len, column)) for column in zip(*rows)]
    for row in rows:
        cells = [cell.rjust(wide) if number else cell.ljust(wide) for cell, wide, number in zip(row, widths, numbers, strict=True)]
        yield "  ".join(cells).rstrip(" ")


@dataclass
class CalmStep:
    """A step of the calm run: the number of its line in the plan, the line that it is, and its answer."""

    line: int
    text: str
    answer: str

    @property
    def refused(self):
        return self.answer.startswith("E")

    @property
    def held(self):
        return self.answer.startswith("held")


class Calm:
    """The calm run: set-up and tried steps, without a disaster."""

    def __init__(self, plan, drsim):
        self.plan = plan
        lines = plan.setup + [tried.text for tried in plan.tried]
        answers = drsim.run(lines).answers
        writes = Writes(lines, answers)
        self.written = {writes.by_number[w].volume for w, _ in writes.acknowledged}
        self.steps = []
        for number, line in enumerate(plan.setup, 1):
            found = answers.get(number, [])
            texts = steps_of(line) if len(found) > 1 else [line] * len(found)
            self.steps += [CalmStep(number, text, answer) for text, answer in zip(texts, found, strict=True)]
        for number, tried in enumerate(plan.tried, len(plan.setup) + 1):
            self.steps += [CalmStep(tried.line, tried.text, answer) for answer in answers[number]]

    def told(self):
        """What the report says of it."""
        count = [sum(found) for found in ([s.refused for s in self.steps], [s.held for s in self.steps])]
        yield f"calm run: {len(self.steps)} steps, {count[0]} refused, {count[1]} held"
        for number in dict.fromkeys(step.line for step in self.steps):
            yield from self.line_told(number, [step for step in self.steps if step.line == number])
        for use in self.plan.uses:
            for first, second in use.pairs:
                if second not in self.written:
                    but = f", but on {first}" if first in self.written else ""
                    yield f"use {use.name + ' ' if use.name else ''}{first} for {second}: no write on {second}{but}"

    def line_told(self, number, steps):
        announced = number in self.plan.announced
        for step in steps:
            if step.refused or step.held:
                yield f"  {number} {step.text}: {step.answer}" + (" (announced)" if announced and step.refused else "")
        if announced and not any(step.refused for step in steps):
            # Of several tried steps the first stands for the line; a line of the set-up stands as it is.
            text = self.plan.setup[number - 1] if number <= len(self.plan.setup) else steps[0].text
            yield f"  {number} {text}: not refused (announced)"

    def finding_count(self):
        def mistaken(pairs):
            unwritten = [second not in self.written for _, second in pairs]
            return all(unwritten) or any(missing and first in self.written for missing, (first, _) in zip(unwritten, pairs))

        return sum(s.refused and s.line not in self.plan.announced for s in self.steps) + sum(mistaken(use.pairs) for use in self.plan.uses)


class Report:
    def __init__(self, plan, rows, found, calm):
        self.plan, self.rows, self.found, self.calm = plan, rows, found, calm
        self.recovers = [words_of(line)[:1] == ["@recover"] for line in plan.recovery]
        self.no_group = "no group" if any(self.recovers) else "no session asked"
        self.names_uses = len(plan.uses) > 1 or plan.uses[0].name is not None

    def text(self):
        lines = [*self.calm.told(), *self.table(), *self.disasters(), "recovery", *self.recovery(), LEGEND + self.no_group, *self.strips()]
        return "".join(line + "\n" for line in lines)

    def of(self, disaster):
        return [row for row in self.found if row.point.disaster == disaster]

    def each(self):
        """The disasters and uses, with the lines that stand over what is said of them."""
        for disaster, servers in enumerate(self.plan.loses):
            for which, use in enumerate(self.plan.uses):
                head = ["lost at once: " + " ".join(servers)] if which == 0 else []
                yield disaster, which, head + ([f"use {use.name or '-'}"] if self.names_uses else [])

    # ---- the table

    def table(self):
        """A row for each disaster and use."""
        cells = [[name for name, _ in COLUMNS], *(self.cells(disaster, which) for disaster, which, _ in self.each())]
        return aligned(cells, [number for _, number in COLUMNS])

    def cells(self, disaster, which):
        rows, use = self.of(disaster), self.plan.uses[which]
        most = max(len(row.losses[which].lost) for row in rows)
        worst = next(row for row in rows if len(row.losses[which].lost) == most)
        at = self.worst_cells(worst, which) if most else ["-"] * 6
        finding = next((f"{kind}: {self.words(row)}" for row in rows if (kind := self.finding_kind(row, which))), "no finding")
        broken = sum(row.losses[which].broken is not None for row in rows)
        none = sum(any(self.recovers) and not row.groups for row in rows)
        short = sum(self.is_short(row) for row in rows)
        return [" ".join(self.plan.loses[disaster]), use.name or "-", str(len(rows)), str(most), *at, str(broken), str(none), str(short), finding]

    def worst_cells(self, row, which):
        return [str(row.losses[which].age), self.rows.place(row.point), *row.came, self.words(row)]

    def words(self, row):
        return " ".join(self.rows.words(row.point))

    # ---- disasters

    def kind(self, row):
        if not row.groups:
            return self.no_group
        return f"group {' '.join(n for n, _ in row.groups)} {' '.join(decision for _, decision in row.groups)}"

    def disasters(self):
        for disaster, which, head in self.each():
            rows = self.of(disaster)
            yield from head
            for kind in dict.fromkeys(map(self.kind, rows)):
                like = [row for row in rows if self.kind(row) == kind]
                most = max(len(row.losses[which].lost) for row in like)
                broken = sum(row.losses[which].broken is not None for row in like)
                yield f"  {kind}: {len(like)} points, at most {most} lost, {broken} broken, {sum(bool(row.refused) for row in like)} with refusals"

    # ---- the recovery

    @staticmethod
    def answers_of(row, place):
        return [answer for line, answer in row.answers if line == place]

    def kept_at(self, place):
        """At how many points all steps of a line of the recovery are ok or held."""
        answers = [self.answers_of(row, place) for row in self.found]
        return sum(bool(found) and not any(answer.startswith("E") for answer in found) for found in answers)

    def is_answered(self, place):
        return any(self.answers_of(row, place) for row in self.found)

    def recovery(self):
        for place, line in enumerate(self.plan.recovery, 1):
            if self.is_answered(place):
                codes = [{answer[:3] for answer in self.answers_of(row, place) if answer.startswith("E")} for row in self.found]
                refused = [f", {code} at {sum(code in found for found in codes)}" for code in sorted(set().union(*codes))]
                yield f"  {self.plan.then_line + place} {line}: ok at {self.kept_at(place)}{''.join(refused)}"

    # ---- the strip

    def strips(self):
        for disaster, which, head in self.each():
            signs, lost = self.signs(disaster, which), self.most_lost(disaster, which)
            gaps = [lost[place, None] for place in range(len(self.plan.tried) + 1)]
            worst = [max(gap, *(lost.get((place - 1, name), 0) for name in self.plan.loses[disaster])) for place, gap in enumerate(gaps)]
            wide = len(str(max(worst)))
            yield from head
            for place, (gap, most) in enumerate(zip(gaps, worst)):
                servers = "".join(f" {name} {signs.get((place - 1, name), '')}" for name in self.plan.loses[disaster])
                step = f"{servers}  {self.plan.tried[place - 1].text}" if place else ""
                yield f"{self.plan.place(place):>6} | {gap:>{wide}} lost, worst {most:>{wide}} |{signs[place, None]}|{step}"

    def most_lost(self, disaster, which):
        """The most writes that are lost at each server in a tried step, and in each gap."""
        most = {}
        for row in self.of(disaster):
            at = row.point.place, row.point.server
            most[at] = max(most.get(at, 0), len(row.losses[which].lost))
        return most

    def signs(self, disaster, which):
        """The characters of each server in a tried step, and of each gap."""
        places, signs = {}, {}
        for row in self.of(disaster):
            places.setdefault((row.point.place, row.point.server, row.point.write), []).append(row)
        for (place, server, _), rows in places.items():
            signs[place, server] = signs.get((place, server), "") + self.sign(rows, which)
        return signs

    def sign(self, rows, which):
        lost = [len(row.losses[which].lost) for row in rows]
        if any(row.losses[which].broken for row in rows):
            return "!"
        if len(set(zip(map(self.kind, rows), lost))) > 1:
            return "*"
        if any(self.recovers) and not all(row.groups for row in rows):
            return "-"
        if any(map(self.is_short, rows)):
            return "m"
        return "o" if max(lost) else "."

    # ---- findings

    def is_announced(self, place):
        return self.plan.then_line + place in self.plan.announced

    def lacks_group(self, row):
        wanted = {place for place, recovers in enumerate(self.recovers, 1) if recovers and not self.is_announced(place)}
        return any(line in wanted and not re.match("ok group ", answer) for line, answer in row.answers)

    @staticmethod
    def is_short(row):
        return any(counted < every for counted, every in row.members)

    def finding_kind(self, row, which):
        """What makes a row a finding for a use; none if it isn't one."""
        loss = row.losses[which]
        if loss.broken:
            held, lost = loss.broken
            return f"broken w{held} on w{lost}"
        if self.plan.bound is not None and len(loss.lost) > self.plan.bound:
            return "too many lost"
        return "group missing" if self.lacks_group(row) else "fewer members" if self.is_short(row) else None

    def is_finding(self, row):
        return any(self.finding_kind(row, which) for which in range(len(self.plan.uses)))

    def finding_count(self):
        """How many there are: in the calm run, lines of the recovery that are never ok, and rows."""
        never = sum(self.is_answered(place) and not self.kept_at(place) and not self.is_announced(place) for place in range(1, len(self.plan.recovery) + 1))
        return self.calm.finding_count() + never + sum(map(self.is_finding, self.found))

    def has_finding(self):
        return self.finding_count() > 0
