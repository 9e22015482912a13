#!/usr/bin/env python3
"""Finds the points of a plan of a sweep by itself, without the program of sweeps: by runs of `DRSIM run`.

    tools/count_points.py PLAN DRSIM

For each disaster, tried step and server of the disaster it runs a script in which the server's fuse is armed before the step, with one
more device write each time, as long as the server stops in that step. It prints a row `DISASTER LINE[.PART] SERVER COUNT` for each, named
as the program of sweeps names them, and last how many points these are, with three kinds of torn bytes in a step and one point in each
gap. Exit status 1 where the plan can't be taken, or two ways to see a stop disagree.
"""
import sys

sys.dont_write_bytecode = True
from plan_text import BadPlan, lines_of, read_plan, words_of
from sweep_parts import taken_apart
from sweep_runs import Drsim, Fault, Script

MOST_WRITES = 100_000


def volume_of(setup, server):
    """A volume on the server, by the lines that define volumes; a server without one has no device to write to."""
    for words in map(words_of, setup):
        if words[:1] == ["@volume"] and words[2] == server:
            return words[1].split("-")[0]
    return None


class Search:
    """The device writes of one tried step on one server."""

    def __init__(self, drsim, plan, place, server):
        self.drsim, self.server = drsim, server
        self.before, self.line = plan.setup + [tried.text for tried in plan.tried[:place]], plan.tried[place].text
        self.shown = [f"@show {volume} 0"] if (volume := volume_of(plan.setup, server)) else []

    def stopped(self, fuse):
        """Whether the server stopped in the step, by its answer, and whether it is off after it, by what is shown then."""
        script = self.before + fuse + [self.line]
        run = Script(self.drsim, script, {len(script): self.shown})
        answers = run.answers[len(script)]
        off = any(run.answer(len(script), show) == f"E05 server off {self.server}" for show in self.shown)
        return answers[-1] == f"E21 stopped {self.server}", off

    def count(self):
        _, off_anyway = self.stopped([])
        first = 1 if words_of(self.line) == ["@start", self.server] else 0
        for write in range(first, MOST_WRITES):
            told, off = self.stopped([f"@stop {self.server} after {write} torn none"])
            if self.shown and told != off and not off_anyway:
                raise Fault(f"`{self.line}`, {self.server} after {write}: the answer and what is shown after it disagree")
            if not told:
                return write - first
        raise Fault(f"`{self.line}` has too many device writes")


def main(path, program):
    drsim = Drsim(program)
    with open(path, "rb") as file:
        text = file.read()
    plan = taken_apart(read_plan(lines_of(text), drsim.steps(text)), drsim)
    points = len(plan.loses) * (len(plan.tried) + 1)
    print("disaster line server count")
    for disaster, servers in enumerate(plan.loses, 1):
        for place, tried in enumerate(plan.tried):
            for server in servers:
                count = Search(drsim, plan, place, server).count()
                points += 3 * count
                print(disaster, tried.place, server, count)
    print(f"points {points}, by {drsim.count} runs")
    return 0


if __name__ == "__main__":
    if len(sys.argv) != 3:
        sys.exit(__doc__)
    try:
        sys.exit(main(*sys.argv[1:]))
    except (BadPlan, Fault) as fault:
        sys.exit(str(fault))
