"""Runs of `drsim` for checks of sweeps, and what they tell: answers, listings and images, the writes of a script, and the sessions.

Which writes a track holds is seen on the track itself: a script is run a second time, in which each write of a track has a byte of its
own there (`marked`), and what is shown has the bytes of the writes that it holds. That run has to be answered as the first one is.
"""
import re
import subprocess
import tempfile
from dataclasses import dataclass, field
from functools import lru_cache

from plan_text import lines_of, text_of, words_of

ANSWER = re.compile(r"(?:ok|held|E\d\d)(?: |$)")
NUMBERED = re.compile(r"(\d+) (.*)")
DROPPED = ("E05", "E08", "E09", "E11", "E21")  # of an `@write` that was issued, and has its number
BYTES = 64  # of a track


class Fault(Exception):
    """A plan that can't be taken, or two ways to see something that disagree."""


@dataclass
class Printed:
    """What a run printed, by the numbers of lines."""

    answers: dict = field(default_factory=dict)
    listed: dict = field(default_factory=dict)
    images: dict = field(default_factory=dict)

    def of(self, number):
        return self.answers.get(number, [])


def printed(text):
    found, image = Printed(), None
    for row in text.splitlines():
        if row == "image 1" or image is not None and not image.endswith("end\n"):
            image = (image or "") + row + "\n"
            continue
        number, said = NUMBERED.fullmatch(row).groups()
        if image is not None:
            found.images[int(number)], image = image, None
        (found.answers if ANSWER.match(said) else found.listed).setdefault(int(number), []).append(said)
    return found


class Drsim:
    """The program, and how many runs of it there were."""

    def __init__(self, path):
        self.path, self.count = path, 0
        self.members = lru_cache(maxsize=100_000)(self.members_counted)

    def called(self, words, text, statuses):
        self.count += 1
        with tempfile.TemporaryFile() as given, tempfile.TemporaryFile() as taken:
            given.write(text)
            given.seek(0)
            run = subprocess.run([self.path, *words], stdin=given, stdout=taken, stderr=subprocess.DEVNULL, check=False)
            if run.returncode not in statuses:
                raise Fault(f"{self.path} {' '.join(words)} ended with {run.returncode}")
            taken.seek(0)
            return taken.read().decode()

    def run(self, lines):
        return printed(self.called(["run"], text_of(lines), (0, 1)))

    def steps(self, text):
        """Of each line of a text what its steps are answered."""
        return self.run(lines_of(text)).answers

    def members_counted(self, session, image):
        """How many volumes count in the session, by what `recover` says of an image."""
        found = re.match(r"members (\d+)\n", self.called(["recover", session], image.encode(), (0, 9)))
        return int(found[1]) if found else 0


class Script:
    """Lines of which some are asked for by a check, and what they are answered; the others keep their numbers."""

    def __init__(self, drsim, lines, asked):
        """`asked` has for numbers of lines what is asked right after these (for 0: before all)."""
        all_lines, own, places = [], {}, {}
        for number in range(len(lines) + 1):
            if number:
                all_lines.append(lines[number - 1])
                own[len(all_lines)] = number
            for line in asked.get(number, []):
                all_lines.append(line)
                if (number, line) in places.values():
                    raise Fault(f"`{line}` is asked twice after line {number}")
                places[len(all_lines)] = (number, line)
        run = drsim.run(all_lines)
        self.answers = {own[at]: found for at, found in run.answers.items() if at in own}
        self.asked = {place: Printed({0: run.of(at)}, {0: run.listed.get(at, [])}, {0: run.images.get(at)}) for at, place in places.items()}

    def answer(self, number, line):
        """The last answer of what was asked after a line."""
        return self.asked[number, line].of(0)[-1]

    def listed(self, number, line):
        return self.asked[number, line].listed[0]

    def image(self, number, line):
        return self.asked[number, line].images[0]


# ---- writes


@dataclass
class Write:
    volume: str
    track: int
    issued: int  # the line


class Writes:
    """The host writes of a run by their numbers, and their acknowledgements in order, as (write, line)."""

    def __init__(self, lines, answers):
        self.by_number, self.line_of, self.acknowledged = {}, {}, []
        for number, line in enumerate(lines, 1):
            for answer in answers.get(number, []):
                self.take(number, words_of(line), answer)

    def take(self, number, words, answer):
        told = re.match(r"(?:ok|held) w(\d+)$", answer)
        if words[0] == "@issue" and told or words[0] == "@write" and (told or answer.startswith(DROPPED)):
            w = len(self.by_number) + 1
            if told and int(told[1]) != w:
                raise Fault(f"line {number} issues w{told[1]}, and not w{w}")
            self.by_number[w] = Write(words[1].upper(), int(words[2]), number)
            self.line_of[number] = w
        if words[0] != "@issue" and (told := re.match(r"ok (?:acked )?w(\d+)$", answer)):
            self.acknowledged.append((int(told[1]), number))


def is_write(words):
    return words[:1] in (["@write"], ["@issue"])


def marked(lines):
    """The lines, with a byte of its own for each write of a track, and the lines of writes by track and byte."""
    places, found = {}, []
    for number, line in enumerate(lines, 1):
        words = words_of(line)
        if is_write(words):
            track = int(words[2])
            byte = sum(1 for at, _ in places if at == track)
            if byte == BYTES:
                raise Fault(f"track {track} has more than {BYTES} writes")
            places[track, byte] = number
            line = " ".join([*words[:3], str(byte), "FF"])
        found.append(line)
    return found, places


def alike(answer):
    """An answer without what a track shows, which isn't the same in a script that is marked."""
    return re.sub(r"^ok ([0-9A-F]{2})+$|^ok -$", "ok", answer)


class Holdings:
    """What volumes hold after a script: of each volume and track the numbers of the writes.

    Their servers are started for that. What such a start acknowledges had landed without being held, and doesn't count."""

    def __init__(self, drsim, lines, run, volumes, servers, asked=()):
        """`run` has the answers of the script as it stands, `servers` the server of each volume; `asked` is asked as in `Script`."""
        self.lines, self.volumes, script, end = lines, volumes, lines, len(lines)
        script, self.places = marked(lines)
        starts = [f"@start {name}" for name in dict.fromkeys(servers[v] for v in volumes)]
        tracks = sorted({track for track, _ in self.places})
        self.shows = {(v, t): f"@show {v} {t}" for v in volumes for t in tracks}
        asked = {k: list(v) for k, v in dict(asked).items()}
        # A fuse that is left may stop a server as it starts, once.
        asked[end] = asked.get(end, []) + [*starts, *(start + " " for start in starts), *self.shows.values()]
        self.script = Script(drsim, script, asked)
        if any([alike(a) for a in run.get(at, [])] != [alike(a) for a in self.script.answers.get(at, [])] for at in range(1, end + 1)):
            raise Fault("a script is answered otherwise if each write has a byte of its own")
        self.writes = Writes(lines, run)
        late = [self.script.answer(end, start) for start in asked[end] if start.startswith("@start")]
        self.landed = {int(told[1]) for answer in late if (told := re.match(r"ok acked w(\d+)$", answer))}
        self.held = {place: self.held_at(*place, self.script.answer(end, show)) for place, show in self.shows.items()}

    def held_at(self, volume, track, answer):
        if answer == "E02 unknown track":
            return set()
        if not answer.startswith("ok"):
            raise Fault(f"track {track} of {volume} isn't shown: {answer}")
        content = bytes.fromhex(answer[3:] if answer != "ok -" else "")
        if content.strip(b"\0\xff"):
            raise Fault(f"track {track} of {volume} shows what no write left: {answer}")
        found = {self.writes.line_of[self.places[track, byte]] for byte, value in enumerate(content) if value}
        return {w for w in found if not (w in self.landed and self.writes.by_number[w].volume == volume)}

    def of(self, volumes):
        return {w for (volume, _), writes in self.held.items() if volume in volumes for w in writes}


# ---- sessions


def sessions_of(lines, answers):
    """The sessions after a run in order of definition, each with its subsystems."""
    found = {}
    for number, line in enumerate(lines, 1):
        words = words_of(line)
        if words[:1] in (["mksession"], ["rmsession"]) and answers.get(number, [""])[0] == "ok":
            session, lss = words[-1].upper(), words[words.index("-lss") + 1].upper()
            if words[0] == "mksession":
                found.setdefault(session, []).append(lss)
            else:
                found[session].remove(lss)
                if not found[session]:
                    del found[session]
    return found


def phase_asks(sessions):
    return [f"showgmir {lss}" for lss in dict.fromkeys(lss for subsystems in sessions.values() for lss in subsystems)]


def phase_in(rows, session):
    """The phase of a session's master in what `showgmir` lists; `none` without a master."""
    for row in rows:
        if (found := re.match(rf"{session} \S+ (\w+) \d+ (?:running|paused)$", row)):
            return found[1]
    return "none"


def member_asks(sessions):
    return [f"lssession {lss}" for lss in dict.fromkeys(lss for subsystems in sessions.values() for lss in subsystems)]


def members_in(rows, session):
    """How many members the session has in what `lssession` lists."""
    return sum(row.startswith(session + " ") for row in rows)
