#!/usr/bin/env python3
"""Compares two ways to one recovery: `drsim recover SS` of the image behind a script, and `@recover SS` in the run itself.

    bench/round_trips.py [TRIALS]    over all scenarios and examples, and as many random scripts

Behind the last step of each script an image is taken, all servers are started, and each session recovers. Where that is answered with a
group, the image has to give the same decision and group, and each track that it prints is what `@show` answers then. The program is
crates/drsim/out/drsim (`rt run` leaves it there). Ends with 1 where one differs.
"""
import random
import re
import subprocess
import sys
from pathlib import Path

ROOT = Path(__file__).resolve().parent.parent
PROGRAM = ROOT / "crates" / "drsim" / "out" / "drsim"


def drsim(words, text):
    return subprocess.run([PROGRAM, *words], input=text, capture_output=True, text=True, errors="replace")


def servers_and_sessions(script):
    servers = re.findall(r"^@server (\S+)", script, re.M)
    sessions = re.findall(r"^mksession .*?(\b[0-9A-Fa-f]{2})\s*$", script, re.M)
    return list(dict.fromkeys(servers)), list(dict.fromkeys(s.upper() for s in sessions))


def differences(script):
    """What differs behind a script, and how many sessions were compared."""
    servers, sessions = servers_and_sessions(script)
    if not script.endswith("\n"):
        script += "\n"
    compared, found = 0, []
    for session in sessions:
        images = re.findall(r"^image 1\n.*?^end\n", drsim(["run"], script + "@image\n").stdout, re.M | re.S)
        if not images:
            continue
        offline = drsim(["recover", session], images[-1]).stdout.splitlines()
        starts = "".join(f"@start {server}\n" for server in servers)
        # Servers that start may settle attempts; an image is then asked for the state that the recovery finds.
        images = re.findall(r"^image 1\n.*?^end\n", drsim(["run"], script + starts + "@image\n").stdout, re.M | re.S)
        started = drsim(["recover", session], images[-1]).stdout.splitlines() if images else []
        tracks = [line.split(" ") for line in started if line.startswith("track ")]
        shows = "".join(f"@show {volume} {track}\n" for _, volume, track, _ in tracks)
        answers = drsim(["run"], script + starts + f"@recover {session}\n" + shows).stdout.splitlines()
        lines = script.count("\n") + len(servers)
        answer = next((line.partition(" ")[2] for line in answers if line.startswith(f"{lines + 1} ")), "")
        match = re.fullmatch(r"ok group (\d+) (.*)", answer)
        if not match:
            continue
        compared += 1
        wanted = [f"decision {match[2]}", f"group {match[1]}"]
        if started[1:3] != wanted:
            found.append(f"session {session}: the image gives {started[:3]}, the run {wanted}")
        for place, (_, volume, track, shown) in enumerate(tracks, lines + 2):
            if f"{place} ok {shown}" not in answers:
                found.append(f"session {session}: track {volume} {track} isn't {shown}")
        if offline[2:3] != started[2:3] and offline[:1] != ["no members"]:
            found.append(f"session {session}: starts changed the group from {offline[:3]} to {started[:3]}")
    return compared, found


HEAD = """@server A1
@server A2
@server B1
@server B2
@volume 1000-1001 A1 4
@volume 1100-1101 A2 4
@volume 2000-2001 B1 4
@volume 2100-2101 B2 4
@volume 3000-3001 B1 4
@volume 3100-3101 B2 4
mkpprcpath -srclss 10 -tgtlss 20 I0000:I0100
mkpprcpath -srclss 11 -tgtlss 21 I0000:I0100
mkpprc -type gcp -mode nocp 1000-1001:2000-2001 1100-1101:2100-2101
mkflash -tgtinhibit -record -nocp 2000-2001:3000-3001 2100-2101:3100-3101
mksession -lss 10 -volume 1000-1001 01
mksession -lss 11 -volume 1100-1101 01
mkgmir -lss 10 -session 01
"""


def random_script(seed):
    draw = random.Random(seed)
    lines = []
    for _ in range(draw.randrange(5, 120)):
        volume = draw.choice(["1000", "1001", "1100", "1101"])
        kind = draw.randrange(12)
        if kind < 5:
            lines.append(f"@write {volume} {draw.randrange(4)} {draw.randrange(64)} {draw.randrange(256):02X}")
        elif kind < 6:
            lines.append(f"@drain {volume} all")
        elif kind < 8:
            lines.append(f"@exchange 01 {draw.choice(['A1', 'A2'])}")
        elif kind < 10:
            lines.append("@run 01 1")
        elif kind < 11:
            server = draw.choice(["A1", "A2", "B1", "B2"])
            torn = draw.choice(["none", "01", "03", draw.randbytes(64).hex().upper()])
            lines.append(f"@stop {server} after {draw.randrange(12)} torn {torn}")
        else:
            lines.append(f"@start {draw.choice(['A1', 'A2', 'B1', 'B2'])}")
    return HEAD + "\n".join(lines) + "\n"


def main(words):
    trials = int(words[0]) if words else 200
    scripts = {path.stem: path.read_text(errors="replace") for folder in ("crates/scenarios/data", "examples")
               for path in sorted((ROOT / folder).glob("*.dscli")) if not path.with_suffix(".words").exists()}
    scripts |= {f"random {seed}": random_script(seed) for seed in range(trials)}
    sessions, bad = 0, 0
    for name, script in scripts.items():
        compared, found = differences(script)
        sessions += compared
        bad += len(found)
        for line in found:
            print(f"{name}: {line}")
    print(f"{sessions} recoveries behind {len(scripts)} scripts, {bad} differences")
    return 1 if bad else 0


if __name__ == "__main__":
    sys.exit(main(sys.argv[1:]))
