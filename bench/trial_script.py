#!/usr/bin/env python3
"""Prints the script of a trial's number, made by this program alone: bench/trial_script.py N"""
import sys

ROUNDS = 2000
BEHIND = 32
HEAD = """\
@server A1
@server A2
@server B1
@server B2
@volume 1000 A1 4
@volume 1001 A1 4
@volume 1100 A2 4
@volume 1101 A2 4
@volume 2000 B1 4
@volume 2001 B1 4
@volume 2100 B2 4
@volume 2101 B2 4
@volume 3000 B1 4
@volume 3001 B1 4
@volume 3100 B2 4
@volume 3101 B2 4
mkpprcpath -dev A1 -remotedev B1 -remotewwnn 5005076303FFC1A5 -srclss 10 -tgtlss 20 I0010:I0140
mkpprcpath -srclss 11 -tgtlss 21 I0010:I0140
mkpprc -type gcp -mode nocp 1000-1001:2000-2001
mkpprc -type gcp -mode nocp 1100-1101:2100-2101
mkflash -tgtinhibit -record -persist -nocp 2000-2001:3000-3001
mkflash -tgtinhibit -record -persist -nocp 2100-2101:3100-3101
mksession -lss 10 -volume 1000-1001 01
mksession -lss 11 -volume 1100-1101 01
mkgmir -lss 10 -session 01 -cginterval 0 -coordinate 50 -drain 30 A1/10:A2/11
"""
VOLUMES = ["1000", "1001", "1100", "1101"]
SERVERS = ["A1", "A2"]


def draws(number):
    """Numbers drawn one after another: each call says of how many numbers it is one."""
    state = number

    def draw(count):
        nonlocal state
        state = (1664525 * state + 1013904223) % 2**32
        return state // 65536 % count

    return draw


def script(number):
    draw = draws(number)
    lines, writes = [], 0
    for _ in range(ROUNDS):
        kind = draw(10)
        if kind < 5:
            volume, track, offset, byte = VOLUMES[draw(4)], draw(4), draw(64), draw(256)
            writes += 1
            lines.append(f"@write {volume} {track} {offset} {byte:02X}")
            if writes > BEHIND:
                lines.append(f"@apply {writes - BEHIND}")
        elif kind == 5:
            lines.append(f"@drain {VOLUMES[draw(4)]} all")
        elif kind < 8:
            lines.append(f"@exchange 01 {SERVERS[draw(2)]}")
        elif kind == 8:
            lines.append("@abort 01")
        elif draw(8) == 0:
            server = SERVERS[draw(2)]
            lines += [f"@stop {server}", f"@start {server}"]
        else:
            lines.append("@run 01 1")
    lines += ["@stop A1", "@stop A2", "@recover 01"]
    return HEAD + "".join(line + "\n" for line in lines)


if __name__ == "__main__":
    if len(sys.argv) != 2 or not sys.argv[1].isdigit():
        sys.exit(__doc__)
    sys.stdout.write(script(int(sys.argv[1])))
