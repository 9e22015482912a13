"""Reads the text of `@image`: what each volume's control record says, and what its tracks contain. Written from docs/COMMANDS.md and Layout.antt of
dr_model alone."""

PARTS = {1: "Metro Mirror", 2: "Global Copy"}
STATES = {0: "Copy Pending", 1: "Full Duplex"}
ZEROS = bytes(64)
SLOTS = (1, 7)
TRACKS_BEGIN = 13


def is_set(byte, bit):
    return bool(byte >> bit & 1)


def tracks_in(half, tracks):
    return {t for t in range(tracks) if is_set(half[t // 8], t % 8)}


class Volume:
    """A volume of an image, by its chosen slot."""

    def __init__(self, name, tracks, blocks):
        self.name = name
        begin = SLOTS[blocks.get(0, ZEROS)[0] & 1]
        slot = [blocks.get(begin + k, ZEROS) for k in range(6)]
        head = slot[0]
        self.primary, self.secondary = PARTS.get(head[0]), PARTS.get(head[3])
        self.state = STATES.get(head[1], "Suspended")
        self.to, self.of = head[8:10].hex().upper(), head[10:12].hex().upper()
        self.is_held, self.records = (bool(self.primary) and is_set(head[2], bit) for bit in (0, 2))
        self.attempt = int.from_bytes(head[16:20], "big")
        self.unsent = tracks_in(slot[1][:32], tracks) | tracks_in(slot[1][32:], tracks) if self.primary else set()
        blank = tracks_in(slot[4][:32], tracks)
        self.contains = [ZEROS if t in blank else blocks.get(TRACKS_BEGIN + t, ZEROS) for t in range(tracks)]
        staged = int.from_bytes(head[14:16], "big")
        if head[7] == 1 and staged < tracks:
            self.contains[staged] = slot[5]

    def is_primary_of(self, other, kind):
        return self.primary == kind and self.to == other.name

    def is_secondary_of(self, other, kind):
        return self.secondary == kind and self.of == other.name


def read_image(lines):
    """The volumes of an image by their names; the lines are those between `image 1` and `end`."""
    tracks, blocks = {}, {}
    for line in lines:
        word, name, *rest = line.split(" ")
        if word == "volume":
            tracks[name], blocks[name] = int(rest[1]), {}
        else:
            blocks[name][int(rest[0])] = bytes.fromhex(rest[1]).ljust(64, b"\0")
    return {name: Volume(name, count, blocks[name]) for name, count in tracks.items()}
