"""The TCP checksums of one direction: which of its frames were damaged on their way. Their receiver throws these away, so nobody is blamed
for them, however many they are.

A wrong checksum needs no damage. Three kinds say nothing of a frame, or say that it is right:

- A machine that captures what it sends leaves the checksum to its card. In the capture it is 0, or the sum of the pseudo header, which
  drivers write with and without the length, and as it is or complemented.
- A segment with more octets than its receiver takes was on no network: a card has still to cut it, or has joined it.
- A program that changes the addresses of a capture may leave the checksums as they were. Then all of a direction, with those of segments
  without octets, are wrong by the same number, or differ by it from what a card has still to complete.
"""
PROTOCOL, ONES, FIELD = 6, 0xFFFF, slice(16, 18)
# How many first checksums of a direction have to be wrong by the same number, and how many wrong ones it takes to say that all are wrong.
ALIKE, FEW = 2, 3
# How many frames with wrong checksums are remembered of a direction; after them each frame counts as damaged.
MOST = 4_096


def of_segment(addresses, segment):
    """What the checksum of a segment says, between these addresses."""
    total = int.from_bytes(addresses, "big") + PROTOCOL + len(segment) + int.from_bytes(segment + b"\0" * (len(segment) % 2), "big")
    return told(int.from_bytes(segment[FIELD], "big"), total % ONES, addresses, len(segment))


def told(value, error, addresses, length):
    """How far a checksum is from the right one, and how far from each form in which a card has still to complete it; None if it has such a
    form, or is 0."""
    plain = int.from_bytes(addresses, "big") + PROTOCOL
    from_forms = tuple((value + each) % ONES for each in (-plain - length, -plain, plain + length, plain))
    return None if error and (value % ONES == 0 or 0 in from_forms) else (error, *from_forms)


class Sums:
    """The checksums of a direction."""

    def __init__(self):
        self.first, self.change, self.right, self.wrong = [], {}, 0, 0
        # The first frames with octets and wrong checksums, and the frame from which on each one counts.
        self.hurt, self.later = set(), None
        # The most octets of a segment that the other end takes, if it says so.
        self.most = None

    def take_most(self, segment):
        """Takes how many octets of a segment the other end takes, from its first segment if that isn't damaged."""
        if not (segment.sum and segment.sum[0]):
            self.most = max(segment.most, self.most or 0) or None

    def note(self, frame, found, octets):
        """Notes what the checksum of a segment with so many octets says."""
        if found is None or self.most and octets > self.most:
            return
        if len(self.first) < ALIKE:
            self.first.append(found)
            self.look_for_change()
        if found[0] == 0 or self.is_changed(found):
            self.right += 1
            return
        self.wrong += 1
        if octets and len(self.hurt) < MOST:
            self.hurt.add(frame)
        elif octets and self.later is None:
            self.later = frame

    def look_for_change(self):
        """Looks whether the first checksums are all wrong by the same number, or differ by it from a form that a card completes. (It may be
        two forms, if the segments have the same length.)"""
        if len(self.first) < ALIKE or any(found[0] == 0 for found in self.first):
            return
        self.change = {place: values[0] for place, values in enumerate(zip(*self.first)) if len(set(values)) == 1}
        if self.change:
            self.right, self.wrong = self.right + self.wrong, 0
            self.hurt.clear()

    def is_changed(self, found):
        """Whether a checksum is wrong only by what was changed in all of them."""
        return any(found[place] == value for place, value in self.change.items())

    def is_hurt(self, frame):
        """Whether a frame was damaged on its way."""
        return frame in self.hurt or self.later is not None and frame >= self.later

    def is_certain(self, frame):
        """Whether a frame was damaged, and others of its direction show that checksums are to be trusted."""
        return self.right > 0 and self.is_hurt(frame)

    def has_damage(self):
        """Whether some frame was damaged, and others show that checksums are to be trusted."""
        return self.right > 0 and bool(self.hurt)

    def are_all_wrong(self):
        """Whether none is right, and there are some."""
        return self.right == 0 and self.wrong >= FEW
