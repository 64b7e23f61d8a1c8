"""An association between two programs, without a socket, as association.c has it.

    python3 association.py whole PPDUS LEFT.hex RIGHT.hex

Both ends are here, and their octets are carried from one to the other and written to two files as hexadecimal. The first word
says what happens: whole, selector, class or abort, as in association.c.
"""
import sys
from pathlib import Path

from osi_session import Classes, Connect, Connected, Data, End, Opening, Release, Terms, Units

SELECTOR = b"\x00\x01"


def read_ppdu(folder, name):
    """The octets of a file of hexadecimal digits; '#' begins a comment."""
    lines = (folder / f"{name}.hex").read_text("ascii").splitlines()
    return bytes.fromhex(" ".join(line.partition("#")[0] for line in lines))


class User:
    """What a user does with an indication; `side` is left or right."""

    def __init__(self, side, end, happens, folder):
        self.side, self.end, self.happens, self.folder = side, end, happens, folder

    def ppdu(self, name):
        return read_ppdu(self.folder, name)

    def shown(self, it):
        """Prints the indication, and answers."""
        text = f"{self.side:5} {type(it).__name__}"
        if getattr(it, "user_data", b""):
            text += f", {len(it.user_data)} octets"
        print(text + (f", reason {it.reason}" if hasattr(it, "reason") else ""))
        if isinstance(it, Connect):
            self.answer(it.reference)
        elif isinstance(it, Connected):
            self.end.data(it.reference, self.ppdu("request"))
        elif isinstance(it, Data) and self.side == "left":
            self.end.release(it.reference, self.ppdu("rlrq"))
        elif isinstance(it, Data) and self.happens == "abort":
            self.end.abort(it.reference, self.ppdu("abrt"))
        elif isinstance(it, Data):
            self.end.data(it.reference, self.ppdu("answer"))
        elif isinstance(it, Release):
            self.end.release_accept(it.reference, self.ppdu("rlre"))

    def answer(self, reference):
        """Answers a CN: the called user tests the called session selector."""
        if self.end.addresses(reference).called_selector == SELECTOR:
            self.end.accept(reference, Units.DUPLEX, user_data=self.ppdu("cpa"))
        else:
            self.end.refuse(reference)


def carry(source, user, capture):
    """Carries the outgoing octets of an end to a user's end, and writes them to a file. Returns whether there were any."""
    piece = source.outgoing()
    source.taken(len(piece))
    for start in range(0, len(piece), 24):
        print(piece[start:start + 24].hex(" "), file=capture)
    for it in user.end.feed_all(piece):
        user.shown(it)
    return bool(piece)


def main(happens, ppdus, left_name, right_name):
    folder = Path(ppdus)
    offered = Classes.CLASS_2 if happens == "class" else Classes.CLASS_0
    selector = b"\x00\x09" if happens == "selector" else SELECTOR
    with End.caller(Terms(offered)) as caller, End.called() as called, \
            open(left_name, "w") as left, open(right_name, "w") as right:
        caller.connect(Opening(Units.DUPLEX, called_tsap=SELECTOR, called_selector=selector,
                               user_data=read_ppdu(folder, "cp")))
        there, back = User("right", called, happens, folder), User("left", caller, happens, folder)
        moved = True
        while moved:
            moved = carry(caller, there, left)
            moved = carry(called, back, right) or moved


if __name__ == "__main__":
    if len(sys.argv) != 5:
        sys.exit("association.py: whole|selector|class|abort PPDUS LEFT.hex RIGHT.hex")
    main(*sys.argv[1:])
