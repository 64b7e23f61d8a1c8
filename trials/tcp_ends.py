"""Two honest ends of TCP with a network and a tap between them, played by events in order of their times. A network loses, repeats and
delays segments before and after the tap; an end sends again what isn't acknowledged, with other boundaries, and probes closed windows
and idle connections."""
import heapq

SPACE = 2 ** 32
FIN, SYN, RESET, PUSH, ACK = 1, 2, 4, 8, 16
WINDOW = 65_535


class Segment:
    """A segment; its sequence number is that of its first octet."""

    def __init__(self, sequence, acknowledged, flags, octets=b"", window=WINDOW):
        self.sequence, self.acknowledged, self.flags, self.octets, self.window = sequence % SPACE, acknowledged, flags, octets, window


def habits(chance):
    """How a network and its ends behave in a run."""
    def some(most):
        return most if chance.random() < 0.5 else 0.0
    first = [chance.randrange(SPACE) if chance.random() < 0.5 else SPACE - chance.randrange(1, 400) for _ in range(2)]
    return {"first": first, "delays": [chance.choice((1e-5, 0.001, 0.05)) for _ in range(2)], "loss": [some(0.08), some(0.08)],
            "repeats": [some(0.08), some(0.05)], "jitter": [some(3), some(3)], "segment": chance.choice((60, 536, 1_400, 1_400)),
            "open": chance.choice((None, None, None, "refused", "taken")), "ragged": chance.random() < 0.3,
            "alive": chance.choice((0, 0, 2, 7)), "garbage": chance.randrange(3), "closes": chance.random() < 0.15,
            "joins": chance.random() < 0.3, "again": chance.choice((0, 0, 3))}


class Network:
    """Carries segments past a tap, which keeps the time, the side (0 or 1) and the segment of each."""

    def __init__(self, chance, manners):
        self.chance, self.manners, self.now, self.events, self.count, self.tapped, self.ends = chance, manners, 0.0, [], 0, [], [None, None]

    def later(self, wait, job, *words):
        """Does a job after so many seconds."""
        self.count += 1
        heapq.heappush(self.events, (self.now + wait, self.count, job, words))

    def carry(self, side, segment, part=0):
        """A segment leaves an end (part 0), or the tap (part 1)."""
        manners, chance = self.manners, self.chance
        if chance.random() < manners["loss"][part]:
            return
        for _ in range(2 if chance.random() < manners["repeats"][part] else 1):
            wait = manners["delays"][side ^ part] * (1 + chance.random() * manners["jitter"][part])
            self.later(wait, *((self.ends[1 - side].receive, segment) if part else (self.pass_tap, side, segment)))

    def pass_tap(self, side, segment):
        """A segment passes the tap."""
        self.tapped.append((self.now, side, segment))
        self.carry(side, segment, 1)

    def run(self, most=6_000):
        """Plays events until none are left, or for an hour, or so many."""
        while self.events and self.now < 3_600 and self.count < 4 * most:
            self.now, _, job, words = heapq.heappop(self.events)
            job(*words)


class End:
    """An end of TCP. Places count the octets of a direction: `unheard` is the first that isn't acknowledged, `next` the first that wasn't
    sent, `got` how many the other end sent that came in their order. `user` has `opened` and `received`."""

    def __init__(self, network, side, user):
        self.network, self.side, self.user, self.chance, self.manners = network, side, user, network.chance, network.manners
        self.first, self.octets, self.unheard, self.next, self.last = self.manners["first"][side], b"", 0, 0, None
        self.far, self.got, self.early, self.far_last, self.is_told = None, 0, {}, None, False
        self.is_open = self.is_dead = self.is_probing = False
        self.wait, self.timer, self.window, self.far_window, self.sent_at = 1.0, 0, WINDOW, WINDOW, 0.0
        user.end, network.ends[side] = self, self

    def call(self, tries=0):
        """Sends the first segment, with octets if the run has TCP Fast Open, and again until it is answered."""
        if self.is_open or self.is_dead or tries > 5:
            return
        octets = self.octets[:self.manners["segment"]] if self.manners["open"] and not tries else b""
        self.network.carry(self.side, Segment(self.first, 0, SYN, octets))
        self.network.later(2 ** tries, self.call, tries + 1)

    def answer(self, tries=0):
        """Answers the first segment."""
        if not (self.is_open or self.is_dead or tries > 5):
            self.network.carry(self.side, Segment(self.first, (self.far + 1 + self.got) % SPACE, SYN | ACK))
            self.network.later(2 ** tries, self.answer, tries + 1)

    def put(self, place, flags=0, octets=b""):
        """Sends a segment that begins at a place, and acknowledges what came."""
        is_ended = self.far_last is not None and self.got >= self.far_last
        self.sent_at = self.network.now
        self.network.carry(self.side, Segment(self.first + 1 + place, (self.far + 1 + self.got + is_ended) % SPACE, flags | ACK, octets,
                                              self.window))

    def write(self, octets):
        """Sends octets of the user."""
        if self.last is None and not self.is_dead:
            self.octets += octets
            self.send()

    def close(self):
        """Ends the direction."""
        if self.last is None and not self.is_dead:
            self.last = len(self.octets)
            self.send()

    def reset(self, text=b""):
        """Resets the connection."""
        if self.is_open and not self.is_dead:
            self.is_dead = True
            self.put(self.next, RESET, text)

    def send(self):
        """Sends what the window of the other end allows."""
        if self.is_dead or not self.is_open:
            return
        limit = self.unheard + self.far_window
        while self.next < min(len(self.octets), limit):
            count = min(self.manners["segment"], len(self.octets) - self.next, limit - self.next)
            count = self.chance.randrange(count // 2, count) + 1 if self.manners["ragged"] else count
            place, end = self.next, self.next + count
            is_last = end == self.last and self.chance.random() < 0.6
            self.next = end + is_last
            self.put(place, PUSH * (end == len(self.octets)) | FIN * is_last, self.octets[place:end])
        if self.last == self.next < limit + 1:
            self.next += 1
            self.put(self.last, FIN)
        if not self.far_window and self.next < len(self.octets) and not self.is_probing:
            self.is_probing = True
            self.network.later(0.5, self.probe)
        self.set_timer()

    def probe(self):
        """Looks whether a closed window has opened, by an octet more."""
        self.is_probing = not (self.is_dead or self.far_window or self.next >= len(self.octets))
        if self.is_probing:
            self.put(self.next, 0, self.octets[self.next:self.next + 1])
            self.network.later(0.7, self.probe)

    def set_timer(self):
        """Waits for an acknowledgement."""
        self.timer += 1
        if self.unheard < self.next and not self.is_dead:
            self.network.later(self.wait, self.send_again, self.timer)

    def send_again(self, timer=None):
        """Sends again what isn't acknowledged, or a part of it; with what waits, if the run joins it."""
        if self.is_dead or not self.is_open or self.unheard >= self.next or timer not in (None, self.timer):
            return
        end = len(self.octets) if self.manners["joins"] and self.far_window else min(self.next, len(self.octets))
        end = min(end, self.unheard + max(self.far_window, 1), self.unheard + self.manners["segment"])
        is_last = self.last is not None and end == self.last < self.next
        self.next = max(self.next, end + is_last)
        if end > self.unheard or is_last:
            self.put(self.unheard, PUSH | FIN * is_last, self.octets[self.unheard:end])
        if timer is not None:
            self.wait = min(2 * self.wait, 30)
            self.set_timer()

    def keep_alive(self, times=5):
        """Asks now and then whether the other end is there, with no octet, with one that means nothing, or with the last one."""
        if self.is_dead or not times:
            return
        if self.network.now - self.sent_at > 0.9 * self.manners["alive"] and self.unheard == self.next and self.last is None:
            self.put(self.next - 1, 0, (b"", b"\0", self.octets[self.next - 1:self.next])[self.manners["garbage"]])
        self.network.later(self.manners["alive"], self.keep_alive, times - 1)

    def receive(self, segment):
        """Takes a segment."""
        flags = segment.flags
        if self.is_dead or flags & RESET:
            if self.is_dead and not flags & RESET:
                self.network.carry(self.side, Segment(segment.acknowledged, 0, RESET))
            self.is_dead = True
        elif flags & SYN:
            self.take_first(segment, flags)
        elif self.far is not None:
            self.open()
            heard = (segment.acknowledged - self.first - 1) % SPACE
            if self.unheard < heard <= self.next:
                self.unheard, self.wait = heard, 1.0
                self.set_timer()
            self.far_window = segment.window
            self.take_octets((segment.sequence - self.far - 1 + SPACE // 2) % SPACE - SPACE // 2, segment)
            self.send()

    def take_first(self, segment, flags):
        """Takes the first segment of the other end, or its answer."""
        if self.far is not None:
            return
        self.far = segment.sequence
        if flags & ACK:
            self.unheard = self.next = (segment.acknowledged - self.first - 1) % SPACE
            self.open()
            self.put(self.next)
            self.send()
            return
        if self.manners["open"] == "taken":
            self.early[0], self.got = segment.octets, len(segment.octets)
        self.answer()

    def open(self):
        """The connection is open."""
        if self.is_open:
            return
        self.is_open = True
        self.user.received(self.early.pop(0, b""))
        for _ in range(self.manners["again"]):
            self.network.later(3 * self.chance.random(), self.send_again)
        if self.manners["alive"]:
            self.network.later(self.manners["alive"], self.keep_alive)

    def take_octets(self, place, segment):
        """Takes octets, and acknowledges them; those beyond a closed window, and those of keepalives, are thrown away."""
        if segment.flags & FIN:
            self.far_last = place + len(segment.octets)
        before, is_old = self.got, place + len(segment.octets) <= self.got
        if not (self.window == 0 and not is_old or is_old and not segment.flags & FIN):
            self.early[place] = max(self.early.get(place, b""), segment.octets, key=len)
        found = b""
        for first in sorted(each for each in self.early if each <= self.got):
            new = self.early.pop(first)[self.got - first:]
            found, self.got = found + new, self.got + len(new)
        if found:
            if self.manners["closes"] and self.window and self.chance.random() < 0.1:
                self.window = 0
                self.network.later(3 * self.chance.random(), self.open_window)
            self.user.received(found)
        if self.far_last == self.got and not self.is_told:
            self.is_told = True
            self.put(self.next)
            self.network.later(0.1 * self.chance.random(), self.close)
        elif (segment.octets or place < before) and not self.is_dead:
            self.network.later(0.2 * (self.chance.random() < 0.5), self.acknowledge, self.sent_at)

    def acknowledge(self, since):
        """Acknowledges what came, unless that was done."""
        if self.sent_at == since and not self.is_dead:
            self.put(self.next)

    def open_window(self):
        """Opens the window again."""
        self.window = WINDOW
        if not self.is_dead:
            self.put(self.next)
