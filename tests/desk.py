"""One box under the teacher's hand: what is typed for it between the messages of a class."""

import bench
import draw
import draw_lines
from bench import ECHO, READY, SEND, SHARE
from draw_messages import any_bytes, damaged, forged


class Desk:
    """The lines typed for the box, and where they lead, so that play can go on from there."""

    def __init__(self, rng, numbers):
        self.rng, self.numbers, self.lines = rng, numbers, []
        self.console = bench.Console()

    @property
    def box(self):
        return self.console.box

    def type(self, line):
        """Types a line and gives the messages it sent."""
        self.lines.append(line + b"\n")
        answer = self.console.answer(line + b"\n")
        return [bytes.fromhex(row.split(" ")[2]) for row in answer.splitlines() if row.startswith("to ")]

    def command(self, *words):
        return self.type(" ".join(map(str, words)).encode())

    def set_up(self):
        """Before the true set-up now and then refused ones, and calls that then meet 12, or first 15."""
        self.command("lend", self.rng.choice([2048, 2048, 2049, 4096]))
        if self.rng.random() < 0.3:
            self.refused_set_ups()
        if self.rng.random() < 0.1:
            self.short_of_bytes(Desk.set_up_and_call)
        self.command("setup", *self.numbers)
        for _ in range(self.rng.choice([0, 0, 0, 2])):
            self.try_deal()

    def set_up_and_call(self):
        """The lent buffer stays as it is over a set-up."""
        self.command("setup", *self.numbers)
        self.rng.choice(CALLS[:3])(self)

    def refused_set_ups(self):
        rng = self.rng
        for _ in range(rng.randrange(1, 4)):
            self.command("setup", *wrong_numbers(rng, self.numbers))
            for call in rng.sample(CALLS, rng.randrange(3)):
                self.short_of_bytes(call) if rng.random() < 0.2 else call(self)

    def short_of_bytes(self, call):
        """A call with a short buffer, and the buffer back."""
        before = self.console.lent
        self.command("lend", self.rng.choice([2047, 2047, 0, 1, 1990, self.rng.randrange(2048)]))
        call(self)
        self.command("lend", before)

    def deliver(self, sender, text):
        return self.command("deliver", sender, text.hex() or "-")

    def disturb(self):
        """Something between two messages that the box has to bear."""
        if self.rng.random() < 0.35:
            doings, weights = zip(*DISTURBANCES)
            self.rng.choices(doings, weights)[0](self)

    def try_deal(self):
        """Good secret and coins, or one fault: the secret, a coin, or how many coins there are."""
        rng, k = self.rng, self.numbers[3]
        q = bench.GROUPS[self.numbers[0]].q
        numbers = [rng.randrange(q) for _ in range(2 * k * k)]
        kind = rng.choice(["good", "secret", "coin", "coin", "fewer", "more", "none"])
        if kind in ("secret", "coin"):
            numbers[0 if kind == "secret" else rng.randrange(1, 2 * k * k)] = rng.choice([q, q, q + 1, 65535])
        self.command("deal", *{"fewer": numbers[:-1], "more": numbers + [0], "none": numbers[:1]}.get(kind, numbers))

    def try_deliver(self):
        rng, (g, n, _, k, i, d, session) = self.rng, self.numbers
        world = draw.world(rng, bench.GROUPS[g], k)
        tag = rng.choice([SEND, ECHO, READY, SHARE])
        sender = rng.choice([d, rng.randrange(n + 2)])
        text = forged(rng, world, tag, sender, i, d, session)
        self.deliver(sender, damaged(rng, text, world.group, k) if rng.random() < 0.5 else text)

    def try_recover(self):
        self.command("recover")

    def show(self):
        self.command("show")

    def points(self):
        """Of a place in use, of the next one, or of any."""
        used = len(self.box.places)
        self.command("points", self.rng.choice([0, self.rng.randrange(used or 1), min(used, 19), self.rng.randrange(20)]))

    def read(self):
        """A message that this box could get, or any."""
        rng, (g, n, _, k, i, d, session) = self.rng, self.numbers
        world, tag, sender = draw.world(rng, bench.GROUPS[g], k), rng.choice([SEND, ECHO, READY, SHARE]), rng.randrange(1, n + 1)
        text = forged(rng, world, tag, sender, i, d, session) if rng.random() < 0.3 else any_bytes(rng)
        self.command("read", text.hex() or "-")


CALLS = [Desk.try_deal, Desk.try_deliver, Desk.try_recover, Desk.show, Desk.points]


def types(line):
    """Types a line drawn so."""
    return lambda desk: desk.type(line(desk.rng))


# What disturbs, and how often beside the others.
DISTURBANCES = [
    (lambda desk: desk.rng.choice(CALLS)(desk), 50),
    (lambda desk: desk.short_of_bytes(desk.rng.choice(CALLS)), 30),
    (types(draw_lines.bad_line), 150),
    (types(draw_lines.changed_line), 20),
    (types(draw_lines.silent_line), 15),
    (types(draw_lines.long_line), 4),
    (Desk.show, 30),
    (Desk.points, 25),
    (Desk.read, 25),
    (lambda desk: desk.command("setup", *desk.numbers), 2),
]


def wrong_numbers(rng, numbers):
    """Set-up numbers that break a rule or two: the group, n, t, k, the box, the dealer."""
    g, n, t, k, i, d, session = numbers
    kind = rng.randrange(5)
    if kind in (0, 1):
        g = rng.choice([0, 3, 65535, 256]) if kind == 0 else g
    if kind in (1, 2):
        n, t, k = draw.unlawful(rng, n, t, k)
    if kind == 3:
        i = rng.choice([0, n + 1, 11, 257, 65535])
    if kind == 4 or rng.random() < 0.1:
        d = rng.choice([0, n + 1, 11, 257, 65535])
    return g, n, t, k, i, d, session
