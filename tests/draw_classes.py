"""Random classes for the console: lines for boxes that meet repeats, drops, damage, rival matrices and rule-breakers."""

import random

import bench
import draw
import draw_lines
from bench import ECHO, READY, SEND, SHARE
from desk import Desk
from draw_messages import damaged, forged, one_off


def one_class(seed, number):
    """The lines of class `number`: the set-up numbers go round all lawful ones, the rest is by chance."""
    rng = random.Random(f"{seed} class {number}")
    g, n, t, k = draw.LAWFUL[number % len(draw.LAWFUL)]
    i = rng.randrange(1, n + 1)
    d = rng.choice([i, rng.randrange(1, n + 1)])
    numbers = [g, n, t, k, i, d, rng.choice([0, 7, 255, 256, 65535])]
    lines = network(rng, numbers) if rng.random() < 0.3 else forgeries(rng, numbers)
    return [*lines, draw_lines.TURNS[number % len(draw_lines.TURNS)] + b"\n"]


def forgeries(rng, numbers):
    """One box; all others are played by hand, from one world, from few, or from a new one for each message."""
    g, n, t, k, i, d, session = numbers
    group = bench.GROUPS[g]
    desk = Desk(rng, numbers)
    desk.set_up()
    many = rng.choice([1, 1, 2, 2, 3, 2 * n])
    worlds = [draw.world(rng, group, k) for _ in range(many)]
    shift, harm = rng.choice([0, 0, 0.3, 0.7]), rng.choice([0, 0.15, 0.4])
    faithful = rng.choice([rng.random(), 1])
    if many == 2 * n:  # a place for each message, 20 with ten boxes
        harm, faithful = 0, 1
    dealers = [d, rng.randrange(1, n + 1), rng.randrange(1, n + 1)]
    sent = [(m, forged(rng, rng.choice(worlds), SEND, m, i, d, session, shift)) for m in dealers]
    if rng.random() < 0.25:
        sent = [(m, one_off(rng, text, group, k)) for m, text in sent]
    for m in range(1, n + 1):
        for tag in (ECHO, READY):
            own = worlds[(2 * m + tag - 4) * many // (2 * n)]
            world = own if rng.random() < faithful else rng.choice(worlds)
            sent.append((m, forged(rng, world, tag, m, i, d, session, shift)))
    sent = [(m, one_off(rng, text, group, k) if rng.random() < harm / 4 else text) for m, text in sent]
    pass_on(rng, desk, in_some_order(rng, sent), worlds, group, harm)
    hand_over_shares(rng, desk, worlds, shift, harm)
    return desk.lines


def in_some_order(rng, sent):
    """Mixed, by tag, readies first, or sender by sender; some dropped in some classes."""
    drop = rng.choice([0, 0, 0.1])
    sent = [one for one in sent if rng.random() >= drop]
    rng.shuffle(sent)
    ranks = {m: rng.random() for m, _ in sent}
    orders = [lambda one: 0, lambda one: one[1][0], lambda one: -one[1][0], lambda one: ranks[one[0]]]
    return sorted(sent, key=rng.choice(orders))


def pass_on(rng, desk, sent, worlds, group, harm):
    """Each message with its accidents: damage before it, the wrong sender, a second one, a rival one."""
    g, n, t, k, i, d, session = desk.numbers
    for m, text in sent:
        desk.disturb()
        for _ in range(rng.choice([1, 1, 2])):
            if rng.random() < harm:
                sender = rng.choice([m, m, m, 0, n + 1, 65535, rng.randrange(1, n + 1)])
                desk.deliver(sender, damaged(rng, text, group, k) if rng.random() < 0.8 else text)
        desk.deliver(m, text)
        if rng.random() < harm:
            desk.deliver(m, forged(rng, rng.choice(worlds), text[0], m, i, d, session))
        if rng.random() < 0.05:
            desk.deliver(m, text)


def hand_over_shares(rng, desk, worlds, shift, harm):
    """The command and the recovery shares, some too soon, some wrong, some again."""
    g, n, t, k, i, d, session = desk.numbers
    matrix = desk.box.completed.matrix if desk.box.completed else None
    world = next((world for world in worlds if world.matrix == matrix), worlds[0])
    sent = [(m, forged(rng, world, SHARE, m, i, d, session, shift)) for m in range(1, n + 1)]
    rng.shuffle(sent)
    if rng.random() < 0.3:
        desk.deliver(*sent[0])
    if rng.random() < 0.95:
        desk.command("recover")
    if rng.random() < 0.1:
        desk.command("recover")
    pass_on(rng, desk, sent[:rng.choice([n, n, n, k - 1])], worlds, world.group, harm)
    late = [(m, forged(rng, rng.choice(worlds), rng.choice([ECHO, READY]), m, i, d, session)) for m in range(1, n + 1)]
    pass_on(rng, desk, rng.sample(late, 2), worlds, world.group, harm)
    desk.command("show")


def network(rng, numbers):
    """All n boxes play; the lines of up to three of them are the class."""
    g, n, t, k, _, d, session = numbers
    desks = {m: Desk(rng, [g, n, t, k, m, d, session]) for m in range(1, n + 1)}
    for desk in desks.values():
        desk.set_up()
    desks[d].command("setup", *desks[d].numbers)  # it may have dealt
    worlds = [draw.world(rng, bench.GROUPS[g], k) for _ in range(2)]
    first = worlds[0]
    coins = sum(first.f + first.f2, ())
    addressed = []

    def post(m, texts):
        addressed.extend((m, i, text) for i, text in enumerate(texts, 1))

    post(d, desks[d].command("deal", *coins))
    break_rules(rng, desks, worlds, addressed)
    carry(rng, desks, addressed, post)
    for m, desk in desks.items():
        if rng.random() < 0.9:
            post(m, desk.command("recover"))
    carry(rng, desks, addressed, post)
    for desk in desks.values():
        desk.command("show")
    return sum((desks[m].lines for m in rng.sample(sorted(desks), min(n, 3))), [])


def break_rules(rng, desks, worlds, addressed):
    """Some boxes also send for the rival matrix, or shifted, or as if they were the dealer."""
    g, n, t, k, _, d, session = desks[1].numbers
    for m in rng.sample(range(1, n + 1), rng.randrange(t + 2)):
        for i in range(1, n + 1):
            world, tag = rng.choice(worlds), rng.choice([SEND, ECHO, READY, READY, SHARE])
            addressed.append((m, i, forged(rng, world, tag, m, i, d, session, 0.5)))


def carry(rng, desks, addressed, post):
    """The links: in any order, with drops, repeats and damage, until nothing is under way."""
    drop, harm = rng.choice([0, 0, 0.05]), rng.choice([0, 0.03, 0.1])
    while addressed:
        at = rng.randrange(len(addressed))
        addressed[at], addressed[-1] = addressed[-1], addressed[at]
        m, i, text = addressed.pop()
        desk = desks[i]
        desk.disturb()
        if rng.random() < drop:
            continue
        if rng.random() < harm:
            desk.deliver(m, damaged(rng, text, bench.GROUPS[desk.numbers[0]], desk.numbers[3]))
        post(i, desk.deliver(m, text))
        if rng.random() < 0.03:
            post(i, desk.deliver(m, text))
