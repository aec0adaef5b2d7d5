"""Random messages: those of a dealing, any others that have the form of one, and damage to both."""

import bench
import draw
from bench import ECHO, READY, SEND, SHARE


def forged(rng, world, tag, m, i, d, session, shift=0.0):
    """The message of this tag from m to i in this world; with some chance shifted, so that it passes and differs."""
    group = world.group
    if tag == SEND:
        a, a2, b, b2 = bench.dealt_to(group, world.f, world.f2, i)
        if rng.random() < shift:
            a, a2 = zip(*(draw.shifted(rng, group, pair) for pair in zip(a, a2)))
            b, b2 = zip(*(draw.shifted(rng, group, pair) for pair in zip(b, b2)))
        numbers = [*a, *a2, *b, *b2]
    else:
        numbers = draw.share(world, m) if tag == SHARE else draw.point(world, m, i)
        if rng.random() < shift:
            numbers = draw.shifted_pairs(rng, group, numbers)
    return bench.message(tag, d, session, world.matrix, numbers)


def any_message(rng, k):
    """The form of a message, with any tag, dealer, session and numbers, at any k."""
    def some(count):
        return [rng.choice([0, 1, 10, 1018, 65535, rng.randrange(65536)]) for _ in range(count)]

    tag = rng.choice([SEND, ECHO, READY, SHARE])
    numbers = some({SEND: 4 * k, SHARE: 2}.get(tag, 4))
    return bench.message(tag, rng.randrange(256), rng.randrange(65536), bench.square(some(k * k), k), numbers)


def any_bytes(rng):
    """A message at a k from 2 to 8 or just outside, one with damage, or bytes that were never one."""
    k = rng.choice([*range(2, 9)] * 2 + [0, 1, 1, 9, 9, 10])
    text, kind = any_message(rng, k), rng.random()
    if kind < 0.1:
        return rng.randbytes(rng.randrange(40))
    return text if kind < 0.6 else damaged(rng, text, rng.choice([*bench.GROUPS.values()]), max(k, 1))


def damaged(rng, text, group, k):
    """One fault, or two so that the order of refusals shows."""
    for _ in range(rng.choice([1, 1, 2, 3])):
        text = rng.choice(DAMAGES)(rng, text, group, k)
    return text


def put(text, at, number):
    """A two-byte number written over what stands there, if it is there."""
    return text[:at] + bench.two(number) + text[at + 2:] if 0 <= at <= len(text) - 2 else text


def numbers_start(text, k):
    return 6 if text[:1] == bytes([SHARE]) else 7 + 2 * k * k


def cut(rng, text, group, k):
    return text[:rng.choice([0, 1, 2, 3, 6, 7, max(len(text) - 1, 0), rng.randrange(len(text) + 1)])]


def lengthened(rng, text, group, k):
    """Behind its end; now and then with a size field to match."""
    text += rng.randbytes(rng.choice([1, 2, 4]))
    return put(text, 1, len(text) - 3) if rng.random() < 0.5 else text


def other_tag(rng, text, group, k):
    return bytes([rng.choice([0, 1, 2, 3, 4, 5, 255])]) + text[1:]


def other_size(rng, text, group, k):
    return put(text, 1, rng.choice([0, len(text), len(text) - 2, 65535]) % 65536)


def other_header(rng, text, group, k):
    """Dealer, session or k."""
    at = rng.choice([3, 4, 5, 6])
    return text[:at] + bytes([rng.choice([0, 1, 2, 3, k + 1, 255])]) + text[at + 1:] if at < len(text) else text


def other_entry(rng, text, group, k):
    """An entry outside the group, or another element of it."""
    if text[:1] == bytes([SHARE]):
        return text
    element = pow(group.g, rng.randrange(group.q), group.p)
    return put(text, 7 + 2 * rng.randrange(k * k), draw.outside(rng, group) if rng.random() < 0.8 else element)


def some_number(rng, text, k):
    """Where one of the exponents stands, and which it is."""
    start = numbers_start(text, k)
    at = start + 2 * rng.randrange(max(1, (len(text) - start) // 2))
    return at, int.from_bytes(text[at:at + 2], "big")


def one_off(rng, text, group, k):
    """One exponent wrong by one: only the check of its kind can tell."""
    at, now = some_number(rng, text, k)
    return put(text, at, (now + 1) % group.q)


def other_number(rng, text, group, k):
    """An exponent >= q, or 0."""
    at, now = some_number(rng, text, k)
    return put(text, at, rng.choice([draw.too_large(rng, group, now), draw.too_large(rng, group, now), 0]))


def zeros(rng, text, group, k):
    """All exponents 0."""
    start = numbers_start(text, k)
    return text[:start] + bytes(max(0, len(text) - start))


def flipped(rng, text, group, k):
    """One bit."""
    at = rng.randrange(len(text) or 1)
    return text[:at] + bytes([text[at] ^ 1 << rng.randrange(8)]) + text[at + 1:] if text else b"\x01"


DAMAGES = [cut, lengthened, other_tag, other_size, other_header, other_entry, other_entry, other_number, other_number,
           one_off, one_off, zeros, flipped]
