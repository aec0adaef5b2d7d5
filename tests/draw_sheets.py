"""Random sheets: well-formed ones with silent boxes and wrong shares, and damaged ones."""

import random

import bench
import draw


def one_sheet(seed, number):
    """The bytes of sheet `number`."""
    rng = random.Random(f"{seed} sheet {number}")
    g, n, t, k = draw.LAWFUL[number % len(draw.LAWFUL)]
    group = bench.GROUPS[g]
    world = draw.world(rng, group, k)
    entries = list(sum(world.matrix, ()))
    if rng.random() < 0.15:
        entries[rng.randrange(k * k)] = draw.outside(rng, group)
    quiet = rng.choice([0, 0.2, 0.5])
    boxes = [[m, *box_words(rng, world, m, quiet)] for m in range(1, n + 1)]
    lines = [head(rng, g, n, t, k), entries, *boxes]
    text = "".join(" ".join(map(str, line)) + "\n" for line in lines).encode()
    return rng.choice(DAMAGES)(rng, text) if rng.random() < 0.4 else text


def head(rng, g, n, t, k):
    """The first line, now and then with a wrong group or numbers that break a rule."""
    kind = rng.randrange(30)
    if kind in (0, 1):
        g = rng.choice([0, 3, 257, 65535])
    if kind in (1, 2):
        n, t, k = draw.unlawful(rng, n, t, k)
    return ["sheet", g, n, t, k]


def box_words(rng, world, m, quiet):
    """The box's share, or one that passes and differs, a wrong one, zeros, one too large, or silence."""
    group, pair = world.group, draw.share(world, m)
    if rng.random() < quiet:
        return ["silent"]
    kind = rng.choice(["true"] * 6 + ["shifted", "wrong", "zeros", "too large"])
    if kind == "shifted":
        return draw.shifted(rng, group, pair)
    if kind == "wrong":
        return [rng.randrange(group.q), pair[1]]
    if kind == "zeros":
        return [0, 0]
    if kind == "too large":
        pair[rng.randrange(2)] = draw.too_large(rng, group, rng.choice(pair))
    return pair


# Damage to the text


def byte_changed(rng, text):
    at = rng.randrange(len(text))
    return text[:at] + bytes([rng.choice(b" \n0123456789silent-\r\t\0\xff")]) + text[at + 1:]


def byte_lost(rng, text):
    at = rng.randrange(len(text))
    return text[:at] + text[at + 1:]


def byte_more(rng, text):
    at = rng.randrange(len(text) + 1)
    return text[:at] + bytes([rng.choice(b" \n0123456789s")]) + text[at:]


def cut_short(rng, text):
    """Often by the last newline alone."""
    first = text.find(b"\n")
    return text[:rng.choice([0, len(text) - 1, len(text) - 1, len(text) - 1, first, first + 1, rng.randrange(len(text))])]


def line_changed(rng, text):
    """A line twice, gone, or in another's place."""
    lines = text.splitlines(keepends=True)
    at = rng.randrange(len(lines))
    kind = rng.randrange(3)
    if kind == 0:
        lines.insert(at, lines[at])
    elif kind == 1:
        del lines[at]
    else:
        lines[at], lines[-1] = lines[-1], lines[at]
    return b"".join(lines)


def word_changed(rng, text):
    """One word in another form: a leading zero, a sign, above 65,535, another word."""
    words = text.replace(b"\n", b" \n ").split(b" ")
    at = rng.choice([at for at, word in enumerate(words) if word not in (b"\n", b"")])
    words[at] = rng.choice([b"0" + words[at], b"+" + words[at], b"65536", b"99999999999", b"silent", b"Silent", b"", b"-", b"11",
                            words[at] + b" 1"])
    return b" ".join(words).replace(b" \n ", b"\n")


def padded(rng, text):
    """To 4,096 bytes, or one more; behind a whole sheet or behind a first line that is refused before the rest is read."""
    start = rng.choice([text, b"sheet 3 4 1 2\n", b"sheet 1 4 1 3\n"])
    return (start + rng.choice([b"\n", b"0", b" ", b"\0"]) * 5000)[:rng.choice([4096, 4097, 5000])]


def carriage_returns(rng, text):
    return text.replace(b"\n", b"\r\n")


DAMAGES = [byte_changed, byte_changed, byte_lost, byte_more, cut_short, line_changed, word_changed, word_changed, padded, padded,
           carriage_returns]
