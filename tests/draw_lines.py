"""Random lines for the console that are no play of a box: each reason of a bad line, alone and behind others, lines of about
8,192 bytes, comments, and the limits of numbers."""

import bench

# Faults are put into these; the words with most items stand here more than once. A fault never leaves a line good.
GOOD = [b"setup 1 4 1 2 1 1 7", b"deal 5 3 2 4 1 6 7 9"] * 4 + [
    b"deliver 1 0200", b"deliver 1 0200", b"lend 2048", b"recover", b"show", b"read 04000701000700070008", b"points 0",
    b"help 3", b"help", b"quit"]
HARMLESS = [b"deal 5 3 2 4 1 6 7 9", b"deliver 1 0200", b"recover", b"show", b"read 04000701000700070008", b"points 0", b"help 3"]

# Each takes its turn, a line a class.
TURNS = [b"help", *(b"help %d" % number for number in range(22)), b"lend 4096", b"lend 4097", b"points 19", b"points 20"]

TOPS = {b"lend": 4096, b"points": 19, b"help": 20}
NO_NUMBERS = [b"x", b"-", b"-1", b"+1", b"00", b"01", b"1a", b"1.", b"0x1", b"#", b"65536", b"70000", b"100000", b"4294967297",
              b"18446744073709551617"]
NO_BYTES = [b"0", b"020", b"0A", b"AB", b"04000F", b"0G", b"g0", b"--", b"-00", b"00-", b"0x00", b"+0", b"00.0", b"/0", b"0:", b"`0"]
OUTSIDE = [0, 1, 9, 11, 12, 13, 27, 31, 127, 128, 160, 194, 239, 255]  # of 32..126, and no newline
ODD = [b" ", b"   ", b" #", b" # show", b"show #", b"show# ", b"-", b"~", b"!", b"\0", b"\xef\xbb\xbfshow", b"show\r", b"quit\r",
       b"read -", b"deliver 1 -", b"deal 65535", b"deliver 65535 -", b"box 1", b"answer 0", b"bad line", b"0", b"show\t", b"\x7f"]

# How a long line starts, and what then fills it.
LONG = [(b"deliver 10 ", b"0a"), (b"deliver 100 ", b"0a"), (b"read ", b"02"), (b"deal 5", b" 1"), (b"deal 15", b" 1"), (b"#", b"\xff"),
        (b"x", b"x"), (b"show", b" "), (b"show ", b"1"), (b"", b"\0")]


def other_item(rng, line):
    """One item or two in another form, so that the first shows; a word without items gets one."""
    words = line.split(b" ")
    places = range(1, len(words))
    if not places:
        return line + b" x"
    for at in rng.sample(places, min(len(places), rng.choice([1, 1, 2]))):
        if (words[0], at) in ((b"deliver", 2), (b"read", 1)):
            words[at] = rng.choice(NO_BYTES)
        else:
            words[at] = rng.choice([b"%d" % (TOPS.get(words[0], 65535) + 1), *rng.sample(NO_NUMBERS, 2)])
    return b" ".join(words)


def other_count(rng, line):
    """Fewer or more items than the word wants."""
    words = line.split(b" ")
    form = bench.FORMS[words[0]]
    counts = [count for count in (0, form.fewest - 1, form.most + 1, form.most + 2)
              if 0 <= count < 20 and not form.fewest <= count <= form.most]
    return b" ".join((words + [b"1"] * 20)[:1 + rng.choice(counts)])


def other_word(rng, line):
    """Nearly the word, or another."""
    word, space, items = line.partition(b" ")
    others = [word[:-1], word[1:], word + b"s", word + word, word.title(), word.upper(), b"sheet", b"-", b"7"]
    return rng.choice(others) + space + items


def other_space(rng, line):
    """One more at the start, at the end, or beside another."""
    at = rng.choice([0, len(line), *(at for at, byte in enumerate(line) if byte == 32)])
    return line[:at] + b" " * rng.choice([1, 1, 2]) + line[at:]


def other_byte(rng, line):
    """A byte or two outside 32..126, in another's place or between two."""
    for _ in range(rng.choice([1, 1, 2])):
        at = rng.randrange(len(line) + 1)
        line = line[:at] + bytes([rng.choice(OUTSIDE)]) + line[rng.choice([at, at + 1]):]
    return line


# How often each, in an order in which none undoes another: the last reason first.
FAULTS = {other_item: 5, other_count: 2, other_word: 1, other_space: 2, other_byte: 2}


def bad_line(rng):
    """A good line with one fault, or with some, so that the first reason shows."""
    line, chosen = rng.choice(GOOD), rng.choices([*FAULTS], [*FAULTS.values()], k=rng.choice([1, 1, 1, 2, 3]))
    for fault in FAULTS:
        line = fault(rng, line) if fault in chosen else line
    return line


def changed_line(rng):
    """An odd line, or one with one byte changed, which may still be good."""
    line = bytearray(rng.choice([*HARMLESS, *ODD]))
    if rng.random() < 0.5:
        line[rng.randrange(len(line))] = rng.choice(b" !~0123456789abcdefxA-#\t\r\x1f\x7f\xa0")
    return bytes(line)


def silent_line(rng):
    """An empty one, or a comment of any bytes."""
    return rng.choice([b"", b"#", b"# quit", b"#" + rng.randbytes(rng.randrange(40)).replace(b"\n", b" ")])


def long_line(rng):
    """One of 8,192 bytes with its newline is whole, one of 8,193 is not, whatever it would say."""
    size = rng.choice([8191, 8192, 8193, 8191, 8192, 8193, 8190, 8194, 9000, 20000])
    start, more = rng.choice(LONG)
    return (start + more * size)[:size - 1]
