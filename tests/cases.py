"""What a line of a class and its answer are cases of. The play counts the cases it meets, and each has to be met."""

import re

import bench

LAST = 8  # up to which item a wrong one is wanted; a deal may have any number

CASES = {
    "answers": [str(number) for number in range(16)],
    "reasons": ["too long", "cut off", "byte", "space", "no such word", "items", "item"],
    "numbers of items": [word.decode() for word in bench.FORMS],
    "items": [f"{word.decode()} {at}" for word, form in bench.FORMS.items()
              for at in range(1, min(form.most, LAST) + 1)],
    "limits": ["lend 4096", "lend 4097", "points 19", "points 20", "help 20", "help 21"],
    "bytes of a line": ["8191", "8192", "8193"],
    "no answer": ["empty", "comment", "quit"],
    "reads": ["send", "echo", "ready", "recovery", "no message"],
    "points": ["silent", "echo", "ready", "echo ready", "no place", "no box"],
    "shows": ["box", "dealt", "not dealt", "place", "completed place", "not completed", "commanded", "not commanded", "kept",
              "kept none", "recovered", "not recovered", "no box"],
    "heard": [f"{word} {who}" for word in bench.WORDS.values() for who in ("none", "some")],
    "helps": ["help", *(f"help {number}" for number in range(21))],
}


def cases(line, answer):
    """Each topic and case that this line with its answer is one of."""
    rows = answer.decode().splitlines()
    word, *items = line.rstrip(b"\n").decode("latin-1").split(" ")
    yield from of_line(line, answer)
    if not rows:
        return
    if rows[0].startswith("bad line: "):
        yield from of_reason(word, rows[0].removeprefix("bad line: "))
    elif word == "help":
        yield "helps", " ".join([word, *items])
    elif rows[0].startswith("answer "):
        yield "answers", rows[0].split(" ")[1]
    elif word == "read":
        yield "reads", re.sub(r" dealer .*", "", rows[0])
    elif word == "points":
        yield from (("points", re.sub(r" ?\d+", "", row).strip()) for row in rows)
    elif word == "show":
        yield from of_show(rows)


def of_line(line, answer):
    """What can be told without its answer, or since there is none."""
    yield "bytes of a line", str(len(line))
    yield "limits", line.rstrip(b"\n").decode("latin-1")
    if not answer:
        yield "no answer", "empty" if line == b"\n" else "comment" if line.startswith(b"#") else "quit"


def of_reason(word, reason):
    """The reason without its numbers, and with the word if its items are at fault."""
    yield "reasons", re.sub(r" at \d+| \d+", "", reason)
    if reason == "items":
        yield "numbers of items", word
    if reason.startswith("item "):
        yield "items", f"{word} {reason.removeprefix('item ')}"


def of_show(rows):
    """Each line without its numbers, and of which tags nobody is heard."""
    for row in rows:
        yield "shows", re.sub(r" \d.*", "", row)
        if row.startswith("heard "):
            for tag, first in re.findall(r"(send|echo|ready|recovery) (none|\d)", row):
                yield "heard", f"{tag} {'none' if first == 'none' else 'some'}"


def counted(met):
    """A line a topic: how often each of its cases was met."""
    return [f"{topic} met: " + ", ".join(f"{case}: {met[topic, case]}" for case in wanted) for topic, wanted in CASES.items()]


def missing(met):
    """The cases never met."""
    return [f"{topic}: {case}" for topic, wanted in CASES.items() for case in wanted if not met[topic, case]]
