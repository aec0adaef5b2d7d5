"""Document 01 in Python, in its words and order: numbers, messages, checks, the steps of a box,
the recovery sheet, and the console over one box. It is written from the papers alone, so that it
and the proved programs can be played against each other."""

import re
from functools import lru_cache
from pathlib import Path
from typing import NamedTuple


# Numbers


class Group(NamedTuple):
    p: int
    q: int
    g: int
    h: int


GROUPS = {1: Group(23, 11, 2, 3), 2: Group(2039, 1019, 4, 9)}

LENT = 2048  # "Every call that can send wants at least 2,048 lent bytes"
PLACES = 20  # "at most 20 such C's can occur and there is room for all"


def lawful(n, t, k):
    """n <= 10, t >= 1, k > t, n - 2t >= k."""
    return n <= 10 and t >= 1 and k > t and n - 2 * t >= k


def keeps_rules(n, t, k, i, d, session):
    """The dealer d and the box's own number i are in 1..n. Session number: 0..65,535."""
    return lawful(n, t, k) and 1 <= i <= n and 1 <= d <= n and 0 <= session <= 65535


def quorum(n, t, k):
    """The larger of k and (n + t + 1)/2 rounded up."""
    return max(k, (n + t + 2) // 2)


# Messages

SEND, ECHO, READY, SHARE = 1, 2, 3, 4
WORDS = {SEND: "send", ECHO: "echo", READY: "ready", SHARE: "recovery"}


def two(number):
    """All two-byte numbers are high byte first."""
    return number.to_bytes(2, "big")


def length(tag, k):
    """Send 7 + 2k² + 8k; echo and ready 15 + 2k²; recovery share 10."""
    return {SEND: 7 + 2 * k * k + 8 * k, SHARE: 10}.get(tag, 15 + 2 * k * k)


def message(tag, dealer, session, matrix, numbers):
    """Tag, size of the rest, dealer, session; then k and C (not in a recovery share); then the numbers."""
    rest = bytes([dealer]) + two(session)
    if tag != SHARE:
        rest += bytes([len(matrix)]) + b"".join(two(entry) for row in matrix for entry in row)
    rest += b"".join(two(number) for number in numbers)
    return bytes([tag]) + two(len(rest)) + rest


def well_formed(text, k):
    """Refusal 2's tests: header, tag, size field, whole length, k byte."""
    if len(text) < 3 or text[0] not in WORDS:
        return False
    if int.from_bytes(text[1:3], "big") != len(text) - 3 or len(text) != length(text[0], k):
        return False
    return text[0] == SHARE or text[6] == k


def contents(text, k):
    """The matrix (none in a recovery share) and the numbers behind it."""
    start = 6 if text[0] == SHARE else 7
    items = [int.from_bytes(text[at:at + 2], "big") for at in range(start, len(text), 2)]
    if text[0] == SHARE:
        return None, items
    return square(items[:k * k], k), items[k * k:]


def square(items, k):
    """Row j, then column l."""
    return tuple(tuple(items[j * k:j * k + k]) for j in range(k))


# Dealing and checking


def commitment(group, number, second):
    """g to the one times h to the other."""
    return pow(group.g, number, group.p) * pow(group.h, second, group.p) % group.p


def commitments(group, f, f2):
    """Entry (j, l) of C: g to the f coefficient of x^j y^l times h to the f' one."""
    return tuple(tuple(commitment(group, x, y) for x, y in zip(row, row2)) for row, row2 in zip(f, f2))


def value(q, coefficients, x):
    """The polynomial with these coefficients, lowest first, at x."""
    return sum(c * x**power for power, c in enumerate(coefficients)) % q


def row_at(q, f, x):
    """f(x, y) as a polynomial in y."""
    return [value(q, column, x) for column in zip(*f)]


def column_at(q, f, y):
    """f(x, y) as a polynomial in x."""
    return [value(q, row, y) for row in f]


def dealt_to(group, f, f2, i):
    """Box i gets a(y) = f(i, y), b(x) = f(x, i), and likewise from f': a, a', b, b'."""
    q = group.q
    return row_at(q, f, i), row_at(q, f2, i), column_at(q, f, i), column_at(q, f2, i)


@lru_cache(maxsize=1 << 16)
def opens_to(group, matrix, x, y):
    """The product of C(j,l)^(x^j y^l): what g^f(x,y) h^f'(x,y) has to be."""
    result = 1
    for j, row in enumerate(matrix):
        for l, entry in enumerate(row):
            result = result * pow(entry, x**j * y**l, group.p) % group.p
    return result


def product(group, entries, i):
    """The product of the entries to the i^0, i^1, ..."""
    result = 1
    for power, entry in enumerate(entries):
        result = result * pow(entry, i**power, group.p) % group.p
    return result


@lru_cache(maxsize=1 << 12)
def rows_and_columns(group, matrix, i):
    """For each l the product over j of C(j,l)^(i^j); for each j the product over l of C(j,l)^(i^l)."""
    return ([product(group, column, i) for column in zip(*matrix)],
            [product(group, row, i) for row in matrix])


def polynomial_check(group, matrix, i, a, a2, b, b2):
    """g^(a_l) h^(a'_l) and g^(b_j) h^(b'_j) are those products."""
    columns, rows = rows_and_columns(group, matrix, i)
    return (columns == [commitment(group, x, y) for x, y in zip(a, a2)]
            and rows == [commitment(group, x, y) for x, y in zip(b, b2)])


def point_check(group, matrix, i, m, alpha, alpha2, beta, beta2):
    """α, α' open C at (m, i), and β, β' at (i, m)."""
    return (commitment(group, alpha, alpha2) == opens_to(group, matrix, m, i)
            and commitment(group, beta, beta2) == opens_to(group, matrix, i, m))


def share_check(group, matrix, m, sigma, sigma2):
    """g^σ h^σ' is the product over j of C(j,0)^(m^j): the column of y = 0."""
    return commitment(group, sigma, sigma2) == opens_to(group, matrix, m, 0)


@lru_cache(maxsize=1 << 10)
def in_group(group, matrix):
    """No entry is 0, >= p, or has e^q other than 1."""
    return all(0 < e < group.p and pow(e, group.q, group.p) == 1 for row in matrix for e in row)


@lru_cache(maxsize=1 << 14)
def weights(q, senders, x):
    """How much each sender's value counts in the interpolated value at x."""
    result = []
    for m in senders:
        above = below = 1
        for other in senders:
            if other != m:
                above = above * (x - other) % q
                below = below * (m - other) % q
        result.append(above * pow(below, -1, q) % q)
    return result


def interpolated(q, senders, values, x):
    """The polynomial of lowest degree through the senders' values, at x."""
    return sum(w * v for w, v in zip(weights(q, senders, x), values)) % q


# Answers


class Answer(NamedTuple):
    """Number; what was sent; bytes written; whether completed just now; whether a pair was recovered, and which."""
    number: int
    sent: str = "nothing"
    written: int = 0
    completed: bool = False
    recovered: bool = False
    pair: tuple = (0, 0)


def refusal(number):
    """A refusal gives its number and otherwise zeros, and writes nothing."""
    return Answer(number), []


def sending(tag, messages):
    """A call that sends writes n messages, to box 1 first."""
    return Answer(0, WORDS[tag], sum(map(len, messages))), messages


# Steps of a box


class Place:
    """What is held for one C: its counts, its marked senders, its points, and the pair kept at ready."""

    def __init__(self, matrix, n):
        self.matrix = matrix
        self.e = self.r = 0
        self.marked = {ECHO: set(), READY: set()}
        self.points = {m: None for m in range(1, n + 1)}  # silent, or α, α', β, β'
        self.pair = None


class Box:
    """One box: its record, and the calls that change it. Each call gives an answer and the messages sent."""

    def __init__(self):
        self.clear()

    def clear(self):
        """The all-zero record."""
        self.group_number = self.n = self.t = self.k = self.i = self.d = self.session = 0
        self.dealt = self.commanded = False
        self.heard = {tag: set() for tag in WORDS}
        self.places = []  # a new C takes the lowest unused place, so those in use come first
        self.completed = None  # or the completed place
        self.kept = {}  # recovery shares by sender
        self.recovered = None  # or the pair

    @property
    def group(self):
        return GROUPS[self.group_number]

    def others(self):
        return range(1, self.n + 1)

    def set_up(self, group, n, t, k, i, d, session):
        """Order 11, 12. A refused set-up gives the all-zero record."""
        self.clear()
        if group not in GROUPS:
            return refusal(11)
        if not keeps_rules(n, t, k, i, d, session):
            return refusal(12)
        self.group_number, self.n, self.t, self.k, self.i, self.d, self.session = group, n, t, k, i, d, session
        return Answer(0), []

    def deal(self, secret, coins, lent=LENT):
        """Order 15, 12, 13, 14. The coins are f row by row without the first, then all of f'."""
        number = self.unusable(lent)
        if number:
            return refusal(number)
        if self.i != self.d or self.dealt:
            return refusal(13)
        q, k = self.group.q, self.k
        if secret >= q or len(coins) != 2 * k * k - 1 or any(coin >= q for coin in coins):
            return refusal(14)
        numbers = [secret, *coins]
        f, f2 = square(numbers[:k * k], k), square(numbers[k * k:], k)
        self.dealt = True
        matrix = commitments(self.group, f, f2)
        return self.send_all(SEND, matrix, lambda j: sum(dealt_to(self.group, f, f2, j), []))

    def recover(self, lent=LENT):
        """Order 15, 12, 13. Send the share to each j."""
        number = self.unusable(lent)
        if number:
            return refusal(number)
        if self.completed is None or self.commanded:
            return refusal(13)
        self.commanded = True
        return self.send_all(SHARE, None, lambda j: self.completed.pair)

    def deliver(self, sender, text, lent=LENT):
        """Order 15, 12, then 1 to 10. An accepted message marks its sender heard for its tag;
        so do 8, 9 and 10 on tags 1, 2, 3; a failed recovery share marks nothing."""
        number = self.unusable(lent) or self.unheard(sender, text)
        if number:
            return refusal(number)
        tag = text[0]
        matrix, numbers = contents(text, self.k)
        number = self.fails(tag, sender, matrix, numbers)
        if tag != SHARE or not number:
            self.heard[tag].add(sender)
        if number:
            return refusal(number)
        if tag == SEND:
            return self.take_send(matrix, numbers)
        if tag == ECHO:
            return self.take_echo(sender, matrix, numbers)
        if tag == READY:
            return self.take_ready(sender, matrix, numbers)
        return self.take_share(sender, numbers)

    def unusable(self, lent):
        """15: outgoing buffer under 2,048 bytes; 12: the record is not sound."""
        return 15 if lent < LENT else 0 if self.sound() else 12

    def unheard(self, sender, text):
        """1 to 7: refusals before the message's numbers are looked at."""
        if not 1 <= sender <= self.n:
            return 1
        if not well_formed(text, self.k):
            return 2
        tag = text[0]
        if text[3] != self.d or int.from_bytes(text[4:6], "big") != self.session:
            return 3
        if tag == SEND and sender != self.d:
            return 4
        if tag == SHARE and not self.commanded:  # a command needs completion
            return 5
        if tag == SHARE and self.recovered is not None:
            return 6
        return 7 if sender in self.heard[tag] else 0

    def fails(self, tag, sender, matrix, numbers):
        """8: an entry outside the group; 9: an exponent >= q; 10: the check of its kind."""
        if tag != SHARE and not in_group(self.group, matrix):
            return 8
        if any(number >= self.group.q for number in numbers):
            return 9
        if tag == SEND:
            passes = polynomial_check(self.group, matrix, self.i, *self.polynomials(numbers))
        elif tag == SHARE:
            passes = share_check(self.group, self.completed.matrix, sender, *numbers)
        else:
            passes = point_check(self.group, matrix, self.i, sender, *numbers)
        return 0 if passes else 10

    def polynomials(self, numbers):
        """The coefficients of a, a', b, b', k numbers each."""
        return [numbers[at:at + self.k] for at in range(0, 4 * self.k, self.k)]

    def take_send(self, matrix, numbers):
        """Echo to each j with a(j), a'(j), b(j), b'(j)."""
        four = self.polynomials(numbers)
        return self.send_all(ECHO, matrix, lambda j: [value(self.group.q, one, j) for one in four])

    def take_echo(self, sender, matrix, numbers):
        """e for this C goes up by one. If now e = E and r < k, interpolate and send ready."""
        place = self.hold(ECHO, sender, matrix, numbers)
        place.e += 1
        if place.e == quorum(self.n, self.t, self.k) and place.r < self.k:
            return self.send_ready(place)
        return Answer(0), []

    def take_ready(self, sender, matrix, numbers):
        """r for this C goes up by one. If now r = k and e < E, interpolate and send ready;
        else if r = k + t, complete with this C. Only the first completion counts."""
        place = self.hold(READY, sender, matrix, numbers)
        place.r += 1
        if place.r == self.k and place.e < quorum(self.n, self.t, self.k):
            return self.send_ready(place)
        if place.r == self.k + self.t and self.completed is None:
            self.completed = place
            return Answer(0, completed=True), []
        return Answer(0), []

    def hold(self, tag, sender, matrix, numbers):
        """A sender has one point per C, its first checked one, be it in echo or ready."""
        place = next((place for place in self.places if place.matrix == matrix), None)
        if place is None:
            place = Place(matrix, self.n)
            self.places.append(place)
        place.marked[tag].add(sender)
        if place.points[sender] is None:
            place.points[sender] = tuple(numbers)
        return place

    def send_ready(self, place):
        """Interpolate from the k lowest-numbered senders held: a, a' from β, β', and b, b' from α, α'.
        The record keeps (a(0), a'(0)) from then on."""
        senders = tuple([m for m, point in place.points.items() if point is not None][:self.k])
        alpha, alpha2, beta, beta2 = zip(*(place.points[m] for m in senders))

        def at(x):
            return [interpolated(self.group.q, senders, values, x) for values in (beta, beta2, alpha, alpha2)]

        place.pair = tuple(at(0)[:2])
        return self.send_all(READY, place.matrix, at)

    def take_share(self, sender, numbers):
        """Each checked recovery share from a new box is kept. At the k-th, give the pair interpolated at 0."""
        self.kept[sender] = tuple(numbers)
        if len(self.kept) < self.k:
            return Answer(0), []
        self.recovered = recovered_pair(self.group, self.kept)
        return Answer(0, recovered=True, pair=self.recovered), []

    def send_all(self, tag, matrix, numbers):
        """One message to each j, with the numbers for j."""
        return sending(tag, [message(tag, self.d, self.session, matrix, numbers(j)) for j in self.others()])

    def sound(self):
        """Document 01's sentence on a sound record, clause by clause."""
        if self.group_number not in GROUPS:
            return False
        if not keeps_rules(self.n, self.t, self.k, self.i, self.d, self.session):
            return False
        matrices = [place.matrix for place in self.places]
        return (len(matrices) <= PLACES and len(set(matrices)) == len(matrices)
                and all(self.sound_place(place) for place in self.places)
                and all(self.marked_once(tag) for tag in (ECHO, READY))
                and self.sound_completion() and self.sound_recovery()
                and (self.i == self.d or not self.dealt))

    def sound_place(self, place):
        """In use exactly if held, held exactly if marked, counted as marked, its pair there exactly if e >= E or r >= k."""
        marks, held = place.marked, {m for m, point in place.points.items() if point is not None}
        kept = place.e >= quorum(self.n, self.t, self.k) or place.r >= self.k
        stored = [place.points[m] for m in held] + ([place.pair] if place.pair is not None else [])
        return (in_group(self.group, place.matrix)
                and held and held == marks[ECHO] | marks[READY]
                and place.e == len(marks[ECHO]) and place.r == len(marks[READY])
                and kept == (place.pair is not None)
                and all(number < self.group.q for numbers in stored for number in numbers))

    def marked_once(self, tag):
        """A sender is marked under at most one matrix, and then is heard for that tag."""
        marks = [m for place in self.places for m in place.marked[tag]]
        return len(set(marks)) == len(marks) and self.heard[tag].issuperset(marks)

    def sound_completion(self):
        """A completed box has one completed matrix in use, with r >= k + t."""
        return self.completed is None or (self.completed in self.places and self.completed.r >= self.k + self.t)

    def sound_recovery(self):
        """A command needs completion, kept shares a command; at most k are kept, their senders alone are heard for tag 4."""
        return ((self.completed is not None or not self.commanded)
                and (self.commanded or not self.kept)
                and len(self.kept) <= self.k and self.heard[SHARE] == set(self.kept)
                and (self.recovered is not None) == (len(self.kept) == self.k)
                and all(number < self.group.q for pair in self.kept.values() for number in pair))


def recovered_pair(group, shares):
    """The pair interpolated at 0 from shares by sender."""
    senders = tuple(sorted(shares))
    return tuple(interpolated(group.q, senders, values, 0) for values in zip(*(shares[m] for m in senders)))


# The recovery sheet

DECIMAL = re.compile(rb"0|[1-9][0-9]{0,4}")
SHEET_BYTES = 4096


def decimals(words):
    """Decimals up to 65,535 without leading zeros; None if a word is another."""
    if not all(DECIMAL.fullmatch(word) and int(word) <= 65535 for word in words):
        return None
    return [int(word) for word in words]


def sheet(text):
    """What the sheet program prints for this input."""
    return "".join(line + "\n" for line in sheet_lines(text)).encode()


def sheet_lines(text):
    """Tests in order, each printing only its line; else one line a box, then the pair."""
    first, newline, rest = text.partition(b"\n")
    words = first.split(b" ")
    numbers = decimals(words[1:])
    if len(text) > SHEET_BYTES or not newline or words[0] != b"sheet" or numbers is None or len(numbers) != 4:
        return ["bad sheet"]
    group_number, n, t, k = numbers
    if group_number not in GROUPS:
        return ["refused 11"]
    if not lawful(n, t, k):
        return ["refused 12"]
    group = GROUPS[group_number]
    entries, shares = sheet_rest(rest.split(b"\n"), n, k)
    if shares is None:
        return ["bad sheet"]
    matrix = square(entries, k)
    if not in_group(group, matrix):
        return ["refused 8"]
    verdicts = {m: verdict(group, matrix, m, share) for m, share in shares.items()}
    return [f"{m} {word}" for m, word in verdicts.items()] + [last_line(group, k, shares, verdicts)]


def sheet_rest(lines, n, k):
    """The entries of C and each box's pair, or None for silence; None for the shares if the form is another."""
    entries = decimals(lines[0].split(b" "))
    if len(lines) != n + 2 or lines[-1] or entries is None or len(entries) != k * k:
        return None, None
    shares = {}
    for m in range(1, n + 1):
        number, *words = lines[m].split(b" ")
        pair = decimals(words)
        if number != b"%d" % m or words != [b"silent"] and (pair is None or len(pair) != 2):
            return None, None
        shares[m] = None if words == [b"silent"] else tuple(pair)
    return entries, shares


def verdict(group, matrix, m, share):
    """Silent, refused 9, refused 10 or verified."""
    if share is None:
        return "silent"
    if any(number >= group.q for number in share):
        return "refused 9"
    return "verified" if share_check(group, matrix, m, *share) else "refused 10"


def last_line(group, k, shares, verdicts):
    """The pair and the k lowest verified boxes, or how many of k there are."""
    verified = [m for m, word in verdicts.items() if word == "verified"]
    if len(verified) < k:
        return f"no secret, {len(verified)} of {k}"
    lowest = verified[:k]
    pair = recovered_pair(group, {m: shares[m] for m in lowest})
    return " ".join(map(str, ["secret", *pair, "from", *lowest]))


# The console

LINE_BYTES = 8192  # with the newline
HEXADECIMAL = re.compile(rb"(?:[0-9a-f]{2})+")
HELP = Path(__file__).with_name("help.out")  # what `help`, `help 0`, .., `help 20` print: the one place of these texts
HELP_TOP = 20


def console(data):
    """All that the console prints for this input."""
    return b"".join(answer for _, answer in exchanges(data))


def exchanges(data):
    """Each line of the input, as it came, with its answer, up to the one that ends the program."""
    session = Console()
    for line in split_lines(data):
        yield line, session.answer(line).encode()
        if session.ended:
            return


def split_lines(data):
    """Pieces ending with a newline; the last one may lack it."""
    return re.findall(rb"[^\n]*\n|[^\n]+", data)


@lru_cache
def helps():
    """What `help` prints, and for each number from 0 what `help` with it does."""
    lines = HELP.read_text().splitlines(keepends=True)
    return "".join(lines[:-HELP_TOP - 1]), lines[-HELP_TOP - 1:]


# What a line says


def up_to(top):
    """The form of a decimal up to top: the number, or None for another form."""
    def read(item):
        numbers = decimals([item])
        return numbers[0] if numbers and numbers[0] <= top else None
    return read


def hexadecimal(item):
    """Small letters, an even number of digits; - stands for no bytes. None for another form."""
    if item == b"-":
        return b""
    return bytes.fromhex(item.decode()) if HEXADECIMAL.fullmatch(item) else None


class Form(NamedTuple):
    """How many items a word wants, and the form of each; the last form is that of all behind it, too."""
    fewest: int
    most: int
    items: tuple = ()


ANY = up_to(65535)
FORMS = {
    b"setup": Form(7, 7, (ANY,)),
    b"lend": Form(1, 1, (up_to(4096),)),
    b"deal": Form(1, LINE_BYTES, (ANY,)),
    b"deliver": Form(2, 2, (ANY, hexadecimal)),
    b"recover": Form(0, 0),
    b"show": Form(0, 0),
    b"read": Form(1, 1, (hexadecimal,)),
    b"points": Form(1, 1, (up_to(PLACES - 1),)),
    b"help": Form(0, 1, (up_to(HELP_TOP),)),
    b"quit": Form(0, 0),
}


def unfinished(line):
    """The reasons that come before all others; None for a whole line."""
    if len(line) > LINE_BYTES:
        return "too long"
    return None if line.endswith(b"\n") else "cut off"


def unreadable(line):
    """The first byte outside 32..126; else the first space at the start, at the end or behind another one."""
    for at, byte in enumerate(line, 1):
        if not 32 <= byte <= 126:
            return f"byte {byte} at {at}"
    for at, byte in enumerate(line, 1):
        if byte == 32 and (at in (1, len(line)) or line[at - 2] == 32):
            return f"space at {at}"
    return None


def said(line):
    """The reason why this line says nothing, or None; its word and its items, each as what it stands for."""
    word, *items = line.split(b" ")
    reason = unreadable(line)
    if not reason and word not in FORMS:
        reason = "no such word"
    if not reason and not FORMS[word].fewest <= len(items) <= FORMS[word].most:
        reason = "items"
    if reason:
        return reason, word, []
    forms = FORMS[word].items
    values = [forms[min(at, len(forms) - 1)](item) for at, item in enumerate(items)]
    return (f"item {values.index(None) + 1}" if None in values else None), word, values


class Console:
    """One box at a keyboard."""

    def __init__(self):
        self.box, self.lent, self.ended = Box(), LENT, False

    def answer(self, line):
        """The answer to one line as it came. A bad line changes nothing; an empty one and a comment get no answer."""
        reason, word, items = unfinished(line), None, []
        if not reason and (line == b"\n" or line.startswith(b"#")):
            return ""
        if not reason:
            reason, word, items = said(line[:-1])
        return f"bad line: {reason}\n" if reason else getattr(self, word.decode())(*items)

    def setup(self, *numbers):
        return told(*self.box.set_up(*numbers))

    def lend(self, lent):
        self.lent = lent
        return f"lent {lent}\n"

    def deal(self, secret, *coins):
        return told(*self.box.deal(secret, coins, self.lent))

    def deliver(self, sender, text):
        return told(*self.box.deliver(sender, text, self.lent))

    def recover(self):
        return told(*self.box.recover(self.lent))

    def quit(self):
        self.ended = True
        return ""

    def help(self, *numbers):
        """What can be typed, or what an answer number means."""
        typed, of_number = helps()
        return of_number[numbers[0]] if numbers else typed

    def read(self, text):
        """What a message says, whatever the box."""
        return message_says(text) + "\n"

    def points(self, at):
        """A line a box: silent, or its marks and the four numbers of its point."""
        if not self.box.n:
            return "no box\n"
        if at >= len(self.box.places):
            return "no place\n"
        place = self.box.places[at]
        return "".join(f"{m} {point_says(place, m)}\n" for m in self.box.others())

    def show(self):
        """What the box holds."""
        return "".join(line + "\n" for line in shown(self.box)) if self.box.n else "no box\n"


# What is printed


def told(answer, messages):
    """One answer line, then a line for each message sent."""
    yes = {True: "yes", False: "no"}
    lines = [f"answer {answer.number} {answer.sent} {answer.written} {yes[answer.completed]}"
             f" {yes[answer.recovered]} {listed(answer.pair)}\n"]
    lines += [f"to {j} {text.hex()}\n" for j, text in enumerate(messages, 1)]
    return "".join(lines)


def listed(numbers):
    return " ".join(map(str, numbers))


def message_says(text):
    """The tag, the header and each number behind its name; bytes that refusal 2 would refuse at every k say nothing."""
    k = next((k for k in range(2, 9) if well_formed(text, k)), None)
    if k is None:
        return "no message"
    matrix, numbers = contents(text, k)
    head = f"{WORDS[text[0]]} dealer {text[3]} session {int.from_bytes(text[4:6], 'big')}"
    if text[0] == SHARE:
        return f"{head} share {listed(numbers)}"
    names = ("a", "a'", "b", "b'") if text[0] == SEND else ("alpha", "beta")
    each = len(numbers) // len(names)
    named = [f"{name} {listed(numbers[at * each:at * each + each])}" for at, name in enumerate(names)]
    return " ".join([head, f"k {k} matrix {listed(sum(matrix, ()))}", *named])


def point_says(place, m):
    """Silence is a word of its own."""
    if place.points[m] is None:
        return "silent"
    marks = [WORDS[tag] for tag in (ECHO, READY) if m in place.marked[tag]]
    return " ".join([*marks, listed(place.points[m])])


def shown(box):
    """The lines of a box: set-up, dealt, heard, the places in use, completion, command, kept shares, recovered pair."""
    yield (f"box {box.i} group {box.group_number} n {box.n} t {box.t} k {box.k}"
           f" dealer {box.d} session {box.session}")
    if box.i == box.d:
        yield "dealt" if box.dealt else "not dealt"
    yield " ".join(["heard", *(f"{word} {boxes(box.heard[tag])}" for tag, word in WORDS.items())])
    for at, place in enumerate(box.places):
        yield f"place {at} e {place.e} r {place.r} matrix {listed(sum(place.matrix, ()))}"
    if box.completed is None:
        yield "not completed"
    else:
        yield f"completed place {box.places.index(box.completed)} share {listed(box.completed.pair)}"
    yield "commanded" if box.commanded else "not commanded"
    yield f"kept {boxes(box.kept)}"
    yield "not recovered" if box.recovered is None else f"recovered {listed(box.recovered)}"


def boxes(numbers):
    """Rising, or none."""
    return listed(sorted(numbers)) or "none"
