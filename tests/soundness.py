"""A record by its parts, and document 01's sentence "A record is sound when .." on it, clause by clause.

The set-up rules, E and refusal 8 are those of bench.py; the rest is written from the sentence alone."""

from collections import defaultdict, namedtuple
from itertools import product

import bench
from bench import ECHO, READY, SHARE

SetUp = namedtuple("SetUp", "group n t k i d session")
GROUPS = defaultdict(lambda: bench.Group(0, 0, 0, 0), bench.GROUPS)  # of no group nothing is below q
SLOTS, BOXES, TAGS, ENTRIES = range(20), range(1, 11), range(1, 5), range(8)
NOBODY = frozenset()

# The parts of a record: the numbers that say which part, and what it is in the all-zero record. None is silent, absent or not yet.
PARTS = {
    "numbers": ([], (0,) * 7),
    "heard": ([TAGS], NOBODY),
    "share": ([BOXES], None),
    "recovered": ([], None),
    "dealt": ([], 0),
    "with": ([], None),
    "commanded": ([], 0),
    "used": ([SLOTS], 0),
    "entry": ([SLOTS, ENTRIES, ENTRIES], 0),
    "place": ([SLOTS, BOXES], None),
    "mark": ([SLOTS, (ECHO, READY)], NOBODY),
    "kept": ([SLOTS], None),
}
OF_A_SLOT = [word for word, (which, _) in PARTS.items() if SLOTS in which]


def parts(*words):
    return [(word, *which) for word in words for which in product(*PARTS[word][0])]


class Record(dict):
    """x("place", 0, 1) is the place of box 1 at the matrix 0; x.n is a set-up number."""

    def __call__(self, word, *which):
        return self[(word, *which)]

    def __getattr__(self, name):
        return getattr(SetUp(*self("numbers")), name)

    @property
    def q(self):
        return GROUPS[self.group].q

    def used(self):
        return [s for s in SLOTS if self("used", s)]

    def there(self, word, *which):
        """The boxes whose part is not None."""
        return {m for m in BOXES if self(word, *which, m) is not None}

    def count(self, s, tag):
        """e or r."""
        return len(self("mark", s, tag))

    def enough(self, s, tag):
        """e ≥ E, or r ≥ k."""
        return self.count(s, tag) >= (bench.quorum(self.n, self.t, self.k) if tag == ECHO else self.k)

    def matrix(self, s):
        return tuple(tuple(self("entry", s, j, l) for l in ENTRIES[:self.k]) for j in ENTRIES[:self.k])


ZERO = Record({part: PARTS[part[0]][1] for part in parts(*PARTS)})

CLAUSES = []  # document 01's words, and a test


def clause(words, *sides):
    """The test of a clause, or one for each of its sides: a line of `records` has to break one side alone."""

    def listed(test):
        for side in sides or [None]:
            CLAUSES.append((words, (lambda x, side=side: test(x, side)) if sides else test))
        return test

    return listed


ONLY_IF, IF = set.issubset, set.issuperset  # the sides of "exactly if"


@clause("its group and set-up numbers keep their rules")
def numbers_keep(x):
    return x.group in bench.GROUPS and bench.keeps_rules(*x("numbers")[1:])


@clause("stored exponents are below q", "place", "kept", "share", "recovered")
def exponents_below(x, word):
    return all(number < x.q for part in parts(word) for number in x[part] or ())


@clause("matrices in use are different")
def matrices_differ(x):
    return len(set(map(x.matrix, x.used()))) == len(x.used())


@clause("would pass refusal 8")
def matrices_pass(x):
    return all(bench.in_group(GROUPS[x.group], x.matrix(s)) for s in x.used())


@clause("a sender is marked for echo or ready under at most one matrix each", ECHO, READY)
def marked_once(x, tag):
    return all(sum(m in x("mark", s, tag) for s in SLOTS) <= 1 for m in BOXES)


@clause("then is heard for that tag", ECHO, READY)
def marked_heard(x, tag):
    return all(x("mark", s, tag) <= x("heard", tag) for s in SLOTS)


@clause("a place is held exactly if its sender is marked for either", ONLY_IF, IF)
def places_keep(x, side):
    return all(side(x.there("place", s), x("mark", s, ECHO) | x("mark", s, READY)) for s in SLOTS)


@clause("a matrix is in use exactly if some place of it is held", ONLY_IF, IF)
def use_keeps(x, side):
    return side(set(x.used()), {s for s in SLOTS if x.there("place", s)})


# "e and r are the numbers of marked senders" needs no test: they are not stored.


@clause("a kept pair is there exactly if e ≥ E or r ≥ k")
def pair_enough(x):
    return all(x.enough(s, ECHO) or x.enough(s, READY) for s in SLOTS if x("kept", s) is not None)


@clause("a kept pair is there exactly if e ≥ E or r ≥ k", ECHO, READY)
def enough_pair(x, tag):
    return not any(x.enough(s, tag) for s in SLOTS if x("kept", s) is None)


@clause("a completed box has one completed matrix in use")
def completed_used(x):
    return set(x("with") or ()) <= set(x.used())


@clause("with r ≥ k + t")
def completed_readies(x):
    return all(x.count(s, READY) >= x.k + x.t for s in x.used() if x("with") == (s,))


@clause("a command needs completion")
def command_completed(x):
    return not x("commanded") or x("with") is not None


@clause("kept recovery shares a command")
def shares_commanded(x):
    return not x.there("share") or x("commanded") == 1


@clause("at most k are kept")
def shares_few(x):
    return len(x.there("share")) <= x.k


@clause("their senders alone are heard for tag 4", ONLY_IF, IF)
def shares_heard(x, side):
    return side(x.there("share"), x("heard", SHARE))


@clause("the recovered pair is there exactly if k are kept", True, False)
def recovered_keeps(x, there):
    return (x("recovered") is not None) != there or (len(x.there("share")) == x.k) == there


@clause("only box d has dealt")
def dealt_keeps(x):
    return not x("dealt") or x.i == x.d


@clause("unused places are zero", "matrix", "row", "column")
def entries_zero(x, unused):
    outside = {"matrix": lambda s, j, l: not x("used", s), "row": lambda s, j, l: j >= x.k, "column": lambda s, j, l: l >= x.k}[unused]
    return not any(x[part] and outside(*part[1:]) for part in parts("entry"))


@clause("unused places are zero")
def senders_zero(x):
    """Whatever there is of a sender above n."""
    there = x.there("share").union(*(x.there("place", s) for s in SLOTS), *map(x.get, parts("mark", "heard")))
    return there.isdisjoint(BOXES[x.n:])
