"""What random classes and random sheets share: lawful numbers, polynomials, points, and damage."""

from typing import NamedTuple

import bench

LAWFUL = [(g, n, t, k) for g in bench.GROUPS for n in range(1, 11) for t in range(1, n) for k in range(1, n + 1)
          if bench.lawful(n, t, k)]


def logarithm(group):
    """h is g to this; found by counting, as document 01 says it can be."""
    return next(x for x in range(group.q) if pow(group.g, x, group.p) == group.h)


LOGARITHMS = {group: logarithm(group) for group in bench.GROUPS.values()}


class World(NamedTuple):
    """One dealing: f, f' and their matrix. A rival matrix is another world."""
    group: bench.Group
    f: tuple
    f2: tuple
    matrix: tuple


def world(rng, group, k):
    """Any dealing, one with small coefficients, or one in which a box truly holds zeros."""
    kind = rng.randrange(5)
    if kind == 0:
        f = f2 = zero_for(rng, group.q, k)
    else:
        top = group.q if kind > 1 else 2
        f, f2 = (bench.square([rng.randrange(top) for _ in range(k * k)], k) for _ in range(2))
    return World(group, f, f2, bench.commitments(group, f, f2))


def zero_for(rng, q, k):
    """c (x - 3)(y - 3): box 3's shares and all points from and at it are 0, and no silence. With c = 0 everybody's are."""
    c = rng.choice([0, rng.randrange(q)])
    f = [[0] * k for _ in range(k)]
    f[0][0], f[0][1], f[1][0], f[1][1] = 9 * c % q, -3 * c % q, -3 * c % q, c
    return tuple(map(tuple, f))


def both_at(world, x, y):
    """f(x, y) and f'(x, y)."""
    q = world.group.q
    return [bench.value(q, bench.row_at(q, f, x), y) for f in (world.f, world.f2)]


def point(world, m, i):
    """α, α', β, β' from m at i."""
    return both_at(world, m, i) + both_at(world, i, m)


def share(world, m):
    return both_at(world, m, 0)


def shifted(rng, group, pair):
    """Another pair that opens the same: passes each check, and is not what was dealt."""
    by = rng.randrange(1, group.q)
    return [(pair[0] + LOGARITHMS[group] * by) % group.q, (pair[1] - by) % group.q]


def shifted_pairs(rng, group, numbers):
    return [x for at in range(0, len(numbers), 2) for x in shifted(rng, group, numbers[at:at + 2])]


def outside(rng, group):
    """A number that is no element of the group: 0, p or more, or of another order."""
    element = pow(group.g, rng.randrange(group.q), group.p)
    return rng.choice([0, group.p, group.p + element, 65535, group.p - 1, group.p - element])


def too_large(rng, group, number):
    """An exponent >= q; number + q counts the same modulo q."""
    return rng.choice([group.q, number % group.q + group.q, 65535, group.q + 1])


def misses(n, t, k):
    """By how much each rule on n, t, k is broken."""
    return [max(0, miss) for miss in (n - 10, 1 - t, t + 1 - k, k - (n - 2 * t))]


NEARLY = [(n, t, k) for n in range(12) for t in range(6) for k in range(12) if sorted(misses(n, t, k)) == [0, 0, 0, 1]]


def unlawful(rng, n, t, k):
    """n, t, k that break one rule by one, or any by more."""
    if rng.random() < 0.5:
        return rng.choice(NEARLY)
    while True:
        numbers = [n, t, k]
        for at in rng.sample(range(3), rng.choice([1, 1, 2, 3])):
            numbers[at] = rng.choice([0, 1, numbers[at] - 1, numbers[at] + 1, t, 11, 12, 256, 32768, 65535])
        if min(numbers) >= 0 and not bench.lawful(*numbers):
            return numbers
