"""The lists that are timed: kinds of lists, each with stop counts of several sorts.

    lists.py FOLDER     writes them all there as pair files, and prints the files' names

ALL are the kinds that run beside all others, QUICK those that run beside the quickest of them only. COUNTS says which sorts of counts there are, FULL which
of them have all the tables.
"""
import math
import random
import sys
from functools import cache
from itertools import combinations

SEEDS = range(3)


# ---- lists: N and the pairs; each kind of up to 512 modules and 4,096 pairs


def rising(a, b):
    return (min(a, b), max(a, b))


def along(modules):
    """The pairs of neighbours."""
    return {rising(a, b) for a, b in zip(modules, modules[1:])}


def among(modules):
    """All pairs."""
    return {rising(a, b) for a, b in combinations(modules, 2)}


def fill(draw, pairs, m):
    """Draws pairs until there are m."""
    while len(pairs) < m:
        a, b = draw(), draw()
        if a != b:
            pairs.add(rising(a, b))
    return pairs


def uniform(r, n=512, m=4096):
    return n, fill(lambda: r.randrange(n), set(), m)


def planted(r, size=60, chance=0.5):
    group = r.sample(range(512), size)
    dense = {rising(*p) for p in combinations(group, 2) if r.random() < chance}
    return 512, fill(lambda: r.randrange(512), dense, 4096)


def regular(r, degree=16):
    pairs = set()
    for step in r.sample(range(1, 256), degree // 2):
        pairs |= {rising(v, (v + step) % 512) for v in range(512)}
    for _ in range(200):  # swaps the ends of two pairs, so that all degrees stay as they are
        (a, b), (c, d) = r.sample(sorted(pairs), 2)
        new = {rising(a, d), rising(b, c)}
        if len({a, b, c, d}) == 4 and not new & pairs:
            pairs = (pairs - {(a, b), (c, d)}) | new
    return 512, pairs


def band(r, width=lambda v: 8):
    """Each module with the next ones; how many may depend on where it stands."""
    return 512, {(v, u) for v in range(512) for u in range(v + 1, min(512, v + 1 + width(v)))}


def grid(r):
    across = {(v, v + 1) for v in range(22 * 23) if v % 23 < 22}
    return 506, across | {(v, v + 23) for v in range(21 * 23)}


def cycle(r):
    return 512, along([*range(512), 0])


def clique(r, size=90):
    return 512, among(range(size))


def cliques(r):
    return 512, {p for first in range(0, 512, 16) for p in among(range(first, first + 16))}


def chain(r, size=60):
    return 512, among(range(size)) | along(range(size - 1, 512))


def chains(r):
    pairs = set()
    for i, first in enumerate(range(0, 512, 32)):
        size = 12 + i % 3
        pairs |= among(range(first, first + size)) | along(range(first + size - 1, first + 32))
    return 512, pairs


def power(r, m=4096, fall=0.6):
    weights = [1 / (v + 1) ** fall for v in range(512)]
    return 512, fill(lambda: r.choices(range(512), weights)[0], set(), m)


def tree(r):
    """Each module with an earlier one."""
    return 512, {(r.randrange(v), v) for v in range(1, 512)}


def uniform_tree(r):
    """Any tree with the same chance: a walk to modules by chance keeps the steps to those not seen before."""
    at, seen, pairs = 0, {0}, set()
    while len(seen) < 512:
        to = r.randrange(512)
        if to not in seen:
            pairs.add(rising(at, to))
        seen.add(to)
        at = to
    return 512, pairs


def attachment(r, each):
    """Each module with some earlier ones, the more often the more pairs they have."""
    pairs, ends = set(), [*range(each)]
    for v in range(each, 512):
        chosen = set()
        while len(chosen) < each:
            chosen.add(r.choice(ends))
        pairs |= {(u, v) for u in chosen}
        ends += [*chosen, *[v] * each]
    return 512, pairs


def row(r):
    """Cliques of five, each joined to the next."""
    return 510, {p for first in range(0, 510, 5) for p in among(range(first, first + 5))} | {(v, v + 1) for v in range(4, 509, 5)}


def wheel(r):
    """A hub, a rim of 255 and a chain."""
    return 512, {(0, v) for v in range(1, 256)} | along([*range(1, 256), 1]) | along([1, *range(256, 512)])


def dumbbell(r):
    """Two cliques of 20 and a chain between them."""
    return 80, among(range(20)) | among(range(60, 80)) | along(range(19, 61))


def star(r):
    return 512, {(0, v) for v in range(1, 512)}


def path(r):
    return 512, along(range(512))


def caterpillar(r):
    return 512, along(range(128)) | {(r.randrange(128), v) for v in range(128, 512)}


def points(r):
    """The nearest pairs of points in a square."""
    at = [(r.random(), r.random()) for _ in range(512)]
    return 512, set(sorted(combinations(range(512), 2), key=lambda p: math.dist(at[p[0]], at[p[1]]))[:4000])


def layers(r):
    """Around a ring each module with the next four, and half of them with three more."""
    return 512, {rising(v, (v + step) % 512) for step in range(1, 8) for v in range(512 if step < 5 else 256)}


ALL = {
    "uniform": uniform,
    "planted group": planted,
    "near-regular": regular,
    "bands": band,
    "grid": grid,
    "cycle": cycle,
    "clique": clique,
    "equal cliques": cliques,
    "clique with a chain": chain,
    "cliques with chains": chains,
    "power law": power,
}
QUICK = {
    "sparse, M = N": lambda r: uniform(r, m=512),
    "sparse, M = 1.1 N": lambda r: uniform(r, m=563),
    "sparse, M = 1.2 N": lambda r: uniform(r, m=614),
    "sparse, M = 307, N = 256": lambda r: uniform(r, 256, 307),
    "sparse, M = 1.3 N": lambda r: uniform(r, m=666),
    "sparse, M = 1.5 N": lambda r: uniform(r, m=768),
    "sparse, M = 2 N": lambda r: uniform(r, m=1024),
    "tree": tree,
    "uniform tree": uniform_tree,
    "attachment by 2": lambda r: attachment(r, 2),
    "attachment by 7": lambda r: attachment(r, 7),
    "clique of 20 with a chain": lambda r: chain(r, 20),
    "clique of 30": lambda r: clique(r, 30),
    "row of cliques": row,
    "sparse power law": lambda r: power(r, 1000),
    "steep power law": lambda r: power(r, fall=0.9),
    "large planted group": lambda r: planted(r, 120, 0.2),
    "near-regular, sparse": lambda r: regular(r, 4),
    "wheel with a chain": wheel,
    "dumbbell": dumbbell,
    "star": star,
    "path": path,
    "caterpillar": caterpillar,
    "rising bands": lambda r: band(r, lambda v: 4 + v // 64),
    "hill of bands": lambda r: band(r, lambda v: 4 + min(v, 512 - v) // 32),
    "narrow bands": lambda r: band(r, lambda v: 3),
    "near points": points,
    "layers": layers,
}
KINDS = ALL | QUICK

# ---- stop counts: of the pairs of a list, by sort


def one_heavy(r, n, pairs):
    """One pair has 1,000 stops, the others have one."""
    heavy = r.randrange(len(pairs))
    return [1000 if i == heavy else 1 for i in range(len(pairs))]


def few_heavy(r, n, pairs):
    """One pair in fifty has 500 to 1,000 stops, the others 1 to 20."""
    counts = [r.randint(1, 20) for _ in pairs]
    for _ in range(max(1, len(pairs) // 50)):
        counts[r.randrange(len(pairs))] = r.randint(500, 1000)
    return counts


def heavy_group(r, n, pairs):
    """Pairs inside an eighth of the modules have 500 to 1,000 stops, the others 1 to 10."""
    group = set(r.sample(range(n), max(2, n // 8)))
    return [r.randint(500, 1000) if a in group and b in group else r.randint(1, 10) for a, b in pairs]


def geometric(r, n, pairs):
    """One stop more with chance nine in ten, ten on the average."""
    return [min(1000, 1 + int(math.log(1 - r.random()) / math.log(0.9))) for _ in pairs]


COUNTS = {
    "ones": lambda r, n, pairs: [1] * len(pairs),
    "1 to 1,000": lambda r, n, pairs: [r.randint(1, 1000) for _ in pairs],
    "one heavy pair": one_heavy,
    "few heavy pairs": few_heavy,
    "heavy group": heavy_group,
    "geometric": geometric,
    "powers": lambda r, n, pairs: [min(1000, int(2 ** r.uniform(0, 10))) for _ in pairs],
    "999 or 1,000": lambda r, n, pairs: [1000 - (r.random() < 0.1) for _ in pairs],
}
FULL = ["ones", "1 to 1,000"]  # those with all the tables

SIZES = [(64, 512), (128, 1024), (256, 2048), (512, 4096), (512, 512), (512, 1024), (512, 2048), (128, 4096), (256, 4096)]


def renumbered(r, n, pairs):
    """The same list with the modules' numbers shuffled."""
    to = r.sample(range(n), n)
    return n, {rising(to[a], to[b]) for a, b in pairs}


@cache
def shape(name, seed):
    """N and the pairs, rising. The second and third list of a kind have shuffled numbers: in kinds without chance they differ in nothing else."""
    n, pairs = KINDS[name](random.Random(seed))
    if seed:
        n, pairs = renumbered(random.Random(seed), n, pairs)
    return n, sorted(pairs)


@cache
def sized(n, m, seed):
    return n, sorted(uniform(random.Random(seed), n, m)[1])


def weighed(sort, seed, n, pairs):
    """N and the pairs with their counts."""
    return n, [(a, b, w) for (a, b), w in zip(pairs, COUNTS[sort](random.Random(seed), n, pairs))]


def of_kinds(sort):
    """Name, seed, N and pairs with their counts: the lists of all kinds with counts of that sort."""
    for name in KINDS:
        for seed in SEEDS:
            yield name, seed, *weighed(sort, seed, *shape(name, seed))


def of_sizes(sort):
    """The same of uniform lists by N and M."""
    for n, m in SIZES:
        for seed in SEEDS:
            yield f"{n}, {m}", seed, *weighed(sort, seed, *sized(n, m, seed))


def write(folder, sort, name, seed, n, pairs):
    """Writes the pair file; its name."""
    file_name = f"{folder}/{name} {sort} {seed}".replace(" ", "-").replace(",", "")
    with open(file_name, "w") as file:
        file.write(f"modules={n}\npairs={len(pairs)}\n" + "".join(f"{a},{b},{w}\n" for a, b, w in pairs))
    return file_name


def main():
    for sort in COUNTS:
        for listed in of_kinds(sort):
            print(write(sys.argv[1], sort, *listed))


if __name__ == "__main__":
    main()
