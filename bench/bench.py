"""Runs `compare` and networkx on the lists of lists.py, and prints the tables of docs/BENCHMARKS.md.

    bench.py COMPARE FOLDER RUNS [quick]

FOLDER takes the pair files. A time is the median over the runs; a run is itself a median of repetitions, which go over all lists with counts of one sort (see
compare.cpp). The linear programme runs once a run on the first list of a kind, networkx once in all. With `quick` only our solve and the quickest of the
others run, on all kinds, and only their tables are printed.
"""
import os
import subprocess
import sys
import time
from collections import defaultdict
from statistics import geometric_mean, median

import networkx as nx

from lists import ALL, COUNTS, FULL, KINDS, SEEDS, SIZES, of_kinds, of_sizes, write

REPETITIONS = 15
AIM = 400  # from that many pairs on, solve should be 1.5 times as quick as the quickest of the others on every kind, and twice on two kinds of three


# ---- networkx


def timed(run):
    begin = time.process_time()
    answer = run()
    return answer, (time.process_time() - begin) * 1e6


def densest(n, pairs):
    """The greatest ratio, as in solves.hpp (whole), with networkx's minimum cut."""
    p, q = sum(w for _, _, w in pairs), n
    degree = [0] * n
    for a, b, w in pairs:
        degree[a] += w
        degree[b] += w
    while True:
        net = nx.DiGraph()
        for v in range(n):
            net.add_edge("s", v, capacity=max(degree[v] * q - 2 * p, 0))
            net.add_edge(v, "t", capacity=max(2 * p - degree[v] * q, 0))
        for a, b, w in pairs:
            net.add_edge(a, b, capacity=w * q)
            net.add_edge(b, a, capacity=w * q)
        side = nx.minimum_cut(net, "s", "t")[1][0] - {"s"}
        inside = sum(w for a, b, w in pairs if a in side and b in side)
        if inside * q <= p * len(side):
            return p, q
        p, q = inside, len(side)


def by_networkx(n, pairs, density):
    """core_number counts pairs, so it is peel's for lists of ones only."""
    (p, q), solve = timed(lambda: densest(n, pairs))
    if p * density[1] != density[0] * q:
        sys.exit("networkx: another density")
    lines = [f"{a},{b},{w}" for a, b, w in pairs]
    graph, read = timed(lambda: nx.parse_edgelist(lines, delimiter=",", nodetype=int, data=[("w", int)]))
    empty = nx.Graph()
    _, add = timed(lambda: [empty.add_edge(a, b, w=w) for a, b, w in pairs])
    times = {"solve networkx": solve, "read networkx": read, "add networkx": add}
    if all(w == 1 for _, _, w in pairs):
        times["peel networkx"] = timed(lambda: nx.core_number(graph))[1]
    return times


# ---- runs and tables


def idle():
    """How many cores are idle, over a quarter of a second (Linux)."""

    def ticks():
        with open("/proc/stat") as file:
            values = [int(x) for x in file.readline().split()[1:9]]
        return values[3], sum(values)

    before = ticks()
    time.sleep(0.25)
    after = ticks()
    return os.cpu_count() * (after[0] - before[0]) / max(1, after[1] - before[1])


def quiet(seconds=4):
    """Waits for a core that nobody uses, but not for ever."""
    end = time.monotonic() + seconds
    while idle() < 0.9 and time.monotonic() < end:
        pass


def compare(program, batch):
    """For each list of the batch, times and what else compare.cpp prints, by name."""
    out = subprocess.run([program, str(REPETITIONS), batch], check=True, capture_output=True, text=True).stdout
    found = []
    for name, value in (line.rsplit(" ", 1) for line in out.splitlines()):
        if name == "list":
            found.append({})
        else:
            found[-1][name] = float(value)
    return found


def wanted(name, seed, sort, quick):
    """What runs on a list: see compare.cpp."""
    if name not in KINDS:
        return "ours"
    if quick or name not in ALL:
        return "quick"
    return "searches" if sort not in FULL else "all" if seed else "programme"


def measure(program, folder, runs, quick):
    """Sort of the counts: name of the list, seed, what: the median over the runs. Times of add and of a raised count are for one pair."""
    times = {sort: defaultdict(list) for sort in COUNTS}
    for run in range(runs):
        for sort in COUNTS:
            lists = [*of_kinds(sort), *(of_sizes(sort) if sort in FULL and not quick else [])]
            whats = [wanted(name, seed, sort, quick) for name, seed, _, _ in lists]
            batch = f"{folder}/batch"
            with open(batch, "w") as file:
                file.writelines(f"{what} {write(folder, sort, *listed)}\n" for what, listed in zip(whats, lists))
            quiet()
            for (name, seed, n, pairs), what, found in zip(lists, whats, compare(program, batch)):
                found["pairs"] = len(pairs)
                if what == "programme" and run == 0:
                    found |= by_networkx(n, pairs, (found["p"], found["q"]))
                for call, value in found.items():
                    times[sort][name, seed, call].append(value / len(pairs) if call.startswith(("add", "raise")) else value)
            print(f"run {run + 1}: {sort}", file=sys.stderr)
    return {sort: {key: median(values) for key, values in found.items()} for sort, found in times.items()}


def typical(times, name, what):
    return median(times[name, seed, what] for seed in SEEDS if (name, seed, what) in times)


def ratio(times, name, theirs, ours):
    return median(times[name, seed, theirs] / times[name, seed, ours] for seed in SEEDS if (name, seed, theirs) in times)


def figure(value):
    return f"{value:.2f}" if value < 10 else f"{value:.1f}" if value < 100 else f"{value:,.0f}"


def table(heads, rows):
    print("| " + " | ".join(heads) + " |\n|" + "---|" * len(heads))
    for row in rows:
        print("| " + " | ".join(row) + " |")
    print()


def compared(times, head, ours, others):
    """A row for each kind: our time in µs, and how many times as long each of the others takes."""
    table(
        [head, "ours, µs", *others],
        [[name, figure(typical(times, name, ours)), *(figure(ratio(times, name, other, ours)) for other in others.values())] for name in ALL],
    )


def shuffled(times, names):
    """A row for each list: both readers on the same pairs in a shuffled order, and how many times as long read_dimacs takes."""
    rows = []
    for name in names:
        both = [figure(typical(times, name, what)) for what in ["read shuffled", "read_dimacs shuffled"]]
        rows.append([name, f"{typical(times, name, 'pairs'):,.0f}", *both, figure(ratio(times, name, "read_dimacs shuffled", "read shuffled"))])
    table(["shuffled lines", "pairs", "read, µs", "read_dimacs, µs", "read_dimacs / read"], rows)


ENGINES = ["LEMON", "Boost-push-relabel", "Boost-BK", "igraph"]
WAYS = ["textbook", "whole", "core"]


def mean(times, name, what):
    return geometric_mean(times[name, seed, what] for seed in SEEDS)


def quickest(times, name):
    """Our time for a kind, that of the quickest of the others, and which it is."""
    ran = [(engine, way) for engine in ENGINES for way in WAYS if (name, 0, f"solve {engine} {way}") in times]
    return mean(times, name, "solve ours"), *min((mean(times, name, f"solve {engine} {way}"), f"{engine}, {way}") for engine, way in ran)


def beside_quickest(times, sort):
    """A row for each kind: our solve, and the quickest of the others'. Bold is what misses the aim."""
    rows = []
    for name in KINDS:
        ours, theirs, which = quickest(times, name)
        pairs, value = typical(times, name, "pairs"), figure(theirs / ours)
        rows.append([name, f"{pairs:,.0f}", figure(ours), figure(theirs), which, f"**{value}**" if pairs >= AIM and theirs < 1.5 * ours else value])
    table([f"solve, {sort}", "pairs", "ours, µs", "the quickest of the others, µs", "which", "ratio"], rows)


def summed_up(times):
    """A row for each sort of counts: the ratios to the quickest of the others over all kinds; how many reach the aim is of those that have it."""
    rows = []
    for sort, found in times.items():
        ratios = {name: theirs / ours for name in KINDS for ours, theirs, _ in [quickest(found, name)]}
        aimed = [value for name, value in ratios.items() if typical(found, name, "pairs") >= AIM]
        once, twice = (sum(value >= aim for value in aimed) for aim in [1.5, 2])
        least = min(ratios, key=ratios.get)
        longest = max(value for (name, _, what), value in found.items() if what == "solve ours" and name in KINDS)
        reached = [f"{once} of {len(aimed)}", f"{twice} of {len(aimed)}", "yes" if once == len(aimed) and 3 * twice >= 2 * len(aimed) else "no"]
        rows.append([sort, figure(geometric_mean(ratios.values())), f"{figure(ratios[least])}, {least}", *reached, figure(longest)])
    table(["solve, the quickest of the others", "geometric mean", "least", "1.5 or more", "2 or more", "as aimed", "our longest, µs"], rows)


def dimacs(times):
    """DIMACS edge files, read and written."""
    others = {other: f"read_dimacs {other}" for other in ["LEMON", "scanf", "igraph"]}
    compared(times, "read_dimacs", "read_dimacs ours", {"read": "read ours"} | others)
    commented = {"without comments": "read_dimacs ours", "igraph": "read_dimacs commented igraph"}
    compared(times, "read_dimacs, a comment before each line", "read_dimacs commented ours", commented)
    shuffled(times, [*ALL, *(f"{n}, {m}" for n, m in SIZES if m == 4096)])
    compared(times, "write_dimacs", "write_dimacs ours", {other: f"write_dimacs {other}" for other in ["sprintf", "LEMON", "igraph"]})


def solves(times):
    """Solve in three ways, and check."""
    for way in WAYS:
        slow = {"networkx": "solve networkx", "GLPK": "solve GLPK"} if way == "whole" else {}
        compared(times, f"solve, {way}", "solve ours", {engine: f"solve {engine} {way}" for engine in ENGINES} | slow)
    compared(times, "check", "check ours", {f"solving again: {other}": f"solve {other}" for other in ["ours", "LEMON core", "LEMON whole"]})


def others(times, ones):
    """Peel, read, add, and a count raised."""
    heaps = ["heap", "Boost-weighted", "heap from pairs", "Boost-weighted from pairs"]
    made = ["igraph from pairs", "Boost from pairs", "Boost-CSR from pairs"]
    peels = ["igraph", "Boost", "networkx", *made, "heap", "heap from pairs"] if ones else heaps
    for call, rivals in {"peel": peels, "read": ["scanf", "LEMON", "igraph", "networkx"]}.items():
        compared(times, call, f"{call} ours", {other: f"{call} {other}" for other in rivals})
    compared(times, "add, a pair", "add ours", {other: f"add {other}" for other in ["std::map", "Boost", "igraph", "networkx"]})
    compared(times, "add, a held pair's count raised", "raise ours", {other: f"raise {other}" for other in ["std::map", "Boost"]})


def growth(times):
    """Uniform lists by N and M."""
    calls = ["solve", "peel", "check", "read", "add"]
    table(
        ["uniform: N, M", *(f"{call}, µs" for call in calls)],
        [[f"{n}, {m}", *(figure(typical(times, f"{n}, {m}", f"{call} ours")) for call in calls)] for n, m in SIZES],
    )


def sorts(times):
    """A row for each kind: our times by sort of the counts, and how Boost and a heap peel."""
    for what in ["solve", "check", "peel"]:
        table(
            [f"{what} by stop counts, µs", *COUNTS],
            [[name, *(figure(typical(times[sort], name, f"{what} ours")) for sort in COUNTS)] for name in ALL],
        )
    heap = [[name, *(figure(ratio(times[sort], name, "peel heap", "peel ours")) for sort in COUNTS)] for name in ALL]
    table(["peel, a heap over partners that stand already", *COUNTS], heap)
    differs = [[name, *(figure(typical(times[sort], name, "differs")) for sort in COUNTS)] for name in ALL]
    table(["modules on which Boost's weighted core numbers differ", *COUNTS], differs)


def in_full(times):
    """All tables but those of solve beside the quickest of the others."""
    for sort in FULL:
        print(f"## Stop counts: {sort}\n")
        solves(times[sort])
        others(times[sort], sort == "ones")
        growth(times[sort])
    print("## DIMACS edge files (without counts)\n")
    dimacs(times["ones"])
    print("## By stop counts\n")
    sorts(times)


def main():
    program, folder, runs, quick = sys.argv[1], sys.argv[2], int(sys.argv[3]), sys.argv[4:] == ["quick"]
    times = measure(program, folder, runs, quick)
    if not quick:
        in_full(times)
    print("## Solve beside the quickest of the others\n")
    for sort in COUNTS:
        beside_quickest(times[sort], sort)
    summed_up(times)


main()
