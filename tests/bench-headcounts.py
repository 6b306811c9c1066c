"""tests/bench-headcounts.py [SEED]: the plain counts that ./bench --head holds against the program (front/bench/headcounts.py), on drawn lists: the rule against
its definition over all sets, the whole answer, in both orders of work, against every schedule of small lists and against what a program says directly, and what
is said of answers that cannot be. SECOND, or where that is not set PROBE, is the program. Says what went wrong and ends with status 1, or says nothing.
"""

from __future__ import annotations

import random
import sys
from collections.abc import Iterator, Sequence
from itertools import chain, combinations

from benching import Direct, bench, check, finished, listing, probe, run
from lying import lied, stand_in

from bench import headcounts
from bench.headcounts import bound, clash_fault, counted, settled_fault
from bench.quantities import Draws, Times
from bench.reads import Reads

SEED, LISTS = 7, 400


def drawn(chance: random.Random, count: int, last: int) -> Reads:
    """Every window has room for its read, and not for many more."""
    lengths = [chance.choice((0, 1, 1, 2, 2, 3, 4)) for _ in range(count)]
    earliest = [chance.randint(0, last) for _ in range(count)]
    latest = [start + length + chance.choice((0, 1, 2, 3, 4, 6, last)) for start, length in zip(earliest, lengths)]
    return Reads([f"u{job}" for job in range(count)], earliest, latest, lengths, [], 0, Times(), Draws()).for_head(())


def windows_of(reads: Reads) -> list[tuple[int, int]]:
    return list(zip(reads.earliest, reads.latest))


def by_sets(job: int, side: int, windows: Sequence[tuple[int, int]], lengths: Sequence[int]) -> int:
    """The rule as document 02 says it, over every set of those that come first, or on the other side last."""
    (start, end), length = windows[job], lengths[job]
    if side:
        others = [k for k in range(len(windows)) if k != job and lengths[k] and windows[k][0] + lengths[k] > end - length]
    else:
        others = [k for k in range(len(windows)) if k != job and lengths[k] and start + length > windows[k][1] - lengths[k]]
    sets = chain.from_iterable(combinations(others, size) for size in range(1, len(others) + 1)) if length else ()
    if side:
        return min([end, *(max(windows[k][1] for k in some) - sum(lengths[k] for k in some) for some in sets)])
    return max([start, *(min(windows[k][0] for k in some) + sum(lengths[k] for k in some) for some in sets)])


def schedules(reads: Reads, starts: tuple[int, ...] = ()) -> Iterator[tuple[int, ...]]:
    """Every schedule in which no two reads that last overlap."""
    job = len(starts)
    if job == len(reads.units):
        yield starts
        return
    length = reads.lengths[job]
    for start in range(reads.earliest[job], reads.latest[job] - length + 1):
        before = zip(starts, reads.lengths)
        if not length or all(not lasts or start + length <= other or other + lasts <= start for other, lasts in before):
            yield from schedules(reads, (*starts, start))


def small(chance: random.Random) -> None:
    reads = drawn(chance, chance.randint(0, 4), 4)
    word, _, windows = counted(reads, windows_of(reads), chance.random() < 0.5)
    found = list(schedules(reads))
    if word == "clash":
        check((reads, "no schedule"), found, [])
    for starts in found:
        inside = all(first <= start and start + length <= last for start, length, (first, last) in zip(starts, reads.lengths, windows))
        check((reads, starts, "lies in the windows"), inside, True)


def whole(chance: random.Random, direct: Direct) -> str:
    """The answer is the program's; of it nothing is found that cannot be."""
    reads = drawn(chance, chance.randint(0, 8), chance.choice((6, 12, 20)))
    asked = windows_of(reads)
    for job in range(len(asked)):
        for side in (0, 1):
            check((reads, job, side), bound(job, side, asked, reads.lengths), by_sets(job, side, asked, reads.lengths))
    answer = direct.head(reads.lists)
    windows = list(zip(*answer.lists))
    check((reads, "the whole answer"), counted(reads, asked), (answer.word, answer.numbers, windows))
    check((reads, "by leeway"), counted(reads, asked, by_leeway=True)[::2], (answer.word, windows))
    fault = (settled_fault if answer.word == "settled" else clash_fault)(reads, asked, windows, *answer.numbers)
    check((reads, "no fault"), fault, None)
    return answer.word if answer.numbers[0] else "nothing"


def faults() -> None:
    """By hand: a, b and c come to 4-10, 4-10 and 0-4 by three moves, and z is not moved."""
    reads = Reads(["a", "b", "c", "z"], [0, 0, 0, 0], [10, 10, 5, 9], [3, 3, 4, 0], [], 0, Times(), Draws()).for_head(())
    asked, settled = windows_of(reads), [(4, 10), (4, 10), (0, 4), (0, 9)]
    for change, count, wanted in (({}, 3, None), ({}, 2, "so many moves"), ({}, 10, "so many moves"), ({}, 9, None), ({0: (4, 11)}, 3, "beyond"), ({0: (8, 10)}, 3, "no start"), ({3: (1, 9)}, 4, "lasts 0"),
                                  ({0: (3, 10)}, 3, "more can be narrowed"), ({2: (0, 5)}, 3, "more can be narrowed"), (dict(enumerate(asked)), 0, "more can be narrowed")):
        found = settled_fault(reads, asked, [change.get(job, window) for job, window in enumerate(settled)], count)
        check((change, count), wanted in found if wanted and found else found, True if wanted else None)
    for windows, count, job, wanted in ((asked, 1, 0, None), (asked, 25, 2, None), (asked, 26, 2, "a number"), (asked, 0, 0, "a number"), (asked, 1, 3, "a read"), (asked, 1, 4, "a read"), (settled, 1, 0, "other windows")):
        found = clash_fault(reads, asked, windows, count, job)
        check((windows, count, job), wanted in found if wanted and found else found, True if wanted else None)
    short = reads._replace(latest=[10, 2, 3, 9])
    for count, job, wanted in ((0, 1, None), (0, 2, "too short"), (1, 1, "too short"), (3, 0, "too short")):
        found = clash_fault(short, windows_of(short), windows_of(short), count, job)
        check((count, job, "too short"), wanted in found if wanted and found else found, True if wanted else None)


# Windows one in another, the widest first: each is narrowed behind those within, so that the order of the list takes many rounds. The last read has leeway.
NESTED = ("a 20 100 10", "b 20 90 10", "c 30 90 10", "d 30 80 10", "e 40 80 10", "f 40 70 10", "g 41 70 10", "h 50 60 10", "z 200 300 5")

# So many looks are enough by leeway, and not in the order of the list.
FEWER = 100

# Lies that nothing in the answer itself shows: a clash where there is none, and the last window narrower than the rule leaves it, with a move more.
CLASHING = "if name == 'head': said[:] = ['clash', '1', '0', *call[1 : 3 + 2 * int(call[1])]]"
NARROWER = "if name == 'head': bump(1); bump(lists[1] - 1, 7)"
OTHERWISE = "and the count comes to something else."
GIVEN_UP = "so no reasons are told. The command's own count was given up, since it takes too long."


def too_long() -> None:
    """Where the count in the program's order takes too long the one in another order finds lies; where that does too, it is said, and what else can be said is
    still looked at."""
    most, own = headcounts.LOOKS, "contradicts the command's own count: head says"
    cells = [row.split() for row in NESTED]
    reads = Reads([row[0] for row in cells], *([int(row[place]) for row in cells] for place in (1, 2, 3)), [], 0, Times(), Draws()).for_head(())
    text = listing(*NESTED, header="unit,earliest,latest,length")
    for looks in (most, FEWER):
        headcounts.LOOKS = looks
        check((looks, "counts"), [counted(reads, windows_of(reads), order) is None for order in (False, True)], [looks == FEWER, False])
        found = bench(text, "--head")
        check((looks, "an answer"), (found.status, GIVEN_UP in found.text), (0, False))
        lied((looks, "a clash"), stand_in(CLASHING), "list.csv", "--head", reason=f"{own} 'clash 1 0', {OTHERWISE}")
        lied((looks, "narrower"), stand_in(NARROWER), "list.csv", "--head", reason=f"{own} 'settled 29', {OTHERWISE}")
    headcounts.LOOKS = 1
    for lie, status in (("pass", 0), (CLASHING, 1), (NARROWER, 0)):
        with probe(stand_in(lie)):
            found, told = run("list.csv", "--head"), run("list.csv", "--head", "--json").object
        check((lie, "given up"), (found.status, found.lines[1].endswith(GIVEN_UP), told.get("counted")), (status, True, False))
    lied("more can be narrowed", stand_in("if name == 'head': bump(lists[0] + 1, -1)"), "list.csv", "--head", reason="says 'settled 28', and more can be narrowed.")
    headcounts.LOOKS = most
    lied("a move more", stand_in("if name == 'head': bump(1)"), "list.csv", "--head", reason=f"{own} 'settled 29', {OTHERWISE}")


def main() -> int:
    chance, direct = random.Random(int(sys.argv[1]) if len(sys.argv) > 1 else SEED), Direct()
    words = [whole(chance, direct) for _ in range(LISTS)]
    check("all words come", min(words.count(word) for word in ("settled", "clash", "nothing")) > 39, True)
    for _ in range(LISTS):
        small(chance)
    faults()
    too_long()
    direct.close()
    return finished()


if __name__ == "__main__":
    sys.exit(main())
