"""tests/bench-counts.py [SEED]: the plain counts that ./bench holds against the program (front/bench/counts.py), and the records that a clash needs
(front/bench/records.py), on drawn lists: against definitions tick by tick (docs/ANSWERS.md), and against what a program says directly. SECOND, or where
that is not set PROBE, is the program. Says what went wrong and ends with status 1, or says nothing.
"""

from __future__ import annotations

import random
import sys
from collections.abc import Sequence

from benching import LIMITS, RECORD, Direct, check, finished
from drawing import List, drawn

from bench.counts import after, is_narrowable, refusal_of, without_start
from bench.quantities import Draws, Times
from bench.reads import Reads
from bench.records import Record, log_of, needed, records_of

SEED, LISTS = 7, 400


def reads_of(list_: List) -> Reads:
    return Reads(list_.names, *list_.lists, list_.supply, Times(), Draws())


def crowded(reads: Reads, windows: Sequence[tuple[int, int]], job: int, time: int) -> bool:
    """Whether the read's draw and those of the others that are being read then in any case exceed the supply."""
    others = [other for other in range(len(windows)) if other != job and windows[other][1] - reads.lengths[other] <= time < windows[other][0] + reads.lengths[other]]
    return reads.demands[job] + sum(reads.demands[other] for other in others) > reads.supply


def plainly_narrowable(reads: Reads, windows: Sequence[tuple[int, int]]) -> bool:
    for job, ((start, end), length) in enumerate(zip(windows, reads.lengths)):
        times = {*range(start, start + length), *range(end - length, end)} if length and reads.demands[job] else ()
        if any(crowded(reads, windows, job, time) for time in times):
            return True
    return False


def narrowed_by_hand(chance: random.Random, reads: Reads) -> list[tuple[int, int]]:
    """Windows that no rule has made, each with room for its read."""
    windows = []
    for start, end, length in zip(reads.earliest, reads.latest, reads.lengths):
        first = chance.randint(start, max(start, end - length))
        windows.append((first, chance.randint(first + length, max(first + length, end))))
    return windows


def counted(chance: random.Random, list_: List) -> bool:
    """Whether more can be narrowed, in drawn windows."""
    reads = reads_of(list_)
    windows = narrowed_by_hand(chance, reads)
    found = is_narrowable(reads, windows)
    check((list_.lists, list_.supply, windows, "can be narrowed"), found, plainly_narrowable(reads, windows))
    check((windows, "no room"), without_start(reads, windows), [])
    job = chance.randrange(len(windows)) if windows else 0
    if windows and reads.lengths[job]:
        windows[job] = (windows[job][0], windows[job][0] + reads.lengths[job] - 1)
        check((windows, "too short"), without_start(reads, windows), [job])
    return found


def replayed(list_: List, direct: Direct) -> str:
    """The windows after each number of records are those of the checker; of a clash the records that it needs are a log, and its marks are those of `conflict`."""
    reads, submitted = reads_of(list_), list(zip(*list_.lists[:2]))
    answer = direct.narrow(list_.supply, list_.lists, list_.room)
    count, log = answer.numbers[0], answer.lists[2]
    records = records_of(log, count, LIMITS)
    check((records, "as words"), log_of(records, LIMITS), log[: RECORD * count])
    for number in range(count):
        checked = direct.check(list_.supply, list_.lists, number, log[: RECORD * number])
        check((list_.lists, number), (checked.word, after(submitted, records[:number])), ("holds", list(zip(*checked.lists))))
    windows = after(submitted, records)
    if answer.word == "settled":
        check((list_.lists, "settled"), (windows, is_narrowable(reads, windows), without_start(reads, windows)), (list(zip(*answer.lists[:2])), False, []))
        check((list_.lists, "narrowed"), is_narrowable(reads, submitted), count > 0)
    else:
        check((list_.lists, "closed"), answer.numbers[1] in without_start(reads, windows), True)
    if answer.word == "clash" and records:
        kept, marked = needed(records)
        check((records, "marked"), sorted(marked), direct.conflict(list_.supply, list_.lists, count, log[: RECORD * count]))
        by_itself = direct.check(list_.supply, list_.lists, len(kept), log_of(kept, LIMITS))
        check((records, "needed"), (by_itself.word, by_itself.numbers), ("clash", [len(kept), answer.numbers[1]]))
        return "some" if len(kept) < count else "all"
    return answer.word


def by_hand() -> None:
    """Records whose moved read is marked only by one before them are not needed."""
    first, second, third, last = Record(2, 0, 5, (3,)), Record(1, 0, 5, (4,)), Record(5, 1, 9, (1,)), Record(0, 0, 7, (1,))
    check("needed", needed([first, second, third, last]), ([second, last], {0, 1, 4}))
    check("needed, the marks of a record before", needed([third, second, Record(4, 0, 3, (5,)), last]), ([second, last], {0, 1, 4}))
    check("after", after([(0, 9), (1, 8)], [Record(0, 0, 3, ()), Record(1, 1, 6, (0,)), Record(0, 1, 8, ())]), [(4, 8), (1, 6)])
    plain = Reads(["a"], [0], [9], [3], [1], 5, Times(), Draws())
    for length, draw, wanted in ((3, 6, True), (3, 5, False), (0, 6, False)):
        check((length, draw, "by itself"), is_narrowable(plain._replace(lengths=[length], demands=[draw]), [(0, 9)]), wanted)
    for change, wanted in (({}, None), ({"supply": 10001}, 3), ({"demands": [10001]}, 3), ({"latest": [1000001]}, 3), ({"earliest": [1000001]}, 3), ({"lengths": [1000001]}, 3),
                           ({"supply": 10000, "demands": [10000], "latest": [1000000]}, None), 
                           ({"units": ["a"] * (LIMITS.jobs + 1)}, 2), ({"units": ["a"] * (LIMITS.jobs + 1), "supply": 10001}, 2), ({"units": ["a"] * LIMITS.jobs}, None)):
        check((change, "refused"), refusal_of(plain._replace(**change), LIMITS), wanted)


def main() -> int:
    chance, direct = random.Random(int(sys.argv[1]) if len(sys.argv) > 1 else SEED), Direct()
    found, words = [], []
    for _ in range(LISTS):
        list_ = drawn(chance, chance.randint(0, 12))
        found.append(counted(chance, list_))
        words.append(replayed(list_, direct))
    check("both come often", min(found.count(True), found.count(False)) * 8 > LISTS, True)
    check("all words come", min(words.count(word) for word in ("settled", "some", "all")) > 9, True)
    by_hand()
    direct.close()
    return finished()


if __name__ == "__main__":
    sys.exit(main())
