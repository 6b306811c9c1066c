"""tests/bench-damaged.py [SEED]: logs of drawn lists, damaged in many ways, given to ./bench alone and beside the list; what is said of them agrees with a
plain replay. PROBE is the program that is asked. Says what went wrong and ends with status 1, or says nothing.
"""

from __future__ import annotations

import random
import re
import sys
from collections.abc import Iterator, Sequence

from benching import Bad, bench, check, finished, put, replay, run
from drawing import List, drawn, fixed, logged

SEED = 7

# Logs with starts that are fixed in every other one. Of the damages, nine to a word, every so many are judged alone and beside the list.
LOGS, ALONE, BESIDE = 2, 4, 7
PLACE = re.compile(r"log:[0-9]+:[0-9]+: \S.*")


def damaged(text: str) -> Iterator[str]:
    """Each word in turn removed, emptied, doubled and changed; lines removed, doubled and swapped; the text cut."""
    parts = re.split(r"([ \n])", text)
    for place in range(0, len(parts) - 1, 2):
        word = parts[place]
        yield "".join((*parts[:place], *parts[place + 2 :]))
        others = (str(int(word) + 1), str(max(0, int(word) - 1)), "0", "1000001", "4294967296") if word.isdigit() else (word[:-1], word + "1", "record", "HH:MM", "5")
        for new in ("", word + word, f"{word} {word}", *others):
            yield "".join((*parts[:place], new, *parts[place + 1 :]))
    lines = text.splitlines(keepends=True)
    for place, line in enumerate(lines):
        yield "".join((*lines[:place], *lines[place + 1 :]))
        yield "".join((*lines[:place], line, *lines[place:]))
        yield "".join((*lines[:place], *lines[place + 1 : place + 2], line, *lines[place + 2 :]))
    for at in range(0, len(text), 1 + len(text) // 150):
        yield text[:at]


def judged(text: str, original: tuple | None, *words: str) -> None:
    """What is said of a log, beside the list that the original is of or by itself, agrees with the replay."""
    found = run(*words, "--check", put("log", text), "--json")
    if found.status == 2:
        check((text, "places"), (found.lines, all(PLACE.fullmatch(line) for line in found.error.split("\n"))), ([], True))
        return
    try:
        of, end, windows = replay(text)
    except (Bad, ValueError, IndexError):
        of, end, windows = None, "", []
    told, same = found.object, original is None or of == original
    if told.get("log") == "good":
        said = " ".join(str(told[name]) for name in ("answer", "count", "job") if name in told)
        check((text, words, "good"), (said, [read["now"] for read in told["reads"]], same, found.status), (end, windows, True, 1 if end.startswith("clash") else 0))
    else:
        refused = found.status == 3 and told.get("answer") == "refused"
        said, *claim = told.get("sentences", [""])
        rejected = told.get("answer") == "rejected" and len(claim) == 1 and claim[0].startswith("The record says: ")
        check((text, words, "bad"), (refused or (told.get("log"), found.status, said.startswith("log:")) == ("bad", 1, True), rejected or refused or not claim), (True, True))
        check((text, words, "is not good"), of is None or not same, True)


def spoiled(list_: List, words: Sequence[str], starts: dict[int, int]) -> None:
    """The log in many damaged forms, alone and beside its list."""
    of, text = logged(list_, words, starts)
    for number, other in enumerate(damaged(text)):
        if number % ALONE == 0:
            judged(other, None)
        if number % BESIDE == 1:
            judged(other, of, "list.csv", *words)


def main() -> int:
    chance = random.Random(int(sys.argv[1]) if len(sys.argv) > 1 else SEED)
    for count in range(LOGS):
        told, list_, with_starts = {}, drawn(chance, 5), ([], {})
        while not 2 < len(told.get("records", [])) < 12 or (count % 2 and not with_starts[1]):
            list_ = drawn(chance, 4 + count)
            with_starts = fixed(chance, list_, 1) if count % 2 else ([], {})
            told = bench(list_.text, "--json", *with_starts[0]).object
        spoiled(list_, *with_starts)
    return finished()


if __name__ == "__main__":
    sys.exit(main())
