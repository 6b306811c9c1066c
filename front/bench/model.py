"""The submitted reads as a MiniZinc model, for other solvers: the schedules that the promises speak of."""

from __future__ import annotations

from collections.abc import Sequence

from .reads import Reads


def numbers(row: Sequence[int]) -> str:
    return f"[{', '.join(map(str, row))}]"


def model_lines(reads: Reads) -> list[str]:
    """A solution is a start for each read, in the order of the list, in ticks."""
    earliest, latest, lengths, demands = map(numbers, (reads.earliest, reads.latest, reads.lengths, reads.demands))
    pairs = [f"constraint s[{first + 1}] + p[{first + 1}] <= s[{then + 1}];" for first, then in reads.pairs]
    draws = "draws of 1, and of 0 for reads of length 0, from a supply of 1, so that one is read at a time" if reads.head else "draws"
    return [
        f"% The submitted reads of a list, those whose start is fixed with just that window, written by ./bench: earliest starts, latest ends, lengths, {draws}.",
        'include "cumulative.mzn";',
        f"int: n = {len(reads.units)};",
        f"int: supply = {reads.supply};",
        f"array[1..n] of int: e = {earliest};",
        f"array[1..n] of int: l = {latest};",
        f"array[1..n] of int: p = {lengths};",
        f"array[1..n] of int: r = {demands};",
        f"array[1..n] of var 0..{max(reads.latest, default=0)}: s;",
        r"constraint forall (k in 1..n) (e[k] <= s[k] /\ s[k] + p[k] <= l[k]);",
        "constraint cumulative(s, p, r, supply);",
        *pairs,
        "solve satisfy;",
        r'output [show(s[k]) ++ "\n" | k in 1..n];',
    ]
