"""The call for one read at a time (document 02, Item 2): asked of the program, and told where plain counts of the command's own come to the same. It has no log, so
that no checker can be asked and no record is told: what it says rests on its proved contract.
"""

from __future__ import annotations

from collections.abc import Sequence

import calls

from .counts import rows_of, without_start
from .headcounts import clash_fault, counted, settled_fault
from .scene import Window, overlaps
from .verdict import OWN_COUNT, Desk, Verdict, contradicts, spoken, submitted, windows_of


class Head(Desk):
    """A clash marks no read, but for a window that is too short by itself; it leaves the windows as they were."""

    call = "head"

    def narrowed(self) -> Verdict:
        reads, asked = self.reads, submitted(self.reads)
        answer = calls.understood(self.call, self.program.answer(calls.heading(reads.lists)), [len(reads.units)] * 2)
        windows, said = windows_of(answer), f"head says '{spoken(answer)}'"
        if answer.word == "refused":
            if windows != asked:
                raise contradicts(f"{said}, and leaves other windows than those that it was given")
            return self.refused(self.call, answer)
        self.has_to_answer(said)
        fault = (settled_fault if answer.word == "settled" else clash_fault)(reads, asked, windows, *answer.numbers)
        if fault:
            raise contradicts(f"{said}, and {fault}")
        short = without_start(reads, asked)
        is_counted = bool(short) or self.agrees_with_counts(said, answer, windows)
        return Verdict(answer.word, answer.numbers, windows, marked=short[:1], before=windows, counted=is_counted)

    def planned(self) -> Verdict:
        """Which reads of a plan overlap is the command's own count; no call says it."""
        verdict = self.narrowed()
        found = overlaps(rows_of(self.reads, verdict.windows)) if verdict.word == "clash" else []
        return verdict._replace(overlaps=found, marked=sorted({job for _, *jobs in found for job in jobs}))

    def agrees_with_counts(self, said: str, answer: calls.Answer, windows: Sequence[Window]) -> bool:
        """Whether the answer could be counted: in the program's order of work, or in another one, of which the word and the windows have to be the same."""
        asked = submitted(self.reads)
        whole = counted(self.reads, asked)
        again = whole or counted(self.reads, asked, by_leeway=True)
        if whole not in (None, (answer.word, answer.numbers, windows)) or (again and (again[0], again[2]) != (answer.word, windows)):
            raise contradicts(f"{said}, and the count comes to something else", OWN_COUNT)
        return again is not None
