"""What ./bench tells of lists of reads, in exact words: sentences, folded records, clashes, fixed starts and plans, for people and for programs
(docs/BENCH.md). PROBE is the program that is asked. Says what went wrong and ends with status 1, or says nothing.
"""

from __future__ import annotations

import re
import sys
from pathlib import Path

from benching import Said, bench, check, finished, listing, put

LIES = "Every schedule lies in the windows now; that there is one is not said."
TAKEN = "that the checker took from the submitted windows"
OTHERS = "whatever becomes of the others"
OWN = "by the command's own count"
DAY = "one of them has to get another window, or another day."
FEW0 = "nor can it be through before the first of these times, or fit between them, so it starts at"
FEW1 = "nor can it start after the last of these times, or fit between them, so it ends by"
A3 = "“a” is being read in any case and draws 3 of 5. “b” draws 3, so it is not read then;"
CLOCK = "# time: HH:MM\n# step: 0.1 A"

# The rows of a list on a supply of 5, and its sentences.
SENTENCES = [
    (["a 0 4 4 3", "b 2 12 3 3"], [f"At time 3 {A3} nor can it be through before, so it starts at 4 or later."]),
    (["a 8 12 4 3", "b 2 11 3 3"], [f"At time 8 {A3} nor can it start later, so it ends by 8."]),
    (["b 0 20 6 3", "c 14 20 6 2", "d 15 20 5 1"],
     ["At time 15 “c” and “d” are being read in any case and draw 3 of 5. “b” draws 3, so it is not read then; nor can it start later, so it ends by 15."]),
    (["b 0 20 6 1", "c 0 6 6 2", "d 0 5 5 2", "e 0 5 5 1"],
     ["At time 4 “c”, “d” and “e” are being read in any case and draw 5 of 5. “b” draws 1, so it is not read then; nor can it be through before, so it starts at 5 or later."]),
    (["a 0 2 2 3", "b 0 9 1 3"], [f"At times 0 and 1 {A3} {FEW0} 2 or later."]),
    (["a 0 3 3 3", "b 0 9 1 3"], [f"At times 0, 1 and 2 {A3} {FEW0} 3 or later."]),
    (["a 0 4 4 3", "b 0 9 1 3"], [f"At each time from 0 to 3 (4 records) {A3} {FEW0} 4 or later."]),
    (["a 0 12 12 3", "b 0 90 2 3"], [f"At times 1, 3 and so on to 11 (6 records) {A3} {FEW0} 12 or later."]),
    (["a 80 83 3 3", "b 0 83 1 3"], [f"At times 80, 81 and 82 {A3} {FEW1} 80."]),
    (["a 80 90 10 3", "b 0 90 1 3"], [f"At each time from 80 to 89 (10 records) {A3} {FEW1} 80."]),
    # The last of these times is the greatest, so they rise.
    (["a 80 90 10 3", "b 0 90 2 3"], [f"At times 80, 82 and so on to 88 (5 records) {A3} {FEW1} 80."]),
    # Another member set is another sentence, and so is another side.
    (["a 0 4 4 3", "b 0 20 4 3", "c 4 8 4 3"], [f"At time 3 {A3} nor can it be through before, so it starts at 4 or later.",
                                               f"At time 7 {A3.replace('“a”', '“c”')} nor can it be through before, so it starts at 8 or later."]),
    (["a 0 4 4 3", "b 0 20 4 3", "c 16 20 4 3"], [f"At time 3 {A3} nor can it be through before, so it starts at 4 or later.",
                                                 f"At time 16 {A3.replace('“a”', '“c”')} nor can it start later, so it ends by 16."]),
    # Clashes.
    (["b 0 4 4 6"], ["At time 3 “b” is not read, since it draws 6 and the supply gives 5; nor can it be through before, so it starts at 4 or later. "
                     "It lasts 4 and has to end by 4, so no start is left for it."]),
    (["b 0 4 2 6"], [f"At times 1 and 3 “b” is not read, since it draws 6 and the supply gives 5; {FEW0} 4 or later. It lasts 2 and has to end by 4, so no start is left for it."]),
    (["b 0 3 2 3", "a 0 4 4 3"], [f"At time 1 {A3} nor can it be through before, so it starts at 2 or later. It lasts 2 and has to end by 3, so no start is left for it."]),
    (["b 0 4 1 3", "a 0 4 4 3"], [f"At each time from 0 to 3 (4 records) {A3} {FEW0} 4 or later. It lasts 1 and has to end by 4, so no start is left for it."]),
    (["a 0 2 3 1"], ["“a” lasts 3, and its window from 0 to 2 is shorter, so no start is left for it."]),
    (["a 9 2 0 1"], ["“a” lasts 0, and its window from 9 to 2 is shorter, so no start is left for it."]),
    (["x 0 4 4 3", "y 0 20 2 3", "a 30 34 4 3", "b 30 34 4 3"],
     ["At time 33 “b” is being read in any case and draws 3 of 5. “a” draws 3, so it is not read then; nor can it be through before, so it starts at 34 or later. "
      "It lasts 4 and has to end by 34, so no start is left for it."]),
]


def sentences() -> None:
    for rows, wanted in SENTENCES:
        found = bench(listing(*rows), "--json")
        check(rows, found.object.get("sentences"), wanted)
        lines = bench(listing(*rows)).lines
        check((rows, "numbered"), [line for line in lines if line[:1].isdigit()], [f"{place}. {said}" for place, said in enumerate(wanted, 1)])
        check((rows, "status"), found.status, 1 if "no start is left" in wanted[-1] else 0)


def on_the_clock() -> None:
    """In minutes and amperes, with quotes around names."""
    rows = ["a,1 08:00 08:40 40 3", "b 08:00 10:00 20 2.5A"]
    text = listing(*rows, supply="5.0 A", notes=CLOCK).replace("a,1", '"a,""1"""')
    check("the clock", bench(text), Said([
        f"Settled: 1 of 2 windows narrowed, by 2 records {TAKEN}. {LIES}", "",
        "unit     submitted          now   lasts  draws  leeway",
        'a,"1"  08:00-08:40            =  40 min  3.0 A   0 min',
        "b      08:00-10:00  08:40-10:00  20 min  2.5 A  60 min", "",
        "1. In the minutes of 08:19 and 08:39 “a,\"1\"” is being read in any case and draws 3.0 A of 5.0 A. “b” draws 2.5 A, so it is not read then; "
        f"{FEW0} 08:40 or later.",
    ], 0, ""))
    check("each minute", bench(listing("a 26:00 26:05 5 3", "b 26:00 27:00 1 3", notes="# time: HH:MM"), "--json").object["sentences"],
          [f"In each minute from 26:00 to 26:04 (5 records) {A3} {FEW0} 26:05 or later."])
    midnight = bench(listing("a 23:00 01:00 30 3", notes="# time: HH:MM"))
    check("behind midnight", midnight, Said([
        "Clash: this read has no schedule on 5. The checker says the same.", "",
        "unit    submitted  now   lasts  draws  leeway", "* a   23:00-01:00    -  30 min      3       -", "",
        "1. “a” lasts 30 min, and its window from 23:00 to 01:00 is shorter, so no start is left for it. (Behind midnight the hours go on: 25:00 is one o'clock on the next day.)", "",
        "“a” cannot be read in its submitted window on this supply."], 1, ""))
    check("before midnight", bench(listing("a 23:00 23:10 30 3", notes="# time: HH:MM"), "--json").object["sentences"],
          ["“a” lasts 30 min, and its window from 23:00 to 23:10 is shorter, so no start is left for it."])


def clashes() -> None:
    """Records that the clash does not need are left out, and what is marked is what cannot be read together."""
    text = listing("x 0 4 4 3", "y 0 20 2 3", "a 30 34 4 3", "b 30 34 4 3")
    found = bench(text)
    check("what is not needed", (found.lines[0], found.lines[2:7], found.lines[-1], found.status), (
        "Clash: these 4 reads have no schedule on 5. The checker took all 3 records from the submitted windows, and the one that the clash needs by itself.",
        ["unit  submitted  now  lasts  draws  leeway", "  x         0-4    -      4      3       -", "  y        0-20    -      2      3       -",
         "* a       30-34    -      4      3       -", "* b       30-34    -      4      3       -"],
        f"“a” and “b” cannot be read together in their submitted windows on this supply, {OTHERS}: {DAY}", 1))
    # Records of which some are needed: of x and y, and of a, the last of which closes its window.
    several = bench(listing("x 0 4 4 3", "y 0 20 2 3", "a 30 36 3 3", "b 30 36 6 3"))
    check("some are needed", several.lines[0], "Clash: these 4 reads have no schedule on 5. The checker took all 4 records from the submitted windows, and the 2 that the clash needs by themselves.")
    all_ = bench(listing("a 30 36 3 3", "b 30 36 6 3"))
    check("all are needed", all_.lines[0], "Clash: these 2 reads have no schedule on 5. The checker took all 2 records from the submitted windows.")
    told = bench(text, "--json").object
    check("for programs", {key: told[key] for key in ("answer", "count", "job", "supply", "records", "together")}, {
        "answer": "clash", "count": 3, "job": 2, "supply": 5, "records": [{"job": 2, "side": 0, "time": 33, "members": [3]}], "together": ["a", "b"]})
    check("windows for programs", [read["now"] for read in told["reads"]], [[0, 4], [0, 20], [30, 34], [30, 34]])
    three = bench(listing("a 0 4 4 2", "b 0 4 4 2", "c 0 4 4 2")).lines
    check("three, and one record", (three[0], three[-1]), ("Clash: these 3 reads have no schedule on 5. The checker took the record from the submitted windows.",
                                                           f"“a”, “b” and “c” cannot be read together in their submitted windows on this supply: {DAY}"))


def one_record() -> None:
    found = bench(listing("a 0 4 4 3", "b 2 12 3 3"))
    check("one record", found.lines[0], f"Settled: 1 of 2 windows narrowed, by 1 record {TAKEN}. {LIES}")
    check("one read", bench(listing("a 0 9 4 3")).lines, [f"Settled: no window is narrowed. {LIES}", "", "unit  submitted  now  lasts  draws  leeway", "a           0-9    =      4      3       5"])
    check("nothing of a start that is fixed", "fixed" in bench(listing("a 0 9 4 3"), "--json").object, False)


def names() -> None:
    """Names with typographic quotes stand in straight ones; long names stay whole in the table and in sentences, and are cut in the middle in pictures."""
    text = listing("a 0 4 4 3", "b 2 12 3 3").replace("\na,", "\n“a” 1,").replace("\nb,", "\nb”,")
    check("quotes", bench(text, "--json").object["sentences"], ['At time 3 "“a” 1" is being read in any case and draws 3 of 5. "b”" draws 3, so it is not read then; nor can it be through before, so it starts at 4 or later.'])
    check("quotes, fixed", bench(text, "--fix", "b”=4").lines[0].startswith('Settled with "b”" at 4: no window is narrowed.'), True)
    one, other = (f"Bosch Motronic {'m' * 170} 198{year}" for year in (7, 8))
    text = listing("a 0 4 4 3", "b 2 12 3 3").replace("\na,", f"\n{one},").replace("\nb,", f"\n{other},")
    found = bench(text, "--text-picture", "--picture", "long.svg")
    check("long names in the table", [line.split("  ")[0] for line in found.lines[3:5]], [one, other])
    check("long names in a sentence", found.lines[6].count(one) + found.lines[6].count(other), 2)
    shown = [line.split("|")[0].strip() for line in found.lines[8:10]]
    drawn = re.findall(r"<text[^>]*>(Bosch[^<]*)</text>", Path("long.svg").read_text("utf-8"))
    for cut in (shown, drawn):
        check(("cut in the middle", cut), (len(cut), all(name.startswith("Bosch") and len(name) < 60 and name.endswith(f"198{year}") for name, year in zip(cut, (7, 8)))), (2, True))


def why() -> None:
    """The windows before the first record of a sentence."""
    found = bench(listing("a 0 4 4 3", "b 0 20 4 3", "c 4 8 4 3"), "--why").lines
    check("why", found[-6:], [
        f"1. At time 3 {A3} nor can it be through before, so it starts at 4 or later.",
        "     “a” has the window 0 to 4 at this point and lasts 4: it starts by 0 and is not through before 4.",
        "     “b” has the window 0 to 20 at this point and lasts 4: it is not through before 4.",
        f"2. At time 7 {A3.replace('“a”', '“c”')} nor can it be through before, so it starts at 8 or later.",
        "     “c” has the window 4 to 8 at this point and lasts 4: it starts by 4 and is not through before 8.",
        "     “b” has the window 4 to 20 at this point and lasts 4: it is not through before 8."])
    found = bench(listing("a 80 90 10 3", "b 0 90 2 3"), "--why").lines
    check("why, side 1", found[-2:], ["     “a” has the window 80 to 90 at this point and lasts 10: it starts by 80 and is not through before 90.",
                                      "     “b” has the window 0 to 90 at this point and lasts 2: it starts by 88."])
    alone = bench(listing("a 0 2 3 1"), "--why")
    check("no record, no windows", alone, bench(listing("a 0 2 3 1")))


THREE = listing("a 08:00 10:00 40 3", "b 08:00 10:00 40 2.5A", "c 08:00 10:00 60 1", supply="5.0 A", notes=CLOCK)


def fixed() -> None:
    found = bench(THREE, "--fix", "a=08:20", "--fix=c=09:00")
    check("fixed", (found.lines[:6], found.status), ([
        "Settled with “a” at 08:20 and “c” at 09:00: 1 of 3 windows narrowed, by 2 records that the checker took. This says what is left, not that there is a schedule.", "",
        "unit    submitted          now   lasts  draws  leeway",
        "a     08:00-10:00  08:20-09:00  40 min  3.0 A   0 min",
        "b     08:00-10:00  09:00-10:00  40 min  2.5 A  20 min",
        "c     08:00-10:00            =  60 min  1.0 A   0 min".replace("            =", "  09:00-10:00")], 0))
    clash = bench(THREE, "--fix", "a=08:40", "--fix", "b=09:00")
    check("a clash", (clash.lines[0], clash.status), ("Clash: no schedule on 5.0 A starts “a” at 08:40 and “b” at 09:00. The checker took the record.", 1))
    check("together", clash.lines[-1], f"“a” and “b” cannot be read together in their submitted windows on this supply with “a” at 08:40 and “b” at 09:00, {OTHERS}: "
          "one of them has to get another start, another window, or another day.")
    told = bench(THREE, "--fix", "c=09:00", "--fix", "a=08:20", "--json").object
    check("for programs", (told["fixed"], told["reads"][0]), ({"a": 500, "c": 540}, {"unit": "a", "earliest": 480, "latest": 600, "length": 40, "draw": 30, "now": [500, 540]}))
    found = bench(listing("a 0 9 4 2", "b 0 9 4 2"), "--fix", "a=0")
    check("nothing is narrowed", found.lines[0], "Settled with “a” at 0: no window is narrowed. This says what is left, not that there is a schedule.")
    alone = bench(listing("a 0 9 4 6"), "--fix", "a=2")
    check("one alone", (alone.lines[0], alone.lines[-1]), ("Clash: no schedule on 5 starts “a” at 2. The checker took the record.", "“a” cannot be read in its submitted window on this supply with “a” at 2."))
    check("another's start", bench(listing("a 0 9 4 6", "b 0 9 4 2"), "--fix", "b=0").lines[-1], f"“a” cannot be read in its submitted window on this supply, {OTHERS}.")


def plans() -> None:
    def planned(*rows: str, words: tuple[str, ...] = ()) -> Said:
        return bench(THREE, "--plan", put("plan.csv", "\n".join(("unit,start", *rows))), *words)

    good = planned("a,08:00", "b,08:40", "c,09:00")
    check("good", good, Said([
        "The plan is good: every read lies in its submitted window, and at no time is more drawn than 5.0 A.", "",
        "unit    submitted      planned   lasts  draws", "a     08:00-10:00  08:00-08:40  40 min  3.0 A",
        "b     08:00-10:00  08:40-09:20  40 min  2.5 A", "c     08:00-10:00  09:00-10:00  60 min  1.0 A"], 0, ""))
    over = planned("a,08:00", "b,08:39", "c,09:00")
    check("overdrawn", over, Said([
        "The plan is bad: the supply is overdrawn.", "", "unit    submitted      planned   lasts  draws", "* a   08:00-10:00  08:00-08:40  40 min  3.0 A",
        "* b   08:00-10:00  08:39-09:19  40 min  2.5 A", "  c   08:00-10:00  09:00-10:00  60 min  1.0 A", "",
        "1. In the minute of 08:39 “a” and “b” draw 5.5 A together, and the supply gives 5.0 A.", "", f"The supply is overdrawn from 08:39 to 08:40, {OWN}."], 1, ""))
    check("by one", bench(listing("a 0 9 3 6"), "--plan", put("plan.csv", "unit,start\na,2")).lines[-3:], ["1. At time 4 “a” draws 6, and the supply gives 5.", "", f"The supply is overdrawn from 2 to 5, {OWN}."])
    # Neighbours are one stretch, whoever draws there.
    rows = ["a 0 30 4 3", "b 0 30 4 3", "c 0 30 4 3", "d 0 30 2 6", "e 0 30 3 6", "f 0 30 0 9"]
    plan = put("plan.csv", "unit,start\na,0\nb,1\nc,3\nd,7\ne,20\nf,25\n")
    check("stretches", bench(listing(*rows), "--plan", plan).lines[-1], f"The supply is overdrawn from 1 to 5, from 7 to 9 and from 20 to 23, {OWN}.")
    for rows, why in ((("a,07:59", "b,08:40", "c,09:01"), ["“a” would be read from 07:59 to 08:39, outside its submitted window 08:00 to 10:00",
                                                          "“c” would be read from 09:01 to 10:01, outside its submitted window 08:00 to 10:00"]),
                      (("c,09:00",), ["it has no start for “a” and “b”"]), ((), ["it has no start for “a”, “b” and “c”"])):
        wanted = [f"The plan is bad: {one}." for one in why]
        check(rows, planned(*rows), Said(wanted, 1, ""))
        told = planned(*rows, words=("--json",)).object
        starts = {row[0]: 60 * int(row[2:4]) + int(row[5:]) for row in rows}
        check((rows, "for programs"), ({key: told[key] for key in told if key not in ("reads",)}, [read["now"] for read in told["reads"]]),
              ({"plan": "bad", "supply": 50, **({"fixed": starts} if starts else {}), "records": [], "sentences": wanted, "together": []}, [[480, 600]] * 3))
    told = planned("a,08:00", "b,08:39", "c,09:00", words=("--json",)).object
    check("overdrawn, for programs", [told.get(key) for key in ("answer", "count", "job", "plan", "fixed", "together", "sentences")],
          ["clash", 1, 0, "bad", {"a": 480, "b": 519, "c": 540}, ["a", "b"], ["In the minute of 08:39 “a” and “b” draw 5.5 A together, and the supply gives 5.0 A."]])
    told = planned("a,08:00", "b,08:40", "c,09:00", words=("--json",)).object
    check("good, for programs", [told.get(key) for key in ("answer", "count", "job", "plan", "together", "sentences")], ["settled", 0, None, "good", [], []])


def main() -> int:
    sentences()
    on_the_clock()
    clashes()
    one_record()
    names()
    why()
    fixed()
    plans()
    return finished()


if __name__ == "__main__":
    sys.exit(main())
