"""The words behind ./bench, taken apart."""

from __future__ import annotations

import re
from typing import NamedTuple

from ending import Stop

USAGE = """\
usage: ./bench LIST.csv [options]                          narrows the windows of a list of reads
       ./bench PROJECT.sm|.rcp --resource K [options]      the same for a resource of a project, counted from 0
       ./bench --check LOG                                 checks a log against the windows that it states itself

  --fix UNIT=TIME     this read starts then; may be said again for others
  --plan FILE         a start for every read (columns unit and start): is the plan good?
  --head              one read at a time, for the single read head: draws are not looked at
  --check LOG         checks a log of this list, whoever wrote it, in place of narrowing
  --log FILE          writes the records as a log that --check takes
  --why               under each sentence the windows that it rests on
  --picture FILE.svg  the windows and the supply as a picture
  --text-picture      the same in letters
  --json              one object for programs, in place of the text
  --mzn FILE          the submitted reads as a MiniZinc model, for other solvers
  --horizon N|auto    of a project; auto, which is taken where none is named, is the least

Status: 0 settled, plan good or log holds; 1 clash, plan bad or log rejected; 2 the input or these words cannot be used;
3 refused; 4 the proved program is missing, or its answers contradict each other."""

VALUED = ("fix", "plan", "check", "log", "picture", "mzn", "resource", "horizon")
PLAIN = ("why", "text-picture", "json", "head", "help")
PROJECT = re.compile(r"\.(sm|rcp)$", re.IGNORECASE)

# Options that do not go together, and why where that does not show.
NO_LOG = ": there is no log for the read head yet"
APART = (
    ("plan", "fix", ""),
    ("plan", "check", ""),
    ("plan", "log", ""),
    ("check", "log", ""),
    ("json", "why", ""),
    ("json", "text-picture", ""),
    ("head", "log", NO_LOG),
    ("head", "check", NO_LOG),
    ("head", "why", f"{NO_LOG}, so no reasons are told"),
)


class Options(NamedTuple):
    """The list's file, none where a log is checked by itself; what is valued, and which of the others were named."""

    file: str | None
    values: dict[str, str]
    fixes: list[str]
    named: set[str]

    @property
    def is_head(self) -> bool:
        return "head" in self.named

    @property
    def is_project(self) -> bool:
        return self.file is not None and "resource" in self.values


def wrong(what: str) -> Stop:
    return Stop(f"{what} ./bench --help lists what there is.")


def combined(options: Options) -> Options:
    given = {*options.values, *options.named, *(["fix"] if options.fixes else [])}
    for one, other, because in APART:
        if one in given and other in given:
            raise wrong(f"--{one} and --{other} do not go together{because}.")
    if options.file is None and ("check" not in given or "fix" in given or "resource" in given or "mzn" in given):
        raise wrong("A list of reads has to be named." if "check" not in given else "With --check alone, no list is there for the other words.")
    if "horizon" in given and "resource" not in given:
        raise wrong("--horizon is for a project, with --resource.")
    if options.file is not None and PROJECT.search(options.file) and "resource" not in given:
        raise wrong("A project needs --resource K, counted from 0.")
    if not options.values.get("picture", ".svg").lower().endswith(".svg"):
        raise wrong("The picture's file has to end in .svg.")
    return options


def options_of(words: list[str]) -> Options:
    files, values, fixes, named = [], {}, [], set()
    rest = iter(words)
    for word in rest:
        name, sign, value = word[2:].partition("=") if word.startswith("--") else ("", "", "")
        if word in ("-h", "--help"):
            return Options(None, {}, [], {"help"})
        if not word.startswith("-") or word == "-":
            files.append(word)
        elif name in PLAIN and not sign:
            named.add(name)
        elif name in VALUED:
            value = value if sign else next(rest, "--")
            if not sign and value.startswith("--"):
                raise wrong(f"--{name} wants a word behind it.")
            if name in values:
                raise wrong(f"--{name} is there twice.")
            if name == "fix":
                fixes.append(value)
            else:
                values[name] = value
        else:
            raise wrong(f"There is no option {word}.")
    if len(files) > 1:
        raise wrong("Only one list can be named.")
    if "" in files:
        raise wrong("The name of the list is empty.")
    for name, value in values.items():
        if not value:
            raise wrong(f"--{name} wants a word behind it.")
    return combined(Options(files[0] if files else None, values, fixes, named))
