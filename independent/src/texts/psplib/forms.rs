//! Ways to write headings, counts and sections, good ones and others.

/// What may stand before a heading on its line.
pub const BEFORE: [&str; 13] = [
    "",
    " ",
    "  ",
    "                    ",
    "\t",
    " \t",
    "\t ",
    "\r",
    "\u{b}",
    "x",
    "x ",
    "\0",
    "\u{feff}",
];

/// What may stand behind a heading that no number follows.
pub const BEHIND: [&str; 7] = ["", " ", "\r", "x", " 1 1 1", ":", "\t\0"];

/// What may stand behind the start of the second heading.
pub const RENEWABLE: [&str; 22] = [
    " : 1",
    ":1",
    ":\t1\r",
    " :  1   R",
    " x 9 : 1 : 2",
    " : 01",
    " : 1\u{b}",
    " : 1R",
    " : 1:",
    " :: 1",
    " : R 1",
    " : ",
    " :\n1",
    " 1",
    " : 8",
    " : 9",
    " : 0",
    " : 4294967297",
    " : +1",
    "s : 1",
    ";1",
    "",
];

/// What may stand behind the first heading.
pub const COUNT: [&str; 16] = [
    "2",
    " 2",
    "\t2\r",
    " 2 jobs",
    " 2\0",
    " 02",
    "",
    " ",
    "\n2",
    " : 2",
    " 1",
    " 3",
    " 256",
    " 257",
    " 18446744073709551618",
    " -2",
];

/// Lines that are no headings, and some that are, put before each line.
pub const LINES: [&str; 12] = [
    "- nonrenewable : 9 N",
    "  - nonrenewable              :  0   N",
    "- doubly constrained : 0 D",
    "x PRECEDENCE RELATIONS:",
    "jobs (incl. supersource/sink )",
    "precedence relations:",
    "RESOURCEAVAILABILITIES",
    "1 1 0",
    "- renewable",
    "   REQUESTS/DURATIONS: x",
    "jobs (incl. supersource/sink ):  2",
    "\tRESOURCEAVAILABILITIES:",
];

/// Other changes: ends of lines, lines missing behind headings, rows parted in
/// other ways, text behind the rows.
pub const CHANGES: [(&str, &str); 24] = [
    ("\n", "\r\n"),
    ("\n", "\r"),
    ("\n", "\n\r"),
    ("\n", "\n\n"),
    ("\n", " \n"),
    ("\n", "\u{b}"),
    ("------\n", ""),
    ("------\n", "------ "),
    ("------\n", "------\n\n"),
    ("jobnr. #modes\n", ""),
    ("jobnr. mode  R 1\n", ""),
    ("  R 1\n   5", "   5"),
    ("  R 1\n   5", "  R 1\n\n\n \t\r 5"),
    ("  1  1  1   2\n  2  1  0", "1\n1\n1\n2\n2 1\t0"),
    ("  1  1  1   2\n  2  1  0", "1 1 1 2 2 1 0"),
    ("  2  1  0\n*", "  2  1  0*"),
    ("  2  1  0\n", "  2  1  0 3 1 0\n"),
    ("  2  1  4  1\n", "  2  1  4  1 9\n  3  1  1  1\n"),
    ("   5\n*\n", "   5"),
    ("   5\n*\n", "   5 6 7 x\n"),
    ("   5\n*\n", "   5\nPRECEDENCE RELATIONS:\n"),
    ("   5\n*\n", "   5 PRECEDENCE RELATIONS:\n"),
    ("*\nREQ", "* REQ"),
    ("*\nfile : x\n", ""),
];
