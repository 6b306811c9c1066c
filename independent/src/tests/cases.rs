//! The lines of the runs on the record, as 01 and Item 3 of 02 give their
//! answers.

use crate::cases::lines;

/// The lines of cases 1 to 12.
const SHORT: [&str; 16] = [
    "1 settled 0",
    "2 settled 1 5 10 2 7 2 8 0 0 4 2 6 0 0 0 0 0 0 0",
    "3 settled 1 2 7 5 10 4 10 0 1 7 2 6 0 0 0 0 0 0 0",
    "4 clash 1 0 0 2 0 2 0 0 1 1 2 0 0 0 0 0 0 0",
    "5 settled 0 0 2 2 4",
    "6 clash 3 0 0 3 0 0 0 0 0 0 0 0 0 0 0 0 0 0 1 0 0 0 0 0 0 0 0 0 0 0 2 0 0 0 0 0 0 0 0 0",
    "6 refused 5 0 3",
    "7 clash 1 0 0 3 0 3 0 0 1 1 2 0 0 0 0 0 0 0",
    "7 settled 0 0 4 0 4",
    "8 settled 0 1 1",
    "9 settled 0 3 7",
    "9 clash 0 0 3 6",
    "10 overload 0 4",
    "10 none",
    "11 overload 2 5",
    "12 none",
];

#[test]
fn cases_1_to_12_are_as_written() {
    assert_eq!(lines()[..SHORT.len()], SHORT);
}

#[test]
fn case_13_has_seven_runs() {
    let lines = lines();
    assert_eq!(lines.len(), 23);
    let most = format!("13 settled 0{}", " 0 1".repeat(256));
    let refused = format!("13 refused 2{}", " 0 1".repeat(256));
    assert_eq!(lines[16], most);
    assert_eq!(lines[17], format!("{refused} 0 1"));
    assert_eq!(lines[18], format!("{refused} 0 1000001"));
    let rest = [
        "13 settled 0 0 1000000",
        "13 refused 3 0 1000001",
        "13 settled 0",
        "13 refused 3",
    ];
    assert_eq!(lines[19..], rest);
}
