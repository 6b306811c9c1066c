//! The names that are spared, counted by hand.

use crate::joblist::lists;
use crate::names::Families;

#[test]
fn members_are_counted_as_01_names_them_and_as_they_are_named_now() {
    let mut families = Families::default();
    let (times, supply) = lists(1, &[(0, 2, 2, 1), (2, 4, 2, 1)]);
    families.add("still", &times, &supply);
    let four = [
        (0, 9, 1, 5),
        (0, 1, 1, 1),
        (0, 1, 1, 1),
        (0, 1, 1, 1),
        (0, 1, 1, 1),
    ];
    let (times, supply) = lists(5, &four);
    families.add("leaving", &times, &supply);
    let (times, supply) = lists(5, &[(2, 10, 3, 2), (2, 7, 3, 2), (2, 8, 4, 2)]);
    families.add("leaving", &times, &supply);
    let (times, supply) = lists(1, &[(0, 3, 1, 2), (0, 1, 1, 1)]);
    families.add("leaving", &times, &supply);
    let expected = [
        "still: 1 lists, 0 records, members by 01 0, now 0, a record 0.00 and 0.00",
        "leaving: 3 lists, 5 records, members by 01 7, now 3, a record 1.40 and 0.60",
    ];
    assert_eq!(families.lines(), expected);
}
