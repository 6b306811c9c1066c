//! Small lists in which a number more or less decides: all pairs of short windows,
//! and rows of three jobs with one or two of their numbers changed by one.

use super::{backwards, listed, turned, Triple};
use crate::joblist::Times;

/// The latest end of the pairs.
const SHORT: u32 = 3;

/// Every window that ends by then and holds its job.
fn short_windows() -> Vec<Triple> {
    let mut all = Vec::new();
    for l in 0..=SHORT {
        for e in 0..=l {
            all.extend((0..=l - e).map(|p| (e, l, p)));
        }
    }
    all
}

fn pairs() -> Vec<Times> {
    let all = short_windows();
    let beside = |&one: &Triple| all.iter().map(move |&other| listed(&[one, other]));
    all.iter().flat_map(beside).collect()
}

/// Two jobs that come first together; a best set that is not the whole; one side
/// moved twice; a job moved in two rounds; one that closes; a latest end about zero.
const ROWS: [[Triple; 3]; 6] = [
    [(1, 15, 5), (2, 16, 5), (9, 26, 4)],
    [(1, 3, 1), (11, 14, 3), (11, 30, 2)],
    [(1, 21, 3), (1, 4, 2), (4, 7, 2)],
    [(4, 13, 4), (2, 8, 2), (3, 5, 2)],
    [(1, 7, 3), (1, 7, 3), (1, 10, 4)],
    [(1, 4, 1), (1, 4, 2), (1, 4, 2)],
];

/// The number at this place, three to a job, made one more or less.
fn changed(jobs: &mut [Triple], (place, more): (usize, bool)) {
    let job = &mut jobs[place / 3];
    let number = match place % 3 {
        0 => &mut job.0,
        1 => &mut job.1,
        _ => &mut job.2,
    };
    *number = if more { *number + 1 } else { *number - 1 };
}

fn changes() -> Vec<Vec<(usize, bool)>> {
    let one: Vec<_> = (0..9)
        .flat_map(|place| [(place, false), (place, true)])
        .collect();
    let mut all = vec![Vec::new()];
    for &first in &one {
        all.push(vec![first]);
        let second = one.iter().filter(|second| second.0 > first.0);
        all.extend(second.map(|&second| vec![first, second]));
    }
    all
}

pub fn lists() -> Vec<Times> {
    let mut all = pairs();
    for row in ROWS {
        for changes in changes() {
            let mut jobs = row;
            changes
                .iter()
                .for_each(|&change| changed(&mut jobs, change));
            all.push(listed(&jobs));
            if changes.len() < 2 {
                all.push(listed(&backwards(&jobs)));
                all.push(listed(&turned(&jobs)));
            }
        }
    }
    all
}
