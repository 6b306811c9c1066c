//! The runs on the record, in the text's order, a line each (01, "Runs on the
//! record"; 02, Item 3).

use crate::answers::Answer;
use crate::joblist::{lists, Times};
use crate::overload::overload;
use crate::record::RECORD_WORDS;
use crate::text::Line;
use crate::timetable::narrow;

/// The room where the text names none.
const USUAL_ROOM: usize = 8;

/// A job as the text writes it: e, l, p, r.
type Quad = (u32, u32, u32, u32);

fn windows(line: Line, times: &Times) -> Line {
    let pairs = times.est.iter().zip(&times.lct);
    pairs.fold(line, |line, (e, l)| line.word(e).word(l))
}

fn records(answer: Answer) -> usize {
    match answer {
        Answer::Settled(count) | Answer::Clash(count, _) => count,
        _ => 0,
    }
}

fn narrowing_in(room: usize, case: u32, cap: u32, jobs: &[Quad]) -> String {
    let (mut times, supply) = lists(cap, jobs);
    let mut log = vec![0; room * RECORD_WORDS];
    let answer = narrow(&mut times, &supply, &mut log);
    let line = windows(answer.write(Line::default().word(case)), &times);
    line.numbers(&log[..records(answer) * RECORD_WORDS]).text()
}

fn narrowing(case: u32, cap: u32, jobs: &[Quad]) -> String {
    narrowing_in(USUAL_ROOM, case, cap, jobs)
}

fn overloading(case: u32, jobs: &[(u32, u32, u32)]) -> String {
    let quads: Vec<Quad> = jobs.iter().map(|&(e, l, p)| (e, l, p, 1)).collect();
    let answer = overload(&lists(1, &quads).0);
    answer.write(Line::default().word(case)).text()
}

fn cases_1_to_9() -> Vec<String> {
    vec![
        narrowing(1, 1, &[]),
        narrowing(2, 5, &[(2, 10, 3, 2), (2, 7, 3, 2), (2, 8, 4, 2)]),
        narrowing(3, 5, &[(2, 10, 3, 2), (5, 10, 3, 2), (4, 10, 4, 2)]),
        narrowing(4, 1, &[(0, 2, 2, 1); 2]),
        narrowing(5, 1, &[(0, 2, 2, 1), (2, 4, 2, 1)]),
        narrowing_in(3, 6, 1, &[(0, 3, 1, 2)]),
        narrowing_in(2, 6, 1, &[(0, 3, 1, 2)]),
        narrowing(7, 1, &[(0, 3, 2, 1); 2]),
        narrowing(7, 1, &[(0, 4, 2, 1); 2]),
        narrowing(8, 1, &[(1, 1, 0, 5)]),
        narrowing(9, 1, &[(3, 7, 4, 1)]),
        narrowing(9, 1, &[(3, 6, 4, 1)]),
    ]
}

fn cases_10_to_12() -> Vec<String> {
    vec![
        overloading(10, &[(0, 4, 2); 3]),
        overloading(10, &[(0, 4, 2); 2]),
        overloading(11, &[(0, 10, 1), (2, 5, 2), (2, 5, 2)]),
        overloading(12, &[(8, 10, 1), (0, 3, 1)]),
    ]
}

fn case_13() -> Vec<String> {
    let most = [(0, 1, 0, 0); 256];
    let one_more = [(0, 1, 0, 0); 257];
    let mut also_late = one_more;
    also_late[256].1 = 1_000_001;
    vec![
        narrowing(13, 1, &most),
        narrowing(13, 1, &one_more),
        narrowing(13, 1, &also_late),
        narrowing(13, 1, &[(0, 1_000_000, 1, 1)]),
        narrowing(13, 1, &[(0, 1_000_001, 1, 1)]),
        narrowing(13, 10_000, &[]),
        narrowing(13, 10_001, &[]),
    ]
}

pub fn lines() -> Vec<String> {
    [cases_1_to_9(), cases_10_to_12(), case_13()].concat()
}
