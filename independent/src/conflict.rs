//! The units that can't be read together: the jobs marked from a log that ends
//! in a clash, and refusal 8 (02, Item 14).

use crate::answers::Answer;
use crate::joblist::{Supply, Times};
use crate::record::{shown, Members, Record};
use crate::replay::check;

/// The jobs marked from the records of a clash, or for one without records the
/// named job alone.
fn marks(records: &[Record], named: usize) -> Members {
    let mut marked = Members::default();
    let Some((closing, earlier)) = records.split_last() else {
        marked.put(named);
        return marked;
    };
    marked.put(closing.job as usize);
    marked.join(&closing.members);
    for record in earlier.iter().rev() {
        if marked.has(record.job as usize) {
            marked.join(&record.members);
        }
    }
    marked
}

/// The answer and the set. The checker's refusals are this call's too, and come
/// in the same order.
pub fn conflict(times: &Times, supply: &Supply, count: u64, log: &[u32]) -> (Answer, Members) {
    let refused = |number: u32| (Answer::Refused(number), Members::default());
    match check(&mut times.clone(), supply, count, log) {
        Answer::Clash(_, named) => {
            let record = |place: u64| Record::from_words(shown(place, log));
            let records: Vec<Record> = (0..count).map(record).collect();
            let marked = marks(&records, named);
            (Answer::Marked(marked.ones()), marked)
        }
        Answer::Refused(number) => refused(number),
        _ => refused(8),
    }
}
