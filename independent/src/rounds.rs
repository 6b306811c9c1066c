//! The order of work, which is one for all rules that move a bound (01, "The two
//! time-tabling rules"; 02, Item 2).

use crate::timetable::Side;

/// Rounds over the jobs by rising number until one changes nothing: for each job
/// side 0 again and again, then side 1. A step moves this side of this job and says
/// true, says false where its rule doesn't apply, or stops the work.
pub fn in_rounds<Stop>(
    jobs: usize,
    mut step: impl FnMut(usize, Side) -> Result<bool, Stop>,
) -> Result<(), Stop> {
    loop {
        let mut changed = false;
        for j in 0..jobs {
            for side in [Side::Start, Side::End] {
                while step(j, side)? {
                    changed = true;
                }
            }
        }
        if !changed {
            return Ok(());
        }
    }
}
