//! The members of a record: all that 01 names, and those of them that the
//! writer keeps (01, "Log records"; 02, Item 7).

use crate::joblist::Job;
use crate::record::Members;
use crate::timetable::sure_others;

/// How the members of a record are named: the jobs with the windows reached,
/// the capacity, the moved job and the time.
pub type Naming = fn(&[Job], i64, usize, i64) -> Members;

/// 01's members: all other jobs with r ≥ 1 whose sure part holds t.
pub fn full(jobs: &[Job], _cap: i64, j: usize, t: i64) -> Members {
    let mut members = Members::default();
    sure_others(jobs, j, t).for_each(|k| members.put(k));
    members
}

/// The demands named: the members' and the moved job's together.
pub fn named(jobs: &[Job], j: usize, members: &Members) -> i64 {
    let members = members.numbers().into_iter();
    members.fold(jobs[j].r, |named, k| named + jobs[k].r)
}

/// Goes through the members in this order and drops each one without whom the
/// demands still named exceed the capacity.
pub fn dropped(jobs: &[Job], cap: i64, j: usize, members: Members, order: &[usize]) -> Members {
    let mut kept = members;
    let mut named = named(jobs, j, &members);
    for &k in order {
        if named - jobs[k].r > cap {
            kept.drop(k);
            named -= jobs[k].r;
        }
    }
    kept
}

/// The writer's members: 01's, the spare ones dropped by rising number.
pub fn lean(jobs: &[Job], cap: i64, j: usize, t: i64) -> Members {
    let members = full(jobs, cap, j, t);
    dropped(jobs, cap, j, members, &members.numbers())
}
