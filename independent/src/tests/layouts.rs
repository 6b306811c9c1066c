//! Published files and made ones: both layouts give the same project, windows
//! go by longest chains, and published optima are not ruled out.

use crate::instances::{file_text, resource_calls};
use crate::jobshops::{jobshop_horizons, machine_calls};
use crate::layouts::{any, instance, jobshop};
use crate::lines::{answer, Call};
use crate::make;
use crate::project::Project;
use std::path::PathBuf;

pub fn published(name: &str) -> String {
    let folder = concat!(env!("CARGO_MANIFEST_DIR"), "/../instances");
    file_text(&PathBuf::from(folder).join(name)).unwrap()
}

fn answers(calls: &[Call]) -> Vec<String> {
    calls
        .iter()
        .map(|call| answer(call.line().as_bytes()))
        .collect()
}

/// The answer to some call of a machine begins with the word.
fn says(project: &Project, horizon: u32, word: &str) -> bool {
    let answers = answers(&machine_calls(project, horizon).unwrap());
    assert!(answers.iter().all(|said| !said.starts_with("refused")));
    answers.iter().any(|said| said.starts_with(word))
}

/// Some machine is overloaded, or clashes as a read head.
fn is_ruled_out(project: &Project, horizon: u32) -> bool {
    says(project, horizon, "overload") || says(project, horizon, "clash")
}

#[test]
fn the_published_instance_is_the_same_in_both_layouts() {
    let project = instance(&published("j301_1.rcp")).unwrap();
    assert_eq!(instance(&published("j301_1.sm")).unwrap(), project);
    assert_eq!(project.caps, [12, 13, 4, 12]);
    assert_eq!(project.jobs.len(), 32);
    assert_eq!(project.jobs[3].successors, [4, 8, 9]);
    assert_eq!(project.longest_chain(), Ok(38));
}

#[test]
fn windows_go_by_longest_chains() {
    let text = "4 1\n2\n3 1 2 2 3\n4 1 1 4\n1 2 1 4\n2 1 0\n";
    let project = instance(text).unwrap();
    let times = project.windows(12).unwrap();
    assert_eq!(times.est, [0, 3, 3, 7]);
    assert_eq!(times.lct, [6, 10, 10, 12]);
    assert_eq!(any(text).unwrap().longest_chain(), Ok(9));
    assert_eq!(crate::written::patterson(&project), text);
}

#[test]
fn a_feasible_horizon_is_not_ruled_out() {
    let project = instance(&published("j301_1.sm")).unwrap();
    for resource in 0..4 {
        let said = answers(&resource_calls(&project, resource, 43).unwrap());
        assert!(said[0].starts_with("settled"));
        assert!(said[1].starts_with("holds"));
    }
    assert!(resource_calls(&project, 4, 43).is_err());
}

#[test]
fn the_marks_are_asked_for_just_where_the_run_clashes() {
    let made = make::instance(4, 30).unwrap();
    let chain = made.longest_chain().unwrap() as u32;
    let (mut short, mut closed, mut settled) = (0, 0, 0);
    for horizon in [chain - 1, chain, 2 * chain] {
        for resource in 0..4 {
            let said = answers(&resource_calls(&made, resource, horizon).unwrap());
            let clashes = said[0].starts_with("clash");
            let marked = said.iter().filter(|said| said.starts_with("marked"));
            assert_eq!(marked.count(), usize::from(clashes));
            short += usize::from(said[0].starts_with("clash 0"));
            closed += usize::from(clashes);
            settled += usize::from(!clashes);
        }
    }
    assert!(short > 0 && closed > short && settled > 0);
}

#[test]
fn bad_texts_are_errors() {
    for text in [
        "",
        "2",
        "1 1 5 0 0",
        "1 1 5 0 0 1 2",
        "1 1 5 x 0 0",
        "1 1 5 0 0 0 0",
        "1 1 5 +1 0 0",
    ] {
        assert!(instance(text).is_err(), "{text:?}");
    }
    assert!(instance("2 0 1 1 2 1 1 1")
        .unwrap()
        .longest_chain()
        .is_err());
    let psplib = published("j301_1.sm");
    for (from, to) in [
        ("REQUESTS/DURATIONS:", "REQUESTS"),
        ("   2        1          3", "   2        2          3"),
        ("  3      1     4", "  4      1     4"),
        (":  4   R", ":  4R"),
        ("   12   13    4   12", "   12   13    4"),
    ] {
        assert!(instance(&psplib.replacen(from, to, 1)).is_err(), "{from}");
    }
}

#[test]
fn made_instances_are_the_same_in_both_layouts() {
    for (seed, jobs) in [(1, 30), (2, 60), (3, 90), (4, 120)] {
        let project = make::instance(seed, jobs).unwrap();
        for layout in ["rcp", "sm"] {
            assert_eq!(
                instance(&make::text(seed, jobs, layout).unwrap()).unwrap(),
                project
            );
        }
        assert_eq!(project.jobs.len(), jobs + 2);
        assert_eq!(project.caps.len(), 4);
        assert!(project.longest_chain().unwrap() > 20);
        let arcs: usize = project.jobs.iter().map(|job| job.successors.len()).sum();
        assert!(arcs >= (jobs + 2) * 14 / 10);
        for job in &project.jobs[1..=jobs] {
            assert!((1..=10).contains(&job.duration) && !job.successors.is_empty());
            assert!(job
                .demands
                .iter()
                .zip(&project.caps)
                .all(|(demand, cap)| demand <= cap));
        }
    }
    assert!(make::instance(1, 31).is_err());
}

#[test]
fn the_writer_prints_the_published_form() {
    let published = published("j301_1.sm");
    let written =
        crate::written::psplib(&instance(&published).unwrap(), "J30_1.BAS", 28123).unwrap();
    let differ = written
        .lines()
        .zip(published.lines())
        .filter(|(ours, theirs)| ours != theirs);
    let cost = (
        "    1     30      0       38        0       38",
        "    1     30      0       38       26       38",
    );
    assert_eq!(differ.collect::<Vec<_>>(), [cost]);
    assert_eq!(written.len(), published.len());
}

#[test]
fn published_optima_of_job_shops_are_not_ruled_out() {
    for (name, optimum) in [("ft06", 55), ("la01", 666), ("la05", 593), ("la16", 945)] {
        let project = jobshop(&published(&format!("jobshop/{name}.txt"))).unwrap();
        assert!(!is_ruled_out(&project, optimum));
    }
    let project = jobshop(&published("jobshop/la05.txt")).unwrap();
    assert!(says(&project, 592, "overload"));
}

#[test]
fn job_shops_get_a_horizon_that_fits_and_one_that_does_not() {
    for name in ["ft06", "la01", "la05", "swv11"] {
        let project = jobshop(&published(&format!("jobshop/{name}.txt"))).unwrap();
        let [fits, _, less, _] = jobshop_horizons(&project).unwrap();
        assert!(!is_ruled_out(&project, fits));
        assert!(is_ruled_out(&project, less));
    }
}
