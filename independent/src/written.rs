//! Writers of the two layouts (01, "Library layouts"): Patterson's as bare as
//! 01 asks of texts written by ourselves, PSPLIB's as the library prints it.

use crate::project::Project;
use crate::text::Line;

const STARS: &str = "************************************************************************\n";
const HYPHENS: &str = "------------------------------------------------------------------------\n";

pub fn patterson(project: &Project) -> String {
    let counts = Line::default()
        .word(project.jobs.len())
        .word(project.caps.len());
    let mut lines = vec![counts.text(), Line::default().numbers(&project.caps).text()];
    for job in &project.jobs {
        let line = Line::default().word(job.duration).numbers(&job.demands);
        let line = line.word(job.successors.len());
        let successors = job.successors.iter();
        lines.push(successors.fold(line, |line, s| line.word(s + 1)).text());
    }
    lines.iter().map(|line| format!("{line}\n")).collect()
}

fn psplib_head(project: &Project, name: &str, seed: u64) -> Result<String, String> {
    let jobs = project.jobs.len();
    let resources = project.caps.len();
    let horizon: u32 = project.jobs.iter().map(|job| job.duration).sum();
    let chain = project.longest_chain()?;
    let real = jobs.saturating_sub(2);
    Ok(format!(
        "{STARS}file with basedata            : {name}\n\
         initial value random generator: {seed}\n\
         {STARS}projects                      :  1\n\
         jobs (incl. supersource/sink ):  {jobs}\n\
         horizon                       :  {horizon}\n\
         RESOURCES\n\
         \x20 - renewable                 :  {resources}   R\n\
         \x20 - nonrenewable              :  0   N\n\
         \x20 - doubly constrained        :  0   D\n\
         {STARS}PROJECT INFORMATION:\n\
         pronr.  #jobs rel.date duedate tardcost  MPM-Time\n\
         \x20   1{real:7}      0{chain:9}        0{chain:9}\n{STARS}"
    ))
}

pub fn psplib(project: &Project, name: &str, seed: u64) -> Result<String, String> {
    let resources = 1..=project.caps.len();
    let columns: String = resources.map(|number| format!("  R {number}")).collect();
    let wide = |number: &u32| format!("{number:5}");
    let mut text = psplib_head(project, name, seed)?;
    text += "PRECEDENCE RELATIONS:\njobnr.    #modes  #successors   successors\n";
    for (k, job) in project.jobs.iter().enumerate() {
        let successors = job.successors.iter();
        let successors: String = successors.map(|s| format!("{:4}", s + 1)).collect();
        let count = job.successors.len();
        text += &format!("{:4}        1{count:11}        {successors}\n", k + 1);
    }
    text += STARS;
    text += &format!("REQUESTS/DURATIONS:\njobnr. mode duration{columns}\n{HYPHENS}");
    for (k, job) in project.jobs.iter().enumerate() {
        let demands: String = job.demands.iter().map(wide).collect();
        text += &format!("{:3}      1{:6}   {demands}\n", k + 1, job.duration);
    }
    let caps: String = project.caps.iter().map(wide).collect();
    text += &format!("{STARS}RESOURCEAVAILABILITIES:\n{columns}\n{caps}\n{STARS}");
    Ok(text)
}
