//! Draws a run of the command program: timeline SCRIPT ANSWERS OUT.svg
//! SCRIPT has the commands and ANSWERS what the program said to them. An answer
//! that breaks the rules of a round is an error that names its line, and then
//! nothing is drawn. So is text over text, but that is drawn, to be looked at.
//! Draws a plan too: timeline SCRIPT ANSWERS PLAN VERDICT OUT.svg
//! SCRIPT builds the planner that PLAN begins from, ANSWERS goes on behind it with
//! rounds of the planner's own, and VERDICT is the line of the program `accept`.
//! The tests: rustc --test --edition 2021 examples/timeline/main.rs -o FILE

mod axis;
mod band;
mod broken;
mod columns;
mod heads;
mod history;
mod judged;
mod key;
mod marks;
mod panel;
mod plan;
mod rows;
mod scale;
mod script;
mod svg;
#[cfg(test)]
mod tests;
mod ticks;

use history::History;
use judged::Judged;
use plan::Verdict;
use std::fs;
use std::process::ExitCode;
use svg::Picture;

fn main() -> ExitCode {
    let arguments: Vec<String> = std::env::args().skip(1).collect();
    let words: Vec<&str> = arguments.iter().map(String::as_str).collect();
    let done = match words.as_slice() {
        [script, answers, out] => run(script, answers, out),
        [script, answers, plan, verdict, out] => run_plan([script, answers, plan, verdict], out),
        _ => {
            eprintln!(
                "timeline SCRIPT ANSWERS OUT.svg, or timeline SCRIPT ANSWERS PLAN VERDICT OUT.svg"
            );
            return ExitCode::from(2);
        }
    };
    match done {
        Ok(()) => ExitCode::SUCCESS,
        Err(fault) => {
            eprintln!("timeline: {fault}");
            ExitCode::FAILURE
        }
    }
}

fn run(script: &str, answers: &str, out: &str) -> Result<(), String> {
    let (picture, height) = drawn(&read(script)?, &read(answers)?)?;
    write(&picture, height, out)
}

fn run_plan(files: [&str; 4], out: &str) -> Result<(), String> {
    let [script, answers, plan, verdict] = files.map(read);
    let (picture, height) = drawn_plan(&script?, &answers?, &plan?, &verdict?)?;
    write(&picture, height, out)
}

/// Writes a picture, and answers what is wrong with its texts.
fn write(picture: &Picture, height: f64, out: &str) -> Result<(), String> {
    fs::write(out, picture.file(height)).map_err(|fault| format!("{out}: {fault}"))?;
    let faults = picture.faults(height);
    if faults.is_empty() {
        return Ok(());
    }
    Err(format!("texts of {out}:\n{}", faults.join("\n")))
}

/// The picture of a run, and its height.
fn drawn(script: &[u8], answers: &[u8]) -> Result<(Picture, f64), String> {
    let history = History::of(script::calls(script, answers)?)?;
    let mut picture = Picture::default();
    let height = panel::draw(&mut picture, &history).ceil();
    Ok((picture, height))
}

/// The picture of a plan, and its height.
fn drawn_plan(
    script: &[u8],
    answers: &[u8],
    plan: &[u8],
    verdict: &[u8],
) -> Result<(Picture, f64), String> {
    let verdict = Verdict::of(&String::from_utf8_lossy(verdict))?;
    let calls = script::calls(script, script::answers_within(script, answers))?;
    let history = History::of(calls)?;
    let begun = history.openings.last().filter(|it| !it.closed);
    let begun = begun.ok_or("the script leaves no planner open")?;
    let own = script::rounds_after(script, answers)?;
    let judged = Judged::of(begun, &plan::packets(plan), &verdict, &own)?;
    let mut picture = Picture::default();
    let height = panel::draw_plan(&mut picture, &judged).ceil();
    Ok((picture, height))
}

fn read(path: &str) -> Result<Vec<u8>, String> {
    fs::read(path).map_err(|fault| format!("{path}: {fault}"))
}
