//! The driver of the comparison: see tests/README.md.

mod compare;
mod compiled;
mod faults;
mod generator;
mod lines;
mod reached;
mod reference;
mod repeats;
mod second;
mod sheet;

use std::io::Read;

fn main() {
    let arguments: Vec<String> = std::env::args().skip(1).collect();
    let arguments: Vec<&str> = arguments.iter().map(String::as_str).collect();
    let count = arguments.get(1).and_then(|n| n.parse().ok());
    let good = match (&arguments[..], count) {
        (["compare", _], Some(count)) => compare::run(count),
        (["scale", _], Some(count)) => compare::scale(count, compare::SCALE_SEED),
        (["scale", _, seed], Some(count)) => match number(seed) {
            Some(seed) => compare::scale(count, seed),
            None => complain(NO_SEED),
        },
        (["slips", _], Some(count)) => compare::slips(count),
        (["faults", _], Some(count)) => compare::faults(count),
        (["faults", files @ ..], None) if !files.is_empty() => faults_of_files(files),
        (["lines", _], Some(count)) => compare::print_lines(count),
        (["sample"], None) => compare::print_sample(),
        (["sweep"], None) => compare::print_sweep(),
        (["lists"], None) => compare::print_lists(),
        (["counts", files @ ..], None) if !files.is_empty() => counts_of_files(files),
        (["fresh", _, seed], Some(count)) => match number(seed) {
            Some(seed) => compare::print_fresh(count, seed),
            None => complain(NO_SEED),
        },
        (["answer", side @ ("reference" | "second")], None) => answer(side),
        (["answer", side @ "compiled"], None) if compiled::LINKED => answer(side),
        (["replay", files @ ..], None) if !files.is_empty() => replay(files),
        _ => {
            eprintln!("{USAGE}");
            false
        }
    };
    std::process::exit(if good { 0 } else { 1 });
}

const USAGE: &str = "usage:
  driver compare COUNT             families, edges and COUNT random sheets
  driver scale COUNT [SEED]        COUNT random sheets from a seed of their own
  driver slips COUNT               changes the compiled code's answers and says whether
                                   such a run reports it
  driver faults COUNT              plants each fault and says whether such a run reports it
  driver faults FILE...            the same with the lines of files
  driver lines COUNT               the same sheets with the answers that are expected
  driver sample                    the lines of tests/vectors/sample.txt
  driver sweep                     the lines of tests/vectors/sweep.txt
  driver lists                     the lines of tests/vectors/lists.txt
  driver counts FILE...            whether the modules of files have every opcode that a list
                                   takes, with each of its counts
  driver fresh COUNT SEED          COUNT random sheets, short ones, with their answers
  driver answer reference|second|compiled
                                   answers the sheets on standard input
  driver replay FILE...            holds the answers in files against every side
The compiled code is a side where the driver was built with it.";

const NO_SEED: &str = "a seed is a number, decimal or 0x and hexadecimal";

fn number(text: &str) -> Option<u64> {
    match text.strip_prefix("0x") {
        Some(digits) => u64::from_str_radix(digits, 16).ok(),
        None => text.parse().ok(),
    }
}

fn complain(problem: &str) -> bool {
    println!("{problem}");
    false
}

/// Every line of a text that asks something.
fn questions(text: &str) -> Result<Vec<lines::Line>, String> {
    text.lines().filter_map(lines::parse).collect()
}

/// The lines of a file, of which there must be some.
fn read(file: &str) -> Result<Vec<lines::Line>, String> {
    let text = std::fs::read_to_string(file).map_err(|e| format!("{file}: {e}"))?;
    let lines = questions(&text).map_err(|problem| format!("{file}: {problem}"))?;
    if lines.is_empty() {
        Err(format!("{file}: no line to read"))
    } else {
        Ok(lines)
    }
}

fn read_all(files: &[&str]) -> Result<Vec<lines::Line>, String> {
    let lines: Result<Vec<_>, String> = files.iter().map(|file| read(file)).collect();
    lines.map(|lines| lines.into_iter().flatten().collect())
}

fn faults_of_files(files: &[&str]) -> bool {
    match read_all(files) {
        Ok(lines) => compare::faults_of_lines(lines),
        Err(problem) => complain(&problem),
    }
}

fn counts_of_files(files: &[&str]) -> bool {
    match read_all(files) {
        Ok(lines) => compare::counts_of_lines(&lines),
        Err(problem) => complain(&problem),
    }
}

/// Answers the lines on standard input; an answer that stands there is replaced.
fn answer(side: &str) -> bool {
    let mut text = String::new();
    std::io::stdin().read_to_string(&mut text).expect("text on standard input");
    let asked = match questions(&text) {
        Ok(asked) => asked,
        Err(problem) => return complain(&problem),
    };
    for line in asked {
        let answer = match side {
            "reference" => lines::reference_answer(&line.sheet, line.question),
            "compiled" => compiled::answer(&line.sheet, line.question),
            _ => lines::second_answer(&line.sheet, line.question, None),
        };
        println!("{} | {answer}", line.asks());
    }
    true
}

/// Holds the answers of files against the second reading and the compiled code, and
/// against the reference wherever they say that a sheet lies in its domain; no side's module
/// may repeat a decoration.
fn replay(files: &[&str]) -> bool {
    let mut good = true;
    for file in files {
        good &= match read(file) {
            Ok(lines) => replay_lines(file, &lines),
            Err(problem) => complain(&problem),
        };
    }
    good
}

fn replay_lines(file: &str, lines: &[lines::Line]) -> bool {
    let mut by_reference = 0;
    let mut wrong = 0;
    for line in lines {
        let mut hold = |side: &str, answer: String| {
            let module = match line.question {
                lines::Question::Declare { .. } => lines::module_of(&answer),
                _ => None,
            };
            if let Some(what) = module.and_then(|words| repeats::repeat_in(&words)) {
                wrong += 1;
                println!("{file}: {side}: {what}\n  {}", line.asks());
            } else if answer != line.answer {
                wrong += 1;
                println!("{file}: {side} answers {answer}\n  to {}", line.asks());
                println!("  and there stands {}", line.answer);
            }
        };
        hold("the second reading", lines::second_answer(&line.sheet, line.question, None));
        if compiled::LINKED {
            hold("the compiled code", compiled::answer(&line.sheet, line.question));
        }
        if line.in_domain() {
            by_reference += 1;
            hold("the reference", lines::reference_answer(&line.sheet, line.question));
        }
    }
    let count = lines.len();
    println!("{file}: {count} lines, {by_reference} held against the Rust too, {wrong} wrong");
    wrong == 0
}
