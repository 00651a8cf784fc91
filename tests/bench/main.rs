//! Measures Declare with all of Check, compiled, against the published Rust, which
//! decodes a sheet into naga's IR and writes it without a check: the same sheets in
//! the same process and run, in turn, the least of many repetitions.
//!
//! Beside them, the list of a module against Declare of its sheet, in turn too.
//!
//! Declare is lent one buffer of 65,536 words, which is not cleared between calls.
//! The Rust grows vectors of its own at each call and frees them, as it is written.

#[path = "../reference/driver/reference.rs"]
#[allow(dead_code)]
mod reference;
#[path = "../reference/driver/sheet.rs"]
#[allow(dead_code)]
mod sheet;
mod sheets;
#[path = "../../include/voulkrod.rs"]
#[allow(dead_code)]
mod voulkrod;

use std::hint::black_box;
use std::time::Instant;
use voulkrod::{declare, list};

/// Required: the compiled code's time over the Rust's, on the first three sheets.
const RATIO: f64 = 0.6;
/// Required: the list's time over Declare's, for one module.
const LIST_RATIO: f64 = 1.0;
/// Aimed at, not required.
const AIM: f64 = 0.4;
/// Required: microseconds on any sheet, on a machine where the Rust takes `USUAL` on the
/// full one. On a slower machine the limit grows with the Rust's own time.
const MOST: f64 = 1_000.0;
const USUAL: f64 = 250.0;
/// Of each side of a sheet, in turn.
const ROUNDS: usize = 60;
/// How often a sheet that is over a bar is measured at most: where others use the machine too, all rounds of once can be
/// slow ones. The least of all counts.
const TIMES: usize = 6;
/// What a round of one side takes, in seconds.
const ROUND: f64 = 0.000_5;

/// How often to call in one round.
fn calls_a_round(call: &mut dyn FnMut()) -> usize {
    let began = Instant::now();
    call();
    call();
    let once = began.elapsed().as_secs_f64() / 2.0;
    ((ROUND / once) as usize).clamp(1, 10_000)
}

/// The least time of a call of each side, in microseconds; the sides take turns.
fn least(sides: &mut [&mut dyn FnMut()]) -> Vec<f64> {
    let calls: Vec<usize> = sides.iter_mut().map(|side| calls_a_round(side)).collect();
    let mut best = vec![f64::MAX; sides.len()];
    for _ in 0..ROUNDS {
        for ((side, &calls), best) in sides.iter_mut().zip(&calls).zip(&mut best) {
            let began = Instant::now();
            for _ in 0..calls {
                side();
            }
            *best = best.min(began.elapsed().as_secs_f64() * 1e6 / calls as f64);
        }
    }
    best
}

struct Measured {
    compiled: f64,
    /// Decode, IR and words.
    rust: f64,
    /// From ready IR to words.
    writer: f64,
}

impl Measured {
    fn ratio(&self) -> f64 {
        self.compiled / self.rust
    }

    /// The least of both, side by side.
    fn or_less(&self, other: &Measured) -> Measured {
        Measured {
            compiled: self.compiled.min(other.compiled),
            rust: self.rust.min(other.rust),
            writer: self.writer.min(other.writer),
        }
    }
}

/// Measures an accepted sheet, after a look whether both give the same words.
fn measure(what: &str, sheet: &[u8], words: &mut [u32]) -> Measured {
    let reference::Answer::Module(raw, _) = reference::run(sheet) else {
        panic!("the Rust misses a capability: {what}");
    };
    let (due, _) = reference::drop_repeats(&raw);
    let answer = declare(sheet, words);
    let written = (due[3] as u64) << 32 | due.len() as u64;
    assert!(answer == written, "Declare answers {answer:#x}, not {written:#x}: {what}");
    assert!(words[..due.len()] == due, "other words than the Rust's: {what}");
    let ready = reference::Ready::new(sheet);
    assert!(ready.write() == raw, "other words from ready IR: {what}");
    let best = least(&mut [
        &mut || {
            black_box(declare(black_box(sheet), words));
        },
        &mut || {
            black_box(reference::run(black_box(sheet)));
        },
        &mut || {
            black_box(black_box(&ready).write());
        },
    ]);
    Measured { compiled: best[0], rust: best[1], writer: best[2] }
}

/// The same of a sheet that has to be within a bar, again while it is not.
fn measure_within(
    what: &str,
    sheet: &[u8],
    words: &mut [u32],
    within: impl Fn(&Measured) -> bool,
) -> Measured {
    let mut m = measure(what, sheet, words);
    for _ in 1..TIMES {
        if within(&m) {
            break;
        }
        m = m.or_less(&measure(what, sheet, words));
    }
    m
}

/// Microseconds of a module's list and of Declare for its sheet, and the list's length.
fn measure_list(what: &str, sheet: &[u8], words: &mut [u32]) -> (f64, f64, usize) {
    let count = count(sheet, words);
    let module = words[..count].to_vec();
    let mut buffer = vec![0; 2 * count];
    let answer = list(&module, &mut buffer);
    assert!(answer > 256, "the list answers {answer}: {what}");
    let best = least(&mut [
        &mut || {
            black_box(list(black_box(&module), &mut buffer));
        },
        &mut || {
            black_box(declare(black_box(sheet), words));
        },
    ]);
    (best[0], best[1], answer as usize - 256)
}

fn heading() {
    println!(
        "{:>7} {:>7} {:>10} {:>10} {:>7} {:>10}",
        "bytes", "words", "compiled", "Rust", "ratio", "its writer"
    );
}

fn row(sheet: &[u8], words: usize, m: &Measured, what: &str) {
    println!(
        "{:7} {:7} {:10.2} {:10.2} {:7.2} {:10.2}   {what}",
        sheet.len(),
        words,
        m.compiled,
        m.rust,
        m.ratio(),
        m.writer
    );
}

/// The word count of an accepted sheet.
fn count(sheet: &[u8], words: &mut [u32]) -> usize {
    declare(sheet, words) as u32 as usize
}

fn verdict(good: bool, what: &str) -> bool {
    println!("{}: {what}", if good { "PASS" } else { "FAIL" });
    good
}

fn main() {
    let mut buffer = vec![0; 65_536];
    let words = &mut buffer[..];
    let mut good = true;
    let mut slowest = (0.0, "");
    let length = sheets::full_length();

    println!(
        "microseconds a call, the least of {ROUNDS} rounds; buffers are not cleared between calls"
    );
    println!("\nthe required three");
    heading();
    let three = [
        ("P3, a vec3 and an array of four", sheets::p3()),
        ("middle: 30 types, 20 constants, 10 globals, names", sheets::mix(30, 20, 10, 12)),
        ("full: 256 types, 256 constants, 64 globals, names", sheets::mix(256, 256, 64, length)),
    ];
    let mut ratios = Vec::new();
    let mut most = MOST; // by the last of the three, the full one
    for (what, sheet) in &three {
        let m = measure_within(what, sheet, words, |m| m.ratio() <= RATIO);
        row(sheet, count(sheet, words), &m, what);
        ratios.push((m.ratio(), *what));
        most = MOST * (m.rust / USUAL).max(1.0);
    }

    println!("\nlists of modules, against Declare of their sheets");
    println!("{:>7} {:>7} {:>10} {:>10} {:>7}", "words", "list", "listed", "Declare", "ratio");
    let mut list_ratios = Vec::new();
    let largest = [("the largest module", sheets::largest())];
    for (what, sheet) in three.iter().chain(&largest) {
        let (listed, declared, length) = measure_list(what, sheet, words);
        let count = count(sheet, words);
        let ratio = listed / declared;
        println!("{count:7} {length:7} {listed:10.2} {declared:10.2} {ratio:7.2}   {what}");
        list_ratios.push((ratio, *what));
    }

    println!("\ngrowth: one mix");
    heading();
    for part in [1, 2, 3, 4, 8, 16] {
        let sheet = sheets::mix(16 * part, 16 * part, 4 * part, length);
        let m = measure("the mix", &sheet, words);
        let each = format!("{:.2} us a KB", m.compiled * 1024.0 / sheet.len() as f64);
        row(&sheet, count(&sheet, words), &m, &each);
    }

    println!("\nsheets that could take long");
    heading();
    let mut worst_ratio: (f64, &str) = (0.0, "");
    for (what, sheet) in sheets::worst() {
        let m = measure_within(what, &sheet, words, |m| m.compiled < most);
        row(&sheet, count(&sheet, words), &m, what);
        if m.compiled > slowest.0 {
            slowest = (m.compiled, what);
        }
        if m.ratio() > worst_ratio.0 {
            worst_ratio = (m.ratio(), what);
        }
    }
    println!("\nrefused sheets that could take long; the Rust tests nothing");
    for (what, sheet, due) in sheets::refused() {
        let answer = declare(&sheet, words);
        assert!(answer == due, "Declare answers {answer:#x}, not {due}: {what}");
        let mut best = f64::MAX;
        for _ in 0..TIMES {
            best = best.min(
                least(&mut [&mut || {
                    black_box(declare(black_box(&sheet), words));
                }])[0],
            );
            if best < most {
                break;
            }
        }
        println!("{:7} {:>7} {best:10.2}   {what}", sheet.len(), format!("no {due}"));
        if best > slowest.0 {
            slowest = (best, what);
        }
    }

    println!();
    for (ratio, what) in &ratios {
        let aim = if *ratio <= AIM { "reached" } else { "not reached" };
        let line =
            format!("ratio {ratio:.2}, at most {RATIO:.1} ({AIM:.1} aimed at: {aim}): {what}");
        good &= verdict(*ratio <= RATIO, &line);
    }
    for (ratio, what) in &list_ratios {
        let line =
            format!("the list's ratio {ratio:.2} to Declare, at most {LIST_RATIO:.1}: {what}");
        good &= verdict(*ratio <= LIST_RATIO, &line);
    }
    let line = format!("the longest {:.0} us, under {most:.0}: {}", slowest.0, slowest.1);
    good &= verdict(slowest.0 < most, &line);
    println!("the largest ratio of all, not required: {:.2}, {}", worst_ratio.0, worst_ratio.1);
    std::process::exit(if good { 0 } else { 1 });
}
