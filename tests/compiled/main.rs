//! Replays lines `SHEET | ANSWER` on the compiled operations, and measures these. It knows
//! nothing of the Rust that was ported. See tests/README.md.
//!
//!     compiled FILE...                  every line of the files
//!     compiled --fault FAULT FILE...    the same; one answer is falsified before it is compared
//!     compiled --faults                 the names of the faults
//!     compiled --times FOLDER FILE...   how long the worst sheets and the lines' long ones take;
//!                                       the worst sheets are left in FOLDER

mod fenced;
mod lines;
#[path = "../../include/voulkrod.rs"]
mod voulkrod;
mod worst;

use fenced::Fenced;
use lines::{Answer, Asks, Line};
use std::hint::black_box;
use std::sync::atomic::{AtomicBool, Ordering};
use std::time::{Duration, Instant};

/// More words than any module has.
const ROOM: usize = 65_536;
/// Words before the buffer that are looked at too.
const MARGIN: usize = 64;
/// What a buffer holds before a call; no word is the same in both.
const PATTERNS: [u32; 2] = [0x5eed_5eed, !0x5eed_5eed];
/// The longest that a call may take, in seconds, on a machine where `usual_work` takes USUAL;
/// on a slower one in proportion.
const LONGEST: f64 = 0.001;
const USUAL: f64 = 0.000_022;

const FIT: u32 = 0;
const NOT_WRAPPED: u32 = 256;
const WRAPPED: u32 = 257;

/// More words than the list of any module or line has.
const LIST_ROOM: usize = 2 * ROOM;
/// What a list's length is answered behind.
const LISTED: u64 = 256;

/// What is falsified, once, in what a call left behind.
const FAULTS: [&str; 16] = [
    "word",
    "count",
    "bound",
    "past",
    "outside",
    "refused-word",
    "number",
    "check",
    "wrapped",
    "list-word",
    "list-length",
    "list-past",
    "list-outside",
    "list-refused-word",
    "list-number",
    "list-of-module",
];

fn pattern(index: usize, salt: u32) -> u32 {
    (index as u32).wrapping_mul(0x9e37_79b9) ^ salt
}

#[derive(Default)]
struct Tally {
    fit: usize,
    refused: [usize; 21],
    calls: usize,
    words: usize,
    wrong: Vec<String>,
}

impl Tally {
    fn add(mut self, other: Tally) -> Tally {
        self.fit += other.fit;
        self.calls += other.calls;
        self.words += other.words;
        self.wrong.extend(other.wrong);
        for (mine, more) in self.refused.iter_mut().zip(other.refused) {
            *mine += more;
        }
        self
    }
}

/// A fault to plant, until it is planted.
struct Fault<'a> {
    name: Option<&'a str>,
    planted: AtomicBool,
}

impl Fault<'_> {
    fn is(&self, name: &str) -> bool {
        self.name == Some(name) && !self.planted.swap(true, Ordering::Relaxed)
    }
}

/// One thread's memory, and what it saw.
struct Replay<'a> {
    fault: &'a Fault<'a>,
    tally: Tally,
    sheets: Fenced,
    sheet: &'static [u8],
    /// Words to list, where the line has these.
    listed: &'static [u32],
    words: Fenced,
    salt: u32,
}

type Compared = Result<(), String>;

fn hold(what: &str, seen: u64, due: u64) -> Compared {
    if seen == due {
        Ok(())
    } else {
        Err(format!("{what} is {seen:#x} in place of {due:#x}"))
    }
}

/// Which globals are wrapped, read off a module: a wrapper is a struct whose id comes after
/// its variable's, and all other structs are declared before the first variable.
fn wrapped_in(words: &[u32]) -> Vec<bool> {
    const STRUCT: u32 = 30;
    const POINTER: u32 = 32;
    const VARIABLE: u32 = 59;
    let mut structs = std::collections::HashSet::new();
    let mut pointees = std::collections::HashMap::new();
    let mut wrapped = Vec::new();
    let mut at = 5;
    while at < words.len() {
        match words[at] & 0xffff {
            STRUCT => {
                structs.insert(words[at + 1]);
            }
            POINTER => {
                pointees.insert(words[at + 1], words[at + 3]);
            }
            VARIABLE => {
                let pointee = pointees[&words[at + 1]];
                wrapped.push(structs.contains(&pointee) && pointee > words[at + 2]);
            }
            _ => {}
        }
        at += (words[at] >> 16).max(1) as usize;
    }
    wrapped
}

/// The words of which a list of some instructions of Declare's is the list.
fn joined(list: &[u32]) -> Vec<u32> {
    // Names, capabilities and decorations have no result id; constants and variables have a
    // result type before it, and types have not.
    const WITHOUT: [u32; 5] = [5, 6, 17, 71, 72];
    const TYPED: [u32; 6] = [41, 42, 43, 44, 46, 59];
    let mut words = list[..5].to_vec();
    let mut rest = &list[5..];
    while let [opcode, result, count, behind @ ..] = rest {
        let (others, after) = behind.split_at((*count as usize).min(behind.len()));
        let mut body = others.to_vec();
        if !WITHOUT.contains(opcode) {
            body.insert((TYPED.contains(opcode) as usize).min(body.len()), *result);
        }
        words.push((body.len() as u32 + 1) << 16 | opcode);
        words.extend(body);
        rest = after;
    }
    words.extend(rest);
    words
}

/// How many globals a sheet that fits has.
fn globals_in(sheet: &[u8]) -> usize {
    let mut count = 0;
    let mut at = 6;
    while at < sheet.len() {
        count += (sheet[at + 2] == 96) as usize;
        at += 2 + sheet[at] as usize * 256 + sheet[at + 1] as usize;
    }
    count
}

impl Replay<'_> {
    fn check(&mut self, due: u32) -> Compared {
        self.tally.calls += 1;
        let mut seen = voulkrod::check(self.sheet);
        if self.fault.is("check") {
            seen ^= 1;
        }
        hold("Check", seen as u64, due as u64)
    }

    fn wrapped(&mut self, index: usize, due: u32) -> Compared {
        self.tally.calls += 1;
        let mut seen = voulkrod::wrapped(self.sheet, index);
        if self.fault.is("wrapped") {
            seen ^= 1;
        }
        hold(&format!("Wrapped of {index}"), seen as u64, due as u64)
    }

    /// A call that is lent so many words, which hold the pattern. Its number, and the words
    /// that are not as the pattern any more: none before the buffer, and within it none from
    /// `keeps` on, which is 0 for a refusal. The faults are those of words past what was
    /// written, of a refused buffer, and before the buffer.
    fn lent(
        &mut self,
        room: usize,
        call: impl FnOnce(&mut [u32]) -> u64,
        keeps: impl Fn(u64) -> usize,
        [past, refused, outside]: [&str; 3],
    ) -> Result<u64, String> {
        self.tally.calls += 1;
        let painted = self.words.last_words(MARGIN + room);
        for (index, word) in painted.iter_mut().enumerate() {
            *word = pattern(index, self.salt);
        }
        let number = call(&mut painted[MARGIN..]);
        let keeps = keeps(number).min(room);
        if keeps > 0 && keeps < room && self.fault.is(past) {
            painted[MARGIN + keeps] ^= 1;
        }
        if keeps == 0 && room > 0 && self.fault.is(refused) {
            painted[MARGIN + room - 1] ^= 1;
        }
        if self.fault.is(outside) {
            painted[MARGIN - 1] ^= 1;
        }
        let changed = |index: &usize| painted[*index] != pattern(*index, self.salt);
        if (0..MARGIN).any(|index| changed(&index)) {
            return Err(format!("a word before the buffer of {room} is changed"));
        }
        if let Some(index) = (MARGIN + keeps..MARGIN + room).find(changed) {
            return Err(format!("word {} of a buffer of {room} is changed", index - MARGIN));
        }
        Ok(number)
    }

    fn declare(&mut self, room: usize, keeps: impl Fn(u64) -> usize) -> Result<u64, String> {
        let sheet = self.sheet;
        let call = |words: &mut [u32]| voulkrod::declare(sheet, words);
        self.lent(room, call, keeps, ["past", "refused-word", "outside"])
    }

    fn list(&mut self, words: &[u32], room: usize, keeps: usize) -> Result<u64, String> {
        let call = |list: &mut [u32]| voulkrod::list(words, list);
        self.lent(room, call, |_| keeps, ["list-past", "list-refused-word", "list-outside"])
    }

    /// The words have this list, whatever the buffer.
    fn lists(&mut self, room: usize, due: &[u32]) -> Compared {
        let words = self.listed;
        for room in [room, due.len(), due.len() + 1, due.len() + 1_000] {
            let mut seen = self.list(words, room, due.len())?;
            if self.fault.is("list-length") {
                seen ^= 1;
            }
            hold(&format!("the length in {room} words"), seen, LISTED + due.len() as u64)?;
            self.hold_words(room, due, "list-word")?;
        }
        for room in [due.len() - 1, 0] {
            self.list_refuses(room, 16)?;
        }
        Ok(())
    }

    fn list_refuses(&mut self, room: usize, due: u32) -> Compared {
        let mut seen = self.list(self.listed, room, 0)?;
        if self.fault.is("list-number") {
            seen ^= 1;
        }
        hold(&format!("the list in {room} words"), seen, due as u64)
    }

    /// The words are listed, into more words than so many, and joined again the same.
    fn lists_somehow(&mut self, words: &[u32], more_than: usize) -> Compared {
        self.tally.calls += 1;
        let room = 2 * words.len();
        let list = &mut self.words.last_words(room)[..];
        let seen = voulkrod::list(words, list);
        let length = seen.saturating_sub(LISTED) as usize;
        if seen < LISTED || length > room || length <= more_than {
            return Err(format!("the list in {room} words is {seen:#x}"));
        }
        if self.fault.is("list-of-module") {
            list[length - 1] ^= 1;
        }
        match joined(&list[..length]) == words {
            true => Ok(()),
            false => Err(String::from("joined again, a list is other words")),
        }
    }

    fn declare_refuses(&mut self, room: usize, due: u32) -> Compared {
        let mut seen = self.declare(room, |_| 0)?;
        if self.fault.is("number") {
            seen ^= 1;
        }
        hold(&format!("Declare into {room} words"), seen, due as u64)
    }

    fn declare_writes(&mut self, room: usize, due: &[u32]) -> Compared {
        let mut seen = self.declare(room, |_| due.len())?;
        if self.fault.is("count") {
            seen ^= 1;
        }
        if self.fault.is("bound") {
            seen ^= 1 << 32;
        }
        hold(&format!("the count in {room} words"), seen & 0xffff_ffff, due.len() as u64)?;
        hold(&format!("the bound in {room} words"), seen >> 32, due[3] as u64)?;
        self.hold_words(room, due, "word")
    }

    /// The words at the front of the buffer of so many words are those that are due.
    fn hold_words(&mut self, room: usize, due: &[u32], fault: &str) -> Compared {
        let seen = &mut self.words.last_words(room)[..due.len()];
        if self.fault.is(fault) {
            seen[due.len() - 1] ^= 1;
        }
        self.tally.words += due.len();
        for (index, (seen, due)) in seen.iter().zip(due).enumerate() {
            hold(&format!("word {index} of {room}"), *seen as u64, *due as u64)?;
        }
        Ok(())
    }

    /// The sheet has this module, whatever the buffer.
    fn fits(&mut self, room: usize, words: &[u32]) -> Compared {
        self.check(FIT)?;
        for room in [room, words.len(), words.len() + 1, words.len() + 1_000] {
            self.declare_writes(room, words)?;
        }
        for room in [words.len() - 1, 0] {
            self.declare_refuses(room, 16)?;
        }
        let globals = wrapped_in(words);
        hold("the count of variables", globals.len() as u64, globals_in(self.sheet) as u64)?;
        for (index, yes) in globals.iter().enumerate() {
            self.wrapped(index, if *yes { WRAPPED } else { NOT_WRAPPED })?;
        }
        for index in [globals.len(), usize::MAX] {
            self.wrapped(index, 17)?;
        }
        self.lists_somehow(words, 0)
    }

    /// The sheet fits, and has a module of more than so many words, whichever.
    fn fits_somehow(&mut self, more_than: usize) -> Compared {
        let seen = self.declare(ROOM, |number| number as u32 as usize)?;
        let count = seen as u32 as usize;
        if seen >> 32 == 0 || count > ROOM || count <= more_than {
            return Err(format!("Declare into {ROOM} words is {seen:#x}"));
        }
        let words = self.words.last_words(ROOM)[..count].to_vec();
        hold("the bound", seen >> 32, words[3] as u64)?;
        self.fits(ROOM, &words)
    }

    /// Check refuses the sheet.
    fn refused(&mut self, room: usize, number: u32) -> Compared {
        self.check(number)?;
        for room in [room, 0, 1, 5, ROOM] {
            self.declare_refuses(room, number)?;
        }
        for index in [0, 63, usize::MAX] {
            self.wrapped(index, number)?;
        }
        Ok(())
    }

    fn line(&mut self, line: &Line) -> Compared {
        match (line.asks, &line.answer) {
            (Asks::Declare { room }, Answer::Words(words)) if words.len() <= room => {
                self.fits(room, words)
            }
            (Asks::Declare { room }, Answer::Refused(16)) => {
                self.declare_refuses(room, 16)?;
                self.fits_somehow(room)
            }
            (Asks::Declare { room }, Answer::Refused(number)) if *number < 16 => {
                self.refused(room, *number)
            }
            (Asks::List { room }, Answer::Words(list)) => {
                self.lists(room.unwrap_or(2 * self.listed.len()), list)?;
                self.lists_somehow(self.listed, 0)
            }
            (Asks::List { room: Some(room) }, Answer::Refused(16)) => {
                self.list_refuses(room, 16)?;
                self.lists_somehow(self.listed, room)
            }
            (Asks::List { room }, Answer::Refused(number)) if *number > 17 => {
                let long = 2 * self.listed.len() + 8;
                for room in [room.unwrap_or(long), 0, 1, 5, long] {
                    self.list_refuses(room, *number)?;
                }
                Ok(())
            }
            (Asks::Wrapped { index }, Answer::Wrapped(yes)) => {
                self.wrapped(index, if *yes { WRAPPED } else { NOT_WRAPPED })?;
                self.fits_somehow(0)
            }
            (Asks::Wrapped { index }, Answer::Refused(17)) => {
                self.wrapped(index, 17)?;
                self.fits_somehow(0)
            }
            (Asks::Wrapped { index }, Answer::Refused(number)) if *number < 16 => {
                self.wrapped(index, *number)?;
                self.refused(ROOM, *number)
            }
            _ => Err(String::from("no sheet can have this answer")),
        }
    }

    /// A line with both patterns, the sheet once against the fence behind it and once against
    /// the one before.
    fn replay(&mut self, line: &Line) {
        match line.answer {
            Answer::Refused(number) => self.tally.refused[number as usize] += 1,
            _ => self.tally.fit += 1,
        }
        for (salt, front) in PATTERNS.into_iter().zip([false, true]) {
            self.salt = salt;
            match line.asks {
                Asks::List { .. } => self.listed = self.sheets.hold_words(&line.words(), front),
                _ => self.sheet = self.sheets.hold(&line.sheet, front),
            }
            if let Err(what) = self.line(line) {
                self.tally.wrong.push(format!("{}:{}: {what}", line.file, line.number));
                return;
            }
        }
    }
}

/// All lines, by four threads at once.
fn replay(lines: &[Line], fault: Option<&str>) -> bool {
    const THREADS: usize = 4;
    let fault = Fault { name: fault, planted: AtomicBool::new(false) };
    let longest = lines.iter().map(|line| line.sheet.len()).max().unwrap_or(0);
    let work = |first: usize| {
        let mut replay = Replay {
            fault: &fault,
            tally: Tally::default(),
            sheets: Fenced::new(longest),
            sheet: &[],
            listed: &[],
            words: Fenced::new(4 * (MARGIN + LIST_ROOM)),
            salt: 0,
        };
        lines.iter().skip(first).step_by(THREADS).for_each(|line| replay.replay(line));
        replay.tally
    };
    let tally = std::thread::scope(|scope| {
        let threads: Vec<_> = (0..THREADS).map(|n| scope.spawn(move || work(n))).collect();
        let tallies = threads.into_iter().map(|thread| thread.join().expect("no panic"));
        tallies.fold(Tally::default(), Tally::add)
    });
    let mut by_file: Vec<(&str, usize)> = Vec::new();
    for line in lines {
        match by_file.last_mut() {
            Some((file, count)) if *file == line.file => *count += 1,
            _ => by_file.push((&line.file, 1)),
        }
    }
    by_file.iter().for_each(|(file, count)| println!("{file}: {count} lines"));
    tally.wrong.iter().take(20).for_each(|what| println!("{what}"));
    if fault.name.is_some() && !fault.planted.into_inner() {
        println!("there was no place for the fault");
    }
    println!("accepted: {}; refused with 1 to 20: {:?}", tally.fit, &tally.refused[1..]);
    let unreached: Vec<_> = (1..=20).filter(|n| tally.refused[*n] == 0).collect();
    if !unreached.is_empty() {
        println!("no line is refused with {unreached:?}");
    }
    println!("{} calls, {} words compared", tally.calls, tally.words);
    println!("{} lines, {} wrong", lines.len(), tally.wrong.len());
    tally.wrong.is_empty() && unreached.is_empty() && tally.fit > 0
}

/// How long a call is watched, and how long one that was never within its bar: a machine that others use too is slow for
/// seconds at a time.
const WATCHED: Duration = Duration::from_millis(40);
const WATCHED_AT_MOST: Duration = Duration::from_secs(15);

/// The shortest time of a call, in seconds.
fn shortest<T>(bar: f64, mut call: impl FnMut() -> T) -> f64 {
    let (mut best, mut calls) = (f64::MAX, 0);
    let start = Instant::now();
    while calls < 50
        || (calls < 2_000 && start.elapsed() < WATCHED)
        || (best > bar && start.elapsed() < WATCHED_AT_MOST)
    {
        let began = Instant::now();
        black_box(call());
        best = best.min(began.elapsed().as_secs_f64());
        calls += 1;
    }
    best
}

/// Work that has nothing to do with sheets, a step for each byte, each waiting for the one before.
fn usual_work(bytes: &[u8]) -> u32 {
    bytes.iter().fold(0x811c_9dc5, |sum: u32, b| (sum ^ u32::from(*b)).wrapping_mul(0x0100_0193))
}

/// The longest that a call may take here, in seconds.
fn longest() -> f64 {
    let bytes = [7; 16_384];
    LONGEST * (shortest(USUAL, || usual_work(black_box(&bytes))) / USUAL).max(1.0)
}

/// Check, Declare and Wrapped of the first global, in seconds, and the module's words.
fn times_of(bar: f64, sheet: &[u8], words: &mut [u32]) -> ([f64; 3], usize) {
    let number = voulkrod::declare(sheet, words);
    let times = [
        shortest(bar, || voulkrod::check(black_box(sheet))),
        shortest(bar, || voulkrod::declare(black_box(sheet), words)),
        shortest(bar, || voulkrod::wrapped(black_box(sheet), 0)),
    ];
    (times, if number >> 32 == 0 { 0 } else { number as u32 as usize })
}

fn times(lines: &[Line], folder: &str) -> bool {
    let mut words = vec![0; ROOM];
    let mut good = true;
    let longest = longest();
    let mut print = |what: &str, bytes: usize, (times, count): ([f64; 3], usize)| {
        let [check, declare, wrapped] = times.map(|t| format!("{:.0}", t * 1e6));
        println!("| {what} | {bytes} | {count} | {check} | {declare} | {wrapped} |");
        let slow = times.iter().any(|t| *t > longest);
        if slow {
            println!("this takes more than {:.1} ms", longest * 1e3);
        }
        if count == 0 {
            println!("this is refused");
        }
        good &= !slow && count > 0;
    };
    println!("at most {:.1} ms a call", longest * 1e3);
    println!("| sheet | bytes | words | Check, us | Declare, us | Wrapped, us |");
    println!("|---|---|---|---|---|---|");
    for (index, (what, sheet)) in worst::sheets().into_iter().enumerate() {
        print(what, sheet.len(), times_of(longest, &sheet, &mut words));
        let path = format!("{folder}/worst{index:02}.sheet");
        std::fs::write(&path, &sheet).unwrap_or_else(|e| panic!("{path}: {e}"));
    }
    let fits = |l: &&Line| matches!(l.answer, Answer::Words(_) | Answer::Refused(16));
    let long = |l: &&Line| l.sheet.len() > 16_000 && !matches!(l.asks, Asks::List { .. });
    let long: Vec<_> = lines.iter().filter(long).filter(fits).collect();
    let slowest = long.iter().map(|line| (line, times_of(longest, &line.sheet, &mut words)));
    let by_declare = |(_, (times, _)): &(_, ([f64; 3], usize))| (times[1] * 1e9) as u64;
    if let Some((line, times)) = slowest.max_by_key(by_declare) {
        let what = format!("the slowest of {} lines' sheets of over 16,000 bytes", long.len());
        print(&what, line.sheet.len(), times);
    }
    good
}

fn main() {
    let arguments: Vec<String> = std::env::args().skip(1).collect();
    let arguments: Vec<&str> = arguments.iter().map(String::as_str).collect();
    let read = |files: &[&str]| {
        let lines: Result<Vec<_>, String> = files.iter().map(|file| lines::read(file)).collect();
        lines.map(|lines| lines.into_iter().flatten().collect::<Vec<Line>>())
    };
    let good = match &arguments[..] {
        ["--faults"] => {
            FAULTS.iter().for_each(|name| println!("{name}"));
            Ok(true)
        }
        ["--fault", name, files @ ..] if FAULTS.contains(name) && !files.is_empty() => {
            read(files).map(|lines| replay(&lines, Some(name)))
        }
        ["--times", folder, files @ ..] => read(files).map(|lines| times(&lines, folder)),
        [first, ..] if !first.starts_with('-') => {
            read(&arguments).map(|lines| replay(&lines, None))
        }
        _ => Err(String::from("compiled [--faults | --fault FAULT | --times FOLDER] FILE...")),
    };
    // 1: something is wrong; 2: it could not be told
    std::process::exit(match good {
        Ok(true) => 0,
        Ok(false) => 1,
        Err(problem) => {
            println!("{problem}");
            2
        }
    });
}
