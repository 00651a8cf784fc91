//! The comparison: the reference's answers, worked out once for all cases, held
//! against the second reading and, where it is linked, against the compiled code.

use crate::compiled::{self, Compiled, Slip, SLIPS};
use crate::faults::{Fault, FAULTS};
use crate::generator::{self, Case, Expect, Listing, Longer, Random, Words, OPCODES, PAPERS};
use crate::lines::{self, Line, Question};
use crate::reached::Reached;
use crate::reference;
use crate::repeats::repeat_in;
use crate::second::{self, Refusal};
use crate::sheet::{has_bases, has_functions, has_halves, HEADER, MAX_BOUND};
use std::collections::BTreeSet;

pub const SEED: u64 = 0x0907_0004_1943_0300;

/// Of what paper 1 adds.
const HALVES_SEED: u64 = 0x0900_0009_0016_0201;

/// Of what paper 2 adds.
const FUNCTIONS_SEED: u64 = 0x0900_0048_0033_0202;

/// Of what paper 3 adds.
const LISTS_SEED: u64 = 0x0900_0005_0018_0203;

/// Of what paper 5 adds.
const BLOCKS_SEED: u64 = 0x0900_0002_0071_0205;

/// Of a run at scale, where no other is said.
pub const SCALE_SEED: u64 = 0x0316_0040_9600_1719;

/// The longest of the fresh lines, so that some hundred are computed in seconds.
const LONGEST_FRESH: usize = 800;

/// Of how many modules of fresh lines one is listed.
const FRESH_LISTS: usize = 4;

/// How many sheets lie between two lines of progress.
const STRIDE: usize = 50_000;

/// What a sheet has to be answered with.
enum Expected {
    /// The Rust's words without its repeats, for each global whether it is wrapped, and the
    /// instructions that were dropped as repeats.
    Module { words: Vec<u32>, wrapped: Vec<bool>, dropped: Vec<Vec<u32>> },
    /// By number and, where the Rust gives it, by record.
    Refused { number: u8, record: Option<usize> },
    /// Bytes changed at random, where only the second reading has an opinion: it
    /// judges another program, never the second reading itself.
    Opinion(u8),
}

struct Asked {
    sheet: Vec<u8>,
    expected: Expected,
}

/// What words have to be listed as.
enum Due {
    /// Their list, by the registry's grammar.
    Listed(Vec<u32>),
    Refused(u8),
    /// Where only the second reading has an opinion: it judges another program alone.
    Opinion(Result<Vec<u32>, u8>),
}

struct ListAsked {
    words: Vec<u32>,
    due: Due,
}

impl ListAsked {
    /// A module, which is listed, whatever it is.
    fn module(words: &[u32]) -> Self {
        let due = Due::Listed(generator::list_by_registry(words));
        ListAsked { words: words.to_vec(), due }
    }

    fn new(Words { words, expect }: Words) -> Self {
        let due = match expect {
            Listing::Listed => Due::Listed(generator::list_by_registry(&words)),
            Listing::Refused(number) => Due::Refused(number),
            Listing::Unknown => {
                let mut list = vec![0; 2 * words.len()];
                let answer = second::list(&words, &mut list, None);
                Due::Opinion(answer.map(|length| list[..length].to_vec()))
            }
        };
        ListAsked { words, due }
    }

    /// The list that is due, or the number of the refusal.
    fn answer(&self) -> Result<&[u32], u8> {
        match &self.due {
            Due::Listed(list) => Ok(list),
            Due::Refused(number) => Err(*number),
            Due::Opinion(answer) => answer.as_deref().map_err(|number| *number),
        }
    }

    /// The list that is due in a buffer of so many words.
    fn answer_in(&self, room: usize) -> Result<&[u32], u8> {
        match self.answer()? {
            list if list.len() > room => Err(16),
            list => Ok(list),
        }
    }

    /// Buffers worth trying.
    fn rooms(&self) -> Vec<usize> {
        match self.answer() {
            Ok(list) => vec![list.len() + 3, list.len(), list.len() - 1, 0],
            Err(_) => vec![2 * self.words.len() + 8, 0],
        }
    }

    fn line(&self, room: Option<usize>) -> String {
        let answer = match self.answer_in(lines::room_to_list(&self.words, room)) {
            Ok(list) => lines::show_words(list),
            Err(number) => lines::refused(number),
        };
        format!("{} | {answer}", lines::asks_to_list(&self.words, room))
    }
}

/// Words to list, with what is due.
fn lists() -> Vec<ListAsked> {
    lists_by_heading().into_iter().flat_map(|(_, all)| all).collect()
}

fn lists_by_heading() -> Vec<(&'static str, Vec<ListAsked>)> {
    let mut random = Random::new(LISTS_SEED, 3);
    let mut modules = Vec::new();
    for sheet in generator::sheets_to_list(&mut random) {
        if let (reference::Answer::Module(words, _), _) = reference::run_without_repeats(&sheet) {
            modules.push(words);
        }
    }
    let every = generator::instructions(&modules[2]).into_iter().collect();
    let missing = generator::counts_missing(&every).1;
    assert!(missing.is_empty(), "the third module to list is one of every opcode: {missing:?}");
    let asked = |all: Vec<Words>| all.into_iter().map(ListAsked::new).collect();
    let all = generator::words_to_list(&mut random, &modules);
    all.into_iter().map(|(what, all)| (what, asked(all))).collect()
}

/// How the second reading's list differs from what is due in one of the buffers, if it does,
/// and in which.
fn list_difference(one: &ListAsked, fault: Option<Fault>) -> Option<(usize, String)> {
    if matches!(one.due, Due::Opinion(_)) {
        return None;
    }
    one.rooms().into_iter().find_map(|room| {
        let own = lines::second_list(&one.words, room, fault);
        match (one.answer_in(room), own) {
            (Ok(due), Ok(own)) if own == due => None,
            (Err(number), Err(why)) if why == lines::refused(number) => None,
            (Ok(due), Ok(own)) => {
                let at = own.iter().zip(due).take_while(|(a, b)| a == b).count();
                Some((room, format!("the list differs from word {at} on")))
            }
            (Ok(_), Err(why)) => Some((room, format!("expected is a list, not {why}"))),
            (Err(number), Err(why)) => Some((room, format!("expected is {number}, not {why}"))),
            (Err(number), Ok(_)) => Some((room, format!("expected is {number}, not a list"))),
        }
    })
}

/// Where the list is the second reading's own opinion, what it joins to still has to be the words.
fn join_difference(one: &ListAsked) -> Option<String> {
    match &one.due {
        Due::Opinion(Ok(list)) if second::join(list, None) != one.words => {
            Some(String::from("joined again, its own list is something else"))
        }
        _ => None,
    }
}

fn compiled_list_difference(one: &ListAsked, compiled: &mut Compiled) -> Option<String> {
    match one.answer() {
        Ok(list) => compiled.listed(&one.words, list),
        Err(number) => compiled.unlisted(&one.words, number),
    }
}

fn ask_reference(sheet: &[u8]) -> Option<Expected> {
    match std::panic::catch_unwind(|| reference::run_without_repeats(sheet)) {
        Ok((reference::Answer::Module(words, wrapped), dropped)) => {
            Some(Expected::Module { words, wrapped, dropped })
        }
        Ok((reference::Answer::Missing(record), _)) => {
            Some(Expected::Refused { number: 14, record: Some(record) })
        }
        Err(_) => {
            println!("the reference panics on {}", lines::hex(sheet));
            None
        }
    }
}

/// Where a record of this index ends.
fn end_of_record(sheet: &[u8], index: usize) -> usize {
    let mut at = HEADER;
    for _ in 0..=index {
        at += 2 + u16::from_be_bytes([sheet[at], sheet[at + 1]]) as usize;
    }
    at
}

/// Every case of a run: the sweep, families, edges and `count` random ones of document
/// 01's, then those of paper 1, of paper 2, of paper 4 and of paper 5.
fn cases(count: usize) -> Vec<Case> {
    let mut cases = swept();
    cases.extend(unswept(count));
    cases.extend(halved(count));
    cases.extend(with_functions(count));
    cases.extend(generator::strides());
    cases.extend(with_blocks(count));
    cases
}

fn swept() -> Vec<Case> {
    generator::sweep().into_iter().flat_map(|(_, cases)| cases).collect()
}

fn unswept(count: usize) -> Vec<Case> {
    let mut random = Random::new(SEED, 0);
    let mut cases = generator::families(&mut random);
    cases.extend(generator::edges(&mut random, &bound_of));
    cases.extend(drawn(&mut random, count));
    cases
}

/// The reference's bound, unless a capability is missing.
fn bound_of(sheet: &[u8]) -> Option<u32> {
    match reference::run(sheet) {
        reference::Answer::Module(words, _) => Some(words[3]),
        reference::Answer::Missing(_) => None,
    }
}

/// The families of 16-bit floats, and random sheets that may have such types.
fn halved(count: usize) -> Vec<Case> {
    let mut random = Random::new(HALVES_SEED, 1);
    let mut cases = generator::halves(&mut random);
    cases.extend(drawn(&mut random, count));
    cases
}

/// The families of function types, and random sheets that may have some.
fn with_functions(count: usize) -> Vec<Case> {
    let mut random = Random::new(FUNCTIONS_SEED, 2);
    let mut cases = generator::functions(&mut random);
    cases.extend(drawn(&mut random, count));
    cases
}

/// The families of Block on bases, and random sheets in which that comes up often.
fn with_blocks(count: usize) -> Vec<Case> {
    let mut random = Random::new(BLOCKS_SEED, 5);
    let mut cases = generator::blocks(&bound_of);
    cases.extend(drawn(&mut random, count));
    cases
}

/// Some damaged sheets for each number, then `count` random ones.
fn drawn(random: &mut Random, count: usize) -> Vec<Case> {
    let mut cases = Vec::new();
    for number in generator::DAMAGES {
        cases.extend((0..20).map(|_| generator::damaged_as(random, number)));
    }
    cases.extend((0..count).map(|n| random_case(random, n)));
    cases
}

/// The next random case: three fifths are valid, one fifth has one thing wrong,
/// one fifth has bytes changed.
fn random_case(random: &mut Random, n: usize) -> Case {
    match n % 5 {
        0 => generator::damaged(random),
        1 => generator::changed(random),
        _ => {
            let aim = generator::aim(random);
            let sheet = generator::valid(random, aim).encode();
            Case { sheet, expect: Expect::Domain }
        }
    }
}

/// The expected answers to all cases. None if the reference panics, which it must
/// not in its domain.
fn asked(cases: Vec<Case>) -> Option<Vec<Asked>> {
    let mut out = Vec::new();
    for case in cases {
        out.extend(asked_of(case)?);
    }
    Some(out)
}

/// The expected answer to a case. A sheet that misses a capability is also asked
/// cut off behind the refused record and before it, so that a program that answers
/// a number alone is held to the record as well.
fn asked_of(Case { sheet, expect }: Case) -> Option<Vec<Asked>> {
    let expected = match expect {
        Expect::Refused(number) => Expected::Refused { number, record: None },
        Expect::Domain => ask_reference(&sheet)?,
        Expect::Unknown => match second::check(&sheet, None) {
            Err(r) if r.number != 14 || lines::start_of(&sheet) >= MAX_BOUND => {
                Expected::Opinion(r.number)
            }
            _ => ask_reference(&sheet)?,
        },
    };
    let mut out = match expected {
        Expected::Refused { number: 14, record: Some(record) } => cuts(&sheet, record)?,
        _ => Vec::new(),
    };
    out.push(Asked { sheet, expected });
    Some(out)
}

/// A sheet cut off behind a record and before it, with what is expected of each.
fn cuts(sheet: &[u8], record: usize) -> Option<Vec<Asked>> {
    let before = match record {
        0 => HEADER,
        _ => end_of_record(sheet, record - 1),
    };
    let cut = |end: usize| {
        let sheet = sheet[..end].to_vec();
        ask_reference(&sheet).map(|expected| Asked { sheet, expected })
    };
    Some(vec![cut(end_of_record(sheet, record))?, cut(before)?])
}

/// How the second reading differs from what is expected, if it does.
fn difference(asked: &Asked, fault: Option<Fault>) -> Option<String> {
    let sheet = &asked.sheet;
    let refused = |r: &Refusal| match r.record {
        Some(record) => format!("refused {} at record {record}", r.number),
        None => format!("refused {}", r.number),
    };
    match (&asked.expected, second::check(sheet, fault)) {
        (&Expected::Refused { number, record }, Err(r)) => {
            let same = r.number == number && (record.is_none() || r.record == record);
            (!same).then(|| format!("expected is {number} at {record:?}, not {}", refused(&r)))
        }
        (&Expected::Refused { number, .. }, Ok(_)) => {
            Some(format!("expected is refused {number}, not words"))
        }
        (Expected::Opinion(_), _) => None,
        (Expected::Module { .. }, Err(r)) => {
            Some(format!("expected are words, not {}", refused(&r)))
        }
        (Expected::Module { words, wrapped, .. }, Ok(s)) => {
            let own = s.words();
            if let Some(what) = repeat_in(&own) {
                return Some(what);
            }
            if own != *words {
                let at = own.iter().zip(words).take_while(|(a, b)| a == b).count();
                return Some(format!("words differ from word {at} on"));
            }
            (s.wrappers() != *wrapped).then(|| "Wrapped differs".to_string())
        }
    }
}

/// Declare's and Wrapped's own refusals beside an accepted sheet.
fn own_refusals(asked: &Asked) -> Option<String> {
    let Expected::Module { words, wrapped, .. } = &asked.expected else { return None };
    let number = |r: Result<_, Refusal>| r.map_err(|r| r.number);
    let short = second::declare(&asked.sheet, words.len() - 1, None).map(|_| ());
    let exact = second::declare(&asked.sheet, words.len(), None).map(|_| ());
    let beyond = second::wrapped(&asked.sheet, wrapped.len(), None).map(|_| ());
    let good = (number(short), number(exact), number(beyond)) == (Err(16), Ok(()), Err(17));
    (!good).then(|| "16 or 17 is not where it belongs".to_string())
}

/// What is wrong with the instructions that were dropped from the Rust's words, if something
/// is: each must be a Block, and the words must be found to have a repeat with it, and none
/// without.
fn dropped_wrongly(asked: &Asked) -> Option<String> {
    let Expected::Module { words, dropped, .. } = &asked.expected else { return None };
    if let Some(what) = repeat_in(words) {
        return Some(format!("what is left has a repeat: {what}"));
    }
    dropped.iter().find_map(|instruction| match reference::is_block(instruction) {
        false => Some(format!("something else than Block: {}", lines::show_words(instruction))),
        true => {
            let unseen = repeat_in(&[&words[..], instruction].concat()).is_none();
            unseen.then(|| format!("no repeat: {}", lines::show_words(instruction)))
        }
    })
}

/// How the compiled code differs from what is expected, if it does. It is held to
/// the second reading's opinion too.
fn compiled_difference(asked: &Asked, compiled: &mut Compiled) -> Option<String> {
    match &asked.expected {
        Expected::Module { words, wrapped, .. } => compiled.accepted(&asked.sheet, words, wrapped),
        Expected::Refused { number, .. } | Expected::Opinion(number) => {
            compiled.refused(&asked.sheet, *number)
        }
    }
}

/// What a comparison has seen so far.
struct Tally {
    compiled: Compiled,
    reached: Reached,
    sheets: usize,
    modules: usize,
    /// Modules of sheets with 16-bit floats, of whose words the Rust's lack one line.
    halves: usize,
    /// Modules of sheets with function records.
    functions: usize,
    /// Modules that the Rust writes with repeats, and the instructions dropped from them.
    repeating: usize,
    dropped: usize,
    words: usize,
    largest: usize,
    missing: usize,
    opinions: usize,
    /// Draws what is changed in modules before they are listed.
    random: Random,
    /// Inputs to list, and those of which the second reading alone has an opinion.
    lists: usize,
    listed: usize,
    list_opinions: usize,
    differences: usize,
}

impl Tally {
    fn new() -> Self {
        Tally {
            compiled: Compiled::new(None),
            reached: Reached::default(),
            sheets: 0,
            modules: 0,
            halves: 0,
            functions: 0,
            repeating: 0,
            dropped: 0,
            words: 0,
            largest: 0,
            missing: 0,
            opinions: 0,
            random: Random::new(LISTS_SEED, PAPERS),
            lists: 0,
            listed: 0,
            list_opinions: 0,
            differences: 0,
        }
    }

    /// Holds the sides against each other on a sheet.
    fn hold(&mut self, one: &Asked) {
        self.sheets += 1;
        match &one.expected {
            Expected::Module { words, dropped, .. } => {
                self.modules += 1;
                self.halves += has_halves(&one.sheet) as usize;
                self.functions += has_functions(&one.sheet) as usize;
                self.repeating += !dropped.is_empty() as usize;
                self.dropped += dropped.len();
                self.words += words.len();
                self.largest = self.largest.max(words.len());
                self.reached.accepted(&one.sheet);
                self.reached.refusal(16);
                self.reached.refusal(17);
            }
            Expected::Refused { number, record } => {
                self.missing += record.is_some() as usize;
                self.reached.refusal(*number);
            }
            Expected::Opinion(_) => self.opinions += 1,
        }
        let of_second = difference(one, None).or_else(|| own_refusals(one));
        let mut of_compiled = None;
        if compiled::LINKED {
            of_compiled = compiled_difference(one, &mut self.compiled);
        }
        let sides = [
            ("dropped from the Rust's words", dropped_wrongly(one)),
            ("the second reading", of_second),
            ("the compiled code", of_compiled),
        ];
        self.report_differences(sides, || lines::hex(&one.sheet));
        // The module, and the module with one thing changed, are listed too.
        if let Expected::Module { words, .. } = &one.expected {
            self.hold_list(&ListAsked::module(words));
            let changed = generator::changed_words(&mut self.random, words);
            self.hold_list(&ListAsked::new(changed));
        }
    }

    /// Holds the second reading and the compiled code to what is due of a list.
    fn hold_list(&mut self, one: &ListAsked) {
        self.lists += 1;
        self.list_opinions += matches!(one.due, Due::Opinion(_)) as usize;
        match one.answer() {
            Ok(_) => self.listed += 1,
            Err(number) => self.reached.refusal(number),
        }
        let of_second =
            list_difference(one, None).map(|(_, what)| what).or_else(|| join_difference(one));
        let mut of_compiled = None;
        if compiled::LINKED {
            of_compiled = compiled_list_difference(one, &mut self.compiled);
        }
        let asks = || lines::asks_to_list(&one.words, None);
        let sides = [("the second reading", of_second), ("the compiled code", of_compiled)];
        self.report_differences(sides, asks);
    }

    fn report_differences<const SIDES: usize>(
        &mut self,
        sides: [(&str, Option<String>); SIDES],
        asks: impl Fn() -> String,
    ) {
        for (side, what) in sides {
            let Some(what) = what else { continue };
            self.differences += 1;
            if self.differences <= 5 {
                println!("{side}: {what}\n  {}", asks());
            }
        }
    }

    fn sides(&self) -> String {
        match compiled::LINKED {
            true => format!(
                "three sides: the Rust, the second reading and the compiled code, called {} times",
                self.compiled.calls()
            ),
            false => String::from("two sides: the Rust and the second reading"),
        }
    }

    /// The result; true if nothing differs.
    fn report(&self, seed: u64) -> bool {
        println!(
            "{} sheets from seed {seed:#018x}; held against the Rust: {} modules of {} words, the \
             largest of {}, {} of them but for Float16 and {} with function records, and {} missing \
             capabilities; {} refused by the second reading's opinion alone; {} differences",
            self.sheets,
            self.modules,
            self.words,
            self.largest,
            self.halves,
            self.functions,
            self.missing,
            self.opinions,
            self.differences,
        );
        println!(
            "{} inputs to list, modules and words with one thing changed: {} listed, and joined \
             again the same; {} by the second reading's opinion alone",
            self.lists, self.listed, self.list_opinions
        );
        println!(
            "of the Rust's modules {} have repeats, {} instructions, which were dropped{}",
            self.repeating,
            self.dropped,
            match self.differences {
                0 => ": each is a Block; no module of another side has a repeat",
                _ => "",
            }
        );
        println!("{}", self.sides());
        self.differences == 0
    }
}

/// The whole comparison; true if nothing differs and everything was reached.
pub fn run(count: usize) -> bool {
    let mut tally = Tally::new();
    for case in cases(count) {
        let Some(all) = asked_of(case) else { return false };
        all.iter().for_each(|one| tally.hold(one));
    }
    lists().iter().for_each(|one| tally.hold_list(one));
    let mut complete = tally.reached.report();
    if tally.repeating == 0 {
        println!("no module of the Rust's has a repeat");
        complete = false;
    }
    tally.report(SEED) && complete
}

/// Random sheets alone, as many as one likes, from a seed of their own.
pub fn scale(count: usize, seed: u64) -> bool {
    if seed == SEED {
        println!("the seed is the gate's");
        return false;
    }
    let began = std::time::Instant::now();
    let mut random = Random::new(seed, PAPERS);
    let mut tally = Tally::new();
    for n in 0..count {
        let Some(all) = asked_of(random_case(&mut random, n)) else { return false };
        all.iter().for_each(|one| tally.hold(one));
        if (n + 1) % STRIDE == 0 {
            println!(
                "{:9} of {count}, {} differences, {} s",
                n + 1,
                tally.differences,
                began.elapsed().as_secs()
            );
        }
    }
    tally.reached.show();
    let good = tally.report(seed);
    println!("{:.0} s", began.elapsed().as_secs_f64());
    good
}

/// Plants each slip in the compiled code's answers, on one sheet of a run after the
/// other; true if every sheet that can show it does.
pub fn slips(count: usize) -> bool {
    if !compiled::LINKED {
        println!("the compiled code is not linked");
        return false;
    }
    let Some(all) = asked(cases(count)) else { return false };
    let to_list = lists();
    let mut silent = 0;
    for (number, &(slip, what)) in SLIPS.iter().enumerate() {
        let mut planted = Compiled::new(Some(slip));
        let (of, missed, asked) = match slip.of_refused_lists() {
            None => {
                let can_show: Vec<&Asked> = all.iter().filter(|one| shows(one, slip)).collect();
                let missed = |one: &&&Asked| compiled_difference(one, &mut planted).is_none();
                (can_show.len(), can_show.iter().filter(missed).count(), "sheets")
            }
            Some(refused) => {
                let can_show = |one: &&ListAsked| one.answer().is_err() == refused;
                let can_show: Vec<&ListAsked> = to_list.iter().filter(can_show).collect();
                let missed =
                    |one: &&&ListAsked| compiled_list_difference(one, &mut planted).is_none();
                (can_show.len(), can_show.iter().filter(missed).count(), "inputs to list")
            }
        };
        let number = number + 1;
        match missed == 0 && of > 0 {
            true => println!("{number:2} reported on each of {of} {asked}: {what}"),
            false => {
                silent += 1;
                println!("{number:2} NOT REPORTED on {missed} of {of} {asked}: {what}");
            }
        }
    }
    println!(
        "{} changes of the compiled code's answers planted, {} reported on every input",
        SLIPS.len(),
        SLIPS.len() - silent
    );
    silent == 0
}

/// Whether a slip changes an answer that is asked for about this sheet.
fn shows(one: &Asked, slip: Slip) -> bool {
    match &one.expected {
        Expected::Module { wrapped, .. } => match slip {
            Slip::Wrapped => !wrapped.is_empty(),
            other => !other.of_refused_sheets(),
        },
        Expected::Refused { .. } | Expected::Opinion(_) => slip.of_refused_sheets(),
    }
}

/// Plants each fault in turn and looks for the shortest sheet of a run that shows it, or the
/// shortest input to list; true if each is reported.
pub fn faults(count: usize) -> bool {
    let Some(mut all) = asked(cases(count)) else { return false };
    all.sort_by_key(|a| a.sheet.len());
    let mut to_list = lists();
    to_list.sort_by_key(|one| one.words.len());
    report_faults(|fault| match fault.of_lists() {
        false => {
            all.iter().find(|a| difference(a, Some(fault)).is_some()).map(|a| lines::hex(&a.sheet))
        }
        true => to_list.iter().find_map(|one| {
            list_difference(one, Some(fault))
                .map(|(room, _)| lines::asks_to_list(&one.words, Some(room)))
        }),
    })
}

/// The same with stored lines, which other programs replay.
pub fn faults_of_lines(mut stored: Vec<Line>) -> bool {
    stored.sort_by_key(|line| line.sheet.len());
    let is_list = |l: &Line| matches!(l.question, Question::List { .. });
    let (to_list, sheets): (Vec<Line>, Vec<Line>) = stored.into_iter().partition(is_list);
    report_faults(|fault| {
        let wrong = |l: &&Line| lines::second_answer(&l.sheet, l.question, Some(fault)) != l.answer;
        let stored = if fault.of_lists() { &to_list } else { &sheets };
        stored.iter().find(wrong).map(Line::asks)
    })
}

fn report_faults(shown_by: impl Fn(Fault) -> Option<String>) -> bool {
    let mut silent = 0;
    for (number, &(fault, what)) in FAULTS.iter().enumerate() {
        match shown_by(fault) {
            Some(sheet) => println!("{:2} reported: {what}\n   by {sheet}", number + 1),
            None => {
                silent += 1;
                println!("{:2} NOT REPORTED: {what}", number + 1);
            }
        }
    }
    println!("{} faults planted, {} reported", FAULTS.len(), FAULTS.len() - silent);
    silent == 0
}

/// The sheets of a run as lines, for another program to answer.
pub fn print_lines(count: usize) -> bool {
    let Some(all) = asked(cases(count)) else { return false };
    for one in &all {
        println!("{}", line(one));
    }
    for one in lists() {
        println!("{}", one.line(None));
    }
    true
}

/// The stored lists: for each fault of lists the shortest input that shows it, in the buffer
/// that does; then of each heading all, or some, spread evenly.
pub fn print_lists() -> bool {
    let by_heading = lists_by_heading();
    let mut shortest: Vec<&ListAsked> = by_heading.iter().flat_map(|(_, all)| all).collect();
    shortest.sort_by_key(|one| one.words.len());
    // One line may show several faults.
    let mut shown: Vec<(String, Vec<&str>)> = Vec::new();
    for &(fault, what) in FAULTS.iter().filter(|(fault, _)| fault.of_lists()) {
        let Some(line) = shortest.iter().find_map(|one| {
            list_difference(one, Some(fault)).map(|(room, _)| one.line(Some(room)))
        }) else {
            continue;
        };
        match shown.iter_mut().find(|(other, _)| *other == line) {
            Some((_, faults)) => faults.push(what),
            None => shown.push((line, vec![what])),
        }
    }
    for (line, faults) in shown {
        faults.iter().for_each(|what| println!("# not so: {what}"));
        println!("{line}");
    }
    for (what, all) in by_heading {
        println!("# {what}");
        let fitting: Vec<&ListAsked> = all.iter().filter(|one| stored_list(what, one)).collect();
        let most = match what {
            "headers" => 40,
            "long instructions" => 10,
            "two faults in one" | "modules with one thing changed" => 60,
            _ => fitting.len(),
        };
        for n in 0..most.min(fitting.len()) {
            println!("{}", fitting[n * fitting.len() / most.min(fitting.len())].line(None));
        }
    }
    true
}

/// Which inputs are stored: no long ones, and of single instructions those around the counts
/// that Declare writes, and opcodes that it does not write with three words.
fn stored_list(what: &str, one: &ListAsked) -> bool {
    let Some(&first) = one.words.get(5) else { return true };
    let (opcode, count) = (first & 0xffff, (first >> 16) as usize);
    let known = OPCODES.into_iter().find(|&(known, ..)| known == opcode);
    match (what, known) {
        ("one instruction", Some((_, least, longer))) => {
            let most = least + 1 + (longer != Longer::Not) as usize;
            (least - 1..=most).contains(&count) && one.words.len() == 5 + count
        }
        ("one instruction", None) => count == 3 && one.words.len() == 8 && opcode % 3 == 0,
        _ => one.words.len() <= 160,
    }
}

/// Whether the modules of stored lines have every opcode that Declare writes with each count
/// that it writes: with the fewest words, and where there may be more, with one more or any
/// longer. A list is refused with 20 elsewhere, so no count may be there on paper alone.
pub fn counts_of_lines(stored: &[Line]) -> bool {
    let mut seen = BTreeSet::new();
    for line in stored {
        if line.refused().is_none() && matches!(line.question, Question::Declare { .. }) {
            let words = lines::module_of(&line.answer).unwrap_or_default();
            seen.extend(generator::instructions(&words));
        }
    }
    let (due, missing) = generator::counts_missing(&seen);
    match missing.is_empty() {
        true => println!(
            "the stored modules have all {} opcodes that a list takes, in all {due} classes of \
             their counts, and no other",
            OPCODES.len()
        ),
        false => println!("in the stored modules: not as due: {}", missing.join("; ")),
    }
    missing.is_empty()
}

/// The stored sweep.
pub fn print_sweep() -> bool {
    for (what, cases) in generator::sweep() {
        println!("# {what}");
        for case in cases {
            // The sheet itself comes last, behind its cuts.
            let Some(one) = asked_of(case).and_then(|mut all| all.pop()) else { return false };
            println!("{}", line(&one));
        }
    }
    true
}

/// Random sheets as lines, short ones, from a seed of their own.
pub fn print_fresh(count: usize, seed: u64) -> bool {
    if seed == SEED {
        println!("the seed is that of the stored lines");
        return false;
    }
    println!("# {count} lines from seed {seed:#018x}");
    let mut random = Random::new(seed, PAPERS);
    let (mut printed, mut modules) = (0, Vec::new());
    for n in 0.. {
        let Some(one) = asked_of(random_case(&mut random, n)).and_then(|mut all| all.pop()) else {
            return false;
        };
        if let Some(what) = dropped_wrongly(&one) {
            println!("dropped from the Rust's words: {what}\n  {}", lines::hex(&one.sheet));
            return false;
        }
        let line = line(&one);
        if line.len() <= LONGEST_FRESH {
            println!("{line}");
            printed += 1;
            if let Expected::Module { words, .. } = &one.expected {
                modules.push(words.clone());
            }
        }
        if printed == count {
            break;
        }
    }
    // Some of their modules with one thing changed, to list.
    for module in modules.iter().step_by(FRESH_LISTS) {
        let one = ListAsked::new(generator::changed_words(&mut random, module));
        println!("{}", one.line(None));
    }
    true
}

/// A sheet with what is expected of a program that lends Declare 16,384 words.
fn line(one: &Asked) -> String {
    let answer = match &one.expected {
        Expected::Module { words, .. } if words.len() > lines::LENT => lines::refused(16),
        Expected::Module { words, .. } => lines::show_words(words),
        Expected::Refused { number, .. } | Expected::Opinion(number) => lines::refused(*number),
    };
    format!("{} | {answer}", lines::hex(&one.sheet))
}

/// How long the line would be with the Rust's repeats in it: by this sheets were chosen before
/// paper 5, and it drops none of them.
fn length_with_repeats(one: &Asked) -> usize {
    let dropped = match &one.expected {
        Expected::Module { dropped, .. } => dropped.concat().len(),
        _ => 0,
    };
    // A word is eight digits and a space.
    line(one).len() + 9 * dropped
}

/// One line of the stored sample; where a capability is missing, also the two cuts
/// that show at which record.
fn store(one: &Asked) {
    println!("{}", line(one));
    if let Expected::Refused { number: 14, record: Some(record) } = one.expected {
        for cut in cuts(&one.sheet, record).into_iter().flatten() {
            println!("{}", line(&cut));
        }
    }
}

/// Whether a sheet stands in a paper's part of the sample. The latest of the first two papers
/// that it has something of is that one, function records or else 16-bit floats; or, for
/// paper 5, a base gets Block.
fn is_of_paper(sheet: &[u8], paper: u8) -> bool {
    match paper {
        5 => has_bases(sheet),
        _ => {
            let latest = match (has_functions(sheet), has_halves(sheet)) {
                (true, _) => 2,
                (false, true) => 1,
                (false, false) => 0,
            };
            latest == paper
        }
    }
}

/// The stored sample, all of the comparison's domain: document 01's part, then those of the
/// papers, each of whose sheets has something of that paper; up to paper 2 of none behind it.
/// The faults of paper 5 are shown in its own part.
pub fn print_sample() -> bool {
    let (mut of_blocks, mut faults) = (Vec::new(), Vec::new());
    for &(fault, what) in FAULTS.iter().filter(|(fault, _)| !fault.of_lists()) {
        if fault.of_blocks() { &mut of_blocks } else { &mut faults }.push((fault, what));
    }
    let parts = [
        (0, unswept(0).len(), unswept(6_000), 4),
        (1, halved(0).len(), halved(1_500), 1),
        (2, with_functions(0).len(), with_functions(1_500), 1),
        (5, with_blocks(0).len(), with_blocks(1_500), 1),
    ];
    for (paper, families, mut cases, quarters) in parts {
        if paper > 0 {
            println!("# paper {paper}");
        }
        let random = cases.split_off(families);
        let (Some(mut families), Some(mut random)) = (asked(cases), asked(random)) else {
            return false;
        };
        let stays = |one: &Asked| by_rust(one) && is_of_paper(&one.sheet, paper);
        families.retain(stays);
        random.retain(stays);
        if paper == 5 {
            faults.append(&mut of_blocks);
        }
        print_part(&families, &random, quarters, &mut faults);
    }
    true
}

/// Whether the Rust says what is expected.
fn by_rust(one: &Asked) -> bool {
    match &one.expected {
        Expected::Module { .. } => true,
        Expected::Refused { record, .. } => record.is_some(),
        Expected::Opinion(_) => false,
    }
}

/// A part of the sample: for each fault that no part before has shown the shortest sheet
/// that does, then sheets spread evenly over the families and over random ones, short ones
/// and a few long ones, by quarters of what document 01's part has.
fn print_part(
    families: &[Asked],
    random: &[Asked],
    quarters: usize,
    faults: &mut Vec<(Fault, &str)>,
) {
    let mut shortest: Vec<&Asked> = families.iter().chain(random).collect();
    shortest.sort_by_key(|one| one.sheet.len());
    faults.retain(|&(fault, what)| {
        let shown = shortest.iter().find(|one| difference(one, Some(fault)).is_some());
        if let Some(one) = shown {
            println!("# not so: {what}");
            store(one);
        }
        shown.is_none()
    });
    let spread = |all: &[Asked], count: usize, lengths: std::ops::Range<usize>| {
        let fitting: Vec<&Asked> =
            all.iter().filter(|one| lengths.contains(&length_with_repeats(one))).collect();
        for n in 0..count {
            store(fitting[n * fitting.len() / count]);
        }
    };
    println!("# from the families");
    spread(families, 30 * quarters, 0..1_500);
    println!("# random");
    spread(random, 35 * quarters, 0..1_500);
    spread(random, 5 * quarters, 1_500..6_000);
    spread(random, quarters, 6_000..24_000);
}
