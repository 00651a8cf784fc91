//! The compiled code, called in this process: the four functions of crates/exports_c
//! as tests/staticlib has them built. The driver is linked with them under
//! `--cfg compiled`; without it there are two sides and not three.
//!
//! `Slip` lists what can be changed in an answer after the call; the run has to
//! report each.

use crate::lines::{self, Question};
use crate::repeats::repeat_in;

/// Whether the compiled code is linked.
pub const LINKED: bool = cfg!(compiled);

#[cfg(compiled)]
#[path = "../../../include/voulkrod.rs"]
mod calls;

#[cfg(not(compiled))]
mod calls {
    const LATER: &str = "this driver was built without the compiled code";

    pub fn check(_: &[u8]) -> u32 {
        unreachable!("{LATER}")
    }
    pub fn declare(_: &[u8], _: &mut [u32]) -> u64 {
        unreachable!("{LATER}")
    }
    pub fn wrapped(_: &[u8], _: usize) -> u32 {
        unreachable!("{LATER}")
    }
    pub fn list(_: &[u32], _: &mut [u32]) -> u64 {
        unreachable!("{LATER}")
    }
}

/// What can be changed in the compiled code's answers, one at a time.
#[derive(Clone, Copy, Debug, PartialEq, Eq)]
pub enum Slip {
    Word,
    Bound,
    Count,
    PastCount,
    AroundBuffer,
    Exact,
    Short,
    Empty,
    RefusedBuffer,
    RefusedEmpty,
    Number,
    Checked,
    CheckedNumber,
    Wrapped,
    NoGlobal,
    WrappedNumber,
    ListWord,
    ListLength,
    ListPast,
    ListBeside,
    ListExact,
    ListShort,
    ListEmpty,
    Listed,
    ListNumber,
    ListRefusedBuffer,
    ListRefusedEmpty,
}

impl Slip {
    /// Whether it changes an answer to a refused sheet, or else to an accepted one.
    pub fn of_refused_sheets(self) -> bool {
        use Slip::*;
        matches!(self, RefusedBuffer | RefusedEmpty | Number | CheckedNumber | WrappedNumber)
    }

    /// Whether it changes an answer to words that are listed or to words that are not; none
    /// where it changes one to a sheet.
    pub fn of_refused_lists(self) -> Option<bool> {
        use Slip::*;
        match self {
            ListWord | ListLength | ListPast | ListBeside | ListExact | ListShort | ListEmpty
            | Listed => Some(false),
            ListNumber | ListRefusedBuffer | ListRefusedEmpty => Some(true),
            _ => None,
        }
    }
}

pub const SLIPS: &[(Slip, &str)] = &[
    (Slip::Word, "one bit of one word of a module"),
    (Slip::Bound, "the bound that Declare answers"),
    (Slip::Count, "the word count that Declare answers"),
    (Slip::PastCount, "one bit of one word past the count"),
    (Slip::AroundBuffer, "one bit of one word beside the buffer"),
    (Slip::Exact, "16 for a buffer that is just long enough"),
    (Slip::Short, "one bit of one word of a buffer that is one word short"),
    (Slip::Empty, "words announced for an empty buffer"),
    (Slip::RefusedBuffer, "one bit of one word of a refused sheet's buffer"),
    (Slip::RefusedEmpty, "16 for a refused sheet and an empty buffer"),
    (Slip::Number, "the number with which Declare refuses a sheet"),
    (Slip::Checked, "a number of Check's for a sheet that fits"),
    (Slip::CheckedNumber, "Fit for a refused sheet"),
    (Slip::Wrapped, "yes and no of the last global"),
    (Slip::NoGlobal, "no for a global past the end"),
    (Slip::WrappedNumber, "no for a refused sheet's global"),
    (Slip::ListWord, "one bit of one word of a list"),
    (Slip::ListLength, "the length that a list answers"),
    (Slip::ListPast, "one bit of one word past the list"),
    (Slip::ListBeside, "one bit of one word beside a list's buffer"),
    (Slip::ListExact, "16 for a buffer as long as the list"),
    (Slip::ListShort, "one bit of one word of a buffer one word shorter than the list"),
    (Slip::ListEmpty, "a length announced for an empty buffer"),
    (Slip::Listed, "one bit of one of the words that are listed"),
    (Slip::ListNumber, "the number with which words are refused"),
    (Slip::ListRefusedBuffer, "one bit of one word of the buffer that refused words are lent"),
    (Slip::ListRefusedEmpty, "16 for refused words and an empty buffer"),
];

/// The refusals that a buffer or an index gives beside an accepted sheet.
const SHORT: u64 = 16;
const NO_GLOBAL: u32 = 17;
/// Wrapped's answers.
const NO: u32 = 256;
const YES: u32 = 257;
/// What a list's length is answered behind.
const LISTED: u64 = 256;
/// Words on both sides of a lent buffer, which belong to nobody.
const BESIDE: usize = 8;

/// What a call of Declare has to leave behind.
struct Due<'a> {
    answer: u64,
    /// The module's words, or none.
    words: &'a [u32],
}

/// The compiled code, with a slip planted or none, and room for its buffers.
pub struct Compiled {
    slip: Option<Slip>,
    /// Words lent out, and how they were before the call.
    room: Vec<u32>,
    before: Vec<u32>,
    /// Words to list.
    given: Vec<u32>,
    calls: u64,
}

impl Compiled {
    pub fn new(slip: Option<Slip>) -> Self {
        Compiled { slip, room: Vec::new(), before: Vec::new(), given: Vec::new(), calls: 0 }
    }

    /// How many calls were made.
    pub fn calls(&self) -> u64 {
        self.calls
    }

    fn has(&self, slip: Slip) -> bool {
        self.slip == Some(slip)
    }

    /// Fills a buffer of so many words and those beside it with a pattern; how many that are.
    fn paint(&mut self, room: usize) -> usize {
        let all = room + 2 * BESIDE;
        let seed = (self.calls as u32).wrapping_mul(0x9e37_79b9) | 1;
        let pattern = |i: usize| seed.wrapping_mul(2 * i as u32 + 1) ^ 0xa5a5_5a5a;
        while self.room.len() < all {
            self.room.push(0);
            self.before.push(0);
        }
        for i in 0..all {
            self.before[i] = pattern(i);
        }
        self.room[..all].copy_from_slice(&self.before[..all]);
        all
    }

    /// Declare, lent a buffer of so many words in the midst of others; every word
    /// is filled with a pattern before. None if all is as due.
    fn declare(&mut self, sheet: &[u8], room: usize, due: Due, slips: &[Slip]) -> Option<String> {
        let all = self.paint(room);
        self.calls += 1;
        let mut answer = calls::declare(sheet, &mut self.room[BESIDE..BESIDE + room]);
        if let Some(&slip) = slips.iter().find(|s| self.has(**s)) {
            let place = |count: usize| sheet.len() % count.max(1);
            match slip {
                Slip::Word => self.room[BESIDE + place(due.words.len())] ^= 1 << (sheet.len() % 32),
                Slip::Bound => answer = answer.wrapping_add(1 << 32),
                Slip::Count | Slip::Number => answer ^= 1,
                Slip::PastCount => {
                    let count = due.words.len();
                    self.room[BESIDE + count + place(room - count)] ^= 1 << 7;
                }
                Slip::AroundBuffer => self.room[BESIDE + room] ^= 1 << 31,
                Slip::Exact | Slip::RefusedEmpty => answer = SHORT,
                Slip::Short | Slip::RefusedBuffer => self.room[BESIDE + place(room)] ^= 1,
                Slip::Empty => answer = 1 << 32,
                _ => unreachable!("no slip of Declare's"),
            }
        }
        // Whatever is due, a module repeats no decoration.
        if answer >> 32 != 0 {
            let end = (answer as u32 as usize).min(room);
            if let Some(what) = repeat_in(&self.room[BESIDE..BESIDE + end]) {
                return Some(format!("of Declare's module, {what}"));
            }
        }
        let show = |n: u64| match n >> 32 {
            0 => format!("refused {n}"),
            bound => format!("{} words, bound {bound}", n as u32),
        };
        if answer != due.answer {
            let (due, answer) = (show(due.answer), show(answer));
            return Some(format!("lent {room} words, Declare answers {answer}, not {due}"));
        }
        let count = due.words.len();
        let (before, after) = (&self.before[..all], &self.room[..all]);
        let wrong = |what: &str| Some(format!("lent {room} words, Declare changes {what}"));
        if after[..BESIDE] != before[..BESIDE] || after[BESIDE + room..] != before[BESIDE + room..]
        {
            return wrong("a word beside the buffer");
        }
        let (after, before) = (&after[BESIDE..BESIDE + room], &before[BESIDE..BESIDE + room]);
        if after[..count] != *due.words {
            let at = after.iter().zip(due.words).take_while(|(a, b)| a == b).count();
            return Some(format!("Declare's words differ from word {at} on"));
        }
        if after[count..] != before[count..] {
            return match count {
                0 => wrong("a word of a refused buffer"),
                _ => wrong("a word past the count"),
            };
        }
        None
    }

    fn check(&mut self, sheet: &[u8], due: u32, slip: Slip) -> Option<String> {
        self.calls += 1;
        let mut answer = calls::check(sheet);
        if self.has(slip) {
            answer = if answer == 0 { 1 } else { 0 };
        }
        (answer != due).then(|| format!("Check answers {answer}, not {due}"))
    }

    fn wrapped(
        &mut self,
        sheet: &[u8],
        index: usize,
        due: u32,
        slip: Option<Slip>,
    ) -> Option<String> {
        self.calls += 1;
        let mut answer = calls::wrapped(sheet, index);
        if slip.is_some_and(|slip| self.has(slip)) {
            answer = if answer == NO { YES } else { NO };
        }
        (answer != due).then(|| format!("Wrapped of {index} answers {answer}, not {due}"))
    }

    /// A list into a buffer of so many words in the midst of others, as Declare's above: what
    /// is due, or the number of a refusal. None if all is as due, and the words as they were.
    fn list(
        &mut self,
        words: &[u32],
        room: usize,
        due: Result<&[u32], u8>,
        slips: &[Slip],
    ) -> Option<String> {
        let all = self.paint(room);
        self.given.clear();
        self.given.extend(words);
        self.calls += 1;
        let mut answer = calls::list(&self.given, &mut self.room[BESIDE..BESIDE + room]);
        let (list, due) = match due {
            Ok(list) => (list, LISTED + list.len() as u64),
            Err(number) => (&[][..], number as u64),
        };
        let length = list.len();
        if let Some(&slip) = slips.iter().find(|s| self.has(**s)) {
            let place = |count: usize| words.len() % count.max(1);
            match slip {
                Slip::ListWord => self.room[BESIDE + place(length)] ^= 1 << (words.len() % 32),
                Slip::ListLength | Slip::ListNumber => answer ^= 1,
                Slip::ListPast => self.room[BESIDE + length + place(room - length)] ^= 1 << 7,
                Slip::ListBeside => self.room[BESIDE + room] ^= 1 << 31,
                Slip::ListExact | Slip::ListRefusedEmpty => answer = SHORT,
                Slip::ListShort | Slip::ListRefusedBuffer => self.room[BESIDE + place(room)] ^= 1,
                Slip::ListEmpty => answer = LISTED,
                Slip::Listed => self.given[words.len() / 2] ^= 1 << 5,
                _ => unreachable!("no slip of a list's"),
            }
        }
        if answer != due {
            return Some(format!("lent {room} words, the list answers {answer}, not {due}"));
        }
        if self.given != words {
            return Some(String::from("the words that are listed are changed"));
        }
        let (before, after) = (&self.before[..all], &self.room[..all]);
        let end = BESIDE + length;
        if after[BESIDE..end] != *list {
            let at = after[BESIDE..].iter().zip(list).take_while(|(a, b)| a == b).count();
            return Some(format!("the list differs from word {at} on"));
        }
        let kept = after[..BESIDE] == before[..BESIDE] && after[end..] == before[end..];
        (!kept).then(|| format!("lent {room} words, a word that is not the list's is changed"))
    }

    /// How a list differs from what is due, if it does: lent a buffer that is longer, just
    /// long enough, one short, and empty.
    pub fn listed(&mut self, words: &[u32], list: &[u32]) -> Option<String> {
        let length = list.len();
        use Slip::*;
        let longer = [ListWord, ListLength, ListPast, ListBeside, Listed];
        self.list(words, length + 16, Ok(list), &longer)
            .or_else(|| self.list(words, length, Ok(list), &[ListExact]))
            .or_else(|| self.list(words, length - 1, Err(SHORT as u8), &[ListShort]))
            .or_else(|| self.list(words, 0, Err(SHORT as u8), &[ListEmpty]))
    }

    /// The same of words that are refused: the buffers are twice as long as the words, and
    /// empty.
    pub fn unlisted(&mut self, words: &[u32], number: u8) -> Option<String> {
        use Slip::*;
        let room = 2 * words.len() + 8;
        self.list(words, room, Err(number), &[ListRefusedBuffer, ListNumber])
            .or_else(|| self.list(words, 0, Err(number), &[ListRefusedEmpty]))
    }

    /// How the answers to an accepted sheet differ, if they do: lent a buffer that
    /// is longer by many words, just long enough, one short, one long, and empty.
    pub fn accepted(&mut self, sheet: &[u8], words: &[u32], wrapped: &[bool]) -> Option<String> {
        let count = words.len();
        let written = || Due { answer: (words[3] as u64) << 32 | count as u64, words };
        let refused = || Due { answer: SHORT, words: &[] };
        use Slip::*;
        let longer = [Word, Bound, Count, PastCount, AroundBuffer];
        self.check(sheet, 0, Checked)
            .or_else(|| self.declare(sheet, count + 64, written(), &longer))
            .or_else(|| self.declare(sheet, count, written(), &[Exact]))
            .or_else(|| self.declare(sheet, count - 1, refused(), &[Short]))
            .or_else(|| self.declare(sheet, count + 1, written(), &[]))
            .or_else(|| self.declare(sheet, 0, refused(), &[Empty]))
            .or_else(|| {
                let last = wrapped.len().wrapping_sub(1);
                wrapped.iter().enumerate().find_map(|(index, &yes)| {
                    let slip = (index == last).then_some(Wrapped);
                    self.wrapped(sheet, index, if yes { YES } else { NO }, slip)
                })
            })
            .or_else(|| self.wrapped(sheet, wrapped.len(), NO_GLOBAL, Some(NoGlobal)))
            .or_else(|| self.wrapped(sheet, usize::MAX, NO_GLOBAL, None))
    }

    /// The same of a sheet that is refused with a number: the buffers are as long
    /// as the program's, one word, and empty.
    pub fn refused(&mut self, sheet: &[u8], number: u8) -> Option<String> {
        let due = || Due { answer: number as u64, words: &[] };
        use Slip::*;
        self.check(sheet, number as u32, CheckedNumber)
            .or_else(|| self.declare(sheet, lines::LENT, due(), &[RefusedBuffer, Number]))
            .or_else(|| self.declare(sheet, 1, due(), &[]))
            .or_else(|| self.declare(sheet, 0, due(), &[RefusedEmpty]))
            .or_else(|| self.wrapped(sheet, 0, number as u32, Some(WrappedNumber)))
            .or_else(|| self.wrapped(sheet, usize::MAX, number as u32, None))
    }
}

/// The compiled code's answer to a line.
pub fn answer(sheet: &[u8], question: Question) -> String {
    match question {
        Question::Declare { room } => {
            let mut words = vec![0; room];
            let answer = calls::declare(sheet, &mut words);
            match answer >> 32 {
                0 => format!("refused {answer}"),
                bound => {
                    words.truncate(answer as u32 as usize);
                    match words.get(3) {
                        Some(&word) if word as u64 == bound => lines::show_words(&words),
                        _ => format!("bound {bound} of {}", lines::show_words(&words)),
                    }
                }
            }
        }
        Question::Wrapped { index } => match calls::wrapped(sheet, index) {
            NO => lines::show_wrapped(false),
            YES => lines::show_wrapped(true),
            number => format!("refused {number}"),
        },
        Question::List { room } => {
            let words = lines::words_of(sheet);
            let mut list = vec![lines::UNLISTED; lines::room_to_list(&words, room)];
            let answer = calls::list(&words, &mut list);
            let length = answer.checked_sub(LISTED).unwrap_or(0) as usize;
            let kept = list
                .get(length..)
                .is_some_and(|rest| rest.iter().all(|&word| word == lines::UNLISTED));
            match answer {
                _ if !kept => format!("{answer}, and a word past the list is changed"),
                LISTED.. => lines::show_words(&list[..length]),
                _ => format!("refused {answer}"),
            }
        }
    }
}
