//! Lines `SHEET | ANSWER`: the sheet in hexadecimal, the answer as the program
//! prints it, joined by spaces. After the sheet may stand `buffer=N` (Declare
//! lent N words instead of 16,384) or `wrapped=K` (Wrapped of global K). Where
//! `list` stands there, words stand in the sheet's place, and the answer is their
//! list; with `buffer=N` it is lent N words instead of twice as many as those.
//! A line that begins with # is a comment.

use crate::faults::Fault;
use crate::reference;
use crate::second;
use crate::sheet::MAX_BOUND;

/// What the program lends Declare.
pub const LENT: usize = 16_384;

/// `List` is of the words that the bytes are, highest byte first.
#[derive(Clone, Copy, Debug, PartialEq, Eq)]
pub enum Question {
    Declare { room: usize },
    Wrapped { index: usize },
    List { room: Option<usize> },
}

pub const DECLARE: Question = Question::Declare { room: LENT };

pub struct Line {
    pub sheet: Vec<u8>,
    pub question: Question,
    pub answer: String,
}

impl Line {
    /// What stands before the `|`.
    pub fn asks(&self) -> String {
        let sheet = hex(&self.sheet);
        match self.question {
            DECLARE => sheet,
            Question::Declare { room } => format!("{sheet} buffer={room}"),
            Question::Wrapped { index } => format!("{sheet} wrapped={index}"),
            Question::List { room } => asks_to_list(&words_of(&self.sheet), room),
        }
    }

    /// The refusal that the answer names, if it is one.
    pub fn refused(&self) -> Option<u8> {
        self.answer.strip_prefix("refused ")?.parse().ok()
    }

    /// Whether the answer says that the sheet lies in the comparison's domain.
    pub fn in_domain(&self) -> bool {
        if matches!(self.question, Question::List { .. }) {
            return false;
        }
        match self.refused() {
            None => true,
            Some(number) => number == 14 && start_of(&self.sheet) < MAX_BOUND,
        }
    }
}

/// What stands before the `|` of a list.
pub fn asks_to_list(words: &[u32], room: Option<usize>) -> String {
    let mut asks: Vec<String> = words.iter().map(|w| format!("{w:08x}")).collect();
    asks.push(String::from("list"));
    asks.extend(room.map(|room| format!("buffer={room}")));
    asks.join(" ")
}

/// The words of a list's line.
pub fn words_of(bytes: &[u8]) -> Vec<u32> {
    let word = |four: &[u8]| u32::from_be_bytes(four.try_into().expect("4 bytes"));
    bytes.chunks_exact(4).map(word).collect()
}

/// The words that a list is lent where the line does not say: no list is longer.
pub fn room_to_list(words: &[u32], room: Option<usize>) -> usize {
    room.unwrap_or(2 * words.len())
}

/// The sheet's start; 0 where it has no header.
pub fn start_of(sheet: &[u8]) -> u64 {
    sheet.get(1..5).map_or(0, |s| u32::from_be_bytes(s.try_into().expect("4 bytes")) as u64)
}

pub fn hex(bytes: &[u8]) -> String {
    bytes.iter().map(|b| format!("{b:02x}")).collect()
}

fn from_hex(text: &str) -> Option<Vec<u8>> {
    let digits: Vec<u8> =
        text.chars().map(|c| c.to_digit(16).map(|d| d as u8)).collect::<Option<_>>()?;
    (digits.len() % 2 == 0).then(|| digits.chunks(2).map(|d| d[0] * 16 + d[1]).collect())
}

/// A line's parts; none for a comment or an empty line. The answer is empty
/// where there is no `|`.
pub fn parse(line: &str) -> Option<Result<Line, String>> {
    if line.starts_with('#') || line.trim().is_empty() {
        return None;
    }
    let (left, answer) = line.split_once('|').unwrap_or((line, ""));
    let mut sheet = Vec::new();
    let mut question = DECLARE;
    let (mut lent, mut list) = (None, false);
    for word in left.split_whitespace() {
        let number = |text: &str| text.parse().ok();
        let parsed = if let Some(n) = word.strip_prefix("buffer=") {
            number(n).map(|room| lent = Some(room))
        } else if let Some(k) = word.strip_prefix("wrapped=") {
            number(k).map(|index| question = Question::Wrapped { index })
        } else if word == "list" {
            list = true;
            Some(())
        } else {
            from_hex(word).map(|bytes| sheet.extend(bytes))
        };
        if parsed.is_none() {
            return Some(Err(format!("cannot read '{word}' in: {line}")));
        }
    }
    if list {
        if sheet.len() % 4 != 0 {
            return Some(Err(format!("these are no whole words: {line}")));
        }
        question = Question::List { room: lent };
    } else if let Some(room) = lent {
        question = Question::Declare { room };
    }
    Some(Ok(Line { sheet, question, answer: answer.trim().to_string() }))
}

pub fn show_words(words: &[u32]) -> String {
    words.iter().map(|w| format!("{w:08x}")).collect::<Vec<_>>().join(" ")
}

/// The words of an answer that is some.
pub fn module_of(answer: &str) -> Option<Vec<u32>> {
    answer.split(' ').map(|word| u32::from_str_radix(word, 16).ok()).collect()
}

pub fn show_wrapped(wrapped: bool) -> String {
    if wrapped { "yes" } else { "no" }.to_string()
}

pub fn refused(number: u8) -> String {
    format!("refused {number}")
}

/// The second reading's answer.
pub fn second_answer(sheet: &[u8], question: Question, fault: Option<Fault>) -> String {
    let answer = match question {
        Question::Declare { room } => second::declare(sheet, room, fault).map(|w| show_words(&w)),
        Question::Wrapped { index } => second::wrapped(sheet, index, fault).map(show_wrapped),
        Question::List { room } => {
            let words = words_of(sheet);
            let list = second_list(&words, room_to_list(&words, room), fault);
            return list.map_or_else(|why| why, |list| show_words(&list));
        }
    };
    answer.unwrap_or_else(|r| refused(r.number))
}

/// What a list's buffer holds before.
pub const UNLISTED: u32 = 0xa5a5_5a5a;

/// The second reading's list, or why there is none. It has to leave the rest of the buffer
/// alone, and joined again it has to be the words: where one is not so, that is why.
pub fn second_list(words: &[u32], room: usize, fault: Option<Fault>) -> Result<Vec<u32>, String> {
    let mut buffer = vec![UNLISTED; room];
    let answer = second::list(words, &mut buffer, fault);
    let length = answer.unwrap_or(0);
    if length > room || buffer[length..].iter().any(|&word| word != UNLISTED) {
        return Err(format!("{answer:?}, and of {room} words one past that is changed"));
    }
    answer.map_err(refused)?;
    buffer.truncate(length);
    match second::join(&buffer, fault) == words {
        true => Ok(buffer),
        false => Err(format!("joined again, this is something else: {}", show_words(&buffer))),
    }
}

/// The reference's answer to a sheet of the comparison's domain, its repeats of Block dropped
/// (paper 5). That a buffer is too short or a global does not exist is no affair of the
/// Rust's. On a sheet outside the domain it may panic, which is an answer too: a wrong one.
/// So is a repeat of anything else.
pub fn reference_answer(sheet: &[u8], question: Question) -> String {
    let answer = std::panic::catch_unwind(|| reference::run_without_repeats(sheet));
    let Ok((answer, dropped)) = answer else { return String::from("panics") };
    if let Some(other) = dropped.iter().find(|instruction| !reference::is_block(instruction)) {
        return format!("repeats {}", show_words(other));
    }
    match (answer, question) {
        (reference::Answer::Missing(_), _) => refused(14),
        (reference::Answer::Module(words, _), Question::Declare { .. }) => show_words(&words),
        (reference::Answer::Module(_, wrapped), Question::Wrapped { index }) => {
            wrapped.get(index).map_or(String::from("no such global"), |w| show_wrapped(*w))
        }
        (reference::Answer::Module(..), Question::List { .. }) => {
            String::from("the Rust has no list")
        }
    }
}
