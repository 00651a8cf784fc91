//! Lines `SHEET | ANSWER`, as tests/README.md describes them.

/// What the program lends Declare.
const LENT: usize = 16_384;

/// `List` is of the words that the bytes are, highest byte first; into twice as many words
/// where the line does not say.
#[derive(Clone, Copy)]
pub enum Asks {
    Declare { room: usize },
    Wrapped { index: usize },
    List { room: Option<usize> },
}

pub enum Answer {
    Words(Vec<u32>),
    Wrapped(bool),
    Refused(u32),
}

pub struct Line {
    pub file: String,
    /// The line's number in the file.
    pub number: usize,
    pub sheet: Vec<u8>,
    pub asks: Asks,
    pub answer: Answer,
}

impl Line {
    /// The words that are to be listed.
    pub fn words(&self) -> Vec<u32> {
        let word = |four: &[u8]| u32::from_be_bytes(four.try_into().expect("4 bytes"));
        self.sheet.chunks_exact(4).map(word).collect()
    }
}

fn bytes_of(digits: &str) -> Option<Vec<u8>> {
    let byte = |i: usize| u8::from_str_radix(digits.get(i..i + 2)?, 16).ok();
    (0..digits.len()).step_by(2).map(byte).collect()
}

fn answer_of(text: &str, asks: Asks) -> Option<Answer> {
    if let Some(number) = text.strip_prefix("refused ") {
        let number = number.parse().ok()?;
        let known = match asks {
            Asks::List { .. } => number == 16 || (18..=20).contains(&number),
            _ => (1..=17).contains(&number),
        };
        return known.then_some(Answer::Refused(number));
    }
    match (asks, text) {
        (Asks::Wrapped { .. }, "yes") => Some(Answer::Wrapped(true)),
        (Asks::Wrapped { .. }, "no") => Some(Answer::Wrapped(false)),
        (Asks::Wrapped { .. }, _) => None,
        (Asks::Declare { .. } | Asks::List { .. }, _) => {
            let word = |w: &str| (w.len() == 8).then(|| u32::from_str_radix(w, 16).ok()).flatten();
            let words: Vec<u32> = text.split_whitespace().map(word).collect::<Option<_>>()?;
            // a module and a list have a header of five words
            (words.len() >= 5).then_some(Answer::Words(words))
        }
    }
}

fn line_of(text: &str, file: &str, number: usize) -> Option<Line> {
    let (left, answer) = text.split_once('|')?;
    let mut digits = String::new();
    let mut asks = Asks::Declare { room: LENT };
    let (mut lent, mut list) = (None, false);
    for word in left.split_whitespace() {
        match word.split_once('=') {
            None if word == "list" => list = true,
            None => digits.push_str(word),
            Some(("buffer", n)) => lent = Some(n.parse().ok()?),
            Some(("wrapped", k)) => asks = Asks::Wrapped { index: k.parse().ok()? },
            Some(_) => return None,
        }
    }
    match lent {
        _ if list && digits.len() % 8 != 0 => return None,
        room if list => asks = Asks::List { room },
        Some(room) => asks = Asks::Declare { room },
        None => {}
    }
    let answer = answer_of(answer.trim(), asks)?;
    Some(Line { file: file.to_string(), number, sheet: bytes_of(&digits)?, asks, answer })
}

/// The lines of a file, of which there must be some.
pub fn read(path: &str) -> Result<Vec<Line>, String> {
    let text = std::fs::read_to_string(path).map_err(|e| format!("{path}: {e}"))?;
    let mut lines = Vec::new();
    for (index, text) in text.lines().enumerate() {
        if text.trim().is_empty() || text.starts_with('#') {
            continue;
        }
        let number = index + 1;
        let line = line_of(text, path, number);
        lines.push(line.ok_or_else(|| format!("{path}:{number}: this is no line SHEET | ANSWER"))?);
    }
    if lines.is_empty() {
        return Err(format!("{path}: no line SHEET | ANSWER"));
    }
    Ok(lines)
}
