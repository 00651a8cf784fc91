//! Says what the published Rust does with sheets that Check refuses, for section 4 of docs/DIFFERENCES.md: it writes
//! words, errs, or panics, and where. Lines of standard input are sheets in hexadecimal.

#[path = "../reference/driver/reference.rs"]
#[allow(dead_code)]
mod reference;
#[path = "../reference/driver/sheet.rs"]
#[allow(dead_code)]
mod sheet;

use std::cell::RefCell;
use std::io::BufRead;
use std::panic::PanicHookInfo;

thread_local!(static PANIC: RefCell<String> = RefCell::default());

/// More words than this are counted and not printed.
const SHOWN: usize = 60;

fn main() {
    std::panic::set_hook(Box::new(|info| PANIC.set(place(info))));
    for line in std::io::stdin().lock().lines() {
        println!("{}", done(&bytes(&line.expect("a line of text"))));
    }
}

/// Where a panic is, below naga's own folder, and what it says.
fn place(info: &PanicHookInfo) -> String {
    let payload = info.payload();
    let text = payload.downcast_ref::<&str>().copied();
    let text = text.or(payload.downcast_ref::<String>().map(String::as_str)).unwrap_or("");
    let location = info.location().expect("a panic has a place");
    let file = location.file().rsplit("/naga/").next().unwrap_or("");
    format!("{file}:{}: {text}", location.line())
}

fn bytes(digits: &str) -> Vec<u8> {
    let digits: Vec<u8> = digits.bytes().filter(|b| *b != b' ').collect();
    let byte = |pair: &[u8]| u8::from_str_radix(std::str::from_utf8(pair).unwrap(), 16).unwrap();
    digits.chunks(2).map(byte).collect()
}

fn done(sheet: &[u8]) -> String {
    match std::panic::catch_unwind(|| reference::run_whole(sheet)) {
        Ok(Ok(words)) if words.len() > SHOWN => format!("writes {} words", words.len()),
        Ok(Ok(words)) => {
            let words: Vec<String> = words.iter().map(|word| format!("{word:08x}")).collect();
            format!("writes {}", words.join(" "))
        }
        Ok(Err(error)) => format!("errs: {error:?}"),
        Err(_) => format!("panics: {}", PANIC.take()),
    }
}
