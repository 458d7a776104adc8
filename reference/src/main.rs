//! Reads one practice file from standard input and writes its report; with
//! the word `week`, a binder of them and its report; with the word `button`, a
//! practice file and what the button plays after it; with the word `spacing`
//! and a spacing, a practice file and the gaps after it; with the word
//! `author`, legs and requests and their practice file; with the words
//! `classroom list`, a practice file and the list of the classroom dialect after
//! it, and with `classroom field` legs, a speed and such a list, and the field;
//! with the word `desks`, legs and calls by two desks and their answers.

use std::io::{self, Read, Write};
use std::{env, process};

type Report = Box<dyn Fn(&[u8]) -> Vec<u8>>;

fn main() -> io::Result<()> {
    let words: Vec<String> = env::args().skip(1).collect();
    let words: Vec<&str> = words.iter().map(String::as_str).collect();
    let (longest, report): (usize, Report) = match words[..] {
        [] => (reference::file::LONGEST, Box::new(reference::report)),
        ["week"] => (reference::binder::LONGEST, Box::new(reference::week)),
        ["button"] => (reference::file::LONGEST, Box::new(reference::button)),
        ["author"] => (reference::writer::LONGEST_INPUT, Box::new(reference::author)),
        ["desks"] => (reference::calls::LONGEST_INPUT, Box::new(reference::calls)),
        ["classroom", "list"] => (reference::file::LONGEST, Box::new(reference::classroom_list)),
        ["classroom", "field"] => (reference::classroom::LONGEST_INPUT, Box::new(reference::classroom_field)),
        ["spacing", word] => {
            // What is no number, or wider than any, is refused as 0 is.
            let spacing = word.parse().unwrap_or(0);
            (reference::file::LONGEST, Box::new(move |file| reference::spacing(file, spacing)))
        }
        _ => {
            eprintln!("usage: reference [button | spacing SPACING | classroom list] < FILE, reference week < BINDER, reference author < LEGS-AND-REQUESTS, reference desks < LEGS-AND-CALLS, or reference classroom field < LEGS-SPEED-AND-LIST");
            process::exit(2);
        }
    };
    // One byte more than the longest is enough to refuse a longer one.
    let mut input = Vec::new();
    io::stdin().lock().take(longest as u64 + 1).read_to_end(&mut input)?;
    io::stdout().lock().write_all(&report(&input))
}
