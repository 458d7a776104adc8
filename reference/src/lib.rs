//! The SATS landing field, read from documents 01 and 02 and played in plain
//! Rust.
//!
//! [`report`] is the whole of the program `play`: the bytes of a practice file
//! in, the bytes of its report out. [`week`] does the same for a binder of
//! practice files, [`button()`] for a practice file after which one button
//! empties the field, and [`spacing()`] for the spacing after a practice file.
//! [`author`] is the other way round: legs and requests in, the bytes of a
//! practice file out. [`classroom_list`] gives the list of the classroom dialect
//! after a practice file, [`classroom_field`] the field of such a list, and
//! [`calls()`] the answers to calls by two desks. Beneath them: [`file`] reads a practice file, [`binder`]
//! a binder, [`request`] holds requests and the input rules, [`field`] the
//! zones, the sequence, the bounds and the twelve kinds of request,
//! [`mod@button`] what a press proposes, [`mod@spacing`] the gaps along the
//! path, [`index`] a field with an index beside it, [`writer`] writes a
//! practice file, [`classroom`] converts a field to a list and back,
//! [`history`] keeps the last fields and takes requests back, [`mod@calls`] reads
//! calls by two desks, [`desks`] renames what is the other desk's, [`host`] has
//! the calls of a host program, [`parts`] the numbers that it hands over, and
//! [`mod@state`] the bytes that it lends.

pub mod binder;
pub mod button;
pub mod calls;
pub mod classroom;
pub mod desks;
pub mod explore;
pub mod field;
pub mod file;
pub mod history;
pub mod host;
pub mod index;
pub mod parts;
pub mod refusal;
pub mod request;
pub mod spacing;
pub mod state;
pub mod writer;

pub use binder::Week;
pub use button::Ending;
pub use classroom::Listed;
pub use desks::{Asked, Renaming};
pub use field::{Aircraft, Answer, Field, Legs, Progress, Side, Zone};
pub use file::PracticeFile;
pub use history::History;
pub use index::{Index, Indexed};
pub use parts::Parts;
pub use refusal::{BackRefusal, BinderRefusal, ClassroomRefusal, FileRefusal, Refusal, WriteRefusal};
pub use request::{Call, Request};
pub use spacing::{Gap, Pair};

use std::io::Write;

/// The closing counts of a report.
#[derive(Clone, Copy, Debug, Default, PartialEq, Eq)]
pub struct Counts {
    pub entries: usize,
    pub taxis: usize,
    pub exits: usize,
    pub misses: usize,
}

impl Counts {
    /// Counts one accepted request.
    pub fn accepted(&mut self, request: &Request) {
        match request.kind {
            1 | 2 => self.entries += 1,
            8 => self.taxis += 1,
            9 => self.exits += 1,
            10 => self.misses += 1,
            _ => {}
        }
    }
}

/// The whole output of `play` for the bytes of one practice file.
pub fn report(file: &[u8]) -> Vec<u8> {
    report_by(file, Field::step)
}

/// The same, with no bound checked: from an empty field none is ever broken.
pub fn report_unjudged(file: &[u8]) -> Vec<u8> {
    report_by(file, Field::step_unjudged)
}

/// The whole report of a binder.
pub fn week(binder: &[u8]) -> Vec<u8> {
    let mut out = Vec::new();
    match Week::of(binder) {
        Ok(week) => week.write(&mut out),
        Err(refusal) => {
            line(&mut out, format_args!("binder {}", refusal.number()));
        }
    }
    out
}

/// The whole output of `button` for the bytes of one practice file.
pub fn button(file: &[u8]) -> Vec<u8> {
    if_read(file, |practice, out| hold_down(played(practice, Field::step, |_, _, _| ()), out))
}

/// The whole output of `spacing` for a spacing in 64ths of a mile, as wide as it comes, and the bytes of one practice file.
pub fn spacing(file: &[u8], spacing: usize) -> Vec<u8> {
    match spacing::check(spacing) {
        Ok(spacing) => if_read(file, |practice, out| {
            let field = played(practice, Field::step, |_, _, _| ());
            // From an empty field no bound is ever broken.
            let pairs = spacing::pairs(&field, spacing).expect("within the bounds");
            pairs.iter().for_each(|pair| line(out, format_args!("{pair}")));
        }),
        Err(refusal) => format!("spacing {}\n", refusal.number()).into_bytes(),
    }
}

/// The whole output of `author` for four legs and requests: a practice file, or one line where they are refused.
pub fn author(input: &[u8]) -> Vec<u8> {
    writer::from_bytes(input).unwrap_or_else(|refusal| format!("refused {}\n", refusal.number()).into_bytes())
}

/// The whole output of `desks` for four legs and calls by two desks: a line for each call, indexed from 0, and at the end how many are
/// present and how many fields are kept; or one line where they are refused.
pub fn calls(input: &[u8]) -> Vec<u8> {
    let mut out = Vec::new();
    match calls::from_bytes(input) {
        Ok((legs, calls)) => {
            let mut history = History::empty(legs);
            for (index, &call) in calls.iter().enumerate() {
                let (number, answer) = desks::reply_kept(&mut history, call);
                line(&mut out, format_args!("{index} {number} {answer}"));
            }
            line(&mut out, format_args!("end {} {}", history.field.field.present(), history.count));
        }
        Err(refusal) => line(&mut out, format_args!("refused {}", refusal.number())),
    }
    out
}

/// The whole output of `classroom list` for the bytes of one practice file.
pub fn classroom_list(file: &[u8]) -> Vec<u8> {
    if_read(file, |practice, out| {
        let field = played(practice, Field::step, |_, _, _| ());
        write_list(&Indexed::new(field), out);
    })
}

/// The whole output of `classroom field` for legs, a speed and a list.
pub fn classroom_field(input: &[u8]) -> Vec<u8> {
    let mut out = Vec::new();
    match classroom::from_bytes(input) {
        Ok(built) => {
            line(&mut out, format_args!("next {}", built.field.next_fix.number()));
            write_list(&built, &mut out);
        }
        Err(refusal) => line(&mut out, format_args!("refused {}", refusal.number())),
    }
    out
}

/// A line for each of a field's list, or one where it has none.
fn write_list(field: &Indexed, out: &mut Vec<u8>) {
    match classroom::list(field) {
        Ok(list) => list.iter().for_each(|listed| line(out, format_args!("{listed}"))),
        Err(refusal) => line(out, format_args!("refused {}", refusal.number())),
    }
}

fn report_by(file: &[u8], step: impl Fn(&mut Field, &Request) -> Result<Answer, Refusal>) -> Vec<u8> {
    if_read(file, |practice, out| play(practice, step, out))
}

/// What is written for a file that plays; one line for a file that is refused.
fn if_read(file: &[u8], write: impl FnOnce(&PracticeFile, &mut Vec<u8>)) -> Vec<u8> {
    let mut out = Vec::new();
    match PracticeFile::read(file) {
        Ok(practice) => write(&practice, &mut out),
        Err(refusal) => {
            line(&mut out, format_args!("file {}", refusal.number()));
        }
    }
    out
}

/// Holds the button down: a line for each press that played a move, and one for the ending.
fn hold_down(mut field: Field, out: &mut Vec<u8>) {
    let held = button::hold_down(&mut field, button::MOST_PRESSES, |press, request, answer| {
        if request != button::TICK {
            line(out, format_args!("{press} {} {answer}", request.kind));
        }
    });
    match held {
        Ok((played, Ending::None)) => line(out, format_args!("none {played}")),
        Ok((played, Ending::Spent)) => line(out, format_args!("spent {played}")),
        // From an empty field no bound is ever broken.
        Err(refusal) => panic!("refused {}", refusal.number()),
    }
}

fn play(
    practice: &PracticeFile,
    step: impl Fn(&mut Field, &Request) -> Result<Answer, Refusal>,
    out: &mut Vec<u8>,
) {
    let mut counts = Counts::default();
    let mut index = 0;
    let field = played(practice, step, |request, number, answer| {
        if number == 0 {
            counts.accepted(request);
        }
        index += 1;
        line(out, format_args!("{index} {number} {answer}"));
    });
    line(
        out,
        format_args!(
            "end {} {} {} {} {}",
            counts.entries,
            counts.taxis,
            counts.exits,
            counts.misses,
            field.present()
        ),
    );
}

/// Plays every request from an empty field, and hands it on with its number
/// and its answer. Yields the field after the last.
fn played(
    practice: &PracticeFile,
    step: impl Fn(&mut Field, &Request) -> Result<Answer, Refusal>,
    mut each: impl FnMut(&Request, u8, Answer),
) -> Field {
    let mut field = Field::empty(practice.legs());
    for request in &practice.requests {
        match step(&mut field, request) {
            Ok(answer) => each(request, 0, answer),
            Err(refusal) => each(request, refusal.number(), Answer::ZEROS),
        }
    }
    field
}

fn line(out: &mut Vec<u8>, text: std::fmt::Arguments) {
    // Writing to a Vec does not fail.
    writeln!(out, "{text}").expect("write to memory");
}
