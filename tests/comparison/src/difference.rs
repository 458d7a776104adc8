//! Where the two programs differ, as readable sessions.

use crate::lessons::Lesson;
use crate::library::{
    spacing_into, write_into, Library, ShortBuffer, BUTTON, DESKS, FIELD, LIST, MARGIN, PLAYERS, WEEK,
};
use reference::calls::CALL;
use reference::file::LEGS_LENGTH;
use reference::{binder, writer, PracticeFile, Request};

/// The report that both programs give of a file, the library judging the fields or not, or how they differ.
pub fn same_report(library: &mut Library, file: &[u8]) -> Result<Vec<u8>, String> {
    same(library, &PLAYERS, file, reference::report(file))
}

/// The report that both give of a binder, or how they differ.
pub fn same_week(library: &mut Library, binder: &[u8]) -> Result<Vec<u8>, String> {
    same(library, &WEEK, binder, reference::week(binder))
}

/// What both print of a file when the button is held down after it, or how they differ.
pub fn same_button(library: &mut Library, file: &[u8]) -> Result<Vec<u8>, String> {
    same(library, &BUTTON, file, reference::button(file))
}

/// What both print of the spacing after a file, or how they differ.
pub fn same_spacing(library: &mut Library, file: &[u8], spacing: usize) -> Result<Vec<u8>, String> {
    let player = |file: &[u8], out: &mut ShortBuffer| spacing_into(file, spacing, out);
    same(library, &[("the library", player)], file, reference::spacing(file, spacing))
}

/// The list of the classroom dialect that both print after a file, or how they differ.
pub fn same_list(library: &mut Library, file: &[u8]) -> Result<Vec<u8>, String> {
    same(library, &LIST, file, reference::classroom_list(file))
}

/// What both print of the field of legs, a speed and a list, or how they differ.
pub fn same_field(library: &mut Library, input: &[u8]) -> Result<Vec<u8>, String> {
    same(library, &FIELD, input, reference::classroom_field(input))
}

/// What both print of legs and calls by two desks, or how they differ.
pub fn same_desks(library: &mut Library, input: &[u8]) -> Result<Vec<u8>, String> {
    same(library, &DESKS, input, reference::calls(input))
}

/// The number that both give of a writing, or how they differ: in the number, in the length, in a byte of the buffer, or beside
/// it. A file that is written is read as its legs and requests, and both play it to the same report.
pub fn same_writing(library: &mut Library, lesson: &Lesson) -> Result<u16, String> {
    let Lesson { legs_64ths, requests, room } = lesson;
    // Neighbours differ, so that a byte that is moved is seen.
    let lent: Vec<u8> = (0..MARGIN + room + MARGIN).map(|at| (at * 37 + at / 251) as u8).collect();
    let (mut wanted, mut got) = (lent.clone(), lent);
    let outcome = writer::write(*legs_64ths, requests, &mut wanted[MARGIN..MARGIN + room]);
    let expected = outcome.map_or_else(|refusal| (refusal.number().into(), 0), |length| (0, length));
    let answered = write_into(*legs_64ths, requests, &mut got[MARGIN..MARGIN + room]);
    if answered != expected {
        return Err(format!(
            "the reference answers number and length {expected:?}, the library {answered:?}"
        ));
    }
    if let Some(at) = (0..wanted.len()).find(|&at| wanted[at] != got[at]) {
        let (place, wanted, got) = (at as isize - MARGIN as isize, wanted[at], got[at]);
        return Err(format!("byte {place} of the buffer is {wanted} by the reference, {got} by the library"));
    }
    if let (0, length) = answered {
        let file = &got[MARGIN..MARGIN + length];
        let list = requests.chunks(6).map(|bytes| Request::from_bytes(bytes.try_into().expect("six bytes")));
        let legs_64ths = legs_64ths.map(|leg| u16::try_from(leg).expect("a leg that is allowed"));
        let expected = PracticeFile { legs_64ths, requests: list.collect() };
        if PracticeFile::read(file) != Ok(expected) {
            return Err(String::from("the file is read as something else"));
        }
        same_report(library, file)?;
    }
    Ok(answered.0)
}

/// What the reference gives of an input, where each of these programs gives the same bytes, or how one differs.
pub fn same<const N: usize>(
    library: &mut Library,
    players: &[(&str, impl Fn(&[u8], &mut [u8; N]) -> usize)],
    input: &[u8],
    expected: Vec<u8>,
) -> Result<Vec<u8>, String> {
    for (name, play) in players {
        match library.report(play, input) {
            Ok(report) if report == expected => {}
            Ok(report) => return Err(first_line(&expected, name, report)),
            Err(fault) => return Err(format!("{name} {fault}")),
        }
    }
    Ok(expected)
}

/// The first line in which two reports differ.
fn first_line(expected: &[u8], name: &str, report: &[u8]) -> String {
    let mut lines = report.split(|&byte| byte == b'\n');
    for wanted in expected.split(|&byte| byte == b'\n') {
        let got = lines.next().unwrap_or_default();
        if wanted != got {
            let text = |line: &[u8]| String::from_utf8_lossy(line).into_owned();
            return format!("the reference says `{}`, {name} `{}`", text(wanted), text(got));
        }
    }
    format!("{name}'s report goes on after the reference's")
}

/// How the two differ on a file, by a way to compare them, and its readable session without the requests that do not
/// matter. A file that cannot be read as one is given in hexadecimal.
pub fn readable(
    library: &mut Library,
    same: impl Fn(&mut Library, &[u8]) -> Result<Vec<u8>, String>,
    file: &[u8],
) -> String {
    let file = shortened(file.to_vec(), |file| same(library, file).is_err());
    let how = same(library, &file).err().unwrap_or_default();
    format!("{how}\n{}", text(&file))
}

/// How the two differ on a binder, and its files without those and the requests that do not matter.
/// A binder that is refused is given in hexadecimal.
pub fn readable_binder(library: &mut Library, binder: &[u8]) -> String {
    let Ok(files) = binder::files(binder) else {
        let how = same_week(library, binder).err().unwrap_or_default();
        return format!("{how}\n{}", hexadecimal(binder));
    };
    let mut differs =
        |files: &[Vec<u8>]| !files.is_empty() && same_week(library, &binder::to_bytes(files)).is_err();
    let mut files = fewer(files.into_iter().map(<[u8]>::to_vec).collect(), &mut differs);
    for place in 0..files.len() {
        let mut others = files.clone();
        files[place] = shortened(files[place].clone(), |file| {
            others[place] = file.to_vec();
            differs(&others)
        });
    }
    let how = same_week(library, &binder::to_bytes(&files)).err().unwrap_or_default();
    let texts: Vec<String> = files.iter().map(|file| text(file)).collect();
    format!("{how}\n{}", texts.join("# the next file\n"))
}

/// How the two differ on a writing, and what it is of, without the requests that do not matter.
pub fn readable_lesson(library: &mut Library, lesson: &Lesson) -> String {
    let with = |list: &[&[u8]]| Lesson { requests: list.concat(), ..lesson.clone() };
    let all: Vec<&[u8]> = lesson.requests.chunks(6).collect();
    let lesson = with(&fewer(all, |list| same_writing(library, &with(list)).is_err()));
    let how = same_writing(library, &lesson).err().unwrap_or_default();
    let Lesson { legs_64ths, requests, room } = lesson;
    format!("{how}\n# legs {legs_64ths:?}, a buffer of {room} bytes, requests:\n{}", hexadecimal(&requests))
}

/// How the two differ on legs, a speed and a list, and those as bytes.
pub fn readable_field(library: &mut Library, input: &[u8]) -> String {
    let how = same_field(library, input).err().unwrap_or_default();
    format!("{how}\n{}", hexadecimal(input))
}

/// Of at most so many calls those are left out that do not matter: of more it would take minutes.
const SHORTENED: usize = 512;

/// How the two differ on legs and calls by two desks, and those as bytes, without the calls that do not matter.
pub fn readable_desks(library: &mut Library, input: &[u8]) -> String {
    let (legs, calls) = input.split_at(input.len().min(LEGS_LENGTH));
    let with = |calls: &[&[u8]]| [legs, &calls.concat()].concat();
    let mut calls: Vec<&[u8]> = calls.chunks(CALL).collect();
    if calls.len() <= SHORTENED {
        calls = fewest(calls, |calls| same_desks(library, &with(calls)).is_err());
    }
    let how = same_desks(library, &with(&calls)).err().unwrap_or_default();
    format!("{how}\n{}", hexadecimal(&with(&calls)))
}

/// A file that plays, and differs, with fewer requests.
fn shortened(file: Vec<u8>, mut differs: impl FnMut(&[u8]) -> bool) -> Vec<u8> {
    let Ok(PracticeFile { legs_64ths, requests: all }) = PracticeFile::read(&file) else { return file };
    let with = |requests: &[Request]| PracticeFile { legs_64ths, requests: requests.to_vec() }.to_bytes();
    with(&fewest(all, |requests| differs(&with(requests))))
}

/// The shortest beginning that differs; then one after another is left out.
fn fewest<T: Clone>(mut all: Vec<T>, mut differs: impl FnMut(&[T]) -> bool) -> Vec<T> {
    let length = (0..=all.len()).find(|&length| differs(&all[..length])).unwrap_or(all.len());
    all.truncate(length);
    fewer(all, differs)
}

/// One after another is left out, where the others differ without it.
pub fn fewer<T: Clone>(mut kept: Vec<T>, mut differs: impl FnMut(&[T]) -> bool) -> Vec<T> {
    let mut at = 0;
    while at < kept.len() {
        let mut fewer = kept.clone();
        fewer.remove(at);
        if differs(&fewer) {
            kept = fewer;
        } else {
            at += 1;
        }
    }
    kept
}

/// A file as a readable session, or in hexadecimal.
fn text(file: &[u8]) -> String {
    let Ok(practice) = PracticeFile::read(file) else { return hexadecimal(file) };
    let [base, intermediate, final_, missed] = practice.legs_64ths;
    let mut text = format!("{base} {intermediate} {final_} {missed}\n");
    for Request { kind, side, number, amount, .. } in practice.requests {
        text += &format!("{kind} {side} {number} {amount}\n");
    }
    text
}

/// At most this many bytes are printed.
const PRINTED: usize = 256;

fn hexadecimal(bytes: &[u8]) -> String {
    let mut text = format!("# {} bytes", bytes.len());
    for (at, byte) in bytes.iter().take(PRINTED).enumerate() {
        text.push(if at % 16 == 0 { '\n' } else { ' ' });
        text += &format!("{byte:02x}");
    }
    text + if bytes.len() > PRINTED { " ..\n" } else { "\n" }
}
