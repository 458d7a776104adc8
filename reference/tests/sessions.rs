//! The stored sessions: the answers written in their comments, and the whole
//! output in NAME.expected.

mod common;

use std::fs;
use std::path::{Path, PathBuf};

use reference::button::MOST_MOVES;
use reference::{Field, PracticeFile};

fn sessions(extension: &str) -> Vec<PathBuf> {
    let directory = Path::new(env!("CARGO_MANIFEST_DIR")).join("../crates/cases/data");
    let mut paths: Vec<PathBuf> =
        fs::read_dir(directory).expect("sessions").map(|entry| entry.expect("entry").path()).collect();
    paths.retain(|path| path.extension().is_some_and(|found| found == extension));
    paths.sort();
    assert!(!paths.is_empty());
    paths
}

/// The bytes of a readable session, and the answer noted for each request.
fn read(text: &str) -> (Vec<u8>, Vec<Option<String>>) {
    let mut lines = text.lines();
    let numbers = |line: &str| -> Vec<u16> {
        line.split_whitespace().map(|word| word.parse().expect("a number")).collect()
    };
    let legs = numbers(lines.next().expect("legs")).try_into().expect("four legs");
    let (mut requests, mut noted, mut note) = (Vec::new(), Vec::new(), None);
    for line in lines {
        if let Some(answer) = line.strip_prefix("# = ") {
            let answer = answer.split("  ").next().unwrap_or(answer);
            let zeros = if answer.contains(' ') { "" } else { " 0 0 0 0 0" };
            note = Some(format!("{answer}{zeros}"));
        } else if !line.starts_with('#') {
            let request: [u16; 4] = numbers(line).try_into().expect("four numbers");
            requests.push((request[0] as u8, request[1] as u8, request[2], request[3]));
            noted.push(note.take());
        }
    }
    assert_eq!(note, None);
    (common::file(legs, &requests), noted)
}

fn bytes(hex: &str) -> Vec<u8> {
    let lines = hex.lines().filter(|line| !line.starts_with('#'));
    lines.flat_map(str::split_whitespace).map(|byte| u8::from_str_radix(byte, 16).expect("a byte")).collect()
}

fn expected(path: &Path) -> String {
    fs::read_to_string(path.with_extension("expected")).expect("expected output")
}

#[test]
fn readable_sessions() {
    for path in sessions("txt") {
        let (file, noted) = read(&fs::read_to_string(&path).expect("text"));
        let report = common::report(&file);
        assert_eq!(report, expected(&path), "{}", path.display());
        for (index, (line, note)) in report.lines().zip(noted).enumerate() {
            if let Some(answer) = note {
                assert_eq!(line, format!("{} {answer}", index + 1), "{}", path.display());
            }
        }
    }
}

#[test]
fn files_in_hexadecimal() {
    for path in sessions("hex") {
        let file = bytes(&fs::read_to_string(&path).expect("text"));
        assert_eq!(common::report(&file), expected(&path), "{}", path.display());
    }
}

/// The session `most-moves` ends with as many moves as there can be before the next entry or miss (2.14).
#[test]
fn most_moves() {
    let path = Path::new(env!("CARGO_MANIFEST_DIR")).join("../crates/cases/data/most-moves.txt");
    let (file, _) = read(&fs::read_to_string(path).expect("text"));
    let practice = PracticeFile::read(&file).expect("a practice file");
    let (mut field, mut moves) = (Field::empty(practice.legs()), 0);
    for request in &practice.requests {
        field.step(request).expect("accepted");
        match request.kind {
            1 | 2 | 10 => moves = 0,
            12 => (),
            _ => moves += 1,
        }
    }
    assert_eq!(moves, MOST_MOVES);
}
