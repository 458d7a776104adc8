//! The field after each request of a practice file, as the program `track` prints it: its stored output against the reference.

use reference::spacing::decimal;
use reference::{Field, PracticeFile};
use std::fs;
use std::path::Path;

/// A line of `track`: index, next fix, how many stand in the sequence and their numbers, then zone, number and miles waited of each.
fn line(index: usize, field: &Field) -> String {
    let mut words =
        vec![index.to_string(), field.next_fix.number().to_string(), field.sequence.len().to_string()];
    words.extend(field.sequence.iter().map(u16::to_string));
    for (zone, aircraft) in field.everyone() {
        words.extend([zone.number().to_string(), aircraft.number.to_string(), decimal(aircraft.waited)]);
    }
    words.join(" ") + "\n"
}

/// Every line of a practice file.
fn lines(file: &[u8]) -> String {
    let practice = PracticeFile::read(file).expect("a practice file");
    let mut field = Field::empty(practice.legs());
    let after = |(index, request)| {
        // The answer is what `play` prints; a refused request leaves the field as it was.
        let _ = field.step(request);
        line(index, &field)
    };
    (1..).zip(&practice.requests).map(after).collect()
}

#[test]
fn the_stored_output() {
    let track = Path::new(env!("CARGO_MANIFEST_DIR")).join("../crates/track");
    let file = fs::read(track.join("stdin")).expect("its input");
    let stored = fs::read_to_string(track.join("stdout")).expect("its output");
    assert_eq!(lines(&file), stored);
}
