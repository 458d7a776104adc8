//! Files that are no practice files, or just about.

use crate::dice::Dice;
use crate::sessions::{any_request, session_of};
use reference::file::{HEADER, LONGEST};
use reference::PracticeFile;

/// Letters, contents and legs.
const BODY: usize = HEADER + 8;
/// Where the contents have the requests' length.
const LENGTH_AT: usize = 22;

fn with_length(mut file: Vec<u8>, length: u32) -> Vec<u8> {
    file[LENGTH_AT..HEADER].copy_from_slice(&length.to_le_bytes());
    file
}

/// Each byte before the requests with each other value.
fn one_byte(file: &[u8]) -> Vec<Vec<u8>> {
    let changed = |at: usize, value: u8| {
        let mut file = file.to_vec();
        file[at] = value;
        file
    };
    (0..BODY.min(file.len())).flat_map(|at| (0..=255).map(move |value| changed(at, value))).collect()
}

/// The first bytes of a file, 0 to 40 of them; with the contents as they were, and fitted to the length.
fn truncated(file: &[u8]) -> Vec<Vec<u8>> {
    let mut files = Vec::new();
    for length in 0..=40.min(file.len()) {
        files.push(file[..length].to_vec());
        if length >= BODY {
            files.push(with_length(file[..length].to_vec(), (length - BODY) as u32));
        }
    }
    files
}

/// Files of lengths about the longest one, with every length in the contents that is near.
fn at_the_limits(dice: &mut Dice) -> Vec<Vec<u8>> {
    let longest = session_of(dice, 4096);
    assert_eq!(longest.len(), LONGEST);
    let mut files = Vec::new();
    for length in LONGEST - 7..=LONGEST + 7 {
        let mut file = longest.clone();
        file.resize(length, 1);
        for said in LONGEST - BODY - 7..=LONGEST - BODY + 7 {
            files.push(with_length(file.clone(), said as u32));
        }
    }
    files
}

/// Lengths in the contents that differ from the file's in their high bytes, and the largest ones.
fn wrong_lengths(file: &[u8]) -> Vec<Vec<u8>> {
    let right = (file.len() - BODY) as u32;
    let far = [1 << 16, 1 << 24, 1 << 31, u32::MAX, u32::MAX - 33, u32::MAX - 5];
    far.into_iter().map(|by| with_length(file.to_vec(), right.wrapping_add(by))).collect()
}

/// Legs at the edges of what is allowed, in every place.
fn edge_legs() -> Vec<Vec<u8>> {
    let mut files = Vec::new();
    for place in 0..4 {
        for leg in [0, 1, 4095, 4096, 4097, 8192, 32_768, 65_535] {
            let mut legs_64ths = [64; 4];
            legs_64ths[place] = leg;
            files.push(PracticeFile { legs_64ths, requests: Vec::new() }.to_bytes());
        }
    }
    files
}

/// Damaged files that are the same for every count.
pub fn files(dice: &mut Dice) -> Vec<Vec<u8>> {
    let bases = [session_of(dice, 0), session_of(dice, 1), session_of(dice, 12)];
    let mut files = edge_legs();
    files.extend(at_the_limits(dice));
    for base in &bases {
        files.extend(one_byte(base));
        files.extend(truncated(base));
        files.extend(wrong_lengths(base));
        for more in 1..=12 {
            let mut file = base.clone();
            file.resize(base.len() + more, 0);
            files.push(with_length(file.clone(), (file.len() - BODY) as u32));
            files.push(file);
        }
    }
    files
}

/// Bytes drawn at random: all of them, all but the letters, all but the
/// contents, or all but the contents and the legs.
pub fn random(dice: &mut Dice) -> Vec<u8> {
    match dice.below(8) {
        0 => any_bytes(dice),
        1 => [b"SCAP".to_vec(), any_bytes(dice)].concat(),
        2 => {
            let mut file = session_of(dice, 3);
            for _ in 0..dice.between(2, 5) {
                let at = dice.below(BODY);
                file[at] = dice.byte();
            }
            file
        }
        3 => {
            let legs_64ths = [(); 4].map(|()| dice.bits() as u16 % 6000);
            PracticeFile { legs_64ths, requests: vec![any_request(dice)] }.to_bytes()
        }
        _ => {
            let mut file = session_of(dice, 0);
            let requests = dice.between(0, 60);
            file.extend(dice.bytes(6 * requests));
            for request in file[BODY..].chunks_exact_mut(6) {
                if !dice.once_in(4) {
                    request.copy_from_slice(&any_request(dice).to_bytes());
                }
            }
            with_length(file, 6 * requests as u32)
        }
    }
}

fn any_bytes(dice: &mut Dice) -> Vec<u8> {
    let most = dice.pick(&[30, 60, 60, 30_000]);
    let length = dice.between(0, most);
    dice.bytes(length)
}
