//! Binders of practice files: those that are read, and those that are not, or
//! just about.

use crate::damaged;
use crate::dice::Dice;
use crate::sessions::{session, session_of};
use reference::binder::{to_bytes, COUNT, ENTRY, LONGEST, MOST_FILES};
use reference::file::HEADER;

/// A file that is refused: 5, 6 or 7. It has requests, which would be counted if it played.
fn refused(dice: &mut Dice, number: usize) -> Vec<u8> {
    let mut file = session_of(dice, 4);
    match number {
        5 => file[dice.below(4)] ^= 0x20,
        6 => file[4 + dice.below(HEADER - 4)] ^= 0x80,
        _ => file[HEADER + 1 + 2 * dice.below(4)] |= 0x80,
    }
    file
}

/// A short file, or none at all, refused in most of the ways; twice in three it plays.
fn short_file(dice: &mut Dice) -> Vec<u8> {
    match dice.below(12) {
        0 => Vec::new(),
        number @ 1..=3 => refused(dice, 4 + number),
        _ => {
            let requests = dice.between(0, 30);
            session_of(dice, requests)
        }
    }
}

fn short_files(dice: &mut Dice, count: usize) -> Vec<Vec<u8>> {
    (0..count).map(|_| short_file(dice)).collect()
}

/// One, two and 64 files, that play or are refused: each kind of file at each place.
pub fn packed(dice: &mut Dice) -> Vec<Vec<u8>> {
    let mut binders = Vec::new();
    for count in [1, 2, 64] {
        for place in 0..count {
            let special =
                [Vec::new(), refused(dice, 5), refused(dice, 6), refused(dice, 7), session_of(dice, 9)];
            for file in special {
                let mut playing: Vec<Vec<u8>> = (0..count).map(|_| session_of(dice, 5)).collect();
                playing[place] = file.clone();
                binders.push(to_bytes(&playing));
                let mut any = short_files(dice, count);
                any[place] = file;
                binders.push(to_bytes(&any));
            }
        }
        binders.push(to_bytes(&vec![[]; count]));
        for number in [5, 6, 7] {
            let refused: Vec<Vec<u8>> = (0..count).map(|_| refused(dice, number)).collect();
            binders.push(to_bytes(&refused));
        }
    }
    binders
}

/// The table's bytes changed: each one to every other value where there are one or two files, else to a few.
pub fn damaged_tables(dice: &mut Dice) -> Vec<Vec<u8>> {
    let mut binders = Vec::new();
    for count in [1, 2, 3, 64] {
        let binder = to_bytes(&short_files(dice, count));
        for at in 0..COUNT + ENTRY * count {
            let every: Vec<u8> = (1..=255).collect();
            let few = [1, 2, 8, 0x40, 0x80, 0xff, binder[at].wrapping_sub(1) ^ binder[at]];
            for &by in if count <= 2 { &every[..] } else { &few[..] } {
                let mut binder = binder.clone();
                binder[at] ^= by;
                binders.push(binder);
            }
        }
    }
    binders
}

/// The table of files that begin each where the one before ends, by sums of 32
/// bits, and what stands after it. All ends but the last, which is the binder's.
fn chained(ends: &[u32], body: &[u8]) -> Vec<u8> {
    let count = ends.len() + 1;
    let mut binder = (count as u16).to_le_bytes().to_vec();
    let mut offset = (COUNT + ENTRY * count) as u32;
    let last = offset + body.len() as u32;
    for &end in ends.iter().chain([&last]) {
        binder.extend(offset.to_le_bytes());
        binder.extend(end.wrapping_sub(offset).to_le_bytes());
        offset = end;
    }
    binder.extend(body);
    binder
}

/// Tables that would be right by sums of 32 bits, or of less.
pub fn wrapping(dice: &mut Dice) -> Vec<Vec<u8>> {
    let body = session_of(dice, 5);
    let mut binders = high_bits(dice);
    for count in [2, 3, 64] {
        let table = (COUNT + ENTRY * count) as u32;
        let end = table + body.len() as u32;
        let ends = [0, 1, table - 1, end + 1, 1 << 16, 1 << 24, 1 << 31, u32::MAX - 1, u32::MAX];
        let far = [table, end].into_iter().flat_map(|near| [16, 24, 31].map(|bit| near + (1 << bit)));
        for wrong in ends.into_iter().chain(far) {
            for place in 1..count {
                // One end is wrong, or all from there on; the others are the table's, and the last file has all bytes.
                let one = (1..count).map(|at| if at == place { wrong } else { table });
                binders.push(chained(&one.collect::<Vec<u32>>(), &body));
                let all = (1..count).map(|at| if at >= place { wrong } else { table });
                binders.push(chained(&all.collect::<Vec<u32>>(), &body));
            }
        }
    }
    binders
}

/// Each offset and length with a high bit that does not belong, and counts of 8,192 and more entries too
/// many, which have 65,536 bytes.
fn high_bits(dice: &mut Dice) -> Vec<Vec<u8>> {
    let mut binders = Vec::new();
    for count in [1, 2, 64] {
        let binder = to_bytes(&short_files(dice, count));
        let changed = |at: usize, by: u8| {
            let mut binder = binder.clone();
            binder[at] ^= by;
            binder
        };
        for at in (COUNT..COUNT + ENTRY * count).step_by(4) {
            binders.extend([changed(at + 2, 1), changed(at + 3, 1), changed(at + 3, 0x80)]);
        }
        binders.extend((1..8).map(|more| changed(1, 32 * more)));
    }
    binders
}

/// Binders of this size whose last file takes what is left.
fn filled(mut files: Vec<Vec<u8>>, size: usize) -> Vec<u8> {
    files.push(Vec::new());
    let mut last = b"SCAP".to_vec();
    last.resize(size - to_bytes(&files).len(), 0);
    files.pop();
    files.push(last);
    to_bytes(&files)
}

/// About the largest size, the least and the greatest count, and the shortest binder.
pub fn at_the_limits(dice: &mut Dice) -> Vec<Vec<u8>> {
    [sizes(dice), counts(dice), ends(dice)].concat()
}

fn sizes(dice: &mut Dice) -> Vec<Vec<u8>> {
    let mut binders = Vec::new();
    let long = [session_of(dice, 4096), session_of(dice, 4096)];
    for size in LONGEST - 8..=LONGEST + 8 {
        for count in [0, 1, 2, 63] {
            let files = if count == 2 { long.to_vec() } else { short_files(dice, count) };
            binders.push(filled(files, size));
        }
    }
    // All of these files play: 65,528 and 65,534 bytes, 65,540 and 65,546.
    for requests in 2708..=2711 {
        binders.push(to_bytes(&[&long[0], &long[1], &session_of(dice, requests)]));
    }
    // Sizes that are right by 16 bits.
    for size in [LONGEST, 2 * LONGEST] {
        let mut binder = to_bytes(&short_files(dice, 2));
        binder.resize(binder.len() + size, 0);
        binders.push(binder);
        binders.push(filled(short_files(dice, 2), 2 * size));
    }
    binders
}

fn counts(dice: &mut Dice) -> Vec<Vec<u8>> {
    let mut binders = Vec::new();
    for count in [0, 1, 2, 63, 64, 65, 66, 128, 255, 256, 257, 1000] {
        binders.push(to_bytes(&vec![[]; count]));
        binders.push(to_bytes(&vec![session_of(dice, 0); count]));
        binders.push(to_bytes(&short_files(dice, count.min(66))));
    }
    binders
}

/// The first bytes of a binder, also less than its table; a few bytes too few or too many; at most two.
fn ends(dice: &mut Dice) -> Vec<Vec<u8>> {
    let mut binders = vec![Vec::new()];
    for count in [1, 2, 64] {
        for binder in [to_bytes(&vec![[]; count]), to_bytes(&short_files(dice, count))] {
            let first = binder.len().min(COUNT + ENTRY * count + 40);
            binders.extend((0..=first).map(|length| binder[..length].to_vec()));
            binders.extend((1..8).map(|fewer| binder[..binder.len() - fewer].to_vec()));
            binders.extend((1..8).map(|more| [&binder[..], &vec![0; more]].concat()));
        }
    }
    binders.extend((0..=255).map(|byte| vec![byte]));
    binders.extend((0..=255).flat_map(|low| [0, 1, 255].map(|high| vec![low, high])));
    binders
}

/// A file as the other comparisons have them, or a short one.
fn any_file(dice: &mut Dice) -> Vec<u8> {
    match dice.below(16) {
        0 => damaged::random(dice),
        1..=4 => short_file(dice),
        _ => session(dice),
    }
}

/// Files that a binder has room for, at most so many.
fn any_files(dice: &mut Dice, most: usize) -> Vec<Vec<u8>> {
    let mut files = Vec::new();
    let mut size = COUNT;
    while files.len() < most {
        let file = any_file(dice);
        size += ENTRY + file.len();
        if size > LONGEST {
            break;
        }
        files.push(file);
    }
    files
}

/// A random binder: two in three are as they should be, and their files as they may be.
pub fn random(dice: &mut Dice) -> Vec<u8> {
    let most = dice.pick(&[1, 2, 3, 8, 8, 16, 16, 32, MOST_FILES, MOST_FILES]);
    let files = any_files(dice, most);
    let mut binder = to_bytes(&files);
    let table = COUNT + ENTRY * files.len();
    match dice.below(24) {
        0 => {
            let length = dice.between(0, 300);
            binder = dice.bytes(length);
        }
        1 => {
            let length = dice.between(0, binder.len());
            binder.truncate(length);
        }
        2 => binder.push(dice.byte()),
        3..=4 => {
            for _ in 0..dice.between(1, 3) {
                binder[dice.below(table)] = dice.byte();
            }
        }
        // The same bytes, cut elsewhere; then perhaps with an end that goes back or too far.
        5..=7 => {
            let length = binder.len() + 1 - table;
            let mut ends: Vec<u32> = (1..files.len()).map(|_| (table + dice.below(length)) as u32).collect();
            ends.sort();
            if !ends.is_empty() && dice.once_in(2) {
                let at = dice.below(ends.len());
                ends[at] = dice.bits() as u32;
            }
            binder = chained(&ends, &binder[table..]);
        }
        _ => {}
    }
    binder
}
