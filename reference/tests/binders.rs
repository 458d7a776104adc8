//! Binders: those refused 30, and what the report of the others counts.

mod common;
use common::*;

use reference::binder::{files, to_bytes, LONGEST, NUMBERS};
use reference::{BinderRefusal, Week};

fn week(binder: &[u8]) -> String {
    String::from_utf8(reference::week(binder)).expect("ASCII")
}

fn refused_30(binder: &[u8]) {
    assert_eq!(files(binder), Err(BinderRefusal));
    assert_eq!(week(binder), "binder 30\n");
}

/// A binder's table with any offsets and lengths, and what follows it.
fn with_table(entries: &[(u32, u32)], rest: &[u8]) -> Vec<u8> {
    let mut binder = (entries.len() as u16).to_le_bytes().to_vec();
    for (offset, length) in entries {
        binder.extend(offset.to_le_bytes());
        binder.extend(length.to_le_bytes());
    }
    binder.extend(rest);
    binder
}

/// 7 misses, holds, lands and taxis off, and on the way is refused 11, 13 and twice 15; then 1, three times.
fn lesson() -> Vec<u8> {
    file(
        [64; 4],
        &[
            (2, 1, 7, 64),
            (2, 1, 7, 64),
            (6, 0, 7, 0),
            (4, 0, 7, 0),
            (5, 0, 7, 0),
            (12, 0, 0, 64),
            (5, 0, 7, 0),
            (12, 0, 0, 64),
            (6, 0, 7, 0),
            (7, 0, 7, 0),
            (10, 0, 7, 0),
            (12, 0, 0, 64),
            (12, 0, 0, 64),
            (11, 0, 7, 0),
            (4, 0, 7, 0),
            (12, 0, 0, 64),
            (5, 0, 7, 0),
            (12, 0, 0, 64),
            (6, 0, 7, 0),
            (12, 0, 0, 64),
            (7, 0, 7, 0),
            (8, 0, 7, 0),
            (0, 0, 0, 0),
            (13, 0, 0, 0),
            (255, 0, 0, 0),
        ],
    )
}

/// The report of `times` such lessons, written down by hand, and of files refused 5, 6 and 7.
fn lesson_week(times: usize, [five, six, seven]: [usize; 3]) -> String {
    let row = |answers: &[(u8, usize)]| {
        let mut row = String::new();
        for number in [0, 1, 2, 3, 4, 10, 11, 12, 13, 14, 15, 16, 17, 18, 19, 20, 21, 22, 23, 24, 25] {
            let count = answers.iter().find(|answer| answer.0 == number).map_or(0, |answer| answer.1);
            row += &format!(" {}", times * count);
        }
        row
    };
    [
        format!("files {times}\n"),
        format!("refused 5 {five}\nrefused 6 {six}\nrefused 7 {seven}\n"),
        String::from("kind 0 1 2 3 4 10 11 12 13 14 15 16 17 18 19 20 21 22 23 24 25\n"),
        format!("1{}\n", row(&[])),
        format!("2{}\n", row(&[(0, 1), (11, 1)])),
        format!("3{}\n", row(&[])),
        format!("4{}\n", row(&[(0, 2)])),
        format!("5{}\n", row(&[(0, 2), (15, 1)])),
        format!("6{}\n", row(&[(0, 2), (13, 1)])),
        format!("7{}\n", row(&[(0, 1), (15, 1)])),
        format!("8{}\n", row(&[(0, 1)])),
        format!("9{}\n", row(&[])),
        format!("10{}\n", row(&[(0, 1)])),
        format!("11{}\n", row(&[(0, 1)])),
        format!("12{}\n", row(&[(0, 7)])),
        format!("other{}\n", row(&[(1, 3)])),
        // Kinds 4, 5 and 6 twice each, 7, 8, 10 and 11 once.
        format!("moves {}\nlandings {}\n", 10 * times, times),
    ]
    .concat()
}

#[test]
fn whole_report() {
    let expected = "files 1\n\
                    refused 5 0\n\
                    refused 6 0\n\
                    refused 7 0\n\
                    kind 0 1 2 3 4 10 11 12 13 14 15 16 17 18 19 20 21 22 23 24 25\n\
                    1 2 0 0 0 0 0 0 0 0 0 0 0 0 0 0 0 0 0 0 0 0\n\
                    2 0 0 0 0 0 0 0 0 0 0 0 0 0 0 0 0 0 0 0 0 0\n\
                    3 0 0 0 0 0 0 0 1 1 0 0 0 0 0 0 0 0 0 0 0 0\n\
                    4 1 0 0 0 0 0 0 0 0 0 0 0 0 0 0 0 0 0 0 0 0\n\
                    5 0 0 0 0 0 0 0 0 0 0 1 0 0 0 0 0 0 0 0 0 0\n\
                    6 0 0 0 0 0 0 0 0 0 0 0 0 0 0 0 0 0 0 0 0 0\n\
                    7 0 0 0 0 0 0 0 0 1 0 0 0 0 0 0 0 0 0 0 0 0\n\
                    8 0 0 0 0 0 0 0 0 0 0 0 0 0 0 0 0 0 0 0 0 0\n\
                    9 0 0 0 0 0 0 0 0 0 0 0 0 0 0 0 0 0 0 0 0 0\n\
                    10 0 0 0 0 0 0 0 0 0 0 0 0 0 0 0 0 0 0 0 0 0\n\
                    11 0 0 0 0 0 0 0 0 0 0 0 0 0 0 0 0 0 0 0 0 0\n\
                    12 1 0 0 0 1 0 0 0 0 0 0 0 0 0 0 0 0 0 0 0 0\n\
                    other 0 1 0 0 0 0 0 0 0 0 0 0 0 0 0 0 0 0 0 0 0\n\
                    moves 1\n\
                    landings 0\n";
    // 7 steps down when 8 comes in: no move.
    let requests = [
        (1, 1, 7, 64),
        (1, 1, 8, 64),
        (3, 0, 9, 0),
        (3, 0, 7, 0),
        (4, 0, 7, 0),
        (5, 0, 7, 0),
        (7, 0, 7, 0),
        (12, 0, 0, 64),
        (12, 0, 0, 65),
        (14, 1, 2, 3),
    ];
    assert_eq!(week(&to_bytes(&[file([64; 4], &requests)])), expected);
}

#[test]
fn files_that_play_are_added_up() {
    for times in [1, 2, 3, 64] {
        assert_eq!(week(&to_bytes(&vec![lesson(); times])), lesson_week(times, [0, 0, 0]));
    }
    // Each file starts empty: one that leaves 7 on the field does not keep 7 from entering again.
    let one = file([64; 4], &[(1, 1, 7, 64)]);
    let week = Week::of(&to_bytes(&[&one, &one])).expect("a binder");
    assert_eq!((week.answers[1][0], week.answers[1][11]), (2, 0));
}

/// A lesson refused 5, 6 and 7; all of them have requests that would be counted.
fn refused_lessons() -> [Vec<u8>; 3] {
    let (mut five, mut six, mut seven) = (lesson(), lesson(), lesson());
    five[0] = b's';
    six[4] = 3;
    seven[26..28].copy_from_slice(&4097u16.to_le_bytes());
    [five, six, seven]
}

#[test]
fn refused_files_count_under_their_number_and_nowhere_else() {
    let [five, six, seven] = refused_lessons();
    assert_eq!(week(&to_bytes(&[&five])), lesson_week(0, [1, 0, 0]));
    assert_eq!(week(&to_bytes(&[&six])), lesson_week(0, [0, 1, 0]));
    assert_eq!(week(&to_bytes(&[&seven])), lesson_week(0, [0, 0, 1]));
    let lesson = lesson();
    let mixed = [&six, &lesson, &five, &six, &lesson, &seven, &six];
    assert_eq!(week(&to_bytes(&mixed)), lesson_week(2, [1, 3, 1]));
}

#[test]
fn a_file_of_no_bytes_is_refused_5() {
    let (none, lesson) = (Vec::new(), lesson());
    assert_eq!(week(&to_bytes(&[&none])), lesson_week(0, [1, 0, 0]));
    assert_eq!(week(&to_bytes(&[&none; 64])), lesson_week(0, [64, 0, 0]));
    assert_eq!(week(&to_bytes(&[&none, &lesson, &none, &none, &lesson, &none])), lesson_week(2, [4, 0, 0]));
    // It is placed like any other: not at 0.
    let binder = with_table(&[(18, lesson.len() as u32), (0, 0)], &lesson);
    refused_30(&binder);
}

#[test]
fn a_files_own_offsets_count_from_its_own_first_byte() {
    let lesson = lesson();
    let mut second = lesson.clone();
    let start = 18 + lesson.len() as u32;
    for at in [8, 18] {
        let offset = u32::from_le_bytes(second[at..at + 4].try_into().expect("four bytes"));
        second[at..at + 4].copy_from_slice(&(start + offset).to_le_bytes());
    }
    assert_eq!(week(&to_bytes(&[&lesson, &second])), lesson_week(1, [0, 1, 0]));
    assert_eq!(week(&to_bytes(&[&lesson, &lesson])), lesson_week(2, [0, 0, 0]));
}

#[test]
fn files_are_stretches_in_order() {
    let parts: [&[u8]; 4] = [b"one", b"", b"three", b"4"];
    let binder = to_bytes(&parts);
    assert_eq!(files(&binder), Ok(parts.to_vec()));
    assert_eq!(&binder[..2], [4, 0]);
    assert_eq!(&binder[2..10], [34, 0, 0, 0, 3, 0, 0, 0]);
    assert_eq!(&binder[10..18], [37, 0, 0, 0, 0, 0, 0, 0]);
    assert_eq!(&binder[34..], b"onethree4");
}

#[test]
fn refused_30_count() {
    let one = lesson();
    refused_30(&[]);
    refused_30(&[1]);
    for count in [0, 1, 64, 65, 255] {
        refused_30(&[count, 0]);
    }
    refused_30(&to_bytes(&[] as &[Vec<u8>]));
    refused_30(&[to_bytes(&[] as &[Vec<u8>]), one.clone()].concat());
    assert_eq!(files(&to_bytes(&vec![&one[..34]; 64])).map(|files| files.len()), Ok(64));
    refused_30(&to_bytes(&vec![&one[..34]; 65]));
    // 8,193 entries would end where one does, in 16 bits.
    let mut many = to_bytes(&[&one]);
    many[..2].copy_from_slice(&8193u16.to_le_bytes());
    refused_30(&many);
}

#[test]
fn refused_30_table_that_does_not_fit() {
    for count in [1, 2, 64] {
        let binder = to_bytes(&vec![b""; count]);
        assert_eq!(week(&binder), lesson_week(0, [count, 0, 0]));
        for length in 0..binder.len() {
            refused_30(&binder[..length]);
        }
    }
}

#[test]
fn refused_30_size() {
    let one = lesson();
    let filled = |size: usize| {
        let rest = vec![b'S'; size - 18 - one.len()];
        to_bytes(&[one.clone(), rest])
    };
    assert_eq!(filled(LONGEST).len(), 65_536);
    assert_eq!(week(&filled(LONGEST)), lesson_week(1, [1, 0, 0]));
    for more in 1..8 {
        refused_30(&filled(LONGEST + more));
    }
    // All of these would play.
    let most = vec![(12, 0, 0, 64); 4096];
    let fitted = |last: usize| {
        let file_of = |requests| file([64; 4], &most[..requests]);
        to_bytes(&[file_of(4096), file_of(4096), file_of(last)])
    };
    assert_eq!(fitted(2709).len(), 65_534);
    assert_eq!(Week::of(&fitted(2709)).map(|week| week.answers[12][0]), Ok(2 * 4096 + 2709));
    assert_eq!(fitted(2710).len(), 65_540);
    refused_30(&fitted(2710));
}

#[test]
fn refused_30_every_byte_of_the_table() {
    for count in [1, 2, 64] {
        let binder = to_bytes(&vec![lesson(); count]);
        for at in 0..2 + 8 * count {
            for by in 1..=255 {
                let mut damaged = binder.clone();
                damaged[at] ^= by;
                assert_eq!(files(&damaged), Err(BinderRefusal), "byte {at} of {count} files, {by}");
            }
        }
    }
}

#[test]
fn refused_30_placing() {
    let one = lesson();
    let length = one.len() as u32;
    let two = [one.clone(), one.clone()].concat();
    assert_eq!(
        week(&with_table(&[(18, length), (18 + length, length)], &two)),
        lesson_week(2, [0; 3]),
        "as they are"
    );
    for entries in [
        // Turned about, twice the first, a gap, an overlap.
        [(18 + length, length), (18, length)],
        [(18, length), (18, 2 * length)],
        [(18, length - 1), (18 + length, length)],
        [(18, length), (18 + length - 1, length + 1)],
        // After the table: a byte late, a byte early, from the table's end.
        [(19, length - 1), (18 + length, length)],
        [(17, length + 1), (18 + length, length)],
        [(0, length), (length, length)],
        // The end: a byte early, a byte late.
        [(18, length), (18 + length, length - 1)],
        [(18, length), (18 + length, length + 1)],
    ] {
        refused_30(&with_table(&entries, &two));
    }
    let binder = to_bytes(&[&one, &one]);
    refused_30(&binder[..binder.len() - 1]);
    refused_30(&[&binder[..], &[0]].concat());
}

#[test]
fn refused_30_sums_over_32_bits() {
    let one = lesson();
    let end = 26 + one.len() as u32;
    // Offset plus length as it would be in 32 bits; every file then begins
    // where the one before ends, and the last ends the binder.
    for back in [1, 9, 26] {
        let wrapping = [(26, 0u32.wrapping_sub(back)), (26 - back, back), (26, end - 26)];
        refused_30(&with_table(&wrapping, &one));
    }
    for far in [u32::MAX, u32::MAX - 5, 1 << 31] {
        let wrapping = [(26, far - 26), (far, 0u32.wrapping_sub(far)), (0, end)];
        refused_30(&with_table(&wrapping, &one));
        let at_the_end = [(26, 0), (26, far - 26), (far, end.wrapping_sub(far))];
        refused_30(&with_table(&at_the_end, &one));
    }
    // And as it would be in 16 bits.
    for high in [1 << 16, 1 << 24] {
        refused_30(&with_table(&[(26, 0), (26, high), (26 + high, end - 26)], &one));
        refused_30(&with_table(&[(26, 0), (26, 0), (26, end - 26 + high)], &one));
        refused_30(&with_table(&[(26 + high, 0), (26, 0), (26, end - 26)], &one));
    }
}

/// The same counts from the lines of every file's own report.
#[test]
fn the_stored_sessions_by_their_lines() {
    let folder = concat!(env!("CARGO_MANIFEST_DIR"), "/../crates/cases/data");
    let mut binders = vec![Vec::new()];
    for entry in std::fs::read_dir(folder).expect("sessions") {
        let path = entry.expect("entry").path();
        if path.extension().is_some_and(|extension| extension == "scap") {
            let stored = std::fs::read(&path).expect("a session");
            binders[0].push(stored.clone());
            binders.push(vec![lesson(), stored, lesson()]);
        }
    }
    assert!(binders[0].len() > 30);
    for files in binders {
        let binder = to_bytes(&files);
        assert!(binder.len() <= LONGEST);
        assert_eq!(week(&binder), by_lines(&files));
    }
}

fn by_lines(files: &[Vec<u8>]) -> String {
    let [mut played, mut moves, mut landings] = [0; 3];
    let mut refused = [0; 8];
    let mut rows = vec![vec![0; 26]; 256];
    for file in files {
        let report = report(file);
        if let Some(number) = report.strip_prefix("file ") {
            refused[number.trim_end().parse::<usize>().expect("a number")] += 1;
            continue;
        }
        played += 1;
        for (request, line) in file[34..].chunks(6).zip(report.lines()) {
            let number = line.split(' ').nth(1).expect("a number").parse::<usize>().expect("a number");
            let kind = usize::from(request[0]);
            rows[kind][number] += 1;
            moves += usize::from(number == 0 && (3..=11).contains(&kind));
            landings += usize::from(number == 0 && kind == 7);
        }
    }
    let joined = |row: &[usize]| NUMBERS.map(|number| row[usize::from(number)].to_string()).join(" ");
    let mut others = vec![0; 26];
    for (kind, row) in rows.iter().enumerate() {
        if kind == 0 || kind > 12 {
            others.iter_mut().zip(row).for_each(|(sum, count)| *sum += count);
        }
    }
    let mut lines = vec![format!("files {played}")];
    lines.extend([5, 6, 7].map(|number| format!("refused {number} {}", refused[number])));
    lines.push(format!("kind {}", NUMBERS.map(|number| number.to_string()).join(" ")));
    lines.extend((1..=12).map(|kind| format!("{kind} {}", joined(&rows[kind]))));
    lines.push(format!("other {}", joined(&others)));
    lines.extend([format!("moves {moves}"), format!("landings {landings}")]);
    lines.join("\n") + "\n"
}
