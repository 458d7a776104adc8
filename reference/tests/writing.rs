//! Writing a practice file: each refusal and their order, what becomes of the buffer, and that the file is read back.

mod common;
use common::*;

use reference::file::{LONGEST, MOST_REQUESTS};
use reference::writer::{write, LONGEST_INPUT};
use reference::{PracticeFile, Refusal, Request, WriteRefusal};

const LEGS: [u16; 4] = [64, 128, 192, 4096];
const ENTRY: (u8, u8, u16, u16) = (1, 1, 0x1234, 256);
const TICK: (u8, u8, u16, u16) = (12, 0, 0, 64);
/// What the buffer is lent with.
const LENT: u8 = 0xa5;

type Outcome = Result<usize, WriteRefusal>;

fn bytes(requests: &[(u8, u8, u16, u16)]) -> Vec<u8> {
    requests.iter().flat_map(|&(k, s, n, a)| Request::new(k, s, n, a).to_bytes()).collect()
}

/// What comes of a buffer of this length, and the buffer.
fn written(legs: [u16; 4], requests: &[u8], length: usize) -> (Outcome, Vec<u8>) {
    let mut buffer = vec![LENT; length];
    let outcome = write(legs.map(usize::from), requests, &mut buffer);
    (outcome, buffer)
}

/// Refused by this number, also where there is no room for a file; the buffer is as it was lent.
fn refused_by(number: u8, legs: [u16; 4], requests: &[u8]) {
    for length in [0, 1, 33, 34, 40, LONGEST, LONGEST + 6] {
        let (outcome, buffer) = written(legs, requests, length);
        assert_eq!(outcome.map_err(WriteRefusal::number), Err(number));
        assert_eq!(buffer, vec![LENT; length]);
    }
}

#[test]
fn every_byte_of_a_file() {
    let expected = [
        b"SCAP\x02\x00".as_slice(),
        &[1, 0, 26, 0, 0, 0, 8, 0, 0, 0],
        &[2, 0, 34, 0, 0, 0, 12, 0, 0, 0],
        // Base, intermediate, final, missed.
        &[64, 0, 128, 0, 192, 0, 0, 16],
        &[1, 1, 0x34, 0x12, 0, 1],
        &[12, 0, 0, 0, 64, 0],
    ]
    .concat();
    let requests = bytes(&[ENTRY, TICK]);
    assert_eq!(written(LEGS, &requests, 46), (Ok(46), expected.clone()));
    for more in [1, 2, 6, 100] {
        let past = vec![LENT; more];
        assert_eq!(written(LEGS, &requests, 46 + more), (Ok(46), [&expected[..], &past].concat()));
    }
    for length in 0..46 {
        assert_eq!(written(LEGS, &requests, length), (Err(WriteRefusal::Buffer), vec![LENT; length]));
    }
    assert_eq!(WriteRefusal::Buffer.number(), 28);
}

#[test]
fn no_request() {
    let (outcome, file) = written(LEGS, &[], 34);
    assert_eq!(outcome, Ok(34));
    assert_eq!(report(&file), "end 0 0 0 0 0\n");
    assert_eq!(written(LEGS, &[], 33), (Err(WriteRefusal::Buffer), vec![LENT; 33]));
}

#[test]
fn most_requests_and_one_more() {
    let most = bytes(&vec![TICK; 4096]);
    assert_eq!(MOST_REQUESTS, 4096);
    let (outcome, file) = written(LEGS, &most, 24_610);
    assert_eq!(outcome, Ok(24_610));
    assert!(report(&file).ends_with("4096 0 0 0 0 0 0\nend 0 0 0 0 0\n"));
    assert_eq!(written(LEGS, &most, 24_609), (Err(WriteRefusal::Buffer), vec![LENT; 24_609]));
    refused_by(5, LEGS, &bytes(&vec![TICK; 4097]));
    // 65,536 and 4,096 more, which is as many in 16 bits.
    refused_by(5, LEGS, &bytes(&vec![TICK; 65_536]));
    refused_by(5, LEGS, &bytes(&vec![TICK; 65_536 + 4096]));
}

#[test]
fn refused_7_leg() {
    for place in 0..4 {
        let with = |leg| {
            let mut legs = LEGS;
            legs[place] = leg;
            legs
        };
        for leg in [0, 4097, 32_768, 65_535] {
            refused_by(7, with(leg), &[]);
            refused_by(7, with(leg), &bytes(&[TICK]));
            // Before the count, the length and the requests.
            refused_by(7, with(leg), &bytes(&vec![TICK; 4097]));
            refused_by(7, with(leg), &[12]);
            refused_by(7, with(leg), &bytes(&[(0, 0, 0, 0)]));
        }
        for leg in [1, 4096] {
            assert_eq!(written(with(leg), &[], 34).0, Ok(34));
        }
    }
}

#[test]
fn refused_5_length() {
    let requests = bytes(&[TICK, ENTRY]);
    for length in 0..12 {
        if length % 6 != 0 {
            refused_by(5, LEGS, &requests[..length]);
        }
    }
    // Before the requests: the first and the last of them would be refused 1.
    refused_by(5, LEGS, &[0; 7]);
    refused_by(5, LEGS, &[&requests[..], &[0]].concat());
    let mut many = bytes(&vec![TICK; 4097]);
    many[0] = 0;
    refused_by(5, LEGS, &many);
    refused_by(5, LEGS, &many[..6 * 4096 + 1]);
}

/// One request for each number from 1 to 4.
const OFFENDERS: [(u8, u8, u16, u16); 4] = [(13, 0, 7, 0), (1, 3, 7, 64), (3, 0, 0, 0), (12, 0, 0, 65)];

#[test]
fn refused_1_to_4() {
    for (number, offender) in (1..).zip(OFFENDERS) {
        for before in [0, 1, 2, 4095] {
            let mut requests = vec![TICK; before];
            requests.push(offender);
            refused_by(number, LEGS, &bytes(&requests));
            if before < 4095 {
                requests.extend([ENTRY, TICK]);
                refused_by(number, LEGS, &bytes(&requests));
            }
        }
    }
    // Kind, side, number, amount in this order.
    refused_by(1, LEGS, &[0; 6]);
    refused_by(2, LEGS, &bytes(&[(1, 0, 0, 0)]));
    refused_by(3, LEGS, &bytes(&[(1, 1, 0, 0)]));
    refused_by(4, LEGS, &bytes(&[(1, 1, 1, 0)]));
}

#[test]
fn first_offender_first() {
    for (first, offender) in (1..).zip(OFFENDERS) {
        for other in OFFENDERS {
            refused_by(first, LEGS, &bytes(&[offender, other]));
            refused_by(first, LEGS, &bytes(&[TICK, offender, TICK, other, TICK, other]));
        }
    }
}

/// The field is not asked: a request that it would refuse is written.
#[test]
fn only_the_input_rules() {
    let requests = bytes(&[(3, 0, 7, 0), (10, 0, 9, 0)]);
    let (outcome, file) = written([64; 4], &requests, 46);
    assert_eq!(outcome, Ok(46));
    assert_eq!(report(&file), "1 12 0 0 0 0 0\n2 12 0 0 0 0 0\nend 0 0 0 0 0\n");
}

/// What is written is read as exactly that; and a file that is read, whose requests keep the input rules, is written again.
#[test]
fn there_and_back() {
    let mut dice = Dice(211);
    for _ in 0..500 {
        let legs = [(); 4].map(|()| 1 + dice.below(4096) as u16);
        let drawn: Vec<Request> = (0..dice.below(40)).map(|_| dice.request(&empty(), &[1, 512], 4)).collect();
        let list: Vec<u8> = drawn.iter().flat_map(|request| request.to_bytes()).collect();
        let (outcome, buffer) = written(legs, &list, 34 + list.len() + dice.below(9));
        let file = &buffer[..outcome.expect("kept the input rules")];
        assert_eq!(PracticeFile::read(file), Ok(PracticeFile { legs_64ths: legs, requests: drawn }));
        assert_eq!(reference::author(&[&file[26..34], &list].concat()), file);
        // Any other byte: refused, or read as something else.
        for at in 0..file.len() {
            let mut other = file.to_vec();
            other[at] ^= 1 << dice.below(8);
            assert_ne!(PracticeFile::read(&other), PracticeFile::read(file));
        }
    }
}

#[test]
fn a_file_whose_requests_break_the_rules_plays_and_is_not_written() {
    let requests = [TICK, (0, 0, 0, 0)];
    assert_eq!(report(&file(LEGS, &requests)), "1 0 0 0 0 0 0\n2 1 0 0 0 0 0\nend 0 0 0 0 0\n");
    refused_by(1, LEGS, &bytes(&requests));
}

fn author(input: &[u8]) -> String {
    String::from_utf8(reference::author(input)).expect("ASCII")
}

/// The whole output of the program.
#[test]
fn legs_and_requests_as_bytes() {
    let legs = LEGS.map(u16::to_le_bytes).concat();
    let input = |requests: &[u8]| [&legs[..], requests].concat();
    assert_eq!(reference::author(&input(&[])), file(LEGS, &[]));
    assert_eq!(reference::author(&input(&bytes(&[ENTRY, TICK]))), file(LEGS, &[ENTRY, TICK]));
    assert_eq!(reference::author(&input(&bytes(&vec![TICK; 4096]))), file(LEGS, &vec![TICK; 4096]));
    assert_eq!(input(&bytes(&vec![TICK; 4096])).len(), LONGEST_INPUT);
    // Legs that are not all there; half of one is none.
    for length in 0..8 {
        assert_eq!(author(&legs[..length]), "refused 7\n");
    }
    for length in [1, 5, 7, 11, 24_577] {
        assert_eq!(author(&input(&vec![0; length])), "refused 5\n");
    }
    assert_eq!(author(&input(&bytes(&vec![TICK; 4097]))), "refused 5\n");
    for (number, offender) in (1..).zip(OFFENDERS) {
        assert_eq!(author(&input(&bytes(&[TICK, offender]))), format!("refused {number}\n"));
    }
    assert_eq!(author(&[0; 8]), "refused 7\n");
    assert_eq!(WriteRefusal::Request(Refusal::Kind).number(), 1);
}

/// One byte more than the longest input is refused as all that goes on from there.
#[test]
fn more_than_the_longest_input() {
    for legs in [LEGS, [0, 64, 64, 64]] {
        let mut input = legs.map(u16::to_le_bytes).concat();
        input.extend(bytes(&vec![TICK; 4100]));
        let expected = if legs == LEGS { "refused 5\n" } else { "refused 7\n" };
        for length in LONGEST_INPUT + 1..=input.len() {
            assert_eq!(author(&input[..length]), expected);
        }
    }
}
