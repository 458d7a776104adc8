//! The proved library and the reference, plain C, or two libraries, measured on one practice file.
//!
//!   bench requests FILE                how many requests it has
//!   bench presses FILE                 how many requests the button plays after it
//!   bench time PROGRAM PROGRAM FILE N  for a play of N requests or presses, how many a second of both, and their ratio
//!   bench count PROGRAM FILE N         plays the file N times, to be counted
//!   bench same LIBRARY LIBRARY FILE    whether both write the same report
//!   bench typical                      prints the typical session in readable form
//!   bench plain SEED COUNT FILE...     tests plain C by these files and COUNT drawn ones of each kind
//!
//! A PROGRAM is library, library-judged, library-button, library-host, library-spent, reference, reference-unjudged, reference-button,
//! reference-host, reference-spent, plain, plain-button or a LIBRARY: the path of a shared one, NAME.so. Of those of a host each request is a
//! call on a state with eight kept fields; those that are spent press the button 1000 times where nobody can move, whatever the file is.

mod loaded;
mod plain;
mod processor;

use comparison::dice::Dice;
use comparison::host_calls::stuck;
use comparison::host_library::{by_reference as asked_of_reference, call_on, Call, Reply};
use comparison::library::{button_into, judged_report_into, report_into, ROOM};
use comparison::sessions::typical;
use loaded::loaded;
use plain::{plain_button_into, plain_report_into};
use processor::used;
use reference::history::KEPT;
use reference::state::{Bytes, STATE};
use reference::{PracticeFile, Request};
use std::hint::black_box;
use std::process::ExitCode;
use std::time::Duration;
use std::{env, fs};

const ROUNDS: usize = 21;
/// How long one program plays in one round.
const ROUND: Duration = Duration::from_millis(250);
const TYPICAL_SEED: u64 = 300;
const TYPICAL_REQUESTS: usize = 300;
/// Presses of a play where nobody can move.
const PRESSES: usize = 1000;

/// A way to play a file: it yields the length of the report.
type Program = Box<dyn FnMut(&[u8]) -> usize>;

fn program(name: &str) -> Program {
    match name {
        "library" => by_library(report_into),
        "library-judged" => by_library(judged_report_into),
        "library-button" => by_library(button_into),
        "library-host" => by_host(call_on),
        "library-spent" => by_presses(call_on),
        "reference-host" => by_host(asked_of_reference),
        "reference-spent" => by_presses(asked_of_reference),
        "reference" => by_reference(reference::report),
        "reference-button" => by_reference(reference::button),
        "reference-unjudged" => by_reference(reference::report_unjudged),
        "plain" => by_library(plain_report_into),
        "plain-button" => by_library(plain_button_into),
        _ if name.ends_with(".so") => by_library(loaded(name)),
        _ => panic!("no program: {name}"),
    }
}

/// The buffer is lent as the play before left it.
fn by_library<const N: usize>(play: impl Fn(&[u8], &mut [u8; N]) -> usize + 'static) -> Program {
    let mut out = Box::new([0; N]);
    Box::new(move |file| play(black_box(file), black_box(&mut out)))
}

/// The reference makes its report anew.
fn by_reference(report: fn(&[u8]) -> Vec<u8>) -> Program {
    Box::new(move |file| black_box(report(black_box(file))).len())
}

/// Each request of a file is asked of a state with the file's legs and with eight kept fields: before the first, eight ticks are asked of
/// the empty field. That state is made once, and copied for each play. Yields how many were accepted.
fn by_host(call: fn(&mut Bytes, &Call) -> Reply) -> Program {
    let mut ready: Option<(Box<Bytes>, Vec<Call>)> = None;
    let mut state = Box::new([0; STATE]);
    Box::new(move |file| {
        let (start, calls) = ready.get_or_insert_with(|| with_eight_kept(file));
        *state = **start;
        calls.iter().filter(|each| black_box(call(black_box(&mut state), each)).number == 0).count()
    })
}

fn with_eight_kept(file: &[u8]) -> (Box<Bytes>, Vec<Call>) {
    let PracticeFile { legs_64ths, requests } = PracticeFile::read(file).expect("a practice file");
    let mut state = Box::new([0; STATE]);
    let ask = |request: Request| Call::Ask(request.into());
    let ticks = [Request::new(12, 0, 0, 64); KEPT].map(ask);
    for call in [Call::Start(legs_64ths.map(usize::from))].iter().chain(&ticks) {
        assert_eq!(asked_of_reference(&mut state, call).number, 0);
    }
    (state, requests.into_iter().map(ask).collect())
}

/// Presses of the button on a field on which nobody can move, each a call of its own. Yields how many were accepted.
fn by_presses(call: fn(&mut Bytes, &Call) -> Reply) -> Program {
    let mut start = Box::new([0; STATE]);
    assert_eq!(asked_of_reference(&mut start, &stuck()).number, 0);
    let mut state = start.clone();
    Box::new(move |_| {
        *state = *start;
        (0..PRESSES).filter(|_| black_box(call(black_box(&mut state), &Call::Press)).number == 0).count()
    })
}

/// The report of a file by a shared library.
fn report(library: &str, file: &[u8]) -> Vec<u8> {
    let mut out = Box::new([0; ROOM]);
    let length = loaded(library)(file, &mut out);
    out[..length].to_vec()
}

/// Seconds of the processor that one play takes, over so many.
fn seconds(plays: usize, mut play: impl FnMut() -> usize) -> f64 {
    let start = used();
    for _ in 0..plays {
        black_box(play());
    }
    (used() - start).as_secs_f64() / plays as f64
}

/// How many plays fill a round.
fn plays_in_a_round(mut play: impl FnMut() -> usize) -> usize {
    let one = seconds(3, &mut play);
    1 + (ROUND.as_secs_f64() / one) as usize
}

fn median(mut of: Vec<f64>) -> f64 {
    of.sort_by(f64::total_cmp);
    of[of.len() / 2]
}

/// What is played in one play, by both: so many requests or presses.
fn time(mut first: Program, mut second: Program, file: &[u8], number: f64) {
    let first_plays = plays_in_a_round(|| first(file));
    let second_plays = plays_in_a_round(|| second(file));
    let (mut by_first, mut by_second, mut ratio) = (Vec::new(), Vec::new(), Vec::new());
    for _ in 0..ROUNDS {
        by_first.push(number / seconds(first_plays, || first(file)));
        by_second.push(number / seconds(second_plays, || second(file)));
        ratio.push(by_first[by_first.len() - 1] / by_second[by_second.len() - 1]);
    }
    println!("{:.0} {:.0} {}", median(by_first), median(by_second), median(ratio));
}

/// How many requests a practice file has.
fn requests(file: &[u8]) -> usize {
    PracticeFile::read(file).expect("a practice file").requests.len()
}

/// How many requests the button plays after a practice file, by the last line of its report.
fn presses(file: &[u8]) -> usize {
    let report = String::from_utf8(reference::button(file)).expect("ASCII");
    let number = report.trim_end().rsplit(' ').next().unwrap_or_default();
    number.parse().expect("a number")
}

fn main() -> ExitCode {
    let words: Vec<String> = env::args().skip(1).collect();
    let words: Vec<&str> = words.iter().map(String::as_str).collect();
    let read = |path: &str| fs::read(path).expect("a practice file");
    match words[..] {
        ["requests", path] => println!("{}", requests(&read(path))),
        ["presses", path] => println!("{}", presses(&read(path))),
        ["time", first, second, path, number] => {
            time(program(first), program(second), &read(path), number.parse().expect("how many"));
        }
        ["count", name, path, plays] => {
            let file = read(path);
            let mut play = program(name);
            for _ in 0..plays.parse().expect("how often") {
                play(&file);
            }
        }
        ["same", first, second, path] => {
            let file = read(path);
            let same = report(first, &file) == report(second, &file);
            println!("{}", if same { "the same report" } else { "different reports" });
        }
        ["typical"] => print_typical(),
        ["plain", seed, count, ref paths @ ..] => {
            let files: Vec<Vec<u8>> = paths.iter().copied().map(read).collect();
            return tested(plain::test(
                seed.parse().expect("a seed"),
                count.parse().expect("how many"),
                &files,
            ));
        }
        _ => panic!("see the head of src/main.rs"),
    }
    ExitCode::SUCCESS
}

fn tested(outcome: Result<String, String>) -> ExitCode {
    match outcome {
        Ok(compared) => {
            println!("plain C: {compared}: every report the same");
            ExitCode::SUCCESS
        }
        Err(fault) => {
            println!("{fault}\nplain C: FAILED");
            ExitCode::FAILURE
        }
    }
}

fn print_typical() {
    let practice = typical(&mut Dice::new(TYPICAL_SEED), TYPICAL_REQUESTS);
    let [base, intermediate, final_, missed] = practice.legs_64ths;
    println!("{base} {intermediate} {final_} {missed}");
    println!("# A typical session of {TYPICAL_REQUESTS} requests, from seed {TYPICAL_SEED}.");
    for Request { kind, side, number, amount, .. } in practice.requests {
        println!("{kind} {side} {number} {amount}");
    }
}
