//! A file of cases: states and a host program's calls on them, each with what it replies and what it changes.
//!
//! A line that stands at the margin begins a case, `case NAME`, with all bytes of its state zero. Lines that are indented by two say what is
//! done: `from NAME` takes a saved state and `save NAME` saves one; `set PART` sets a part of the state (`state_text`); `twice` goes on
//! with two states alike, a first and a second run, and `second PART` sets a part in the second run alone; and a call is made:
//! `start BASE INTERMEDIATE FINAL MISSED`, `ask DESK KIND SIDE NUMBER AMOUNT`, `back DESK`, `press` or `hold down`. A call that differs in
//! the second run stands behind a bar. After `try CALL` the state is as it was before. What is expected stands behind ` = `, the reply, and in
//! lines that are indented by four, each part of the state that is other after the call: where there is none, every byte is as it was.
//!
//! To play a file is to write it anew, with the replies and changes as they are. So a file that holds what is so is written as it stands.

use crate::host_library::{Call, Reply};
use crate::state_text::{blank, changes, set};
use reference::state::{Bytes, State, STATE};
use reference::Parts;
use std::collections::HashMap;
use std::thread::{self, JoinHandle};

/// One that makes calls: the library or the reference.
pub type Host = fn(&mut Bytes, &Call) -> Reply;

/// A file as it is written anew.
pub struct Played {
    pub text: String,
    pub cases: usize,
    pub calls: usize,
}

/// Plays a file, or says which of its lines cannot be read, and why.
pub fn play(host: Host, file: &str) -> Result<Played, String> {
    let mut player =
        Player { host, saved: HashMap::new(), runs: Vec::new(), written: Vec::new(), cases: 0, calls: 0 };
    for (at, line) in (1..).zip(file.lines()) {
        // what is expected is written anew
        if !line.starts_with("    ") {
            player.line(line).map_err(|why| format!("{at}: {why}"))?;
        }
    }
    let Player { written, cases, calls, .. } = player;
    Ok(Played { text: written.into_iter().map(Written::text).collect(), cases, calls })
}

/// Lines, or those of a call that is tried beside the others, since it changes nothing for them and may take long.
enum Written {
    Lines(String),
    Tried(JoinHandle<String>),
}

impl Written {
    fn text(self) -> String {
        match self {
            Written::Lines(lines) => lines,
            Written::Tried(made) => made.join().expect("the call ends"),
        }
    }
}

struct Player {
    host: Host,
    saved: HashMap<String, Box<Bytes>>,
    /// The state, or those of a first and a second run.
    runs: Vec<Box<Bytes>>,
    written: Vec<Written>,
    cases: usize,
    calls: usize,
}

impl Player {
    fn line(&mut self, line: &str) -> Result<(), String> {
        let said = line.trim_start();
        if said == line && !said.is_empty() && !said.starts_with('#') {
            line.strip_prefix("case ").ok_or_else(|| format!("`{line}` stands where `case NAME` could"))?;
            self.runs = vec![Box::new([0; STATE])];
            self.cases += 1;
        } else if !said.is_empty() && !said.starts_with('#') {
            if self.runs.is_empty() {
                return Err(String::from("`case NAME` could stand before this line"));
            }
            return self.done(said);
        }
        self.written.push(Written::Lines(format!("{line}\n")));
        Ok(())
    }

    /// A line of a case: something is set, or a call is made.
    fn done(&mut self, said: &str) -> Result<(), String> {
        match said.split_once(' ').unwrap_or((said, "")) {
            ("from", name) => {
                let saved =
                    self.saved.get(name).ok_or_else(|| format!("no state is saved as `{name}` before"))?;
                self.runs = vec![saved.clone()];
            }
            ("save", name) => drop(self.saved.insert(name.into(), self.runs[0].clone())),
            ("set", part) => self.runs.iter_mut().try_for_each(|state| set_in(state, part))?,
            ("twice", "") => self.runs = vec![self.runs[0].clone(); 2],
            ("second", part) => self.second(part)?,
            ("try", said) => {
                let (host, mut runs, calls) = (self.host, self.runs.clone(), self.calls_of(said)?);
                let made = thread::spawn(move || format!("  try {}", made(host, &mut runs, &calls)));
                self.written.push(Written::Tried(made));
                return Ok(());
            }
            _ => {
                let calls = self.calls_of(said)?;
                let made = made(self.host, &mut self.runs, &calls);
                self.written.push(Written::Lines(format!("  {made}")));
                return Ok(());
            }
        }
        self.written.push(Written::Lines(format!("  {said}\n")));
        Ok(())
    }

    /// Sets a part in the second run.
    fn second(&mut self, part: &str) -> Result<(), String> {
        match &mut self.runs[..] {
            [first, second] if part == "kept as in the first" => keep_as(first, second),
            [_, second] => set_in(second, part)?,
            _ => return Err(String::from("`twice` could stand before this line")),
        }
        Ok(())
    }

    /// The calls of a line, one for each run or one for all; what is expected of them is left out.
    fn calls_of(&mut self, said: &str) -> Result<Vec<(String, Call)>, String> {
        let named = said.split_once(" = ").map_or(said, |(named, _)| named);
        let calls: Vec<_> = named
            .split(" | ")
            .map(|text| Ok((text.into(), call_of(text)?)))
            .collect::<Result<_, String>>()?;
        if calls.len() > self.runs.len() {
            return Err(format!("{} calls stand where {} could", calls.len(), self.runs.len()));
        }
        self.calls += self.runs.len();
        Ok(calls)
    }
}

/// Makes a call in each run: the lines that say it, with its replies and what it changed.
fn made(host: Host, runs: &mut [Box<Bytes>], calls: &[(String, Call)]) -> String {
    let mut replies = Vec::new();
    let mut changed = Vec::new();
    for (run, state) in runs.iter_mut().enumerate() {
        let (_, call) = &calls[run.min(calls.len() - 1)];
        let before = state.clone();
        replies.push(reply_text(call, &host(state, call)));
        changed.push(changed_by(call, &before, state));
    }
    let named: Vec<&str> = calls.iter().map(|(text, _)| text.as_str()).collect();
    let lines: String = together(&changed).iter().map(|line| format!("    {line}\n")).collect();
    format!("{} = {}\n{lines}", named.join(" | "), replies.join(" | "))
}

/// The lines of all runs; those of one run alone name it.
fn together(runs: &[Vec<String>]) -> Vec<String> {
    let [first, second] = runs else { return runs.concat() };
    let of_first = first.iter().map(|line| match second.contains(line) {
        true => line.clone(),
        false => format!("first {line}"),
    });
    let of_second = second.iter().filter(|line| !first.contains(line)).map(|line| format!("second {line}"));
    of_first.chain(of_second).collect()
}

/// Sets a part of a state. What is not set keeps its bits, but for a NaN, of which there is one.
fn set_in(bytes: &mut Bytes, part: &str) -> Result<(), String> {
    let mut state = State::read(bytes);
    set(&mut state, part)?;
    *bytes = state.to_bytes();
    Ok(())
}

/// The second run has the kept fields of the first.
fn keep_as(first: &Bytes, second: &mut Bytes) {
    let kept = State::read(first).kept;
    *second = State { kept, ..State::read(second) }.to_bytes();
}

fn call_of(text: &str) -> Result<Call, String> {
    let known = "start, ask, back, press or `hold down`, with its numbers";
    let other =
        || format!("`{text}` stands where a call could ({known}), or from, save, set, twice, second or try");
    let mut words = text.split_whitespace();
    let name = words.next().ok_or_else(other)?;
    if text == "hold down" {
        return Ok(Call::HoldDown);
    }
    let numbers: Vec<usize> =
        words.map(|word| word.parse().map_err(|_| other())).collect::<Result<_, _>>()?;
    match (name, &numbers[..]) {
        ("start", &[base, intermediate, last, missed]) => Ok(Call::Start([base, intermediate, last, missed])),
        ("ask", &[desk, kind, side, number, amount]) => {
            Ok(Call::Ask(Parts { desk, kind, side, number, amount }))
        }
        ("back", &[desk]) => Ok(Call::Back(desk)),
        ("press", []) => Ok(Call::Press),
        _ => Err(other()),
    }
}

/// The numbers of a reply: of a press the request before its answer. An answer begins with the call's number, which is said by itself where
/// it is another.
fn reply_text(call: &Call, Reply { number, outputs }: &Reply) -> String {
    let text = |numbers: &[usize]| numbers.iter().map(usize::to_string).collect::<Vec<_>>().join(" ");
    let answer = |answer: &[usize]| match answer[0] == usize::from(*number) {
        true => text(answer),
        false => format!("returned {number}, answered {}", text(answer)),
    };
    match call {
        Call::Ask(_) => answer(outputs),
        Call::Press => format!("{}, {}", text(&outputs[..5]), answer(&outputs[5..])),
        _ => format!("{number} {}", text(outputs)).trim_end().into(),
    }
}

/// What a call changed; of a start, which does not read the state, all that is not zero and waiting.
fn changed_by(call: &Call, before: &Bytes, after: &Bytes) -> Vec<String> {
    if before == after {
        return Vec::new();
    }
    let read = match call {
        Call::Start(_) => blank(),
        _ => State::read(before),
    };
    match changes(&read, &State::read(after)) {
        lines if lines.is_empty() => vec![String::from("other bits of a NaN")],
        lines => lines,
    }
}
