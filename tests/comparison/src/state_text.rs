//! The state that a host program lends, as text: parts of it that are set, and the parts that are other after a call.
//!
//! Of a field: `legs MISSED BASE INTERMEDIATE FINAL`, `next FIX`, `sequence NUMBER ..`, `zone NUMBER NAME: AIRCRAFT, ..` and
//! `index NUMBER ZONE PLACE, ..`. Behind a bar stand the places past a length; a length that does not fit is said, `length 5:`. Of the state:
//! those of its field, the same behind `kept PLACE`, and `count NUMBER`.

use reference::history::KEPT;
use reference::index::{Entry, Index};
use reference::state::{Place, Queue, State, Stored, WAITING};

/// Places in every queue and in the sequence.
const PLACES: usize = 4;

const ZONES: [&str; 13] = [
    "3000 right",
    "3000 left",
    "2000 right",
    "2000 left",
    "lateral right",
    "lateral left",
    "missed right",
    "missed left",
    "base right",
    "base left",
    "intermediate",
    "final",
    "runway",
];

/// Nobody in any place, no legs, no next fix.
fn blank_field() -> Stored {
    let nobody = Queue { places: [Place::FREE; PLACES], length: 0 };
    let zones = std::array::from_fn(|_| nobody.clone());
    Stored {
        zones,
        sequence: [0; PLACES],
        sequence_length: 0,
        next_fix: 0,
        legs: [0; 4],
        index: Index::default(),
    }
}

/// Such a field, and as many kept ones, of which none counts.
pub fn blank() -> State {
    State { field: blank_field(), kept: std::array::from_fn(|_| blank_field()), count: 0 }
}

/// The empty field with these legs, as at a start.
fn empty_field(legs: [u64; 4]) -> Stored {
    Stored { next_fix: 1, legs, ..blank_field() }
}

/// The numbers within the lengths, each where a look through the zones finds it first, the lowest first; 0 is nobody's.
fn own_index(field: &Stored) -> Index {
    let mut entries: Vec<Entry> = Vec::new();
    for (zone, queue) in (1..).zip(&field.zones) {
        let length = usize::try_from(queue.length).map_or(PLACES, |length| length.min(PLACES));
        for (place, &Place { number, .. }) in (1..).zip(&queue.places[..length]) {
            if number != 0 && entries.iter().all(|entry| entry.number != number) {
                entries.push(Entry { number, zone, place });
            }
        }
    }
    entries.sort_by_key(|entry| entry.number);
    let mut index = Index::default();
    index.0.iter_mut().zip(entries).for_each(|(place, entry)| *place = entry);
    index
}

// ---- numbers and miles

fn number<T: std::str::FromStr>(word: &str) -> Result<T, String> {
    word.parse().map_err(|_| format!("`{word}` stands where a number that fits its place could"))
}

fn numbers<T: std::str::FromStr>(text: &str) -> Result<Vec<T>, String> {
    text.split_whitespace().map(number).collect()
}

/// The bits of miles that are said in decimal.
fn bits_of(word: &str) -> Result<u64, String> {
    let miles = word.parse().map(f64::to_bits);
    miles.map_err(|_| format!("`{word}` stands where miles could, as 1.5, 5e-324, -0.0 or NaN"))
}

/// As few decimal digits as tell these miles from all others, the sign of a zero too.
fn miles(bits: u64) -> String {
    format!("{:?}", f64::from_bits(bits))
}

// ---- one aircraft

/// `NUMBER fix FIX speed SPEED desk DESK waiting`, or `flown MILES` in its place; then `leg MILES` and `waited MILES`. What is not said is 0, and
/// `nobody` is number 0.
fn place_of(text: &str) -> Result<Place, String> {
    let mut words = text.split_whitespace();
    let mut place = Place::FREE;
    match words.next() {
        Some("nobody") => {}
        Some(word) => place.number = number(word)?,
        None => return Err(String::from("an aircraft or `nobody` could stand here")),
    }
    while let Some(word) = words.next() {
        if word == "waiting" {
            place.progress = WAITING;
            continue;
        }
        let value = words.next().ok_or_else(|| format!("what could stand behind `{word}` is missing"))?;
        match word {
            "fix" => place.fix = number(value)?,
            "speed" => place.speed = number(value)?,
            "desk" => place.desk = number(value)?,
            "flown" => place.progress = bits_of(value)?,
            "leg" => place.leg = bits_of(value)?,
            "waited" => place.waited = bits_of(value)?,
            _ => {
                return Err(format!(
                    "`{word}` stands where fix, speed, desk, waiting, flown, leg or waited could"
                ))
            }
        }
    }
    Ok(place)
}

fn place_text(place: &Place) -> String {
    let &Place { number, fix, desk, speed, progress, waited, leg } = place;
    let mut words = match number {
        0 => String::from("nobody"),
        _ => number.to_string(),
    };
    if (fix, desk, speed) != (0, 0, 0) {
        words += &format!(" fix {fix} speed {speed} desk {desk}");
    }
    match progress {
        WAITING if number == 0 => {}
        WAITING => words += " waiting",
        flown => words += &format!(" flown {}", miles(flown)),
    }
    for (name, bits) in [("leg", leg), ("waited", waited)] {
        if bits != 0 {
            words += &format!(" {name} {}", miles(bits));
        }
    }
    words
}

// ---- places with a length

/// Places from text, and their length: as many as stand before the bar, or as said.
fn places_of<T: Copy>(
    text: &str,
    free: T,
    read: impl Fn(&str) -> Result<Vec<T>, String>,
) -> Result<([T; PLACES], u64), String> {
    let (length, text) =
        match text.strip_prefix("length ").map(|rest| rest.split_once(':').unwrap_or((rest, ""))) {
            Some((length, text)) => (Some(number(length)?), text),
            None => (None, text),
        };
    let (within, past) = text.split_once('|').unwrap_or((text, ""));
    let (within, past) = (read(within)?, read(past)?);
    let length = length.unwrap_or(within.len() as u64);
    let listed = [within, past].concat();
    if listed.len() > PLACES {
        return Err(format!("{} are listed, and there are {PLACES} places", listed.len()));
    }
    let mut places = [free; PLACES];
    places[..listed.len()].copy_from_slice(&listed);
    Ok((places, length))
}

/// The same as text; `none` where nobody is in any place.
fn places_text<T: PartialEq>(
    places: &[T; PLACES],
    length: u64,
    free: &T,
    text: impl Fn(&[T]) -> String,
) -> String {
    let used = PLACES - places.iter().rev().take_while(|place| *place == free).count();
    match usize::try_from(length).ok().and_then(|length| places.split_at_checked(length)) {
        None => format!("length {length}: {}", text(&places[..used])),
        Some(([], _)) if used == 0 => String::from("none"),
        Some((within, _)) if used <= within.len() => text(within),
        Some((within, _)) => {
            format!("{} | {}", text(within), text(&places[within.len()..used])).trim_start().into()
        }
    }
}

fn queue_of(text: &str) -> Result<Queue, String> {
    let listed = |text: &str| match text.trim() {
        "" | "none" => Ok(Vec::new()),
        text => text.split(',').map(place_of).collect(),
    };
    places_of(text, Place::FREE, listed).map(|(places, length)| Queue { places, length })
}

fn queue_text(queue: &Queue) -> String {
    let text = |places: &[Place]| places.iter().map(place_text).collect::<Vec<_>>().join(", ");
    places_text(&queue.places, queue.length, &Place::FREE, text)
}

fn sequence_text(field: &Stored) -> String {
    let text = |numbers: &[u16]| numbers.iter().map(u16::to_string).collect::<Vec<_>>().join(" ");
    places_text(&field.sequence, field.sequence_length, &0, text)
}

// ---- the index

fn index_of(text: &str) -> Result<Index, String> {
    let mut index = Index::default();
    let listed: Vec<&str> = text.split(',').filter(|entry| entry.trim() != "none").collect();
    if listed.len() > index.0.len() {
        return Err(format!("{} are listed, and the index has {} places", listed.len(), index.0.len()));
    }
    for (entry, text) in index.0.iter_mut().zip(listed) {
        let words: Vec<&str> = text.split_whitespace().collect();
        let &[of, zone, place] = &words[..] else {
            return Err(format!("`{}` stands where number, zone and place could", text.trim()));
        };
        *entry = Entry { number: number(of)?, zone: number(zone)?, place: number(place)? };
    }
    Ok(index)
}

fn index_text(index: &Index) -> String {
    let unused = index.0.iter().rev().take_while(|entry| **entry == Entry::default()).count();
    let used = &index.0[..index.0.len() - unused];
    let text: Vec<String> = used.iter().map(|e| format!("{} {} {}", e.number, e.zone, e.place)).collect();
    match used {
        [] => String::from("none"),
        _ => text.join(", "),
    }
}

// ---- a field with its index

/// The zone's number and its queue, from what stands behind `zone`.
fn zone_of(text: &str) -> Result<(usize, Queue), String> {
    let (name, queue) = text.split_once(':').ok_or("a colon could stand behind the zone's name")?;
    let named = |&at: &usize| name == format!("{} {}", at + 1, ZONES[at]);
    match (0..ZONES.len()).find(named) {
        Some(at) => Ok((at, queue_of(queue.trim())?)),
        None => Err(format!("`zone {name}` is none of `zone 1 3000 right` to `zone 13 runway`")),
    }
}

/// Sets a part of a field. A zone that is set brings the field's own index with it.
fn set_part(field: &mut Stored, text: &str) -> Result<(), String> {
    match text.split_once(' ').unwrap_or((text, "")) {
        ("legs", legs) => {
            let legs: Vec<u64> = legs.split_whitespace().map(bits_of).collect::<Result<_, _>>()?;
            field.legs = legs
                .try_into()
                .map_err(|_| "four legs could stand here: missed, base, intermediate, final")?;
        }
        ("next", fix) => field.next_fix = number(fix)?,
        ("sequence", text) => {
            let listed = |text: &str| if text.trim() == "none" { Ok(Vec::new()) } else { numbers(text) };
            (field.sequence, field.sequence_length) = places_of(text, 0, listed)?;
        }
        ("zone", text) => {
            let (at, queue) = zone_of(text)?;
            field.zones[at] = queue;
            field.index = own_index(field);
        }
        ("index", text) => field.index = index_of(text)?,
        _ => {
            let parts = "legs, next, sequence, zone or index could, or kept or count of a state";
            return Err(format!("`{text}` stands where {parts}"));
        }
    }
    Ok(())
}

/// The parts of a field that are other than before.
fn other_parts(before: &Stored, after: &Stored) -> Vec<String> {
    let mut parts = Vec::new();
    if after.legs != before.legs {
        parts.push(format!("legs {}", after.legs.map(miles).join(" ")));
    }
    for (at, (queue, other)) in after.zones.iter().zip(&before.zones).enumerate() {
        if queue != other {
            parts.push(format!("zone {} {}: {}", at + 1, ZONES[at], queue_text(queue)));
        }
    }
    if (after.sequence, after.sequence_length) != (before.sequence, before.sequence_length) {
        parts.push(format!("sequence {}", sequence_text(after)));
    }
    if after.next_fix != before.next_fix {
        parts.push(format!("next {}", after.next_fix));
    }
    if after.index != before.index {
        parts.push(format!("index {}", index_text(&after.index)));
    }
    parts
}

// ---- the state

/// Sets a part of a state. With `kept none` none counts, and the eight places hold the empty field with the legs of the field.
pub fn set(state: &mut State, text: &str) -> Result<(), String> {
    if text == "kept none" {
        state.kept.fill(empty_field(state.field.legs));
        state.count = 0;
    } else if let Some(count) = text.strip_prefix("count ") {
        state.count = number(count)?;
    } else if let Some((place, part)) = text.strip_prefix("kept ").and_then(|rest| rest.split_once(' ')) {
        let places = 1..=KEPT;
        let at = number(place).ok().filter(|at| places.contains(at));
        let at: usize =
            at.ok_or_else(|| format!("`{place}` stands where a kept field's place, 1 to {KEPT}, could"))?;
        set_part(&mut state.kept[at - 1], part)?;
    } else {
        set_part(&mut state.field, text)?;
    }
    Ok(())
}

/// How a kept field differs from the one that stood in its place: as one that stood elsewhere, or part by part.
fn other_kept(before: &State, after: &State, at: usize) -> Vec<String> {
    let (was, is) = (&before.kept[at], &after.kept[at]);
    if is == was {
        return Vec::new();
    }
    if before.kept.get(at + 1) == Some(is) && before.count == KEPT as u64 {
        return vec![String::from("as the one behind it")];
    }
    if *is == before.field {
        return vec![String::from("as the field before")];
    }
    if *is == empty_field(after.field.legs) {
        return vec![String::from("as the empty field")];
    }
    other_parts(was, is)
}

/// The parts of a state that are other than before, the kept places of one kind together.
pub fn changes(before: &State, after: &State) -> Vec<String> {
    let mut lines = other_parts(&before.field, &after.field);
    let kept: Vec<Vec<String>> = (0..KEPT).map(|at| other_kept(before, after, at)).collect();
    let mut first = 0;
    for alike in kept.chunk_by(|one, next| one == next) {
        let last = first + alike.len();
        let places = if alike.len() == 1 { last.to_string() } else { format!("{} to {last}", first + 1) };
        lines.extend(alike[0].iter().map(|part| format!("kept {places} {part}")));
        first = last;
    }
    if after.count != before.count {
        lines.push(format!("count {}", after.count));
    }
    lines
}
