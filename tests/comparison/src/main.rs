//! Plays many practice files by the proved library, with the fields judged
//! and not, and by the reference, many binders by both, and many files after
//! which the button is held down, and after which the spacing or a list of the
//! classroom dialect is asked for, has both write practice files, build the
//! fields of such lists, and answer the calls of a host program, and those by
//! two desks: comparison [SEED [COUNT]], COUNT random sessions, as many fields,
//! a tenth as many random binders, a tenth as many for the button, a quarter for
//! the spacing, for the list, and to be written, a tenth as many lists of calls
//! of a host, a twentieth as many of calls by two desks. The last line says how
//! many of them were compared, and the verdict.

use comparison::desk_table::DeskTable;
use comparison::dice::Dice;
use comparison::difference::{
    readable, readable_binder, readable_desks, readable_field, readable_lesson, same_button, same_desks,
    same_field, same_list, same_report, same_spacing, same_week, same_writing,
};
use comparison::hosted::{self, Hosted};
use comparison::lessons::Lesson;
use comparison::library::Library;
use comparison::list_table::{Built, Lists};
use comparison::spacings::{at_a_spacing, spacing, Spaced};
use comparison::table::{Gaps, Presses, Table, Weeks, Writings};
use comparison::{binders, damaged, desk_lists, fields, lessons, lists, sessions};
use reference::binder::to_bytes;
use reference::PracticeFile;
use std::path::Path;
use std::process::ExitCode;
use std::{env, fs};

const SEED: u64 = 1;
const COUNT: usize = 20_000;
/// Random sessions for each random binder.
const A_BINDER: usize = 10;
/// Random sessions for each after which the button is held down, and for each of those with edge legs and speeds.
const A_PRESSED: usize = 10;
const AN_EDGE: usize = 100;
/// Random sessions for each after which the spacing is asked for.
const A_SPACED: usize = 4;
/// Random sessions for each list that is to be written.
const A_WRITTEN: usize = 4;
/// Random sessions for each after which the list is asked for.
const A_LISTED: usize = 4;
/// Random sessions for each list of calls of a host, and for each list of calls by two desks.
const A_HOSTED: usize = 10;
const A_CALLED: usize = 20;
/// Damaged files that play for each after which the button is held down.
const A_DAMAGED: usize = 16;

#[derive(Default)]
struct Comparison {
    library: Library,
    compared: usize,
    /// How often a file was played, and refused 5, 6 and 7.
    played: usize,
    refused: [usize; 3],
    binders: usize,
    weeks: Weeks,
    /// Files after which the button was held down.
    pressed: usize,
    presses: Presses,
    /// Files after which the spacing was asked for.
    spaced: usize,
    gaps: Gaps,
    /// Lists that were written or refused.
    written: usize,
    writings: Writings,
    /// Files after which the list was asked for.
    listed: usize,
    lists: Lists,
    /// Lists of which a field was to be built.
    built: usize,
    fields: Built,
    /// Calls of a host program.
    hosted: Hosted,
    /// Lists of calls by two desks.
    called: usize,
    desks: DeskTable,
}

impl Comparison {
    /// The report of one file. A difference is an error.
    fn file(&mut self, file: &[u8]) -> Result<Vec<u8>, String> {
        self.compared += 1;
        let Ok(report) = same_report(&mut self.library, file) else {
            return Err(format!(
                "file {} differs: {}",
                self.compared,
                readable(&mut self.library, same_report, file)
            ));
        };
        match report.strip_prefix(b"file ") {
            None => self.played += 1,
            Some(number) => self.refused[usize::from(number[0] - b'5')] += 1,
        }
        Ok(report)
    }

    fn files(&mut self, what: &str, files: impl IntoIterator<Item = Vec<u8>>) -> Result<(), String> {
        let before = self.compared;
        for file in files {
            self.file(&file)?;
        }
        println!("{what}: {} files", self.compared - before);
        Ok(())
    }

    /// Random sessions, and the table of their answers. Its faults are an error.
    fn sessions(&mut self, dice: &mut Dice, count: usize) -> Result<(), String> {
        let mut table = Table::default();
        for _ in 0..count {
            let file = sessions::session(dice);
            let report = self.file(&file)?;
            table.count(&file, &report);
        }
        println!("random sessions: {count} files, {} requests, answered so often:", table.requests);
        print!("{table}");
        none_of([table.faults(), table.along_faults()].concat())
    }

    fn binders(&mut self, what: &str, binders: impl IntoIterator<Item = Vec<u8>>) -> Result<(), String> {
        let before = self.binders;
        for binder in binders {
            self.binders += 1;
            let Ok(report) = same_week(&mut self.library, &binder) else {
                let how = readable_binder(&mut self.library, &binder);
                return Err(format!("binder {} differs: {how}", self.binders));
            };
            self.weeks.count(&report);
        }
        println!("{what}: {} binders", self.binders - before);
        Ok(())
    }

    /// Files after which the button is held down.
    fn pressed(&mut self, what: &str, files: impl IntoIterator<Item = Vec<u8>>) -> Result<(), String> {
        let before = self.pressed;
        for file in files {
            self.pressed += 1;
            let Ok(report) = same_button(&mut self.library, &file) else {
                let how = readable(&mut self.library, same_button, &file);
                return Err(format!("the button after file {} differs: {how}", self.pressed));
            };
            self.presses.count(&report);
        }
        println!("the button after {what}: {} files", self.pressed - before);
        Ok(())
    }

    /// Files after which the spacing is asked for, each by its own.
    fn spaced(&mut self, what: &str, files: impl IntoIterator<Item = Spaced>) -> Result<(), String> {
        let before = self.spaced;
        for (file, spacing) in files {
            self.spaced += 1;
            let Ok(report) = same_spacing(&mut self.library, &file, spacing) else {
                let how =
                    readable(&mut self.library, |library, file| same_spacing(library, file, spacing), &file);
                return Err(format!("spacing {spacing} after file {} differs: {how}", self.spaced));
            };
            self.gaps.count(&report);
        }
        println!("the spacing after {what}: {} files", self.spaced - before);
        Ok(())
    }

    /// Legs and requests that are to be written.
    fn written(&mut self, what: &str, lessons: impl IntoIterator<Item = Lesson>) -> Result<(), String> {
        let before = self.written;
        for lesson in lessons {
            self.written += 1;
            let Ok(number) = same_writing(&mut self.library, &lesson) else {
                let how = readable_lesson(&mut self.library, &lesson);
                return Err(format!("writing {} differs: {how}", self.written));
            };
            self.writings.count(&lesson, number);
        }
        println!("writing {what}: {} lists", self.written - before);
        Ok(())
    }

    /// Files after which the list is asked for.
    fn listed(&mut self, what: &str, files: impl IntoIterator<Item = Vec<u8>>) -> Result<(), String> {
        let before = self.listed;
        for file in files {
            self.listed += 1;
            let Ok(report) = same_list(&mut self.library, &file) else {
                let how = readable(&mut self.library, same_list, &file);
                return Err(format!("the list after file {} differs: {how}", self.listed));
            };
            self.lists.count(&report);
        }
        println!("the list after {what}: {} files", self.listed - before);
        Ok(())
    }

    /// Legs, a speed and a list of which a field is to be built.
    fn built(&mut self, what: &str, inputs: impl IntoIterator<Item = Vec<u8>>) -> Result<(), String> {
        let before = self.built;
        for input in inputs {
            self.built += 1;
            let Ok(report) = same_field(&mut self.library, &input) else {
                let how = readable_field(&mut self.library, &input);
                return Err(format!("the field of list {} differs: {how}", self.built));
            };
            self.fields.count(&report);
        }
        println!("the field of {what}: {} lists", self.built - before);
        Ok(())
    }

    /// Legs and calls by two desks.
    fn called(&mut self, what: &str, inputs: impl IntoIterator<Item = Vec<u8>>) -> Result<(), String> {
        let before = self.called;
        for input in inputs {
            self.called += 1;
            let Ok(report) = same_desks(&mut self.library, &input) else {
                let how = readable_desks(&mut self.library, &input);
                return Err(format!("list {} of calls by two desks differs: {how}", self.called));
            };
            self.desks.count(&input, &report);
        }
        println!("calls by two desks, {what}: {} lists", self.called - before);
        Ok(())
    }
}

fn none_of(faults: Vec<String>) -> Result<(), String> {
    match faults {
        faults if faults.is_empty() => Ok(()),
        faults => Err(faults.join("\n") + "\n"),
    }
}

/// The files beside the stored sessions.
fn stored() -> Vec<Vec<u8>> {
    let folder = Path::new(env!("CARGO_MANIFEST_DIR")).join("../../crates/cases/data");
    let mut paths: Vec<_> = fs::read_dir(folder)
        .expect("the stored sessions")
        .map(|entry| entry.expect("entry").path())
        .collect();
    paths.retain(|path| path.extension().is_some_and(|extension| extension == "scap"));
    paths.sort();
    assert!(!paths.is_empty(), "no stored sessions");
    paths.iter().map(|path| fs::read(path).expect("a stored session")).collect()
}

fn all(comparison: &mut Comparison, seed: u64, count: usize) -> Result<(), String> {
    let mut dice = Dice::new(seed);
    comparison.files("stored sessions", stored())?;
    comparison.files("damaged files", damaged::files(&mut dice))?;
    comparison.files("random bytes", (0..count).map(|_| damaged::random(&mut dice)))?;
    let (fields, files) = fields::files();
    comparison.files(&format!("the {fields} reachable fields, numbers and miles aside"), files)?;
    comparison.sessions(&mut dice, count)?;
    let Comparison { played, refused: [five, six, seven], .. } = *comparison;
    println!("{played} files played, {five} refused 5, {six} refused 6, {seven} refused 7");
    if [played, five, six, seven].contains(&0) {
        return Err(String::from("one of these never came\n"));
    }
    all_binders(comparison, &mut dice, count / A_BINDER)?;
    all_pressed(comparison, &mut dice, count)?;
    all_spaced(comparison, &mut dice, count)?;
    all_written(comparison, &mut dice, count)?;
    all_listed(comparison, &mut dice, count)?;
    all_built(comparison, &mut dice, count)?;
    all_hosted(comparison, &mut dice, count)?;
    all_desks(comparison, &mut dice, count)
}

fn all_binders(comparison: &mut Comparison, dice: &mut Dice, count: usize) -> Result<(), String> {
    let packed = binders::packed(dice).into_iter().chain([to_bytes(&stored())]);
    comparison.binders("one, two and 64 files, of each kind at each place, and the stored ones", packed)?;
    comparison.binders("damaged tables", binders::damaged_tables(dice))?;
    comparison.binders("sums that pass 32 bits or less", binders::wrapping(dice))?;
    comparison.binders("sizes and counts at the limits", binders::at_the_limits(dice))?;
    comparison.binders("random binders", (0..count).map(|_| binders::random(dice)))?;
    println!("{}", comparison.weeks);
    none_of(comparison.weeks.faults())
}

fn all_pressed(comparison: &mut Comparison, dice: &mut Dice, count: usize) -> Result<(), String> {
    comparison.pressed("stored sessions", stored())?;
    let damaged = damaged::files(dice).into_iter().enumerate();
    let some = damaged.filter(|(place, file)| place % A_DAMAGED == 0 || PracticeFile::read(file).is_err());
    comparison.pressed("damaged files, of those that play one in 16", some.map(|(_, file)| file))?;
    comparison.pressed("random bytes", (0..count / A_PRESSED).map(|_| damaged::random(dice)))?;
    comparison.pressed("the reachable fields, numbers and miles aside", fields::ways())?;
    let edges = (0..count / AN_EDGE).map(|_| sessions::at_the_edges(dice)).chain([sessions::slowest()]);
    comparison.pressed("legs of 1 and 4096 64ths, speeds 1 and 512", edges)?;
    comparison.pressed("random sessions", (0..count / A_PRESSED).map(|_| sessions::session(dice)))?;
    println!("{}", comparison.presses);
    none_of(comparison.presses.faults())
}

fn all_spaced(comparison: &mut Comparison, dice: &mut Dice, count: usize) -> Result<(), String> {
    let spacings = [0, 1, 2, 63, 64, 65, 192, 511, 512, 513, 32_768, 65_535, 65_600, usize::MAX];
    let each = |file: Vec<u8>| spacings.map(|spacing| (file.clone(), spacing));
    comparison.spaced("stored sessions, by each of 14 spacings", stored().into_iter().flat_map(each))?;
    comparison.spaced("two who are about a spacing apart", at_a_spacing())?;
    let damaged = damaged::files(dice);
    comparison.spaced("damaged files", damaged.into_iter().map(|file| (file, spacing(dice))))?;
    let ways = fields::ways().map(|file| (file, spacing(dice)));
    comparison.spaced("the reachable fields, numbers and miles aside", ways)?;
    let edges = (0..count / AN_EDGE).map(|_| (sessions::at_the_edges(dice), spacing(dice)));
    comparison.spaced("legs of 1 and 4096 64ths, speeds 1 and 512", edges)?;
    let sessions = (0..count / A_SPACED).map(|_| (sessions::session(dice), spacing(dice)));
    comparison.spaced("random sessions", sessions)?;
    println!("{}", comparison.gaps);
    none_of(comparison.gaps.faults())
}

fn all_written(comparison: &mut Comparison, dice: &mut Dice, count: usize) -> Result<(), String> {
    comparison.written("short lists, in buffers of each length", lessons::every_room(dice))?;
    comparison.written("edge legs, before each other fault", lessons::edge_legs(dice))?;
    comparison.written("lengths about none and 4,096 requests", lessons::lengths(dice))?;
    comparison.written("one offender and two, at each place", lessons::offenders(dice))?;
    comparison.written("each byte of a list with each value", lessons::damaged(dice))?;
    comparison.written("4,096 requests, all kept or one offender", lessons::longest(dice))?;
    comparison.written("random lists", (0..count / A_WRITTEN).map(|_| lessons::random(dice)))?;
    println!("{}", comparison.writings);
    none_of(comparison.writings.faults())
}

fn all_listed(comparison: &mut Comparison, dice: &mut Dice, count: usize) -> Result<(), String> {
    comparison.listed("stored sessions", stored())?;
    comparison.listed("damaged files", damaged::files(dice))?;
    comparison.listed("the reachable fields, numbers and miles aside", fields::ways())?;
    comparison.listed("random sessions", (0..count / A_LISTED).map(|_| sessions::session(dice)))?;
    println!("{}", comparison.lists);
    none_of(comparison.lists.faults())
}

fn all_built(comparison: &mut Comparison, dice: &mut Dice, count: usize) -> Result<(), String> {
    comparison.built("up to five at each location, by both fixes", lists::patterns(dice))?;
    if comparison.fields.fields() != lists::PATTERNS {
        return Err(format!(
            "{} of these have a field, not {}\n",
            comparison.fields.fields(),
            lists::PATTERNS
        ));
    }
    comparison.built("each number of a list with others", lists::each_number(dice))?;
    comparison.built("edge legs and speeds, before each other fault", lists::in_order(dice))?;
    comparison.built("each byte of an input with each value", lists::damaged(dice))?;
    comparison.built("inputs of each length up to seven, and long ones", lists::lengths(dice))?;
    comparison.built("random inputs", (0..count).map(|_| lists::random(dice)))?;
    println!("{}", comparison.fields);
    none_of(comparison.fields.faults())
}

fn all_hosted(comparison: &mut Comparison, dice: &mut Dice, count: usize) -> Result<(), String> {
    let hosted = &mut comparison.hosted;
    hosted::all(hosted, dice, count / A_HOSTED)?;
    println!("{}", hosted.table);
    none_of(hosted.table.faults())
}

fn all_desks(comparison: &mut Comparison, dice: &mut Dice, count: usize) -> Result<(), String> {
    let sessions = stored().into_iter().flat_map(|file| desk_lists::of_session(dice, &file));
    comparison.called("stored sessions by one, the other and both", sessions)?;
    comparison.called("edge legs, before each other fault", desk_lists::edge_legs(dice))?;
    comparison.called("each byte of an input with each value", desk_lists::damaged(dice))?;
    comparison.called("lengths up to 40 bytes and about 4,096 calls", desk_lists::lengths(dice))?;
    comparison.called("random lists", (0..count / A_CALLED).map(|_| desk_lists::random(dice)))?;
    println!("{}", comparison.desks);
    none_of(comparison.desks.faults())
}

fn argument<T: std::str::FromStr>(place: usize, default: T) -> T {
    match env::args().nth(place) {
        Some(word) => word.parse().unwrap_or_else(|_| panic!("not a number: {word}")),
        None => default,
    }
}

fn main() -> ExitCode {
    let (seed, count) = (argument(1, SEED), argument(2, COUNT));
    let mut comparison = Comparison::default();
    let outcome = all(&mut comparison, seed, count);
    let Comparison { compared, binders, pressed, spaced, written, listed, built, hosted, called, .. } =
        comparison;
    let calls = hosted.calls;
    let counted = format!(
        "{compared} files (seed {seed}), fields judged and not, {binders} binders, the button after {pressed} \
         files, the spacing after {spaced} and the list after {listed}, {written} lists to be written, \
         {built} fields of lists, {calls} calls of a host and {called} lists of calls by two desks"
    );
    match outcome {
        Ok(()) => {
            println!("compare: {counted}: every report, file, number and state the same");
            ExitCode::SUCCESS
        }
        Err(fault) => {
            print!("{fault}");
            println!("compare: FAILED after {counted}");
            ExitCode::FAILURE
        }
    }
}
