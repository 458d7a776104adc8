//! The plain C in `plain/`, and its test: it is to write what the library and the reference write, byte for byte.

use comparison::dice::Dice;
use comparison::difference::{readable, same};
use comparison::library::{button_into, report_into, Buffer, Library, Player, ROOM};
use comparison::table::{Presses, Table};
use comparison::{damaged, fields, sessions};
use reference::PracticeFile;

extern "C" {
    fn plain_report(file: *const u8, length: usize, out: *mut u8) -> usize;
    fn plain_button(file: *const u8, length: usize, out: *mut u8) -> usize;
}

pub fn plain_report_into(file: &[u8], out: &mut Buffer) -> usize {
    // SAFETY: both pointers are valid for the lengths that plain.h states.
    unsafe { plain_report(file.as_ptr(), file.len(), out.as_mut_ptr()) }
}

pub fn plain_button_into(file: &[u8], out: &mut Buffer) -> usize {
    // SAFETY: as above.
    unsafe { plain_button(file.as_ptr(), file.len(), out.as_mut_ptr()) }
}

const REPORTS: [(&str, Player<ROOM>); 2] = [("the library", report_into), ("plain C", plain_report_into)];
const BUTTONS: [(&str, Player<ROOM>); 2] = [("the library", button_into), ("plain C", plain_button_into)];

/// Of so many damaged files that play, the button is held down after one.
const A_DAMAGED: usize = 64;
/// Random sessions for each after which the button is held down, and for each of those with edge legs and speeds, where it plays many ticks.
const A_PRESSED: usize = 4;
const AN_EDGE: usize = 50;

/// Of a longer file no requests are left out to show how it differs: that would take minutes.
const SHORTENED: usize = 34 + 6 * 512;

fn same_report(library: &mut Library, file: &[u8]) -> Result<Vec<u8>, String> {
    same(library, &REPORTS, file, reference::report(file))
}

fn same_button(library: &mut Library, file: &[u8]) -> Result<Vec<u8>, String> {
    same(library, &BUTTONS, file, reference::button(file))
}

/// How the programs differ on a file.
fn difference(
    library: &mut Library,
    same: fn(&mut Library, &[u8]) -> Result<Vec<u8>, String>,
    file: &[u8],
) -> String {
    if file.len() <= SHORTENED {
        readable(library, same, file)
    } else {
        same(library, file).err().unwrap_or_default()
    }
}

#[derive(Default)]
struct Test {
    library: Library,
    played: usize,
    pressed: usize,
    table: Table,
    presses: Presses,
}

impl Test {
    /// The reports of files.
    fn played(&mut self, what: &str, files: impl IntoIterator<Item = Vec<u8>>) -> Result<(), String> {
        let before = self.played;
        for file in files {
            self.played += 1;
            let Ok(report) = same_report(&mut self.library, &file) else {
                let how = difference(&mut self.library, same_report, &file);
                return Err(format!("{what}, file {}: {how}", self.played - before));
            };
            self.table.count(&file, &report);
        }
        println!("{what}: {} files", self.played - before);
        Ok(())
    }

    /// The reports of the button, held down after each of these files.
    fn pressed(&mut self, what: &str, files: impl IntoIterator<Item = Vec<u8>>) -> Result<(), String> {
        let before = self.pressed;
        for file in files {
            self.pressed += 1;
            let Ok(report) = same_button(&mut self.library, &file) else {
                let how = difference(&mut self.library, same_button, &file);
                return Err(format!("the button after {what}, file {}: {how}", self.pressed - before));
            };
            self.presses.count(&report);
        }
        println!("the button after {what}: {} files", self.pressed - before);
        Ok(())
    }

    fn all(&mut self, seed: u64, count: usize, given: &[Vec<u8>]) -> Result<(), String> {
        let mut dice = Dice::new(seed);
        self.played("given files", given.to_vec())?;
        self.played("damaged files", damaged::files(&mut dice))?;
        self.played("random bytes", (0..count).map(|_| damaged::random(&mut dice)))?;
        self.played("the reachable fields, numbers and miles aside", fields::files().1)?;
        self.played("random sessions", (0..count).map(|_| sessions::session(&mut dice)))?;
        self.pressed("given files", given.to_vec())?;
        let damaged = damaged::files(&mut dice).into_iter().enumerate();
        let some =
            damaged.filter(|(place, file)| place % A_DAMAGED == 0 || PracticeFile::read(file).is_err());
        self.pressed("damaged files", some.map(|(_, file)| file))?;
        self.pressed("the reachable fields, numbers and miles aside", fields::ways())?;
        let edges = (0..count / AN_EDGE).map(|_| sessions::at_the_edges(&mut dice));
        self.pressed("legs of 1 and 4096 64ths, speeds 1 and 512", edges)?;
        self.pressed("random sessions", (0..count / A_PRESSED).map(|_| sessions::session(&mut dice)))?;
        // A number, or a kind of press, that never came was not tested.
        let faults = [self.table.faults(), self.table.along_faults(), self.presses.faults()].concat();
        if faults.is_empty() {
            Ok(())
        } else {
            Err(faults.join("\n"))
        }
    }
}

/// Plays given files and so many drawn from a seed. Yields what was compared, or the first difference.
pub fn test(seed: u64, count: usize, given: &[Vec<u8>]) -> Result<String, String> {
    let mut test = Test::default();
    test.all(seed, count, given)?;
    let Test { played, pressed, table, .. } = test;
    Ok(format!("{played} files, {} requests, the button after {pressed} files", table.requests))
}
