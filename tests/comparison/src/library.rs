//! The proved library, called as C calls it.

extern "C" {
    /// A `&[u8]` as pointer and length, and the buffer as a pointer.
    fn baguymo_report(file: *const u8, length: usize, out: *mut u8) -> usize;
    fn baguymo_report_judged(file: *const u8, length: usize, out: *mut u8) -> usize;
    fn baguymo_week(binder: *const u8, length: usize, out: *mut u8) -> usize;
    fn baguymo_button(file: *const u8, length: usize, out: *mut u8) -> usize;
    fn baguymo_spacing(file: *const u8, length: usize, spacing: usize, out: *mut u8) -> usize;
    fn baguymo_list(file: *const u8, length: usize, out: *mut u8) -> usize;
    fn baguymo_field(input: *const u8, length: usize, out: *mut u8) -> usize;
    fn baguymo_desks(input: *const u8, length: usize, out: *mut u8) -> usize;
    /// Two slices, and a number that is lent.
    fn baguymo_write(
        base: usize,
        intermediate: usize,
        last: usize,
        missed: usize,
        requests: *const u8,
        length: usize,
        out: *mut u8,
        room: usize,
        size: *mut usize,
    ) -> u16;
}

/// Bytes of the buffer that the library is lent for the report of a file, of a binder, of the button or of calls by two desks.
pub const ROOM: usize = 131_072;
/// The same for the spacing.
pub const SHORT_ROOM: usize = 1024;
/// The same for both directions of the classroom dialect.
pub const CLASSROOM_ROOM: usize = 512;

pub type Buffer = [u8; ROOM];
pub type ShortBuffer = [u8; SHORT_ROOM];
pub type ClassroomBuffer = [u8; CLASSROOM_ROOM];

/// Plays a file or a binder into a buffer, and yields the length of the report.
pub type Player<const N: usize> = fn(&[u8], &mut [u8; N]) -> usize;

/// Both functions of the library for a file. The second judges the field before and after every request.
pub const PLAYERS: [(&str, Player<ROOM>); 2] =
    [("the library", report_into), ("the judging library", judged_report_into)];

/// Its function for a binder.
pub const WEEK: [(&str, Player<ROOM>); 1] = [("the library", week_into)];

/// Its function for the button.
pub const BUTTON: [(&str, Player<ROOM>); 1] = [("the library", button_into)];

/// Its functions for the classroom dialect: the list after a file, and the field of a list.
pub const LIST: [(&str, Player<CLASSROOM_ROOM>); 1] = [("the library", list_into)];
pub const FIELD: [(&str, Player<CLASSROOM_ROOM>); 1] = [("the library", field_into)];

/// Its function for calls by two desks.
pub const DESKS: [(&str, Player<ROOM>); 1] = [("the library", desks_into)];

pub fn report_into(file: &[u8], out: &mut Buffer) -> usize {
    // SAFETY: both pointers are valid for the lengths that the library's signature states.
    unsafe { baguymo_report(file.as_ptr(), file.len(), out.as_mut_ptr()) }
}

pub fn judged_report_into(file: &[u8], out: &mut Buffer) -> usize {
    // SAFETY: as above.
    unsafe { baguymo_report_judged(file.as_ptr(), file.len(), out.as_mut_ptr()) }
}

pub fn week_into(binder: &[u8], out: &mut Buffer) -> usize {
    // SAFETY: as above.
    unsafe { baguymo_week(binder.as_ptr(), binder.len(), out.as_mut_ptr()) }
}

pub fn button_into(file: &[u8], out: &mut Buffer) -> usize {
    // SAFETY: as above.
    unsafe { baguymo_button(file.as_ptr(), file.len(), out.as_mut_ptr()) }
}

pub fn spacing_into(file: &[u8], spacing: usize, out: &mut ShortBuffer) -> usize {
    // SAFETY: as above.
    unsafe { baguymo_spacing(file.as_ptr(), file.len(), spacing, out.as_mut_ptr()) }
}

pub fn list_into(file: &[u8], out: &mut ClassroomBuffer) -> usize {
    // SAFETY: as above.
    unsafe { baguymo_list(file.as_ptr(), file.len(), out.as_mut_ptr()) }
}

pub fn field_into(input: &[u8], out: &mut ClassroomBuffer) -> usize {
    // SAFETY: as above.
    unsafe { baguymo_field(input.as_ptr(), input.len(), out.as_mut_ptr()) }
}

pub fn desks_into(input: &[u8], out: &mut Buffer) -> usize {
    // SAFETY: as above.
    unsafe { baguymo_desks(input.as_ptr(), input.len(), out.as_mut_ptr()) }
}

/// Writes a practice file to the start of a buffer, and yields its number and its length.
pub fn write_into(
    [base, intermediate, last, missed]: [usize; 4],
    requests: &[u8],
    out: &mut [u8],
) -> (u16, usize) {
    // What the library does not write stays as it is, and is no length.
    let mut sizes = [usize::MAX; 3];
    let (length, room) = (requests.len(), out.len());
    // SAFETY: as above; the three stretches do not overlap, and no pointer is null.
    let number = unsafe {
        baguymo_write(
            base,
            intermediate,
            last,
            missed,
            requests.as_ptr(),
            length,
            out.as_mut_ptr(),
            room,
            &mut sizes[1],
        )
    };
    assert_eq!([sizes[0], sizes[2]], [usize::MAX; 2], "the library wrote beside the length");
    (number, sizes[1])
}

/// Bytes before and after the buffer that must stay as they are.
pub const MARGIN: usize = 4096;

/// A buffer with a margin on both sides.
pub struct Library {
    memory: Vec<u8>,
    fill: u8,
}

impl Default for Library {
    fn default() -> Library {
        Library { memory: vec![0; MARGIN + ROOM + MARGIN], fill: 0 }
    }
}

impl Library {
    /// The report of a file or a binder, or what else the library wrote than a
    /// report. What the buffer holds before is another byte each time.
    pub fn report<const N: usize>(
        &mut self,
        play: impl Fn(&[u8], &mut [u8; N]) -> usize,
        input: &[u8],
    ) -> Result<&[u8], String> {
        self.fill = self.fill.wrapping_add(101);
        let memory = &mut self.memory[..MARGIN + N + MARGIN];
        memory.fill(self.fill);
        let buffer = &mut memory[MARGIN..MARGIN + N];
        let length = play(input, buffer.try_into().expect("the buffer's length"));
        if length > N {
            return Err(format!("says that its report has {length} bytes"));
        }
        let (before, rest) = memory.split_at(MARGIN);
        let (report, after) = rest.split_at(length);
        if !all_are(before, self.fill) || !all_are(after, self.fill) {
            return Err(String::from("wrote outside its report"));
        }
        Ok(report)
    }
}

/// Whether all bytes are this one. No branch for each of them, so that it is fast.
pub fn all_are(bytes: &[u8], byte: u8) -> bool {
    bytes.iter().fold(0, |differing, &other| differing | (other ^ byte)) == 0
}
