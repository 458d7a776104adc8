//! The eight functions of `include/baguymo.h` for a host program, called as C calls them.

use crate::library::{all_are, MARGIN};
use reference::state::{Bytes, STATE};
use reference::Parts;

extern "C" {
    fn baguymo_host_start(
        base: usize,
        intermediate: usize,
        last: usize,
        missed: usize,
        state: *mut u8,
    ) -> u16;
    fn baguymo_host_ask(
        state: *mut u8,
        desk: usize,
        kind: usize,
        side: usize,
        number: usize,
        amount: usize,
        answer: *mut usize,
    ) -> u16;
    fn baguymo_host_back(state: *mut u8, desk: usize) -> u16;
    fn baguymo_host_press(state: *mut u8, request: *mut usize, answer: *mut usize) -> u16;
    fn baguymo_host_hold_down(state: *mut u8, report: *mut usize) -> u16;
    fn baguymo_host_spacing(state: *const u8, spacing: usize, pairs: *mut usize, gaps: *mut f64) -> u16;
    fn baguymo_host_list(state: *const u8, entries: *mut usize) -> u16;
    fn baguymo_host_field(
        base: usize,
        intermediate: usize,
        last: usize,
        missed: usize,
        speed: usize,
        list: *const u8,
        length: usize,
        state: *mut u8,
    ) -> u16;
}

/// What a call answers: its number, and all that it puts elsewhere than into the state, the gaps by their bits.
#[derive(Clone, Debug, PartialEq, Eq)]
pub struct Reply {
    pub number: u16,
    pub outputs: Vec<usize>,
}

impl Reply {
    pub fn new(number: u16, outputs: &[&[usize]]) -> Reply {
        Reply { number, outputs: outputs.concat() }
    }
}

/// One call of a host program, with all that it lends but the state; its numbers are as wide as C may hand them over.
#[derive(Clone, Debug, PartialEq, Eq)]
pub enum Call {
    Start([usize; 4]),
    Ask(Parts),
    Back(usize),
    Press,
    HoldDown,
    Spacing(usize),
    List,
    Field([usize; 4], usize, Vec<u8>),
}

/// Where the library puts numbers or miles, with one more on both sides that must stay.
#[repr(C)]
struct Lent<T, const N: usize> {
    before: T,
    out: [T; N],
    after: T,
}

impl<T: Copy + PartialEq, const N: usize> Lent<T, N> {
    /// Filled with what no call puts.
    fn new(fill: T) -> Lent<T, N> {
        Lent { before: fill, out: [fill; N], after: fill }
    }

    fn out(&mut self) -> *mut T {
        self.out.as_mut_ptr()
    }
}

impl<const N: usize> Lent<usize, N> {
    fn numbers(&self) -> [usize; N] {
        assert_eq!([self.before, self.after], [usize::MAX; 2], "the library wrote beside its numbers");
        self.out
    }
}

/// A state that is lent to the library, with a margin on both sides.
pub struct Lender {
    memory: Vec<u8>,
}

const FILL: u8 = 0x5a;

impl Default for Lender {
    fn default() -> Lender {
        Lender { memory: vec![FILL; MARGIN + STATE + MARGIN] }
    }
}

impl Lender {
    pub fn state(&mut self) -> &mut Bytes {
        (&mut self.memory[MARGIN..MARGIN + STATE]).try_into().expect("the state's length")
    }

    /// Whether the bytes before and after the state are as they were.
    pub fn margins_stay(&self) -> bool {
        all_are(&self.memory[..MARGIN], FILL) && all_are(&self.memory[MARGIN + STATE..], FILL)
    }

    /// Makes a call on the state.
    pub fn call(&mut self, call: &Call) -> Reply {
        call_on(self.state(), call)
    }
}

/// A call by the library.
pub fn call_on(state: &mut Bytes, call: &Call) -> Reply {
    let mut answer = Lent::<usize, 6>::new(usize::MAX);
    let mut request = Lent::<usize, 5>::new(usize::MAX);
    let lent = state.as_mut_ptr();
    // SAFETY, for each call: no pointer is null, each is valid for what the header states, and no two stretches overlap.
    match call {
        &Call::Start([base, intermediate, last, missed]) => {
            Reply::new(unsafe { baguymo_host_start(base, intermediate, last, missed, lent) }, &[])
        }
        &Call::Ask(Parts { desk, kind, side, number, amount }) => {
            let number = unsafe { baguymo_host_ask(lent, desk, kind, side, number, amount, answer.out()) };
            Reply::new(number, &[&answer.numbers()])
        }
        &Call::Back(desk) => Reply::new(unsafe { baguymo_host_back(lent, desk) }, &[]),
        Call::Press => {
            let number = unsafe { baguymo_host_press(lent, request.out(), answer.out()) };
            Reply::new(number, &[&request.numbers(), &answer.numbers()])
        }
        Call::HoldDown => {
            let mut report = Lent::<usize, 2>::new(usize::MAX);
            let number = unsafe { baguymo_host_hold_down(lent, report.out()) };
            Reply::new(number, &[&report.numbers()])
        }
        &Call::Spacing(spacing) => {
            let mut pairs = Lent::<usize, 10>::new(usize::MAX);
            let mut gaps = Lent::<f64, 3>::new(f64::INFINITY);
            let number = unsafe { baguymo_host_spacing(lent, spacing, pairs.out(), gaps.out()) };
            assert_eq!([gaps.before, gaps.after], [f64::INFINITY; 2], "the library wrote beside the gaps");
            Reply::new(number, &[&pairs.numbers(), &gaps.out.map(|miles| miles.to_bits() as usize)])
        }
        Call::List => {
            let mut entries = Lent::<usize, 21>::new(usize::MAX);
            let number = unsafe { baguymo_host_list(lent, entries.out()) };
            Reply::new(number, &[&entries.numbers()])
        }
        &Call::Field([base, intermediate, last, missed], speed, ref list) => {
            // An empty vector has a pointer that is not null.
            let (list, length) = (list.as_ptr(), list.len());
            let number =
                unsafe { baguymo_host_field(base, intermediate, last, missed, speed, list, length, lent) };
            Reply::new(number, &[])
        }
    }
}

/// The same call by the reference.
pub fn by_reference(state: &mut Bytes, call: &Call) -> Reply {
    use reference::host;
    match call {
        &Call::Start(legs_64ths) => Reply::new(host::start(legs_64ths, state), &[]),
        &Call::Ask(parts) => {
            let (number, answer) = host::ask(state, parts);
            Reply::new(number, &[&answer])
        }
        &Call::Back(desk) => Reply::new(host::back(state, desk), &[]),
        Call::Press => {
            let (number, request, answer) = host::press(state);
            Reply::new(number, &[&request, &answer])
        }
        Call::HoldDown => {
            let (number, report) = host::hold_down(state);
            Reply::new(number, &[&report])
        }
        &Call::Spacing(spacing) => {
            let (number, pairs, gaps) = host::spacing(state, spacing);
            Reply::new(number, &[&pairs, &gaps.map(|miles| miles.to_bits() as usize)])
        }
        Call::List => {
            let (number, entries) = host::list(state);
            Reply::new(number, &[&entries])
        }
        Call::Field(legs_64ths, speed, list) => {
            Reply::new(host::field(*legs_64ths, *speed, list, state), &[])
        }
    }
}
