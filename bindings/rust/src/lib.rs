//! The floating point unit, safely: libfpu.a behind references, which are valid and do not overlap. It needs core alone: no std, and no heap.
#![no_std]

/// the version of include/fpu.h and of this wrapper, with a last part of 0: "1.0.0" for 1.0.
pub const VERSION: &str = env!("CARGO_PKG_VERSION");

pub const STATE_WORDS: usize = 53;
/// the marks of a machine of which every place is known: bit p is that of place p.
pub const MARKS_ALL: u64 = (1 << STATE_WORDS) - 1;
pub const ANSWER_WORDS: usize = 5;
/// the answer's words of `origin`.
pub const ORIGIN_ANSWER_WORDS: usize = 8;
/// how many pairs a chain has at most for each word that was run.
pub const PAIRS_PER_WORD: usize = 8;
/// the most words of a list.
pub const LIST_MOST_WORDS: usize = 4096;
/// the most words of a window.
pub const WINDOW_MOST_WORDS: usize = 16384;
/// the most routines that `grant` takes.
pub const MOST_ROUTINES: usize = 8;
/// the bytes of a register sheet: 16 lines of 40 characters and a line feed.
pub const SHEET_BYTES: usize = 656;

/// the cumulative exceptions, FPSCR 4:0, as word 52 of a state has them.
pub mod exception {
    pub const INVALID: u32 = 1;
    pub const DIVISION_BY_ZERO: u32 = 2;
    pub const OVERFLOW: u32 = 4;
    pub const UNDERFLOW: u32 = 8;
    pub const INEXACT: u32 = 16;
}

extern "C" {
    fn fpu_new(state: *mut u32, state_words: usize) -> u32;
    fn fpu_data_processing(state: *mut u32, state_words: usize, thumb: u32, word: u32, answer: *mut u32, answer_words: usize) -> u32;
    fn fpu_coprocessor_register(state: *mut u32, state_words: usize, thumb: u32, word: u32, answer: *mut u32, answer_words: usize) -> u32;
    fn fpu_coprocessor_load_store(
        state: *mut u32,
        state_words: usize,
        window: *mut u32,
        window_words: usize,
        base: u32,
        thumb: u32,
        word: u32,
        answer: *mut u32,
        answer_words: usize,
    ) -> u32;
    fn fpu_run(
        state: *mut u32,
        state_words: usize,
        window: *mut u32,
        window_words: usize,
        base: u32,
        thumb: u32,
        list: *const u32,
        list_words: usize,
        answer: *mut u32,
        answer_words: usize,
    ) -> u32;
    fn fpu_watch(
        state: *mut u32,
        state_words: usize,
        marks: *mut u64,
        window: *mut u32,
        window_words: usize,
        window_marks: *mut u8,
        window_marks_bytes: usize,
        base: u32,
        thumb: u32,
        list: *const u32,
        list_words: usize,
        answer: *mut u32,
        answer_words: usize,
    ) -> u32;
    fn fpu_origin(
        state: *mut u32,
        state_words: usize,
        marks: *mut u64,
        window: *mut u32,
        window_words: usize,
        window_marks: *mut u8,
        window_marks_bytes: usize,
        base: u32,
        thumb: u32,
        list: *const u32,
        list_words: usize,
        place: u32,
        pairs: *mut u32,
        pairs_words: usize,
        answer: *mut u32,
        answer_words: usize,
    ) -> u32;
    fn fpu_replay(
        record: *const u8,
        record_bytes: usize,
        state: *mut u32,
        state_words: usize,
        marks: *mut u64,
        window: *mut u32,
        window_words: usize,
        window_marks: *mut u8,
        window_marks_bytes: usize,
        answer: *mut u32,
        answer_words: usize,
    ) -> u32;
    fn fpu_check_condition(condition: u32, nzcv: u32) -> u32;
    fn fpu_operation(word: u32) -> u32;
    fn fpu_sheet(state: *const u32, state_words: usize, marks: u64, page: *mut u8, page_bytes: usize) -> u32;
    fn fpu_grant(
        period: u32,
        shares: *const u32,
        shares_words: usize,
        limits: *const u32,
        limits_words: usize,
        left: *const u32,
        left_words: usize,
        grants: *mut u32,
        grants_words: usize,
    ) -> u32;
}

/// The functions as C has them, over slices of any length: the result, as include/fpu.h numbers it.
pub mod raw {
    pub fn new(state: &mut [u32]) -> u32 {
        unsafe { super::fpu_new(state.as_mut_ptr(), state.len()) }
    }

    pub fn data_processing(state: &mut [u32], thumb: u32, word: u32, answer: &mut [u32]) -> u32 {
        unsafe { super::fpu_data_processing(state.as_mut_ptr(), state.len(), thumb, word, answer.as_mut_ptr(), answer.len()) }
    }

    pub fn coprocessor_register(state: &mut [u32], thumb: u32, word: u32, answer: &mut [u32]) -> u32 {
        unsafe { super::fpu_coprocessor_register(state.as_mut_ptr(), state.len(), thumb, word, answer.as_mut_ptr(), answer.len()) }
    }

    pub fn coprocessor_load_store(state: &mut [u32], window: &mut [u32], base: u32, thumb: u32, word: u32, answer: &mut [u32]) -> u32 {
        unsafe {
            super::fpu_coprocessor_load_store(
                state.as_mut_ptr(),
                state.len(),
                window.as_mut_ptr(),
                window.len(),
                base,
                thumb,
                word,
                answer.as_mut_ptr(),
                answer.len(),
            )
        }
    }

    pub fn run(state: &mut [u32], window: &mut [u32], base: u32, thumb: u32, list: &[u32], answer: &mut [u32]) -> u32 {
        unsafe {
            super::fpu_run(
                state.as_mut_ptr(),
                state.len(),
                window.as_mut_ptr(),
                window.len(),
                base,
                thumb,
                list.as_ptr(),
                list.len(),
                answer.as_mut_ptr(),
                answer.len(),
            )
        }
    }

    #[allow(clippy::too_many_arguments)]
    pub fn watch(
        state: &mut [u32],
        marks: &mut u64,
        window: &mut [u32],
        window_marks: &mut [u8],
        base: u32,
        thumb: u32,
        list: &[u32],
        answer: &mut [u32],
    ) -> u32 {
        unsafe {
            super::fpu_watch(
                state.as_mut_ptr(),
                state.len(),
                marks,
                window.as_mut_ptr(),
                window.len(),
                window_marks.as_mut_ptr(),
                window_marks.len(),
                base,
                thumb,
                list.as_ptr(),
                list.len(),
                answer.as_mut_ptr(),
                answer.len(),
            )
        }
    }

    #[allow(clippy::too_many_arguments)]
    pub fn origin(
        state: &mut [u32],
        marks: &mut u64,
        window: &mut [u32],
        window_marks: &mut [u8],
        base: u32,
        thumb: u32,
        list: &[u32],
        place: u32,
        pairs: &mut [u32],
        answer: &mut [u32],
    ) -> u32 {
        unsafe {
            super::fpu_origin(
                state.as_mut_ptr(),
                state.len(),
                marks,
                window.as_mut_ptr(),
                window.len(),
                window_marks.as_mut_ptr(),
                window_marks.len(),
                base,
                thumb,
                list.as_ptr(),
                list.len(),
                place,
                pairs.as_mut_ptr(),
                pairs.len(),
                answer.as_mut_ptr(),
                answer.len(),
            )
        }
    }

    pub fn replay(
        record: &[u8],
        state: &mut [u32],
        marks: &mut u64,
        window: &mut [u32],
        window_marks: &mut [u8],
        answer: &mut [u32],
    ) -> u32 {
        unsafe {
            super::fpu_replay(
                record.as_ptr(),
                record.len(),
                state.as_mut_ptr(),
                state.len(),
                marks,
                window.as_mut_ptr(),
                window.len(),
                window_marks.as_mut_ptr(),
                window_marks.len(),
                answer.as_mut_ptr(),
                answer.len(),
            )
        }
    }

    pub fn check_condition(condition: u32, nzcv: u32) -> u32 {
        unsafe { super::fpu_check_condition(condition, nzcv) }
    }

    pub fn operation(word: u32) -> u32 {
        unsafe { super::fpu_operation(word) }
    }

    pub fn sheet(state: &[u32], marks: u64, page: &mut [u8]) -> u32 {
        unsafe { super::fpu_sheet(state.as_ptr(), state.len(), marks, page.as_mut_ptr(), page.len()) }
    }

    pub fn grant(period: u32, shares: &[u32], limits: &[u32], left: &[u32], grants: &mut [u32]) -> u32 {
        unsafe {
            super::fpu_grant(
                period,
                shares.as_ptr(),
                shares.len(),
                limits.as_ptr(),
                limits.len(),
                left.as_ptr(),
                left.len(),
                grants.as_mut_ptr(),
                grants.len(),
            )
        }
    }
}

/// How a call ends.
#[derive(Clone, Copy, PartialEq, Eq, Debug)]
pub enum Exit {
    Nothing,
    Undefined { address: u32, word: u32 },
    Branched,
    Refused(u8),
}

/// Why a run stopped.
#[derive(Clone, Copy, PartialEq, Eq, Debug)]
pub enum Stop {
    Finished,
    Foreign,
    Undefined { address: u32, word: u32 },
    Branched,
    Hangs(u32),
    Refused(u8),
}

/// A stop, and how many words were counted.
#[derive(Clone, Copy, PartialEq, Eq, Debug)]
pub struct Ran {
    pub stop: Stop,
    pub count: u32,
    /// after a watched run or a replay, a refused one too, how many places are known, the window's among them; else 0.
    pub known: u32,
}

/// A state with a bit outside a place's own: nothing was done.
#[derive(Clone, Copy, PartialEq, Eq, Debug)]
pub struct InvalidArgument;

/// Where an unknown place came from: a place that is unknown at the start, and the links to the place asked for, each the index of a word in the list,
/// from 0, and the place that a step of it made unknown.
#[derive(Clone, Copy, PartialEq, Eq, Debug)]
pub struct Chain<'a> {
    pub first: u32,
    pub links: &'a [[u32; 2]],
}

/// A machine: the 53 words of its state, and its Thumb bit.
#[derive(Clone, Copy, PartialEq, Eq, Debug)]
pub struct Machine {
    pub state: [u32; STATE_WORDS],
    pub thumb: bool,
}

impl Default for Machine {
    fn default() -> Self {
        Self::new()
    }
}

fn exit(kind: u32, answer: [u32; ANSWER_WORDS]) -> Result<Exit, InvalidArgument> {
    match kind {
        0 => Ok(Exit::Nothing),
        2 => Ok(Exit::Undefined { address: answer[2], word: answer[3] }),
        3 => Ok(Exit::Branched),
        102..=104 => Ok(Exit::Refused((kind - 100) as u8)),
        255 => Err(InvalidArgument),
        _ => unreachable!("kind {kind}"),
    }
}

fn ran(kind: u32, answer: [u32; ANSWER_WORDS]) -> Result<Ran, InvalidArgument> {
    let stop = match kind {
        0 => Stop::Finished,
        1 => Stop::Foreign,
        2 => Stop::Undefined { address: answer[2], word: answer[3] },
        3 => Stop::Branched,
        4 => Stop::Hangs(answer[1]),
        101..=107 | 109 | 110 => Stop::Refused((kind - 100) as u8),
        255 => return Err(InvalidArgument),
        _ => unreachable!("kind {kind}"),
    };
    Ok(Ran { stop, count: answer[0], known: answer[4] })
}

impl Machine {
    /// in ARM state.
    pub fn new() -> Machine {
        let mut state = [0; STATE_WORDS];
        assert_eq!(raw::new(&mut state), 0);
        Machine { state, thumb: false }
    }

    pub fn data_processing(&mut self, word: u32) -> Result<Exit, InvalidArgument> {
        let mut answer = [0; ANSWER_WORDS];
        exit(raw::data_processing(&mut self.state, self.thumb as u32, word, &mut answer), answer)
    }

    pub fn coprocessor_register(&mut self, word: u32) -> Result<Exit, InvalidArgument> {
        let mut answer = [0; ANSWER_WORDS];
        exit(raw::coprocessor_register(&mut self.state, self.thumb as u32, word, &mut answer), answer)
    }

    pub fn coprocessor_load_store(&mut self, window: &mut [u32], base: u32, word: u32) -> Result<Exit, InvalidArgument> {
        let mut answer = [0; ANSWER_WORDS];
        exit(raw::coprocessor_load_store(&mut self.state, window, base, self.thumb as u32, word, &mut answer), answer)
    }

    pub fn run(&mut self, window: &mut [u32], base: u32, list: &[u32]) -> Result<Ran, InvalidArgument> {
        let mut answer = [0; ANSWER_WORDS];
        ran(raw::run(&mut self.state, window, base, self.thumb as u32, list, &mut answer), answer)
    }

    /// bit p of marks is 1 where place p is known, and a window mark where its word is, else 0. Bits 53 to 63 change nothing and are 0 after a
    /// run that is not refused.
    pub fn watch(
        &mut self,
        marks: &mut u64,
        window: &mut [u32],
        window_marks: &mut [u8],
        base: u32,
        list: &[u32],
    ) -> Result<Ran, InvalidArgument> {
        let mut answer = [0; ANSWER_WORDS];
        ran(raw::watch(&mut self.state, marks, window, window_marks, base, self.thumb as u32, list, &mut answer), answer)
    }

    /// the watched run, and where a place came from that is unknown after it; word i of the window is place 53 + i. The links go to the front of `pairs`, and
    /// `PAIRS_PER_WORD` for each word of the list are always enough. Turned away: the run's refusal, which is its stop too, or 11 where the place is beyond
    /// the map, 12 where it is known after the run, or 13 where `pairs` has fewer than `PAIRS_PER_WORD` for each word that was run.
    #[allow(clippy::too_many_arguments)]
    pub fn origin<'a>(
        &mut self,
        marks: &mut u64,
        window: &mut [u32],
        window_marks: &mut [u8],
        base: u32,
        list: &[u32],
        place: u32,
        pairs: &'a mut [[u32; 2]],
    ) -> Result<(Ran, Result<Chain<'a>, TurnedAway>), InvalidArgument> {
        let mut answer = [0; ORIGIN_ANSWER_WORDS];
        let (thumb, laid) = (self.thumb as u32, pairs.as_flattened_mut());
        let kind = raw::origin(&mut self.state, marks, window, window_marks, base, thumb, list, place, laid, &mut answer);
        let [count, at, address, word, known, refusal, first, links] = answer;
        let ran = ran(kind, [count, at, address, word, known])?;
        let chain = match (ran.stop, refusal) {
            (Stop::Refused(n), _) => Err(TurnedAway(n)),
            (_, 0) => Ok(Chain { first, links: &pairs[..links as usize] }),
            (_, refusal) => Err(TurnedAway((refusal - 100) as u8)),
        };
        Ok((ran, chain))
    }

    /// whether an instruction of this condition, in its low four bits, is executed.
    pub fn check_condition(&self, condition: u32) -> Result<bool, InvalidArgument> {
        match raw::check_condition(condition, self.state[51]) {
            255 => Err(InvalidArgument),
            held => Ok(held == 1),
        }
    }

    /// the register sheet: a line for each double with its number, its high and low word, and K or U for each, by its bit of marks.
    pub fn sheet(&self, marks: u64) -> Result<[u8; SHEET_BYTES], InvalidArgument> {
        let mut page = [0; SHEET_BYTES];
        match raw::sheet(&self.state, marks, &mut page) {
            0 => Ok(page),
            255 => Err(InvalidArgument),
            refused => unreachable!("result {refused}"),
        }
    }
}

/// The machine in ARM state that the replay of a record leaves, the marks of its places, and how it ended. The record's window and its marks are laid into
/// the two buffers, which have to be as long; a refusal leaves them as they came, the machine new and every mark 0.
pub fn replay(record: &[u8], window: &mut [u32], window_marks: &mut [u8]) -> (Machine, u64, Ran) {
    let (mut state, mut marks, mut answer) = ([0; STATE_WORDS], 0, [0; ANSWER_WORDS]);
    let kind = raw::replay(record, &mut state, &mut marks, window, window_marks, &mut answer);
    match ran(kind, answer) {
        Ok(ran) => (Machine { state, thumb: false }, marks, ran),
        Err(InvalidArgument) => unreachable!("the lengths are right"),
    }
}

/// The operations of data processing, one for both precisions, in the order of their numbers.
#[derive(Clone, Copy, PartialEq, Eq, Debug)]
pub enum Operation {
    Undefined,
    Fmac,
    Fnmac,
    Fmsc,
    Fnmsc,
    Fmul,
    Fnmul,
    Fadd,
    Fsub,
    Fdiv,
    Fcpy,
    Fabs,
    Fneg,
    Fsqrt,
    Fcmp,
    Fcmpe,
    Fcmpz,
    Fcmpez,
    Fcvt,
    Fuito,
    Fsito,
    Ftoui,
    Ftouiz,
    Ftosi,
    Ftosiz,
}

/// Every operation, by its number.
pub const OPERATIONS: [Operation; 25] = {
    use Operation::*;
    [
        Undefined, Fmac, Fnmac, Fmsc, Fnmsc, Fmul, Fnmul, Fadd, Fsub, Fdiv, Fcpy, Fabs, Fneg,
        Fsqrt, Fcmp, Fcmpe, Fcmpz, Fcmpez, Fcvt, Fuito, Fsito, Ftoui, Ftouiz, Ftosi, Ftosiz,
    ]
};

/// the operation of a data-processing word, by its bits 23:20, 19:16, 7 and 6 alone.
pub fn operation(word: u32) -> Operation {
    OPERATIONS[raw::operation(word) as usize]
}

/// A routine that takes words of a period.
#[derive(Clone, Copy, PartialEq, Eq, Debug)]
pub struct Routine {
    pub share: u32,
    pub limit: u32,
    pub left: u32,
}

/// The refusal that turns something away: routines 14, 15 or 16, an origin 1 to 7, 11, 12 or 13.
#[derive(Clone, Copy, PartialEq, Eq, Debug)]
pub struct TurnedAway(pub u8);

/// What each routine is granted of a period, in their order, and 0 after the last.
pub fn grant(period: u32, routines: &[Routine]) -> Result<[u32; MOST_ROUTINES], TurnedAway> {
    // room for one too many, so that the unit turns them away
    const ROOM: usize = MOST_ROUTINES + 1;
    let (mut shares, mut limits, mut left, mut grants) = ([0; ROOM], [0; ROOM], [0; ROOM], [0; ROOM]);
    let n = routines.len().min(ROOM);
    for (i, routine) in routines[..n].iter().enumerate() {
        (shares[i], limits[i], left[i]) = (routine.share, routine.limit, routine.left);
    }
    match raw::grant(period, &shares[..n], &limits[..n], &left[..n], &mut grants[..n]) {
        0 => {
            let [granted @ .., _] = grants;
            Ok(granted)
        }
        refused => Err(TurnedAway((refused - 100) as u8)),
    }
}
