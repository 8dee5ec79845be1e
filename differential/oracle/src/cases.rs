//! Cases: machines, words and windows, random and structured, and the operation that a word is.

use crate::{Call, STATE};

/// splitmix64.
pub struct Random(pub u64);

impl Random {
    pub fn next(&mut self) -> u64 {
        self.0 = self.0.wrapping_add(0x9E37_79B9_7F4A_7C15);
        let mut z = self.0;
        z = (z ^ (z >> 30)).wrapping_mul(0xBF58_476D_1CE4_E5B9);
        z = (z ^ (z >> 27)).wrapping_mul(0x94D0_49BB_1331_11EB);
        z ^ (z >> 31)
    }

    pub fn word(&mut self) -> u32 {
        (self.next() >> 32) as u32
    }

    pub fn below(&mut self, n: u32) -> u32 {
        ((self.word() as u64 * n as u64) >> 32) as u32
    }

    pub fn pick<T: Copy>(&mut self, from: &[T]) -> T {
        from[self.below(from.len() as u32) as usize]
    }

    pub fn once_in(&mut self, n: u32) -> bool {
        self.below(n) == 0
    }
}

/// operations by name, as the table counts them; a word's width is its coprocessor.
pub const OPERATIONS: [&str; 47] = [
    "FMAC", "FNMAC", "FMSC", "FNMSC", "FMUL", "FNMUL", "FADD", "FSUB", "FDIV", "FCPY", "FABS", "FNEG", "FSQRT", "FCMP", "FCMPE",
    "FCMPZ", "FCMPEZ", "FCVT", "FUITO", "FSITO", "FTOUI", "FTOUIZ", "FTOSI", "FTOSIZ", "undefined", "to single", "from single",
    "from single to r15", "FMXR FPSCR", "FMXR FPEXC", "FMXR other", "FMRX FPSID", "FMRX FPSCR", "FMRX FPEXC", "FMRX other",
    "FMRX FPSCR to r15", "FMRX FPEXC to r15", "FMRX other to r15", "other opc1", "pair to core", "pair from core", "load one",
    "load several", "store one", "store several", "load/store write-back", "load/store elsewhere",
];

fn field(word: u32, lo: u32, width: u32) -> u32 {
    word >> lo & ((1 << width) - 1)
}

/// the number in OPERATIONS of what a call does with a word.
pub fn operation(call: Call, word: u32) -> usize {
    let f = |lo, width| field(word, lo, width);
    let name = match call {
        Call::DataProcessing if !matches!(f(8, 4), 10 | 11) => "undefined",
        Call::DataProcessing => match (f(20, 4) & 0b1011, f(6, 1)) {
            (0, 0) => "FMAC",
            (0, _) => "FNMAC",
            (1, 0) => "FMSC",
            (1, _) => "FNMSC",
            (2, 0) => "FMUL",
            (2, _) => "FNMUL",
            (3, 0) => "FADD",
            (3, _) => "FSUB",
            (8, 0) => "FDIV",
            (11, 1) => match (f(16, 4), f(7, 1)) {
                (0, 0) => "FCPY",
                (0, _) => "FABS",
                (1, 0) => "FNEG",
                (1, _) => "FSQRT",
                (4, 0) => "FCMP",
                (4, _) => "FCMPE",
                (5, 0) => "FCMPZ",
                (5, _) => "FCMPEZ",
                (7, 1) => "FCVT",
                (8, 0) => "FUITO",
                (8, _) => "FSITO",
                (12, 0) => "FTOUI",
                (12, _) => "FTOUIZ",
                (13, 0) => "FTOSI",
                (13, _) => "FTOSIZ",
                _ => "undefined",
            },
            _ => "undefined",
        },
        Call::CoprocessorRegister | Call::Wrapper => match (f(21, 3), f(20, 1), f(16, 4), f(12, 4)) {
            (0, 0, ..) => "to single",
            (0, _, _, 15) => "from single to r15",
            (0, ..) => "from single",
            (7, 0, 1, _) => "FMXR FPSCR",
            (7, 0, 8, _) => "FMXR FPEXC",
            (7, 0, ..) => "FMXR other",
            (7, _, 1, 15) => "FMRX FPSCR to r15",
            (7, _, 8, 15) => "FMRX FPEXC to r15",
            (7, _, _, 15) => "FMRX other to r15",
            (7, _, 0, _) => "FMRX FPSID",
            (7, _, 1, _) => "FMRX FPSCR",
            (7, _, 8, _) => "FMRX FPEXC",
            (7, ..) => "FMRX other",
            _ => "other opc1",
        },
        Call::LoadStore if !matches!(f(8, 4), 10 | 11) => "load/store elsewhere",
        Call::LoadStore if f(21, 7) == 0b110_0010 => if f(20, 1) == 1 { "pair to core" } else { "pair from core" },
        Call::LoadStore if f(21, 1) == 1 => "load/store write-back",
        Call::LoadStore => match (f(20, 1), f(24, 1)) {
            (1, 1) => "load one",
            (1, _) => "load several",
            (_, 1) => "store one",
            _ => "store several",
        },
    };
    OPERATIONS.iter().position(|&n| n == name).unwrap()
}

/// the calls' words by kind: each row has the bits that are fixed and their mask. The coprocessor is added later.
const FIXED: [(Call, u32, u32); 46] = [
    (Call::DataProcessing, 0x0E00_0000, 0x0FB0_0050),
    (Call::DataProcessing, 0x0E00_0040, 0x0FB0_0050),
    (Call::DataProcessing, 0x0E10_0000, 0x0FB0_0050),
    (Call::DataProcessing, 0x0E10_0040, 0x0FB0_0050),
    (Call::DataProcessing, 0x0E20_0000, 0x0FB0_0050),
    (Call::DataProcessing, 0x0E20_0040, 0x0FB0_0050),
    (Call::DataProcessing, 0x0E30_0000, 0x0FB0_0050),
    (Call::DataProcessing, 0x0E30_0040, 0x0FB0_0050),
    (Call::DataProcessing, 0x0E80_0000, 0x0FB0_0050),
    (Call::DataProcessing, 0x0EB0_0040, 0x0FBF_00D0),
    (Call::DataProcessing, 0x0EB0_00C0, 0x0FBF_00D0),
    (Call::DataProcessing, 0x0EB1_0040, 0x0FBF_00D0),
    (Call::DataProcessing, 0x0EB1_00C0, 0x0FBF_00D0),
    (Call::DataProcessing, 0x0EB4_0040, 0x0FBF_00D0),
    (Call::DataProcessing, 0x0EB4_00C0, 0x0FBF_00D0),
    (Call::DataProcessing, 0x0EB5_0040, 0x0FBF_00D0),
    (Call::DataProcessing, 0x0EB5_00C0, 0x0FBF_00D0),
    (Call::DataProcessing, 0x0EB7_00C0, 0x0FBF_00D0),
    (Call::DataProcessing, 0x0EB8_0040, 0x0FBF_00D0),
    (Call::DataProcessing, 0x0EB8_00C0, 0x0FBF_00D0),
    (Call::DataProcessing, 0x0EBC_0040, 0x0FBF_00D0),
    (Call::DataProcessing, 0x0EBC_00C0, 0x0FBF_00D0),
    (Call::DataProcessing, 0x0EBD_0040, 0x0FBF_00D0),
    (Call::DataProcessing, 0x0EBD_00C0, 0x0FBF_00D0),
    (Call::DataProcessing, 0x0E00_0000, 0x0F00_0000),
    (Call::CoprocessorRegister, 0x0E00_0010, 0x0FF0_0010),
    (Call::CoprocessorRegister, 0x0E10_0010, 0x0FF0_0010),
    (Call::CoprocessorRegister, 0x0E10_F010, 0x0FF0_F010),
    (Call::CoprocessorRegister, 0x0EE1_0010, 0x0FFF_0010),
    (Call::CoprocessorRegister, 0x0EE8_0010, 0x0FFF_0010),
    (Call::CoprocessorRegister, 0x0EE0_0010, 0x0FF0_0010),
    (Call::CoprocessorRegister, 0x0EF0_0010, 0x0FFF_0010),
    (Call::CoprocessorRegister, 0x0EF1_0010, 0x0FFF_0010),
    (Call::CoprocessorRegister, 0x0EF8_0010, 0x0FFF_0010),
    (Call::CoprocessorRegister, 0x0EF0_0010, 0x0FF0_0010),
    (Call::CoprocessorRegister, 0x0EF1_F010, 0x0FFF_F010),
    (Call::CoprocessorRegister, 0x0EF8_F010, 0x0FFF_F010),
    (Call::CoprocessorRegister, 0x0EF0_F010, 0x0FF0_F010),
    (Call::CoprocessorRegister, 0x0E00_0010, 0x0F00_0010),
    (Call::LoadStore, 0x0C40_0010, 0x0FE0_00D0),
    (Call::LoadStore, 0x0C40_0000, 0x0FE0_0000),
    (Call::LoadStore, 0x0D10_0000, 0x0F30_0000),
    (Call::LoadStore, 0x0D00_0000, 0x0F30_0000),
    (Call::LoadStore, 0x0C10_0000, 0x0F30_0000),
    (Call::LoadStore, 0x0C00_0000, 0x0F30_0000),
    (Call::LoadStore, 0x0C20_0000, 0x0E20_0000),
];

/// what a comparison says that it leaves out.
pub const LEFT_OUT: &str = "left out: transfers of opc1 1 under coprocessor 11, the high halves of doubles (2026-01); words that round, in modes 01, 10 and 11 (2026-06); the bits of a NaN result where FPSCR bit 25 is clear (2026-12); which of FPSCR 4:0 a number operation sets (2026-07)";

/// the transfers that a comparison leaves out: opc1 1 under coprocessor 11, where vfp.rs does nothing. The unit moves the high half of a double
/// there, by the manual (request 2026-01), and its definition judges these words.
pub fn left_out(word: u32) -> bool {
    field(word, 21, 3) == 1 && field(word, 8, 4) == 11
}

/// the words that round by the mode of FPSCR 23:22: arithmetic, roots, narrowing, an integer as a single (request 2026-06). vfp.rs rounds them to
/// nearest in every mode, so that they are compared in mode 00 alone; differential/modes compares the other modes with this machine's.
pub fn rounds(call: Call, word: u32) -> bool {
    match OPERATIONS[operation(call, word)] {
        "FMAC" | "FNMAC" | "FMSC" | "FNMSC" | "FMUL" | "FNMUL" | "FADD" | "FSUB" | "FDIV" | "FSQRT" => true,
        "FCVT" => field(word, 8, 4) == 11,
        "FUITO" | "FSITO" => field(word, 8, 4) == 10,
        _ => false,
    }
}

/// the number operations: they set FPSCR 4:0 by their operands (request 2026-07), and vfp.rs leaves them as they were. Moves, sign changes and what is
/// Undefined set none.
pub fn is_number_operation(call: Call, word: u32) -> bool {
    call == Call::DataProcessing && !matches!(OPERATIONS[operation(call, word)], "FCPY" | "FABS" | "FNEG" | "undefined")
}

/// mode 00 where the word rounds.
pub fn to_nearest(call: Call, word: u32, state: &mut [u32; STATE]) {
    if rounds(call, word) {
        state[49] &= !(3 << 22);
    }
}

/// a word of every kind in turn, but those left out: `kind` is any number.
pub fn word(r: &mut Random, kind: u64) -> (Call, u32) {
    loop {
        let (call, word) = any_word(r, kind);
        if call != Call::CoprocessorRegister || !left_out(word) {
            return (call, word);
        }
    }
}

fn any_word(r: &mut Random, kind: u64) -> (Call, u32) {
    let (call, fixed, mask) = FIXED[(kind % FIXED.len() as u64) as usize];
    let mut word = r.word() & !mask | fixed;
    if call == Call::LoadStore {
        // few registers, as a rule; and a core register that `machine` points at the window
        if !r.once_in(4) {
            word = word & !0xF0 | r.below(2) << 4;
        }
        if r.once_in(50) {
            word = r.word();
        }
    }
    if r.once_in(64) {
        word = r.word();
    }
    let coprocessor = if r.once_in(40) { r.below(16) } else { 10 + r.below(2) };
    (call, word & !0xF00 | coprocessor << 8)
}

const SINGLES: [u32; 40] = [
    0x0000_0000, 0x8000_0000, 0x0000_0001, 0x8000_0001, 0x0000_0002, 0x007F_FFFF, 0x807F_FFFF, 0x0080_0000, 0x8080_0000, 0x0080_0001,
    0x00FF_FFFF, 0x0100_0000, 0x3F80_0000, 0xBF80_0000, 0x3F80_0001, 0x3F7F_FFFF, 0x3F00_0000, 0xBF00_0000, 0x3FC0_0000, 0xBFC0_0000,
    0x4020_0000, 0xC020_0000, 0x4000_0000, 0x4F00_0000, 0xCF00_0000, 0x4EFF_FFFF, 0xCF00_0001, 0x4F80_0000, 0x4F7F_FFFF, 0x4B00_0001,
    0x4AFF_FFFF, 0x7F7F_FFFF, 0xFF7F_FFFF, 0x7F80_0000, 0xFF80_0000, 0x7FC0_0000, 0xFFC0_0000, 0x7F80_0001, 0x7FFF_FFFF, 0xFFA5_5A5A,
];

const DOUBLES: [u64; 44] = [
    0x0000_0000_0000_0000, 0x8000_0000_0000_0000, 0x0000_0000_0000_0001, 0x8000_0000_0000_0001, 0x000F_FFFF_FFFF_FFFF, 0x0010_0000_0000_0000,
    0x8010_0000_0000_0000, 0x0010_0000_0000_0001, 0x001F_FFFF_FFFF_FFFF, 0x3FF0_0000_0000_0000, 0xBFF0_0000_0000_0000, 0x3FF0_0000_0000_0001,
    0x3FEF_FFFF_FFFF_FFFF, 0x3FE0_0000_0000_0000, 0xBFE0_0000_0000_0000, 0x3FF8_0000_0000_0000, 0xC004_0000_0000_0000, 0x4000_0000_0000_0000,
    0x41DF_FFFF_FFC0_0000, 0x41DF_FFFF_FFE0_0000, 0x41E0_0000_0000_0000, 0xC1E0_0000_0000_0000, 0xC1E0_0000_0010_0000, 0xC1E0_0000_0020_0000,
    0x41EF_FFFF_FFE0_0000, 0x41EF_FFFF_FFF0_0000, 0x41F0_0000_0000_0000, 0x4330_0000_0000_0001, 0x432F_FFFF_FFFF_FFFF, 0x3FF0_0000_1000_0000,
    0x3FF0_0000_3000_0000, 0x47EF_FFFF_E000_0000, 0x47EF_FFFF_F000_0000, 0x47EF_FFFF_EFFF_FFFF, 0x3690_0000_0000_0000, 0x3690_0000_0000_0001,
    0x380F_FFFF_FFFF_FFFF, 0x36A8_0000_0000_0000, 0x7FEF_FFFF_FFFF_FFFF, 0x7FF0_0000_0000_0000, 0xFFF0_0000_0000_0000, 0x7FF8_0000_0000_0000,
    0x7FF0_0000_0000_0001, 0xFFF8_0000_DEAD_BEEF,
];

/// the bits of a single: special, near a special one, a small whole number or half, near one, or random.
pub fn single(r: &mut Random) -> u32 {
    match r.below(8) {
        0 | 1 => r.pick(&SINGLES),
        2 => r.pick(&SINGLES).wrapping_add(r.below(5)).wrapping_sub(2),
        3 => (r.below(64) as f32 / 2.0 - 16.0).to_bits(),
        4 => r.word() & 0x807F_FFFF | (96 + r.below(64)) << 23,
        5 => r.word() & 0x80FF_FFFF,
        _ => r.word(),
    }
}

pub fn double(r: &mut Random) -> u64 {
    match r.below(12) {
        0 | 1 => r.pick(&DOUBLES),
        2 => r.pick(&DOUBLES).wrapping_add(r.below(5) as u64).wrapping_sub(2),
        3 => (r.below(64) as f64 / 2.0 - 16.0).to_bits(),
        4 => r.next() & 0x800F_FFFF_FFFF_FFFF | ((991 + r.below(64)) as u64) << 52,
        5 => r.next() & 0x801F_FFFF_FFFF_FFFF,
        // near the singles, halfway between two of them, and below the least of them
        6..=8 => (f32::from_bits(single(r)) as f64).to_bits().wrapping_add(r.pick(&[0, 1, 1 << 28, (1 << 28) + 1, (1 << 28) + 1, (1 << 28) - 1])),
        9 => r.next() & 0x800F_FFFF_FFFF_FFFF | ((870 + r.below(40)) as u64) << 52,
        _ => r.next(),
    }
}

/// a window's words: mostly few, now and then the most that there may be. Its base: near either end of the address space, or
/// anywhere. Rarely outside the limits.
pub fn window(r: &mut Random, window: &mut Vec<u32>) -> u32 {
    let words = match r.below(1024) {
        0 => 16384 + r.below(3) as usize - 1,
        1..=40 => r.below(600) as usize,
        41..=140 => 0,
        _ => 1 + r.below(24) as usize,
    };
    window.clear();
    for i in 0..words {
        window.push(if i < 64 { r.word() } else { i as u32 });
    }
    let most = (1u64 << 32) - 4 * words as u64;
    let base = match r.below(8) {
        0 => 0,
        1 => 4 * r.below(64),
        2 => most.min(0xFFFF_FFFC) as u32,
        3 => (most as u32).wrapping_sub(4 * r.below(64)),
        _ => (r.next() % most) as u32 & !3,
    };
    match r.below(200) {
        0 => base.wrapping_add(1 + r.below(3)),
        1 => (most as u32).wrapping_add(4 * (1 + r.below(8))),
        _ => base,
    }
}

/// a machine's 53 words. Core registers point mostly into or near the window.
pub fn machine(r: &mut Random, state: &mut [u32; STATE], base: u32, words: usize) {
    let wide = r.below(3);
    for i in 0..16 {
        if wide == 0 || wide == 1 && r.once_in(2) {
            let d = double(r);
            state[2 * i] = d as u32;
            state[2 * i + 1] = (d >> 32) as u32;
        } else {
            state[2 * i] = single(r);
            state[2 * i + 1] = single(r);
        }
    }
    for i in 32..48 {
        state[i] = match r.below(8) {
            0 => r.word(),
            1 => r.pick(&[0, 1, 4, 7, 8, 0xFFFF_FFFF, 0xFFFF_FFFC, 0x8000_0000, 0x7FFF_FFFF]),
            _ => base.wrapping_add(4 * r.below(words as u32 + 24)).wrapping_sub(48).wrapping_add(if r.once_in(8) { r.below(4) } else { 0 }),
        };
    }
    let control = match r.below(4) {
        0 => 0,
        1 => r.word(),
        // one iteration or several, by stride 1 or 2, in each rounding mode, flushing or not, with default NaNs or not
        _ => r.below(8) << 16 | r.pick(&[0, 0, 1, 2, 3, 3]) << 20 | r.below(4) << 22 | r.below(4) << 24,
    };
    state[48] = r.word() & 0xF000_0000;
    state[49] = control & 0x0FFF_FFE0;
    state[52] = control & 0x1F;
    state[50] = r.word();
    state[51] = r.word() & 0xF000_0000;
}
