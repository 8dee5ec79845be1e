//! The lists: each is 4,096 words of one mix, with registers drawn anew for every word, and the machine and window that it starts from.

use oracle::cases::Random;
use oracle::STATE;

pub const WORDS: usize = 4096;
pub const BASE: u32 = 0x1000;
pub const WINDOW: usize = 1024;

/// the single that the watched run is told to be unknown: a source, so that marks of both kinds are made. No list hangs on it.
pub const UNKNOWN: usize = 9;

pub struct Mix {
    pub name: &'static str,
    pub list: Vec<u32>,
    pub state: [u32; STATE],
    /// whether the rounding mode shows in what its words give
    pub rounds: bool,
}

/// Sources are s8..s23 (d4..d11), which no word of arithmetic writes, so that operands stay ordinary numbers; targets are the others.
const SOURCES: [u32; 16] = [8, 9, 10, 11, 12, 13, 14, 15, 16, 17, 18, 19, 20, 21, 22, 23];

/// ordinary positive numbers in s8..s23, singles or doubles; the window's address in r1; the control bits.
fn machine(r: &mut Random, double: bool, control: u32) -> [u32; STATE] {
    let mut state = [0; STATE];
    for i in 0..32 {
        state[i] = if double && i % 2 == 1 { 0x3FD0_0000 + r.below(0x50_0000) } else if double { r.word() } else { 0x3E80_0000 + r.below(0x0200_0000) };
    }
    state[33] = BASE;
    state[49] = control;
    state[50] = 0x4000_0000;
    state
}

fn any(r: &mut Random, of: &[u32]) -> u32 {
    of[r.below(of.len() as u32) as usize]
}

fn d(double: bool, x: u32) -> u32 {
    if double { (x & 15) << 12 | (x >> 4) << 22 } else { (x >> 1) << 12 | (x & 1) << 22 }
}

fn n(double: bool, x: u32) -> u32 {
    if double { (x & 15) << 16 | (x >> 4) << 7 } else { (x >> 1) << 16 | (x & 1) << 7 }
}

fn m(double: bool, x: u32) -> u32 {
    if double { (x & 15) | (x >> 4) << 5 } else { (x >> 1) | (x & 1) << 5 }
}

fn coprocessor(double: bool) -> u32 {
    if double { 0x100 } else { 0 }
}

/// a word of arithmetic with bits 23, 21, 20 and 6 given.
fn dyadic(r: &mut Random, double: bool, bits: u32, targets: &[u32], sources: &[u32]) -> u32 {
    0xEE00_0A00 | coprocessor(double) | bits | d(double, any(r, targets)) | n(double, any(r, sources)) | m(double, any(r, sources))
}

/// a word of the extension group with bits 19:16 and 7 given, from a register of one precision to one of another.
fn extension(r: &mut Random, double: bool, bits: u32, to: bool, targets: &[u32], from: bool, sources: &[u32]) -> u32 {
    0xEEB0_0A40 | coprocessor(double) | bits | d(to, any(r, targets)) | m(from, any(r, sources))
}

const ADD: u32 = 0x0030_0000;
const MUL: u32 = 0x0020_0000;
const MLA: u32 = 0;
const DIV: u32 = 0x0080_0000;
const MOVE: u32 = 0;
const ROOT: u32 = 0x0001_0080;
const COMPARE: u32 = 0x0004_0000;
const WIDTH: u32 = 0x0007_0080;
const FROM: u32 = 0x0008_0080;
const TO_BY_MODE: u32 = 0x000D_0000;
const TO_ZERO: u32 = 0x000D_0080;
const VMRS: u32 = 0xEEF1_FA10;
const LEN3: u32 = 3 << 16;

fn targets(double: bool) -> Vec<u32> {
    if double { vec![0, 1, 2, 3, 12, 13, 14, 15] } else { (0..8).chain(24..32).collect() }
}

fn sources(double: bool) -> Vec<u32> {
    if double { (4..12).collect() } else { SOURCES.to_vec() }
}

fn list(mut word: impl FnMut(usize) -> u32) -> Vec<u32> {
    (0..WORDS).map(|i| word(i)).collect()
}

/// VADD, VMUL, VMLA, VDIV and VSQRT of one register, in both precisions.
fn scalars(r: &mut Random, out: &mut Vec<Mix>) {
    for (double, names) in [(false, ["VADD.F32", "VMUL.F32", "VMLA.F32", "VDIV.F32", "VSQRT.F32"]), (true, ["VADD.F64", "VMUL.F64", "VMLA.F64", "VDIV.F64", "VSQRT.F64"])] {
        let (t, s) = (targets(double), sources(double));
        for (name, bits) in names.into_iter().zip([ADD, MUL, MLA, DIV, ROOT]) {
            let state = machine(r, double, 0);
            let list = list(|_| if bits == ROOT { extension(r, double, bits, double, &t, double, &s) } else { dyadic(r, double, bits, &t, &s) });
            out.push(Mix { name, list, state, rounds: true });
        }
    }
}

/// Vectors of LEN 3, four registers: targets in the last bank, so that every word steps.
fn vectors(r: &mut Random, out: &mut Vec<Mix>) {
    for (name, double, bits, unary) in [
        ("VADD.F32 LEN 3", false, ADD, false),
        ("VMLA.F32 LEN 3", false, MLA, false),
        ("VMUL.F64 LEN 3", true, MUL, false),
        ("VMLA.F64 LEN 3", true, MLA, false),
        ("VMOV.F32 LEN 3", false, MOVE, true),
        ("VSQRT.F64 LEN 3", true, ROOT, true),
    ] {
        let t: Vec<u32> = if double { (12..16).collect() } else { (24..32).collect() };
        let s = sources(double);
        let state = machine(r, double, LEN3);
        let list = list(|_| if unary { extension(r, double, bits, double, &t, double, &s) } else { dyadic(r, double, bits, &t, &s) });
        out.push(Mix { name, list, state, rounds: !unary || bits == ROOT });
    }
}

/// Moves, compares with VMRS and a conditional, and conversions.
fn others(r: &mut Random, out: &mut Vec<Mix>) {
    let (t1, s1, t2, s2) = (targets(false), sources(false), targets(true), sources(true));
    for (name, double, bits) in [("VMOV.F32", false, MOVE), ("VNEG.F64", true, 0x0001_0000)] {
        let (t, s) = if double { (&t2, &s2) } else { (&t1, &s1) };
        let state = machine(r, double, 0);
        out.push(Mix { name, list: list(|_| extension(r, double, bits, double, t, double, s)), state, rounds: false });
    }
    let state = machine(r, false, 0);
    out.push(Mix { name: "VMOV core to single and back", list: list(|i| 0xEE00_0A10 | (i as u32 & 1) << 20 | n(false, any(r, &t1)) | (2 + r.below(6)) << 12), state, rounds: false });
    // s8 is compared with itself: equal, so that EQ holds and NE does not
    for (name, condition) in [("VCMP, VMRS, VADDNE skipped", 0x1000_0000), ("VCMP, VMRS, VADDEQ taken", 0)] {
        let state = machine(r, false, 0);
        let list = list(|i| match i % 3 {
            0 => 0xEEB0_0A40 | COMPARE | d(false, 8) | m(false, 8),
            1 => VMRS,
            _ => dyadic(r, false, ADD, &t1, &s1) & 0x0FFF_FFFF | condition,
        });
        out.push(Mix { name, list, state, rounds: false });
    }
    for (name, double, bits, to, from) in [
        ("VCVT.F32.F64", true, WIDTH, false, true),
        ("VCVT.F64.F32", false, WIDTH, true, false),
        ("VCVT.F32.S32", false, FROM, false, false),
        ("VCVT.F64.S32", true, FROM, true, false),
        ("VCVTR.S32.F32", false, TO_BY_MODE, false, false),
        ("VCVT.S32.F64", true, TO_ZERO, false, true),
    ] {
        let (t, s) = (targets(to), sources(from));
        let state = machine(r, from, 0);
        out.push(Mix { name, list: list(|_| extension(r, double, bits, to, &t, from, &s)), state, rounds: true });
    }
}

/// Loads and stores from r1 on, within the window.
fn memory(r: &mut Random, out: &mut Vec<Mix>) {
    let block = |load: u32, r: &mut Random| 0xEC81_0A08 | load << 20 | d(false, r.below(25));
    let state = machine(r, false, 0);
    out.push(Mix { name: "VLDM of 8", list: list(|_| block(1, r)), state, rounds: false });
    out.push(Mix { name: "VSTM of 8", list: list(|_| block(0, r)), state, rounds: false });
    out.push(Mix { name: "VLDM, VSTM of 8", list: list(|i| block(i as u32 & 1, r)), state, rounds: false });
    out.push(Mix { name: "VLDR", list: list(|_| 0xED91_0A00 | d(false, r.below(32)) | r.below(256)), state, rounds: false });
}

/// FPSCR bit 4, inexact: while it is set, arithmetic in mode 00 is done by native floats.
pub const INEXACT: u32 = 1 << 4;

/// FPSCR of RunFast, FZ and default NaN, with bit 4 set.
pub const RUN_FAST: u32 = 0x0300_0000 | INEXACT;

/// The lists, with more bits of FPSCR set.
pub fn mixes_under(fpscr: u32) -> Vec<Mix> {
    let mut out = mixes();
    for mix in &mut out {
        mix.state[49] |= fpscr & 0x0FFF_FFE0;
        mix.state[52] |= fpscr & 0x1F;
    }
    out
}

/// The same words on operands with exact results, so that FPSCR bit 4 stays clear: but the words at random, of which some are always inexact.
pub fn exact_mixes() -> Vec<Mix> {
    let mut out = mixes();
    out.retain(|mix| !mix.name.contains("at random"));
    out.iter_mut().for_each(exact);
    out
}

/// Operands with exact results: quotients of multiples of one odd number by powers of two, roots of squares, integers and whole numbers to convert, and for
/// all else quarters from 1 on.
fn exact(mix: &mut Mix) {
    let word = mix.name.split(' ').next().unwrap();
    let double = word.ends_with("F64");
    let number = |i: usize| {
        let odd = (2 * i + 1) as f64;
        if word.starts_with("VDIV") {
            12345.0 * f64::powi(2.0, i as i32 % 5)
        } else if word.starts_with("VSQRT") {
            let root = if double { 33_554_432.0 } else { 2048.0 } + odd;
            root * root
        } else if word.contains("S32") {
            1000.0 + odd
        } else {
            1.0 + (7 * i % 16) as f64 / 4.0
        }
    };
    for i in 0..16 {
        if word.ends_with("S32") {
            (mix.state[2 * i], mix.state[2 * i + 1]) = (number(i) as u32, number(i) as u32);
        } else if double {
            let bits = number(i).to_bits();
            (mix.state[2 * i], mix.state[2 * i + 1]) = (bits as u32, (bits >> 32) as u32);
        } else {
            (mix.state[2 * i], mix.state[2 * i + 1]) = ((number(i) as f32).to_bits(), (number(i + 16) as f32).to_bits());
        }
    }
}

fn mixes() -> Vec<Mix> {
    let mut r = Random(9);
    let mut out = Vec::new();
    scalars(&mut r, &mut out);
    vectors(&mut r, &mut out);
    others(&mut r, &mut out);
    memory(&mut r, &mut out);
    let all: Vec<u32> = out.iter().filter(|x| !x.name.contains("LEN") && !x.name.contains("VCMP")).flat_map(|x| x.list[..64].to_vec()).collect();
    let state = machine(&mut r, false, 0);
    out.push(Mix { name: "all but vectors, at random", list: list(|_| any(&mut r, &all)), state, rounds: true });
    out
}

/// One word over and over: VADD.F32 with a vector length, for the growth with LEN.
pub fn of_length(len: u32) -> Mix {
    let mut r = Random(11);
    let mut state = machine(&mut r, false, len << 16);
    state[52] = INEXACT;
    let s = sources(false);
    Mix { name: "VADD.F32", list: list(|_| dyadic(&mut r, false, ADD, &[24, 25, 26, 27, 28, 29, 30, 31], &s)), state, rounds: true }
}
