//! compare CASES SEED: the unchanged Rust beside libfpu.a, call by call.

use oracle::cases::{self, Random, OPERATIONS};
use oracle::{Call, Case, Cpu, STATE};
use std::time::Instant;

const WIDTHS: [&str; 3] = ["single", "double", "elsewhere"];

struct Comparison {
    cpu: Cpu,
    counts: [[u64; 3]; OPERATIONS.len()],
    kinds: [u64; 256],
    thumb: u64,
    calls: u64,
    wrong: u64,
    conditions: u64,
    invalid: u64,
    nans: u64,
    raised: u64,
    theirs: Vec<u32>,
    ours: Vec<u32>,
    started: Instant,
}

impl Comparison {
    /// One call on both sides, in mode 00 where the word rounds; a NaN result is compared as a NaN, and bit for bit where FPSCR bit 25 is set. After a
    /// number operation FPSCR 4:0 are ours, and of the Rust's only that they are still set. State and window are left as both leave them.
    fn call(&mut self, call: Call, thumb: bool, word: u32, base: u32, state: &mut [u32; STATE], window: &mut [u32]) {
        cases::to_nearest(call, word, state);
        let (mut a, mut b) = (*state, *state);
        self.theirs.clear();
        self.theirs.extend_from_slice(window);
        self.ours.clear();
        self.ours.extend_from_slice(window);
        let theirs = oracle::run(&mut self.cpu, call, thumb, word, base, &mut a, &mut self.theirs);
        let mut answer = [0xA5A5_A5A5; 5];
        let kind = match call {
            Call::DataProcessing => fpu::raw::data_processing(&mut b, thumb as u32, word, &mut answer),
            Call::CoprocessorRegister | Call::Wrapper => fpu::raw::coprocessor_register(&mut b, thumb as u32, word, &mut answer),
            Call::LoadStore => fpu::raw::coprocessor_load_store(&mut b, &mut self.ours, base, thumb as u32, word, &mut answer),
        };
        if call == Call::DataProcessing && oracle::payload(word, state, &b) {
            self.nans += 1;
            oracle::canonical(&mut b, word, state[49]);
        }
        if cases::is_number_operation(call, word) && b[52] & a[52] == a[52] {
            self.raised += (b[52] != a[52]) as u64;
            a[52] = b[52];
        }
        let width = match word >> 8 & 15 {
            10 => 0,
            11 => 1,
            _ => 2,
        };
        self.counts[cases::operation(call, word)][width] += 1;
        self.kinds[kind as usize & 255] += 1;
        self.thumb += thumb as u64;
        self.calls += 1;
        let equal = kind == theirs.kind && answer == [0, 0, theirs.address, theirs.word, 0] && a == b && self.theirs == self.ours && !theirs.moved;
        if !equal {
            self.wrong += 1;
            if self.wrong <= 20 {
                let case = Case { call, thumb, word, base, state: *state, window: window.to_vec() };
                println!("DISAGREEMENT {} {word:08X}: {}", OPERATIONS[cases::operation(call, word)], case.line());
                if theirs.moved {
                    println!("  another part of the Cpu moved");
                }
                println!("  kind {} address {:08X} word {:08X} | kind {kind} answer {answer:08X?}", theirs.kind, theirs.address, theirs.word);
                for i in 0..STATE {
                    if a[i] != b[i] {
                        println!("  place {i}: {:08X} | {:08X}", a[i], b[i]);
                    }
                }
                for i in 0..window.len() {
                    if self.theirs[i] != self.ours[i] {
                        println!("  window {i}: {:08X} | {:08X}", self.theirs[i], self.ours[i]);
                    }
                }
            }
        }
        *state = a;
        window.copy_from_slice(&self.theirs);
        if self.calls % 1_000_000 == 0 {
            println!("{} million calls, {} disagreements, {} s", self.calls / 1_000_000, self.wrong, self.started.elapsed().as_secs());
        }
    }

    fn disagree(&mut self, what: String) {
        self.wrong += 1;
        if self.wrong <= 20 {
            println!("DISAGREEMENT {what}");
        }
    }
}

/// every decode index, that is bits 23:20, 19:16, 7 and 6, in both precisions, ARM and Thumb; and every opc1, register and
/// direction of a transfer under all sixteen coprocessors, but opc1 1 under 11 (cases::left_out).
fn indices(c: &mut Comparison, r: &mut Random) {
    let mut state = [0; STATE];
    for round in 0..16u32 {
        for index in 0..1024u32 {
            for coprocessor in [10, 11] {
                let word = r.word() & 0xFF00_F03F | (index >> 6 & 15) << 20 | (index >> 2 & 15) << 16 | (index & 3) << 6 | coprocessor << 8;
                cases::machine(r, &mut state, 0, 0);
                c.call(Call::DataProcessing, round % 2 == 1, word, 0, &mut state, &mut []);
            }
        }
        for coprocessor in 0..16u32 {
            for head in 0..256u32 {
                let target = if r.once_in(3) { 15 } else { r.below(16) };
                let word = r.word() & 0xFF00_00FF | head << 16 | target << 12 | coprocessor << 8;
                cases::machine(r, &mut state, 0, 0);
                let given = state;
                if !cases::left_out(word) {
                    c.call(Call::CoprocessorRegister, round % 2 == 1, word, 0, &mut state, &mut []);
                    if matches!(coprocessor, 10 | 11) {
                        state = given;
                        c.call(Call::Wrapper, round % 2 == 1, word, 0, &mut state, &mut []);
                    }
                }
                cases::machine(r, &mut state, 0, 0);
                c.call(Call::DataProcessing, round % 2 == 1, word, 0, &mut state, &mut []);
                c.call(Call::LoadStore, round % 2 == 1, word, 0, &mut state, &mut [1, 2, 3]);
            }
        }
    }
}

/// a new machine, beside the Rust's.
fn new(c: &mut Comparison) {
    let (mut ours, mut theirs) = ([0xA5A5_A5A5; STATE], [0; STATE]);
    let got = fpu::raw::new(&mut ours);
    oracle::pack(&Cpu::new(), &mut theirs);
    if got != 0 || ours != theirs {
        c.disagree(format!("a new machine: {got}, {ours:08X?}, {theirs:08X?}"));
    }
}

/// every condition on all flags.
fn conditions(c: &mut Comparison) {
    for condition in (0..16).chain([16, 31, 0xFFFF_FFFF]) {
        for flags in 0..16 {
            c.conditions += 1;
            let ours = fpu::raw::check_condition(condition, flags << 28);
            if ours != oracle::condition(condition, flags << 28) as u32 {
                c.disagree(format!("check_condition {condition:X} {flags:X}: {ours}"));
            }
        }
    }
}

/// what has to be 255 and touch nothing; the Rust has no such answer.
fn invalid(c: &mut Comparison, r: &mut Random) {
    let (mut state, mut answer) = ([0; STATE], [0xA5A5_A5A5; 6]);
    for kind in 0..64 {
        cases::machine(r, &mut state, 0x1000, 4);
        let (mut words, mut answers, mut thumb) = (STATE, 5, 0);
        match kind % 10 {
            0 => words = r.below(STATE as u32) as usize,
            1 => answers = r.pick(&[0, 1, 3, 4, 6]),
            2 => thumb = 2 + r.below(100),
            3 => thumb = r.word() | 2,
            4 => state[48] |= 1 << r.below(28),
            5 => state[49] |= 0x1000_0000 << r.below(4),
            6 => state[51] |= 1 << r.below(28),
            7 => state[49] |= 1 << r.below(5),
            8 => state[52] |= 0x20 << r.below(27),
            _ => words = 0,
        }
        let (given, mut window) = (state, [r.word(); 3]);
        let kept = window;
        for call in 0..3 {
            c.invalid += 1;
            let word = r.word();
            let got = match call {
                0 => fpu::raw::data_processing(&mut state[..words], thumb, word, &mut answer[..answers]),
                1 => fpu::raw::coprocessor_register(&mut state[..words], thumb, word, &mut answer[..answers]),
                _ => fpu::raw::coprocessor_load_store(&mut state[..words], &mut window, 1, thumb, word, &mut answer[..answers]),
            };
            if got != 255 || state != given || window != kept || answer != [0xA5A5_A5A5; 6] {
                c.disagree(format!("255 expected: case {kind}, call {call}, {got}"));
            }
        }
    }
}

fn main() {
    let args: Vec<String> = std::env::args().collect();
    let numbers: Vec<u64> = args[1..].iter().filter_map(|a| a.parse().ok()).collect();
    let [cases_asked, seed] = numbers[..] else {
        eprintln!("usage: compare CASES SEED");
        std::process::exit(2);
    };
    let mut r = Random(seed);
    let mut c = Comparison {
        cpu: Cpu::new(),
        counts: [[0; 3]; OPERATIONS.len()],
        kinds: [0; 256],
        thumb: 0,
        calls: 0,
        wrong: 0,
        conditions: 0,
        invalid: 0,
        nans: 0,
        raised: 0,
        theirs: Vec::new(),
        ours: Vec::new(),
        started: Instant::now(),
    };
    oracle::fill_rest(&mut c.cpu, || r.word());
    new(&mut c);
    conditions(&mut c);
    invalid(&mut c, &mut r);
    indices(&mut c, &mut r);
    let mut state = [0; STATE];
    let mut window = Vec::new();
    let mut base = 0;
    let mut turn = 0u64;
    while c.calls < cases_asked {
        // mostly a new machine and window; now and then several words on what the last one left
        if turn % 4 == 0 || r.once_in(2) {
            base = cases::window(&mut r, &mut window);
            cases::machine(&mut r, &mut state, base, window.len());
            state[52] = r.below(32);
        }
        if turn % 4096 == 0 {
            oracle::fill_rest(&mut c.cpu, || r.word());
        }
        let (call, word) = cases::word(&mut r, turn);
        let thumb = r.once_in(4);
        c.call(call, thumb, word, base, &mut state, &mut window);
        turn += 1;
    }
    println!();
    println!("{:24} {:>12} {:>12} {:>12}", "operation", WIDTHS[0], WIDTHS[1], WIDTHS[2]);
    for (name, counts) in OPERATIONS.iter().zip(&c.counts) {
        println!("{name:24} {:>12} {:>12} {:>12}", counts[0], counts[1], counts[2]);
    }
    println!();
    for (kind, name) in [(0, "nothing"), (2, "Undefined"), (3, "Branched"), (102, "refusal 2"), (103, "refusal 3"), (104, "refusal 4")] {
        println!("{name:24} {:>12}", c.kinds[kind]);
    }
    println!("{:24} {:>12}", "in Thumb state", c.thumb);
    println!("{:24} {:>12}", "conditions", c.conditions);
    println!("{:24} {:>12}", "255", c.invalid);
    println!("{:24} {:>12}", "NaNs as NaN", c.nans);
    println!("{:24} {:>12}", "exceptions newly set", c.raised);
    println!("{:24} {:>12}", "calls", c.calls);
    println!("{}", cases::LEFT_OUT);
    println!("{:24} {:>12}", "disagreements", c.wrong);
    println!("{:24} {:>12}", "seconds", c.started.elapsed().as_secs());
    if c.wrong > 0 {
        std::process::exit(1);
    }
}
