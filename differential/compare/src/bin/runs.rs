//! runs LISTS SEED: the plain run of libfpu.a, and the watched run with everything known, beside a run built of the unchanged Rust's three
//! calls, `check_condition` and the branched flag.

use oracle::cases::{self, Random};
use oracle::{Call, Cpu, STATE};
use std::time::Instant;

/// a word that a run takes, now and then one that it does not; no transfer that cases::left_out names.
fn word(r: &mut Random, turn: u64) -> u32 {
    loop {
        let word = any_word(r, turn);
        if !(word >> 24 & 15 == 14 && word >> 4 & 1 == 1 && cases::left_out(word)) {
            return word;
        }
    }
}

fn any_word(r: &mut Random, turn: u64) -> u32 {
    let (call, any) = cases::word(r, turn);
    let condition = match r.below(16) {
        0 => 15,
        1..=5 => r.below(15),
        _ => 14,
    };
    let coprocessor = if matches!(any >> 8 & 15, 10 | 11) || r.once_in(24) { any >> 8 & 15 } else { 10 + r.below(2) };
    let class = match call {
        Call::LoadStore => any & 0x01FF_F0FF | 0x0C00_0000,
        Call::DataProcessing => any & 0x00FF_F0EF | 0x0E00_0000,
        _ => any & 0x00FF_F0EF | 0x0E00_0010,
    };
    if r.once_in(64) {
        return r.word();
    }
    class | coprocessor << 8 | condition << 28
}

/// a word that changes nothing: VMOV.F32 s0, s0.
const NOTHING: u32 = 0xEEB0_0A40;

/// whether a word that a run takes is not compared: it rounds by another mode than 00, or leaves a NaN whose payload would travel on. `state` stands
/// before it, and `left` is what the Rust makes of it.
fn left_out(word: u32, state: &[u32; STATE], left: &[u32; STATE]) -> bool {
    let runs = word >> 24 & 15 == 14 && word >> 4 & 1 == 0 && oracle::condition(word >> 28, state[51]);
    let directed = cases::rounds(Call::DataProcessing, word) && state[49] >> 22 & 3 != 0;
    runs && (directed || oracle::payload(word, state, left))
}

/// FPSCR 4:0 after a number operation, by the unit's own call: the Rust's are these from then on, so that a later read has them.
fn exceptions(word: u32, state: &[u32; STATE]) -> u32 {
    let mut left = *state;
    fpu::raw::data_processing(&mut left, 0, word, &mut [0; 5]);
    left[52]
}

/// the list with words that `left_out` names changed into one that changes nothing, by what the Rust makes of those before them.
fn compared(cpu: &mut Cpu, list: &mut [u32], base: u32, state: &[u32; STATE], window: &[u32]) {
    let (mut s, mut w) = (*state, window.to_vec());
    for word in list {
        let before = s;
        if oracle::listed(cpu, &[*word], base, false, &mut s, &mut w, exceptions).0 != 0 {
            return;
        }
        if left_out(*word, &before, &s) {
            *word = NOTHING;
            s[..32].copy_from_slice(&before[..32]);
            s[52] = before[52];
        }
    }
}

/// a list of 4,096 or 4,097 mixed words that runs to its end from this state and window, as far as that can be told: a word that stops the run so
/// far, or switches the unit off, gives way to one that changes nothing.
fn long(r: &mut Random, cpu: &mut Cpu, length: u32, base: u32, state: &[u32; STATE], window: &[u32], turn: &mut u64) -> Vec<u32> {
    let (mut s, mut w) = (*state, window.to_vec());
    (0..length)
        .map(|_| {
            *turn += 1;
            let any = word(r, *turn);
            let (mut t, mut v) = (s, w.clone());
            let (kind, _) = oracle::listed(cpu, &[any], base, false, &mut t, &mut v, exceptions);
            if kind != 0 || t[50] >> 30 & 1 == 0 || left_out(any, &s, &t) {
                s[47] = s[47].wrapping_add(4);
                return NOTHING;
            }
            (s, w) = (t, v);
            any
        })
        .collect()
}

fn main() {
    let numbers: Vec<u64> = std::env::args().skip(1).filter_map(|a| a.parse().ok()).collect();
    let [lists, seed] = numbers[..] else {
        eprintln!("usage: runs LISTS SEED");
        std::process::exit(2);
    };
    let started = Instant::now();
    let mut r = Random(seed);
    let mut cpu = Cpu::new();
    oracle::fill_rest(&mut cpu, || r.word());
    let (mut kinds, mut words, mut counted, mut wrong, mut turn) = ([0u64; 256], 0u64, 0u64, 0u64, 0u64);
    let (mut list, mut window, mut state, mut longest) = (Vec::new(), Vec::new(), [0; STATE], 0u64);
    let mut base = 0;
    for number in 0..lists {
        // a new machine and window, or what the last list left
        if number == 0 || r.once_in(2) {
            base = cases::window(&mut r, &mut window);
            cases::machine(&mut r, &mut state, base, window.len());
            state[52] = r.below(32);
            // mostly with the unit enabled
            state[50] |= if r.once_in(8) { 0 } else { 1 << 30 };
        }
        let length = if r.once_in(20_000) { 4096 + r.below(2) } else { r.below(16) };
        if length > 4095 {
            state[50] |= 1 << 30;
            list = long(&mut r, &mut cpu, length, base, &state, &window, &mut turn);
        } else {
            list.clear();
            for _ in 0..length {
                list.push(word(&mut r, turn));
                turn += 1;
            }
            compared(&mut cpu, &mut list, base, &state, &window);
        }
        let thumb = r.once_in(200);
        let (mut a, mut b, mut v, mut w) = (state, state, window.clone(), window.clone());
        let (kind, answer) = oracle::listed(&mut cpu, &list, base, thumb, &mut a, &mut v, exceptions);
        let mut ours = [0xA5A5_A5A5; 5];
        let got = fpu::raw::run(&mut b, &mut w, base, thumb as u32, &list, &mut ours);
        let (mut d, mut x, mut marks, mut window_marks) = (state, window.clone(), fpu::MARKS_ALL, vec![1u8; window.len()]);
        let mut watched = [0xA5A5_A5A5; 5];
        let seen = fpu::raw::watch(&mut d, &mut marks, &mut x, &mut window_marks, base, thumb as u32, &list, &mut watched);
        let known = (STATE + window.len()) as u32;
        if seen != kind || watched[..4] != answer[..4] || watched[4] != known || a != d || v != x || marks != fpu::MARKS_ALL || window_marks.iter().any(|&m| m != 1) {
            wrong += 1;
            if wrong <= 10 {
                println!("DISAGREEMENT watched {list:08X?} base {base:08X} thumb {thumb} state {state:08X?} window {window:08X?}");
                println!("  kind {kind} answer {answer:08X?} | kind {seen} answer {watched:08X?} marks {marks:014X}");
            }
        }
        kinds[kind as usize & 255] += 1;
        words += list.len() as u64;
        counted += answer[0] as u64;
        if got != kind || ours != answer || a != b || v != w {
            wrong += 1;
            if wrong <= 10 {
                println!("DISAGREEMENT list {list:08X?} base {base:08X} thumb {thumb} state {state:08X?} window {window:08X?}");
                println!("  kind {kind} answer {answer:08X?} | kind {got} answer {ours:08X?}");
                for i in 0..STATE {
                    if a[i] != b[i] {
                        println!("  place {i}: {:08X} | {:08X}", a[i], b[i]);
                    }
                }
            }
        }
        longest += (list.len() > 4095 && kind == 0) as u64;
        (state, window) = (a, v);
        if (number + 1) % 1_000_000 == 0 {
            println!("{} million lists, {wrong} disagreements, {} s", (number + 1) / 1_000_000, started.elapsed().as_secs());
        }
    }
    println!();
    for (kind, name) in [(0, "Finished"), (1, "Foreign"), (2, "Undefined"), (3, "Branched"), (101, "refusal 1"), (102, "refusal 2"), (103, "refusal 3"), (104, "refusal 4"), (105, "refusal 5")] {
        println!("{name:24} {:>12}", kinds[kind]);
    }
    println!("{:24} {longest:>12}", "4,096 words to the end");
    println!("{}", cases::LEFT_OUT);
    println!("{:24} {lists:>12}", "lists");
    println!("{:24} {words:>12}", "words");
    println!("{:24} {counted:>12}", "counted words");
    println!("{:24} {wrong:>12}", "disagreements");
    println!("{:24} {:>12}", "seconds", started.elapsed().as_secs());
    if wrong > 0 {
        std::process::exit(1);
    }
}
