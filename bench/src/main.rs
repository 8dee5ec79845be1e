//! bench [ROUNDS], bench modes [ROUNDS], bench clear [ROUNDS]: the plain run of libfpu.a beside the unchanged Rust's three calls in a loop, and the watched run
//! beside the plain one. Each round times the three on the same list, one after the other; the table has the best of all rounds, in nanoseconds a word. The
//! lists start with FPSCR bit 4, inexact, set. With modes: the runs in each rounding mode beside mode 00. With clear: on operands with exact results, so that
//! bit 4 stays clear.

mod lists;

use fpu::raw;
use lists::{Mix, BASE, INEXACT, RUN_FAST, UNKNOWN, WINDOW};
use oracle::Cpu;
use std::hint::black_box;
use std::time::Instant;

/// FPSCR 23:22, the rounding mode.
const MODE: u32 = 3 << 22;

/// lists that are run between two looks at the clock.
const AT_ONCE: usize = 4;

struct Times {
    rust: f64,
    run: f64,
    watch: f64,
}

fn clocked(words: usize, mut once: impl FnMut()) -> f64 {
    let start = Instant::now();
    for _ in 0..AT_ONCE {
        once();
    }
    start.elapsed().as_secs_f64() * 1e9 / (AT_ONCE * words) as f64
}

fn marks() -> u64 {
    fpu::MARKS_ALL & !(1 << UNKNOWN)
}

fn best(old: &mut f64, new: f64) {
    *old = old.min(new);
}

/// the three ways on one list, each from the same machine; the two runs have to leave what the Rust leaves, with canonical NaNs, but in a directed
/// rounding mode, of which the Rust has none.
fn measure(mix: &Mix, rounds: usize) -> Times {
    let window = vec![0x3F80_0000; WINDOW];
    let words = mix.list.len();
    let mut cpu = Cpu::new();
    let mut t = Times { rust: f64::MAX, run: f64::MAX, watch: f64::MAX };
    let mut answers = [[0; 5]; 3];
    let mut states = [mix.state; 2];
    let mut windows = [window.clone(), window.clone(), window.clone()];
    let mut window_marks = vec![1u8; WINDOW];
    for _ in 0..rounds {
        best(&mut t.rust, clocked(words, || {
            oracle::unpack(&mut cpu, &mix.state, false);
            answers[0] = oracle::run_list(&mut cpu, &mut windows[0], BASE, black_box(&mix.list));
        }));
        best(&mut t.run, clocked(words, || {
            states[0] = mix.state;
            raw::run(&mut states[0], &mut windows[1], BASE, 0, black_box(&mix.list), &mut answers[1]);
        }));
        best(&mut t.watch, clocked(words, || {
            states[1] = mix.state;
            let mut marks = marks();
            raw::watch(&mut states[1], &mut marks, &mut windows[2], &mut window_marks, BASE, 0, black_box(&mix.list), &mut answers[2]);
        }));
    }
    assert!(answers.iter().all(|a| a[0] as usize == words), "{}: not every word was run: {answers:?}", mix.name);
    assert!(mix.state[52] != 0 || states[0][52] == 0, "{}: an exception was set", mix.name);
    if mix.state[49] & MODE != 0 {
        assert!(states[0] == states[1], "{}: the runs leave different states", mix.name);
        return t;
    }
    let (mut state, mut after) = (mix.state, window.clone());
    // the Rust sets none of FPSCR 4:0, and no list reads them
    oracle::listed(&mut cpu, &mix.list, BASE, false, &mut state, &mut after, |_, _| states[0][52]);
    assert!(states == [state; 2] && windows[1..] == [after.clone(), after], "{}: the runs leave something else than the Rust", mix.name);
    t
}

fn mean(ratios: &[f64]) -> f64 {
    (ratios.iter().map(|x| x.ln()).sum::<f64>() / ratios.len() as f64).exp()
}

fn worst(ratios: &[f64]) -> f64 {
    ratios.iter().copied().fold(0.0, f64::max)
}

fn table(rounds: usize, name: &str, lists: Vec<Mix>) {
    println!("| {name} | Rust, ns a word | run | run / Rust | watch | watch / run |");
    println!("|---|---|---|---|---|---|");
    let (mut plain, mut watched) = (Vec::new(), Vec::new());
    for mix in lists {
        let t = measure(&mix, rounds);
        plain.push(t.run / t.rust);
        watched.push(t.watch / t.run);
        println!("| {} | {:.2} | {:.2} | {:.2} | {:.2} | {:.2} |", mix.name, t.rust, t.run, t.run / t.rust, t.watch, t.watch / t.run);
    }
    println!("| geometric mean | | | {:.2} | | {:.2} |", mean(&plain), mean(&watched));
    println!("| worst | | | {:.2} | | {:.2} |", worst(&plain), worst(&watched));
}

/// the plain and the watched run in the four rounding modes on the lists that round, and the slowest mode beside mode 00.
fn modes(rounds: usize) {
    println!("| rounding modes | run 00, ns a word | 01 | 10 | 11 | worst / 00 | watch 00 | 01 | 10 | 11 | worst / 00 |");
    println!("|---|---|---|---|---|---|---|---|---|---|---|");
    let lists = [0, 1 << 22, 2 << 22, 3 << 22].map(|mode| lists::mixes_under(mode | INEXACT));
    for i in (0..lists[0].len()).filter(|i| lists[0][*i].rounds) {
        let t = [0, 1, 2, 3].map(|mode| measure(&lists[mode][i], rounds));
        let row = |x: [f64; 4]| format!("{:.2} | {:.2} | {:.2} | {:.2} | {:.2}", x[0], x[1], x[2], x[3], worst(&x[1..]) / x[0]);
        println!("| {} | {} | {} |", lists[0][i].name, row([0, 1, 2, 3].map(|m| t[m].run)), row([0, 1, 2, 3].map(|m| t[m].watch)));
    }
}

/// the best time of one call, in microseconds.
fn call(rounds: usize, mut once: impl FnMut()) -> f64 {
    (0..rounds).map(|_| clocked(1, &mut once)).fold(f64::MAX, f64::min) / 1000.0
}

fn run_once(mix: &Mix, words: usize, window: usize, watched: bool, rounds: usize) -> f64 {
    let mut window = vec![0; window];
    let mut window_marks = vec![1u8; window.len()];
    let mut answer = [0; 5];
    let list = &mix.list[..words];
    call(rounds, || {
        let mut state = mix.state;
        let mut marks = marks();
        if watched {
            raw::watch(&mut state, &mut marks, &mut window, &mut window_marks, BASE, 0, black_box(list), &mut answer);
        } else {
            raw::run(&mut state, &mut window, BASE, 0, black_box(list), &mut answer);
        }
        assert_eq!(answer[0] as usize, words);
    })
}

fn growth(rounds: usize) {
    let scalar = lists::of_length(0);
    println!("\n| VADD.F32, words in the list | run, microseconds a call | watch |");
    println!("|---|---|---|");
    for words in [0, 1, 16, 64, 256, 1024, 4096] {
        println!("| {words} | {:.2} | {:.2} |", run_once(&scalar, words, 0, false, rounds), run_once(&scalar, words, 0, true, rounds));
    }
    println!("\n| words in the window, 64 words of VADD.F32 | run, microseconds a call | watch |");
    println!("|---|---|---|");
    for window in [0, 64, 1024, 4096, 16384] {
        println!("| {window} | {:.2} | {:.2} |", run_once(&scalar, 64, window, false, rounds), run_once(&scalar, 64, window, true, rounds));
    }
    println!("\n| the refusal test alone: no word, a window of 16,384 words | run, microseconds a call | watch |");
    println!("|---|---|---|");
    println!("| | {:.2} | {:.2} |", run_once(&scalar, 0, 16384, false, rounds), run_once(&scalar, 0, 16384, true, rounds));
    println!("\n| LEN of VADD.F32 | Rust, ns a word | run | run / Rust | watch | watch / run |");
    println!("|---|---|---|---|---|---|");
    for len in 0..8 {
        let t = measure(&lists::of_length(len), rounds);
        println!("| {len} | {:.2} | {:.2} | {:.2} | {:.2} | {:.2} |", t.rust, t.run, t.run / t.rust, t.watch, t.watch / t.run);
    }
}

/// runs one mix once and nothing else, for bench/count: bench of MIX rust|run|watch FPSCR|clear. `bench names` lists the mixes.
fn only(number: usize, way: &str, fpscr: &str) {
    let mixes = if fpscr == "clear" { lists::exact_mixes() } else { lists::mixes_under(u32::from_str_radix(fpscr, 16).expect("FPSCR in hexadecimal")) };
    let mix = &mixes[number];
    let (mut window, mut window_marks, mut marks, mut state, mut answer) = (vec![0x3F80_0000; WINDOW], vec![1u8; WINDOW], marks(), mix.state, [0; 5]);
    match way {
        "rust" => {
            let mut cpu = Cpu::new();
            oracle::unpack(&mut cpu, &mix.state, false);
            answer = oracle::run_list(&mut cpu, &mut window, BASE, &mix.list);
        }
        "run" => {
            raw::run(&mut state, &mut window, BASE, 0, &mix.list, &mut answer);
        }
        _ => {
            raw::watch(&mut state, &mut marks, &mut window, &mut window_marks, BASE, 0, &mix.list, &mut answer);
        }
    }
    println!("{}: {} words", mix.name, answer[0]);
}

fn main() {
    let words: Vec<String> = std::env::args().skip(1).collect();
    let rounds = |at: usize| words.get(at).map_or(100, |w| w.parse().expect("a number of rounds"));
    match words.iter().map(String::as_str).collect::<Vec<_>>()[..] {
        ["of", number, way, fpscr] => only(number.parse().expect("a mix's number"), way, fpscr),
        ["names", "clear"] => lists::exact_mixes().iter().for_each(|mix| println!("{}", mix.name)),
        ["names", ..] => lists::mixes_under(INEXACT).iter().for_each(|mix| println!("{}", mix.name)),
        ["modes", ..] => modes(rounds(1)),
        ["clear", ..] => table(rounds(1), "exact results, FPSCR bit 4 clear", lists::exact_mixes()),
        _ => {
            table(rounds(0), "list of 4,096 words", lists::mixes_under(INEXACT));
            println!();
            table(rounds(0), "RunFast, FPSCR 03000010", lists::mixes_under(RUN_FAST));
            growth(rounds(0));
        }
    }
}
