//! record FILE [OF_EACH]: writes a sample of the Rust's answers, some of every operation in every width, of every answer, ARM and Thumb. The transfers
//! that cases::left_out names are not among them, words that round are in mode 00, and those that leave a NaN have FPSCR bit 25 set.
//! A record is 128 words of 32 bits, lowest byte first:
//! 0 call (as Call::number, or 4: conditions), 1 thumb, 2 word, 3 base, 4 window words, 5 kind, 6 address, 7 word reported,
//! 8 to 59 the state given, 60 to 67 the window given, 68 to 119 the state left, 120 to 127 the window left. FPSCR 27:0 stands in one word.
//! A window of more than 8 words is all zero. The record of call 4 has in word 8 + c the flags, as bits 15:0, under which
//! condition c holds.

use oracle::cases::{self, Random, OPERATIONS};
use oracle::{answer, told, Call, Case, STATE};
use std::io::Write;

fn record(case: &Case) -> [u32; 128] {
    let reply = answer(case);
    let mut words = [0; 128];
    words[..8].copy_from_slice(&[
        case.call.number(),
        case.thumb as u32,
        case.word,
        case.base,
        case.window.len() as u32,
        reply.kind,
        reply.address,
        reply.word,
    ]);
    words[8..60].copy_from_slice(&told(&case.state));
    words[68..120].copy_from_slice(&told(&reply.state));
    if case.window.len() <= 8 {
        words[60..60 + case.window.len()].copy_from_slice(&case.window);
        words[120..120 + case.window.len()].copy_from_slice(&reply.window);
    }
    words
}

fn main() {
    let args: Vec<String> = std::env::args().collect();
    let path = args.get(1).expect("usage: record FILE [OF_EACH]");
    let of_each: usize = args.get(2).map_or(32, |n| n.parse().unwrap());
    let mut out = Vec::new();
    let mut write = |words: [u32; 128]| words.iter().for_each(|w| out.extend_from_slice(&w.to_le_bytes()));
    let mut conditions = [0; 128];
    conditions[0] = 4;
    for c in 0..16 {
        for flags in 0..16u32 {
            conditions[8 + c] |= (oracle::condition(c as u32, flags << 28) as u32) << flags;
        }
    }
    write(conditions);
    let mut r = Random(5);
    let mut counts = [[0; 3]; OPERATIONS.len()];
    let mut refused = [0; 5];
    let mut state = [0; STATE];
    for turn in 0..4_000_000u64 {
        let mut window = Vec::new();
        let mut base = cases::window(&mut r, &mut window);
        window.truncate(8);
        if turn % 1000 == 0 {
            window = vec![0; 16385];
        }
        if oracle::refusal(base, window.len()) == 0 && r.once_in(3) {
            base = 0u32.wrapping_sub(4 * window.len() as u32);
        }
        cases::machine(&mut r, &mut state, base, window.len().min(8));
        let (call, word) = cases::word(&mut r, turn);
        cases::to_nearest(call, word, &mut state);
        let width = match word >> 8 & 15 {
            10 => 0,
            11 => 1,
            _ => 2,
        };
        let refusal = if call == Call::LoadStore { oracle::refusal(base, window.len()) as usize } else { 0 };
        if window.len() > 8 && refusal != 2 {
            continue;
        }
        let count = if refusal == 0 { &mut counts[cases::operation(call, word)][width] } else { &mut refused[refusal] };
        let most = if width == 2 { of_each / 4 } else { of_each };
        if *count < most {
            *count += 1;
            let mut case = Case { call, thumb: r.once_in(3), word, base, state, window };
            oracle::default_nans(&mut case);
            write(record(&case));
        }
    }
    for (name, counts) in OPERATIONS.iter().zip(&counts) {
        println!("{name:24} {:>4} {:>4} {:>4}", counts[0], counts[1], counts[2]);
    }
    println!("refusals 2, 3, 4: {:?}", &refused[2..]);
    std::fs::File::create(path).unwrap().write_all(&out).unwrap();
    println!("{} records", out.len() / 512);
    println!("{}", cases::LEFT_OUT);
}
