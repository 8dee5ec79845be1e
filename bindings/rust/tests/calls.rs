//! A few calls by the wrapper, and what 255 does.

use fpu::exception::{DIVISION_BY_ZERO, INEXACT, INVALID, OVERFLOW};
use fpu::{
    grant, operation, raw, replay, Chain, Exit, InvalidArgument, Machine, Operation, Ran, Routine, Stop, TurnedAway, LIST_MOST_WORDS, MARKS_ALL, OPERATIONS,
    PAIRS_PER_WORD, SHEET_BYTES, WINDOW_MOST_WORDS,
};

#[test]
fn a_new_machine() {
    let m = Machine::new();
    assert!(m.state.iter().enumerate().all(|(i, &w)| w == if i == 50 { 0x4000_0000 } else { 0 }));
    assert!(!m.thumb);
}

#[test]
fn a_sum_and_an_undefined_word() {
    let mut m = Machine::new();
    m.state[1] = 1.0f32.to_bits();
    m.state[2] = 2.0f32.to_bits();
    m.state[47] = 0x1000;
    assert_eq!(m.data_processing(0xEE30_0A81), Ok(Exit::Nothing));
    assert_eq!(m.state[0], 3.0f32.to_bits());
    let before = m;
    assert_eq!(m.data_processing(0xEEB7_0A40), Ok(Exit::Undefined { address: 0xFF8, word: 0xEEB7_0A40 }));
    m.thumb = true;
    assert_eq!(m.data_processing(0xEEB7_0A40), Ok(Exit::Undefined { address: 0xFFC, word: 0xEEB7_0A40 }));
    assert_eq!(m.state, before.state);
}

#[test]
fn exceptions() {
    let mut m = Machine::new();
    (m.state[1], m.state[2]) = (1.0f32.to_bits(), 0x3300_0000);
    // 1 and 2^-25, then a quotient by zero, 1 and 1, and a move, which set nothing
    for (word, set) in [(0xEE30_0A81, INEXACT), (0xEE80_0AA1, DIVISION_BY_ZERO), (0xEE30_0AA0, 0), (0xEEB0_0A60, 0)] {
        let was = m.state[52];
        assert_eq!(m.data_processing(word), Ok(Exit::Nothing));
        assert_eq!(m.state[52], was | set);
    }
    // a read has them, and a write puts them in their place
    assert_eq!(m.coprocessor_register(0xEEF1_0A10), Ok(Exit::Nothing));
    assert_eq!(m.state[32], INEXACT | DIVISION_BY_ZERO);
    m.state[32] = 0xF0C0_0005;
    assert_eq!(m.coprocessor_register(0xEEE1_0A10), Ok(Exit::Nothing));
    assert_eq!((m.state[48], m.state[49], m.state[52]), (0xF000_0000, 0x00C0_0000, INVALID | OVERFLOW));
}

#[test]
fn a_branch() {
    let mut m = Machine::new();
    m.state[1] = 0x1237;
    assert_eq!(m.coprocessor_register(0xEE10_FA90), Ok(Exit::Branched));
    assert_eq!(m.state[47], 0x1234);
    m.thumb = true;
    assert_eq!(m.coprocessor_register(0xEE10_FA90), Ok(Exit::Branched));
    assert_eq!(m.state[47], 0x1236);
}

#[test]
fn a_load_a_store_and_refusals() {
    let mut m = Machine::new();
    m.state[32] = 0x8004;
    let mut window = [7, 8, 9];
    assert_eq!(m.coprocessor_load_store(&mut window, 0x8000, 0xED90_0A00), Ok(Exit::Nothing));
    assert_eq!(m.state[0], 8);
    m.state[0] = 5;
    assert_eq!(m.coprocessor_load_store(&mut window, 0x8000, 0xED80_0A01), Ok(Exit::Nothing));
    assert_eq!(window, [7, 8, 5]);
    let before = m;
    assert_eq!(m.coprocessor_load_store(&mut window, 0x8001, 0xED90_0A00), Ok(Exit::Refused(3)));
    assert_eq!(m.coprocessor_load_store(&mut window, 0xFFFF_FFF8, 0xED90_0A00), Ok(Exit::Refused(4)));
    assert_eq!(m.coprocessor_load_store(&mut vec![0; WINDOW_MOST_WORDS + 1], 0x8001, 0xED90_0A00), Ok(Exit::Refused(2)));
    assert_eq!(m.coprocessor_load_store(&mut [], 0x8000, 0xED90_0A00), Ok(Exit::Nothing));
    assert_eq!((m.state[0], before.state[0]), (0, 5));
}

#[test]
fn what_255_touches() {
    let (mut state, mut answer, mut window) = ([1u32; 54], [9u32; 6], [3u32; 2]);
    for words in [48, 49, 51] {
        state[words] = 0;
    }
    let kept = state;
    assert_eq!(raw::new(&mut state[..52]), 255);
    assert_eq!(raw::data_processing(&mut state[..54], 0, 0xEE30_0A81, &mut answer[..5]), 255);
    assert_eq!(raw::data_processing(&mut state[..53], 2, 0xEE30_0A81, &mut answer[..5]), 255);
    assert_eq!(raw::coprocessor_register(&mut state[..53], 0, 0xEE10_FA90, &mut answer[..4]), 255);
    assert_eq!(raw::coprocessor_load_store(&mut state[..53], &mut window, 1, 0, 0xED90_0A00, &mut answer), 255);
    assert_eq!((state, answer, window), (kept, [9; 6], [3; 2]));
    for (place, bit) in [(48, 0x0800_0000), (49, 0x1000_0000), (49, 0x10), (51, 1), (52, 0x20)] {
        let mut m = Machine::new();
        m.state[place] |= bit;
        let before = m;
        assert_eq!(m.data_processing(0xEE30_0A81), Err(InvalidArgument));
        assert_eq!(m, before);
    }
    state[53] = 0;
    answer = [9; 6];
    assert_eq!(raw::data_processing(&mut state[..53], 0, 0xEE30_0A81, &mut answer[..5]), 0);
    assert_eq!(answer, [0, 0, 0, 0, 0, 9]);
}

#[test]
fn conditions() {
    let mut m = Machine::new();
    assert_eq!((m.check_condition(0), m.check_condition(1), m.check_condition(14)), (Ok(false), Ok(true), Ok(true)));
    m.state[51] = 0x4000_0000;
    assert_eq!((m.check_condition(0), m.check_condition(1)), (Ok(true), Ok(false)));
    m.state[51] |= 1;
    assert_eq!(m.check_condition(0), Err(InvalidArgument));
}

// of every operation a word, in the order of their numbers; the last three differ from a sum, FADD, in bits that are not looked at
#[test]
fn operations() {
    let words = [
        0xEE80_0A40, 0xEE00_0A00, 0xEE00_0A40, 0xEE10_0A00, 0xEE10_0A40, 0xEE20_0A00, 0xEE20_0A40, 0xEE30_0A00, 0xEE30_0A40, 0xEE80_0A00, 0xEEB0_0A40,
        0xEEB0_0AC0, 0xEEB1_0A40, 0xEEB1_0AC0, 0xEEB4_0A40, 0xEEB4_0AC0, 0xEEB5_0A40, 0xEEB5_0AC0, 0xEEB7_0AC0, 0xEEB8_0A40, 0xEEB8_0AC0, 0xEEBC_0A40,
        0xEEBC_0AC0, 0xEEBD_0A40, 0xEEBD_0AC0,
    ];
    for (word, expected) in words.into_iter().zip(OPERATIONS) {
        assert_eq!(operation(word), expected);
        assert_eq!(operation(word ^ 0xFF00_FF3F), expected);
    }
    assert_eq!([0x0E30_0A00, 0xEE30_0B00, 0x0030_0000].map(operation), [Operation::Fadd; 3]);
}

// a sum, its compare with zero, the flags to NZCV, and a sum where they are equal
const LIST: [u32; 4] = [0xEE30_0A00, 0xEEB5_0A40, 0xEEF1_FA10, 0x0E30_0A00];

#[test]
fn a_run() {
    let mut m = Machine::new();
    assert_eq!(m.run(&mut [], 0, &LIST), Ok(Ran { stop: Stop::Finished, count: 4, known: 0 }));
    assert_eq!((m.state[47], m.state[51]), (16, 0x6000_0000));
    let before = m;
    assert_eq!(m.run(&mut [], 0, &[LIST[0], 0xE3A0_0000]), Ok(Ran { stop: Stop::Foreign, count: 1, known: 0 }));
    m = before;
    assert_eq!(m.run(&mut [], 1, &vec![LIST[0]; 4097]), Ok(Ran { stop: Stop::Refused(1), count: 0, known: 0 }));
    m.thumb = true;
    assert_eq!(m.run(&mut [], 0, &LIST), Ok(Ran { stop: Stop::Refused(5), count: 0, known: 0 }));
    assert_eq!(m.state, before.state);
}

#[test]
fn exceptions_accumulate() {
    let mut m = Machine::new();
    m.state[0] = 0x3F80_0000;
    m.state[1] = 0x3300_0000;
    // s2 = s0 + s1, inexact; s3 = s0 / s4, by zero
    assert_eq!(m.run(&mut [], 0, &[0xEE30_1A20, 0xEEC0_1A02]), Ok(Ran { stop: Stop::Finished, count: 2, known: 0 }));
    assert_eq!((m.state[2], m.state[3], m.state[52]), (0x3F80_0000, 0x7F80_0000, 0b10010));
}

#[test]
fn a_watched_run() {
    let mut m = Machine::new();
    let mut marks = MARKS_ALL - 1 + (0x7FF << 53);
    assert_eq!(m.watch(&mut marks, &mut [], &mut [], 0, &LIST), Ok(Ran { stop: Stop::Hangs(51), count: 3, known: 49 }));
    assert_eq!(marks, MARKS_ALL & !(1 | 1 << 48 | 1 << 51 | 1 << 52));

    marks |= 0x52D << 53;
    let (before, kept) = (m, marks);
    assert_eq!(m.watch(&mut marks, &mut [5], &mut [], 0, &LIST), Ok(Ran { stop: Stop::Refused(6), count: 0, known: 49 }));
    assert_eq!(m.watch(&mut marks, &mut [5], &mut [2], 0, &LIST), Ok(Ran { stop: Stop::Refused(7), count: 0, known: 49 }));
    assert_eq!((m, marks), (before, kept));
}

#[test]
fn origins() {
    // a run with s0 unknown: the run is that of watch, whatever is asked for
    let asked = |list: &[u32], place, lent| {
        let (mut m, mut marks) = (Machine::new(), MARKS_ALL - 1);
        let (mut window, mut window_marks) = ([0; 2], [1; 2]);
        let mut watched = (m, marks);
        let ran = watched.0.watch(&mut watched.1, &mut window, &mut window_marks, 0x8000, list).unwrap();
        let mut pairs = vec![[7; 2]; lent];
        let (same, chain) = m.origin(&mut marks, &mut [0; 2], &mut [1; 2], 0x8000, list, place, &mut pairs).unwrap();
        assert_eq!((m, marks, same), (watched.0, watched.1, ran));
        let chain = chain.map(|Chain { first, links }| (first, links.to_vec()));
        // what is behind the links is as it came
        let links = chain.as_ref().map_or(0, |(_, links)| links.len());
        assert!(pairs[links..].iter().all(|&pair| pair == [7; 2]));
        (ran.stop, chain)
    };
    let chain = |first, links: &[[u32; 2]]| Ok((first, links.to_vec()));
    assert_eq!(asked(&LIST, 51, 32), (Stop::Hangs(51), chain(0, &[[0, 0], [1, 48], [2, 51]])));
    assert_eq!(asked(&LIST, 0, 32), (Stop::Hangs(51), chain(0, &[[0, 0]])));
    assert_eq!(asked(&LIST, 1, 32), (Stop::Hangs(51), Err(TurnedAway(12))));
    assert_eq!(asked(&LIST, 54, 32), (Stop::Hangs(51), Err(TurnedAway(12))));
    assert_eq!(asked(&LIST, 55, 32), (Stop::Hangs(51), Err(TurnedAway(11))));
    // three words were run
    assert_eq!(asked(&LIST, 51, 24), (Stop::Hangs(51), chain(0, &[[0, 0], [1, 48], [2, 51]])));
    assert_eq!(asked(&LIST, 51, 23), (Stop::Hangs(51), Err(TurnedAway(13))));
    assert_eq!(asked(&LIST, 51, 0), (Stop::Hangs(51), Err(TurnedAway(13))));
    // s0 doubled, and s2 = s1 + s1: both write place 52
    assert_eq!(asked(&[0xEE30_0A00, 0xEE30_1AA0], 52, 16), (Stop::Finished, chain(0, &[[0, 52], [1, 52]])));
    assert_eq!(asked(&[0xEE30_1AA0], 0, 8), (Stop::Finished, chain(0, &[])));
    assert_eq!(asked(&[], 0, 0), (Stop::Finished, chain(0, &[])));
    // from s0 to s0 through 4,096 words
    let (most, links) = (PAIRS_PER_WORD * LIST_MOST_WORDS, (0..4096).map(|i| [i, 0]).collect::<Vec<_>>());
    assert_eq!(asked(&[0xEE30_0A00; 4096], 0, most), (Stop::Finished, chain(0, &links)));
    assert_eq!(asked(&[0xEE30_0A00; 4097], 0, most), (Stop::Refused(1), Err(TurnedAway(1))));
}

#[test]
fn the_pairs_of_an_origin() {
    // 16 words are enough for a word that was run; 255 comes first, and nothing is then touched
    for (words, result, refusal, filled) in [(16, 0, 0, 1), (18, 0, 0, 1), (14, 0, 113, 0), (0, 0, 113, 0), (15, 255, 9, 0), (17, 255, 9, 0)] {
        let (mut state, mut marks) = (Machine::new().state, MARKS_ALL - 1);
        let (mut pairs, mut answer) = ([7; 18], [9; 8]);
        let got = raw::origin(&mut state, &mut marks, &mut [], &mut [], 0, 0, &[0xEEB0_1A40], 2, &mut pairs[..words], &mut answer);
        assert_eq!((got, answer[5]), (result, refusal));
        assert_eq!(pairs[..2], if filled == 1 { [0, 2] } else { [7, 7] });
        assert_eq!(pairs[2..], [7; 16]);
        match result {
            255 => assert_eq!((state, marks, answer), (Machine::new().state, MARKS_ALL - 1, [9; 8])),
            _ => assert_eq!((state[47], marks, answer[6..].to_vec()), (4, MARKS_ALL - 1 - 4, vec![0, filled])),
        }
    }
    let (mut state, mut marks, mut answer) = (Machine::new().state, MARKS_ALL, [9; 9]);
    for words in [5, 7, 9] {
        assert_eq!(raw::origin(&mut state, &mut marks, &mut [], &mut [], 0, 0, &LIST, 0, &mut [], &mut answer[..words]), 255);
    }
    assert_eq!((state, marks, answer), (Machine::new().state, MARKS_ALL, [9; 9]));
}

#[test]
fn a_sheet() {
    let mut m = Machine::new();
    (m.state[0], m.state[1]) = (0x1234_5678, 0x9ABC_DEF0);
    (m.state[30], m.state[31]) = (0xDEAD_BEEF, 1);
    let printed = |marks| String::from_utf8(m.sheet(marks).unwrap().to_vec()).unwrap();
    let lines = |d0: &str, others: &str, d15: &str| -> String {
        (0..16)
            .map(|d| match d {
                0 => format!("00 9ABCDEF0 12345678 {d0:<19}\n"),
                15 => format!("15 00000001 DEADBEEF {d15:<19}\n"),
                _ => format!("{d:02} 00000000 00000000 {others:<19}\n"),
            })
            .collect()
    };
    assert_eq!(printed(MARKS_ALL), lines("KK", "KK", "KK"));
    assert_eq!(printed(!MARKS_ALL | 0xFFFF << 32), lines("UU", "UU", "UU"));
    assert_eq!(printed(1 << 1 | 1 << 30), lines("KU", "UU", "UK"));
    m.state[51] = 1;
    assert_eq!(m.sheet(MARKS_ALL), Err(InvalidArgument));
}

#[test]
fn pages_of_a_sheet() {
    let state = Machine::new().state;
    let sheet = Machine::new().sheet(MARKS_ALL).unwrap();
    for bytes in [0, 655, 656, 657] {
        let mut page = [0xA5; SHEET_BYTES + 2];
        let result = raw::sheet(&state, MARKS_ALL, &mut page[..bytes]);
        if bytes < SHEET_BYTES {
            assert_eq!((result, page), (108, [0xA5; SHEET_BYTES + 2]));
        } else {
            assert_eq!((result, &page[..SHEET_BYTES], &page[SHEET_BYTES..]), (0, &sheet[..], &[0xA5; 2][..]));
        }
        page = [0xA5; SHEET_BYTES + 2];
        assert_eq!(raw::sheet(&state[..52], MARKS_ALL, &mut page[..bytes]), 255);
        assert_eq!(page, [0xA5; SHEET_BYTES + 2]);
    }
}

#[test]
fn grants() {
    let routine = |share, limit, left| Routine { share, limit, left };
    assert_eq!(grant(3, &[routine(0, 3, 3); 2]), Ok([2, 1, 0, 0, 0, 0, 0, 0]));
    assert_eq!(grant(9, &[routine(1, 3, 2), routine(1, 2, 9)]), Ok([2, 2, 0, 0, 0, 0, 0, 0]));
    assert_eq!(grant(u32::MAX, &[routine(0, u32::MAX, u32::MAX); 8]).unwrap()[6..], [0x2000_0000, 0x1FFF_FFFF]);
    for n in [0, 9, 10, 1000] {
        assert_eq!(grant(3, &vec![routine(0, 0, 0); n]), Err(TurnedAway(14)));
    }
    assert_eq!(grant(3, &[routine(2, 1, 0)]), Err(TurnedAway(15)));
    assert_eq!(grant(1, &[routine(2, 2, 0)]), Err(TurnedAway(16)));
    let mut lent = [7; 2];
    assert_eq!((raw::grant(3, &[0; 2], &[3; 3], &[3; 2], &mut lent), lent), (255, [7; 2]));
    assert_eq!((raw::grant(1, &[2; 2], &[2; 2], &[0; 2], &mut lent), lent), (116, [0; 2]));
    // lists that are only read may be one list
    let one = [2, 3];
    assert_eq!((raw::grant(9, &one, &one, &one, &mut lent), lent), (0, [2, 3]));
}

/// A record of a state, its marks, a window of which every word is known, a base and a list.
fn record(state: &[u32], marks: u64, window: &[u32], base: u32, list: &[u32]) -> Vec<u8> {
    let words = state.len() + window.len();
    let mut numbers = vec![0x8000_0000 | list.len() as u32, words as u32];
    numbers.extend(state.iter().chain(window));
    numbers.extend((0..state.len()).map(|p| (marks >> p & 1) as u32).chain(window.iter().map(|_| 1)));
    numbers.push(base);
    numbers.extend(list);
    numbers.iter().flat_map(|n| n.to_le_bytes()).collect()
}

#[test]
fn a_record() {
    let mut m = Machine::new();
    m.state[1] = 1.0f32.to_bits();
    m.state[32] = 0x8004;
    let (mut marks, mut window, mut window_marks) = (MARKS_ALL ^ 4, [7, 8, 9], [1; 3]);
    let list = [0xEE30_0A81, 0xED80_0A00, 0xEE30_1AA0];
    let bytes = record(&m.state, marks, &window, 0x8000, &list);
    let (mut w, mut v) = ([0xA5A5_A5A5; 3], [9; 3]);
    let (left, known, ran) = replay(&bytes, &mut w, &mut v);
    assert_eq!(Ok(ran), m.watch(&mut marks, &mut window, &mut window_marks, 0x8000, &list));
    assert_eq!((left, known, w, v), (m, marks, window, window_marks));
    assert_eq!((known & 1, v), (0, [1, 0, 1]));
    // a byte short, and with bit 31 of the first number clear
    let mut old = bytes.clone();
    old[3] = 0;
    for refused in [&bytes[1..], &old] {
        let (left, known, ran) = replay(refused, &mut w, &mut v);
        assert_eq!((left, known, ran), (Machine::new(), 0, Ran { stop: Stop::Refused(9), count: 0, known: 2 }));
        assert_eq!((w, v), (window, window_marks));
    }
}
