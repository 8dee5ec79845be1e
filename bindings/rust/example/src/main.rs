//! A worked example: document 01's four words under the watch, where s0 is unknown, and where the place that they hang on came from. It prints what
//! bindings/c/example.c prints. Places are numbered as include/fpu.h says: 0 to 31 are s0 to s31, 48 FPSCR's flags, 51 NZCV, and 53 + i is word i of the window.
use fpu::{Machine, Stop, MARKS_ALL, PAIRS_PER_WORD, STATE_WORDS};

// s0 = s0 + s0; compare s0 with 0; the flags to NZCV; if equal, s0 = s0 + s0
const LIST: [u32; 4] = [0xEE30_0A00, 0xEEB5_0A40, 0xEEF1_FA10, 0x0E30_0A00];

// the address of the window's first word
const BASE: u32 = 0x8000;

fn main() {
    // the start: a new machine, of which all is known but s0, and a window of four words, all known
    let start = Machine::new();
    let start_marks = MARKS_ALL & !1;
    let (window, window_marks) = ([0; 4], [1; 4]);

    // a call changes what it is lent, so it is lent copies, and the start stays
    let (mut machine, mut marks, mut words, mut word_marks) = (start, start_marks, window, window_marks);
    let ran = machine.watch(&mut marks, &mut words, &mut word_marks, BASE, &LIST).expect("no bit outside a place's own");
    let places = STATE_WORDS + window.len();
    let place = match ran.stop {
        Stop::Hangs(place) => place,
        other => panic!("it was to hang: {other:?}"),
    };
    println!("hangs on place {place}: ran {} of {} words, {} of {places} places known", ran.count, LIST.len(), ran.known);

    // where that place came from: origin runs the list again, from the same start. The links go to a list of the caller's.
    let mut pairs = [[0; 2]; PAIRS_PER_WORD * LIST.len()];
    let (mut machine, mut marks, mut words, mut word_marks) = (start, start_marks, window, window_marks);
    let (again, chain) = machine
        .origin(&mut marks, &mut words, &mut word_marks, BASE, &LIST, place, &mut pairs)
        .expect("no bit outside a place's own");
    assert_eq!(again, ran);
    let chain = chain.expect("the place is unknown, and there are pairs enough");
    println!("place {place} came from place {}, unknown at the start", chain.first);
    for [word, place] in chain.links {
        println!("  word {word} made place {place} unknown");
    }
}
