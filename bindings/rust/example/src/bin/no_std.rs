//! A program without std and without a heap, as firmware is: it ends with 0 where document 01's four words hang as they should. That it builds shows
//! that the wrapper needs core alone: with std beside it there would be two panic handlers, and alloc would ask for an allocator.
#![no_std]
#![no_main]

use core::panic::PanicInfo;
use fpu::{Chain, Machine, Stop, MARKS_ALL, PAIRS_PER_WORD};

// memcpy and memset for the archive, and what starts main
#[link(name = "c")]
extern "C" {
    fn abort() -> !;
}

#[panic_handler]
fn panic(_: &PanicInfo) -> ! {
    unsafe { abort() }
}

// core as it comes for Linux is compiled to unwind, and names this
#[no_mangle]
extern "C" fn rust_eh_personality() {}

const LIST: [u32; 4] = [0xEE30_0A00, 0xEEB5_0A40, 0xEEF1_FA10, 0x0E30_0A00];

#[no_mangle]
extern "C" fn main() -> i32 {
    let mut pairs = [[0; 2]; PAIRS_PER_WORD * LIST.len()];
    let mut marks = MARKS_ALL & !1;
    match Machine::new().origin(&mut marks, &mut [], &mut [], 0, &LIST, 51, &mut pairs) {
        Ok((ran, Ok(chain))) if ran.stop == Stop::Hangs(51) && chain == (Chain { first: 0, links: &[[0, 0], [1, 48], [2, 51]] }) => 0,
        _ => 1,
    }
}
