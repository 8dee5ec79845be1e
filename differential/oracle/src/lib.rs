//! The Rust's calls over the states of the C interface: 53 words and a window. The Rust's FPSCR is one word, places 48, 49 and 52.

pub mod cases;

use zakuro_cpu::{arm, check_condition, vfp, Bus, Exit, Psr};
pub use zakuro_cpu::Cpu;

pub const STATE: usize = 53;

/// the words of a state in lines and records: those of places 0 to 51, of which place 49 has FPSCR 27:0.
pub const TOLD: usize = 52;

/// the calls. `Wrapper` is arm::misc's coprocessor_register, which routes by coprocessor.
#[derive(Clone, Copy, PartialEq, Eq, Debug)]
pub enum Call {
    DataProcessing,
    CoprocessorRegister,
    LoadStore,
    Wrapper,
}

/// everything that a call is given.
#[derive(Clone, PartialEq, Eq, Debug)]
pub struct Case {
    pub call: Call,
    pub thumb: bool,
    pub word: u32,
    pub base: u32,
    pub state: [u32; STATE],
    pub window: Vec<u32>,
}

/// everything that it leaves: the kind by the C interface's numbers, what Undefined reports, the state and the window.
#[derive(Clone, PartialEq, Eq, Debug)]
pub struct Reply {
    pub kind: u32,
    pub address: u32,
    pub word: u32,
    pub state: [u32; STATE],
    pub window: Vec<u32>,
}

/// document 01's window: the low two bits of an address are ignored; outside, a read gives 0 and a write is dropped.
struct Window<'a> {
    base: u32,
    words: &'a mut [u32],
}

impl Window<'_> {
    fn at(&mut self, addr: u32) -> Option<&mut u32> {
        let offset = (addr as u64 & !3).checked_sub(self.base as u64)?;
        self.words.get_mut((offset / 4) as usize)
    }
}

impl Bus for Window<'_> {
    fn read8(&mut self, _: u32) -> u8 {
        unimplemented!()
    }

    fn read16(&mut self, _: u32) -> u16 {
        unimplemented!()
    }

    fn read32(&mut self, addr: u32) -> u32 {
        self.at(addr).map_or(0, |w| *w)
    }

    fn write8(&mut self, _: u32, _: u8) {
        unimplemented!()
    }

    fn write16(&mut self, _: u32, _: u16) {
        unimplemented!()
    }

    fn write32(&mut self, addr: u32, value: u32) {
        if let Some(w) = self.at(addr) {
            *w = value;
        }
    }
}

/// the first of refusals 2, 3 and 4 that applies to a window (document 01; the Rust has none), or 0.
pub fn refusal(base: u32, words: usize) -> u32 {
    if words > 16384 {
        2
    } else if base % 4 != 0 {
        3
    } else if base as u64 + 4 * words as u64 > 1 << 32 {
        4
    } else {
        0
    }
}

/// whether a state spells a machine: no bit outside a place's own.
pub fn spells(state: &[u32; STATE]) -> bool {
    state[48] & 0x0FFF_FFFF == 0 && state[49] & 0xF000_001F == 0 && state[51] & 0x0FFF_FFFF == 0 && state[52] & !0x1F == 0
}

fn flags(word: u32) -> [bool; 4] {
    [31, 30, 29, 28].map(|n| word >> n & 1 == 1)
}

pub fn unpack(cpu: &mut Cpu, state: &[u32; STATE], thumb: bool) {
    cpu.vfp.regs.copy_from_slice(&state[..32]);
    cpu.regs.copy_from_slice(&state[32..48]);
    cpu.vfp.fpscr = state[48] | state[49] | state[52];
    cpu.vfp.fpexc = state[50];
    [cpu.cpsr.n, cpu.cpsr.z, cpu.cpsr.c, cpu.cpsr.v] = flags(state[51]);
    cpu.cpsr.thumb = thumb;
}

pub fn pack(cpu: &Cpu, state: &mut [u32; STATE]) {
    state[..32].copy_from_slice(&cpu.vfp.regs);
    state[32..48].copy_from_slice(&cpu.regs);
    state[48] = cpu.vfp.fpscr & 0xF000_0000;
    state[49] = cpu.vfp.fpscr & 0x0FFF_FFE0;
    state[50] = cpu.vfp.fpexc;
    state[51] = cpu.cpsr.to_bits() & 0xF000_0000;
    state[52] = cpu.vfp.fpscr & 0x1F;
}

/// a state as lines and records have it, and back.
pub fn told(state: &[u32; STATE]) -> [u32; TOLD] {
    let mut words = [0; TOLD];
    words.copy_from_slice(&state[..TOLD]);
    words[49] |= state[52];
    words
}

pub fn of_told(words: &[u32; TOLD]) -> [u32; STATE] {
    let mut state = [0; STATE];
    state[..TOLD].copy_from_slice(words);
    state[49] &= !0x1F;
    state[52] = words[49] & 0x1F;
    state
}

/// the registers that a word of arithmetic, root or width conversion writes, in the word's own decoding.
fn float_targets(word: u32, fpscr: u32, mut each: impl FnMut(bool, usize)) {
    let field = |lo: u32, width: u32| word >> lo & ((1 << width) - 1);
    let double = match field(8, 4) {
        10 => false,
        11 => true,
        _ => return,
    };
    let number = |double: bool| {
        let (v, extra) = (field(12, 4) as usize, field(22, 1) as usize);
        if double { extra * 16 + v } else { v * 2 + extra }
    };
    match (field(20, 4) & 0b1011, field(6, 1), field(16, 4), field(7, 1)) {
        (0..=3, ..) | (8, 0, ..) | (11, 1, 1, 1) => {}
        (11, 1, 7, 1) => return each(!double, number(!double)),
        _ => return,
    }
    let bank = if double { 4 } else { 8 };
    let d = number(double);
    let length = if d < bank { 1 } else { (fpscr >> 16 & 7) as usize + 1 };
    let stride = if fpscr >> 20 & 3 == 3 { 2 } else { 1 };
    for i in 0..length {
        each(double, d / bank * bank + (d + i * stride) % bank);
    }
}

/// makes the NaNs that a word of arithmetic, root or width conversion left in the registers, the first 32 words, canonical, and tells whether there is
/// one. Their bits are the host's on the Rust's side; on the unit's they are the operands' where FPSCR bit 25 is clear (request 2026-12).
pub fn canonical(regs: &mut [u32], word: u32, fpscr: u32) -> bool {
    let mut found = false;
    float_targets(word, fpscr, |double, n| {
        if double {
            let (low, high) = (n * 2 % 32, (n * 2 + 1) % 32);
            if f64::from_bits((regs[high] as u64) << 32 | regs[low] as u64).is_nan() {
                regs[low] = 0;
                regs[high] = 0x7FF8_0000;
                found = true;
            }
        } else if f32::from_bits(regs[n]).is_nan() {
            regs[n] = 0x7FC0_0000;
            found = true;
        }
    });
    found
}

/// FPSCR bit 25: the unit's NaNs are canonical too.
pub const DEFAULT_NANS: u32 = 1 << 25;

/// The kind of a call, the address and the word that it reports, and whether another part of the Cpu moved.
pub struct Outcome {
    pub kind: u32,
    pub address: u32,
    pub word: u32,
    pub moved: bool,
}

/// One Rust call. `cpu` may hold anything in the parts that are not in the state. A load or store outside the limits is refused
/// as document 01 says, before the Rust is asked.
pub fn run(cpu: &mut Cpu, call: Call, thumb: bool, word: u32, base: u32, state: &mut [u32; STATE], window: &mut [u32]) -> Outcome {
    if call == Call::LoadStore {
        let n = refusal(base, window.len());
        if n != 0 {
            return Outcome { kind: 100 + n, address: 0, word: 0, moved: false };
        }
    }
    unpack(cpu, state, thumb);
    let before = cpu.clone();
    let mut bus = Window { base, words: window };
    let exit = match call {
        Call::DataProcessing => vfp::data_processing(cpu, word),
        Call::CoprocessorRegister => vfp::coprocessor_register(cpu, word),
        Call::LoadStore => vfp::coprocessor_load_store(cpu, &mut bus, word),
        Call::Wrapper => arm::misc::coprocessor_register(cpu, &mut bus, word),
    };
    let branched = arm::take_branched(cpu);
    let moved = !arm::rest_equal(&before, cpu);
    if call == Call::DataProcessing {
        canonical(&mut cpu.vfp.regs, word, before.vfp.fpscr);
    }
    pack(cpu, state);
    match exit {
        None => Outcome { kind: if branched { 3 } else { 0 }, address: 0, word: 0, moved },
        Some(Exit::Undefined { pc, opcode }) if !branched => Outcome { kind: 2, address: pc, word: opcode, moved },
        Some(other) => panic!("no call answers {other:?}"),
    }
}

/// whether FPEXC bit 30 makes a word of a run Undefined (document 02, 2026-05; the Rust has no such test): transfers of system registers 0 and 8 run.
pub fn off(word: u32, fpexc: u32) -> bool {
    fpexc >> 30 & 1 == 0 && word & 0x0FE7_0010 != 0x0EE0_0010
}

/// The run over a list by document 01's rules, each word by the Rust's own call, with canonical NaNs: the kind, and what the answer has. The Rust sets
/// none of FPSCR 4:0: after a number operation they are what `exceptions` says of the word and the state before it, so that a later read has them.
pub fn listed(
    cpu: &mut Cpu,
    list: &[u32],
    base: u32,
    thumb: bool,
    state: &mut [u32; STATE],
    window: &mut [u32],
    exceptions: impl Fn(u32, &[u32; STATE]) -> u32,
) -> (u32, [u32; 5]) {
    let refused = if list.len() > 4096 { 1 } else { refusal(base, window.len()) };
    if refused != 0 {
        return (100 + refused, [0; 5]);
    }
    if thumb {
        return (105, [0; 5]);
    }
    let mut count = 0;
    for &word in list {
        let coprocessor = word >> 8 & 15;
        let load_store = word >> 25 & 7 == 6;
        if word >> 28 == 15 || !matches!(coprocessor, 10 | 11) || !(load_store || word >> 24 & 15 == 14) {
            return (1, [count, 0, 0, 0, 0]);
        }
        if condition(word >> 28, state[51]) {
            if off(word, state[50]) {
                return (2, [count, 0, state[47].wrapping_sub(8), word, 0]);
            }
            let call = match (load_store, word >> 4 & 1) {
                (true, _) => Call::LoadStore,
                (false, 1) => Call::Wrapper,
                _ => Call::DataProcessing,
            };
            let before = *state;
            let out = run(cpu, call, false, word, base, state, window);
            assert!(!out.moved, "another part of the Cpu moved");
            if cases::is_number_operation(call, word) {
                state[52] = exceptions(word, &before);
            }
            match out.kind {
                0 => {}
                3 => return (3, [count + 1, 0, 0, 0, 0]),
                kind => return (kind, [count, 0, out.address, out.word, 0]),
            }
        }
        count += 1;
        state[47] = state[47].wrapping_add(4);
    }
    (0, [count, 0, 0, 0, 0])
}

/// The Rust's calls over a list by document 01's rules, on a Cpu as it stands and in ARM state: the answer of the C interface. This is
/// the loop that the plain run is timed against: nothing is copied per word, and NaNs are left as they come.
pub fn run_list(cpu: &mut Cpu, window: &mut [u32], base: u32, list: &[u32]) -> [u32; 5] {
    let mut bus = Window { base, words: window };
    let mut count = 0;
    for &word in list {
        let coprocessor = word >> 8 & 15;
        let load_store = word >> 25 & 7 == 6;
        if word >> 28 == 15 || !matches!(coprocessor, 10 | 11) || !(load_store || word >> 24 & 15 == 14) {
            return [count, 0, 0, 0, 0];
        }
        if check_condition(word >> 28, &cpu.cpsr) {
            if off(word, cpu.vfp.fpexc) {
                return [count, 0, cpu.regs[15].wrapping_sub(8), word, 0];
            }
            let exit = match (load_store, word >> 4 & 1) {
                (true, _) => vfp::coprocessor_load_store(cpu, &mut bus, word),
                (false, 1) => vfp::coprocessor_register(cpu, word),
                _ => vfp::data_processing(cpu, word),
            };
            if arm::take_branched(cpu) {
                return [count + 1, 0, 0, 0, 0];
            }
            if let Some(Exit::Undefined { pc, opcode }) = exit {
                return [count, 0, pc, opcode, 0];
            }
        }
        count += 1;
        cpu.regs[15] = cpu.regs[15].wrapping_add(4);
    }
    [count, 0, 0, 0, 0]
}

/// One call of a case by value.
pub fn answer(case: &Case) -> Reply {
    let mut state = case.state;
    let mut window = case.window.clone();
    let o = run(&mut Cpu::new(), case.call, case.thumb, case.word, case.base, &mut state, &mut window);
    assert!(!o.moved, "another part of the Cpu moved: {}", case.line());
    Reply { kind: o.kind, address: o.address, word: o.word, state, window }
}

/// whether data_processing leaves a NaN with FPSCR bit 25 clear, given the state before and after the word: its bits are not compared.
pub fn payload(word: u32, before: &[u32; STATE], after: &[u32; STATE]) -> bool {
    before[49] & DEFAULT_NANS == 0 && canonical(&mut after.clone(), word, before[49])
}

/// FPSCR bit 25 where the case's word leaves a NaN, so that the unit's is canonical.
pub fn default_nans(case: &mut Case) {
    if case.call == Call::DataProcessing && payload(case.word, &case.state, &answer(case).state) {
        case.state[49] |= DEFAULT_NANS;
    }
}

/// fills the parts of the Cpu that are not in the state.
pub fn fill_rest(cpu: &mut Cpu, next: impl FnMut() -> u32) {
    arm::fill_rest(cpu, next);
}

/// check_condition on the flags of place 51.
pub fn condition(cond: u32, nzcv: u32) -> bool {
    let [n, z, c, v] = flags(nzcv);
    check_condition(cond, &Psr { n, z, c, v, ..Psr::default() })
}

impl Call {
    pub fn number(self) -> u32 {
        match self {
            Call::DataProcessing => 0,
            Call::CoprocessorRegister => 1,
            Call::LoadStore => 2,
            Call::Wrapper => 3,
        }
    }

    pub fn of(number: u32) -> Option<Call> {
        [Call::DataProcessing, Call::CoprocessorRegister, Call::LoadStore, Call::Wrapper].into_iter().find(|c| c.number() == number)
    }
}

fn spaced(words: impl IntoIterator<Item = u32>) -> String {
    words.into_iter().map(|w| format!("{w:X}")).collect::<Vec<_>>().join(" ")
}

impl Case {
    /// a line of hexadecimal words: call, thumb, word, base, how many window words, these, and the 52 words of the state.
    pub fn parse(line: &str) -> Result<Case, String> {
        let words = line
            .split_whitespace()
            .map(|w| u32::from_str_radix(w, 16).map_err(|e| format!("{w}: {e}")))
            .collect::<Result<Vec<u32>, String>>()?;
        let few = || "too few words".to_string();
        let count = *words.get(4).ok_or_else(few)? as usize;
        let state = words.get(5 + count..).ok_or_else(few)?;
        let case = Case {
            call: Call::of(words[0]).ok_or("no such call")?,
            thumb: match words[1] {
                0 => false,
                1 => true,
                _ => return Err("thumb is neither 0 nor 1".into()),
            },
            word: words[2],
            base: words[3],
            window: words[5..5 + count].to_vec(),
            state: of_told(state.try_into().map_err(|_| "the state has not 52 words".to_string())?),
        };
        if !spells(&case.state) {
            return Err("a bit outside a place's own".into());
        }
        Ok(case)
    }

    pub fn line(&self) -> String {
        let head = [self.call.number(), self.thumb as u32, self.word, self.base, self.window.len() as u32];
        spaced(head.into_iter().chain(self.window.iter().copied()).chain(told(&self.state)))
    }
}

impl Reply {
    /// a line of hexadecimal words: kind, address, word, the 52 words of the state, and the window.
    pub fn line(&self) -> String {
        spaced([self.kind, self.address, self.word].into_iter().chain(told(&self.state)).chain(self.window.iter().copied()))
    }
}
