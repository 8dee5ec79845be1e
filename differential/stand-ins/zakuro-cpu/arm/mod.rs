//! Stands in for arm/mod.rs: nothing here executes. Being inside the crate it can also reach what is private to its root, which
//! the oracle needs: the branched flag, and the parts that no call may move.

pub mod misc;

use crate::{Bus, Cpu, Exit, Mode, Psr};

pub fn execute<B: Bus>(_cpu: &mut Cpu, _bus: &mut B, _op: u32) -> Option<Exit> {
    unimplemented!()
}

/// the branched flag, cleared.
pub fn take_branched(cpu: &mut Cpu) -> bool {
    std::mem::take(&mut cpu.branched)
}

/// fills everything but what a call may move (regs, vfp, NZCV) and the Thumb bit.
pub fn fill_rest(cpu: &mut Cpu, mut next: impl FnMut() -> u32) {
    const MODES: [Mode; 7] = [
        Mode::User,
        Mode::Fiq,
        Mode::Irq,
        Mode::Supervisor,
        Mode::Abort,
        Mode::Undefined,
        Mode::System,
    ];
    let mut psr = |old: Psr| {
        let new = Psr::from_bits(next());
        Psr { n: old.n, z: old.z, c: old.c, v: old.v, thumb: old.thumb, mode: MODES[next() as usize % 7], ..new }
    };
    cpu.cpsr = psr(cpu.cpsr);
    cpu.spsr = psr(cpu.spsr);
    for i in 0..6 {
        cpu.banked_spsr[i] = psr(cpu.banked_spsr[i]);
    }
    for pair in &mut cpu.banked_sp_lr {
        *pair = [next(), next()];
    }
    for i in 0..5 {
        cpu.fiq_r8_r12[i] = next();
        cpu.user_r8_r12[i] = next();
    }
    cpu.cp15.thread_id_rw = next();
    cpu.cp15.thread_id_ro = next();
    cpu.cp15.thread_id_priv = next();
    cpu.cp15.control = next();
    cpu.cp15.icache_invalidated = next() % 2 == 0;
    cpu.exclusive_addr = if next() % 2 == 0 { None } else { Some(next()) };
    cpu.halted = next() % 2 == 0;
    cpu.cycles = next() as u64;
}

/// whether two cores are equal in everything but regs, vfp, NZCV and the branched flag.
pub fn rest_equal(a: &Cpu, b: &Cpu) -> bool {
    let psr = |p: Psr| Psr { n: false, z: false, c: false, v: false, ..p };
    psr(a.cpsr) == psr(b.cpsr)
        && a.spsr == b.spsr
        && a.banked_sp_lr == b.banked_sp_lr
        && a.banked_spsr == b.banked_spsr
        && a.fiq_r8_r12 == b.fiq_r8_r12
        && a.user_r8_r12 == b.user_r8_r12
        && a.cp15.thread_id_rw == b.cp15.thread_id_rw
        && a.cp15.thread_id_ro == b.cp15.thread_id_ro
        && a.cp15.thread_id_priv == b.cp15.thread_id_priv
        && a.cp15.control == b.cp15.control
        && a.cp15.icache_invalidated == b.cp15.icache_invalidated
        && a.cp15.invalidate_ranges == b.cp15.invalidate_ranges
        && a.exclusive_addr == b.exclusive_addr
        && a.halted == b.halted
        && a.cycles == b.cycles
}
