//! Stands in for thumb: nothing here executes.

use crate::{Bus, Cpu, Exit};

pub fn execute<B: Bus>(_cpu: &mut Cpu, _bus: &mut B, _op: u32) -> Option<Exit> {
    unimplemented!()
}
