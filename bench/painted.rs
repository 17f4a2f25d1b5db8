//! How much stack a run takes: the stack below this one is painted, the run is made, and the lowest byte that lost its paint is looked for.

use std::ptr::{read_volatile, write_volatile};

/// More than any run takes.
const ROOM: usize = 1 << 16;
const PAINT: u8 = 0xa5;

/// Paints what stands below the caller; the address of the lowest painted byte.
#[inline(never)]
fn paint() -> usize {
    let mut area = [0u8; ROOM];
    for byte in &mut area {
        // SAFETY: the byte is a live local's.
        unsafe { write_volatile(byte, PAINT) };
    }
    area.as_ptr() as usize
}

/// Bytes of stack that the run takes, its return address included.
#[inline(never)]
pub fn taken(run: fn(&[u8]) -> u64, input: &[u8]) -> usize {
    // once before, so that what the loader does at a first call is done
    run(input);
    let low = paint();
    let top: usize;
    // SAFETY: it reads one register.
    unsafe { std::arch::asm!("mov {}, rsp", out(reg) top) };
    run(input);
    // SAFETY: these bytes are this thread's own stack, between what was painted and this frame.
    let painted = (low..top).take_while(|&at| unsafe { read_volatile(at as *const u8) } == PAINT).count();
    top - low - painted
}
