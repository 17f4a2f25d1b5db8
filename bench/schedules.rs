//! Schedules made from a fixed seed: sensible calls of threads that take turns at random, so that protects, scans and handovers of
//! several threads are under way at once, and now and then a call that is refused.

use crate::plain::{Answer, Call, Sizes, State, COUNTS};
use crate::records::{write_sizes, write_step};

struct Random(u64);

impl Random {
    /// A number below `end`.
    fn below(&mut self, end: u8) -> u8 {
        self.0 ^= self.0 << 13;
        self.0 ^= self.0 >> 7;
        self.0 ^= self.0 << 17;
        ((self.0 >> 32) % u64::from(end)) as u8
    }

    fn percent(&mut self, share: u8) -> bool {
        self.below(100) < share
    }
}

/// A schedule as the program's input, how often each answer number comes in it, refusals being counted at 0, and how often each kind of
/// work that is answered 3.
pub struct Schedule {
    pub input: Vec<u8>,
    pub answers: [u32; 12],
    pub work: [u32; 7],
}

pub fn schedule(sizes: Sizes, steps: usize, seed: u64) -> Schedule {
    let mut random = Random(seed);
    let mut state = State::start(sizes).expect("sizes in range");
    let mut made = Schedule { input: Vec::with_capacity(10 + 10 * steps), answers: [0; 12], work: [0; 7] };
    write_sizes(&mut made.input, &sizes);
    for _ in 0..steps {
        let call = if random.percent(3) { any_call(&mut random, &sizes) } else { sensible(&mut random, &state) };
        write_step(&mut made.input, &call);
        let answer = state.step::<COUNTS>(&call);
        let number = match answer {
            Answer::Refused(_) => 0,
            answer => answer.numbers().0,
        };
        made.answers[usize::from(number)] += 1;
        if let Answer::Working(work, _) = answer {
            made.work[work as usize - 1] += 1;
        }
    }
    made
}

/// Fields that are in range, or one above, whatever the thread is in the middle of.
fn any_call(random: &mut Random, sizes: &Sizes) -> Call {
    Call {
        thread: random.below(sizes.threads + 1),
        operation: random.below(9),
        slot: random.below(sizes.slots + 1),
        link: random.below(sizes.links + 1),
        tag: 0,
    }
}

/// A call that its thread may well make: go on with what is begun, replace what a link holds, retire what comes out, read, clear.
fn sensible(random: &mut Random, state: &State) -> Call {
    let z = &state.sizes;
    let number = random.below(z.threads);
    let thread = &state.threads[usize::from(number)];
    let mut call = Call { thread: number, operation: 7, slot: 0, link: 0, tag: 0 };
    if !thread.phase.idle() {
        return call;
    }
    let first = usize::from(number * z.slots);
    let slots = &state.slots[first..first + usize::from(z.slots)];
    call.slot = random.below(z.slots);
    // half of the calls go to the first two links, so that threads meet there
    call.link = if random.percent(50) { random.below(z.links.min(2)) } else { random.below(z.links) };
    let held = &slots[usize::from(call.slot)];
    let at_link = state.links[usize::from(call.link)];
    let kind = random.below(100);
    match (thread.hand, held.mark) {
        (0, _) if kind < 30 && state.free.contains(&true) => {
            call = Call { operation: 1, slot: 0, link: 0, tag: u32::from(random.below(250)) << 16 | u32::from(kind), ..call };
        }
        (_, true) if kind < 40 => call = Call { operation: 4, link: 0, ..call },
        (_, true) if kind < 60 => call = Call { operation: 6, link: 0, ..call },
        (hand, _) if hand != 0 && at_link == 0 && kind < 80 => call = Call { operation: 3, slot: 255, ..call },
        // what is in hand for the slot's object, where that still stands in a link; with an empty hand, the object is taken out
        (_, true) if kind < 85 => {
            if let Some(link) = state.links.iter().position(|&object| object == held.hazard) {
                call.link = link as u8;
            }
            call.operation = 3;
        }
        (hand, _) if hand != 0 && kind < 90 => call = Call { operation: 5, slot: 0, link: 0, ..call },
        (_, false) if held.handover != 0 && kind < 60 => call = Call { operation: 6, link: 0, ..call },
        _ => call.operation = 2,
    }
    call
}

