//! The walk over a row in the form of the scope page: "step as a method taking the state by value and returning state and answer together".
//! Every rule takes the state and hands the next one back; nothing is changed where the caller keeps it. What this form costs in Rust is
//! the difference to `FLAT`, which has the same check and the same rules and changes its state in place.

use super::refusing::VALUE;
use super::{Answer, Back, Call, Phase, State, Work};

/// "Each call hands the next state back."
pub struct Outcome {
    pub state: State,
    pub answer: Answer,
}

impl State {
    pub fn handed_on(self, call: Call) -> Outcome {
        match self.refusal::<VALUE>(&call) {
            0 => done(self, call),
            number => Outcome { state: self, answer: Answer::Refused(number) },
        }
    }

    /// The five places, of a state that is handed over too.
    pub fn places(self) -> [u8; 5] {
        self.count::<VALUE>()
    }
}

fn done(state: State, call: Call) -> Outcome {
    match call.operation {
        1 => take(state, call.thread, call.tag),
        2 => protect(state, call.thread, call.slot, call.link),
        3 => swap(state, call.thread, call.slot, call.link),
        4 => read(state, call.thread, call.slot),
        5 => retire(state, call.thread),
        6 => clear(state, call.thread, call.slot),
        _ => go_on(state, call.thread),
    }
}

fn take(mut state: State, thread: u8, tag: u32) -> Outcome {
    let free = state.free.iter().position(|&free| free).unwrap();
    state.free[free] = false;
    state.tags[free] = tag;
    state.threads[thread as usize].hand = free as u8 + 1;
    Outcome { state, answer: Answer::Taken(free as u8 + 1) }
}

fn protect(mut state: State, thread: u8, slot: u8, link: u8) -> Outcome {
    let object = state.links[link as usize];
    state.threads[thread as usize].phase = Phase::Loaded { slot, link, object };
    Outcome { state, answer: Answer::Begun(object) }
}

fn swap(mut state: State, thread: u8, slot: u8, link: u8) -> Outcome {
    let wanted = match slot {
        255 => 0,
        slot => state.slots[state.position(thread, slot)].hazard,
    };
    if state.links[link as usize] != wanted {
        return Outcome { state, answer: Answer::Moved };
    }
    state.links[link as usize] = state.threads[thread as usize].hand;
    state.threads[thread as usize].hand = wanted;
    Outcome { state, answer: Answer::Swapped(wanted) }
}

fn read(state: State, thread: u8, slot: u8) -> Outcome {
    let object = state.slots[state.position(thread, slot)].hazard;
    let tag = state.tags[object as usize - 1];
    Outcome { state, answer: Answer::Tag(tag) }
}

fn retire(mut state: State, thread: u8) -> Outcome {
    let object = state.threads[thread as usize].hand;
    state.threads[thread as usize].hand = 0;
    state.threads[thread as usize].phase = Phase::Look { object, position: 0, back: Back::Idle };
    Outcome { state, answer: Answer::Begun(object) }
}

fn clear(mut state: State, thread: u8, slot: u8) -> Outcome {
    let position = state.position(thread, slot);
    state.slots[position].hazard = 0;
    state.slots[position].mark = false;
    state.threads[thread as usize].phase = Phase::Draining { slot };
    Outcome { state, answer: Answer::Begun(0) }
}

fn go_on(state: State, thread: u8) -> Outcome {
    match state.threads[thread as usize].phase {
        Phase::Idle => Outcome { state, answer: Answer::Refused(27) },
        Phase::Loaded { slot, link, object } => publish(state, thread, slot, link, object),
        Phase::Sweeping { slot, link } => {
            let position = state.position(thread, slot);
            empty(state, thread, position, Back::Protect { slot, link }, Answer::Working(Work::FoundNothing, position as u8))
        }
        Phase::Published { slot, link } => confirm(state, thread, slot, link),
        Phase::Draining { slot } => {
            let position = state.position(thread, slot);
            empty(state, thread, position, Back::Idle, Answer::Finished)
        }
        Phase::Look { object, position, back } => look(state, thread, object, position, back),
        Phase::Swap { object, position, back } => hand_over(state, thread, object, position, back),
    }
}

fn publish(mut state: State, thread: u8, slot: u8, link: u8, object: u8) -> Outcome {
    let position = state.position(thread, slot);
    state.slots[position].hazard = object;
    state.slots[position].mark = false;
    state.threads[thread as usize].phase = Phase::Sweeping { slot, link };
    Outcome { state, answer: Answer::Working(Work::Publication, position as u8) }
}

fn confirm(mut state: State, thread: u8, slot: u8, link: u8) -> Outcome {
    let object = state.links[link as usize];
    let position = state.position(thread, slot);
    if object != state.slots[position].hazard {
        state.threads[thread as usize].phase = Phase::Loaded { slot, link, object };
        return Outcome { state, answer: Answer::Working(Work::FailedRead, position as u8) };
    }
    state.threads[thread as usize].phase = Phase::Idle;
    if object == 0 {
        return Outcome { state, answer: Answer::Nothing };
    }
    state.slots[position].mark = true;
    let tag = state.tags[object as usize - 1];
    Outcome { state, answer: Answer::Protected(object, tag) }
}

fn empty(mut state: State, thread: u8, position: usize, back: Back, none: Answer) -> Outcome {
    let object = state.slots[position].handover;
    state.slots[position].handover = 0;
    if object == 0 {
        state.threads[thread as usize].phase = back.phase();
        return Outcome { state, answer: none };
    }
    state.threads[thread as usize].phase = Phase::Look { object, position: position as u8, back };
    Outcome { state, answer: Answer::Working(Work::Found, position as u8) }
}

fn look(mut state: State, thread: u8, object: u8, position: u8, back: Back) -> Outcome {
    if position >= state.sizes.positions() {
        state.free[object as usize - 1] = true;
        state.tags[object as usize - 1] = 0;
        state.threads[thread as usize].phase = back.phase();
        return Outcome { state, answer: Answer::Freed(object) };
    }
    if state.slots[position as usize].hazard == object {
        state.threads[thread as usize].phase = Phase::Swap { object, position, back };
        return Outcome { state, answer: Answer::Working(Work::Match, position) };
    }
    state.threads[thread as usize].phase = Phase::Look { object, position: position + 1, back };
    Outcome { state, answer: Answer::Working(Work::NoMatch, position) }
}

fn hand_over(mut state: State, thread: u8, object: u8, position: u8, back: Back) -> Outcome {
    let old = state.slots[position as usize].handover;
    state.slots[position as usize].handover = object;
    if old == 0 {
        state.threads[thread as usize].phase = back.phase();
        return Outcome { state, answer: Answer::Left(object, position) };
    }
    state.threads[thread as usize].phase = Phase::Look { object: old, position, back };
    Outcome { state, answer: Answer::Working(Work::Displacement, position) }
}
