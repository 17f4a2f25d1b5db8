//! The record machine in plain Rust, written from the scope page and the change requests alone: the state is changed where it stands,
//! and its soundness is checked before every call, as the rules say.
//!
//! Here are the state and what each call does; the check, in the ways that are compared, and the refusals are in plain/refusing.rs. In
//! plain/by_value.rs are the same rules with the state handed on by value.

mod by_value;
mod refusing;

pub use refusing::{COUNTS, FLAT, WALK, WHOLE};

const THREADS: usize = 8;
const SLOTS: usize = 4;
const LINKS: usize = 16;
const OBJECTS: usize = 240;

#[derive(Clone, Copy)]
pub struct Sizes {
    pub threads: u8,
    pub slots: u8,
    pub links: u8,
    pub objects: u8,
}

impl Sizes {
    fn in_range(&self) -> bool {
        (1..=THREADS).contains(&(self.threads as usize))
            && (1..=SLOTS).contains(&(self.slots as usize))
            && (1..=LINKS).contains(&(self.links as usize))
            && (1..=OBJECTS).contains(&(self.objects as usize))
    }

    fn blank(&self) -> bool {
        self.threads == 0 && self.slots == 0 && self.links == 0 && self.objects == 0
    }

    fn positions(&self) -> u8 {
        self.threads * self.slots
    }
}

#[derive(Clone, Copy)]
pub enum Phase {
    Idle,
    Loaded { slot: u8, link: u8, object: u8 },
    Sweeping { slot: u8, link: u8 },
    Published { slot: u8, link: u8 },
    Draining { slot: u8 },
    Look { object: u8, position: u8, back: Back },
    Swap { object: u8, position: u8, back: Back },
}

/// What a scan returns to: idle, or the protect in whose sweep it began.
#[derive(Clone, Copy)]
pub enum Back {
    Idle,
    Protect { slot: u8, link: u8 },
}

impl Back {
    fn phase(self) -> Phase {
        match self {
            Back::Idle => Phase::Idle,
            Back::Protect { slot, link } => Phase::Published { slot, link },
        }
    }

    fn in_range(&self, z: &Sizes) -> bool {
        match *self {
            Back::Idle => true,
            Back::Protect { slot, link } => slot < z.slots && link < z.links,
        }
    }
}

impl Phase {
    pub fn idle(&self) -> bool {
        matches!(self, Phase::Idle)
    }

    fn carried(&self) -> u8 {
        match *self {
            Phase::Look { object, .. } | Phase::Swap { object, .. } => object,
            _ => 0,
        }
    }

    fn in_range(&self, z: &Sizes) -> bool {
        let one = |object: u8| object != 0 && object <= z.objects;
        match *self {
            Phase::Idle => true,
            Phase::Loaded { slot, link, object } => slot < z.slots && link < z.links && object <= z.objects,
            Phase::Sweeping { slot, link } | Phase::Published { slot, link } => slot < z.slots && link < z.links,
            Phase::Draining { slot } => slot < z.slots,
            Phase::Look { object, position, back } => one(object) && position <= z.positions() && back.in_range(z),
            Phase::Swap { object, position, back } => one(object) && position < z.positions() && back.in_range(z),
        }
    }
}

#[derive(Clone, Copy)]
pub struct Thread {
    pub hand: u8,
    pub phase: Phase,
}

#[derive(Clone, Copy)]
pub struct Slot {
    pub hazard: u8,
    pub mark: bool,
    pub handover: u8,
}

pub struct State {
    pub sizes: Sizes,
    pub links: [u8; LINKS],
    pub threads: [Thread; THREADS],
    pub slots: [Slot; THREADS * SLOTS],
    pub free: [bool; OBJECTS],
    pub tags: [u32; OBJECTS],
}

#[derive(Clone, Copy)]
pub struct Call {
    pub thread: u8,
    pub operation: u8,
    pub slot: u8,
    pub link: u8,
    pub tag: u32,
}

#[derive(Clone, Copy)]
pub enum Answer {
    Refused(u8),
    Taken(u8),
    Begun(u8),
    Working(Work, u8),
    Protected(u8, u32),
    Nothing,
    Swapped(u8),
    Moved,
    Tag(u32),
    Finished,
    Left(u8, u8),
    Freed(u8),
}

/// What a step that is answered 3 did, by its number; the position concerned stands beside it.
#[derive(Clone, Copy)]
pub enum Work {
    Publication = 1,
    FailedRead,
    NoMatch,
    Match,
    Displacement,
    Found,
    FoundNothing,
}

impl Answer {
    /// The number of the answer or the refusal, and its two values.
    pub fn numbers(self) -> (u8, u32, u32) {
        match self {
            Answer::Refused(number) => (number, 0, 0),
            Answer::Taken(object) => (1, object.into(), 0),
            Answer::Begun(object) => (2, object.into(), 0),
            Answer::Working(work, position) => (3, work as u32, position.into()),
            Answer::Protected(object, tag) => (4, object.into(), tag),
            Answer::Nothing => (5, 0, 0),
            Answer::Swapped(object) => (6, object.into(), 0),
            Answer::Moved => (7, 0, 0),
            Answer::Tag(tag) => (8, tag, 0),
            Answer::Finished => (9, 0, 0),
            Answer::Left(object, position) => (10, object.into(), position.into()),
            Answer::Freed(object) => (11, object.into(), 0),
        }
    }
}

impl State {
    /// A fresh machine, or nothing where a size is out of range.
    pub fn start(sizes: Sizes) -> Option<State> {
        if !sizes.in_range() {
            return None;
        }
        let mut state = State {
            sizes,
            links: [0; LINKS],
            threads: [Thread { hand: 0, phase: Phase::Idle }; THREADS],
            slots: [Slot { hazard: 0, mark: false, handover: 0 }; THREADS * SLOTS],
            free: [false; OBJECTS],
            tags: [0; OBJECTS],
        };
        state.free[..sizes.objects as usize].fill(true);
        Some(state)
    }

    fn position(&self, thread: u8, slot: u8) -> usize {
        (thread * self.sizes.slots + slot) as usize
    }

    pub fn step<const WAY: u8>(&mut self, call: &Call) -> Answer {
        match self.refusal::<WAY>(call) {
            0 => self.accepted(call),
            number => Answer::Refused(number),
        }
    }

    fn accepted(&mut self, call: &Call) -> Answer {
        let at = call.thread as usize;
        match call.operation {
            1 => {
                let free = self.free.iter().position(|&free| free).unwrap();
                self.free[free] = false;
                self.tags[free] = call.tag;
                self.threads[at].hand = free as u8 + 1;
                Answer::Taken(free as u8 + 1)
            }
            2 => {
                let object = self.links[call.link as usize];
                self.threads[at].phase = Phase::Loaded { slot: call.slot, link: call.link, object };
                Answer::Begun(object)
            }
            3 => {
                let wanted = match call.slot {
                    255 => 0,
                    slot => self.slots[self.position(call.thread, slot)].hazard,
                };
                let link = &mut self.links[call.link as usize];
                if *link != wanted {
                    return Answer::Moved;
                }
                std::mem::swap(link, &mut self.threads[at].hand);
                Answer::Swapped(wanted)
            }
            4 => {
                let object = self.slots[self.position(call.thread, call.slot)].hazard;
                Answer::Tag(self.tags[object as usize - 1])
            }
            5 => {
                let thread = &mut self.threads[at];
                let object = std::mem::take(&mut thread.hand);
                thread.phase = Phase::Look { object, position: 0, back: Back::Idle };
                Answer::Begun(object)
            }
            6 => {
                let position = self.position(call.thread, call.slot);
                let slot = &mut self.slots[position];
                slot.hazard = 0;
                slot.mark = false;
                self.threads[at].phase = Phase::Draining { slot: call.slot };
                Answer::Begun(0)
            }
            _ => self.go_on(call.thread),
        }
    }

    fn go_on(&mut self, number: u8) -> Answer {
        let end = self.sizes.positions();
        let at = number as usize;
        let (phase, answer) = match self.threads[at].phase {
            Phase::Idle => return Answer::Refused(27),
            Phase::Loaded { slot, link, object } => {
                let position = self.position(number, slot);
                self.slots[position].hazard = object;
                self.slots[position].mark = false;
                (Phase::Sweeping { slot, link }, Answer::Working(Work::Publication, position as u8))
            }
            Phase::Sweeping { slot, link } => {
                let position = self.position(number, slot);
                self.emptied(position, Back::Protect { slot, link }, Answer::Working(Work::FoundNothing, position as u8))
            }
            Phase::Published { slot, link } => self.confirmed(number, slot, link),
            Phase::Draining { slot } => self.emptied(self.position(number, slot), Back::Idle, Answer::Finished),
            Phase::Look { object, position, back } if position >= end => {
                self.free[object as usize - 1] = true;
                self.tags[object as usize - 1] = 0;
                (back.phase(), Answer::Freed(object))
            }
            Phase::Look { object, position, back } => {
                if self.slots[position as usize].hazard == object {
                    (Phase::Swap { object, position, back }, Answer::Working(Work::Match, position))
                } else {
                    (Phase::Look { object, position: position + 1, back }, Answer::Working(Work::NoMatch, position))
                }
            }
            Phase::Swap { object, position, back } => {
                match std::mem::replace(&mut self.slots[position as usize].handover, object) {
                    0 => (back.phase(), Answer::Left(object, position)),
                    old => (Phase::Look { object: old, position, back }, Answer::Working(Work::Displacement, position)),
                }
            }
        };
        self.threads[at].phase = phase;
        answer
    }

    /// The second read of the link.
    fn confirmed(&mut self, number: u8, slot: u8, link: u8) -> (Phase, Answer) {
        let object = self.links[link as usize];
        let position = self.position(number, slot);
        let slot_there = &mut self.slots[position];
        if object != slot_there.hazard {
            (Phase::Loaded { slot, link, object }, Answer::Working(Work::FailedRead, position as u8))
        } else if object == 0 {
            (Phase::Idle, Answer::Nothing)
        } else {
            slot_there.mark = true;
            (Phase::Idle, Answer::Protected(object, self.tags[object as usize - 1]))
        }
    }

    /// Takes a slot's handover: on to `back` where it was empty, with that answer, or else a scan of what stood there.
    fn emptied(&mut self, position: usize, back: Back, none: Answer) -> (Phase, Answer) {
        match std::mem::take(&mut self.slots[position].handover) {
            0 => (back.phase(), none),
            object => (Phase::Look { object, position: position as u8, back }, Answer::Working(Work::Found, position as u8)),
        }
    }

    /// Objects free, in links, in hands, in handovers, carried; five zeros where the state is not sound.
    pub fn count<const WAY: u8>(&self) -> [u8; 5] {
        if !self.sound::<WAY>() {
            return [0; 5];
        }
        let some = |object: u8| (object != 0) as u8;
        [
            self.free.iter().map(|&free| free as u8).sum(),
            self.links.iter().map(|&object| some(object)).sum(),
            self.threads.iter().map(|thread| some(thread.hand)).sum(),
            self.slots.iter().map(|slot| some(slot.handover)).sum(),
            self.threads.iter().map(|thread| some(thread.phase.carried())).sum(),
        ]
    }
}
