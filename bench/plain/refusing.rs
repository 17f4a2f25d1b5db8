//! Whether a state is sound, and whether a call is refused.

use super::{Call, State, LINKS, SLOTS, THREADS};

/// How the check finds out that each object is in one place, and how it goes through the arrays.
///
/// With a count per object, leaving at the first entry that is wrong, as one writes it.
pub const COUNTS: u8 = 0;
/// With a count per object, looking at every entry of the long arrays, which lets the compiler take many at once.
pub const WHOLE: u8 = 1;
/// Without: for each object it walks the links, threads and slots and keeps one number.
pub const WALK: u8 = 2;
/// As `WALK`, but the numbers that can hold an object are laid in one row first, which is walked for each object.
pub const FLAT: u8 = 3;
/// As `FLAT`, in a machine that hands its state on by value: see by_value.rs.
pub const VALUE: u8 = 4;

/// The numbers that can hold an object: links, hands, handovers, and what each thread carries.
const PLACES: usize = LINKS + THREADS + THREADS * SLOTS + THREADS;

fn every<const WAY: u8, T>(mut items: impl Iterator<Item = T>, good: impl Fn(T) -> bool) -> bool {
    if WAY == COUNTS {
        items.all(good)
    } else {
        items.fold(true, |all, item| all & good(item))
    }
}

impl State {
    pub fn sound<const WAY: u8>(&self) -> bool {
        let z = &self.sizes;
        if !z.in_range() && !z.blank() {
            return false;
        }
        let n = z.objects as usize;
        let placed = match WAY {
            COUNTS | WHOLE => self.counted::<WAY>(),
            WALK => self.in_range() && self.walked(),
            _ => self.in_range() && self.walked_flat(),
        };
        placed
            && every::<WAY, _>(self.free[n..].iter(), |&free| !free)
            && every::<WAY, _>(self.tags[n..].iter(), |&tag| tag == 0)
    }

    /// Whether links, threads and slots are in range and each object is in one place, with a count per object.
    fn counted<const WAY: u8>(&self) -> bool {
        let z = &self.sizes;
        // how often each number stands in a place; index 0 takes the empty ones
        let mut counts = [0u8; 256];
        let (links, beyond) = self.links.split_at(z.links as usize);
        for &object in links {
            if object > z.objects {
                return false;
            }
            counts[object as usize] += 1;
        }
        if beyond.iter().any(|&object| object != 0) {
            return false;
        }
        let (threads, beyond) = self.threads.split_at(z.threads as usize);
        for thread in threads {
            if thread.hand > z.objects || !thread.phase.in_range(z) {
                return false;
            }
            counts[thread.hand as usize] += 1;
            counts[thread.phase.carried() as usize] += 1;
        }
        if beyond.iter().any(|thread| thread.hand != 0 || !thread.phase.idle()) {
            return false;
        }
        let (slots, beyond) = self.slots.split_at(z.positions() as usize);
        for slot in slots {
            if slot.hazard > z.objects || slot.handover > z.objects || (slot.mark && slot.hazard == 0) {
                return false;
            }
            counts[slot.handover as usize] += 1;
        }
        if beyond.iter().any(|slot| slot.hazard != 0 || slot.mark || slot.handover != 0) {
            return false;
        }
        let free = self.free[..z.objects as usize].iter();
        every::<WAY, _>(free.zip(&counts[1..]), |(&free, &count)| count + free as u8 == 1)
    }

    /// Whether links, threads and slots are in range, and those beyond the sizes empty.
    fn in_range(&self) -> bool {
        let z = &self.sizes;
        let (links, links_beyond) = self.links.split_at(z.links as usize);
        let (threads, threads_beyond) = self.threads.split_at(z.threads as usize);
        let (slots, slots_beyond) = self.slots.split_at(z.positions() as usize);
        links.iter().all(|&object| object <= z.objects)
            && links_beyond.iter().all(|&object| object == 0)
            && threads.iter().all(|thread| thread.hand <= z.objects && thread.phase.in_range(z))
            && threads_beyond.iter().all(|thread| thread.hand == 0 && thread.phase.idle())
            && slots.iter().all(|slot| slot.hazard <= z.objects && slot.handover <= z.objects && (!slot.mark || slot.hazard != 0))
            && slots_beyond.iter().all(|slot| slot.hazard == 0 && !slot.mark && slot.handover == 0)
    }

    /// Whether each object is in one place, by a walk over the places for each.
    fn walked(&self) -> bool {
        self.free[..self.sizes.objects as usize].iter().enumerate().all(|(before, &free)| {
            let object = before as u8 + 1;
            let here = |number: u8| (number == object) as u8;
            let links: u8 = self.links.iter().map(|&link| here(link)).sum();
            let threads: u8 = self.threads.iter().map(|thread| here(thread.hand) + here(thread.phase.carried())).sum();
            let slots: u8 = self.slots.iter().map(|slot| here(slot.handover)).sum();
            free as u8 + links + threads + slots == 1
        })
    }

    /// The same with the places laid in a row first. Two versions walk so, and each compiles it into its check, as if it were the only one.
    #[inline(always)]
    fn walked_flat(&self) -> bool {
        let mut row = [0u8; PLACES];
        let (links, others) = row.split_at_mut(LINKS);
        let (threads, slots) = others.split_at_mut(2 * THREADS);
        links.copy_from_slice(&self.links);
        for (places, thread) in threads.chunks_exact_mut(2).zip(&self.threads) {
            places.copy_from_slice(&[thread.hand, thread.phase.carried()]);
        }
        for (place, slot) in slots.iter_mut().zip(&self.slots) {
            *place = slot.handover;
        }
        self.free[..self.sizes.objects as usize].iter().enumerate().all(|(before, &free)| {
            let object = before as u8 + 1;
            let times: u8 = row.iter().map(|&number| (number == object) as u8).sum();
            free as u8 + times == 1
        })
    }

    /// The number of the first refusal that applies; 0 where none does.
    pub(super) fn refusal<const WAY: u8>(&self, call: &Call) -> u8 {
        if !self.sound::<WAY>() {
            return 19;
        }
        let z = &self.sizes;
        if call.thread >= z.threads {
            return 21;
        }
        let (uses_slot, uses_link, uses_tag) = match call.operation {
            1 => (false, false, true),
            2 | 3 => (true, true, false),
            4 | 6 => (true, false, false),
            5 | 7 => (false, false, false),
            _ => return 22,
        };
        if (!uses_slot && call.slot != 0) || (!uses_link && call.link != 0) || (!uses_tag && call.tag != 0) {
            return 23;
        }
        let without_slot = call.operation == 3 && call.slot == 255;
        if uses_slot && call.slot >= z.slots && !without_slot {
            return 24;
        }
        if uses_link && call.link >= z.links {
            return 25;
        }
        let thread = &self.threads[call.thread as usize];
        match (call.operation, thread.phase.idle()) {
            (7, true) => return 27,
            (7, false) | (_, true) => {}
            (_, false) => return 26,
        }
        let slot = || &self.slots[self.position(call.thread, call.slot)];
        match call.operation {
            1 if thread.hand != 0 => 28,
            5 if thread.hand == 0 => 29,
            3 if !without_slot && !slot().mark => 31,
            4 if !slot().mark => 31,
            1 if !self.free.contains(&true) => 30,
            _ => 0,
        }
    }
}
