//! Schedule records, and the two runs over a schedule's bytes, to a checksum and to text, with the state changed in place. In handed.rs are
//! the same runs with the state handed on by value.

use crate::plain::{Answer, Call, Sizes, State};

pub enum Read {
    Sizes(Sizes),
    Step(Call),
    End,
    Refused(u8),
}

pub fn read(input: &[u8]) -> Read {
    match *input {
        [] => Read::End,
        [84, 75, thread, operation, slot, link, a, b, c, d, ..] => {
            Read::Step(Call { thread, operation, slot, link, tag: u32::from_le_bytes([a, b, c, d]) })
        }
        [84, 83, threads, slots, links, objects, 0, 0, 0, 0, ..] => {
            Read::Sizes(Sizes { threads, slots, links, objects })
        }
        [84, 83, _, _, _, _, _, _, _, _, ..] => Read::Refused(44),
        [_, _, _, _, _, _, _, _, _, _, ..] => Read::Refused(41),
        _ => Read::Refused(40),
    }
}

pub fn write_sizes(out: &mut Vec<u8>, z: &Sizes) {
    out.extend_from_slice(&[84, 83, z.threads, z.slots, z.links, z.objects, 0, 0, 0, 0]);
}

pub fn write_step(out: &mut Vec<u8>, call: &Call) {
    out.extend_from_slice(&[84, 75, call.thread, call.operation, call.slot, call.link]);
    out.extend_from_slice(&call.tag.to_le_bytes());
}

fn mixed(sum: u64, number: u32) -> u64 {
    sum % (1 << 32) * 1_000_003 + u64::from(number)
}

pub fn mixed_answer(sum: u64, answer: Answer) -> u64 {
    let (number, a, b) = answer.numbers();
    mixed(mixed(mixed(sum, number.into()), a), b)
}

pub fn mixed_places(sum: u64, places: [u8; 5]) -> u64 {
    places.iter().fold(sum, |sum, &place| mixed(sum, place.into()))
}

/// The checksum of all answers, each as its number and two values, and of the five places at the end.
pub fn checksum<const WAY: u8>(input: &[u8]) -> u64 {
    let mut state = match read(input) {
        Read::Sizes(sizes) => State::start(sizes).expect("sizes in range"),
        _ => return 0,
    };
    let mut sum = 0;
    for record in input[10..].chunks_exact(10) {
        let call = match read(record) {
            Read::Step(call) => call,
            _ => return sum,
        };
        sum = mixed_answer(sum, state.step::<WAY>(&call));
    }
    mixed_places(sum, state.count::<WAY>())
}

/// A number's digits, and the byte after them.
fn put(out: &mut Vec<u8>, mut number: u32, after: u8) {
    let mut digits = [0; 10];
    let mut at = digits.len();
    loop {
        at -= 1;
        digits[at] = b'0' + (number % 10) as u8;
        number /= 10;
        if number == 0 {
            break;
        }
    }
    out.extend_from_slice(&digits[at..]);
    out.push(after);
}

fn line(out: &mut Vec<u8>, numbers: &[u32]) {
    let (last, before) = numbers.split_last().expect("a line has a number");
    for &number in before {
        put(out, number, b' ');
    }
    put(out, *last, b'\n');
}

pub fn stop(out: &mut Vec<u8>, records: u32, number: u8) {
    out.extend_from_slice(b"stop ");
    line(out, &[records, number.into()]);
}

pub fn told(out: &mut Vec<u8>, step: u32, call: &Call, answer: Answer) {
    let (number, a, b) = answer.numbers();
    line(out, &[step, call.thread.into(), call.operation.into(), number.into(), a, b]);
}

pub fn end(out: &mut Vec<u8>, steps: u32, places: [u8; 5]) {
    let [free, links, hands, handovers, carried] = places.map(u32::from);
    out.extend_from_slice(b"end ");
    line(out, &[steps, free, links, hands, handovers, carried]);
}

/// The machine that the first record asks for, and the first line; where there is none, its stop line.
pub fn opened(input: &[u8], out: &mut Vec<u8>) -> Option<State> {
    let (sizes, refused) = match read(input) {
        Read::Sizes(sizes) => (Some(sizes), 20),
        Read::Step(_) | Read::End => (None, 42),
        Read::Refused(number) => (None, number),
    };
    let state = sizes.and_then(State::start);
    match &state {
        Some(state) => {
            let z = &state.sizes;
            line(out, &[z.threads, z.slots, z.links, z.objects].map(u32::from));
        }
        None => stop(out, 0, refused),
    }
    state
}

/// What comes after so many steps, with the refusals of a record that may not stand there.
pub fn next(left: &[u8], steps: u32) -> Read {
    match read(left) {
        Read::Step(_) if steps == 6000 => Read::Refused(43),
        Read::Sizes(_) => Read::Refused(42),
        record => record,
    }
}

/// The text that the program prints for this input.
pub fn text<const WAY: u8>(input: &[u8], out: &mut Vec<u8>) {
    let mut state = match opened(input, out) {
        Some(state) => state,
        None => return,
    };
    let mut left = &input[10..];
    let mut steps = 0;
    loop {
        let call = match next(left, steps) {
            Read::Step(call) => call,
            Read::Refused(number) => return stop(out, steps + 1, number),
            _ => break,
        };
        let answer = state.step::<WAY>(&call);
        steps += 1;
        told(out, steps, &call, answer);
        left = &left[10..];
    }
    end(out, steps, state.count::<WAY>());
}
