//! The runs of records.rs with the state handed on by value: nothing here borrows it, as a compiler copies what was ever borrowed when it is
//! handed on.

use crate::plain::State;
use crate::records::{end, mixed_answer, mixed_places, next, opened, read, stop, told, Read};

pub fn checksum(input: &[u8]) -> u64 {
    match read(input) {
        Read::Sizes(sizes) => steps(&input[10..], State::start(sizes).expect("sizes in range")),
        _ => 0,
    }
}

fn steps(records: &[u8], mut state: State) -> u64 {
    let mut sum = 0;
    for record in records.chunks_exact(10) {
        let call = match read(record) {
            Read::Step(call) => call,
            _ => return sum,
        };
        let outcome = state.handed_on(call);
        sum = mixed_answer(sum, outcome.answer);
        state = outcome.state;
    }
    mixed_places(sum, state.places())
}

pub fn text(input: &[u8], out: &mut Vec<u8>) {
    if let Some(state) = opened(input, out) {
        lines(&input[10..], state, out);
    }
}

fn lines(records: &[u8], mut state: State, out: &mut Vec<u8>) {
    let mut left = records;
    let mut steps = 0;
    loop {
        let call = match next(left, steps) {
            Read::Step(call) => call,
            Read::Refused(number) => return stop(out, steps + 1, number),
            _ => break,
        };
        let outcome = state.handed_on(call);
        steps += 1;
        told(out, steps, &call, outcome.answer);
        state = outcome.state;
        left = &left[10..];
    }
    end(out, steps, state.places());
}
