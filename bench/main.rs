//! Times the proved machine, linked as a static library, beside the plain one, on the same schedules in this one process.
//!
//! With no argument it checks that all give the same, and prints the tables. `count WHICH N TIMES` runs one version and nothing else, for a
//! tool that counts instructions. `stack` prints how much stack a whole run of each version takes.

mod handed;
mod painted;
mod plain;
mod records;
mod schedules;

use plain::{Sizes, COUNTS, FLAT, WALK, WHOLE};
use schedules::{schedule, Schedule};
use std::time::{Duration, Instant};

const STEPS: usize = 6000;
const SEED: u64 = 0x5eed_0f0d_d0e5_2024;
/// Bytes that every run's text fits in.
const ROOM: usize = 240_080;
const OBJECTS: [u8; 6] = [10, 30, 60, 120, 180, 240];
/// The fastest round is kept, since nothing but other work on the machine makes a round slower.
const ROUNDS: usize = 25;

#[link(name = "drive", kind = "static")]
extern "C" {
    fn drive_schedule(input: *const u8, len: usize) -> u64;
}

#[cfg(text)]
#[link(name = "drive_text", kind = "static")]
extern "C" {
    fn drive_text(input: *const u8, input_len: usize, out: *mut u8, out_len: usize) -> usize;
}

fn proved(input: &[u8]) -> u64 {
    // SAFETY: the pointer and the length are one slice's, which the function only reads.
    unsafe { drive_schedule(input.as_ptr(), input.len()) }
}

#[cfg(text)]
fn proved_text(input: &[u8], out: &mut [u8]) -> usize {
    // SAFETY: each pointer and length are one slice's; the function reads the first and writes within the second.
    unsafe { drive_text(input.as_ptr(), input.len(), out.as_mut_ptr(), out.len()) }
}

/// The value, of which the compiler knows nothing: `std::hint::black_box` for a compiler that has none yet.
fn black_box<T: Copy>(value: T) -> T {
    // SAFETY: the pointer is a live local's.
    unsafe { std::ptr::read_volatile(&value) }
}

fn of(objects: u8) -> Schedule {
    schedule(Sizes { threads: 8, slots: 4, links: 16, objects }, STEPS, SEED)
}

/// The plain versions, by how their check finds that each object is in one place: see plain/refusing.rs. The last has the check of `flat`
/// and hands its state on by value: see plain/by_value.rs.
const WAYS: [&str; 5] = ["counts", "whole", "walk", "flat", "value"];

fn checksum(way: &str, input: &[u8]) -> u64 {
    match way {
        "counts" => records::checksum::<COUNTS>(input),
        "whole" => records::checksum::<WHOLE>(input),
        "walk" => records::checksum::<WALK>(input),
        "flat" => records::checksum::<FLAT>(input),
        "value" => handed::checksum(input),
        _ => unknown(way),
    }
}

fn text(way: &str, input: &[u8], out: &mut Vec<u8>) {
    out.clear();
    match way {
        "counts" => records::text::<COUNTS>(input, out),
        "whole" => records::text::<WHOLE>(input, out),
        "walk" => records::text::<WALK>(input, out),
        "flat" => records::text::<FLAT>(input, out),
        "value" => handed::text(input, out),
        _ => unknown(way),
    }
}

fn unknown(which: &str) -> ! {
    eprintln!("bench: no version is called {which}");
    std::process::exit(2);
}

/// What is timed: the proved version, then the plain ones in the order of `WAYS`.
type Versions<'a> = Vec<Box<dyn FnMut(&[u8]) + 'a>>;

/// For each N the fastest round of each version, in nanoseconds a call. The versions take turns, and each round goes through every N,
/// so that other work on the machine falls on all alike.
fn fastest(mut versions: Versions) -> Vec<Vec<f64>> {
    let inputs = OBJECTS.map(|objects| of(objects).input);
    let mut best = vec![vec![Duration::MAX; versions.len()]; OBJECTS.len()];
    for _ in 0..ROUNDS {
        for (input, row) in inputs.iter().zip(&mut best) {
            for (version, time) in versions.iter_mut().zip(row) {
                let start = Instant::now();
                version(black_box(input));
                *time = start.elapsed().min(*time);
            }
        }
    }
    let a_call = |time: Duration| time.as_nanos() as f64 / STEPS as f64;
    best.into_iter().map(|row| row.into_iter().map(a_call).collect()).collect()
}

/// The slope of time over N by least squares: what one more object costs a call.
fn slope(times: impl Iterator<Item = f64>) -> f64 {
    let points: Vec<(f64, f64)> = OBJECTS.iter().map(|&objects| objects.into()).zip(times).collect();
    let n = points.len() as f64;
    let (x, y) = points.iter().fold((0.0, 0.0), |(x, y), p| (x + p.0 / n, y + p.1 / n));
    let above: f64 = points.iter().map(|p| (p.0 - x) * (p.1 - y)).sum();
    let below: f64 = points.iter().map(|p| (p.0 - x) * (p.0 - x)).sum();
    above / below
}

/// All versions on one schedule; a difference ends the program.
fn compare(name: &str, made: &Schedule) {
    let sum = proved(&made.input);
    for way in WAYS {
        let other = checksum(way, &made.input);
        if sum != other {
            eprintln!("bench: {name}: the proved machine's checksum is {sum}, that of {way} {other}");
            std::process::exit(1);
        }
    }
    let [refused, taken, begun, working, protected, nothing, swapped, moved, tag, finished, left, freed] = made.answers;
    println!("{name}  checksum {sum} from all; answers: refused {refused}, taken {taken}, begun {begun}, working {working}, protected {protected}, nothing {nothing}, swapped {swapped}, moved {moved}, tag {tag}, finished {finished}, left {left}, freed {freed}");
    let [publication, failed, no_match, matched, displacement, found, found_nothing] = made.work;
    println!("       of working: publication {publication}, failed read {failed}, no match {no_match}, match {matched}, displacement {displacement}, found {found}, found nothing {found_nothing}");
}

/// One line of numbers: the proved version's, and of each plain one its own and how often it goes into the proved one's.
fn line(objects: u8, row: &[f64]) {
    print!("{objects:4} {:9.1}", row[0]);
    for plain in &row[1..] {
        print!(" {plain:9.1} {:6.2}", row[0] / plain);
    }
    println!();
}

fn table(title: &str, versions: Versions) {
    println!("\n{title}, T 8, H 4, L 16, {STEPS} steps: ns a call, the fastest of {ROUNDS} rounds\n");
    println!("   N    proved    counts  ratio     whole  ratio      walk  ratio      flat  ratio     value  ratio");
    let times = fastest(versions);
    for (objects, row) in OBJECTS.iter().zip(&times) {
        line(*objects, row);
    }
    print!("growth, ns for one more object: proved {:.2}", slope(times.iter().map(|row| row[0])));
    for (version, way) in WAYS.iter().enumerate() {
        print!(", {way} {:.2}", slope(times.iter().map(|row| row[version + 1])));
    }
    println!();
}

fn all() {
    for objects in OBJECTS {
        compare(&format!("N {objects:3}"), &of(objects));
    }
    // compared and not timed: few threads that meet often, since no swap displaces in the schedules above
    compare("small", &schedule(Sizes { threads: 3, slots: 2, links: 1, objects: 8 }, STEPS, SEED));
    println!("\nThe plain versions differ in their soundness check. counts: a count per object, left at the first entry that is wrong.");
    println!("whole: a count per object, every entry looked at. walk: the places walked for each object. flat: the same, laid in a row first.");
    println!("value: flat with the state handed on by value, as the proved machine has it; the others change it in place.");
    let mut versions: Versions = vec![Box::new(|input| _ = black_box(proved(input)))];
    for way in WAYS {
        versions.push(Box::new(move |input| _ = black_box(checksum(way, input))));
    }
    table("The machine: every call, with its soundness check", versions);
    whole_text();
}

#[cfg(not(text))]
fn whole_text() {
    println!("\nThe whole program, input bytes to text: not measured, since this repository has no crate drive_text.");
}

#[cfg(text)]
fn whole_text() {
    let mut ours = vec![0; ROOM];
    for objects in OBJECTS {
        let made = of(objects);
        let written = proved_text(&made.input, &mut ours);
        for way in WAYS {
            let mut plain = Vec::with_capacity(ROOM);
            text(way, &made.input, &mut plain);
            if ours[..written] != plain[..] {
                eprintln!("bench: N {objects}: the proved program's text is not that of {way}");
                std::process::exit(1);
            }
        }
    }
    let mut versions: Versions = vec![Box::new(move |input| _ = black_box(proved_text(input, &mut ours)))];
    for way in WAYS {
        let mut plain = Vec::with_capacity(ROOM);
        versions.push(Box::new(move |input| {
            text(way, input, &mut plain);
            black_box(plain.len());
        }));
    }
    table("The whole program, input bytes to text (the same bytes from all)", versions);
}

fn count(which: &str, objects: u8, times: usize) {
    let made = of(objects);
    let mut room = vec![0; ROOM];
    for _ in 0..times {
        let input = black_box(&made.input);
        let result = match which {
            "proved" => proved(input),
            #[cfg(text)]
            "proved-text" => proved_text(input, &mut room) as u64,
            _ => match which.strip_suffix("-text") {
                Some(way) => {
                    text(way, input, &mut room);
                    room.len() as u64
                }
                None => checksum(which, input),
            },
        };
        black_box(result);
    }
}

/// Bytes of stack that a run takes, at N 240.
fn stack() {
    let made = of(240);
    let runs: [(&str, fn(&[u8]) -> u64); 6] = [
        ("proved", proved),
        ("counts", records::checksum::<COUNTS>),
        ("whole", records::checksum::<WHOLE>),
        ("walk", records::checksum::<WALK>),
        ("flat", records::checksum::<FLAT>),
        ("value", handed::checksum),
    ];
    for (name, run) in runs {
        println!("{:6} {name}", painted::taken(run, &made.input));
    }
}

fn main() {
    let words: Vec<String> = std::env::args().skip(1).collect();
    match words.iter().map(String::as_str).collect::<Vec<_>>()[..] {
        [] => all(),
        ["count", which, objects, times] => count(which, objects.parse().unwrap(), times.parse().unwrap()),
        ["stack"] => stack(),
        _ => {
            eprintln!("bench: no argument, or: count WHICH N TIMES, or: stack");
            std::process::exit(2);
        }
    }
}
