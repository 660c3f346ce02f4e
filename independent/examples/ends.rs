//! How the games of a table end, and how often one move alone wins: `cargo run --release --example ends -- FILE [THREADS]`
//!
//! Prints `won in 1` with the classes whose mover captures the lion and those whose lion steps onto its far row; `won later` with those whose best
//! play (of equal moves the first in move order) ends by a capture and by such a step, a try; and `one winning move` with how many of the classes won
//! later have exactly one move that wins at all. For the whole game it takes about three gigabytes and some processor minutes.

use independent::file::{read, Table};
use independent::rules::Status;
use std::sync::atomic::{AtomicU8, Ordering::Relaxed};

const CAPTURE: u8 = 1;
const TRY: u8 = 2;

fn main() -> Result<(), Box<dyn std::error::Error>> {
    let words: Vec<String> = std::env::args().skip(1).collect();
    let path = words.first().ok_or("usage: ends FILE [THREADS]")?;
    let threads = words.get(1).map_or(Ok(1), |word| word.parse()).map_err(|_| "THREADS is a number")?;
    let table = read(std::fs::read(path).map_err(|error| format!("{path}: {error}"))?)?;
    let family = &table.family;
    let ends: Vec<AtomicU8> = (0..family.classes).map(|_| AtomicU8::new(0)).collect();
    let [captures, tries] = won_in_1(&table, &ends, threads);
    println!("won in 1: {captures} by capture, {tries} by try");

    // The classes that are won or lost later, by distance: an end is that of the class one ply nearer to it.
    let mut later: Vec<Vec<u32>> = vec![];
    for class in 0..family.classes {
        let record = table.at(class) as usize;
        if record > 2 {
            later.resize_with(later.len().max(record + 1), Vec::new);
            later[record].push(class);
        }
    }
    let (mut counts, mut alone) = ([0u64; 3], 0u64);
    for (record, classes) in later.iter().enumerate() {
        for [capture, by_try, one] in parts(classes, threads, |class| end_of(&table, &ends, class)) {
            if record % 2 == 0 {
                counts[CAPTURE as usize] += capture;
                counts[TRY as usize] += by_try;
                alone += one;
            }
        }
    }
    println!("won later: {} by capture, {} by try", counts[CAPTURE as usize], counts[TRY as usize]);
    println!("one winning move: {alone}");
    Ok(())
}

/// Finds the ends of the classes that are won in 1 or lost already, and counts the former.
fn won_in_1(table: &Table, ends: &[AtomicU8], threads: usize) -> [u64; 2] {
    let runs: Vec<u32> = (0..table.family.runs.len() as u32).collect();
    let counts = parts(&runs, threads, |run| {
        let (run, mut counts) = (&table.family.runs[run as usize], [0; 3]);
        for (class, place) in (run.class..).zip(table.family.marked_places(run)) {
            let end = match table.at(class) {
                2 if table.family.position(run, place - run.place).catches() => CAPTURE,
                1 | 2 => TRY,
                _ => continue,
            };
            ends[class as usize].store(end, Relaxed);
            if table.at(class) == 2 {
                counts[end as usize - 1] += 1;
            }
        }
        counts
    });
    [0, 1].map(|end| counts.iter().map(|of| of[end]).sum())
}

/// Finds the end of best play from a class that is won or lost later, and says with ones by what it ends and whether one move alone wins.
fn end_of(table: &Table, ends: &[AtomicU8], class: u32) -> [u64; 3] {
    let (record, p) = (table.at(class), table.family.representative(class));
    let Status::Open(moves) = p.status(table.family.rules) else { unreachable!("a class that is decided later") };
    let after: Vec<u32> = moves.iter().map(|&one| table.family.class(&p.play(one))).collect();
    let best = after.iter().find(|&&next| table.at(next) == record - 1).expect("a move that keeps the value");
    let end = ends[*best as usize].load(Relaxed);
    ends[class as usize].store(end, Relaxed);
    let winning = after.iter().filter(|&&next| table.at(next) % 2 == 1).count();
    [u64::from(end == CAPTURE), u64::from(end == TRY), u64::from(winning == 1)]
}

/// Adds up what is found of each number, by some threads, each of which has a part of them.
fn parts(numbers: &[u32], threads: usize, find: impl Fn(u32) -> [u64; 3] + Sync) -> Vec<[u64; 3]> {
    let sum = |part: &[u32]| {
        part.iter().map(|&number| find(number)).fold([0; 3], |sum, of| [0, 1, 2].map(|at| sum[at] + of[at]))
    };
    std::thread::scope(|scope| {
        let started: Vec<_> = numbers
            .chunks(numbers.len().div_ceil(threads.max(1)).max(1))
            .map(|part| scope.spawn(move || sum(part)))
            .collect();
        started.into_iter().map(|thread| thread.join().expect("a thread that doesn't panic")).collect()
    })
}
