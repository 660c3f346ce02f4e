//! What a game can reach, with values: `cargo run --release --example reached -- FILE POSITION [THREADS [VALUE]]`
//!
//! Prints a line `VALUE,CLASSES` for each value that a class has to which moves lead from the position, that of the position among them; play stops
//! where a lion can be captured or the game is over. Standard error gets how many they are in all. With a VALUE, as "win 173", a line follows for each
//! class of the table that has it: its position, how many plies it is from the first one, and the moves of a shortest way there; or `not reached`.

use independent::file::{read, Table};
use independent::rules::{Position, Status};
use independent::text;
use independent::unmove::unmoves;
use std::sync::atomic::{AtomicU8, Ordering::Relaxed};

/// Stands for plies where a class isn't reached.
const NEVER: u8 = u8::MAX;

fn main() -> Result<(), Box<dyn std::error::Error>> {
    let words: Vec<String> = std::env::args().skip(1).collect();
    let [path, start, ..] = &words[..] else { return Err("usage: reached FILE POSITION [THREADS [VALUE]]".into()) };
    let threads = words.get(2).map_or(Ok(1), |word| word.parse()).map_err(|_| "THREADS is a number")?;
    let record_of = |value: &String| (0..=u16::MAX).find(|&record| text::value(record) == *value);
    let asked = words.get(3).map(|value| record_of(value).ok_or("VALUE is as `win 173`")).transpose()?;
    let table = read(std::fs::read(path).map_err(|error| format!("{path}: {error}"))?)?;
    let start = text::read_position(start)?;
    let plies = reach(&table, &start, threads);

    let mut counts = vec![0u64; 1 << 16];
    for class in (0..table.family.classes).filter(|&class| at(&plies, class) != NEVER) {
        counts[table.at(class) as usize] += 1;
    }
    eprintln!("{} classes", counts.iter().sum::<u64>());
    for (record, count) in (0..=u16::MAX).zip(counts).filter(|(_, count)| *count > 0) {
        println!("{},{count}", text::value(record));
    }
    for class in (0..table.family.classes).filter(|&class| Some(table.at(class)) == asked) {
        let position = text::position(&table.family.representative(class));
        match at(&plies, class) {
            NEVER => println!("{position}: not reached"),
            count => println!("{position}: {count} plies: {}", moves(&table, &start, &way(&table, &plies, class))),
        }
    }
    Ok(())
}

fn at(plies: &[AtomicU8], class: u32) -> u8 {
    plies[class as usize].load(Relaxed)
}

/// For each class in how few plies it is reached from the position, or NEVER.
fn reach(table: &Table, start: &Position, threads: usize) -> Vec<AtomicU8> {
    let plies: Vec<AtomicU8> = (0..table.family.classes).map(|_| AtomicU8::new(NEVER)).collect();
    let first = table.family.class(start);
    plies[first as usize].store(0, Relaxed);
    let mut level = vec![first];
    for count in 1..NEVER {
        level = next_level(table, &plies, &level, count, threads);
    }
    plies
}

/// The classes that moves reach first from those of a level, which get this number of plies.
fn next_level(table: &Table, plies: &[AtomicU8], level: &[u32], count: u8, threads: usize) -> Vec<u32> {
    let is_new = |class: u32| {
        at(plies, class) == NEVER && plies[class as usize].compare_exchange(NEVER, count, Relaxed, Relaxed).is_ok()
    };
    let found = |part: &[u32]| {
        let mut next = vec![];
        for &class in part {
            let p = table.family.representative(class);
            if let Status::Open(moves) = p.status(table.family.rules) {
                next.extend(moves.iter().map(|&one| table.family.class(&p.play(one))).filter(|&class| is_new(class)));
            }
        }
        next
    };
    std::thread::scope(|scope| {
        let parts = level.chunks(level.len().div_ceil(threads.max(1)).max(1));
        let started: Vec<_> = parts.map(|part| scope.spawn(move || found(part))).collect();
        started.into_iter().flat_map(|thread| thread.join().expect("a thread that doesn't panic")).collect()
    })
}

/// The classes of a shortest way to a class that is reached, the first one's among them.
fn way(table: &Table, plies: &[AtomicU8], class: u32) -> Vec<u32> {
    let mut back = vec![class];
    for count in (0..at(plies, class)).rev() {
        let mut before = None;
        let last = table.family.representative(back[back.len() - 1]);
        unmoves(&last, table.family.rules, |p| {
            let class = table.family.class(&p);
            if at(plies, class) == count && matches!(p.status(table.family.rules), Status::Open(_)) {
                before = before.or(Some(class));
            }
        });
        back.push(before.expect("an open class one ply nearer"));
    }
    back.reverse();
    back
}

/// The moves along such a way; those of the other side in small letters, with squares as the position's mover sees them.
fn moves(table: &Table, start: &Position, way: &[u32]) -> String {
    let (mut p, mut texts) = (*start, vec![]);
    for (number, &class) in way[1..].iter().enumerate() {
        let Status::Open(moves) = p.status(table.family.rules) else { unreachable!("a class that moves lead from") };
        let one = moves.into_iter().find(|&one| table.family.class(&p.play(one)) == class).expect("a move to it");
        let text = text::move_of(&p, one);
        texts.push(if number % 2 == 0 { text } else { turned(&text) });
        p = p.play(one);
    }
    texts.join(" ")
}

/// The text of a move as the other side sees it.
fn turned(text: &str) -> String {
    let square = |c: char| match c {
        'a' => 'c',
        'c' => 'a',
        '1'..='4' => (b'1' + b'4' - c as u8) as char,
        c => c,
    };
    text[..1].to_ascii_lowercase() + &text[1..].chars().map(square).collect::<String>()
}
