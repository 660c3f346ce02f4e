//! The command line of the second program: see README.md and the library beside it.

use independent::classes::Family;
use independent::fault::Fault;
use independent::file::{self, Opened, Records};
use independent::rules::{Position, Rules};
use independent::{certificate, check, solve, text};
use std::collections::HashMap;
use std::ffi::OsString;
use std::io::{BufRead, Write};
use std::path::Path;
use std::process::ExitCode;

const USAGE: &str = "usage: independent COMMAND
  build --set CEG [--rules A|B] [--threads N] --out FILE
                                 builds the database file of a piece set
  value [--rules A|B] [--threads N] POSITION
                                 prints a position's value, without a file
  probe --db FILE POSITION       prints a position's value by a file; `look` is the same
  moves --db FILE POSITION       prints each move with its value, best first
  check --db FILE [--threads N]  whether each value follows from those one ply later
  stats --db FILE                how many classes have which value
  verify --cert FILE [--threads N]
                                 checks what a certificate claims, and prints it
  info FILE                      what a table's or a certificate's header says: the rules, and so on
CEG are the numbers of chicks, elephants and giraffes, each 0 to 2. A POSITION is as
\"gle/.c./.C./ELG - -\": rows from row 4 down, then both hands. Where probe and moves get - in its
place, each line of standard input is one. They test a file's header and read the records that
they need, info the header alone; check, stats and verify read the whole file, and test its
digest. The status is 0 if done, 1 if refused, 2 for a wrong command line.
";

/// Why there is no answer: the status, which is 2 for a wrong command line, and a text.
struct Refusal(u8, String);

impl From<Fault> for Refusal {
    fn from(fault: Fault) -> Refusal {
        Refusal(1, fault.to_string())
    }
}

fn usage<T>(text: impl std::fmt::Display) -> Result<T, Refusal> {
    Err(Refusal(2, format!("{}\n{}", text::shown(&text.to_string()), USAGE.trim_end())))
}

/// A command's options, and its other words.
struct Words {
    options: HashMap<&'static str, OsString>,
    others: Vec<OsString>,
}

impl Words {
    fn read(mut words: impl Iterator<Item = OsString>, known: &[&'static str]) -> Result<Words, Refusal> {
        let mut read = Words { options: HashMap::new(), others: vec![] };
        while let Some(word) = words.next() {
            if !word.to_string_lossy().starts_with("--") {
                read.others.push(word);
                continue;
            }
            let Some(&name) = known.iter().find(|&&name| word == name) else {
                return usage(format!("there is no option {} here", word.to_string_lossy()));
            };
            let Some(value) = words.next() else {
                return usage(format!("{name} needs a value"));
            };
            if read.options.insert(name, value).is_some() {
                return usage(format!("{name} is there twice"));
            }
        }
        match known.iter().find(|name| !name.starts_with("--")) {
            Some(name) if read.others.len() != 1 => usage(format!("one {name} is needed, a word in quotes")),
            None if !read.others.is_empty() => {
                usage(format!("there is no word {} here", read.others[0].to_string_lossy()))
            }
            _ => Ok(read),
        }
    }

    fn path(&self, name: &str) -> Result<&Path, Refusal> {
        match self.options.get(name) {
            Some(path) => Ok(Path::new(path)),
            None => usage(format!("{name} is needed")),
        }
    }

    fn text(&self, name: &str) -> Option<&str> {
        self.options.get(name).map(|word| word.to_str().unwrap_or("?"))
    }

    fn position(&self) -> &str {
        self.others[0].to_str().unwrap_or_default()
    }

    fn rules(&self) -> Result<Rules, Refusal> {
        match self.text("--rules") {
            None | Some("A") => Ok(Rules::A),
            Some("B") => Ok(Rules::B),
            Some(_) => usage("--rules is A or B"),
        }
    }

    fn threads(&self) -> Result<usize, Refusal> {
        match self.text("--threads").map(str::parse) {
            None => Ok(std::thread::available_parallelism().map_or(1, |n| n.get())),
            Some(Ok(n @ 1..=256)) => Ok(n),
            Some(_) => usage("--threads is a number from 1 to 256"),
        }
    }
}

fn run(mut words: impl Iterator<Item = OsString>) -> Result<String, Refusal> {
    let command = words.next().unwrap_or_default();
    let command = command.to_str().unwrap_or_default();
    let known: &[&str] = match command {
        "build" => &["--set", "--rules", "--threads", "--out"],
        "value" => &["--rules", "--threads", "POSITION"],
        "probe" | "look" | "moves" => &["--db", "POSITION"],
        "check" => &["--db", "--threads"],
        "stats" => &["--db"],
        "verify" => &["--cert", "--threads"],
        "info" => &["FILE"],
        "help" | "--help" | "-h" => return Ok(USAGE.into()),
        _ => return usage("a COMMAND is needed"),
    };
    let words = Words::read(words, known)?;
    let (rules, threads) = (words.rules()?, words.threads()?);
    match command {
        "build" => build(&words, rules, threads),
        "info" => Ok(file::info(Path::new(&words.others[0]))?),
        "verify" => {
            let certificate = certificate::open(words.path("--cert")?)?;
            Ok(certificate.verify(threads)? + "\n")
        }
        "value" => {
            let p = text::read_position(words.position())?;
            of_rules(&p, rules)?;
            let family = Family::new(p.set(), rules);
            let solution = solve::solve(&family, threads, &|_| ()).ok_or(Fault::Memory)?;
            Ok(text::value(solution.record(&p)) + "\n")
        }
        "probe" | "look" | "moves" if words.position() == "-" => {
            let table = Opened::open(words.path("--db")?)?;
            let end = if command == "moves" { "\n" } else { "" };
            each_line(end, |line| asked(&table, command, &text::read_position(line)?))
        }
        "probe" | "look" | "moves" => {
            let path = words.path("--db")?;
            let p = text::read_position(words.position())?;
            Ok(asked(&Opened::open(path)?, command, &p)?)
        }
        _ => {
            let table = file::open(words.path("--db")?)?;
            if command == "stats" {
                return Ok(check::stats(&table));
            }
            match check::inconsistent(&table, threads) {
                None => Ok("consistent\n".into()),
                Some(class) => Err(Fault::Inconsistent(class).into()),
            }
        }
    }
}

/// What `probe` or `moves` prints of a position by a file.
fn asked(table: &Opened, command: &str, p: &Position) -> Result<String, Fault> {
    of_rules(p, table.family().rules)?;
    if p.set() != table.family().set {
        return Err(Fault::OtherSet);
    }
    match command {
        "moves" => check::lines_of_moves(table, p),
        _ => Ok(text::value(table.record(p)?) + "\n"),
    }
}

/// Prints the answer to each line of standard input, or in its place the line's fault, and the end behind each. If a
/// line is refused, so is the whole once all is printed.
fn each_line(end: &str, answer: impl Fn(&str) -> Result<String, Fault>) -> Result<String, Refusal> {
    let (mut out, mut refused) = (std::io::stdout().lock(), 0);
    for line in std::io::stdin().lock().lines() {
        let said = answer(&line.map_err(|error| Fault::Io(format!("standard input: {error}")))?);
        refused += said.is_err() as u32;
        let said = said.unwrap_or_else(|fault| format!("{fault}\n")) + end;
        out.write_all(said.as_bytes()).map_err(no_output)?;
    }
    match refused {
        0 => Ok(String::new()),
        many => Err(Refusal(1, format!("lines refused: {many}"))),
    }
}

fn no_output(error: std::io::Error) -> Fault {
    Fault::Io(format!("standard output: {error}"))
}

/// By rules B no chick stands on its far row.
fn of_rules(p: &Position, rules: Rules) -> Result<(), Fault> {
    if rules == Rules::B && p.far_chick() {
        return Err(Fault::FarChick);
    }
    Ok(())
}

fn build(words: &Words, rules: Rules, threads: usize) -> Result<String, Refusal> {
    let path = words.path("--out")?;
    let Some(set) = words.text("--set") else {
        return usage("--set is needed");
    };
    let family = Family::new(text::read_set(set)?, rules);
    let start = std::time::Instant::now();
    let say = |text| {
        let _ = writeln!(std::io::stderr(), "{:7.1} s  {text}", start.elapsed().as_secs_f64());
    };
    let counts = file::make(path, |file| {
        let solution = solve::solve(&family, threads, &say).ok_or(Fault::Memory)?;
        let places = family.runs.iter().flat_map(|run| family.marked_places(run));
        let mut counts = check::Counts::new();
        let records = places.map(|place| solution.record_at(place)).inspect(|&record| counts.add(record));
        file::write(file, &family, records)?;
        Ok(counts)
    })?;
    say(format!("{} written", text::shown(&path.to_string_lossy())));
    Ok(counts.lines())
}

fn main() -> ExitCode {
    let answer = run(std::env::args_os().skip(1)).and_then(|answer| {
        let mut out = std::io::stdout();
        let written = out.write_all(answer.as_bytes()).and_then(|()| out.flush());
        Ok(written.map_err(no_output)?)
    });
    match answer {
        Ok(()) => ExitCode::SUCCESS,
        Err(Refusal(status, text)) => {
            let _ = writeln!(std::io::stderr(), "independent: {text}");
            ExitCode::from(status)
        }
    }
}
