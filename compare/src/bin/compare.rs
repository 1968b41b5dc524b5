//! Compares the literal judge with the proved library and its two programs on fresh random cases.

use compare::library::{Independent, Library};
use compare::outcome::Outcome;
use compare::plain::Plain;
use compare::programs::{Binaries, Programs};
use compare::shrink::{shrink, weight};
use compare::wrong::Wrong;
use compare::{case_of, confront, Difference, Product};
use independent::generate::{pattern, Case, Input, Tables};
use independent::number::COUNT_OF_NUMBERS;
use std::fmt::Display;
use std::path::Path;
use std::process::ExitCode;
use std::time::{Duration, Instant, SystemTime, UNIX_EPOCH};

const USAGE: &str = "compare [--seed N] [--first N] [--cases N] [--seconds N]
        [--programs DIR | --self | --plain | --wrong NAME]

Without --self, --plain or --wrong the proved library is compared; it is linked when
SOLID_LIB_DIR is set at build time. Its programs judge_main and walk_main are those in
the folder DIR, target/bin if none is given.";

const SHRINK_BOUND: usize = 20_000;
/// How many further cases are tried for a lighter one once a difference is found.
const LOOK_AHEAD: u64 = 3000;

struct Options {
    seed: u64,
    first: u64,
    cases: u64,
    seconds: Option<u64>,
    library: Box<dyn Library>,
    programs: Box<dyn Programs>,
}

const RIGHT: Product = Product::INDEPENDENT;

fn main() -> ExitCode {
    let options = match options(std::env::args().skip(1)) {
        Ok(options) => options,
        Err(message) => {
            eprintln!("{message}");
            return ExitCode::from(2);
        }
    };
    let Options {
        seed,
        first,
        cases,
        seconds,
        library,
        programs,
    } = options;
    let other = Product {
        library: library.as_ref(),
        programs: programs.as_ref(),
    };
    println!("seed {seed}");
    let began = Instant::now();
    let mut kinds = [0_u64; KINDS.len()];
    let mut numbers = [0_u64; COUNT_OF_NUMBERS];
    let mut done = 0;
    while done < cases {
        if seconds.is_some_and(|bound| began.elapsed() >= Duration::from_secs(bound)) {
            break;
        }
        let number = first + done;
        let case = case_of(seed, number);
        match confront(RIGHT, other, &case) {
            Ok(outcome) => {
                kinds[kind(&case)] += 1;
                if let Some(count) = numbers.get_mut(usize::from(outcome.number)) {
                    *count += 1;
                }
            }
            Err(difference) => {
                show_difference(seed, number, &case, &difference, other);
                return ExitCode::FAILURE;
            }
        }
        done += 1;
    }
    let by_kind: Vec<String> = KINDS
        .iter()
        .zip(kinds)
        .map(|(name, count)| format!("{name} {count}"))
        .collect();
    let by_number: Vec<String> = numbers
        .iter()
        .enumerate()
        .map(|(number, count)| format!("{number}:{count}"))
        .collect();
    println!(
        "{} and {} agree: seed {seed}, {done} of {cases} cases in {:.1} s ({}); answers {}",
        RIGHT.name(),
        other.name(),
        began.elapsed().as_secs_f64(),
        by_kind.join(", "),
        by_number.join(" ")
    );
    ExitCode::SUCCESS
}

fn options(mut words: impl Iterator<Item = String>) -> Result<Options, String> {
    let clock = SystemTime::now().duration_since(UNIX_EPOCH);
    let mut seed = clock.map_or(1, |time| time.as_nanos() as u64);
    let mut first = 0;
    let mut cases = 20_000;
    let mut seconds = None;
    let mut folder = None;
    let mut stand_in: Option<(Box<dyn Library>, Box<dyn Programs>)> = None;
    while let Some(word) = words.next() {
        let mut value = || words.next().ok_or_else(|| format!("{word} wants a value"));
        let number = |text: String| text.parse::<u64>().map_err(|e| format!("{text}: {e}"));
        match word.as_str() {
            "--seed" => seed = number(value()?)?,
            "--first" => first = number(value()?)?,
            "--cases" => cases = number(value()?)?,
            "--seconds" => seconds = Some(number(value()?)?),
            "--programs" => folder = Some(value()?),
            "--self" => stand_in = Some((Box::new(Independent), Box::new(Independent))),
            "--plain" => stand_in = Some((Box::new(Plain), Box::new(Plain))),
            "--wrong" => {
                let name = value()?;
                let wrong = Wrong::of_name(&name).ok_or_else(|| {
                    let known: Vec<&str> = Wrong::ALL.iter().map(|w| w.name()).collect();
                    format!("--wrong takes one of: {}", known.join(", "))
                })?;
                stand_in = Some((Box::new(wrong), Box::new(wrong)));
            }
            _ => return Err(USAGE.into()),
        }
    }
    let (library, programs) = match (stand_in, folder) {
        (Some(both), None) => both,
        (Some(_), Some(_)) => return Err(USAGE.into()),
        (None, folder) => (
            proved()?,
            binaries(folder.as_deref().unwrap_or("target/bin"))?,
        ),
    };
    Ok(Options {
        seed,
        first,
        cases,
        seconds,
        library,
        programs,
    })
}

fn binaries(folder: &str) -> Result<Box<dyn Programs>, String> {
    match Binaries::of_folder(Path::new(folder)) {
        Ok(binaries) => Ok(Box::new(binaries)),
        Err(error) => Err(format!(
            "{error}; say with --programs where the programs are"
        )),
    }
}

#[cfg(proved)]
fn proved() -> Result<Box<dyn Library>, String> {
    Ok(Box::new(compare::proved::Proved))
}

#[cfg(not(proved))]
fn proved() -> Result<Box<dyn Library>, String> {
    Err(format!("built without the proved library\n\n{USAGE}"))
}

const KINDS: [&str; 8] = [
    "judge",
    "walk",
    "outline",
    "read",
    "write",
    "look-up",
    "judging program",
    "walking program",
];

fn kind(case: &Case) -> usize {
    match case {
        Case::Judge(_) => 0,
        Case::Walk { .. } => 1,
        Case::Outline(_) => 2,
        Case::Read { .. } => 3,
        Case::Write { .. } => 4,
        Case::LookUp { .. } => 5,
        Case::JudgingProgram(_) => 6,
        Case::WalkingProgram { .. } => 7,
    }
}

fn show_difference(seed: u64, number: u64, case: &Case, difference: &Difference, other: Product) {
    println!(
        "DIFFERENCE: seed {seed}, case {number} ({}), {}",
        KINDS[kind(case)],
        difference.reason
    );
    let mut least = shrink(RIGHT, other, case, SHRINK_BOUND);
    if let Some(lighter) = lighter_case(seed, number, &least, other) {
        let lighter = shrink(RIGHT, other, &lighter, SHRINK_BOUND);
        if weight(&lighter) < weight(&least) {
            least = lighter;
        }
    }
    println!("shrunk from {} entries to {}", weight(case), weight(&least));
    println!("{}", line(&least));
    if let Err(difference) = confront(RIGHT, other, &least) {
        println!("reason: {}", difference.reason);
        show_outcome(RIGHT.name(), &difference.ours);
        show_outcome(other.name(), &difference.theirs);
        let changed = difference.ours.lent.iter().zip(&difference.theirs.lent);
        if let Some(i) = changed.clone().position(|(a, b)| a != b) {
            println!("first lent entry that differs: {i}");
        }
    }
}

/// The lightest of the following cases of the same kind that shows a difference too.
fn lighter_case(seed: u64, number: u64, found: &Case, other: Product) -> Option<Case> {
    let mut bound = weight(found);
    let mut lightest = None;
    for i in number + 1..=number + LOOK_AHEAD {
        let case = case_of(seed, i);
        if kind(&case) == kind(found)
            && weight(&case) < bound
            && confront(RIGHT, other, &case).is_err()
        {
            bound = weight(&case);
            lightest = Some(case);
        }
    }
    lightest
}

fn show_outcome(name: &str, outcome: &Outcome) {
    if outcome.places.is_empty() {
        println!("{name}: printed {:?}", text(&outcome.printed));
        return;
    }
    let shown = outcome.lent.len().min(40);
    println!(
        "{name}: number {}, places {:?}, lent {:?}{}",
        outcome.number,
        outcome.places,
        &outcome.lent[..shown],
        if shown < outcome.lent.len() {
            " .."
        } else {
            ""
        }
    );
}

fn text(bytes: &[u8]) -> String {
    String::from_utf8_lossy(bytes).into()
}

/// The case in the form of the stored cases, without the answer.
fn line(case: &Case) -> String {
    match case {
        Case::Judge(t) => format!("J{}", lent(t)),
        Case::Walk {
            tables,
            start,
            direction: [dx, dy, dz],
            trail,
        } => format!("W{} {start} {dx} {dy} {dz}{}", lent(tables), counted(trail)),
        Case::Outline(points) => format!("O{}", counted(points)),
        Case::Read { tape, rooms, salt } => {
            let [p, c, b] = rooms;
            let first = pattern(0, *salt);
            format!(
                "R{} {p} {c} {b} (lent entries count up from {first})",
                counted(tape)
            )
        }
        Case::Write { tables, room, salt } => {
            let first = pattern(0, *salt);
            format!(
                "T{} {room} (lent bytes count up from {first})",
                lent(tables)
            )
        }
        Case::LookUp { tables, facet } => format!("F{} {facet}", lent(tables)),
        Case::JudgingProgram(input) => format!("L{}{}", counted(&input.bytes), late(input)),
        Case::WalkingProgram { tape, input } => {
            let file = match tape {
                Some(tape) => counted(tape),
                None => " (no file)".into(),
            };
            let words = text(&input.bytes);
            format!(
                "M{file}{} ({words:?}){}",
                counted(&input.bytes),
                late(input)
            )
        }
    }
}

fn late(input: &Input) -> String {
    match input.parts().1.len() {
        0 => String::new(),
        count => format!(" (the last {count} bytes come late)"),
    }
}

fn lent(t: &Tables) -> String {
    counted(&t.points) + &counted(&t.corners) + &counted(&t.begins)
}

/// The length, then the numbers.
fn counted<T: Display>(list: &[T]) -> String {
    let numbers: String = list.iter().map(|n| format!(" {n}")).collect();
    format!(" {}{numbers}", list.len())
}
