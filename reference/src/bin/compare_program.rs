//! Compares a program with the plain one, on made-up sheets and large inputs.
//!
//! `compare_program [--seed S] [--sheets COUNT] PROGRAM [WORDS]` runs the program
//! with the words as its arguments and hands each input to it by standard input.
//! All that it writes must be what the plain program writes, with nothing on
//! standard error and status 0. A difference ends it with status 1.

use std::fmt::Display;
use std::io::{self, ErrorKind, Write};
use std::process::{Child, Command, ExitCode, Output, Stdio};
use std::sync::atomic::{AtomicUsize, Ordering};
use std::thread;
use std::time::{Duration, Instant};

use reference::compare::Made;
use reference::gen::{Sheet, Xorshift};
use reference::paper::NINE_LEGS;
use reference::{program, Fast, Plain};

const USAGE: &str = "usage: compare_program [--seed S] [--sheets COUNT] PROGRAM [WORDS]";
const THREADS: usize = 2;
const SHEETS_IN_PIECES: u64 = 48;
const PAUSE: Duration = Duration::from_millis(1);
const LARGE: usize = 1 << 20;
/// Of so many differences each is told; one fault may make thousands.
const MOST_TOLD: usize = 5;

struct Options {
    seed: u64,
    sheets: u64,
    /// The program and its arguments.
    command: Vec<String>,
}

fn main() -> ExitCode {
    let Some(options) = options(std::env::args().skip(1)) else {
        eprintln!("{USAGE}");
        return ExitCode::from(2);
    };
    let start = Instant::now();
    let cases = cases(options.seed, options.sheets);
    let differences = differences(&options.command, &cases);
    for told in differences.iter().take(MOST_TOLD) {
        println!("{told}");
    }
    let (seed, count) = (options.seed, cases.len());
    println!(
        "compare_program: seed {seed}, {count} inputs, {} of them sheets at once, \
         {SHEETS_IN_PIECES} in pieces; {} differences",
        options.sheets,
        differences.len()
    );
    eprintln!(
        "compare_program: {:.1} seconds",
        start.elapsed().as_secs_f64()
    );
    match differences.is_empty() {
        true => ExitCode::SUCCESS,
        false => ExitCode::FAILURE,
    }
}

fn options(mut words: impl Iterator<Item = String>) -> Option<Options> {
    let (mut seed, mut sheets) = (1, 3_000);
    loop {
        let word = words.next()?;
        match word.as_str() {
            "--seed" => seed = words.next()?.parse().ok()?,
            "--sheets" => sheets = words.next()?.parse().ok()?,
            _ => {
                let command = [word].into_iter().chain(words).collect();
                return Some(Options {
                    seed,
                    sheets,
                    command,
                });
            }
        }
    }
}

/// An input and how it reaches the program.
struct Case {
    name: String,
    input: Vec<u8>,
    delivery: Delivery,
}

enum Delivery {
    /// By one write.
    Whole,
    /// By a write for each piece, with pauses. The pieces end at these places.
    Pieces(Vec<usize>),
    /// Standard input is the null device.
    Null,
}

impl Case {
    fn whole(name: impl Display, input: Vec<u8>) -> Case {
        Case {
            name: name.to_string(),
            input,
            delivery: Delivery::Whole,
        }
    }
}

fn cases(seed: u64, sheets: u64) -> Vec<Case> {
    let mut rng = Xorshift::new(seed);
    let mut cases: Vec<Case> = (0..sheets)
        .map(|index| {
            let sheet = Made::new(&mut rng, index).bytes;
            Case::whole(format_args!("sheet {index}"), sheet)
        })
        .collect();
    cases.extend((0..SHEETS_IN_PIECES).map(|index| {
        let sheet = Made::new(&mut rng, index).bytes;
        in_pieces(&mut rng, format_args!("sheet {index}"), sheet)
    }));
    cases.extend(special(&mut rng));
    cases
}

/// No input, the longest sheet, and what no sheet is as long as.
fn special(rng: &mut Xorshift) -> Vec<Case> {
    let longest = || Sheet::longest().bytes();
    let byte_by_byte = (1..=NINE_LEGS.len()).collect();
    let mut cases = vec![
        Case::whole("no input", vec![]),
        Case {
            delivery: Delivery::Null,
            ..Case::whole("no input, from the null device", vec![])
        },
        Case {
            delivery: Delivery::Pieces(byte_by_byte),
            ..Case::whole("the nine legs, byte by byte", NINE_LEGS.to_vec())
        },
        Case::whole("the longest sheet", longest()),
        Case::whole(
            "one byte after the longest sheet",
            [longest(), vec![0]].concat(),
        ),
        in_pieces(rng, "the longest sheet", longest()),
    ];
    for sheet in [NINE_LEGS.to_vec(), Sheet::plain(2).bytes(), longest()] {
        let zeros = [sheet.clone(), vec![0; LARGE]].concat();
        let noise = [sheet, noise(rng)].concat();
        cases.push(in_pieces(
            rng,
            "a sheet and a megabyte of zeros",
            zeros.clone(),
        ));
        cases.push(Case::whole("a sheet and a megabyte of zeros", zeros));
        cases.push(Case::whole("a sheet and a megabyte of noise", noise));
    }
    for count in [None, Some(2), Some(64)] {
        let mut noise = noise(rng);
        noise[0] = count.unwrap_or(noise[0]);
        cases.push(Case::whole("a megabyte of noise", noise));
    }
    cases
}

fn in_pieces(rng: &mut Xorshift, name: impl Display, input: Vec<u8>) -> Case {
    let cuts = rng.between(2, 9);
    let mut ends: Vec<usize> = (0..cuts).map(|_| rng.below(input.len() + 1)).collect();
    ends.push(input.len());
    ends.sort_unstable();
    ends.dedup();
    Case {
        name: format!("{name}, in pieces"),
        input,
        delivery: Delivery::Pieces(ends),
    }
}

fn noise(rng: &mut Xorshift) -> Vec<u8> {
    (0..LARGE).map(|_| rng.word() as u8).collect()
}

/// What is told of each difference, in the order of the cases.
fn differences(command: &[String], cases: &[Case]) -> Vec<String> {
    let next = AtomicUsize::new(0);
    let work = || {
        let mut found = Vec::new();
        loop {
            let at = next.fetch_add(1, Ordering::Relaxed);
            let Some(case) = cases.get(at) else {
                return found;
            };
            let told = difference(command, case, &expected(at, &case.input));
            found.extend(told.map(|told| (at, told)));
        }
    };
    let mut found: Vec<(usize, String)> = thread::scope(|scope| {
        let threads: Vec<_> = (0..THREADS).map(|_| scope.spawn(work)).collect();
        let joined = threads.into_iter().map(|thread| thread.join());
        joined.flat_map(|found| found.expect("no panic")).collect()
    });
    found.sort_unstable();
    found.into_iter().map(|(_, told)| told).collect()
}

/// Plain runs on many stations take long, so only one in eight is made; the
/// others are those of the fast calls.
fn expected(at: usize, input: &[u8]) -> String {
    let stations = input.first().copied().unwrap_or(0);
    match (stations, at % 8) {
        (0..=32, _) | (_, 0) => program::output(&Plain, input),
        _ => program::output(&Fast, input),
    }
}

fn difference(command: &[String], case: &Case, expected: &str) -> Option<String> {
    let got = match answer(command, case) {
        Ok(got) => got,
        Err(error) => return Some(format!("{}: {error}", command.join(" "))),
    };
    let same = got.stdout == expected.as_bytes() && got.stderr.is_empty();
    if same && got.status.success() {
        return None;
    }
    Some(format!(
        "{}: {} bytes: {}\nexpected: {}\nbut {}, standard output: {}\nstandard error: {}",
        case.name,
        case.input.len(),
        hex(&case.input),
        expected.escape_default(),
        got.status,
        got.stdout.escape_ascii(),
        got.stderr.escape_ascii()
    ))
}

/// The bytes that can matter.
fn hex(input: &[u8]) -> String {
    let read = input.iter().take(program::BYTES_READ as usize);
    let digits: Vec<String> = read.map(|byte| format!("{byte:02x}")).collect();
    digits.join(" ")
}

fn answer(command: &[String], case: &Case) -> io::Result<Output> {
    let stdin = match case.delivery {
        Delivery::Null => Stdio::null(),
        _ => Stdio::piped(),
    };
    let mut child = Command::new(&command[0])
        .args(&command[1..])
        .stdin(stdin)
        .stdout(Stdio::piped())
        .stderr(Stdio::piped())
        .spawn()?;
    match deliver(&mut child, case) {
        // The program may stop reading where nothing more can matter.
        Err(error) if error.kind() == ErrorKind::BrokenPipe => {}
        delivered => delivered?,
    }
    child.wait_with_output()
}

/// Writes the input and closes standard input.
fn deliver(child: &mut Child, case: &Case) -> io::Result<()> {
    let Some(mut pipe) = child.stdin.take() else {
        return Ok(());
    };
    match &case.delivery {
        Delivery::Pieces(ends) => {
            let mut start = 0;
            for &end in ends {
                pipe.write_all(&case.input[start..end])?;
                thread::sleep(PAUSE);
                start = end;
            }
            Ok(())
        }
        _ => pipe.write_all(&case.input),
    }
}
