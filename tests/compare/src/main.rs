//! Compares the library, and the same in plain C, with the second implementation on
//! generated calls.
//!
//! `compare [--calls N] [--seed S] [--differences D] [--as-met] [--trace]
//! [--null] [--without-plain]`
//!
//! The last line is `N passed, M failed`: N calls compared equal; M counts
//! differences, and entries of the closing table that were never met or should
//! not have been.

mod areas;
mod call;
mod capabilities;
mod moves;
mod notes;
mod numbers;
mod reachable;
mod records;
mod row_scenes;
mod rows;
mod scenes;
mod show;
mod shrink;
mod side;
mod tally;
mod totals;
mod value;
mod widths;
mod wire;

use call::{Call, Seen};
use scenes::Scenes;
use side::{Lost, Side};
use std::borrow::Cow;
use std::io;
use std::process::ExitCode;
use tally::Tally;

const USAGE: &str =
    "usage: compare [--calls N] [--seed S] [--differences D] [--as-met] [--trace] [--null]
               [--without-plain]

  --calls N        calls to compare (200000)
  --seed S         seed of the generated calls (0x7AC17)
  --differences D  stop after so many differences (1)
  --as-met         show a difference as it was met, not as small as it goes
  --trace          print every call
  --null           lend an empty area, record, row or room as a null pointer
  --without-plain  compare the library alone, without plain C";

struct Options {
    calls: u64,
    seed: u64,
    differences: u64,
    as_met: bool,
    trace: bool,
    null: bool,
    without_plain: bool,
}

fn options() -> Option<Options> {
    let mut options = Options {
        calls: 200_000,
        seed: 0x7AC17,
        differences: 1,
        as_met: false,
        trace: false,
        null: false,
        without_plain: false,
    };
    let mut words = std::env::args().skip(1);
    while let Some(word) = words.next() {
        match word.as_str() {
            "--calls" => options.calls = number(&words.next()?)?,
            "--seed" => options.seed = number(&words.next()?)?,
            "--differences" => options.differences = number(&words.next()?)?.max(1),
            "--as-met" => options.as_met = true,
            "--trace" => options.trace = true,
            "--null" => options.null = true,
            "--without-plain" => options.without_plain = true,
            _ => return None,
        }
    }
    Some(options)
}

fn number(text: &str) -> Option<u64> {
    match text.strip_prefix("0x") {
        Some(digits) => u64::from_str_radix(digits, 16).ok(),
        None => text.parse().ok(),
    }
}

/// All that is compared with the second implementation.
fn sides(options: &Options) -> io::Result<Vec<Side>> {
    let mut sides = vec![Side::library(options.null)?];
    if !options.without_plain {
        sides.push(Side::plain(options.null)?);
    }
    Ok(sides)
}

fn main() -> ExitCode {
    let Some(options) = options() else {
        eprintln!("{USAGE}");
        return ExitCode::from(2);
    };
    let mut sides = match sides(&options) {
        Ok(sides) => sides,
        Err(error) => {
            eprintln!("compare: {error}");
            return ExitCode::from(2);
        }
    };
    println!("seed 0x{:X}, {} calls", options.seed, options.calls);

    call::quieten_second();
    let mut scenes = Scenes::from_seed(options.seed);
    let mut left = options.calls;
    let mut run = Run::new(&options);
    let mut asked = Batch::default();
    // While the others answer one batch, the next one is made.
    loop {
        let next = Batch::make(&mut scenes, left, options.trace);
        left -= next.calls.len() as u64;
        run.settle(&asked, &mut sides);
        if run.is_over() || next.calls.is_empty() {
            break;
        }
        for side in &mut sides {
            side.send(&next.calls);
        }
        asked = next;
    }
    run.report()
}

/// Calls with what the second implementation makes of them. What comes next is
/// decided by these answers, so no other need be waited for.
#[derive(Default)]
struct Batch {
    calls: Vec<Call>,
    second: Vec<Seen>,
}

impl Batch {
    const CALLS: usize = 1000;
    const OCTETS: usize = 1 << 20;

    /// The next calls, at most `limit`.
    fn make(scenes: &mut Scenes, limit: u64, trace: bool) -> Batch {
        let mut batch = Batch::default();
        let mut octets = 0;
        while batch.calls.len() < Batch::CALLS
            && (batch.calls.len() as u64) < limit
            && octets < Batch::OCTETS
        {
            let call = scenes.next();
            if trace {
                print!("{call}");
            }
            let seen = call.ask_second();
            scenes.saw(&call, &seen);
            octets += call.octets();
            batch.calls.push(call);
            batch.second.push(seen);
        }
        batch
    }
}

/// A run of comparisons.
struct Run<'a> {
    options: &'a Options,
    tally: Tally,
    passed: u64,
    failed: u64,
}

impl Run<'_> {
    fn new(options: &Options) -> Run<'_> {
        Run {
            options,
            tally: Tally::default(),
            passed: 0,
            failed: 0,
        }
    }

    fn is_over(&self) -> bool {
        self.failed >= self.options.differences
    }

    /// Compares the answers of every side to a batch that was sent.
    fn settle(&mut self, batch: &Batch, sides: &mut [Side]) {
        if batch.calls.is_empty() {
            return;
        }
        let received = sides.iter_mut().map(|side| side.receive(&batch.calls));
        let answers: Vec<Result<Vec<Seen>, Lost>> = received.collect();
        let failed_before = self.failed;
        for (index, (call, second)) in batch.calls.iter().zip(&batch.second).enumerate() {
            if self.is_over() {
                return;
            }
            // Answers that did not come are asked for one by one.
            let each = sides.iter_mut().zip(&answers);
            let seen: Vec<Cow<Seen>> = each
                .map(|(side, answers)| match answers {
                    Ok(seen) => Cow::Borrowed(&seen[index]),
                    Err(_) => Cow::Owned(side.ask(call)),
                })
                .collect();
            self.tally.count(call, second);
            match seen.iter().position(|seen| **seen != *second) {
                None => self.passed += 1,
                Some(differs) => {
                    self.failed += 1;
                    println!("\ndifference at call {}", self.passed + self.failed);
                    if self.options.as_met {
                        print(call, second, &seen, sides);
                    } else {
                        print_small(call, second, &seen, sides, differs);
                    }
                }
            }
        }
        if self.failed == failed_before {
            self.lost_in_a_batch(batch, sides, &answers);
        }
    }

    /// Calls that were answered one by one and not in their batch.
    fn lost_in_a_batch(
        &mut self,
        batch: &Batch,
        sides: &[Side],
        answers: &[Result<Vec<Seen>, Lost>],
    ) {
        for (side, answers) in sides.iter().zip(answers) {
            if let Err(Lost(why)) = answers {
                self.failed += 1;
                println!(
                    "\n{}: no answers to the {} calls up to call {} ({why}), but to each of them alone",
                    side.name,
                    batch.calls.len(),
                    self.passed
                );
            }
        }
    }

    fn report(mut self) -> ExitCode {
        if self.failed == 0 {
            self.failed += self.tally.report();
        }
        println!("{} passed, {} failed", self.passed, self.failed);
        if self.failed == 0 {
            ExitCode::SUCCESS
        } else {
            ExitCode::FAILURE
        }
    }
}

/// Prints a difference of one side, as small as it can be made.
fn print_small(call: &Call, second: &Seen, seen: &[Cow<Seen>], sides: &mut [Side], differs: usize) {
    if !call.differs(&mut sides[differs]) {
        println!("not seen again when the call was repeated alone:");
        print(call, second, seen, sides);
        return;
    }
    let small = shrink::shrink(call.clone(), &mut sides[differs]);
    let asked = sides.iter_mut().map(|side| Cow::Owned(side.ask(&small)));
    let seen: Vec<Cow<Seen>> = asked.collect();
    print(&small, &small.ask_second(), &seen, sides);
}

/// Prints a call and all answers to it; of equal ones the first.
fn print(call: &Call, second: &Seen, seen: &[Cow<Seen>], sides: &[Side]) {
    print!("{call}");
    let mut shown = vec![("second", second)];
    print!("{}", second.show("second", call));
    for (side, seen) in sides.iter().zip(seen) {
        match shown.iter().find(|(_, before)| *before == &**seen) {
            Some((name, _)) => println!("  {:<8} as {name}", side.name),
            None => print!("{}", seen.show(side.name, call)),
        }
        shown.push((side.name, seen));
    }
    println!();
}
