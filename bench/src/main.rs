//! The work of the library in plain Rust, written from docs/RULES.md: what its speed is measured by.

mod format;
mod header;
mod inputs;
mod job;
mod layout;
mod refusal;

use std::process::ExitCode;

use crate::format::Format;
use crate::inputs::{Plan, Random, Sample, Sum, array, calls, canvas, handful};
use crate::job::{Answer, Call, Report, Shelves, run};
use crate::layout::{Layout, Piece};
use crate::refusal::Refusal;

const USAGE: &str = "usage: baseline open ROUNDS
       baseline array ELEMENTS LEVELS ROUNDS
       baseline whose ELEMENTS LEVELS PLACES ROUNDS
       baseline calls BYTES STROKES EVERY ROUNDS";

/// The most kept bytes that the shelves hold.
const MOST_KEPT: usize = 1 << 26;

#[derive(Clone, Copy)]
enum Workload {
    Open,
    Array {
        elements: u32,
        levels: u32,
    },
    Whose {
        elements: u32,
        levels: u32,
        places: u32,
    },
    Calls(Plan),
}

fn open_all(samples: &[Sample], sum: &mut Sum) {
    for sample in samples {
        match Layout::read(sample.head()) {
            Ok(layout) => {
                sum.add(layout.length());
                sum.add(layout.piece_count());
            }
            Err(refusal) => sum.add(refusal.number().into()),
        }
    }
}

fn open(samples: &[Sample], rounds: u32) -> u64 {
    let mut sum = Sum::new();
    for _ in 0..rounds {
        open_all(samples, &mut sum);
    }
    sum.value()
}

fn owner_value(owner: Result<Option<(Piece, u32)>, Refusal>) -> u64 {
    match owner {
        Ok(Some((piece, offset))) => {
            u64::from(piece.element) << 40
                ^ u64::from(piece.level) << 36
                ^ u64::from(piece.slice) << 32
                ^ u64::from(offset)
        }
        Ok(None) => 1 << 63,
        Err(refusal) => refusal.number().into(),
    }
}

fn ask_all(layout: &Layout, places: &[u64], sum: &mut Sum) {
    for place in places {
        sum.add(owner_value(layout.whose(*place)));
    }
}

fn whose(sample: &Sample, places: u32, rounds: u32) -> Result<u64, Refusal> {
    let layout = Layout::read(sample.head())?;
    let mut random = Random::new();
    // some places are past the file's end
    let limit = layout.length() as u32 + 8;
    let places: Vec<u64> = (0..places).map(|_| random.below(limit).into()).collect();
    let mut sum = Sum::new();
    for _ in 0..rounds {
        ask_all(&layout, &places, &mut sum);
    }
    Ok(sum.value())
}

fn add_state(sum: &mut Sum, file: &[u8], shelves: &Shelves) {
    for byte in file {
        sum.add((*byte).into());
    }
    for mark in &shelves.marks {
        sum.add(mark.loan.into());
        sum.add(mark.place as u64);
        sum.add(mark.length as u64);
    }
    for byte in &shelves.kept {
        sum.add((*byte).into());
    }
}

fn add_answers(sum: &mut Sum, answers: &[Answer]) {
    for answer in answers {
        sum.add(match answer {
            Ok(number) => u64::from(*number),
            Err(refusal) => 1 << 32 | u64::from(refusal.number()),
        });
    }
}

fn add_report(sum: &mut Sum, report: Report) {
    sum.add(report.granted.into());
    sum.add(report.kept.into());
    sum.add(report.cancelled.into());
    sum.add(report.out.into());
}

/// One run on empty shelves. Only the last round is summed up.
fn make(
    file: &mut [u8],
    shelves: &mut Shelves,
    calls: &[Call<'_>],
    last: bool,
) -> Result<Sum, Refusal> {
    shelves.clear();
    let mut sum = Sum::new();
    let (job, answers) = run(file, shelves, Format::Linear(8), calls)?;
    if last {
        add_answers(&mut sum, &answers);
        add_state(&mut sum, file, shelves);
        add_report(&mut sum, job.report());
    }
    Ok(sum)
}

fn make_calls(plan: Plan, rounds: u32) -> Result<u64, Refusal> {
    let mut random = Random::new();
    let mut file = canvas().file(&mut random);
    let ink = random.bytes(8_192);
    let calls = calls(plan, &ink);
    let most_kept = (plan.strokes as usize * plan.length as usize).min(MOST_KEPT);
    let mut shelves = Shelves::new(plan.strokes as usize, most_kept);
    let mut sum = Sum::new();
    for round in 1..=rounds {
        sum = make(&mut file, &mut shelves, &calls, round == rounds)?;
    }
    Ok(sum.value())
}

impl Workload {
    fn parse(name: &str, numbers: &[u32]) -> Option<(Workload, u32)> {
        Some(match (name, numbers) {
            ("open", &[rounds]) => (Workload::Open, rounds),
            ("array", &[elements, levels, rounds]) => {
                (Workload::Array { elements, levels }, rounds)
            }
            ("whose", &[elements, levels, places, rounds]) => {
                let workload = Workload::Whose {
                    elements,
                    levels,
                    places,
                };
                (workload, rounds)
            }
            ("calls", &[length @ 1..=4_096, strokes, every, rounds]) => {
                let plan = Plan {
                    length,
                    strokes,
                    every,
                };
                (Workload::Calls(plan), rounds)
            }
            _ => return None,
        })
    }

    fn run(self, rounds: u32) -> Result<u64, Refusal> {
        match self {
            Workload::Open => Ok(open(&handful(), rounds)),
            Workload::Array { elements, levels } => {
                let samples = [array(elements, levels), array(elements, levels).longer()];
                Ok(open(&samples, rounds))
            }
            Workload::Whose {
                elements,
                levels,
                places,
            } => whose(&array(elements, levels), places, rounds),
            Workload::Calls(plan) => make_calls(plan, rounds),
        }
    }
}

/// Small workloads of every kind.
const SMALL: [(&str, &[u32]); 7] = [
    ("open", &[2]),
    ("array", &[2_048, 15, 1]),
    ("whose", &[1, 1, 500, 1]),
    ("whose", &[2_048, 15, 500, 2]),
    ("calls", &[1, 400, 16, 1]),
    ("calls", &[64, 400, 0, 1]),
    ("calls", &[4_096, 400, 16, 2]),
];

fn work(name: &str, numbers: &[u32]) -> Option<()> {
    let (workload, rounds) = Workload::parse(name, numbers)?;
    match workload.run(rounds) {
        Ok(sum) => println!("{name}: {sum}"),
        Err(refusal) => println!("{name}: refusal {}", refusal.number()),
    }
    Some(())
}

fn main() -> ExitCode {
    let args: Vec<String> = std::env::args().skip(1).collect();
    let done = match args.split_first() {
        None => SMALL
            .iter()
            .try_for_each(|(name, numbers)| work(name, numbers)),
        Some((name, numbers)) => numbers
            .iter()
            .map(|number| number.parse().ok())
            .collect::<Option<Vec<u32>>>()
            .and_then(|numbers| work(name, &numbers)),
    };
    if done.is_none() {
        eprintln!("{USAGE}");
        return ExitCode::FAILURE;
    }
    ExitCode::SUCCESS
}
