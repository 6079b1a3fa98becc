//! Times of our library and of the reference, on the same files, settings and sizes.
//!
//! Ours reads the file at each call; reading alone, and a call that ends before the materializer (visit limit 0), are measured too, so that
//! solver and materializer can be told apart. Parts, by number: 0 nothing but what is set up, 1 our reader, 2 our reader and solver, 3 our
//! whole call, 4 the reference's solver, 5 its solver and materializer.

use std::hint::black_box;
use std::time::Instant;

use common::{Settings, Sizes, Tables};
use gannozhi::{Desks, Limits, Printer};
use generate::Rng;
use reference::access::Bench;

use crate::compare::PROBE;

const FREE: Limits = Limits { work: u64::MAX, visits: u64::MAX };
const ROUNDS: u32 = 12;
const SOLVER: Limits = Limits { work: u64::MAX, visits: 0 };

/// A report of so many rows; or, above 100,000, a Fill of that many words less 100,000.
fn document(rows: u64) -> Tables {
    let mut rng = Rng::new(3);
    let source = match rows.checked_sub(100_000) {
        None => generate::source::report(&mut rng, rows as usize),
        Some(words) => generate::source::paragraph(&mut rng, words as usize),
    };
    reference::access::tables(&source.prepare().expect("it can be prepared"))
}

struct Subject {
    file: Vec<u8>,
    tables: Tables,
    settings: Settings,
    sizes: Sizes,
    counts: common::Counts,
    page: usize,
}

fn subject(rows: u64, width: u32) -> Subject {
    let tables = document(rows);
    let settings = Settings { width, newline_cost: 1, policy: 0, rule: 1 };
    let limits = common::Limits { work: 1 << 40, visits: 1 << 40 };
    let probe = Sizes { output: 1 << 24, ..PROBE };
    let page = model::render(&tables, &settings, &probe, &limits).0.expect("a page");
    let file = model::file::encode(&tables).expect("within the file's limits");
    Subject { file, tables, settings, sizes: page.needs, counts: page.counts, page: page.bytes.len() }
}

/// One of the parts above.
fn run(subject: &Subject, number: u64, times: u64) -> u64 {
    let Subject { file, tables, settings, .. } = subject;
    let mut printer = Printer::new(gannozhi::Sizes::of(subject.sizes.list()));
    let Settings { width, newline_cost, policy, rule } = *settings;
    let set = gannozhi::Settings { width, newline_cost, policy, rule };
    let document = reference::access::document(tables);
    let mut rust = Bench::new(&document, settings, &subject.sizes);
    let mut desks = Desks::all(u64::MAX);
    let mut once = || match number {
        0 => 0,
        1 => printer.read(black_box(file)).map_or(0, |counts| u64::from(counts.nodes)),
        2 => {
            let answer = printer.render(0, &mut desks, black_box(file), &set, &SOLVER);
            answer.map_or_else(|refusal| refusal.counts.work, |_| 0)
        }
        3 => printer.render(0, &mut desks, black_box(file), &set, &FREE).map_or(0, |page| page.bytes.len() as u64),
        4 => rust.solve(),
        _ => rust.render() as u64,
    };
    let start = Instant::now();
    for _ in 0..times {
        black_box(once());
    }
    start.elapsed().as_nanos() as u64
}

pub fn part(number: u64, rows: Option<u64>, width: Option<u64>, times: u64) {
    let subject = subject(rows.unwrap_or(200), width.unwrap_or(80) as u32);
    run(&subject, number, times);
}

/// The least of some runs, in nanoseconds a call.
fn least(subject: &Subject, number: u64) -> f64 {
    let once = run(subject, number, 3).max(3) / 3;
    let times = (1_500_000 / once).clamp(1, 20_000);
    let least = (0..20).map(|_| run(subject, number, times)).min().expect("runs");
    least as f64 / times as f64
}

pub fn table() {
    let documents = [1, 10, 50, 100, 200, 400].map(|rows| (rows, 80));
    let widths = [20, 40, 120, 160].map(|width| (200, width));
    let fills = [(100_020, 40), (100_200, 40), (101_000, 40), (101_000, 160)];
    let all: Vec<(u64, u32)> = documents.into_iter().chain(widths).chain(fills).collect();
    let subjects: Vec<Subject> = all.iter().map(|(rows, width)| subject(*rows, *width)).collect();
    // In rounds, so that a busy time of the machine does not fall on one document.
    let mut times = vec![[f64::INFINITY; 6]; subjects.len()];
    for round in 0..ROUNDS {
        for (subject, times) in subjects.iter().zip(&mut times) {
            for (part, time) in times.iter_mut().enumerate().skip(1) {
                *time = time.min(least(subject, part as u64));
            }
        }
        eprint!("\rround {} of {ROUNDS}  ", round + 1);
    }
    eprintln!();
    println!("| document | width | file | work | page | ours: read | ours: solve | Rust: solve | ratio | ours: solve and page | Rust: both | ratio |");
    println!("|---|---|---|---|---|---|---|---|---|---|---|---|");
    for (((rows, width), subject), times) in all.iter().zip(&subjects).zip(times) {
        let [_, read, solved, whole, rust_solve, rust_both] = times;
        let name = match rows.checked_sub(100_000) {
            None => format!("report of {rows} rows"),
            Some(words) => format!("Fill of {words} words"),
        };
        println!(
            "| {name} | {width} | {} | {} | {} | {:.1} | {:.1} | {:.1} | {:.2} | {:.1} | {:.1} | {:.2} |",
            subject.file.len(),
            subject.counts.work,
            subject.page,
            read / 1e3,
            (solved - read) / 1e3,
            rust_solve / 1e3,
            (solved - read) / rust_solve,
            (whole - read) / 1e3,
            rust_both / 1e3,
            (whole - read) / rust_both,
        );
    }
    let tables = generate::bounds::largest();
    let file = model::file::encode(&tables).expect("within the file's limits");
    let mut printer = Printer::new(gannozhi::Sizes::PAGE);
    let mut read = || {
        let start = Instant::now();
        let counts = printer.read(black_box(&file)).expect("it is accepted");
        black_box(counts);
        start.elapsed().as_nanos()
    };
    let least = (0..400).map(|_| read()).min().expect("runs");
    println!("the largest file, {} bytes, every count at its limit: read in {:.1}", file.len(), least as f64 / 1e3);
}
