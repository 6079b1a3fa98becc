//! A live report: rows inserted and removed, one step after the other. After each step a line on standard error; at the end the page on standard
//! output and its spans on standard error. A step that is refused leaves the report as it was, and the next is taken.
//!
//!     cargo run --offline --example report -- 36 1 0 1 +0 ../../samples/ticket.prepared +0 ../../samples/annotated.prepared -1

use std::io::Write;
use std::process::ExitCode;

use gannozhi::{Desks, Limits, Refusal, Report, Settings, Sizes};

const USAGE: &str =
    "usage: report WIDTH NEWLINE_COST POLICY RULE STEP ..   (a step is +PLACE FILE, a row inserted, or -PLACE, a row removed)";

/// A word of decimal digits.
fn number<T: std::str::FromStr>(word: &str) -> Option<T> {
    word.bytes().all(|byte| byte.is_ascii_digit()).then(|| word.parse().ok())?
}

/// The place, and the name of the file if a row is to be inserted.
type Step<'a> = (usize, Option<&'a str>);

/// The setting, and the steps by their words; None where they are not so.
fn arguments(words: &[String]) -> Option<(Settings, Vec<(&str, Step<'_>)>)> {
    let [width, newline_cost, policy, rule, rest @ ..] = words else { return None };
    let settings = Settings {
        width: number(width)?,
        newline_cost: number(newline_cost)?,
        policy: number(policy)?,
        rule: number(rule)?,
    };
    let (mut steps, mut rest) = (Vec::new(), rest.iter());
    while let Some(word) = rest.next() {
        let step = match word.split_at_checked(1)? {
            ("+", place) => (number(place)?, Some(rest.next()?.as_str())),
            ("-", place) => (number(place)?, None),
            _ => return None,
        };
        steps.push((word.as_str(), step));
    }
    Some((settings, steps))
}

/// The status: 0 where no step was refused.
fn run(settings: &Settings, steps: &[(&str, Step)]) -> Result<u8, Refusal> {
    let limits = Limits { work: 1_000_000, visits: 1_000_000 };
    let most = Sizes { output: 1 << 20, spans: 1 << 14, ..Sizes::PAGE };
    let mut report = Report::open(settings, most)?;
    // All steps are desk 0's, and their work is held to the limit alone.
    let mut desks = Desks::all(u64::MAX);
    let mut status = 0;
    for (word, (place, name)) in steps {
        let answer = match name.map(|name| (name, std::fs::read(name))) {
            None => report.remove(0, &mut desks, *place),
            Some((_, Ok(file))) => report.insert(0, &mut desks, *place, &file, &limits),
            Some((name, Err(why))) => {
                eprintln!("{name}: {why}");
                return Ok(2);
            }
        };
        match answer {
            Ok(page) => {
                let (bytes, spans, work) = (page.bytes.len(), page.spans().len(), page.counts.work);
                eprintln!(
                    "{word}: bytes {bytes}, spans {spans}, overflow {:032x}, burden {}, work {work}",
                    page.overflow, page.burden
                );
            }
            Err(refusal) => {
                eprintln!("{word}: {refusal}");
                status = 1;
            }
        }
    }
    for span in report.spans() {
        eprintln!("span {span}");
    }
    std::io::stdout().write_all(report.bytes()).expect("standard output");
    Ok(status)
}

fn main() -> ExitCode {
    let words: Vec<String> = std::env::args_os().skip(1).map(|word| word.to_string_lossy().into_owned()).collect();
    if words.iter().any(|word| word == "--help") {
        println!("{USAGE}");
        return ExitCode::SUCCESS;
    }
    let Some((settings, steps)) = arguments(&words) else {
        eprintln!("{USAGE}");
        return ExitCode::from(2);
    };
    let status = run(&settings, &steps).unwrap_or_else(|refusal| {
        eprintln!("{refusal}");
        1
    });
    ExitCode::from(status)
}
