//! A shift's files in one go: up to 64 prepared files, and their pages on standard output, each with a newline behind it. For each file a line on
//! standard error, and its spans; a file that is refused does not hold up the next.
//!
//!     cargo run --offline --example shift -- 36 1 0 1 ../../samples/ticket.prepared ../../samples/annotated.prepared

use std::io::Write;
use std::process::ExitCode;

use gannozhi::{Desks, Limits, Page, Printer, Refusal, Settings, Sizes};

const USAGE: &str = "usage: shift WIDTH NEWLINE_COST POLICY RULE FILE ..";

/// A word of decimal digits, below 2^32.
fn number(word: &str) -> Option<u32> {
    word.bytes().all(|byte| byte.is_ascii_digit()).then(|| word.parse().ok())?
}

/// The setting, and the names of the files; None where the words are not so.
fn arguments(words: &[String]) -> Option<(Settings, &[String])> {
    let [width, newline_cost, policy, rule, names @ ..] = words else { return None };
    let settings = Settings {
        width: number(width)?,
        newline_cost: number(newline_cost)?,
        policy: number(policy)?,
        rule: number(rule)?,
    };
    Some((settings, names))
}

fn tell(name: &str, page: &Page) {
    let (bytes, spans, work) = (page.bytes.len(), page.spans().len(), page.counts.work);
    eprintln!(
        "{name}: bytes {bytes}, spans {spans}, overflow {:032x}, burden {}, work {work}",
        page.overflow, page.burden
    );
    for span in page.spans() {
        eprintln!("span {span}");
    }
    std::io::stdout().write_all(&[page.bytes, b"\n"].concat()).expect("standard output");
}

/// The status: 0 where no file was refused.
fn run(settings: &Settings, names: &[String]) -> Result<u8, Refusal> {
    let limits = Limits { work: 1_000_000, visits: 1_000_000 };
    let mut printer = Printer::new(Sizes { output: 1 << 20, spans: 1 << 14, ..Sizes::PAGE });
    let mut files = Vec::new();
    for name in names {
        match std::fs::read(name) {
            Ok(file) => files.push(file),
            Err(why) => {
                eprintln!("{name}: {why}");
                return Ok(2);
            }
        }
    }
    let files: Vec<&[u8]> = files.iter().map(Vec::as_slice).collect();
    // Desk 0, and its work held to the limit of each call alone.
    let answers = printer.file_all(0, &mut Desks::all(u64::MAX), &files, settings, &limits)?;
    let mut status = 0;
    for (name, answer) in names.iter().zip(&answers) {
        match answer {
            Ok(page) => tell(name, page),
            Err(refusal) => {
                eprintln!("{name}: {refusal}");
                status = 1;
            }
        }
    }
    Ok(status)
}

fn main() -> ExitCode {
    let words: Vec<String> = std::env::args_os().skip(1).map(|word| word.to_string_lossy().into_owned()).collect();
    if words.iter().any(|word| word == "--help") {
        println!("{USAGE}");
        return ExitCode::SUCCESS;
    }
    let Some((settings, names)) = arguments(&words) else {
        eprintln!("{USAGE}");
        return ExitCode::from(2);
    };
    let status = run(&settings, names).unwrap_or_else(|refusal| {
        eprintln!("shift: {refusal}");
        1
    });
    ExitCode::from(status)
}
