//! The page of a prepared file on standard output; its cost, the sizes that just suffice and its spans on standard error; or why there is
//! none.
//!
//!     cargo run --offline --example page -- 36 < ../../samples/ticket.prepared

use std::io::{Read, Write};
use std::process::ExitCode;

use gannozhi::{Desks, Limits, Printer, Settings, Sizes};

const USAGE: &str = "usage: page [WIDTH [NEWLINE_COST [POLICY [RULE]]]] < FILE   (80 1 0 1 where they are not given)";

/// A word of decimal digits, below 2^32.
fn number(word: &str) -> Option<u32> {
    word.bytes().all(|byte| byte.is_ascii_digit()).then(|| word.parse().ok())?
}

fn main() -> ExitCode {
    let mut setting = [80, 1, 0, 1];
    for (place, word) in std::env::args_os().skip(1).enumerate() {
        let word = word.to_string_lossy();
        if word == "--help" {
            println!("{USAGE}");
            return ExitCode::SUCCESS;
        }
        match (setting.get_mut(place), number(&word)) {
            (Some(field), Some(value)) => *field = value,
            _ => {
                eprintln!("{USAGE}");
                return ExitCode::from(2);
            }
        }
    }
    let [width, newline_cost, policy, rule] = setting;
    let mut file = Vec::new();
    std::io::stdin().read_to_end(&mut file).expect("standard input");
    let limits = Limits { work: 1_000_000, visits: 1_000_000 };
    let settings = Settings { width, newline_cost, policy, rule };
    // Desk 0, and its work held to the limit alone.
    match Printer::new(Sizes::PAGE).render(0, &mut Desks::all(u64::MAX), &file, &settings, &limits) {
        Ok(page) => {
            eprintln!("overflow {:032x}, burden {}, work {}", page.overflow, page.burden, page.counts.work);
            eprintln!("needs {}", page.needs);
            for span in page.spans() {
                eprintln!("span {span}");
            }
            std::io::stdout().write_all(page.bytes).expect("standard output");
            ExitCode::SUCCESS
        }
        Err(refusal) => {
            eprintln!("{refusal}");
            ExitCode::FAILURE
        }
    }
}
