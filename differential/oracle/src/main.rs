//! Answers for one prepared file under rule 1, the one that the Rust has: `oracle [--width W] [--newline N] [--policy P] [--sizes 9 numbers with commas | page]
//! [--work-limit L] [--visit-limit L]`, the file in hexadecimal on standard input. Also `oracle hash NODE COLUMN INDENT`,
//! `oracle slots N`, `oracle present COLUMN:OVERFLOW:BURDEN ...`; and `oracle page`, the program's output (escaped) for its input in
//! hexadecimal, by the model.

use std::io::Read;
use std::process::exit;

use common::{describe, from_hex, to_hex, Answer, Limits, Settings, Sizes};

fn main() {
    // The model recurses as deep as the document nests.
    let run = std::thread::Builder::new().stack_size(1 << 30).spawn(run).expect("a thread");
    exit(run.join().unwrap_or(2));
}

fn usage(message: &str) -> ! {
    eprintln!("oracle: {message}");
    eprintln!(
        "usage: oracle [--width 80] [--newline 1] [--policy 0] [--sizes large | page | most | n,n,n,n,n,n,n,n,n]"
    );
    eprintln!("              [--work-limit n] [--visit-limit n] [--raw] < hexadecimal   (under rule 1, the one that the Rust has)");
    eprintln!("       oracle hash NODE COLUMN INDENT | oracle slots N | oracle present COLUMN:OVERFLOW:BURDEN .. | oracle page < hex");
    exit(2)
}

fn number<T: std::str::FromStr>(text: &str) -> T {
    text.replace('_', "").parse().unwrap_or_else(|_| usage(&format!("not a number here: {text}")))
}

fn sizes(text: &str) -> Sizes {
    match text {
        "large" => return Sizes::LARGE,
        "page" => return Sizes::PAGE,
        "most" => return Sizes::MOST,
        _ => {}
    }
    let list: Vec<u32> = text.split(',').map(number).collect();
    Sizes::of(
        list.try_into()
            .unwrap_or_else(|_| usage("9 sizes: stack, memo, kept, frontier, plans, visit, depth, output, spans")),
    )
}

fn input(raw: bool) -> Vec<u8> {
    let mut input = Vec::new();
    std::io::stdin().read_to_end(&mut input).expect("standard input");
    if raw {
        return input;
    }
    from_hex(&String::from_utf8_lossy(&input)).unwrap_or_else(|| usage("standard input is not hexadecimal"))
}

fn run() -> i32 {
    let arguments: Vec<String> = std::env::args().skip(1).collect();
    let words: Vec<&str> = arguments.iter().map(String::as_str).collect();
    match words.as_slice() {
        ["hash", node, column, indent] => {
            println!("{:016x}", reference::access::memo_hash(number(node), number(column), number(indent)));
            return 0;
        }
        ["page"] => {
            print!("{}", model::page(&input(false)).escape_ascii().to_string().replace("\\n", "\\n\n"));
            return 0;
        }
        ["slots", entries] => {
            println!("{}", reference::access::memo_slots_for(number(entries)).map_or("none".into(), |n| n.to_string()));
            return 0;
        }
        ["present", list @ ..] => {
            let list: Vec<(u32, u128, u64)> = list
                .iter()
                .map(|word| match word.split(':').collect::<Vec<_>>().as_slice() {
                    [column, overflow, burden] => (number(column), number(overflow), number(burden)),
                    _ => usage("a candidate is COLUMN:OVERFLOW:BURDEN"),
                })
                .collect();
            let (survivors, generated, pruned, tree) = reference::access::present_all(&list);
            println!("survivors (by number of presentation, from 0) {survivors:?}");
            println!("generated {generated}, pruned {pruned}");
            println!("tree in pre-order (column, height) {tree:?}");
            return 0;
        }
        _ => {}
    }
    let mut settings = Settings { width: 80, newline_cost: 1, policy: 0, rule: 1 };
    let mut given = Sizes::LARGE;
    let mut limits = Limits::NONE;
    let mut raw = false;
    let mut rest = words.iter();
    while let Some(word) = rest.next() {
        let mut value = || *rest.next().unwrap_or_else(|| usage("a value is missing"));
        match *word {
            "--width" => settings.width = number(value()),
            "--newline" => settings.newline_cost = number(value()),
            "--policy" => settings.policy = number(value()),
            "--sizes" => given = sizes(value()),
            "--work-limit" => limits.work = number(value()),
            "--visit-limit" => limits.visits = number(value()),
            "--raw" => raw = true,
            other => usage(&format!("unknown: {other}")),
        }
    }
    let file = input(raw);
    let modelled = model::answer(&file, &settings, &given, &limits);
    if let Ok(tables) = model::file::read(&file) {
        if matches!(&modelled, Err(refusal) if refusal.number != 1) {
            let (_, trace) = model::render(&tables, &settings, &given, &limits);
            let needs: Vec<String> =
                Sizes::NAMES.iter().zip(trace.needs).map(|(name, need)| format!("{name} {need}")).collect();
            println!("needs, as far as the run came: {}", needs.join(", "));
            if let Some(reason) = trace.reason {
                println!("past its width: {reason:?}");
            }
        }
    }
    let shown = reference_answer(&file, &settings, &given, &modelled);
    match shown {
        None => {
            println!("by the model (the Rust cannot show it)");
            print!("{}", describe(&modelled));
        }
        Some(shown) => {
            println!("by the Rust ({} by the model)", if shown.is_err() { "visits" } else { "needs" });
            print!("{}", describe(&shown));
            if shown != modelled {
                println!("THE MODEL DIFFERS:\n{}", describe(&modelled));
                println!("file {}", to_hex(&file));
                return 1;
            }
        }
    }
    0
}

/// The Rust's answer, where it can show one: not for 1 to 10, 12, 22.
fn reference_answer(file: &[u8], settings: &Settings, sizes: &Sizes, modelled: &Answer) -> Option<Answer> {
    if let Err(refusal) = modelled {
        if refusal.number <= 10 || refusal.number == 12 || refusal.number == 22 {
            return None;
        }
    }
    let tables = model::file::read(file).ok()?;
    let document = reference::access::document(&tables);
    let mut answer = reference::access::render(&document, settings, sizes);
    reference::access::fill_in(&mut answer, modelled);
    Some(answer)
}
