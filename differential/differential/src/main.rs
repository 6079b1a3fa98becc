//! `differential --seed S --cases N`: random files on the model, the reference, brute force and our library (`--document I`: the one
//! document of that number again).
//! `differential exhaustive --nodes N`: all documents of up to N nodes over a small alphabet, all Choices of two blocks of lines, all files one
//! byte away from a few, all pairs and texts.
//! `differential pairs`: every map byte beside every kind byte.
//! `differential texts`: all texts of up to 2 bytes, and of 3 and 4 over the bytes where the rule of texts changes.
//! `differential reports --seed S --steps N`: random sequences of steps of live reports (`--sequence I`: the one sequence of that number
//! again; `--stand-in`: not on the library). `reports impostors`: each impostor of the stand-in must be found. `reports dear`: rows whose costs
//! together come past their width.
//! `differential desks --seed S --calls N`: random sequences of calls and steps for desks (`--sequence I`, `--stand-in` as above). `desks
//! impostors`: each impostor of the stand-in must be found.
//! `differential batches --seed S --batches N`: random batches, several files in one call (`--sequence I`: the one batch of that number again;
//! `--stand-in` as above). `batches impostors`: each impostor of the stand-in must be found.
//! `differential report --rows N --seed S`: prints the file of a report of N rows, made by prepare.rs, in hexadecimal.
//! `differential bench`: times of ours and of the reference on the same files; `--part P --rows N --width W --times T` does one part of the
//! work T times and prints nothing, for a count of instructions (see bench.rs).
//! `differential greatest --seed S --cases N`: calls at the greatest sizes, on reserved address space (`--page`: also one whose page has
//! 2^32 - 1 bytes and takes that much memory).
//! `differential sample --seed S` and `differential sample-page --seed S`: print a frozen sample (see sample.rs).

mod batches;
mod batches_fixed;
#[cfg(feature = "ours")]
mod bench;
mod compare;
mod desks;
mod desks_fixed;
mod exhaustive;
mod fixed;
#[cfg(feature = "ours")]
mod greatest;
mod memory;
mod needs;
mod ours;
mod pairs;
mod reports;
mod reports_fixed;
mod sample;
mod shrink;
mod standin;
mod texts;

use std::time::Instant;

use common::{Limits, Settings, Sizes, Tables};
use compare::{in_order, number, Call, Comparer, LIMITS, PROBE};
use generate::files::Profile;
use generate::Rng;

fn main() {
    // The model recurses as deep as the document nests.
    let run = std::thread::Builder::new().stack_size(1 << 30).spawn(run).expect("a thread");
    std::process::exit(run.join().unwrap_or(2));
}

fn run() -> i32 {
    let arguments: Vec<String> = std::env::args().skip(1).collect();
    let value = |name: &str| {
        let at = arguments.iter().position(|word| word == name)?;
        arguments.get(at + 1)?.replace('_', "").parse::<u64>().ok()
    };
    let seed = value("--seed").unwrap_or(1);
    match arguments.first().map(String::as_str) {
        Some("sample") => {
            sample::print(seed);
            return 0;
        }
        Some("reports") => {
            let stand_in = arguments.iter().any(|word| word == "--stand-in");
            return match arguments.get(1).map(String::as_str) {
                Some("impostors") => reports::impostors(seed, value("--steps").unwrap_or(20_000)),
                Some("dear") => reports::dear(stand_in),
                _ => reports::run(seed, value("--steps").unwrap_or(10_000), value("--sequence"), stand_in),
            };
        }
        Some("desks") => {
            let (stand_in, calls) = (arguments.iter().any(|word| word == "--stand-in"), value("--calls"));
            return match arguments.get(1).map(String::as_str) {
                Some("impostors") => desks::impostors(seed, calls.unwrap_or(20_000)),
                _ => desks::run(seed, calls.unwrap_or(10_000), value("--sequence"), stand_in),
            };
        }
        Some("batches") => {
            let (stand_in, batches) = (arguments.iter().any(|word| word == "--stand-in"), value("--batches"));
            return match arguments.get(1).map(String::as_str) {
                Some("impostors") => batches::impostors(seed, batches.unwrap_or(20_000)),
                _ => batches::run(seed, batches.unwrap_or(10_000), value("--sequence"), stand_in),
            };
        }
        Some("report") => {
            let report = generate::source::report(&mut Rng::new(seed), value("--rows").unwrap_or(200) as usize);
            let tables = reference::access::tables(&report.prepare().expect("a report can be prepared"));
            println!("{}", common::to_hex(&model::file::encode(&tables).expect("within the file's limits")));
            return 0;
        }
        #[cfg(feature = "ours")]
        Some("bench") => {
            match value("--part") {
                Some(part) => bench::part(part, value("--rows"), value("--width"), value("--times").unwrap_or(1)),
                None => bench::table(),
            }
            return 0;
        }
        #[cfg(feature = "ours")]
        Some("greatest") => {
            let whole_page = arguments.iter().any(|word| word == "--page");
            return greatest::run(seed, value("--cases").unwrap_or(500), whole_page);
        }
        Some("sample-page") => {
            sample::print_page(seed);
            return 0;
        }
        _ => {}
    }
    let cases = value("--cases").unwrap_or(10_000);
    let only = value("--document");
    let start = Instant::now();
    let mut shown = 0;
    let mut comparer = Comparer { tally: Default::default(), ours: ours::linked() };
    let mut progress = |comparer: &Comparer, of: &str| {
        let seconds = start.elapsed().as_secs();
        if seconds > shown {
            shown = seconds;
            let tally = &comparer.tally;
            eprint!("\r{}{of} cases, {} differences, {seconds} s  ", tally.cases, tally.differences);
        }
    };
    fixed_cases(&mut comparer);
    let mut so_far = |comparer: &Comparer| progress(comparer, "");
    let all = match arguments.first().map(String::as_str) {
        Some("exhaustive") => {
            let nodes = value("--nodes").unwrap_or(3) as usize;
            exhaustive::run(&mut comparer, nodes, &mut so_far);
            Some(format!(
                "all documents of up to {nodes} nodes; all choices of two blocks of lines; all files one byte away from, or cut out of, the fixed ones; all pairs of map and kind; all short texts"
            ))
        }
        Some("pairs") => {
            pairs::run(&mut comparer, &mut so_far);
            Some("all pairs of map and kind".to_string())
        }
        Some("texts") => {
            texts::run(&mut comparer, &mut so_far);
            Some("all short texts".to_string())
        }
        _ => None,
    };
    if let Some(all) = all {
        eprintln!();
        println!("{all}");
        report(&comparer, seed, start);
        return i32::from(comparer.tally.differences > 0);
    }
    let of = format!(" of {cases}");
    let mut index = only.unwrap_or(0);
    let last = if only.is_some() { index } else { u64::MAX };
    while comparer.tally.cases < cases && index <= last {
        let before = comparer.tally.differences;
        document(&mut comparer, seed, index);
        if comparer.tally.differences > before {
            println!("(that was --seed {seed} --document {index})");
        }
        if comparer.tally.differences >= 20 {
            println!("stopped: enough differences");
            break;
        }
        progress(&comparer, &of);
        index += 1;
    }
    eprintln!();
    report(&comparer, seed, start);
    i32::from(comparer.tally.differences > 0)
}

fn report(comparer: &Comparer, seed: u64, start: Instant) {
    let tally = &comparer.tally;
    println!(
        "seed {seed}: {} cases of {} documents in {:.1} s",
        tally.cases,
        tally.documents,
        start.elapsed().as_secs_f64()
    );
    println!(
        "by the reference {}, by our library {}",
        tally.by_reference,
        if comparer.ours.is_some() { tally.cases } else { 0 }
    );
    if let Some(ours) = &comparer.ours {
        println!("{}", ours.tally());
    }
    let [past, enumerated, other] = tally.second_pages;
    println!(
        "under rule 2 {}, of these pages with an overflow {past}, pages enumerated {enumerated}; pages other than those of rule 1 {other}; calls with a rule that is none {}",
        tally.second_rule, tally.no_rule
    );
    let answers: Vec<String> = (0..tally.answers.len())
        .filter(|number| tally.answers[*number] > 0)
        .map(|number| {
            format!("{}: {}", if number == 0 { "page".to_string() } else { number.to_string() }, tally.answers[number])
        })
        .collect();
    println!("answers {}", answers.join(", "));
    println!(
        "enumerated {} ({} layouts, {} with a tie for the least cost)",
        tally.enumerated, tally.layouts, tally.ties
    );
    println!(
        "documents made by prepare.rs {} (with {} choice lists), damaged files {}, pairs of map and kind {}, overflow past 2^64 {}, limits just met and just missed {}",
        tally.prepared,
        tally.prepared_lists,
        tally.damaged,
        tally.pairs,
        tally.past_64,
        tally.limit_checks
    );
    println!(
        "needs: pages {}, by the reference {}; calls with one size smaller {}, by the reference {}",
        tally.needs[0], tally.needs[1], tally.smaller[0], tally.smaller[1]
    );
    println!(
        "texts {}, with bytes above 127: well formed {}, ill {}; files with a text damaged {}",
        tally.texts, tally.wide_texts[0], tally.wide_texts[1], tally.ill
    );
    println!(
        "11, 25, 26 by reason: column {}, indent {}, overflow {}, burden {}; documents near the end of a width {}, of lines past a narrow page {}; largest frontier {}; frontiers presented alone {}",
        tally.reasons[0], tally.reasons[1], tally.reasons[2], tally.reasons[3], tally.near, tally.narrow, tally.peak_frontier, tally.presented
    );
    println!(
        "writer's refusals 3, 4, 6 to 10: {:?}",
        [3, 4, 6, 7, 8, 9, 10].map(|number| tally.writer_refusals[number])
    );
    println!("differences {}", tally.differences);
}

/// The fixed cases, on the model and on the reference, against what each must give.
fn fixed_cases(comparer: &mut Comparer) {
    for case in fixed::cases() {
        let call = Call { file: &case.file, settings: case.settings, sizes: case.sizes, limits: case.limits };
        let tables = comparer.read(&case.file).ok().filter(|_| in_order(&case.settings));
        let document = tables.as_ref().map(reference::access::document);
        let answer = comparer.call(&call, tables.as_ref().zip(document.as_ref()));
        let met = match (&answer, &case.want) {
            (Ok(page), fixed::Want::Page(bytes, overflow, burden, work)) => {
                page.bytes == bytes.as_bytes()
                    && page.overflow == *overflow
                    && page.burden == *burden
                    && work.is_none_or(|work| work == page.counts.work)
            }
            (Ok(page), fixed::Want::Needs(bytes, peak, needs)) => {
                page.bytes == bytes.as_bytes() && page.counts.peak_frontier == *peak && page.needs.list() == *needs
            }
            (Err(refusal), fixed::Want::Refused(number, needed, work)) => {
                refusal.number == *number
                    && refusal.needed == *needed
                    && work.is_none_or(|work| work == refusal.counts.work)
            }
            _ => false,
        };
        if !met {
            comparer.difference(case.name, &call, &common::describe(&answer), "not as it must be");
        }
        if let Some(both) = tables.as_ref().zip(document.as_ref()) {
            needs::run(comparer, &mut Rng::new(comparer.tally.cases), &call, both, &answer);
        }
        if case.sizes == Sizes::PAGE {
            comparer.page_cut_short(&call);
        }
    }
}

/// A random accepted document, as tables.
pub fn accepted(rng: &mut Rng, tally: &mut compare::Tally) -> (Tables, Option<Profile>) {
    if rng.chance(5) {
        let source = if rng.chance(20) {
            let rows = rng.within(1, 30) as usize;
            generate::source::report(rng, rows)
        } else {
            generate::source::document(rng)
        };
        if let Ok(prepared) = source.prepare() {
            tally.prepared += 1;
            let tables = reference::access::tables(&prepared);
            tally.prepared_lists += tables.nodes.iter().filter(|node| node.choice_length > 0).count() as u64;
            return (tables, None);
        }
    }
    let profile = rng.pick(&Profile::ALL);
    (generate::files::tables(rng, profile), Some(profile))
}

/// For one document in thirty its tables with a text that is most often no UTF-8. It has a generator of its own, so the others go on as without it.
pub fn ill_texts(seed: u64, index: u64, tables: &Tables) -> Option<Tables> {
    let mut rng = Rng::of_case(!seed, index);
    rng.chance(30).then(|| generate::damage::texts(&mut rng, tables))
}

fn document(comparer: &mut Comparer, seed: u64, index: u64) {
    let mut rng = Rng::of_case(seed, index);
    let rng = &mut rng;
    let rule = generate::rule(seed, index);
    comparer.tally.documents += 1;
    comparer.present(rng);
    if rng.chance(300) {
        let tables = generate::bounds::tables(rng);
        refused_alike(comparer, &tables);
        let settings = Settings { rule, ..generate::settings(rng, false) };
        damaged_file(
            comparer,
            &Call { file: &model::file::bytes(&tables), settings, sizes: Sizes::PAGE, limits: LIMITS },
        );
    }
    let (tables, profile) = accepted(rng, &mut comparer.tally);
    let settings = Settings { rule, ..generate::settings(rng, profile.is_some_and(Profile::extreme)) };
    let file = model::file::encode(&tables).expect("generated tables have the form");
    let call = Call { file: &file, settings, sizes: PROBE, limits: LIMITS };
    match comparer.read(&file) {
        Ok(read) if read == tables => {}
        other => comparer.difference("read after write", &call, &format!("{other:?}"), &format!("{tables:?}")),
    }
    writer(comparer, &call, &tables);
    if rng.chance(4) {
        damaged(comparer, rng, &call, &tables);
    }
    if let Some(tables) = ill_texts(seed, index, &tables) {
        comparer.tally.ill += 1;
        refused_alike(comparer, &tables);
        damaged_file(comparer, &Call { file: &model::file::bytes(&tables), sizes: Sizes::PAGE, ..call });
    }
    calls(comparer, rng, &call, &tables);
    near_the_end(comparer, seed, index);
    narrow(comparer, seed, index);
    no_rule(comparer, seed, index, &call);
}

/// For one document in ten another one, of lines past a narrow page, under rule 2. It has a generator of its own, so the others go on as
/// without it.
fn narrow(comparer: &mut Comparer, seed: u64, index: u64) {
    let mut rng = Rng::of_case(seed ^ 1 << 60, index);
    if !rng.chance(10) {
        return;
    }
    comparer.tally.narrow += 1;
    let tables = generate::files::tables(&mut rng, Profile::Lines);
    let settings = generate::narrow(&mut rng);
    let file = model::file::encode(&tables).expect("generated tables have the form");
    calls(comparer, &mut rng, &Call { file: &file, settings, sizes: PROBE, limits: LIMITS }, &tables);
}

/// For one document in thirty a call with a rule that is none, which is 1 before the file is looked at: every second one is cut short. It has
/// a generator of its own, so the others go on as without it.
fn no_rule(comparer: &mut Comparer, seed: u64, index: u64, call: &Call) {
    let mut rng = Rng::of_case(seed ^ 1 << 61, index);
    if !rng.chance(30) {
        return;
    }
    comparer.tally.no_rule += 1;
    let rule = match rng.below(3) {
        0 => 0,
        1 => rng.pick(&[3, 4, 257, 258, 1 << 31, u32::MAX]),
        _ => rng.within(3, u32::MAX),
    };
    let settings = Settings { rule, ..call.settings };
    let file = &call.file[..if rng.chance(2) { rng.index(call.file.len()) } else { call.file.len() }];
    let call = Call { file, settings, sizes: Sizes::PAGE, ..*call };
    let answer = comparer.call(&call, None);
    if answer != Err(common::Refusal::early(1)) {
        comparer.difference("no rule", &call, &common::describe(&answer), "");
    }
}

/// For one document in ten another one, in which something comes near the end of its width. It has a generator of its own, so the others
/// go on as without it.
fn near_the_end(comparer: &mut Comparer, seed: u64, index: u64) {
    let mut rng = Rng::of_case(seed ^ 1 << 63, index);
    if !rng.chance(10) {
        return;
    }
    comparer.tally.near += 1;
    let rule = generate::rule(seed ^ 1 << 63, index);
    let tables = generate::files::tables(&mut rng, Profile::Near(rule));
    let mut settings = Settings { rule, ..generate::settings(&mut rng, true) };
    if rng.chance(2) {
        // Or the burden of so many newlines passes its width before their overflow.
        settings.newline_cost = 0;
    }
    let file = model::file::encode(&tables).expect("generated tables have the form");
    calls(comparer, &mut rng, &Call { file: &file, settings, sizes: PROBE, limits: LIMITS }, &tables);
}

/// An accepted file with sizes and limits about its needs.
fn calls(comparer: &mut Comparer, rng: &mut Rng, call: &Call, tables: &Tables) {
    let reference = reference::access::document(tables);
    let both = Some((tables, &reference));
    // Without the reference: what is needed, as far as the limits let it come.
    let (probe, trace) = model::render(tables, &call.settings, &PROBE, &LIMITS);
    let exact = Sizes::of(trace.needs.map(|need| need.min(u64::from(u32::MAX)) as u32));
    if let Ok(page) = &probe {
        comparer.tally.past_64 += u64::from(page.overflow >> 64 > 0);
        // Of a copy of the generator, so that what follows is drawn as without it.
        let rng = &mut rng.clone();
        needs::run(comparer, rng, call, (tables, &reference), &probe);
        if call.settings.rule == 2 {
            let first = Call { settings: Settings { rule: 1, ..call.settings }, ..*call };
            let (other, _) = model::render(tables, &first.settings, &PROBE, &LIMITS);
            comparer.other_page(&probe, &other);
            // Under rule 1 too, where the reference answers.
            needs::run(comparer, rng, &first, (tables, &reference), &other);
        }
    }
    if number(&probe) == 12 {
        // Too much work for a run to the end: only sizes that stop it before.
        for _ in 0..3 {
            let sizes = Sizes::of(exact.list().map(|size| rng.within(0, size / 2)));
            let _ = comparer.call(&Call { sizes, ..*call }, both);
        }
        return;
    }
    // Too many visits: the reference has no limit for them, so it is stopped at the first.
    let exact = if number(&probe) == 22 { Sizes { visit: 0, ..exact } } else { exact };
    let answer = comparer.call(&Call { sizes: exact, ..*call }, both);
    if answer != probe && !matches!(number(&probe), 20 | 22) {
        comparer.difference("the same at exact sizes", call, &format!("{answer:?}"), &format!("{probe:?}"));
    }
    comparer.enumerate(call, tables, &answer);
    // One below, at, one above the need of one kind or of several.
    let kinds: Vec<usize> = (0..9).filter(|kind| exact.list()[*kind] > 0).collect();
    for _ in 0..3 {
        let mut list = exact.list();
        let kind = rng.pick(&kinds);
        list[kind] -= 1;
        let _ = comparer.call(&Call { sizes: Sizes::of(list), ..*call }, both);
    }
    if kinds.len() > 1 {
        let mut list = exact.list();
        for _ in 0..2 {
            let kind = rng.pick(&kinds);
            list[kind] = list[kind].saturating_sub(1);
        }
        let _ = comparer.call(&Call { sizes: Sizes::of(list), ..*call }, both);
    }
    let list = exact.list().map(|size| (size + rng.within(0, 2)).saturating_sub(rng.chance(6) as u32));
    let _ = comparer.call(&Call { sizes: Sizes::of(list), ..*call }, both);
    let list = exact.list().map(|size| if rng.chance(3) { rng.within(0, size) } else { size + rng.within(0, 1) });
    let _ = comparer.call(&Call { sizes: Sizes::of(list), ..*call }, both);
    if rng.chance(3) {
        comparer.page(call);
        let _ = comparer.call(&Call { sizes: Sizes::PAGE, ..*call }, both);
    }
    limits(comparer, rng, &Call { sizes: exact, ..*call }, both, &answer);
}

/// The writer gives the file, and needs exactly its length.
fn writer(comparer: &mut Comparer, call: &Call, tables: &Tables) {
    let length = call.file.len() as u64;
    let exactly = comparer.write(tables, length);
    if exactly.as_deref() != Ok(call.file) {
        comparer.difference("written file", call, &format!("{exactly:?}"), "");
    }
    let short = comparer.write(tables, length - 1);
    if short != Err(model::file::WriteRefusal { number: 20, needed: length }) {
        comparer.difference("written short", call, &format!("{short:?}"), "");
    }
}

fn damaged(comparer: &mut Comparer, rng: &mut Rng, call: &Call, tables: &Tables) {
    let file = match rng.below(3) {
        0 => {
            let tables = generate::damage::tables(rng, tables);
            refused_alike(comparer, &tables);
            model::file::bytes(&tables)
        }
        _ => generate::damage::file(rng, call.file),
    };
    comparer.tally.damaged += 1;
    let mut settings = call.settings;
    match rng.below(12) {
        0 => settings.width = 0,
        1 => settings.policy = rng.pick(&[2, 3, u32::MAX]),
        _ => {}
    }
    damaged_file(comparer, &Call { file: &file, sizes: Sizes::PAGE, settings, ..*call });
}

/// The writer's verdict on any tables is the reader's on their bytes.
fn refused_alike(comparer: &mut Comparer, tables: &Tables) {
    let file = model::file::bytes(tables);
    let written = comparer.write(tables, 1 << 20);
    let read = model::file::read(&file);
    if let Err(refusal) = &written {
        comparer.tally.writer_refusals[refusal.number as usize] += 1;
    }
    if written.as_ref().map_err(|refusal| refusal.number).map(|_| ())
        != read.as_ref().map(|_| ()).map_err(|number| *number)
    {
        comparer.tally.differences += 1;
        println!("DIFFERENCE: writer, reader\n{}\n{written:?}\n{read:?}", common::to_hex(&file));
    }
}

/// A damaged file is refused, or it is another accepted file: then it is the one that its tables write, and the reference answers.
fn damaged_file(comparer: &mut Comparer, call: &Call) {
    let read = comparer.read(call.file);
    let (Ok(tables), true) = (&read, in_order(&call.settings)) else {
        let _ = comparer.call(call, None);
        return;
    };
    let again = comparer.write(tables, call.file.len() as u64);
    if again.as_deref() != Ok(call.file) {
        comparer.difference("write after read", call, &format!("{again:?}"), "");
    }
    let _ = comparer.call(call, Some((tables, &reference::access::document(tables))));
}

/// The work and visit limits, on the model (the reference has none) and on ours: just met, just missed.
fn limits(
    comparer: &mut Comparer,
    rng: &mut Rng,
    call: &Call,
    both: Option<(&Tables, &reference::access::Document)>,
    answer: &common::Answer,
) {
    if !rng.chance(4) {
        return;
    }
    comparer.tally.limit_checks += 1;
    let counts = compare::counts(answer);
    let met = Limits { work: counts.work, visits: counts.visits };
    if number(answer) != 22 && comparer.call(&Call { limits: met, ..*call }, both) != *answer {
        comparer.difference("limits just met", call, &format!("{answer:?}"), "");
    }
    if counts.work > 0 {
        let missed = comparer.call(&Call { limits: Limits { work: counts.work - 1, ..met }, ..*call }, None);
        if number(&missed) != 12 || compare::counts(&missed).work != counts.work - 1 {
            comparer.difference("work limit just missed", call, &format!("{answer:?}"), &format!("{missed:?}"));
        }
    }
    if counts.visits > 0 {
        let missed = comparer.call(&Call { limits: Limits { visits: counts.visits - 1, ..met }, ..*call }, None);
        if number(&missed) != 22 || compare::counts(&missed).visits != counts.visits - 1 {
            comparer.difference("visit limit just missed", call, &format!("{answer:?}"), &format!("{missed:?}"));
        }
    }
    let random = Limits { work: rng.below(counts.work + 1), visits: rng.below(counts.visits + 1) };
    let _ = comparer.call(&Call { limits: random, ..*call }, None);
}
