//! The frozen sample: calls with their answers, as lines of text.
//!
//!     case NAME
//!     by rust|model             who gave the answer (the model alone: 1 to 10, 12, 22, rule 2; visits of a refusal are always the model's)
//!     file HEX                  `-` where it is empty
//!     settings WIDTH NEWLINE_COST POLICY RULE
//!     sizes STACK MEMO KEPT FRONTIER PLANS VISIT DEPTH OUTPUT SPANS
//!     limits WORK VISITS
//!     page HEX                  `-` where it is empty; or: refused NUMBER NEEDED
//!     cost OVERFLOW BURDEN      with a page: 32 hexadecimal digits, decimal
//!     span ANNOTATION START END PARENT     with a page, one for each, in order; PARENT is `-` for none
//!     counts WORK FIT_CHECKS HITS MISSES GENERATED PRUNED PEAK_FRONTIER MEMO_ENTRIES PLAN_NODES VISITS
//!     needs STACK MEMO KEPT FRONTIER PLANS VISIT DEPTH OUTPUT SPANS     with a page (the Rust does not tell them: always the model's)
//!     (an empty line)
//!
//! First the fixed cases; then random ones under rule 1, taken in order from the seed's documents until each kind of answer has its share;
//! then random ones under rule 2, from other documents; then, for some of all these pages, calls at exactly their needs and with one of them
//! smaller. All sizes are at most those of the program `page`.

use common::{to_hex, Answer, Limits, Settings, Sizes, Tables};
use generate::files::Profile;
use generate::Rng;

use crate::compare::{counts, number, shown, Call, Tally};
use crate::fixed::{self, Case};
use crate::needs::{smaller, with};

/// How many of each answer: a page, then the refusals 1 to 22, 25 and 26. Rule 2 is nothing to the reader.
const SHARE: [usize; 27] =
    [90, 3, 12, 14, 10, 6, 14, 14, 6, 8, 12, 16, 12, 14, 12, 12, 12, 12, 12, 10, 14, 10, 10, 0, 0, 10, 10];
const SECOND_SHARE: [usize; 27] = [22, 1, 0, 0, 0, 0, 0, 0, 0, 0, 0, 1, 1, 1, 1, 1, 1, 1, 1, 1, 1, 1, 1, 0, 0, 1, 1];
/// The last for rule 2: `test_calls` reads 524,288 bytes at most.
const LONGEST_FILE: [usize; 2] = [420, 200];
/// It takes many Seqs to pass the width of a cost.
const LONGEST_FILE_OF_26: [usize; 2] = [1_400, 900];
const LONGEST_PAGE: usize = 240;
/// What makes another seed of a seed, for the documents under rule 2.
const SECOND: u64 = 1 << 59;

/// How many pages are called again at their needs, and how long their files may be: each takes some 14 calls.
const AT_NEEDS: usize = 20;
const LONGEST_AT_NEEDS: usize = 160;

struct Sample {
    rule: u32,
    left: [usize; 27],
    name: String,
    pages: Vec<Shown>,
}

/// A page of the sample.
struct Shown {
    name: String,
    file: Vec<u8>,
    settings: Settings,
    sizes: Sizes,
    limits: Limits,
    needs: Sizes,
    /// The kinds of the nodes that its root leads to; 12 stands for rule 2.
    kinds: Vec<u8>,
}

pub fn print(seed: u64) {
    let mut pages = Vec::new();
    for case in fixed::cases().iter().filter(|case| case.file.len() <= LONGEST_FILE_OF_26[0]) {
        pages.extend(show(case.name, &case.file, &case.settings, &case.sizes, &case.limits));
    }
    let mut sample = Sample { rule: 1, left: SHARE, name: String::new(), pages };
    random(&mut sample, "random", seed);
    let mut sample = Sample { rule: 2, left: SECOND_SHARE, ..sample };
    random(&mut sample, "rule 2: random", seed ^ SECOND);
    for page in chosen(sample.pages) {
        let Shown { name, file, settings, sizes, limits, needs, .. } = page;
        // Where the page came of just these sizes, there is one of larger sizes.
        let (how, other) = if sizes == needs { ("larger", Sizes::PAGE) } else { ("exactly", needs) };
        show(&format!("needs of {name}, {how}"), &file, &settings, &other, &limits);
        for (kind, size) in smaller(&needs) {
            let name = format!("needs of {name}, {} {size}", Sizes::NAMES[kind]);
            show(&name, &file, &settings, &with(&needs, kind, size), &limits);
        }
    }
}

/// The next is always the one with the most kinds, a kind counting half as much each time that it was had.
fn chosen(mut pages: Vec<Shown>) -> Vec<Shown> {
    pages.retain(|page| page.file.len() <= LONGEST_AT_NEEDS);
    let mut had = [0u32; 13];
    let mut list: Vec<Shown> = Vec::new();
    while list.len() < AT_NEEDS && !pages.is_empty() {
        let worth = |page: &Shown| page.kinds.iter().map(|kind| u64::MAX >> 5 >> had[usize::from(*kind)]).sum::<u64>();
        // The first of the most.
        let best = (0..pages.len()).rev().max_by_key(|at| worth(&pages[*at])).expect("a page");
        let page = pages.remove(best);
        page.kinds.iter().for_each(|kind| had[usize::from(*kind)] += 1);
        list.push(page);
    }
    list
}

fn random(sample: &mut Sample, name: &str, seed: u64) {
    let mut index = 0;
    while sample.left.iter().any(|left| *left > 0) && index < 200_000 {
        sample.name = format!("{name} {index}");
        document(sample, seed, index);
        index += 1;
    }
}

/// A document and its settings; under rule 2 every second one is of lines past a narrow page.
fn drawn(rng: &mut Rng, rule: u32) -> (Tables, Settings) {
    if rule == 2 && rng.chance(2) {
        return (generate::files::tables(rng, Profile::Lines), generate::narrow(rng));
    }
    let (tables, profile) = crate::accepted(rng, &mut Tally::default());
    let settings = generate::settings(rng, profile.is_some_and(|profile| profile.extreme()));
    (tables, Settings { rule, ..settings })
}

fn document(sample: &mut Sample, seed: u64, index: u64) {
    let rng = &mut Rng::of_case(seed, index);
    let (tables, settings) = drawn(rng, sample.rule);
    let file = model::file::bytes(&tables);
    let limits = Limits { work: 20_000, visits: 20_000 };
    if let Some(tables) = crate::ill_texts(seed, index, &tables) {
        let file = model::file::bytes(&tables);
        take(sample, &mut rng.clone(), &file, &settings, &Sizes::PAGE, &limits);
    }
    if rng.chance(4) {
        let file = generate::damage::file(rng, &file);
        let mut settings = settings;
        if rng.chance(20) {
            settings.width = 0;
        }
        take(sample, rng, &file, &settings, &Sizes::PAGE, &limits);
        return;
    }
    if rng.chance(8) {
        let file = model::file::bytes(&generate::damage::tables(rng, &tables));
        take(sample, rng, &file, &settings, &Sizes::PAGE, &limits);
        return;
    }
    let (answer, trace) = model::render(&tables, &settings, &Sizes::PAGE, &limits);
    let mut sizes = Sizes::PAGE;
    let mut limits = limits;
    let exact = |rng: &mut Rng, sizes: &mut Sizes, tables: &Tables| {
        let _ = tables;
        let mut list = trace.needs.map(|need| need as u32);
        let kinds: Vec<usize> = (0..9).filter(|kind| list[*kind] > 0).collect();
        if rng.chance(2) && !kinds.is_empty() {
            list[rng.pick(&kinds)] -= 1;
        }
        *sizes = Sizes::of(list);
    };
    let met = counts(&answer);
    match rng.below(4) {
        0 | 1 if answer.is_ok() => exact(rng, &mut sizes, &tables),
        2 if met.work > 0 => limits.work = met.work - rng.within(0, 1) as u64,
        3 if met.visits > 0 => limits.visits = met.visits - rng.within(0, 1) as u64,
        _ => {}
    }
    take(sample, rng, &file, &settings, &sizes, &limits);
}

/// Prints the call, if its kind of answer still has a share.
fn take(sample: &mut Sample, rng: &mut Rng, file: &[u8], settings: &Settings, sizes: &Sizes, limits: &Limits) {
    let answer = model::answer(file, settings, sizes, limits);
    let small = match &answer {
        // Mostly pages with something on them; under rule 2 mostly something that it charges, and often another page than under rule 1.
        Ok(page) => {
            page.bytes.len() <= LONGEST_PAGE
                && (page.bytes.len() > 6 || rng.chance(6))
                && (sample.rule == 1
                    || rng.chance(if page.overflow > 0 { 8 } else { 60 })
                    || model::answer(file, &Settings { rule: 1, ..*settings }, sizes, limits)
                        .is_ok_and(|other| other.bytes != page.bytes))
        }
        Err(_) => true,
    };
    let number = number(&answer);
    let longest = if number == 26 { LONGEST_FILE_OF_26 } else { LONGEST_FILE }[sample.rule as usize - 1];
    let left = &mut sample.left[number as usize];
    if *left == 0 || !small || file.len() > longest {
        return;
    }
    *left -= 1;
    sample.pages.extend(show(&sample.name, file, settings, sizes, limits));
}

fn dash(text: String) -> String {
    if text.is_empty() {
        "-".to_string()
    } else {
        text
    }
}

/// Prints the call and its answer, and gives it back where it is a page.
fn show(name: &str, file: &[u8], settings: &Settings, sizes: &Sizes, limits: &Limits) -> Option<Shown> {
    let modelled = model::answer(file, settings, sizes, limits);
    let by_rust = shown(settings, &modelled);
    let answer: Answer = if !by_rust {
        modelled
    } else {
        let tables = model::file::read(file).expect("an accepted file");
        let document = reference::access::document(&tables);
        let mut shown = reference::access::render(&document, settings, sizes);
        reference::access::fill_in(&mut shown, &modelled);
        shown
    };
    let words = |list: &[u64]| list.iter().map(u64::to_string).collect::<Vec<_>>().join(" ");
    println!("case {name}");
    println!("by {}", if by_rust { "rust" } else { "model" });
    println!("file {}", dash(to_hex(file)));
    println!("settings {} {} {} {}", settings.width, settings.newline_cost, settings.policy, settings.rule);
    println!("sizes {}", words(&sizes.list().map(u64::from)));
    println!("limits {} {}", limits.work, limits.visits);
    match &answer {
        Ok(page) => {
            println!("page {}", dash(to_hex(&page.bytes)));
            println!("cost {:032x} {}", page.overflow, page.burden);
            for span in &page.spans {
                let parent = span.parent.map_or("-".to_string(), |parent| parent.to_string());
                println!("span {} {} {} {parent}", span.annotation, span.start, span.end);
            }
        }
        Err(refusal) => println!("refused {} {}", refusal.number, refusal.needed),
    }
    println!("counts {}", words(&counts(&answer).list()));
    let needs = answer.ok().map(|page| page.needs);
    if let Some(needs) = needs {
        println!("needs {}", words(&needs.list().map(u64::from)));
    }
    println!();
    let (needs, sizes) = (needs?, *sizes);
    let mut kinds = kinds(&model::file::read(file).expect("an accepted file"));
    kinds.extend((settings.rule == 2).then_some(12));
    let (name, file) = (name.to_string(), file.to_vec());
    Some(Shown { name, file, settings: *settings, sizes, limits: *limits, needs, kinds })
}

/// The kinds of the nodes that the root leads to, each once.
fn kinds(tables: &Tables) -> Vec<u8> {
    let mut reached = vec![false; tables.nodes.len()];
    let mut stack = vec![tables.root];
    while let Some(node) = stack.pop() {
        if !std::mem::replace(&mut reached[node as usize], true) {
            stack.extend(model::file::referred(tables, node as usize));
        }
    }
    let mut kinds: Vec<u8> =
        tables.nodes.iter().zip(reached).filter(|(_, reached)| *reached).map(|(node, _)| node.kind).collect();
    kinds.sort_unstable();
    kinds.dedup();
    kinds
}

/// Inputs of the program `page` and its outputs, by the model: the inputs of docs/DECISIONS.md 29, then random ones; then both for rule 2.
/// Two lines each, `input HEX` and `output HEX`, `-` where it is empty; `input REPEAT n HEX` is n times the byte.
pub fn print_page(seed: u64) {
    let example = "01 50 00 00 00 45 01 00 00 00 02 00 00 00 01 00 00 00 00 01 03 02 00 00 00 02 00 00 00 61 62 03 01 00 00 00 01 00 00 00 20";
    let fixed = [
        example,
        "",
        "00",
        "01 00000000",
        "08",
        "80",
        "01 50",
        "04",
        "01 50000000",
        "02 01000000",
        "03 50000000 0000",
        "03 50000000 00000000",
        "07 03000000 01000000",
        "01 50000000 05 01000000 01000000 0000 03 01000000 01000000 80",
        "01 50000000 05 01000000 02000000 0101 01000000 03 01000000 01000000 20 03 01000000 02000000 c3a9",
        "01 50000000 05 01000000 02000000 0101 01000000 03 01000000 01000000 20 03 01000000 02000000 eda0",
    ];
    let show = |input: &[u8]| {
        println!("input {}\noutput {}\n", dash(to_hex(input)), dash(to_hex(&model::page(input))));
    };
    for input in fixed {
        show(&common::from_hex(input).expect("hexadecimal"));
    }
    let surplus = common::from_hex(&format!("{example} 0a")).expect("hexadecimal");
    show(&surplus);
    // 11, 25 and 26.
    let past = ["17: 11 before 12", "Nest 1 over Nest 2^32-1", "26: burden doubled 33 times"];
    for case in fixed::cases().iter().filter(|case| past.contains(&case.name)) {
        let Case { file, settings, sizes, limits, .. } = case;
        show(&Call { file, settings: *settings, sizes: *sizes, limits: *limits }.input());
    }
    for length in [32_768usize, 32_769] {
        println!("input REPEAT {length} 00\noutput {}\n", to_hex(&model::page(&vec![0; length])));
    }
    let short = |input: &Vec<u8>| input.len() <= LONGEST_FILE[0] && model::page(input).len() <= 2 * LONGEST_PAGE;
    for input in (0..).map(|index| page_input(seed, index, 1)).filter(short).take(60) {
        show(&input);
    }
    for input in ["10", "0c", "09 50000000"] {
        show(&common::from_hex(input).expect("hexadecimal"));
    }
    // `abc`; and one line or two, by the rule.
    show(&[&[9, 1, 0, 0, 0], &fixed::abc()[..]].concat());
    for map in [1, 9] {
        show(&[&[map, 1, 0, 0, 0], &fixed::one_or_two()[..]].concat());
    }
    let charged = |input: &Vec<u8>| {
        let output = model::page(input);
        let overflow = output.split(|byte| *byte == b' ').nth(2);
        overflow.is_some_and(|digits| digits.iter().any(|digit| *digit != b'0'))
    };
    let inputs = (0..).map(|index| page_input(seed ^ SECOND, index, 2)).filter(short);
    for input in inputs.enumerate().filter(|(at, input)| at % 20 == 0 || charged(input)).take(8) {
        show(&input.1);
    }
}

/// A setting and a document, one in four damaged.
fn page_input(seed: u64, index: u64, rule: u32) -> Vec<u8> {
    let rng = &mut Rng::of_case(seed, index);
    let (tables, settings) = drawn(rng, rule);
    let file = &model::file::bytes(&tables);
    let input = Call { file, settings, sizes: Sizes::PAGE, limits: Limits::PAGE }.input();
    if rng.chance(4) {
        generate::damage::file(rng, &input)
    } else {
        input
    }
}
