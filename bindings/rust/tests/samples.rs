//! Every sample of ../../samples: its files fit together, and the library gives its page, its spans and its bytes again.

use std::collections::BTreeSet;
use std::fs;
use std::path::{Path, PathBuf};

use gannozhi::{
    read_lent, write_lent, Desks, FileTables, Limits, Page, Printer, Refusal, Settings, Sizes, TableMemory,
};

struct Sample {
    name: String,
    input: Vec<u8>,
    prepared: Vec<u8>,
    page: Vec<u8>,
    /// Empty where there is no such file.
    spans: String,
}

fn folder() -> PathBuf {
    Path::new(env!("CARGO_MANIFEST_DIR")).join("../../samples")
}

/// Whatever has a file in the folder, README.md apart, is a sample and has its three files.
fn samples() -> Vec<Sample> {
    let mut names = BTreeSet::new();
    for entry in fs::read_dir(folder()).expect("the folder") {
        let file = entry.expect("a file").file_name().into_string().expect("a name");
        let (name, ending) = file.split_once('.').expect("an ending");
        assert!(["input", "prepared", "page", "spans"].contains(&ending) || file == "README.md", "{file}");
        names.insert(name.to_string());
    }
    names.remove("README");
    assert!(!names.is_empty());
    names.into_iter().map(sample).collect()
}

fn sample(name: String) -> Sample {
    let path = |ending: &str| folder().join(format!("{name}.{ending}"));
    let bytes = |ending: &str| fs::read(path(ending)).unwrap_or_else(|why| panic!("{name}.{ending}: {why}"));
    let spans = if path("spans").exists() { String::from_utf8(bytes("spans")).expect("text") } else { String::new() };
    Sample { input: bytes("input"), prepared: bytes("prepared"), page: bytes("page"), spans, name }
}

/// The setting in front of an input (docs/RULE.md, part 5), and the file behind it.
fn setting(input: &[u8]) -> (Settings, &[u8]) {
    let (&map, mut rest) = input.split_first().expect("a map byte");
    assert!(map < 16);
    let mut field = |bit| {
        if map & bit == 0 {
            return 0;
        }
        let (word, behind) = rest.split_first_chunk().expect("a field");
        rest = behind;
        u32::from_le_bytes(*word)
    };
    let (width, newline_cost) = (field(1), field(2));
    let (policy, rule) = (u32::from(map >> 2 & 1), 1 + u32::from(map >> 3));
    (Settings { width, newline_cost, policy, rule }, rest)
}

/// What the program `page` writes.
fn written(answer: &Result<Page, Refusal>) -> Vec<u8> {
    match answer {
        Ok(page) => {
            let [work, spans] = [page.counts.work, page.spans().len() as u64];
            let line = format!("page {work} {:032x} {} {spans}\n", page.overflow, page.burden);
            [line.as_bytes(), page.bytes, b"\n"].concat()
        }
        Err(refusal) => format!("refused {}\n", refusal.number).into_bytes(),
    }
}

#[test]
fn input_is_setting_and_file() {
    let readme = fs::read_to_string(folder().join("README.md")).expect("README.md");
    for Sample { name, input, prepared, .. } in samples() {
        let (Settings { width, newline_cost, policy, rule }, file) = setting(&input);
        assert!(file == prepared, "{name}");
        let row = format!("| `{name}` | {width} {newline_cost} {policy} {rule} |");
        assert!(readme.contains(&row), "{row} in README.md");
    }
}

#[test]
fn page_and_spans() {
    let mut printer = Printer::new(Sizes::PAGE);
    let (mut refused, mut within, mut second) = (0, 0, 0);
    for Sample { name, input, prepared, page, spans } in samples() {
        let limits = Limits { work: 1_000_000, visits: 1_000_000 };
        let settings = setting(&input).0;
        let answer = printer.render(0, &mut Desks::all(u64::MAX), &prepared, &settings, &limits);
        assert!(written(&answer) == page, "{name}: {}", String::from_utf8_lossy(&written(&answer)));
        let list: Vec<_> = answer.iter().flat_map(Page::spans).collect();
        assert_eq!(list.iter().map(|span| format!("{span}\n")).collect::<String>(), spans, "{name}");
        refused += usize::from(answer.is_err());
        second += usize::from(settings.rule == 2 && answer.is_ok_and(|page| page.overflow > 0));
        within += list.iter().filter(|span| span.parent.is_some()).count();
    }
    assert!(refused > 0 && within > 0, "a sample is refused, and one has a span within a span");
    assert!(second > 0, "a sample's page is charged under rule 2");
}

/// The sizes that a page tells just suffice: lent exactly these, the same answer comes, and with one of them smaller it is refused by that
/// kind's number.
#[test]
fn needs() {
    let limits = Limits { work: 1_000_000, visits: 1_000_000 };
    // What comes under these sizes: all of a page, or the refusal.
    let answer = |sizes: Sizes, file: &[u8], settings: &Settings| {
        let mut printer = Printer::new(sizes);
        let answer = printer.render(0, &mut Desks::all(u64::MAX), file, settings, &limits);
        let bytes = written(&answer);
        answer.map(|page| (bytes, page.spans().collect::<Vec<_>>(), page.counts, page.needs))
    };
    let mut smaller = 0;
    for Sample { name, input, prepared, .. } in samples() {
        let settings = setting(&input).0;
        let Ok(page) = answer(Sizes::PAGE, &prepared, &settings) else { continue };
        let needs = page.3.list();
        assert_eq!(answer(Sizes::of(needs), &prepared, &settings), Ok(page), "{name}");
        for kind in 0..9 {
            let mut below = vec![0, needs[kind].saturating_sub(1)];
            below.dedup();
            for size in below.into_iter().filter(|size| *size < needs[kind]) {
                let mut less = needs;
                less[kind] = size;
                let refused = answer(Sizes::of(less), &prepared, &settings).unwrap_err();
                assert_eq!(refused.number, 13 + kind as u32, "{name}: {refused} at {less:?}");
                assert!((size + 1..=needs[kind]).contains(&(refused.needed as u32)), "{name}: {refused} at {less:?}");
                smaller += 1;
            }
        }
    }
    assert!(smaller > 100);
}

#[test]
fn read_and_written_again() {
    let (mut nodes, mut texts) = (vec![[0; 8]; 4_096], vec![[0; 3]; 4_096]);
    let (mut edges, mut choices, mut bytes) = (vec![0; 16_384], vec![0; 16_384], vec![0; 65_536]);
    for Sample { name, prepared, .. } in samples() {
        let (nodes, edges, choices, texts, bytes) = (&mut nodes, &mut edges, &mut choices, &mut texts, &mut bytes);
        let counts = read_lent(&prepared, TableMemory { nodes, edges, choices, texts, bytes }).expect(&name);
        let tables = FileTables { counts: counts.into(), nodes, edges, choices, texts, bytes };
        let mut out = vec![0; prepared.len()];
        assert_eq!(write_lent(tables, &mut out), Ok(prepared.len()), "{name}");
        assert!(out == prepared, "{name}");
        out.pop();
        assert_eq!(write_lent(tables, &mut out), Err((20, prepared.len())), "{name}");
    }
}
