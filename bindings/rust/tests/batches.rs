//! Several files in one call: each gets what single calls in the same order get, on what is then free; and the refusals of the call itself.

use std::fs;
use std::path::Path;

use gannozhi::*;

const SETTINGS: Settings = Settings { width: 24, newline_cost: 3, policy: 0, rule: 1 };
const LIMITS: Limits = Limits { work: 1_000_000, visits: 1_000_000 };

/// One Text `a`: work 2.
const A: &[u8] = b"\x05\x01\0\0\0\x02\0\0\0\x01\x01\x01\0\0\0\x03\x01\0\0\0\x01\0\0\0\x20\x03\x01\0\0\0\x01\0\0\0a";
/// One Text `ab`.
const AB: &[u8] = b"\x05\x01\0\0\0\x02\0\0\0\x01\x01\x01\0\0\0\x03\x01\0\0\0\x01\0\0\0\x20\x03\x02\0\0\0\x02\0\0\0ab";
/// One Empty.
const EMPTY: &[u8] = b"\x05\x01\0\0\0\x01\0\0\0\0\0\x03\x01\0\0\0\x01\0\0\0\x20";
/// Annotate 0 over `a`.
const MARKED: &[u8] =
    b"\x0d\x02\0\0\0\x02\0\0\0\x01\0\0\0\x02\x0a\x01\0\0\0\x01\x01\x01\0\0\0\x03\x01\0\0\0\x01\0\0\0\x20\x03\x01\0\0\0\x01\0\0\0a";

fn sample(name: &str) -> Vec<u8> {
    let path = Path::new(env!("CARGO_MANIFEST_DIR")).join("../../samples").join(format!("{name}.prepared"));
    fs::read(&path).unwrap_or_else(|why| panic!("{}: {why}", path.display()))
}

/// All that a page tells, or the refusal.
type Said = Result<(Vec<u8>, Vec<Span>, u128, u64, Counts, Sizes), Refusal>;

fn said(answer: Result<Page, Refusal>) -> Said {
    answer
        .map(|page| (page.bytes.to_vec(), page.spans().collect(), page.overflow, page.burden, page.counts, page.needs))
}

fn filed(sizes: Sizes, desk: u32, desks: &mut Desks, files: &[&[u8]]) -> Result<Vec<Said>, Refusal> {
    let mut printer = Printer::new(sizes);
    let answers = printer.file_all(desk, desks, files, &SETTINGS, &LIMITS)?;
    Ok(answers.into_iter().map(said).collect())
}

/// By single calls, each with the sizes that the pages before it leave.
fn singly(sizes: Sizes, desk: u32, desks: &mut Desks, files: &[&[u8]]) -> Vec<Said> {
    let mut free = sizes;
    let mut call = |file: &&[u8]| {
        let answer = said(Printer::new(free).render(desk, desks, file, &SETTINGS, &LIMITS));
        if let Ok((bytes, spans, ..)) = &answer {
            free.output -= bytes.len() as u32;
            free.spans -= spans.len() as u32;
        }
        answer
    };
    files.iter().map(&mut call).collect()
}

/// Each page's text, or the refusal's line; and the work.
fn lines(answers: Result<Vec<Said>, Refusal>) -> Result<Vec<(String, u64)>, String> {
    let line = |answer: Said| match answer {
        Ok((bytes, _, _, _, counts, _)) => (String::from_utf8_lossy(&bytes).into_owned(), counts.work),
        Err(refusal) => (refusal.to_string(), refusal.counts.work),
    };
    answers.map(|answers| answers.into_iter().map(line).collect()).map_err(|refusal| {
        assert_eq!(refusal.counts, Counts::default());
        refusal.to_string()
    })
}

fn told(list: &[(&str, u64)]) -> Result<Vec<(String, u64)>, String> {
    Ok(list.iter().map(|(line, work)| (line.to_string(), *work)).collect())
}

#[test]
fn as_ten_words() {
    assert_eq!((size_of::<Counts>(), align_of::<Counts>()), (size_of::<[u64; 10]>(), align_of::<[u64; 10]>()));
}

#[test]
fn as_single_calls_in_order() {
    let names = ["ticket", "annotated", "report-wide", "too-deep", "paragraph", "aligned", "annotated", "short-form"];
    let mut documents: Vec<Vec<u8>> = names.iter().map(|name| sample(name)).collect();
    documents.insert(2, vec![]);
    documents.insert(5, documents[0][..20].to_vec());
    let files: Vec<&[u8]> = documents.iter().map(Vec::as_slice).collect();
    let (mut numbers, mut followed) = (Vec::new(), 0);
    for (output, spans) in [(0, 9), (40, 512), (150, 512), (32_768, 0), (32_768, 4), (32_768, 512)] {
        for allowance in [0, 700, 5_000, u64::MAX] {
            let sizes = Sizes { output, spans, ..Sizes::PAGE };
            let (mut together, mut in_turn) = (Desks::all(allowance), Desks::all(allowance));
            let answers = filed(sizes, 5, &mut together, &files).unwrap();
            assert_eq!(answers, singly(sizes, 5, &mut in_turn, &files));
            assert_eq!(together, in_turn);
            let own: Vec<u32> = answers.iter().map(|answer| answer.as_ref().err().map_or(0, |no| no.number)).collect();
            let short = own.iter().position(|number| matches!(number, 20 | 21));
            followed += u32::from(short.is_some_and(|at| own[at..].contains(&0)));
            numbers.extend(own);
        }
    }
    for number in [0, 2, 12, 20, 21] {
        assert!(numbers.contains(&number), "{number} never came");
    }
    assert!(followed > 0, "no page behind one that had no room");
}

/// A refused document takes no output, and the next is tried; needed is told from its own first byte.
#[test]
fn refused_in_the_middle() {
    let (sizes, mut desks) = (Sizes { output: 2, ..Sizes::PAGE }, Desks::all(100));
    let answers = lines(filed(sizes, 3, &mut desks, &[A, AB, A]));
    assert_eq!(answers, told(&[("a", 2), ("refused 20 output, needed 2", 2), ("a", 2)]));
    assert_eq!((desks.spent, desks.allowance), ([0, 0, 0, 6, 0, 0, 0, 0], [100; 8]));
    let sizes = Sizes { output: 1, ..sizes };
    assert_eq!(lines(filed(sizes, 3, &mut desks, &[A, EMPTY])), told(&[("a", 2), ("", 2)]));
}

/// Refused documents are charged, and those behind them have what is left.
#[test]
fn one_allowance() {
    let mut desks = Desks::all(3);
    let answers = lines(filed(Sizes::PAGE, 0, &mut desks, &[A, A, A]));
    assert_eq!(answers, told(&[("a", 2), ("refused 12 work", 1), ("refused 12 work", 0)]));
    assert_eq!(desks.spent, [3, 0, 0, 0, 0, 0, 0, 0]);
}

/// Positions and parents are those of each document.
#[test]
fn own_spans() {
    let file = sample("annotated");
    let answers = filed(Sizes::PAGE, 0, &mut Desks::all(u64::MAX), &[MARKED, &file, MARKED, &file]).unwrap();
    let spans: Vec<_> = answers.into_iter().map(|answer| answer.unwrap().1).collect();
    assert_eq!(spans[0], [Span { annotation: 0, start: 0, end: 1, parent: None }]);
    assert!(spans[1].iter().any(|span| span.parent == Some(0)));
    assert_eq!(spans[..2], spans[2..]);
}

#[test]
fn refusals_of_the_call() {
    let all = [A; 65];
    let mut desks = Desks::all(200);
    assert_eq!(lines(filed(Sizes::PAGE, 0, &mut desks, &all[..64])), told(&[("a", 2); 64]));
    let before = desks;
    assert_eq!(lines(filed(Sizes::PAGE, 0, &mut desks, &all)), Err("refused 29 documents".into()));
    for files in [&all[..], &all[..2], &[]] {
        assert_eq!(lines(filed(Sizes::PAGE, 8, &mut desks, files)), Err("refused 28 desk".into()));
        let wrong = Settings { width: 0, ..SETTINGS };
        let mut printer = Printer::new(Sizes::PAGE);
        let refused = printer.file_all(8, &mut desks, files, &wrong, &LIMITS).err().unwrap();
        assert_eq!(refused, Refusal { number: 1, needed: 0, counts: Counts::default() });
    }
    assert_eq!(lines(filed(Sizes::PAGE, 0, &mut desks, &[])), told(&[]));
    assert_eq!(desks, before);
}

/// A file that is longer than any is refused as it is by itself.
#[test]
fn a_long_file() {
    let long = [A, &vec![0; 400_000]].concat();
    let answers = lines(filed(Sizes::PAGE, 0, &mut Desks::all(9), &[&long, A]));
    assert_eq!(answers, told(&[("refused 5 surplus", 0), ("a", 2)]));
}

/// What a call on the caller's own slices is lent beside its working memory, and may alter.
#[derive(Clone, Debug, PartialEq)]
struct Own {
    desks: Desks,
    counts: Counts,
    output: Vec<u8>,
    spans: Vec<[u64; 4]>,
    answers: Vec<[u64; 26]>,
}

impl Own {
    /// Dirty, so that what is written shows.
    fn new(output: usize, rows: usize) -> Own {
        Own {
            desks: Desks { allowance: [9; 8], spent: [1, 2, 3, 4, 5, 6, 7, 8] },
            counts: Counts { work: 7, visits: 8, ..Counts::default() },
            output: vec![b'x'; output],
            spans: vec![[7; 4]; 4],
            answers: vec![[u64::MAX; 26]; rows],
        }
    }

    fn file_all(&mut self, desk: u32, files: &[u8], lengths: &[u32], width: u32) -> u32 {
        let sizes = Sizes { output: 2, spans: 4, ..Sizes::PAGE };
        let tables = TableMemory {
            nodes: &mut vec![[0; 8]; 4_096],
            edges: &mut vec![0; 16_384],
            choices: &mut vec![0; 16_384],
            texts: &mut vec![[0; 3]; 4_096],
            bytes: &mut vec![0; 65_536],
        };
        let solver = SolverMemory {
            tasks: &mut [[0; 9]; 512],
            results: &mut [[0; 2]; 512],
            pending: &mut [[0; 7]; 512],
            index: &mut vec![0; memo_slots_for(1_024)],
            entries: &mut [[0; 6]; 1_024],
            kept: &mut [[0; 6]; 1_024],
            frontier: &mut [0; 14 * 256],
            plans: &mut [[0; 3]; 2_048],
            visit: &mut [0; 512],
            depth: &mut [0; 64],
        };
        let Own { desks, counts, output, spans, answers } = self;
        let settings = Settings { width, ..SETTINGS };
        file_all_words(
            desk, desks, counts, files, lengths, &settings, &sizes, &LIMITS, tables, solver, output, spans, answers,
        )
    }
}

/// The size rules, not the slice; a length of 0 is an empty file. The counts are those of the last document.
#[test]
fn on_own_slices() {
    let before = Own::new(100, 5);
    let mut own = before.clone();
    let files = [A, AB, A].concat();
    let lengths = [A.len(), AB.len(), A.len(), 0].map(|length| length as u32);
    assert_eq!(own.file_all(0, &files, &lengths, 24), 0);
    let answers: Vec<_> = own.answers.iter().map(|words| (words[0], words[1], words[2], words[7])).collect();
    assert_eq!(answers[..4], [(0, 0, 1, 2), (20, 2, 0, 2), (0, 0, 1, 2), (2, 0, 0, 0)]);
    assert_eq!((&own.output[..2], &own.output[2..]), (&b"aa"[..], &[b'x'; 98][..]));
    assert_eq!((own.counts, own.desks.spent[0]), (Counts::default(), 7));
    assert_eq!((&own.answers[4], &own.spans), (&before.answers[4], &before.spans));
}

/// Nothing is altered but the counts, and these neither where there is no document.
#[test]
fn refused_on_own_slices() {
    let (files, one) = (A.repeat(65), A.len() as u32);
    for (desk, bytes, documents, rows, width, number) in [
        (0, files.len(), 65, 64, 24, 29),
        (0, files.len(), 65, 63, 24, 1),
        (0, files.len() - 1, 65, 64, 24, 1),
        (8, files.len(), 65, 64, 24, 28),
        (8, files.len(), 65, 64, 0, 1),
        (0, A.len() - 1, 1, 1, 24, 1),
        (0, A.len(), 1, 0, 24, 1),
        (0, A.len(), 0, 0, 24, 0),
        (8, A.len(), 0, 1, 24, 28),
        (0, A.len(), 0, 1, 0, 1),
    ] {
        let mut right = Own::new(2, rows);
        let mut own = right.clone();
        if documents > 0 {
            right.counts = Counts::default();
        }
        assert_eq!(own.file_all(desk, &files[..bytes], &vec![one; documents], width), number);
        assert_eq!(own, right);
    }
    let mut own = Own::new(1, 2);
    assert_eq!(own.file_all(0, A, &[one], 24), 1, "output shorter than its size");
}
