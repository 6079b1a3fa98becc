//! Live reports: rows of the samples come and go, every page on the way is their pages one below the other, and each refusal leaves the report
//! as it was.

use std::fs;
use std::path::Path;

use gannozhi::*;

const SETTINGS: Settings = Settings { width: 24, newline_cost: 3, policy: 0, rule: 1 };
const LIMITS: Limits = Limits { work: 1_000_000, visits: 1_000_000 };
const MOST: Sizes = Sizes { output: 1 << 20, spans: 1 << 14, ..Sizes::PAGE };

/// Every desk may do anything.
fn all() -> Desks {
    Desks::all(u64::MAX)
}

fn sample(name: &str) -> Vec<u8> {
    let path = Path::new(env!("CARGO_MANIFEST_DIR")).join("../../samples").join(format!("{name}.prepared"));
    fs::read(&path).unwrap_or_else(|why| panic!("{}: {why}", path.display()))
}

/// A file of one Text.
fn text(text: &str) -> Vec<u8> {
    let word = |number: usize| u32::to_le_bytes(number as u32);
    let mut file = vec![5, 1, 0, 0, 0, 2, 0, 0, 0, 1, 1, 1, 0, 0, 0, 3, 1, 0, 0, 0, 1, 0, 0, 0, 32];
    if text.is_empty() {
        file.push(0);
    } else {
        file.extend([&[3], &word(text.len())[..], &word(text.len()), text.as_bytes()].concat());
    }
    file
}

type Whole = (Vec<u8>, Vec<Span>, u128, u64);

/// The rows' own pages one below the other.
fn stacked(rows: &[Vec<u8>]) -> Whole {
    let (mut bytes, mut spans, mut overflow, mut burden) = (Vec::new(), Vec::new(), 0, 0);
    for (place, file) in rows.iter().enumerate() {
        if place > 0 {
            bytes.push(10);
            burden += u64::from(SETTINGS.newline_cost);
        }
        let (start, first) = (bytes.len(), spans.len());
        let mut printer = Printer::new(Sizes::PAGE);
        let page = printer.render(0, &mut all(), file, &SETTINGS, &LIMITS).unwrap();
        bytes.extend(page.bytes);
        spans.extend(page.spans().map(|span| Span {
            start: start + span.start,
            end: start + span.end,
            parent: span.parent.map(|parent| first + parent),
            ..span
        }));
        overflow += page.overflow;
        burden += page.burden;
    }
    (bytes, spans, overflow, burden)
}

fn whole(page: &Page) -> Whole {
    (page.bytes.to_vec(), page.spans().collect(), page.overflow, page.burden)
}

/// What a report shows of itself.
fn shown(report: &Report) -> (Vec<Vec<u8>>, Vec<u8>, Vec<Span>) {
    let files = (0..report.rows()).map(|place| report.file(place).unwrap().to_vec());
    (files.collect(), report.bytes().to_vec(), report.spans().collect())
}

#[test]
fn samples_come_and_go() {
    let mut report = Report::open(&SETTINGS, MOST).unwrap();
    assert_eq!((report.rows(), report.settings(), report.bytes()), (0, SETTINGS, &[][..]));
    let names = ["ticket", "report-wide", "paragraph", "aligned", "annotated", "short-form", "annotated"];
    let mut rows: Vec<Vec<u8>> = Vec::new();
    for (step, name) in names.iter().enumerate() {
        let (file, place) = (sample(name), step * 5 % (rows.len() + 1));
        rows.insert(place, file.clone());
        let mut alone = Printer::new(Sizes::PAGE);
        let own = alone.render(0, &mut all(), &file, &SETTINGS, &LIMITS).unwrap();
        let page = report.insert(0, &mut all(), place, &file, &LIMITS).unwrap();
        assert_eq!(whole(&page), stacked(&rows), "{name}");
        // Only the new row is solved.
        assert_eq!(page.counts, own.counts, "{name}");
        let (output, spans) = (page.bytes.len() as u32, page.spans().len() as u32);
        assert_eq!(page.needs, Sizes { output, spans, ..own.needs }, "{name}");
        assert_eq!(shown(&report).0, rows);
    }
    while !rows.is_empty() {
        let place = rows.len() / 2;
        rows.remove(place);
        let page = report.remove(0, &mut all(), place).unwrap();
        assert_eq!((whole(&page), page.counts), (stacked(&rows), Counts::default()));
        let (output, spans) = (page.bytes.len() as u32, page.spans().len() as u32);
        assert_eq!(page.needs, Sizes::of([0, 0, 0, 0, 0, 0, 0, output, spans]));
        assert_eq!(shown(&report).0, rows);
    }
    assert_eq!(report.bytes(), []);
}

#[test]
fn settings() {
    for settings in [
        Settings { width: 0, ..SETTINGS },
        Settings { policy: 2, ..SETTINGS },
        Settings { rule: 0, ..SETTINGS },
        Settings { rule: 3, ..SETTINGS },
    ] {
        assert_eq!(
            Report::open(&settings, MOST).err().map(|refusal| refusal.to_string()),
            Some("refused 1 order".into())
        );
        let mut head = [9; 5];
        assert!(open_lent(&settings, &mut head).is_err());
        assert_eq!(head, [9; 5]);
    }
}

#[test]
fn a_refused_step_alters_nothing() {
    let mut report = Report::open(&SETTINGS, Sizes { output: 40, spans: 3, ..Sizes::PAGE }).unwrap();
    report.insert(0, &mut all(), 0, &sample("annotated"), &LIMITS).unwrap();
    let before = shown(&report);
    assert_eq!((before.1.len(), before.2.len()), (36, 3));
    let annotated = sample("annotated");
    for (place, file, limits, said) in [
        (2, text("a"), LIMITS, "refused 23 place"),
        (usize::MAX, vec![], LIMITS, "refused 23 place"),
        (1, vec![], LIMITS, "refused 2 short"),
        (1, text("a"), Limits { work: 1, ..LIMITS }, "refused 12 work"),
        (1, text("a"), Limits { visits: 0, ..LIMITS }, "refused 22 visits"),
        // The row's own call, then the whole page's bytes, then its spans.
        (0, text(&"x".repeat(41)), LIMITS, "refused 20 output, needed 41"),
        (0, text("four"), LIMITS, "refused 20 output, needed 41"),
        (1, annotated, LIMITS, "refused 20 output, needed 73"),
    ] {
        let refused = report.insert(0, &mut all(), place, &file, &limits).unwrap_err();
        assert_eq!(refused.to_string(), said);
        assert_eq!(shown(&report), before);
    }
    assert_eq!(report.remove(0, &mut all(), 1).unwrap_err().to_string(), "refused 23 place");
    assert_eq!(shown(&report), before);
    assert_eq!(report.insert(0, &mut all(), 1, &text("abc"), &LIMITS).unwrap().bytes.len(), 40);
    assert_eq!(report.remove(0, &mut all(), 0).unwrap().bytes, b"abc");

    let mut report = Report::open(&SETTINGS, Sizes { spans: 5, ..MOST }).unwrap();
    report.insert(0, &mut all(), 0, &sample("annotated"), &LIMITS).unwrap();
    let refused = report.insert(0, &mut all(), 1, &sample("annotated"), &LIMITS).unwrap_err();
    assert_eq!((refused.to_string().as_str(), refused.counts.work > 0), ("refused 21 spans, needed 6", true));
}

/// Memory grows up to what a report was opened with.
#[test]
fn grows() {
    let few = Sizes::of([4; 9]);
    let mut report = Report::open(&SETTINGS, few).unwrap();
    let refused = report.insert(0, &mut all(), 0, &sample("annotated"), &LIMITS).unwrap_err();
    assert!((13..22).contains(&refused.number) && refused.needed > 4, "{refused}");
    assert_eq!(report.insert(0, &mut all(), 0, &text("abcd"), &LIMITS).unwrap().bytes, b"abcd");
    assert_eq!(
        report.insert(0, &mut all(), 0, &text("a"), &LIMITS).unwrap_err().to_string(),
        "refused 20 output, needed 6"
    );

    // A page of more bytes than those of `page`, of texts and of lines.
    let mut report = Report::open(&SETTINGS, MOST).unwrap();
    let (long, mut rows) = (text(&"y".repeat(20_000)), 0);
    for _ in 0..5 {
        let page = report.insert(0, &mut all(), rows, &long, &LIMITS).unwrap();
        assert_eq!(page.bytes.len(), 20_001 * (rows + 1) - 1);
        rows += 1;
    }
    // 600 Aligns, one in the other, need 601 tasks.
    let deep = sample("too-deep");
    assert_eq!(
        report.insert(0, &mut all(), 0, &deep, &LIMITS).unwrap_err().to_string(),
        "refused 13 stack, needed 513"
    );
    let mut report = Report::open(&SETTINGS, Sizes { stack: 1 << 12, ..MOST }).unwrap();
    let page = report.insert(0, &mut all(), 0, &deep, &LIMITS).unwrap();
    assert_eq!(page.needs.stack, 601);
}

#[test]
fn full() {
    let mut report = Report::open(&SETTINGS, MOST).unwrap();
    for row in 0..1_024 {
        let page = report.insert(0, &mut all(), row, &text("a"), &LIMITS).unwrap();
        assert_eq!((page.bytes.len(), page.burden), (2 * row + 1, 3 * row as u64));
    }
    for (place, said) in [(1_025, "refused 23 place"), (1_024, "refused 24 rows"), (0, "refused 24 rows")] {
        for file in [text("a"), vec![]] {
            assert_eq!(report.insert(0, &mut all(), place, &file, &LIMITS).unwrap_err().to_string(), said);
        }
    }
    report.remove(0, &mut all(), 1_023).unwrap();
    assert_eq!(report.insert(0, &mut all(), 0, &text("b"), &LIMITS).unwrap().bytes[..3], *b"b\na");
    for left in (0..1_024).rev() {
        assert_eq!(
            report.remove(0, &mut all(), left / 3).unwrap().bytes.len(),
            (2 * left).saturating_sub(usize::from(left > 0))
        );
    }
    assert_eq!(report.remove(0, &mut all(), 0).unwrap_err().to_string(), "refused 23 place");
}

/// A report in the caller's own memory: what stands past it stays out of it, and words that no step has written are read as they stand.
#[test]
fn lent() {
    let sizes = Sizes { output: 7, spans: 2, ..Sizes::PAGE };
    let mut head = [0; 5];
    open_lent(&SETTINGS, &mut head).unwrap();
    assert_eq!(head, [0, 24, 3, 0, 1]);
    let (mut table, mut files, mut pages, mut marks) = ([[!0; 8]; 1_024], [!0; 105], [!0; 7], [[!0; 4]; 2]);
    let (mut output, mut spans) = ([b'x'; 9], [[7; 4]; 2]);
    macro_rules! held {
        () => {
            ReportMemory { head: &mut head, table: &mut table, files: &mut files, pages: &mut pages, marks: &mut marks }
        };
    }
    macro_rules! insert {
        ($place:expr, $text:expr) => {
            insert_lent(
                0,
                &mut all(),
                $place,
                &text($text),
                &sizes,
                &LIMITS,
                held!(),
                &mut output,
                &mut spans,
                TableMemory {
                    nodes: &mut vec![[0; 8]; 4_096],
                    edges: &mut vec![0; 16_384],
                    choices: &mut vec![0; 16_384],
                    texts: &mut vec![[0; 3]; 4_096],
                    bytes: &mut vec![0; 65_536],
                },
                SolverMemory {
                    tasks: &mut [[0; 9]; 512],
                    results: &mut [[0; 2]; 512],
                    pending: &mut [[0; 7]; 512],
                    index: &mut vec![0; memo_slots_for(1_024)],
                    entries: &mut [[0; 6]; 1_024],
                    kept: &mut [[0; 6]; 1_024],
                    frontier: &mut [0; 14 * 256],
                    plans: &mut [[0; 3]; 2_048],
                    visit: &mut [0; 512],
                    depth: &mut [0; 64],
                },
                &mut [0; 7],
                &mut [[0; 4]; 2],
            )
        };
    }
    assert_eq!(insert!(0, "b").unwrap().length, 1);
    assert_eq!(insert!(0, "a").unwrap().burden, 3);
    assert_eq!((&output, &spans, head), (b"a\nbxxxxxx", &[[7; 4]; 2], [2, 24, 3, 0, 1]));
    assert_eq!(table[..3], [[35, 1, 0, 0, 0, 0, 1, 0], [35, 1, 0, 0, 0, 0, 1, 0], [!0; 8]]);
    assert_eq!((&files[..70], &pages[..2]), (&[text("a"), text("b")].concat()[..], &b"ab"[..]));
    // The files have no room for one byte more than these.
    assert_eq!(insert!(1, "cc").unwrap_err().to_string(), "refused 1 order");
    assert_eq!(insert!(1, "c").unwrap().length, 5);
    assert_eq!(&output, b"a\nc\nbxxxx");
    // A cost that no row has: read as it stands.
    table[1][5] = u64::MAX - 5;
    assert_eq!(remove_lent(0, &mut all(), 0, &sizes, held!(), &mut output, &mut spans).unwrap().burden, u64::MAX - 2);
    table[1][5] = 3;
    assert_eq!(insert!(0, "d").unwrap_err().to_string(), "refused 26 cost");
    assert_eq!((&output, head[0]), (b"c\nb\nbxxxx", 2));
    // Two files whose lengths have a small sum in 64 bits: not sound.
    table[0][0] = u64::MAX;
    table[1][0] = 36;
    let before = (head, table, files, pages);
    let refused = remove_lent(0, &mut all(), 0, &sizes, held!(), &mut output, &mut spans).unwrap_err();
    assert_eq!((refused.number, (head, table, files, pages)), (1, before));
    head[0] = 1_025;
    assert_eq!(remove_lent(0, &mut all(), 0, &sizes, held!(), &mut output, &mut spans).unwrap_err().number, 1);
}
