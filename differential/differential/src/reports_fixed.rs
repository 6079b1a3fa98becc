//! Live reports with known answers: the open points of change 2 that docs/DECISIONS.md decides, costs past their widths, and a report grown to
//! 1,024 rows and emptied. They are run at the start of every run of `reports`.

use common::{kind, to_hex, Answer, Limits, Settings, Sizes};
use generate::Rng;
use model::report::{Report, Step, ROWS};

use crate::compare::number;
use crate::fixed::Build;
use crate::reports::{sums, Act, Lengths, Runner, LIMITS};

const SETTINGS: Settings = Settings { width: 80, newline_cost: 1, policy: 0, rule: 1 };

/// What a step must give.
enum Want<'a> {
    /// Bytes, overflow, burden, spans.
    Page(&'a str, u128, u64, &'a [[u64; 4]]),
    /// Number, needed, work.
    Refused(u32, u64, u64),
}
use Want::{Page, Refused};

pub fn text(text: &str) -> Vec<u8> {
    let mut b = Build::new();
    b.text(text);
    b.file()
}

/// Annotate 7 over `a`.
fn marked() -> Vec<u8> {
    let mut b = Build::new();
    let a = b.text("a");
    b.annotated(7, a);
    b.file()
}

/// Annotate 1 over `<`, Annotate 2 over `ab`, `>`.
fn nested() -> Vec<u8> {
    let mut b = Build::new();
    let (open, ab, close) = (b.text("<"), b.text("ab"), b.text(">"));
    let inner = b.annotated(2, ab);
    let all = b.list(kind::SEQ, &[open, inner, close]);
    b.annotated(1, all);
    b.file()
}

fn two_lines() -> Vec<u8> {
    let mut b = Build::new();
    let (c, line, d) = (b.text("c"), b.node(kind::HARD_LINE, 0, 0), b.text("d"));
    b.list(kind::SEQ, &[c, line, d]);
    b.file()
}

/// A Seq of 36 texts. Of 1,024 rows, one in seven of this kind, the one document passes the counts of a single file.
fn long() -> Vec<u8> {
    let mut b = Build::new();
    let texts: Vec<u32> = "0123456789abcdefghijklmnopqrstuvwxyz".chars().map(|c| b.text(&c.to_string())).collect();
    b.list(kind::SEQ, &texts);
    b.file()
}

/// A Choice of Empty at a burden of 2^64 - 2^32 and the amount, which ends further left and so is kept, and `a`, which is taken.
pub fn dear_choice(amount: u32) -> Vec<u8> {
    let mut b = Build::new();
    let empty = b.node(kind::EMPTY, 0, 0);
    let charged = b.node(kind::PENALTY, u32::MAX, empty);
    let all = b.doubled(charged, 32);
    let dear = b.node(kind::PENALTY, amount, all);
    let a = b.text("a");
    b.node(kind::CHOICE, dear, a);
    b.file()
}

struct Case<'a> {
    runner: &'a mut Runner,
    report: Report,
    name: &'static str,
}

impl Case<'_> {
    fn open<'a>(runner: &'a mut Runner, name: &'static str, settings: Settings, rows: &[&[u8]]) -> Case<'a> {
        let report = runner.open(settings);
        let mut case = Case { runner, report, name };
        for (place, file) in rows.iter().enumerate() {
            let _ = case.step(Step::Insert(place, file), Sizes::PAGE);
        }
        case
    }

    fn act<'a>(&self, step: Step<'a>, sizes: Sizes) -> Act<'a> {
        Act { step, sizes, limits: LIMITS, lengths: Lengths::of(sums(&self.report), &step, &sizes) }
    }

    fn take(&mut self, act: &Act) -> Answer {
        let (answer, after) = self.runner.step(&self.report, act);
        if let Some(after) = after {
            self.report = after;
        }
        answer
    }

    fn step(&mut self, step: Step, sizes: Sizes) -> Answer {
        let act = self.act(step, sizes);
        self.take(&act)
    }

    fn wants(&mut self, act: &Act, want: Want) {
        let answer = self.take(act);
        let met = match (&answer, &want) {
            (Ok(page), Page(bytes, overflow, burden, spans)) => {
                page.bytes == bytes.as_bytes()
                    && (page.overflow, page.burden) == (*overflow, *burden)
                    && crate::reports::rows(page) == *spans
            }
            (Err(refusal), Refused(number, needed, work)) => {
                (refusal.number, refusal.needed, refusal.counts.work) == (*number, *needed, *work)
            }
            _ => false,
        };
        if !met {
            self.runner.differ(self.name, &self.report, act, &common::describe(&answer), "not as it must be");
        }
    }

    fn want(&mut self, step: Step, sizes: Sizes, want: Want) {
        let act = self.act(step, sizes);
        self.wants(&act, want);
    }
}

pub fn run(runner: &mut Runner) {
    points(runner);
    past_width(runner);
    only_the_document(runner);
    full(runner);
}

fn points(runner: &mut Runner) {
    let (a, b) = (text("a"), text("b"));
    let page = Sizes::PAGE;
    let output = |output| Sizes { output, ..page };
    let (bb, bbbb) = (text("bb"), text("bbbb"));

    let mut case = Case::open(runner, "1: the row's own call gets the whole output size", SETTINGS, &[&a]);
    case.want(Step::Insert(1, &bb), output(3), Refused(20, 4, 2));
    case.want(Step::Insert(1, &bbbb), output(3), Refused(20, 4, 2));
    case.want(Step::Insert(1, &bb), output(4), Page("a\nbb", 0, 1, &[]));

    let mut case = Case::open(runner, "3: order before the place, and before the file", SETTINGS, &[]);
    let mut act = case.act(Step::Insert(9, &a), page);
    case.wants(&act, Refused(23, 0, 0));
    act.lengths.output -= 1;
    case.wants(&act, Refused(1, 0, 0));
    // The file of 21 bytes, one Empty; and as many bytes that are no file.
    let mut b21 = Build::new();
    b21.node(kind::EMPTY, 0, 0);
    let empty = b21.file();
    let bad = vec![255; 21];
    for (file, want) in [(&empty, Page("", 0, 0, &[])), (&bad, Refused(3, 0, 0))] {
        let mut act = case.act(Step::Insert(0, file), page);
        act.lengths.files = 20;
        case.wants(&act, Refused(1, 0, 0));
        act.lengths.files = 21;
        case.wants(&act, want);
        case.report = case.runner.open(SETTINGS);
    }

    let mut case = Case::open(runner, "4: a removal is held to sizes", SETTINGS, &[&a, &b]);
    case.want(Step::Remove(0), output(0), Refused(20, 1, 0));
    case.want(Step::Remove(0), output(1), Page("b", 0, 0, &[]));
    case.want(Step::Remove(0), Sizes::NONE, Page("", 0, 0, &[]));
    case.want(Step::Remove(0), Sizes::NONE, Refused(23, 0, 0));

    let mut case = Case::open(runner, "5: burden and spans", SETTINGS, &[&a]);
    case.want(Step::Insert(1, &b), page, Page("a\nb", 0, 1, &[]));
    let mut case = Case::open(runner, "5: burden and spans", SETTINGS, &[&marked()]);
    case.want(Step::Insert(1, &marked()), page, Page("a\na", 0, 1, &[[7, 0, 1, 0], [7, 2, 3, 0]]));
    let both = [[7, 0, 1, 0], [1, 2, 6, 0], [2, 3, 5, 2], [7, 7, 8, 0]];
    case.want(Step::Insert(1, &nested()), page, Page("a\n<ab>\na", 0, 2, &both));
    case.want(Step::Remove(0), Sizes { spans: 2, ..page }, Refused(21, 3, 0));
    case.want(Step::Remove(0), page, Page("<ab>\na", 0, 1, &[[1, 0, 4, 0], [2, 1, 3, 1], [7, 5, 6, 0]]));
    // Both too small: bytes first.
    case.want(Step::Insert(0, &a), Sizes { output: 7, spans: 2, ..page }, Refused(20, 8, 2));

    let narrow = |rule| Settings { width: 1, rule, ..SETTINGS };
    let mut case = Case::open(runner, "5: overflow under rule 1", narrow(1), &[&bbbb]);
    case.want(Step::Insert(0, &bbbb), page, Page("bbbb\nbbbb", 18, 1, &[]));
    let mut case = Case::open(runner, "5: overflow under rule 2", narrow(2), &[&bbbb]);
    case.want(Step::Insert(0, &bbbb), page, Page("bbbb\nbbbb", 6, 1, &[]));

    let mut case = Case::open(runner, "7: counts of a refused step", SETTINGS, &[&a]);
    let mut act = case.act(Step::Insert(0, &b), page);
    act.limits = Limits { work: 1, ..LIMITS };
    case.wants(&act, Refused(12, 0, 1));
    case.want(Step::Insert(0, &b), Sizes { memo: 0, ..page }, Refused(14, 1, 2));
    case.want(Step::Insert(2, &b), page, Refused(23, 0, 0));
    case.want(Step::Insert(1, &[]), page, Refused(2, 0, 0));
}

/// The cost words of a row in memory altered: 26 by the whole page, before 20, with the counts of the row's own call.
fn past_width(runner: &mut Runner) {
    let (a, b) = (text("a"), text("b"));
    let short = Sizes { output: 1, ..Sizes::PAGE };
    let mut case = Case::open(runner, "26 of the whole page", SETTINGS, &[&a]);
    for (words, want) in [
        ([0, 0, u64::MAX], Refused(26, 0, 2)),
        ([0, 0, u64::MAX - 1], Refused(20, 3, 2)),
        ([u64::MAX, u64::MAX, 0], Refused(20, 3, 2)),
    ] {
        case.report = case.runner.alter(0, words);
        case.want(Step::Insert(1, &b), short, want);
    }
    case.report = case.runner.alter(0, [0, 0, u64::MAX - 1]);
    case.want(Step::Insert(1, &b), Sizes::PAGE, Page("a\nb", 0, u64::MAX, &[]));
    // With both rows the sums are past their widths, and without one of them they are not.
    case.report = case.runner.alter(1, [u64::MAX, u64::MAX, 1]);
    case.want(Step::Insert(0, &b), short, Refused(26, 0, 2));
    case.want(Step::Remove(0), Sizes::PAGE, Page("b", u128::MAX, 1, &[]));
    let wide = text(&"b".repeat(81));
    case.want(Step::Insert(0, &wide), Sizes::PAGE, Refused(26, 0, 2));
    // The low halves' sum carries.
    case.report = case.runner.alter(0, [0, u64::MAX, 1]);
    let page = format!("{}\nb", "b".repeat(81));
    case.want(Step::Insert(0, &wide), Sizes::PAGE, Page(&page, 1 << 64, 2, &[]));
    // A removal alone can be past a width on memory that no step has written.
    let mut case = Case::open(runner, "26 of a removal", SETTINGS, &[&a, &b, &a]);
    case.report = case.runner.alter(0, [0, 0, u64::MAX]);
    case.report = case.runner.alter(2, [0, 0, 1]);
    case.want(Step::Remove(1), short, Refused(26, 0, 0));
}

/// 6: a sum over a candidate that is not taken passes 2^64, in the one document alone.
fn only_the_document(runner: &mut Runner) {
    let row = dear_choice(1);
    let settings = Settings { newline_cost: u32::MAX, ..SETTINGS };
    let mut case = Case::open(runner, "6: only the one document is refused", settings, &[&row]);
    let refused = case.runner.only_documents();
    case.want(Step::Insert(1, &row), Sizes::PAGE, Page("a\na", 0, u32::MAX.into(), &[]));
    if case.runner.only_documents() != refused + 1 && !case.runner.quiet() {
        case.runner.comparer.tally.differences += 1;
        println!("DIFFERENCE: the one document of two rows {} is not refused", to_hex(&row));
    }
}

/// 2: grown to 1,024 rows and emptied, at places of all kinds.
fn full(runner: &mut Runner) {
    let rng = &mut Rng::new(24);
    let files = [text("a"), text("b"), marked(), nested(), two_lines(), long(), text("")];
    let large = Sizes { output: 1 << 16, spans: 1 << 12, ..Sizes::PAGE };
    let mut case = Case::open(runner, "2: a full report", SETTINGS, &[]);
    for count in 0..ROWS {
        let place = rng.pick(&[0, count, rng.clone().index(count + 1)]);
        if case.step(Step::Insert(place, &files[rng.index(files.len())]), large).is_err() {
            break;
        }
    }
    if case.report.rows.len() != ROWS {
        let act = case.act(Step::Remove(0), large);
        case.runner.differ("a report that cannot be filled", &case.report, &act, "", "");
    }
    for (place, file, number) in [
        (1_025, &files[0][..], 23),
        (1_024, &files[0], 24),
        (1_025, &[], 23),
        (1_024, &[], 24),
        (0, &files[0], 24),
        (usize::MAX, &files[0], 23),
    ] {
        case.want(Step::Insert(place, file), large, Refused(number, 0, 0));
        // Of a row that would be refused, and of a page that has no room: nothing is asked before.
        case.want(Step::Insert(place, file), Sizes::NONE, Refused(number, 0, 0));
    }
    let mut act = case.act(Step::Insert(1_024, &files[0]), large);
    act.lengths.files -= 1;
    case.wants(&act, Refused(1, 0, 0));
    case.want(Step::Remove(1_024), large, Refused(23, 0, 0));
    for count in (1..=ROWS).rev() {
        let place = rng.pick(&[0, count - 1, rng.clone().index(count)]);
        let answer = case.step(Step::Remove(place), large);
        if number(&answer) != 0 {
            break;
        }
    }
    if !case.report.rows.is_empty() {
        let act = case.act(Step::Remove(0), large);
        case.runner.differ("a report that cannot be emptied", &case.report, &act, "", "");
    }
    case.want(Step::Remove(0), large, Refused(23, 0, 0));
    case.want(Step::Insert(0, &files[0]), large, Page("a", 0, 0, &[]));
}

/// Rows whose burdens come past 2^64 by themselves: 2^23 Penalties of 2^32 - 1 each. 512 rows have their place, one more is 26. Run by hand:
/// each insertion takes some 2^25 visits.
pub fn dear(runner: &mut Runner) {
    let mut b = Build::new();
    let empty = b.node(kind::EMPTY, 0, 0);
    let charged = b.node(kind::PENALTY, u32::MAX, empty);
    b.doubled(charged, 23);
    let file = b.file();
    let settings = Settings { newline_cost: 0, ..SETTINGS };
    let mut report = runner.open(settings);
    let row = model::answer(&file, &settings, &Sizes::PAGE, &Limits::NONE).expect("a page");
    for count in 0..=512 {
        let step = Step::Insert(count, &file);
        let lengths = Lengths::of(sums(&report), &step, &Sizes::PAGE);
        let act = Act { step, sizes: Sizes::PAGE, limits: Limits::NONE, lengths };
        let told = runner.told(&report, &act);
        let mut want = [0; 26];
        want[7..17].copy_from_slice(&row.counts.list());
        if count < 512 {
            report = report.with(count, &file, &row);
            want[2] = count as u64;
            want[6] = (count as u64 + 1) * ((1 << 55) - (1 << 23));
            want[17..].copy_from_slice(&Sizes { output: count as u32, ..row.needs }.list().map(u64::from));
        } else {
            want[0] = 26;
        }
        if told != want {
            runner.differ("rows of 2^23 Penalties", &report, &act, &format!("{told:?}"), &format!("{want:?}"));
        }
        eprint!("\r{} rows  ", report.rows.len());
    }
    eprintln!();
    println!("rows {}, differences {}", report.rows.len(), runner.comparer.tally.differences);
}
