//! Batches with known answers: the open points of change 9 that docs/DECISIONS.md decides. They are run at the start of every run of `batches`.

use common::{kind, Counts, Limits, Settings, Sizes};
use model::batch::Record;
use model::desks::Desks;

use crate::batches::{Asked, Left, Runner};
use crate::fixed::Build;
use crate::memory::lengths;
use crate::reports_fixed::text;

const SETTINGS: Settings = Settings { width: 80, newline_cost: 1, policy: 0, rule: 1 };
const LIMITS: Limits = Limits { work: 10, visits: 10 };
const DESK: usize = 3;

/// A batch of desk 3, which may do 1,000, with two rows of answers more than there are documents, but for what is altered.
struct Case<'a> {
    runner: &'a mut Runner,
    name: &'static str,
    asked: Asked,
}

/// Of a document: the number of the refusal and the size needed, or 0 and the length of the page; work.
type Told = (u64, u64, u64);

impl Case<'_> {
    fn of<'a>(runner: &'a mut Runner, name: &'static str, documents: &[&[u8]]) -> Case<'a> {
        let mut desks = Desks::of(std::array::from_fn(|at| if at % 3 == 0 { u64::MAX } else { 5 + at as u64 }));
        (desks.allowance[DESK], desks.spent[DESK]) = (1_000, 0);
        let asked = Asked {
            desk: DESK as u32,
            record: Record { desks, counts: Counts::of(std::array::from_fn(|at| 90 + at as u64)) },
            files: documents.concat(),
            lengths: documents.iter().map(|file| file.len() as u32).collect(),
            settings: SETTINGS,
            sizes: Sizes::PAGE,
            limits: LIMITS,
            lent: lengths(&Sizes::PAGE),
            rows: documents.len() + 2,
        };
        Case { runner, name, asked }
    }

    fn room(&mut self, output: u32, spans: u32) {
        self.asked.sizes = Sizes { output, spans, ..Sizes::PAGE };
        self.asked.lent = lengths(&self.asked.sizes);
    }

    /// The batch is refused: nothing is altered but the counts, which are 0 then unless there is no document.
    fn refused(&mut self, number: u32) {
        let (before, given) = self.runner.take(&self.asked);
        let counts = if self.asked.lengths.is_empty() { before.counts.clone() } else { vec![0; 10] };
        self.held(true, &given, Left { number, counts, ..before });
    }

    /// The documents are tried: their answers in the first rows, what stands at the front of output and spans, and what the desk has spent then.
    /// The counts are those of the last document.
    fn filed(&mut self, answers: &[Told], output: &str, spans: &[[u64; 4]], spent: u64) {
        let (before, given) = self.runner.take(&self.asked);
        let told = |row: &[u64; 26]| (row[0], if row[0] == 0 { row[2] } else { row[1] }, row[7]);
        let (own, past) = given.answers.split_at(answers.len());
        let mut right = Left { number: 0, ..before };
        let same = own.iter().map(told).eq(answers.iter().copied()) && *past == right.answers[answers.len()..];
        right.answers = given.answers.clone();
        right.output[..output.len()].copy_from_slice(output.as_bytes());
        right.spans[..spans.len()].copy_from_slice(spans);
        right.desks[8 + DESK] = spent;
        if let Some(last) = own.last() {
            right.counts = last[7..17].to_vec();
        }
        self.held(same, &given, right);
    }

    fn held(&mut self, same: bool, given: &Left, right: Left) {
        if !same || *given != right {
            self.runner.differ(self.name, &self.asked, &format!("{:?}", given.answers), "not as it must be");
        }
    }
}

pub fn run(runner: &mut Runner) {
    free_output(runner);
    too_many(runner);
    none(runner);
    kept(runner);
    spans(runner);
    lengths_of(runner);
}

/// A file of one Empty.
fn empty() -> Vec<u8> {
    let mut b = Build::new();
    b.node(kind::EMPTY, 0, 0);
    b.file()
}

/// Points 1 to 3.
fn free_output(runner: &mut Runner) {
    let (a, ab, empty) = (text("a"), text("ab"), empty());
    for (name, slice) in [("1: a refused document takes no output", 2), ("3: the size rules, not the slice", 100)] {
        let mut case = Case::of(runner, name, &[&a, &ab, &a]);
        case.room(2, 0);
        case.asked.lent[15] = slice;
        case.filed(&[(0, 1, 2), (20, 2, 2), (0, 1, 2)], "aa", &[], 6);
    }
    let mut case = Case::of(runner, "2: a page of 0 bytes", &[&a, &empty]);
    case.room(1, 0);
    case.filed(&[(0, 1, 2), (0, 0, 2)], "a", &[], 4);
}

/// Point 4; and 64 documents are not too many.
fn too_many(runner: &mut Runner) {
    let a = text("a");
    for (desk, width, rows, number) in [(3, 80, 64, 29), (3, 80, 63, 1), (8, 80, 64, 28), (3, 0, 64, 1), (8, 0, 64, 1)]
    {
        let mut case = Case::of(runner, "4: 65 documents", &[&a[..]; 65]);
        (case.asked.desk, case.asked.settings.width, case.asked.rows) = (desk, width, rows);
        case.refused(number);
    }
    let mut case = Case::of(runner, "4: 64 documents", &[&a[..]; 64]);
    case.asked.rows = 64;
    case.filed(&[(0, 1, 2); 64], &"a".repeat(64), &[], 128);
}

/// Point 5: no document alters nothing, the counts neither.
fn none(runner: &mut Runner) {
    for rows in [0, 2] {
        let mut case = Case::of(runner, "5: no document", &[]);
        case.asked.rows = rows;
        case.refused(0);
        case.asked.desk = 8;
        case.refused(28);
        case.asked.settings.width = 0;
        case.refused(1);
        case.asked.desk = 3;
        case.refused(1);
    }
}

/// Points 6 and 7; and each document has the whole work limit.
fn kept(runner: &mut Runner) {
    let a = text("a");
    Case::of(runner, "6: the counts of the last document", &[&a, &[]]).filed(&[(0, 1, 2), (2, 0, 0)], "a", &[], 2);
    let mut case = Case::of(runner, "7: an allowance for all documents", &[&a, &a, &a]);
    case.asked.record.desks.allowance[DESK] = 3;
    case.filed(&[(0, 1, 2), (12, 0, 1), (12, 0, 0)], "a", &[], 3);
    let mut case = Case::of(runner, "7: a limit for each document", &[&a, &a, &a]);
    case.asked.limits.work = 2;
    case.filed(&[(0, 1, 2), (0, 1, 2), (0, 1, 2)], "aaa", &[], 6);
}

/// Point 8: positions and parents of each document are its own.
fn spans(runner: &mut Runner) {
    let mut b = Build::new();
    let a = b.text("a");
    b.annotated(7, a);
    let marked = b.file();
    let mut case = Case::of(runner, "8: spans of each document", &[&marked, &marked]);
    case.filed(&[(0, 1, 4), (0, 1, 4)], "aa", &[[7, 0, 1, 0], [7, 0, 1, 0]], 8);
    case.room(2, 1);
    case.filed(&[(0, 1, 4), (21, 1, 4)], "a", &[[7, 0, 1, 0]], 8);
    let mut b = Build::new();
    let a = b.text("a");
    let inner = b.annotated(9, a);
    b.annotated(7, inner);
    let nested = b.file();
    let two = [[7, 0, 1, 0], [9, 0, 1, 1]];
    Case::of(runner, "8: parents of each document", &[&nested, &nested]).filed(
        &[(0, 1, 6), (0, 1, 6)],
        "aa",
        &two.repeat(2),
        12,
    );
}

/// Point 9.
fn lengths_of(runner: &mut Runner) {
    let a = text("a");
    for (count, rows) in [(1, 3), (2, 4), (65, 64)] {
        let mut case = Case::of(runner, "9: lengths pass the bytes by one", &vec![&a[..]; count]);
        case.asked.rows = rows;
        case.asked.files.pop();
        case.refused(1);
    }
    let mut case = Case::of(runner, "9: lengths that are few in 32 bits", &[&a, &a]);
    case.asked.lengths[1] = (a.len() as u32).wrapping_neg();
    case.refused(1);
    Case::of(runner, "9: an empty file", &[&[], &a, &[]]).filed(&[(2, 0, 0), (0, 1, 2), (2, 0, 0)], "a", &[], 2);
    let mut case = Case::of(runner, "9: bytes past the lengths", &[&a]);
    case.asked.files.extend(b"more");
    case.filed(&[(0, 1, 2)], "a", &[], 2);
}
