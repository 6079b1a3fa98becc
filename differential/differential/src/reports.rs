//! Live reports: random sequences of steps on memory that is dirty but for the report itself, each answer held to the model's, and the report in
//! memory to the model's after each page and to what it was after each refusal. The page that a step comes to is held to the one document's: by
//! the model, by the reference and, where there are few, among all layouts. Rows' own calls are compared as any others.

use std::collections::HashMap;
use std::panic::{catch_unwind, AssertUnwindSafe};
use std::time::Instant;

use common::{describe, to_hex, Answer, Limits, Page, Settings, Sizes, Tables};
use generate::files::Profile;
use generate::Rng;
use model::desks::Desks;
use model::report::{Memory, Report, Step, ROWS};

use crate::compare::{in_order, number, shown, Call, Comparer, PROBE};
use crate::memory::{lengths, Dirt, Store, Working};
use crate::needs::{smaller, with};
use crate::ours::{self, Lent, RowLent, Steps};
use crate::standin::{Slip, Standin};

/// Of a row's own call.
pub const LIMITS: Limits = Limits { work: 4_000, visits: 8_000 };

#[derive(Default)]
pub struct Tally {
    sequences: u64,
    /// Insertions, removals; of both under rule 2, under policy 1; `open` on a right setting, and on another.
    steps: [u64; 2],
    under: [u64; 2],
    opened: [u64; 2],
    /// By number of refusal; 0 is a page.
    answers: [u64; 27],
    /// Of them 20, 21 and 26 by the whole page, after the row's own call gave a page.
    of_whole: [u64; 3],
    /// Steps with one slice too short; on memory that is not sound, or whose setting is not right; on sound memory that no step has written.
    short: u64,
    unsound: u64,
    alien: u64,
    /// One documents, of these by the reference, as a file within the limits of one; and those refused where the step is not.
    documents: [u64; 4],
    /// Pages whose needs were tried, and calls with one size smaller. They are not among the steps.
    needs: [u64; 2],
    most_rows: usize,
}

/// How much is lent. The last two of `working` are output and spans of the row's own call.
#[derive(Clone)]
pub struct Lengths {
    pub table: usize,
    pub files: usize,
    pub pages: usize,
    pub marks: usize,
    pub output: usize,
    pub spans: usize,
    pub working: [usize; 17],
}

impl Lengths {
    /// What just suffices for a step on a report of these sums.
    pub fn of(sums: [usize; 3], step: &Step, sizes: &Sizes) -> Lengths {
        let (output, spans) = (sizes.output as usize, sizes.spans as usize);
        let file = match step {
            Step::Insert(_, file) => file.len(),
            Step::Remove(_) => 0,
        };
        Lengths {
            table: ROWS,
            files: sums[0] + file,
            pages: sums[1].max(output),
            marks: sums[2].max(spans),
            output,
            spans,
            working: lengths(sizes),
        }
    }

    pub fn list(&mut self) -> Vec<&mut usize> {
        let Lengths { table, files, pages, marks, output, spans, working } = self;
        [table, files, pages, marks, output, spans].into_iter().chain(working).collect()
    }
}

pub struct Act<'a> {
    pub step: Step<'a>,
    pub sizes: Sizes,
    pub limits: Limits,
    pub lengths: Lengths,
}

impl Act<'_> {
    pub fn describe(&self) -> String {
        let step = match self.step {
            Step::Insert(place, file) => format!("insert at {place}, file {}", to_hex(file)),
            Step::Remove(place) => format!("remove at {place}"),
        };
        let Lengths { table, files, pages, marks, output, spans, working } = &self.lengths;
        format!(
            "{step}\nsizes {:?}\nlimits {} {}\nlent table {table}, files {files}, pages {pages}, marks {marks}, output {output}, spans {spans}, row {working:?}\n",
            self.sizes.list(),
            self.limits.work,
            self.limits.visits
        )
    }
}

/// All that is lent. The report's part keeps what it holds from step to step. A call on one file is lent the others.
pub struct Lends {
    desks: Store<u64>,
    head: Store<u32>,
    table: Store<[u64; 8]>,
    files: Store<u8>,
    pages: Store<u8>,
    marks: Store<[u32; 4]>,
    output: Store<u8>,
    spans: Store<[u64; 4]>,
    answer: Store<u64>,
    working: Working,
    row_output: Store<u8>,
    row_spans: Store<[u64; 4]>,
}

/// The report's memory, with what stands around it.
#[derive(Clone, PartialEq)]
struct Saved(Vec<u32>, Vec<[u64; 8]>, Vec<u8>, Vec<u8>, Vec<[u32; 4]>);

/// What a call gave: the answer's words, its page and spans, the desks.
#[derive(Clone, Debug, Eq, PartialEq)]
pub struct Given {
    pub words: Vec<u64>,
    pub bytes: Vec<u8>,
    pub spans: Vec<[u64; 4]>,
    pub desks: Vec<u64>,
}

/// A call beside the model's: the model's answer and report after a page; what was given; and where that is not the model's, what, with left and
/// right.
pub struct Taken {
    pub answer: Answer,
    pub after: Option<Report>,
    pub given: Given,
    pub unlike: Option<[String; 3]>,
}

impl Lends {
    pub fn new() -> Lends {
        let mut lends = Lends {
            desks: Store::new(),
            head: Store::new(),
            table: Store::new(),
            files: Store::new(),
            pages: Store::new(),
            marks: Store::new(),
            output: Store::new(),
            spans: Store::new(),
            answer: Store::new(),
            working: Working::new(),
            row_output: Store::new(),
            row_spans: Store::new(),
        };
        let rng = &mut Rng::new(1);
        lends.head.soil(rng, Dirt::Words, 5);
        lends.table.soil(rng, Dirt::Words, 0);
        lends.files.soil(rng, Dirt::Words, 0);
        lends.pages.soil(rng, Dirt::Words, 0);
        lends.marks.soil(rng, Dirt::Words, 0);
        lends
    }

    fn memory(&self) -> Memory<'_> {
        Memory {
            head: self.head.held().try_into().expect("five words"),
            table: self.table.held(),
            files: self.files.held(),
            pages: self.pages.held(),
            marks: self.marks.held(),
        }
    }

    fn saved(&self) -> Saved {
        Saved(
            self.head.all().to_vec(),
            self.table.all().to_vec(),
            self.files.all().to_vec(),
            self.pages.all().to_vec(),
            self.marks.all().to_vec(),
        )
    }

    fn put_back(&mut self, saved: &Saved) {
        self.head.put_back(&saved.0);
        self.table.put_back(&saved.1);
        self.files.put_back(&saved.2);
        self.pages.put_back(&saved.3);
        self.marks.put_back(&saved.4);
    }

    /// Lends the report so much, with dirt behind what it holds.
    pub fn lend_report(&mut self, rng: &mut Rng, report: &Report, lengths: &Lengths) {
        let (rows, sums) = (report.rows.len(), sums(report));
        let dirt = [0; 4].map(|_| Dirt::any(rng));
        self.table.soil_behind(rng, dirt[0], rows, lengths.table);
        self.files.soil_behind(rng, dirt[1], sums[0], lengths.files);
        self.pages.soil_behind(rng, dirt[2], sums[1], lengths.pages);
        self.marks.soil_behind(rng, dirt[3], sums[2], lengths.marks);
    }

    fn soil(&mut self, rng: &mut Rng, lengths: &Lengths) {
        let dirt = [0; 3].map(|_| Dirt::any(rng));
        self.working.soil(rng, dirt[0], &lengths.working);
        self.row_output.soil(rng, dirt[0], lengths.working[15]);
        self.row_spans.soil(rng, dirt[0], lengths.working[16]);
        self.output.soil(rng, dirt[1], lengths.output);
        self.spans.soil(rng, dirt[2], lengths.spans);
        self.answer.soil(rng, Dirt::Words, 26);
    }

    fn lend_desks(&mut self, rng: &mut Rng, words: [u64; 16]) {
        self.desks.soil(rng, Dirt::Words, 16);
        self.desks.lent().copy_from_slice(&words);
    }

    fn check(&self) {
        self.desks.check("desks");
        self.head.check("head");
        self.table.check("table");
        self.files.check("files");
        self.pages.check("pages");
        self.marks.check("marks");
        self.output.check("output");
        self.spans.check("spans");
        self.answer.check("answer");
        self.working.check();
        self.row_output.check("row output");
        self.row_spans.check("row spans");
    }

    fn step(&mut self, steps: &mut dyn Steps, desk: u32, act: &Act) -> u32 {
        let desks = self.desks.lent().try_into().expect("sixteen words");
        let lent = Lent {
            head: self.head.lent().try_into().expect("five words"),
            table: self.table.lent(),
            files: self.files.lent(),
            pages: self.pages.lent(),
            marks: self.marks.lent(),
            output: self.output.lent(),
            spans: self.spans.lent(),
            answer: self.answer.lent().try_into().expect("26 words"),
        };
        match act.step {
            Step::Remove(place) => steps.remove(desk, desks, place, &act.sizes, lent),
            Step::Insert(place, file) => {
                let row = RowLent {
                    working: &mut self.working,
                    output: self.row_output.lent(),
                    spans: self.row_spans.lent(),
                };
                steps.insert(desk, desks, place, file, &act.sizes, &act.limits, lent, row)
            }
        }
    }

    fn render(&mut self, steps: &mut dyn Steps, desk: u32, call: &Call) -> u32 {
        let desks = self.desks.lent().try_into().expect("sixteen words");
        let answer = self.answer.lent().try_into().expect("26 words");
        let lent = RowLent { working: &mut self.working, output: self.output.lent(), spans: self.spans.lent() };
        steps.render(desk, desks, call.file, &call.settings, &call.sizes, &call.limits, lent, answer)
    }

    /// What was given, and where it is not as the model says, or altered what it must leave alone.
    fn given(
        &self,
        number: u32,
        answer: &Answer,
        desks: &Desks,
        output: &[u8],
        spans: &[[u64; 4]],
    ) -> (Given, Option<[String; 3]>) {
        let (told, right) = (self.answer.held().to_vec(), words(answer));
        let (put, list) = answer.as_ref().map_or((&[][..], vec![]), |page| (&page.bytes[..], rows(page)));
        let held = self.desks.held();
        let unlike = if told != right || u64::from(number) != right[0] {
            Some(["the answer".to_string(), format!("{told:?}, returned {number}"), format!("{right:?}")])
        } else if held != desks.words() {
            Some(["the desks".to_string(), format!("{held:?}"), format!("{:?}", desks.words())])
        } else if !is(self.output.held(), put, output) || !is(self.spans.held(), &list, spans) {
            let got = format!("{}\n{:?}", self.output.held().escape_ascii(), self.spans.held());
            Some(["output and spans".to_string(), got, describe(answer)])
        } else {
            None
        };
        let front = |word: usize, most: usize| (told[word] as usize).min(most);
        let (length, count) = (front(2, output.len()), front(3, spans.len()));
        let given = Given {
            bytes: self.output.held()[..length].to_vec(),
            spans: self.spans.held()[..count].to_vec(),
            desks: held.to_vec(),
            words: told,
        };
        (given, unlike)
    }

    /// The step for a desk on memory as it stands, which holds the report where it is sound. Where it is not as the model says, the report is put
    /// back.
    pub fn taken(
        &mut self,
        steps: &mut dyn Steps,
        rng: &mut Rng,
        (desk, desks): (u32, &Desks),
        report: &Report,
        act: &Act,
    ) -> Taken {
        self.soil(rng, &act.lengths);
        self.lend_desks(rng, desks.words());
        let lent = self.suffices(act);
        let mut desks = *desks;
        let (answer, after) = desks.step(desk, report, &act.step, &act.sizes, &act.limits, lent);
        let before = self.saved();
        let (output, spans) = (self.output.held().to_vec(), self.spans.held().to_vec());
        let number = self.step(steps, desk, act);
        self.check();
        let (given, mut unlike) = self.given(number, &answer, &desks, &output, &spans);
        if unlike.is_none() {
            let held = match &after {
                Some(after) => self.unlike(after),
                None => (self.saved() != before).then(|| "altered by a refusal".to_string()),
            };
            unlike = held.map(|held| ["the report in memory".to_string(), held, String::new()]);
        }
        if unlike.is_some() {
            self.put_back(&before);
        }
        let after = after.filter(|_| unlike.is_none());
        Taken { answer, after, given, unlike }
    }

    /// A call on one file for a desk, lent so much. There is no report.
    pub fn called(
        &mut self,
        steps: &mut dyn Steps,
        rng: &mut Rng,
        (desk, desks): (u32, &Desks),
        call: &Call,
        lent: &[usize; 17],
    ) -> Taken {
        let step = Step::Insert(0, call.file);
        let just = Lengths::of([0; 3], &step, &call.sizes);
        self.soil(rng, &Lengths { output: lent[15], spans: lent[16], working: *lent, ..just });
        self.lend_desks(rng, desks.words());
        let enough = lent.iter().zip(just.working).all(|(lent, need)| *lent >= need);
        let mut desks = *desks;
        let answer = desks.call(desk, call.file, &call.settings, &call.sizes, &call.limits, enough);
        let (output, spans) = (self.output.held().to_vec(), self.spans.held().to_vec());
        let number = self.render(steps, desk, call);
        self.check();
        let (given, unlike) = self.given(number, &answer, &desks, &output, &spans);
        Taken { answer, after: None, given, unlike }
    }

    /// A report that no step has written: so many rows without bytes, of files without bytes.
    pub fn empty_rows(&mut self, rng: &mut Rng, settings: Settings, rows: u32) -> Report {
        let Settings { width, newline_cost, policy, rule } = settings;
        self.head.soil(rng, Dirt::Words, 5);
        self.head.lent().copy_from_slice(&[rows, width, newline_cost, policy, rule]);
        self.table.soil(rng, Dirt::Words, ROWS);
        self.table.lent()[..rows as usize].fill([0; 8]);
        self.files.soil(rng, Dirt::Words, 0);
        self.pages.soil(rng, Dirt::Words, 0);
        self.marks.soil(rng, Dirt::Words, 0);
        self.memory().report()
    }

    /// A report without rows: its head, or what stands there where the setting is not right. Whether it is as it must be.
    pub fn open(&mut self, steps: &mut dyn Steps, rng: &mut Rng, settings: &Settings) -> bool {
        let right = in_order(settings);
        self.head.soil(rng, Dirt::Words, 5);
        let before = self.head.held().to_vec();
        let number = steps.open(settings, self.head.lent().try_into().expect("five words"));
        self.head.check("head");
        let Settings { width, newline_cost, policy, rule } = *settings;
        let want = if right { vec![0, width, newline_cost, policy, rule] } else { before };
        number == u32::from(!right) && self.head.held() == want
    }

    /// Whether nothing that is lent is a reason for 1.
    fn suffices(&self, act: &Act) -> bool {
        let memory = self.memory();
        let (output, spans) = (act.sizes.output as usize, act.sizes.spans as usize);
        let lent = &act.lengths;
        memory.sound()
            && in_order(&memory.settings())
            && lent.pages.min(lent.output) >= output
            && lent.marks.min(lent.spans) >= spans
            && match act.step {
                Step::Remove(_) => true,
                Step::Insert(_, file) => {
                    lent.files as u128 >= memory.sums()[0] + file.len() as u128
                        && lent.working.iter().zip(lengths(&act.sizes)).all(|(lent, need)| *lent >= need)
                }
            }
    }

    /// What of the memory is not as it must be if it holds the report. Of a row that no step has written, two words say nothing.
    fn unlike(&self, report: &Report) -> Option<String> {
        let memory = self.memory();
        let Settings { width, newline_cost, policy, rule } = report.settings;
        let head = [report.rows.len() as u32, width, newline_cost, policy, rule];
        if memory.head != head {
            return Some(format!("head {:?}, not {head:?}", memory.head));
        }
        let (mut files, mut pages, mut marks) = (memory.files, memory.pages, memory.marks);
        for (place, (row, words)) in report.rows.iter().zip(memory.table).enumerate() {
            let lengths = [row.file.len(), row.bytes.len(), row.spans.len()];
            let [file, page, spans] = lengths.map(|length| length as u64);
            let (high, low) = ((row.overflow >> 64) as u64, row.overflow as u64);
            let want = [file, page, spans, high, low, row.burden, rule.into(), 0];
            let said = if row.tables.is_some() { 8 } else { 6 };
            if words[..said] != want[..said] {
                return Some(format!("row {place} of the table {words:?}, not {want:?}"));
            }
            let own: Vec<[u32; 4]> = row
                .spans
                .iter()
                .map(|span| {
                    let parent = span.parent.map_or(0, |parent| parent + 1);
                    [span.annotation, span.start as u32, span.end as u32, parent as u32]
                })
                .collect();
            for (what, same) in [
                ("file", files.starts_with(&row.file)),
                ("page", pages.starts_with(&row.bytes)),
                ("spans", marks.starts_with(&own)),
            ] {
                if !same {
                    return Some(format!("{what} of row {place}"));
                }
            }
            (files, pages, marks) = (&files[lengths[0]..], &pages[lengths[1]..], &marks[lengths[2]..]);
        }
        None
    }
}

/// Bytes of files, bytes of pages, spans.
pub fn sums(report: &Report) -> [usize; 3] {
    let rows = &report.rows;
    [
        rows.iter().map(|row| row.file.len()).sum(),
        rows.iter().map(|row| row.bytes.len()).sum(),
        rows.iter().map(|row| row.spans.len()).sum(),
    ]
}

/// The words of an answer.
pub fn words(answer: &Answer) -> [u64; 26] {
    let mut words = [0; 26];
    let counts = match answer {
        Ok(page) => {
            let head = [page.bytes.len() as u64, page.spans.len() as u64];
            words[2..4].copy_from_slice(&head);
            words[4..7].copy_from_slice(&[(page.overflow >> 64) as u64, page.overflow as u64, page.burden]);
            words[17..].copy_from_slice(&page.needs.list().map(u64::from));
            page.counts
        }
        Err(refusal) => {
            words[..2].copy_from_slice(&[refusal.number.into(), refusal.needed]);
            refusal.counts
        }
    };
    words[7..17].copy_from_slice(&counts.list());
    words
}

/// A span's row of words.
pub fn rows(page: &Page) -> Vec<[u64; 4]> {
    let row = |span: &common::Span| {
        [span.annotation.into(), span.start, span.end, span.parent.map_or(0, |parent| parent + 1)]
    };
    page.spans.iter().map(row).collect()
}

pub struct Runner {
    pub comparer: Comparer,
    pub tally: Tally,
    steps: Box<dyn Steps>,
    lends: Lends,
    /// Of dirt alone.
    rng: Rng,
    /// The steps' answers alone, and nothing is printed: for impostors.
    quiet: bool,
    /// How many layouts a file of the sequence has, where they are few.
    layouts: HashMap<Vec<u8>, Option<usize>>,
}

impl Runner {
    fn new(steps: Box<dyn Steps>, quiet: bool) -> Runner {
        let ours = if quiet { None } else { ours::linked() };
        Runner {
            comparer: Comparer { tally: Default::default(), ours },
            tally: Tally::default(),
            steps,
            lends: Lends::new(),
            rng: Rng::new(2),
            quiet,
            layouts: HashMap::new(),
        }
    }

    pub fn differ(&mut self, what: &str, report: &Report, act: &Act, left: &str, right: &str) {
        self.comparer.tally.differences += 1;
        if self.quiet {
            return;
        }
        let Settings { width, newline_cost, policy, rule } = report.settings;
        println!("DIFFERENCE: {what}\nsettings {width} {newline_cost} {policy} {rule}, rows {}", report.rows.len());
        for row in report.rows.iter().take(12) {
            println!("row {}", to_hex(&row.file));
        }
        println!("{}--- left\n{left}\n--- right\n{right}\n", act.describe());
    }

    pub fn open(&mut self, settings: Settings) -> Report {
        self.tally.opened[usize::from(!in_order(&settings))] += 1;
        if !self.lends.open(&mut *self.steps, &mut self.rng, &settings) {
            self.comparer.tally.differences += 1;
            if !self.quiet {
                println!("DIFFERENCE: open {settings:?}: head {:?}", self.lends.head.held());
            }
        }
        Report::open(settings)
    }

    /// The cost words of a row as they stand in memory altered: the report that is then read off it.
    pub fn alter(&mut self, row: usize, cost: [u64; 3]) -> Report {
        self.lends.table.lent()[row][3..6].copy_from_slice(&cost);
        self.lends.memory().report()
    }

    /// One documents that were refused where the step was not.
    pub fn only_documents(&self) -> u64 {
        self.tally.documents[3]
    }

    pub fn quiet(&self) -> bool {
        self.quiet
    }

    /// The step on the report, of which the memory is lent as the act says.
    pub fn lent(&mut self, report: &Report, act: &Act) -> (Answer, Option<Report>) {
        self.lends.lend_report(&mut self.rng, report, &act.lengths);
        self.attempt(report, act)
    }

    /// The answer's words alone, of a step that takes the model too long.
    pub fn told(&mut self, report: &Report, act: &Act) -> Vec<u64> {
        self.lends.lend_report(&mut self.rng, report, &act.lengths);
        self.lends.soil(&mut self.rng, &act.lengths);
        let desks = ours::free(|| self.rng.word());
        self.lends.lend_desks(&mut self.rng, desks);
        self.lends.step(&mut *self.steps, 0, act);
        self.lends.check();
        self.lends.answer.held().to_vec()
    }

    /// The step on memory as it stands, for desk 0 that may do anything.
    fn attempt(&mut self, report: &Report, act: &Act) -> (Answer, Option<Report>) {
        let desks = Desks::of(ours::free(|| self.rng.word()));
        let taken = self.lends.taken(&mut *self.steps, &mut self.rng, (0, &desks), report, act);
        if let Some([what, left, right]) = taken.unlike {
            self.differ(&what, report, act, &left, &right);
        }
        (taken.answer, taken.after)
    }

    /// The page that the rows make is the one document's, by the model, by the reference, by our library where it is a file of the usual limits,
    /// and among all its layouts.
    pub fn one_document(&mut self, report: &Report, act: &Act) {
        let Some(one) = report.document().filter(|_| !self.quiet) else { return };
        let whole = report.whole();
        let settings = report.settings;
        let room = Sizes { output: 1 << 26, ..Sizes::MOST };
        let (answer, trace) = model::render(&one, &settings, &room, &Limits::NONE);
        self.tally.documents[0] += 1;
        let fits = whole.overflow.is_some() && whole.burden.is_some();
        let alike = match &answer {
            Ok(page) => {
                page.bytes == whole.bytes
                    && page.spans == whole.spans
                    && Some(page.overflow) == whole.overflow
                    && Some(page.burden) == whole.burden
            }
            // A cost that is not taken may be past its width.
            Err(refusal) => refusal.number == 26,
        };
        self.tally.documents[3] += u64::from(answer.is_err() && fits);
        if !alike {
            self.differ("the one document", report, act, &describe(&answer), &format!("{whole:?}"));
        }
        let needs = Sizes::of(trace.needs.map(|need| need as u32));
        let file = model::file::encode(&one);
        let call = Call { file: file.as_deref().unwrap_or(&[]), settings, sizes: needs, limits: Limits::NONE };
        self.tally.documents[1] += u64::from(shown(&settings, &answer));
        let document = reference::access::document(&one);
        let ours = if file.is_ok() { None } else { self.comparer.ours.take() };
        self.tally.documents[2] += u64::from(file.is_ok());
        self.comparer.hold(&call, Some((&one, &document)), &answer);
        if ours.is_some() {
            self.comparer.ours = ours;
        }
        if self.few_layouts(report) {
            self.comparer.enumerate(&call, &one, &answer);
        }
    }

    fn few_layouts(&mut self, report: &Report) -> bool {
        let mut all = 1usize;
        for row in &report.rows {
            let found = self.layouts.entry(row.file.clone()).or_insert_with(|| {
                let best = brute::best(row.tables.as_ref()?, &report.settings, 300, 100)?;
                Some(best.layouts)
            });
            let Some(count) = *found else { return false };
            all = all.saturating_mul(count);
        }
        all <= 2_000 && report.rows.len() <= 100
    }

    /// The row's own call, compared as any other.
    fn row(&mut self, settings: Settings, act: &Act) {
        let Step::Insert(_, file) = act.step else { return };
        if self.quiet {
            return;
        }
        let call = Call { file, settings, sizes: act.sizes, limits: act.limits };
        let tables = model::file::read(file).ok();
        let document = tables.as_ref().map(reference::access::document);
        let _ = self.comparer.call(&call, tables.as_ref().zip(document.as_ref()));
    }

    fn count(&mut self, report: &Report, act: &Act, answer: &Answer) {
        let insertion = matches!(act.step, Step::Insert(..));
        self.tally.steps[usize::from(!insertion)] += 1;
        let found = number(answer);
        self.tally.answers[found as usize] += 1;
        self.tally.most_rows = self.tally.most_rows.max(report.rows.len());
        self.tally.under[0] += u64::from(report.settings.rule == 2);
        self.tally.under[1] += u64::from(report.settings.policy == 1);
        if let Some(kind) = [20, 21, 26].iter().position(|kind| *kind == found) {
            self.tally.of_whole[kind] += u64::from(refused_whole(report, act, answer).is_some());
        }
    }

    /// A step with all that belongs to it. Where its page was as it must be, the report after it.
    pub fn step(&mut self, report: &Report, act: &Act) -> (Answer, Option<Report>) {
        let before = self.lends.saved();
        let (answer, after) = self.lent(report, act);
        self.count(report, act, &answer);
        if number(&answer) > 1 && !matches!(number(&answer), 23 | 24) || answer.is_ok() {
            self.row(report.settings, act);
        }
        if after.is_none() {
            self.lends.put_back(&before);
        }
        if let Some(made) = after.clone().or_else(|| refused_whole(report, act, &answer)) {
            self.one_document(&made, act);
        }
        (answer, after)
    }

    /// Change 10 for a step: at exactly its needs, and at larger sizes, the same answer; with one need smaller that kind's refusal.
    fn needs(&mut self, rng: &mut Rng, report: &Report, act: &Act, page: &Page) {
        self.tally.needs[0] += 1;
        let sums = sums(report);
        let met = Limits { work: page.counts.work, visits: page.counts.visits };
        let at = |runner: &mut Runner, sizes: Sizes, limits: Limits| {
            let before = runner.lends.saved();
            let act = Act { step: act.step, sizes, limits, lengths: Lengths::of(sums, &act.step, &sizes) };
            let (answer, _) = runner.lent(report, &act);
            runner.lends.put_back(&before);
            answer
        };
        let larger = Sizes::of(page.needs.list().map(|need| need + rng.within(0, 30)));
        for sizes in [page.needs, larger] {
            let answer = at(self, sizes, rng.pick(&[act.limits, met]));
            if answer.as_ref() != Ok(page) {
                self.differ("the same at its needs", report, act, &describe(&answer), &format!("{sizes:?}"));
            }
        }
        for (kind, size) in smaller(&page.needs) {
            self.tally.needs[1] += 1;
            let answer = at(self, with(&page.needs, kind, size), act.limits);
            let need = u64::from(page.needs.list()[kind]);
            let own = answer.as_ref().is_err_and(|refusal| {
                refusal.number == 13 + kind as u32 && refusal.needed > size.into() && refusal.needed <= need
            });
            if !own {
                let what = format!("refused by its own number, {} {size} for {need}", Sizes::NAMES[kind]);
                self.differ(&what, report, act, &describe(&answer), "");
            }
        }
    }

    /// Words of the report's memory, or what is lent of it, as they may not be; then all is put back.
    fn corrupted(&mut self, rng: &mut Rng, report: &Report, act: &mut Act) {
        let before = self.lends.saved();
        let (count, sums) = (report.rows.len(), sums(report));
        act.lengths = Lengths::of(sums, &act.step, &act.sizes);
        self.lends.lend_report(&mut self.rng, report, &act.lengths);
        let head = self.lends.head.lent();
        match rng.below(10) {
            0 => head[0] = rng.pick(&[1_025, 1_026, 1 << 16, u32::MAX]),
            1 => head[0] = rng.within(0, 1_024),
            2 => head[1] = 0,
            3 => head[3] = rng.pick(&[2, 3, u32::MAX]),
            4 => head[4] = rng.pick(&[0, 3, 257, u32::MAX]),
            5 if count > 0 => {
                let (row, word) = (rng.index(count), rng.index(3));
                let words = &mut self.lends.table.lent()[row];
                words[word] = rng.pick(&[words[word] + 1, words[word] + 1_000_000, 1 << 32, 1 << 63, u64::MAX, 0]);
            }
            // Two lengths whose sum is small again in 64 bits.
            6 if count > 1 => {
                let word = rng.index(3);
                let table = self.lends.table.lent();
                let both = table[0][word].wrapping_add(table[1][word]);
                table[0][word] = rng.pick(&[u64::MAX, 1 << 63, 1 << 40]);
                table[1][word] = both.wrapping_sub(table[0][word]);
            }
            7 => {
                act.lengths.table = rng.pick(&[0, 1, count, 1_023]);
                self.lends.table.lend(act.lengths.table);
            }
            _ => {
                let kind = rng.index(3);
                let less = sums[kind].saturating_sub(1);
                match kind {
                    0 => self.lends.files.lend(less),
                    1 => self.lends.pages.lend(less),
                    _ => self.lends.marks.lend(less),
                }
                *[&mut act.lengths.files, &mut act.lengths.pages, &mut act.lengths.marks][kind] = less;
            }
        }
        let memory = self.lends.memory();
        let sound = memory.sound();
        let held = if sound { memory.report() } else { report.clone() };
        self.tally.unsound += u64::from(!sound || !in_order(&held.settings));
        self.tally.alien += u64::from(sound);
        let (answer, _) = self.attempt(&held, act);
        self.count(&held, act, &answer);
        self.lends.put_back(&before);
    }

    /// Sound memory that no step has written, and the report in it.
    fn alien(&mut self, rng: &mut Rng, settings: Settings) -> Report {
        let count = match rng.below(6) {
            0 | 1 => rng.within(1_020, 1_024),
            2 => rng.within(0, 1_024),
            _ => rng.within(0, 12),
        };
        let Settings { width, newline_cost, policy, rule } = settings;
        let most = if count > 12 { 2 } else { 9 };
        let mut table: Vec<[u64; 8]> = (0..count)
            .map(|_| {
                let [file, page, spans] = [0; 3].map(|_| rng.below(most));
                [file, page, spans, 0, rng.below(9), rng.below(9), rng.word(), rng.word()]
            })
            .collect();
        // One row or two of any cost; or one with which the costs of all come near the end of their widths.
        match rng.below(4) {
            0 => {}
            1 => {
                for _ in 0..rng.within(1, 2).min(count) {
                    let row = &mut table[rng.index(count as usize)];
                    row[3..6]
                        .copy_from_slice(&[0; 3].map(|_| rng.pick(&[0, 9, 1 << 63, u64::MAX, rng.clone().word()])));
                }
            }
            _ if count == 0 => {}
            _ => {
                let lines = (u64::from(count) - 1) * u64::from(newline_cost);
                let burden = table.iter().map(|row| row[5]).sum::<u64>() + lines;
                let overflow = table.iter().map(|row| u128::from(row[4])).sum::<u128>();
                let row = &mut table[rng.index(count as usize)];
                let near = rng.below(3) + rng.below(2) * u64::from(newline_cost);
                if rng.chance(2) {
                    row[5] += (u64::MAX - burden).wrapping_sub(near);
                } else {
                    let more = u128::MAX - overflow - u128::from(rng.below(3)) + u128::from(row[4]);
                    row[3..5].copy_from_slice(&[(more >> 64) as u64, more as u64]);
                }
            }
        }
        let sums = [0, 1, 2].map(|word| table.iter().map(|row| row[word] as usize).sum::<usize>());
        let lends = &mut self.lends;
        lends.head.soil(rng, Dirt::Words, 5);
        lends.head.lent().copy_from_slice(&[count, width, newline_cost, policy, rule]);
        lends.table.soil(rng, Dirt::Words, ROWS);
        lends.table.lent()[..table.len()].copy_from_slice(&table);
        let dirt = [0; 2].map(|_| Dirt::any(rng));
        lends.files.soil(rng, dirt[0], sums[0]);
        lends.pages.soil(rng, dirt[1], sums[1]);
        let dirt = rng.pick(&[Dirt::Small, Dirt::Small, Dirt::Ones, Dirt::Words]);
        lends.marks.soil(rng, dirt, sums[2]);
        lends.memory().report()
    }
}

/// The report that a step came to before it was refused by the whole page.
fn refused_whole(report: &Report, act: &Act, answer: &Answer) -> Option<Report> {
    if !matches!(number(answer), 20 | 21 | 26) {
        return None;
    }
    match act.step {
        Step::Remove(place) => Some(report.without(place)),
        Step::Insert(place, file) => {
            let row = model::answer(file, &report.settings, &act.sizes, &act.limits).ok()?;
            Some(report.with(place, file, &row))
        }
    }
}

/// The new items, and behind them those that stood there.
fn is<T: PartialEq>(all: &[T], new: &[T], before: &[T]) -> bool {
    all.starts_with(new) && all[new.len()..] == before[new.len()..]
}

#[derive(Clone, Copy, PartialEq)]
pub enum Style {
    /// Few rows with few layouts.
    Small,
    Usual,
    /// Lines past a narrow page, mostly under rule 2.
    Narrow,
    /// Costs, columns and indents near their ends.
    Extreme,
    /// On memory that no step has written.
    Alien,
}

impl Style {
    const ALL: [Style; 12] = [
        Style::Small,
        Style::Small,
        Style::Small,
        Style::Small,
        Style::Usual,
        Style::Usual,
        Style::Usual,
        Style::Usual,
        Style::Narrow,
        Style::Extreme,
        Style::Extreme,
        Style::Alien,
    ];
}

/// The tables of a row; not much work.
fn tables(rng: &mut Rng, style: Style, settings: &Settings) -> Tables {
    loop {
        let tables = match style {
            Style::Small | Style::Alien => {
                let profile = rng.pick(&[Profile::Small, Profile::Small, Profile::Lines]);
                generate::files::tables(rng, profile)
            }
            Style::Usual => crate::accepted(rng, &mut Default::default()).0,
            Style::Narrow => generate::files::tables(rng, Profile::Lines),
            Style::Extreme => {
                let near = Profile::Near(settings.rule);
                let list = [Profile::Extreme, Profile::Heavy, Profile::Doubling, near, Profile::Deep];
                let profile = rng.pick(&list);
                generate::files::tables(rng, profile)
            }
        };
        let (answer, trace) = model::render(&tables, settings, &PROBE, &LIMITS);
        let most = if matches!(style, Style::Small | Style::Alien) { 200 } else { 2_000 };
        let cheap = match answer {
            Ok(page) => page.counts.work <= most && page.bytes.len() <= 1_500,
            Err(_) => style == Style::Extreme || rng.chance(20),
        };
        // Sizes that are lent.
        if cheap && trace.needs.iter().all(|need| *need < 1 << 17) {
            return tables;
        }
    }
}

pub fn file(rng: &mut Rng, style: Style, settings: &Settings) -> Vec<u8> {
    if style == Style::Extreme && rng.chance(8) {
        return crate::reports_fixed::dear_choice(rng.pick(&[0, 1, 2, u32::MAX]));
    }
    let tables = tables(rng, style, settings);
    let file = model::file::encode(&tables).expect("generated tables have the form");
    match rng.below(40) {
        0 => vec![],
        1 => file[..rng.index(file.len())].to_vec(),
        2 | 3 => generate::damage::file(rng, &file),
        4 => model::file::bytes(&generate::damage::texts(rng, &tables)),
        5 => model::file::bytes(&generate::damage::tables(rng, &tables)),
        _ => file,
    }
}

/// Sizes about what the row's call and the whole page need.
pub fn sizes(rng: &mut Rng, needs: Sizes, whole: (u32, u32)) -> Sizes {
    let exact = Sizes { output: whole.0, spans: whole.1, ..needs };
    let list = exact.list();
    match rng.below(12) {
        0..=4 => Sizes::of(list.map(|size| size + rng.within(0, 30))),
        5 => exact,
        6 => {
            let kind = rng.index(9);
            with(&exact, kind, list[kind].saturating_sub(1))
        }
        7 => Sizes { output: rng.within(0, whole.0), ..exact },
        8 => Sizes { output: needs.output + rng.within(0, 2), spans: needs.spans + rng.within(0, 1), ..exact },
        9 => Sizes { spans: rng.within(0, whole.1), ..exact },
        10 => Sizes::of(list.map(|size| if rng.chance(4) { rng.within(0, size) } else { size + 1 })),
        _ => Sizes::PAGE,
    }
}

pub fn place(rng: &mut Rng, places: usize) -> usize {
    match rng.below(16) {
        0 => places + rng.index(3),
        1 if rng.chance(3) => rng.pick(&[1_023, 1_024, 1_025, usize::MAX, 1 << 32, u32::MAX as usize]),
        2 | 3 => 0,
        4 | 5 => places.saturating_sub(1),
        _ if places > 0 => rng.index(places),
        _ => 0,
    }
}

/// A step with all that is drawn for it.
pub struct Drawn<'a> {
    pub act: Act<'a>,
    /// Whether a slice is one item short.
    pub short: bool,
    /// Of the row's own call under sizes that suffice; None where no file is read.
    pub row: Option<Answer>,
}

impl Drawn<'_> {
    /// In one step of so many a slice is short.
    pub fn new<'a>(rng: &mut Rng, report: &Report, step: Step<'a>, one_short: u64) -> Drawn<'a> {
        let tables = match step {
            Step::Insert(_, file) => model::file::read(file).ok(),
            Step::Remove(_) => None,
        };
        let probe = tables.map(|tables| model::render(&tables, &report.settings, &PROBE, &LIMITS));
        let needs = match (&probe, step) {
            (Some((_, trace)), _) => Sizes::of(trace.needs.map(|need| need as u32)),
            (None, Step::Remove(_)) => Sizes::NONE,
            (None, _) => Sizes { output: 64, spans: 8, ..Sizes::PAGE },
        };
        let place = match step {
            Step::Insert(place, _) | Step::Remove(place) => place,
        };
        let after = match (&probe, step) {
            (Some((Ok(page), _)), Step::Insert(_, file)) if place <= report.rows.len() => {
                report.with(place, file, page)
            }
            (_, Step::Remove(_)) if place < report.rows.len() => report.without(place),
            _ => report.clone(),
        };
        let whole = after.whole();
        let sizes = sizes(rng, needs, (whole.bytes.len() as u32, whole.spans.len() as u32));
        let row = probe.map(|(answer, _)| answer);
        let mut limits = LIMITS;
        if let (Some(answer), true) = (&row, rng.chance(10)) {
            let counts = crate::compare::counts(answer);
            let less = rng.below(2);
            match rng.below(2) {
                0 => limits.work = counts.work.saturating_sub(less),
                _ => limits.visits = counts.visits.saturating_sub(less),
            }
        }
        let just = Lengths::of(sums(report), &step, &sizes);
        let mut lengths = just.clone();
        if rng.chance(2) {
            let extra = rng.within(1, 3) as usize;
            for length in lengths.list() {
                *length += if rng.chance(2) { extra } else { 0 };
            }
        }
        let mut short = rng.chance(one_short);
        if short {
            let mut list = lengths.list();
            let most = if matches!(step, Step::Insert(..)) { list.len() } else { 6 };
            let at = if rng.chance(2) { rng.index(6) } else { rng.index(most) };
            // One short: no more than just suffices, less one.
            let just = *just.clone().list()[at];
            *list[at] = just.saturating_sub(1);
            short = just > 0;
        }
        Drawn { act: Act { step, sizes, limits, lengths }, short, row }
    }
}

impl Runner {
    fn sequence(&mut self, seed: u64, index: u64) {
        let mut own = Rng::of_case(seed ^ 1 << 59, index);
        let rng = &mut own;
        self.tally.sequences += 1;
        self.layouts.clear();
        let style = rng.pick(&Style::ALL);
        let mut settings = generate::settings(rng, style == Style::Extreme);
        settings.rule = 1 + u32::from(rng.chance(3));
        if style == Style::Narrow {
            settings = Settings { rule: rng.pick(&[1, 2, 2]), ..generate::narrow(rng) };
        }
        if rng.chance(10) {
            let [width, policy, rule] =
                rng.pick(&[[0, 0, 1], [1, 2, 1], [1, u32::MAX, 2], [1, 0, 0], [1, 1, 3], [0, 9, 9]]);
            self.open(Settings { width, policy, rule, ..settings });
        }
        let mut report = self.open(settings);
        let alien = style == Style::Alien;
        if alien {
            report = self.alien(rng, settings);
        }
        let mut pool: Vec<Vec<u8>> = (0..rng.within(1, 4)).map(|_| file(rng, style, &settings)).collect();
        // Rows until the report is left to grow no more.
        let few = match style {
            Style::Small => rng.within(1, 5),
            Style::Alien => rng.pick(&[8, 2_000]),
            _ => rng.within(1, 60),
        } as usize;
        for _ in 0..rng.within(1, 60) {
            let count = report.rows.len();
            let often = if count < few { 4 } else { 2 };
            let inserted = if rng.below(5) < often || count == 0 && rng.chance(2) {
                if rng.chance(3) {
                    let new = file(rng, style, &settings);
                    let at = rng.index(pool.len());
                    pool[at] = new;
                }
                Some(pool[rng.index(pool.len())].clone())
            } else {
                None
            };
            let step = match &inserted {
                Some(file) => Step::Insert(place(rng, count + 1), file),
                None => Step::Remove(place(rng, count)),
            };
            self.drawn(rng, &mut report, step, alien);
            if self.comparer.tally.differences >= 20 {
                return;
            }
        }
    }

    /// A step with sizes, limits and lengths drawn.
    fn drawn(&mut self, rng: &mut Rng, report: &mut Report, step: Step, alien: bool) {
        let Drawn { mut act, short, .. } = Drawn::new(rng, report, step, 15);
        self.tally.short += u64::from(short);
        self.tally.alien += u64::from(alien);
        let before = rng.chance(8).then(|| self.lends.saved());
        let (answer, next) = self.step(report, &act);
        if let (Ok(page), Some(next)) = (&answer, next) {
            if let Some(before) = before {
                // On the report before the step.
                let done = self.lends.saved();
                self.lends.put_back(&before);
                self.needs(rng, report, &act, page);
                self.lends.put_back(&done);
            }
            *report = next;
        }
        if rng.chance(15) {
            self.corrupted(rng, report, &mut act);
        }
    }
}

/// What is run in sequences, each made from a seed and its number.
pub trait Sequences {
    fn sequence(&mut self, seed: u64, index: u64);
    fn taken(&self) -> u64;
    fn differences(&self) -> u64;
}

impl Sequences for Runner {
    fn sequence(&mut self, seed: u64, index: u64) {
        Runner::sequence(self, seed, index);
    }

    fn taken(&self) -> u64 {
        self.steps_taken()
    }

    fn differences(&self) -> u64 {
        self.comparer.tally.differences
    }
}

/// Sequences until so many steps or calls are taken, or one alone; it stops where there are many differences.
pub fn sequences(runner: &mut impl Sequences, what: &str, by: &str, seed: u64, most: u64, only: Option<u64>) {
    let start = Instant::now();
    let (mut index, mut shown) = (only.unwrap_or(0), 0);
    let last = if only.is_some() { index } else { u64::MAX };
    while runner.taken() < most && index <= last {
        let before = runner.differences();
        runner.sequence(seed, index);
        let differences = runner.differences();
        if differences > before {
            println!("(that was --seed {seed} --sequence {index})");
        }
        if differences >= 20 {
            println!("stopped: enough differences");
            break;
        }
        let seconds = start.elapsed().as_secs();
        if seconds > shown {
            shown = seconds;
            eprint!("\r{} of {most} {what}, {differences} differences, {seconds} s  ", runner.taken());
        }
        index += 1;
    }
    eprintln!();
    println!("seed {seed}: {} {what} by {by} in {:.1} s", runner.taken(), start.elapsed().as_secs_f64());
}

/// Steps on the library, or on the stand-in where that is asked for or no library is linked.
pub fn run(seed: u64, steps: u64, only: Option<u64>, stand_in: bool) -> i32 {
    let linked = ours::steps().filter(|_| !stand_in);
    let by = if linked.is_some() { "our library" } else { "the stand-in" };
    let mut runner = Runner::new(linked.unwrap_or(Box::new(Standin::new(None))), false);
    crate::reports_fixed::run(&mut runner);
    sequences(&mut runner, "steps", by, seed, steps, only);
    runner.report();
    i32::from(runner.comparer.tally.differences > 0)
}

/// Each impostor must differ within so many random steps. A run that stops, because a guard is gone or the impostor cannot go on, differs too.
pub fn impostors(seed: u64, steps: u64) -> i32 {
    let mut missed = 0;
    std::panic::set_hook(Box::new(|_| {}));
    for slip in Slip::OF_REPORTS {
        let differs = |run: &mut dyn FnMut(&mut Runner)| {
            let mut runner = Runner::new(Box::new(Standin::new(Some(slip))), true);
            let stopped = catch_unwind(AssertUnwindSafe(|| run(&mut runner))).is_err();
            (stopped || runner.comparer.tally.differences > 0, runner.steps_taken())
        };
        let (fixed, _) = differs(&mut crate::reports_fixed::run);
        let (random, after) = differs(&mut |runner| {
            let mut index = 0;
            while runner.steps_taken() < steps && runner.comparer.tally.differences == 0 {
                runner.sequence(seed, index);
                index += 1;
            }
        });
        missed += i32::from(!random);
        let found = |found: bool| if found { "found" } else { "NOT FOUND" };
        println!("{slip:?}: by the fixed cases {}, by random steps {}, {after} steps", found(fixed), found(random));
    }
    println!("impostors {}, not found by random steps {missed}", Slip::OF_REPORTS.len());
    i32::from(missed > 0)
}

/// Rows whose costs come past their width by themselves.
pub fn dear(stand_in: bool) -> i32 {
    let linked = ours::steps().filter(|_| !stand_in);
    let mut runner = Runner::new(linked.unwrap_or(Box::new(Standin::new(None))), false);
    crate::reports_fixed::dear(&mut runner);
    i32::from(runner.comparer.tally.differences > 0)
}

impl Runner {
    fn steps_taken(&self) -> u64 {
        self.tally.steps.iter().sum()
    }

    fn report(&self) {
        let (tally, rows) = (&self.tally, &self.comparer.tally);
        let named = |number: &usize| {
            let name = if *number == 0 { "page".to_string() } else { number.to_string() };
            format!("{name}: {}", tally.answers[*number])
        };
        let answers: Vec<String> =
            (0..27).filter(|number| tally.answers[*number] > 0).map(|number| named(&number)).collect();
        println!(
            "sequences {}, insertions {}, removals {}; under rule 2 {}, under policy 1 {}; most rows {}",
            tally.sequences, tally.steps[0], tally.steps[1], tally.under[0], tally.under[1], tally.most_rows
        );
        println!("answers {}", answers.join(", "));
        println!("by the whole page 20: {}, 21: {}, 26: {}", tally.of_whole[0], tally.of_whole[1], tally.of_whole[2]);
        println!(
            "opened {}, not opened {}; a slice one short {}; memory not sound {}; memory that no step has written {}",
            tally.opened[0], tally.opened[1], tally.short, tally.unsound, tally.alien
        );
        let [documents, shown, files, past] = tally.documents;
        println!(
            "one documents {documents}: by the reference {shown}, as a file {files}, enumerated {} ({} layouts, {} with a tie), refused where the step is not {past}",
            rows.enumerated, rows.layouts, rows.ties
        );
        println!("rows' own calls {}, by the reference {}", rows.cases, rows.by_reference);
        println!("needs: pages {}, steps with one size smaller {}", tally.needs[0], tally.needs[1]);
        println!("differences {}", rows.differences);
    }
}
