//! Several files in one call: random batches, each made three times on the same dirty memory: in one call, document by document by single calls
//! on the parts that are free, and by the model. The number, all rows of answers, output, spans, the desks' sixteen words and the record's ten
//! counts must be alike, what must stay as it was too.

use std::panic::{catch_unwind, AssertUnwindSafe};
use std::rc::Rc;

use common::{to_hex, Answer, Counts, Limits, Page, Settings, Sizes};
use generate::Rng;
use model::batch::{Batch, Record, MOST};
use model::desks::Desks;

use crate::compare::{counts, number, PROBE};
use crate::desks::{about, account, setting, work_limit};
use crate::memory::{lengths, Dirt, Store, Working};
use crate::needs::with;
use crate::ours::{self, RowLent, Steps};
use crate::reports::{file, rows, sequences, words, Sequences, Style, LIMITS};
use crate::standin::{Slip, Standin};

#[derive(Default)]
pub struct Tally {
    batches: u64,
    /// By the batch's own number; 0: the documents were tried. Of these, those without a document.
    own: [u64; 30],
    none: [u64; 30],
    /// Those made again by single calls.
    again: u64,
    /// By the number of a document; 0 is a page.
    answers: [u64; 29],
    /// Batches in which a page came after a 20 or a 21; in which a 12 came after a page.
    followed: u64,
    worked: u64,
    pub differences: u64,
}

/// A batch as it is asked for.
pub struct Asked {
    pub desk: u32,
    pub record: Record,
    pub files: Vec<u8>,
    pub lengths: Vec<u32>,
    pub settings: Settings,
    pub sizes: Sizes,
    pub limits: Limits,
    /// How long the slices of a single call are, and how many rows of answers there are.
    pub lent: [usize; 17],
    pub rows: usize,
}

impl Asked {
    fn modelled(&self) -> Batch<'_> {
        let lent = self.lent.iter().zip(lengths(&self.sizes)).all(|(lent, need)| *lent >= need);
        let Asked { desk, ref files, ref lengths, settings, sizes, limits, rows, .. } = *self;
        Batch { desk, files, lengths, settings, sizes, limits, lent, rows }
    }

    /// Whether single calls can be made for its documents: there are some, and nothing that batches alone ask for refuses them.
    fn by_singles(&self) -> bool {
        let together: u64 = self.lengths.iter().map(|length| u64::from(*length)).sum();
        (1..=MOST.min(self.rows)).contains(&self.lengths.len()) && together <= self.files.len() as u64
    }

    fn describe(&self) -> String {
        let Settings { width, newline_cost, policy, rule } = self.settings;
        let (mut rest, mut documents) = (&self.files[..], String::new());
        for length in &self.lengths {
            let file = &rest[..rest.len().min(*length as usize)];
            documents += &format!("file {} of {length}\n", to_hex(file));
            rest = &rest[file.len()..];
        }
        format!(
            "desk {}, desks {:?}\n{documents}bytes {}, rows {}\nsettings {width} {newline_cost} {policy} {rule}\nsizes {:?}\nlimits {} {}\nlent {:?}\n",
            self.desk,
            self.record.desks.words(),
            self.files.len(),
            self.rows,
            self.sizes.list(),
            self.limits.work,
            self.limits.visits,
            self.lent
        )
    }
}

/// What stands in memory, and the number that was returned.
#[derive(Clone, PartialEq)]
pub struct Left {
    pub number: u32,
    pub answers: Vec<[u64; 26]>,
    pub output: Vec<u8>,
    pub spans: Vec<[u64; 4]>,
    pub desks: Vec<u64>,
    pub counts: Vec<u64>,
}

impl Left {
    /// What the model's batch makes of this.
    fn after(&self, answers: &Result<Vec<Answer>, u32>, record: &Record) -> Left {
        let mut left = self.clone();
        left.number = *answers.as_ref().err().unwrap_or(&0);
        (left.desks, left.counts) = (record.desks.words().to_vec(), record.counts.list().to_vec());
        let (mut bytes, mut spans) = (Vec::new(), Vec::new());
        for (row, answer) in left.answers.iter_mut().zip(answers.iter().flatten()) {
            *row = words(answer);
            if let Ok(page) = answer {
                bytes.extend(&page.bytes);
                spans.extend(rows(page));
            }
        }
        left.output[..bytes.len()].copy_from_slice(&bytes);
        left.spans[..spans.len()].copy_from_slice(&spans);
        left
    }

    /// The first thing in which two differ.
    fn unlike(&self, other: &Left) -> Option<[String; 3]> {
        if self == other {
            return None;
        }
        let told = |left: &Left| {
            [
                ("the number", left.number.to_string()),
                ("the answers", format!("{:?}", left.answers)),
                ("the output", left.output.escape_ascii().to_string()),
                ("the spans", format!("{:?}", left.spans)),
                ("the desks", format!("{:?}", left.desks)),
                ("the counts", format!("{:?}", left.counts)),
            ]
        };
        let mut both = told(self).into_iter().zip(told(other));
        both.find(|(one, two)| one != two).map(|((what, one), (_, two))| [what.to_string(), one, two])
    }
}

/// All that a batch is lent.
struct Lends {
    desks: Store<u64>,
    counts: Store<u64>,
    working: Working,
    output: Store<u8>,
    spans: Store<[u64; 4]>,
    answers: Store<[u64; 26]>,
}

impl Lends {
    fn new() -> Lends {
        Lends {
            desks: Store::new(),
            counts: Store::new(),
            working: Working::new(),
            output: Store::new(),
            spans: Store::new(),
            answers: Store::new(),
        }
    }

    fn soil(&mut self, rng: &mut Rng, asked: &Asked) {
        let dirt = [0; 4].map(|_| Dirt::any(rng));
        self.working.soil(rng, dirt[0], &asked.lent);
        self.output.soil(rng, dirt[1], asked.lent[15]);
        self.spans.soil(rng, dirt[2], asked.lent[16]);
        self.answers.soil(rng, dirt[3], asked.rows);
        self.desks.soil(rng, Dirt::Words, 16);
        self.desks.lent().copy_from_slice(&asked.record.desks.words());
        self.counts.soil(rng, Dirt::Words, 10);
        self.counts.lent().copy_from_slice(&asked.record.counts.list());
    }

    fn left(&self, number: u32) -> Left {
        self.working.check();
        self.output.check("output");
        self.spans.check("spans");
        self.answers.check("answers");
        self.desks.check("desks");
        self.counts.check("counts");
        Left {
            number,
            answers: self.answers.held().to_vec(),
            output: self.output.held().to_vec(),
            spans: self.spans.held().to_vec(),
            desks: self.desks.held().to_vec(),
            counts: self.counts.held().to_vec(),
        }
    }

    fn put_back(&mut self, left: &Left) {
        self.answers.lent().copy_from_slice(&left.answers);
        self.output.lent().copy_from_slice(&left.output);
        self.spans.lent().copy_from_slice(&left.spans);
        self.desks.lent().copy_from_slice(&left.desks);
        self.counts.lent().copy_from_slice(&left.counts);
    }

    fn file_all(&mut self, steps: &mut dyn Steps, asked: &Asked) -> u32 {
        let Asked { desk, ref files, ref lengths, ref settings, ref sizes, ref limits, .. } = *asked;
        let desks = self.desks.lent().try_into().expect("sixteen words");
        let counts = self.counts.lent().try_into().expect("ten words");
        let lent = RowLent { working: &mut self.working, output: self.output.lent(), spans: self.spans.lent() };
        steps.file_all(desk, desks, counts, files, lengths, settings, sizes, limits, lent, self.answers.lent())
    }

    /// The documents by single calls, each on the parts that are free and with the record of the one before. 1 and 28 are those of the first, and
    /// no row of answers is written then.
    fn singles(&mut self, steps: &mut dyn Steps, rng: &mut Rng, asked: &Asked) -> u32 {
        let (mut files, mut used) = (&asked.files[..], [0; 2]);
        for (place, length) in asked.lengths.iter().enumerate() {
            let (file, rest) = files.split_at(*length as usize);
            let mut free = asked.sizes;
            free.output -= used[0] as u32;
            free.spans -= used[1] as u32;
            let desks = self.desks.lent().try_into().expect("sixteen words");
            let lent = RowLent {
                working: &mut self.working,
                output: &mut self.output.lent()[used[0]..],
                spans: &mut self.spans.lent()[used[1]..],
            };
            let mut answer = [0; 26].map(|_: u64| rng.word());
            let number =
                steps.render(asked.desk, desks, file, &asked.settings, &free, &asked.limits, lent, &mut answer);
            self.counts.lent().copy_from_slice(&answer[7..17]);
            if matches!(number, 1 | 28) {
                return number;
            }
            self.answers.lent()[place] = answer;
            files = rest;
            used = [used[0] + answer[2] as usize, used[1] + answer[3] as usize];
        }
        0
    }
}

pub struct Runner {
    pub tally: Tally,
    steps: Box<dyn Steps>,
    lends: Lends,
    /// Of dirt alone.
    rng: Rng,
    /// For impostors: nothing is printed.
    quiet: bool,
}

impl Runner {
    fn new(steps: Box<dyn Steps>, quiet: bool) -> Runner {
        Runner { tally: Tally::default(), steps, lends: Lends::new(), rng: Rng::new(4), quiet }
    }

    pub fn differ(&mut self, what: &str, asked: &Asked, left: &str, right: &str) {
        self.tally.differences += 1;
        if !self.quiet {
            println!("DIFFERENCE: {what}\n{}--- left\n{left}\n--- right\n{right}\n", asked.describe());
        }
    }

    /// The batch three times: what stood in memory before, and what one call left there.
    pub fn take(&mut self, asked: &Asked) -> (Left, Left) {
        self.lends.soil(&mut self.rng, asked);
        let before = self.lends.left(0);
        let mut record = asked.record;
        let answers = asked.modelled().file(&mut record);
        let modelled = before.after(&answers, &record);
        self.count(asked, &answers);
        let given = self.lends.file_all(&mut *self.steps, asked);
        let given = self.lends.left(given);
        if let Some([what, left, right]) = given.unlike(&modelled) {
            self.differ(&format!("{what}, by one call and by the model"), asked, &left, &right);
        }
        if asked.by_singles() {
            self.tally.again += 1;
            self.lends.put_back(&before);
            let singly = self.lends.singles(&mut *self.steps, &mut self.rng, asked);
            let singly = self.lends.left(singly);
            if let Some([what, left, right]) = given.unlike(&singly) {
                self.differ(&format!("{what}, by one call and by single calls"), asked, &left, &right);
            }
        }
        (before, given)
    }

    fn count(&mut self, asked: &Asked, answers: &Result<Vec<Answer>, u32>) {
        let tally = &mut self.tally;
        tally.batches += 1;
        let own = *answers.as_ref().err().unwrap_or(&0);
        tally.own[own as usize] += 1;
        tally.none[own as usize] += u64::from(asked.lengths.is_empty());
        let numbers: Vec<u32> = answers.iter().flatten().map(number).collect();
        for number in &numbers {
            tally.answers[*number as usize] += 1;
        }
        let follows = |first: &dyn Fn(u32) -> bool, second: u32| {
            numbers.iter().position(|number| first(*number)).is_some_and(|at| numbers[at..].contains(&second))
        };
        tally.followed += u64::from(follows(&|number| matches!(number, 20 | 21), 0));
        tally.worked += u64::from(follows(&|number| number == 0, 12));
    }
}

/// A file, what it needs, and its answer with enough of all; None where it is not read.
struct Document {
    file: Vec<u8>,
    needs: Sizes,
    answer: Option<Answer>,
}

impl Document {
    fn new(file: Vec<u8>, settings: &Settings) -> Rc<Document> {
        let Ok(tables) = model::file::read(&file) else {
            return Rc::new(Document { file, needs: Sizes::NONE, answer: None });
        };
        let (answer, trace) = model::render(&tables, settings, &PROBE, &LIMITS);
        let needs = Sizes::of(trace.needs.map(|need| need.min(1 << 17) as u32));
        Rc::new(Document { file, needs, answer: Some(answer) })
    }

    fn work(&self) -> u64 {
        self.answer.as_ref().map_or(0, |answer| counts(answer).work)
    }

    fn page(&self) -> Option<&Page> {
        self.answer.as_ref()?.as_ref().ok()
    }
}

/// So many, of a few files; one in twelve is empty.
fn documents(rng: &mut Rng, style: Style, settings: &Settings, count: usize) -> Vec<Rc<Document>> {
    let pool: Vec<Rc<Document>> =
        (0..rng.within(1, 6)).map(|_| Document::new(file(rng, style, settings), settings)).collect();
    let empty = Document::new(vec![], settings);
    (0..count).map(|_| if rng.chance(12) { empty.clone() } else { pool[rng.index(pool.len())].clone() }).collect()
}

/// How many documents: mostly few.
fn how_many(rng: &mut Rng) -> usize {
    let (least, most) = match rng.below(40) {
        0 | 1 => (0, 0),
        2 => (9, 62),
        3 => (63, 64),
        4 | 5 => (65, 70),
        _ => (1, 8),
    };
    rng.within(least, most) as usize
}

/// So much of what the documents take together: nothing, some, up to one of them, one item less, all, plenty.
fn part(rng: &mut Rng, takes: &[u64]) -> u64 {
    let all: u64 = takes.iter().sum();
    let first: u64 = takes[..rng.index(takes.len() + 1)].iter().sum();
    match rng.below(14) {
        0 => 0,
        1..=4 => rng.below(all + 1),
        5 | 6 => first,
        7 => first.saturating_sub(1),
        8 => all,
        9 => all.saturating_sub(1),
        _ => all + rng.below(200),
    }
}

/// Sizes about what the documents need: output and spans about what their pages have together.
fn sizes(rng: &mut Rng, documents: &[Rc<Document>]) -> Sizes {
    let most = |kind: usize| documents.iter().map(|document| document.needs.list()[kind]).max().unwrap_or(0);
    let list = std::array::from_fn(most);
    let (needs, kind) = (Sizes::of(list), rng.index(7));
    let sizes = match rng.below(12) {
        0 => with(&needs, kind, list[kind].saturating_sub(1)),
        1 => with(&needs, kind, rng.within(0, list[kind])),
        2 => Sizes::PAGE,
        3 | 4 => needs,
        _ => Sizes::of(list.map(|size| size + rng.within(0, 30))),
    };
    let pages = || documents.iter().filter_map(|document| document.page());
    let bytes: Vec<u64> = pages().map(|page| page.bytes.len() as u64).collect();
    let spans: Vec<u64> = pages().map(|page| page.spans.len() as u64).collect();
    Sizes { output: part(rng, &bytes) as u32, spans: part(rng, &spans) as u32, ..sizes }
}

/// The limits of the call: both are those of each document, so that they are about what the dearest takes.
fn limits(rng: &mut Rng, documents: &[Rc<Document>]) -> Limits {
    let answers = documents.iter().filter_map(|document| document.answer.as_ref());
    // One that gets no page would go on.
    let dearest = answers.max_by_key(|answer| (answer.is_err(), counts(answer).work));
    let mut limits = Limits { work: work_limit(rng, dearest, LIMITS.work), ..LIMITS };
    if rng.chance(15) {
        limits.visits = dearest.map_or(0, |answer| counts(answer).visits).saturating_sub(rng.below(2));
    }
    limits
}

/// The account of the desk: plenty, or about the work of all documents or of the first of them; all else is dirt.
fn record(rng: &mut Rng, desk: u32, documents: &[Rc<Document>]) -> Record {
    let mut desks = Desks::of([0; 16].map(|_: u64| rng.word()));
    let some = if rng.chance(2) { rng.index(documents.len() + 1) } else { documents.len() };
    let (work, spent) = (documents[..some].iter().map(|document| document.work()).sum(), rng.below(1_000));
    let own = desk as usize % 8;
    (desks.allowance[own], desks.spent[own]) = match rng.below(6) {
        0 => account(rng),
        1 | 2 => about(rng, work, spent),
        _ => (u64::MAX, rng.word() >> 1),
    };
    Record { desks, counts: Counts::of([0; 10].map(|_: u64| rng.word())) }
}

/// The bytes of the documents, at times with more behind them; or so that lengths pass them.
fn one_behind_the_other(rng: &mut Rng, documents: &[Rc<Document>], often: u64) -> (Vec<u8>, Vec<u32>) {
    let mut files: Vec<u8> = documents.iter().flat_map(|document| document.file.clone()).collect();
    let mut lengths: Vec<u32> = documents.iter().map(|document| document.file.len() as u32).collect();
    if rng.chance(3) {
        files.extend(&rng.word().to_le_bytes()[..1 + rng.index(5)]);
    } else if rng.chance(often) && !files.is_empty() {
        let place = rng.index(lengths.len());
        let others = documents.iter().map(|document| document.file.len()).sum::<usize>() as u32 - lengths[place];
        match rng.below(4) {
            0 => files.truncate(files.len() - 1),
            1 => files.truncate(files.len() - 1 - rng.index(files.len().min(40))),
            2 => lengths[place] += rng.within(1, 3),
            // Together few again in 32 bits.
            _ => lengths[place] = rng.within(0, others).wrapping_sub(others),
        }
    }
    (files, lengths)
}

fn drawn(rng: &mut Rng) -> Asked {
    let count = how_many(rng);
    let styles = [Style::Small, Style::Small, Style::Small, Style::Usual, Style::Narrow, Style::Extreme];
    let style = if count > 8 { Style::Small } else { rng.pick(&styles) };
    let mut settings = setting(rng, style);
    let documents = documents(rng, style, &settings, count);
    let desk = if rng.chance(12) { rng.pick(&[8, 9, 9, 255, 256, u32::MAX]) } else { rng.within(0, 7) };
    // Where there is one reason to refuse it, another is there more often.
    let often = if desk > 7 || count == 0 || count > MOST { 4 } else { 40 };
    let (sizes, limits, record) = (sizes(rng, &documents), limits(rng, &documents), record(rng, desk, &documents));
    if rng.chance(often) {
        let [width, policy, rule] = rng.pick(&[[0, 0, 1], [1, 2, 1], [1, 0, 0], [1, 1, 3]]);
        settings = Settings { width, policy, rule, ..settings };
    }
    let (files, lengths) = one_behind_the_other(rng, &documents, often);
    let (lent, rows) = lent(rng, &sizes, count, often);
    Asked { desk, record, files, lengths, settings, sizes, limits, lent, rows }
}

/// How much is lent: what just suffices, more, or one item less of a kind; and rows of answers.
fn lent(rng: &mut Rng, sizes: &Sizes, count: usize, often: u64) -> ([usize; 17], usize) {
    let mut lent = lengths(sizes);
    if rng.chance(2) {
        lent = lent.map(|length| length + rng.index(3));
        lent[15] += rng.index(100);
        lent[16] += rng.index(10);
    } else if rng.chance(often) {
        let kind = rng.index(17);
        lent[kind] = lent[kind].saturating_sub(1);
    }
    let least = count.min(MOST);
    let rows = match rng.below(3) {
        _ if rng.chance(often) => least.saturating_sub(1 + rng.index(2) * rng.index(least + 1)),
        0 => count,
        1 => least,
        _ => least + rng.index(6),
    };
    (lent, rows)
}

/// Each is one batch.
impl Sequences for Runner {
    fn sequence(&mut self, seed: u64, index: u64) {
        let asked = drawn(&mut Rng::of_case(seed ^ 1 << 57, index));
        self.take(&asked);
    }

    fn taken(&self) -> u64 {
        self.tally.batches
    }

    fn differences(&self) -> u64 {
        self.tally.differences
    }
}

/// Batches on the library, or on the stand-in where that is asked for or no library is linked.
pub fn run(seed: u64, batches: u64, only: Option<u64>, stand_in: bool) -> i32 {
    let linked = ours::steps().filter(|_| !stand_in);
    let by = if linked.is_some() { "our library" } else { "the stand-in" };
    let mut runner = Runner::new(linked.unwrap_or(Box::new(Standin::new(None))), false);
    crate::batches_fixed::run(&mut runner);
    sequences(&mut runner, "batches", by, seed, batches, only);
    runner.report();
    i32::from(runner.tally.differences > 0)
}

/// Each impostor must differ in the cases with known answers and within so many random batches, and the stand-in without a slip must not. A run
/// that stops, because a guard is gone or the impostor cannot go on, differs too.
pub fn impostors(seed: u64, batches: u64) -> i32 {
    let mut missed = 0;
    std::panic::set_hook(Box::new(|_| {}));
    for slip in std::iter::once(None).chain(Slip::OF_BATCHES.map(Some)) {
        let differs = |run: &mut dyn FnMut(&mut Runner)| {
            let mut runner = Runner::new(Box::new(Standin::new(slip)), true);
            let stopped = catch_unwind(AssertUnwindSafe(|| run(&mut runner))).is_err();
            (stopped || runner.tally.differences > 0, runner.tally.batches)
        };
        let (fixed, _) = differs(&mut crate::batches_fixed::run);
        let (random, after) = differs(&mut |runner| {
            let mut index = 0;
            while runner.tally.batches < batches && runner.tally.differences == 0 {
                runner.sequence(seed, index);
                index += 1;
            }
        });
        missed += i32::from([fixed, random] != [slip.is_some(); 2]);
        let name = slip.map_or("no slip".to_string(), |slip| format!("{slip:?}"));
        let [fixed, random] = [fixed, random].map(|found| if found { "found" } else { "not found" });
        println!("{name}: by the fixed cases {fixed}, by random batches {random}, {after} batches");
    }
    println!("impostors {}, not as it must be {missed}", Slip::OF_BATCHES.len());
    i32::from(missed > 0)
}

impl Runner {
    fn report(&self) {
        let tally = &self.tally;
        let named = |list: &[u64], first: &str| {
            let name = |number: usize| if number == 0 { first.to_string() } else { number.to_string() };
            let numbers = (0..list.len()).filter(|number| list[*number] > 0);
            numbers.map(|number| format!("{}: {}", name(number), list[number])).collect::<Vec<_>>().join(", ")
        };
        println!(
            "batches {}, their own numbers {}; of those without a document {}; by single calls too {}",
            tally.batches,
            named(&tally.own, "none"),
            named(&tally.none, "none"),
            tally.again
        );
        println!("documents {}, answers {}", tally.answers.iter().sum::<u64>(), named(&tally.answers, "page"));
        println!("batches with a page after a 20 or 21 {}, with a 12 after a page {}", tally.followed, tally.worked);
        println!("differences {}", tally.differences);
    }
}
