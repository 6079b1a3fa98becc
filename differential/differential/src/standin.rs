//! A stand-in for the library's calls for desks, on one file and on several, and its live reports, on the same memory: rows' words, files, pages
//! and spans moved as they stand there, work charged in the desks' words, and of a single call the model's answer. With it the harness runs where
//! the library is not linked; and with its impostors, each of which makes one slip, the harness shows that it finds them.

mod batch;

use common::{Counts, Limits, Refusal, Settings, Sizes, Span};

use crate::compare::in_order;
use crate::memory::{lengths, Working};
use crate::ours::{Lent, RowLent, Steps};
use crate::reports::{rows, words};

const ROWS: usize = 1_024;

#[derive(Clone, Copy, Debug, Eq, PartialEq)]
pub enum Slip {
    NoNewline,
    NewlineTooOften,
    NewlineFree,
    ParentsNotMoved,
    StartWithoutNewline,
    AnnotationsMoved,
    FullBeforePlace,
    PlaceBeforeOrder,
    FileBeforeFull,
    OutputLeft,
    TakenInBeforeOutput,
    MadeUpCounts,
    NoCountsOfWhole,
    NeededOfRow,
    NeedsOfRow,
    SpansBeforeOutput,
    OutputBeforeCost,
    RemovalFree,
    CarryLost,
    SumsWrap,
    NoSoundness,
    FilesNotTested,
    FilesNotMoved,
    MarksNotMoved,
    RowsOneMore,
    HeadStays,
    OutputCleared,
    RefusalWrites,
    WordsLeft,
    RuleForgotten,
    OpensAnything,
    ChargedToFirst,
    ChargedToNext,
    ChargedTwice,
    RefusedFree,
    VisitsCharged,
    SpentSet,
    SpentLowered,
    SpentAllAtTwelve,
    AllowanceUsed,
    GreaterLimit,
    AllowanceAlone,
    LimitAlone,
    OneUnitMore,
    OneUnitLess,
    LeftWraps,
    LeftOfAll,
    TwelveTellsNeeded,
    StackNotBeforeAllowance,
    RemovalWantsWork,
    SeventhRefused,
    EighthServed,
    DeskInEightBits,
    DeskBeforeOrder,
    DeskAfterPlace,
    DeskAfterFile,
    RefusedTakesNeeded,
    OldPlace,
    OldSpans,
    GapBetween,
    PositionsOfBatch,
    ParentsOfBatch,
    NeededOfBatch,
    NeedsOfBatch,
    WholeOutput,
    WholeSpans,
    SliceForSize,
    FirstRefusalEnds,
    EmptySkipped,
    RefusedReadAgain,
    RowOneFurther,
    RowsCleared,
    RefusedBatchWrites,
    RestCleared,
    SpentOfLast,
    AllowanceOfStart,
    WorkTogether,
    CountsOfFirst,
    CountsOfPages,
    CountsSummed,
    NoneClearsCounts,
    RefusedBatchKeepsCounts,
    SixtyFourRefused,
    SixtyFiveTaken,
    SixtyFourRows,
    RowsOfAll,
    LengthsOfSixtyFour,
    LengthsWrap,
    TooManyBeforeDesk,
    TooManyBeforeOrder,
}

impl Slip {
    /// Each must be found by steps for one desk that may do anything.
    pub const OF_REPORTS: [Slip; 31] = [
        Slip::NoNewline,
        Slip::NewlineTooOften,
        Slip::NewlineFree,
        Slip::ParentsNotMoved,
        Slip::StartWithoutNewline,
        Slip::AnnotationsMoved,
        Slip::FullBeforePlace,
        Slip::PlaceBeforeOrder,
        Slip::FileBeforeFull,
        Slip::OutputLeft,
        Slip::TakenInBeforeOutput,
        Slip::MadeUpCounts,
        Slip::NoCountsOfWhole,
        Slip::NeededOfRow,
        Slip::NeedsOfRow,
        Slip::SpansBeforeOutput,
        Slip::OutputBeforeCost,
        Slip::RemovalFree,
        Slip::CarryLost,
        Slip::SumsWrap,
        Slip::NoSoundness,
        Slip::FilesNotTested,
        Slip::FilesNotMoved,
        Slip::MarksNotMoved,
        Slip::RowsOneMore,
        Slip::HeadStays,
        Slip::OutputCleared,
        Slip::RefusalWrites,
        Slip::WordsLeft,
        Slip::RuleForgotten,
        Slip::OpensAnything,
    ];

    /// Each must be found by calls and steps of several desks.
    pub const OF_DESKS: [Slip; 25] = [
        Slip::ChargedToFirst,
        Slip::ChargedToNext,
        Slip::ChargedTwice,
        Slip::RefusedFree,
        Slip::VisitsCharged,
        Slip::SpentSet,
        Slip::SpentLowered,
        Slip::SpentAllAtTwelve,
        Slip::AllowanceUsed,
        Slip::GreaterLimit,
        Slip::AllowanceAlone,
        Slip::LimitAlone,
        Slip::OneUnitMore,
        Slip::OneUnitLess,
        Slip::LeftWraps,
        Slip::LeftOfAll,
        Slip::TwelveTellsNeeded,
        Slip::StackNotBeforeAllowance,
        Slip::RemovalWantsWork,
        Slip::SeventhRefused,
        Slip::EighthServed,
        Slip::DeskInEightBits,
        Slip::DeskBeforeOrder,
        Slip::DeskAfterPlace,
        Slip::DeskAfterFile,
    ];

    /// Each must be found by batches.
    pub const OF_BATCHES: [Slip; 34] = [
        Slip::RefusedTakesNeeded,
        Slip::OldPlace,
        Slip::OldSpans,
        Slip::GapBetween,
        Slip::PositionsOfBatch,
        Slip::ParentsOfBatch,
        Slip::NeededOfBatch,
        Slip::NeedsOfBatch,
        Slip::WholeOutput,
        Slip::WholeSpans,
        Slip::SliceForSize,
        Slip::FirstRefusalEnds,
        Slip::EmptySkipped,
        Slip::RefusedReadAgain,
        Slip::RowOneFurther,
        Slip::RowsCleared,
        Slip::RefusedBatchWrites,
        Slip::RestCleared,
        Slip::SpentOfLast,
        Slip::AllowanceOfStart,
        Slip::WorkTogether,
        Slip::CountsOfFirst,
        Slip::CountsOfPages,
        Slip::CountsSummed,
        Slip::NoneClearsCounts,
        Slip::RefusedBatchKeepsCounts,
        Slip::SixtyFourRefused,
        Slip::SixtyFiveTaken,
        Slip::SixtyFourRows,
        Slip::RowsOfAll,
        Slip::LengthsOfSixtyFour,
        Slip::LengthsWrap,
        Slip::TooManyBeforeDesk,
        Slip::TooManyBeforeOrder,
    ];

    /// Those by which what a desk gets depends on the others.
    pub const OF_OTHERS: [Slip; 5] =
        [Slip::ChargedToFirst, Slip::ChargedToNext, Slip::LeftOfAll, Slip::EighthServed, Slip::DeskInEightBits];
}

pub struct Standin {
    slip: Option<Slip>,
    /// Of the call under way: its desk and its words, and then its counts.
    desk: u32,
    desks: [u64; 16],
    counts: Counts,
}

/// A new row's file, and what the call on it is lent.
struct New<'a> {
    file: &'a [u8],
    limits: &'a Limits,
    row: RowLent<'a>,
}

/// A row's page as the stores have it.
#[derive(Default)]
struct Made {
    words: [u64; 8],
    bytes: Vec<u8>,
    marks: Vec<[u32; 4]>,
}

fn splice<T: Copy>(all: &mut [T], used: usize, at: usize, gone: usize, new: &[T]) {
    all.copy_within(at + gone..used, at + new.len());
    all[at..at + new.len()].copy_from_slice(new);
}

fn working_enough(working: &Working, sizes: &Sizes) -> bool {
    let held = [
        working.nodes.held().len(),
        working.edges.held().len(),
        working.choices.held().len(),
        working.texts.held().len(),
        working.bytes.held().len(),
        working.tasks.held().len(),
        working.results.held().len(),
        working.pending.held().len(),
        working.index.held().len(),
        working.entries.held().len(),
        working.kept.held().len(),
        working.frontier.held().len(),
        working.plans.held().len(),
        working.visit.held().len(),
        working.depth.held().len(),
    ];
    held.iter().zip(lengths(sizes)).all(|(held, need)| *held >= need)
}

/// Whether what is lent to a call, and its setting, are no reason for 1.
fn call_enough(settings: &Settings, sizes: &Sizes, lent: &RowLent) -> bool {
    in_order(settings)
        && working_enough(lent.working, sizes)
        && lent.output.len() >= sizes.output as usize
        && lent.spans.len() >= sizes.spans as usize
}

impl Standin {
    pub fn new(slip: Option<Slip>) -> Standin {
        Standin { slip, desk: 0, desks: [0; 16], counts: Counts::default() }
    }

    fn slips(&self, slip: Slip) -> bool {
        self.slip == Some(slip)
    }

    /// Whether there is no such desk.
    fn no_desk(&self) -> bool {
        match self.slip {
            Some(Slip::SeventhRefused) => self.desk > 6,
            Some(Slip::EighthServed) => self.desk > 8,
            Some(Slip::DeskInEightBits) => self.desk as u8 > 7,
            _ => self.desk > 7,
        }
    }

    /// Where its allowance stands.
    fn own(&self) -> usize {
        self.desk as usize % 8
    }

    /// The limits of a call: its own, and the work that the desk may still do.
    fn limits(&self, limits: &Limits) -> Limits {
        let (allowance, spent) = (self.desks[self.own()], self.desks[8 + self.own()]);
        let left = match self.slip {
            Some(Slip::LeftWraps) => allowance.wrapping_sub(spent),
            Some(Slip::LeftOfAll) => self.desks[8..].iter().fold(allowance, |left, spent| left.saturating_sub(*spent)),
            Some(Slip::OneUnitMore) => allowance.saturating_sub(spent).saturating_add(1),
            Some(Slip::OneUnitLess) => allowance.saturating_sub(spent).saturating_sub(1),
            _ => allowance.saturating_sub(spent),
        };
        let work = match self.slip {
            Some(Slip::GreaterLimit) => left.max(limits.work),
            Some(Slip::AllowanceAlone) => left,
            Some(Slip::LimitAlone) => limits.work,
            _ => left.min(limits.work),
        };
        // The model is not to go on for ever.
        Limits { work: work.min(100_000), visits: limits.visits }
    }

    /// The single call's answer.
    fn answer(&self, file: &[u8], settings: &Settings, sizes: &Sizes, limits: &Limits) -> common::Answer {
        let limits = self.limits(limits);
        if self.slips(Slip::StackNotBeforeAllowance) && limits.work == 0 && model::file::read(file).is_ok() {
            return Err(Refusal::early(12));
        }
        let answer = model::answer(file, settings, sizes, &limits);
        answer.map_err(|refusal| {
            let told = self.slips(Slip::TwelveTellsNeeded) && refusal.number == 12;
            Refusal { needed: if told { 1 } else { refusal.needed }, ..refusal }
        })
    }

    /// The desks' words after the call.
    fn charge(&self, number: u32, desks: &mut [u64; 16]) {
        let counts = self.counts;
        if self.no_desk() || self.slips(Slip::RefusedFree) && number != 0 {
            return;
        }
        let to = match self.slip {
            Some(Slip::ChargedToFirst) => 0,
            Some(Slip::ChargedToNext) => (self.own() + 1) % 8,
            _ => self.own(),
        };
        let work = match self.slip {
            Some(Slip::ChargedTwice) => 2 * counts.work,
            Some(Slip::VisitsCharged) => counts.visits,
            _ => counts.work,
        };
        let spent = &mut desks[8 + to];
        *spent = if self.slips(Slip::SpentSet) && number != 1 { work } else { spent.wrapping_add(work) };
        let allowance = &mut desks[self.own()];
        if self.slips(Slip::AllowanceUsed) {
            *allowance = allowance.saturating_sub(work);
        }
        let allowance = *allowance;
        let spent = &mut desks[8 + self.own()];
        if self.slips(Slip::SpentLowered) {
            *spent = (*spent).min(allowance);
        }
        if self.slips(Slip::SpentAllAtTwelve) && number == 12 {
            *spent = (*spent).max(allowance);
        }
    }

    /// The call for a desk: it leaves its counts.
    fn serve(&mut self, desk: u32, desks: &mut [u64; 16], call: impl FnOnce(&mut Standin) -> u32) -> u32 {
        (self.desk, self.desks, self.counts) = (desk, *desks, Counts::default());
        let number = call(self);
        self.charge(number, desks);
        number
    }

    /// A call on one file.
    fn single(
        &mut self,
        file: &[u8],
        settings: &Settings,
        sizes: &Sizes,
        limits: &Limits,
        lent: RowLent,
        answer: &mut [u64; 26],
    ) -> u32 {
        let enough = call_enough(settings, sizes, &lent);
        let gates = [(1, !enough), (28, self.no_desk())];
        let order = if self.slips(Slip::DeskBeforeOrder) { [1, 0] } else { [0, 1] };
        let mut said = Ok(());
        for (number, closed) in order.map(|at| gates[at]) {
            if closed && said.is_ok() {
                said = Err(Refusal::early(number));
            }
        }
        if self.slips(Slip::DeskAfterFile) && enough && self.no_desk() {
            said = model::file::read(file).map(|_| ()).map_err(Refusal::early).and(said);
        }
        let said = said.and_then(|()| self.answer(file, settings, sizes, limits));
        *answer = words(&said);
        match said {
            Ok(page) => {
                lent.output[..page.bytes.len()].copy_from_slice(&page.bytes);
                lent.spans[..page.spans.len()].copy_from_slice(&rows(&page));
                self.counts = page.counts;
                0
            }
            Err(refusal) => {
                self.counts = refusal.counts;
                refusal.number
            }
        }
    }

    /// The sums of the first three words over the rows, where memory is sound.
    fn sums(&self, lent: &Lent) -> Option<[usize; 3]> {
        let rows = lent.head[0] as usize;
        if rows > ROWS || lent.table.len() < ROWS {
            return None;
        }
        let mut sums = [0u64; 3];
        for row in &lent.table[..rows] {
            for (sum, word) in sums.iter_mut().zip(row) {
                *sum = if self.slips(Slip::SumsWrap) { sum.wrapping_add(*word) } else { sum.checked_add(*word)? };
            }
        }
        let room = [lent.files.len(), lent.pages.len(), lent.marks.len()];
        if self.slips(Slip::NoSoundness) {
            // So far as it can go on at all.
            return Some([0, 1, 2].map(|at| (sums[at] as usize).min(room[at])));
        }
        sums.iter().zip(room).all(|(sum, room)| *sum <= room as u64).then_some(sums.map(|sum| sum as usize))
    }

    fn refuse(&mut self, lent: Lent, number: u32, needed: u64, counts: Counts) -> u32 {
        self.counts = counts;
        let was = lent.answer[9];
        *lent.answer = words(&Err(Refusal { number, needed, counts }));
        if self.slips(Slip::WordsLeft) {
            lent.answer[9] = was;
        }
        if self.slips(Slip::RefusalWrites) && number == 20 {
            if let Some(byte) = lent.output.first_mut() {
                *byte = byte.wrapping_add(1);
            }
        }
        number
    }

    fn step(&mut self, place: usize, new: Option<New>, sizes: &Sizes, mut lent: Lent) -> u32 {
        let none = Counts::default();
        let rows = lent.head[0] as usize;
        let [_, width, newline_cost, policy, rule] = *lent.head;
        let settings = Settings { width, newline_cost, policy, rule };
        let (output, spans) = (sizes.output as usize, sizes.spans as usize);
        let inserting = new.is_some();
        let there = place < rows + usize::from(inserting);
        if self.slips(Slip::PlaceBeforeOrder) && !there {
            return self.refuse(lent, 23, 0, none);
        }
        if self.slips(Slip::DeskBeforeOrder) && self.no_desk() {
            return self.refuse(lent, 28, 0, none);
        }
        let Some(sums) = self.sums(&lent) else { return self.refuse(lent, 1, 0, none) };
        let mut enough = in_order(&settings)
            && lent.pages.len().min(lent.output.len()) >= output
            && lent.marks.len().min(lent.spans.len()) >= spans;
        if let Some(new) = &new {
            enough &= working_enough(new.row.working, sizes)
                && new.row.output.len() >= output
                && new.row.spans.len() >= spans
                && lent.files.len() - sums[0] >= new.file.len();
            if self.slips(Slip::FilesNotTested) && lent.files.len() - sums[0] < new.file.len() {
                return self.refuse(lent, 20, new.file.len() as u64, none);
            }
        }
        if !enough {
            return self.refuse(lent, 1, 0, none);
        }
        if self.no_desk() && !matches!(self.slip, Some(Slip::DeskAfterPlace | Slip::DeskAfterFile)) {
            return self.refuse(lent, 28, 0, none);
        }
        if self.slips(Slip::FullBeforePlace) && inserting && rows == ROWS {
            return self.refuse(lent, 24, 0, none);
        }
        if !there {
            return self.refuse(lent, 23, 0, none);
        }
        if inserting && rows == ROWS {
            let file = new.as_ref().map_or(&[][..], |new| new.file);
            if self.slips(Slip::FileBeforeFull) && model::file::read(file).is_err() {
                return self.refuse(lent, 2, 0, none);
            }
            return self.refuse(lent, 24, 0, none);
        }
        if self.no_desk() {
            let file = new.as_ref().map_or(&[][..], |new| new.file);
            let read = if self.slips(Slip::DeskAfterFile) && inserting { model::file::read(file).err() } else { None };
            return self.refuse(lent, read.unwrap_or(28), 0, none);
        }
        if self.slips(Slip::RemovalWantsWork) && !inserting && self.limits(&Limits::NONE).work == 0 {
            return self.refuse(lent, 12, 0, none);
        }
        let (mut counts, mut needs, mut made) = (none, Sizes::NONE, Made::default());
        let mut file = &[][..];
        if let Some(new) = new {
            file = new.file;
            let mut own = *sizes;
            if self.slips(Slip::OutputLeft) {
                own.output = own.output.saturating_sub((sums[1] + rows) as u32);
            }
            let row = match self.answer(file, &settings, &own, new.limits) {
                Ok(row) => row,
                Err(refusal) => return self.refuse(lent, refusal.number, refusal.needed, refusal.counts),
            };
            // As a call leaves them.
            new.row.output[..row.bytes.len()].copy_from_slice(&row.bytes);
            new.row.working.tasks.lent()[0] = [7; 9];
            (counts, needs) = (row.counts, row.needs);
            made.marks = row.spans.iter().map(mark).collect();
            let (high, low) = ((row.overflow >> 64) as u64, row.overflow as u64);
            let rule = if self.slips(Slip::RuleForgotten) { 0 } else { rule.into() };
            made.words =
                [file.len() as u64, row.bytes.len() as u64, made.marks.len() as u64, high, low, row.burden, rule, 0];
            made.bytes = row.bytes;
        } else if self.slips(Slip::MadeUpCounts) {
            counts.work = 1;
        }

        // The rows as they will be.
        let gone = usize::from(!inserting);
        let mut table = lent.table[..rows].to_vec();
        table.splice(place..place + gone, inserting.then_some(made.words));
        let lines = table.len().saturating_sub(1);
        let charged = match self.slip {
            Some(Slip::NewlineTooOften) => table.len(),
            Some(Slip::NewlineFree) => 0,
            _ => lines,
        };
        let overflow = table.iter().try_fold(0u128, |sum, row| {
            let own = u128::from(row[3]) << 64 | u128::from(row[4]);
            if self.slips(Slip::CarryLost) {
                let low = (sum as u64).wrapping_add(own as u64);
                let high = (sum >> 64) + (own >> 64);
                return (high < 1 << 64).then_some(high << 64 | u128::from(low));
            }
            sum.checked_add(own)
        });
        let burden =
            charged as u128 * u128::from(newline_cost) + table.iter().map(|row| u128::from(row[5])).sum::<u128>();
        let burden = u64::try_from(burden).ok();
        let length = table.iter().map(|row| row[1]).sum::<u64>() + lines as u64;
        let count = table.iter().map(|row| row[2]).sum::<u64>();
        let of_whole = if self.slips(Slip::NoCountsOfWhole) { none } else { counts };
        let free = self.slips(Slip::RemovalFree) && !inserting;
        let past = [
            (26, 0, overflow.is_none() || burden.is_none()),
            (20, length, length > output as u64 && !free),
            (21, count, count > spans as u64 && !free),
        ];
        let order = match self.slip {
            Some(Slip::SpansBeforeOutput) => [0, 2, 1],
            Some(Slip::OutputBeforeCost) => [1, 0, 2],
            _ => [0, 1, 2],
        };
        if self.slips(Slip::TakenInBeforeOutput) && past[1].2 && inserting {
            // Far enough to be seen.
            splice(lent.files, sums[0], sums[0], 0, file);
        }
        for at in order {
            let (number, needed, past) = past[at];
            if past {
                let needed = if self.slips(Slip::NeededOfRow) && number == 20 { made.words[1] } else { needed };
                return self.refuse(lent, number, needed, of_whole);
            }
        }
        if free && length > output as u64 {
            return 0;
        }

        // Where the row stands that goes, or before which the new one comes.
        let start = |word: usize| lent.table[..place].iter().map(|row| row[word] as usize).sum::<usize>();
        let [file_at, page_at, mark_at] = [0, 1, 2].map(start);
        let old = if inserting { [0; 8] } else { lent.table[place] };
        if inserting || !self.slips(Slip::FilesNotMoved) {
            splice(lent.files, sums[0], file_at, old[0] as usize, file);
        }
        splice(lent.pages, sums[1], page_at, old[1] as usize, &made.bytes);
        if inserting || !self.slips(Slip::MarksNotMoved) {
            splice(lent.marks, sums[2], mark_at, old[2] as usize, &made.marks);
        }
        lent.table[..table.len()].copy_from_slice(&table);
        if !self.slips(Slip::HeadStays) {
            lent.head[0] = table.len() as u32;
        }
        if self.slips(Slip::RowsOneMore) && inserting && table.len() < ROWS {
            lent.table[table.len()][..3].fill(0);
            lent.head[0] += u32::from(table.len() == 7);
        }
        self.deliver(&table, &mut lent);
        let (overflow, burden) = (overflow.expect("it fits"), burden.expect("it fits"));
        let mut all = [0; 26];
        all[2..7].copy_from_slice(&[length, count, (overflow >> 64) as u64, overflow as u64, burden]);
        all[7..17].copy_from_slice(&counts.list());
        let whole = Sizes { output: length as u32, spans: count as u32, ..needs };
        let told = if self.slips(Slip::NeedsOfRow) { needs } else { whole };
        all[17..].copy_from_slice(&told.list().map(u64::from));
        *lent.answer = all;
        self.counts = counts;
        0
    }

    fn deliver(&self, table: &[[u64; 8]], lent: &mut Lent) {
        let (mut at, mut from, mut span) = (0, 0, 0);
        for (place, row) in table.iter().enumerate() {
            if place > 0 {
                if !self.slips(Slip::NoNewline) {
                    lent.output[at] = 10;
                }
                at += 1;
            }
            let first = span as u64;
            let base = if self.slips(Slip::StartWithoutNewline) { from } else { at } as u64;
            for _ in 0..row[2] {
                let [annotation, start, end, parent] = lent.marks[span].map(u64::from);
                let moved = if parent == 0 || self.slips(Slip::ParentsNotMoved) { parent } else { parent + first };
                let annotation =
                    if self.slips(Slip::AnnotationsMoved) { annotation + place as u64 } else { annotation };
                lent.spans[span] = [annotation, base + start, base + end, moved];
                span += 1;
            }
            let length = row[1] as usize;
            lent.output[at..at + length].copy_from_slice(&lent.pages[from..from + length]);
            (at, from) = (at + length, from + length);
        }
        if self.slips(Slip::OutputCleared) {
            lent.output[at..].fill(0);
        }
    }
}

fn mark(span: &Span) -> [u32; 4] {
    [span.annotation, span.start as u32, span.end as u32, span.parent.map_or(0, |parent| parent as u32 + 1)]
}

impl Steps for Standin {
    fn open(&mut self, settings: &Settings, head: &mut [u32; 5]) -> u32 {
        if !in_order(settings) && !self.slips(Slip::OpensAnything) {
            return 1;
        }
        *head = [0, settings.width, settings.newline_cost, settings.policy, settings.rule];
        0
    }

    fn render(
        &mut self,
        desk: u32,
        desks: &mut [u64; 16],
        file: &[u8],
        settings: &Settings,
        sizes: &Sizes,
        limits: &Limits,
        lent: RowLent<'_>,
        answer: &mut [u64; 26],
    ) -> u32 {
        self.serve(desk, desks, |own| own.single(file, settings, sizes, limits, lent, answer))
    }

    fn file_all(
        &mut self,
        desk: u32,
        desks: &mut [u64; 16],
        counts: &mut [u64; 10],
        files: &[u8],
        lengths: &[u32],
        settings: &Settings,
        sizes: &Sizes,
        limits: &Limits,
        lent: RowLent<'_>,
        answers: &mut [[u64; 26]],
    ) -> u32 {
        self.batch(batch::Asked { desk, files, lengths, settings, sizes, limits }, desks, counts, lent, answers)
    }

    fn insert(
        &mut self,
        desk: u32,
        desks: &mut [u64; 16],
        place: usize,
        file: &[u8],
        sizes: &Sizes,
        limits: &Limits,
        lent: Lent<'_>,
        row: RowLent<'_>,
    ) -> u32 {
        self.serve(desk, desks, |own| own.step(place, Some(New { file, limits, row }), sizes, lent))
    }

    fn remove(&mut self, desk: u32, desks: &mut [u64; 16], place: usize, sizes: &Sizes, lent: Lent<'_>) -> u32 {
        self.serve(desk, desks, |own| own.step(place, None, sizes, lent))
    }
}
