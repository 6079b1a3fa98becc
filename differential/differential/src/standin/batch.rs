//! Several files in one call, by the stand-in: its single calls one after the other on the parts that are free, and the slips of batches.

use common::{Limits, Refusal, Settings, Sizes};

use super::{call_enough, Slip, Standin};
use crate::ours::RowLent;
use crate::reports::words;

pub struct Asked<'a> {
    pub desk: u32,
    pub files: &'a [u8],
    pub lengths: &'a [u32],
    pub settings: &'a Settings,
    pub sizes: &'a Sizes,
    pub limits: &'a Limits,
}

/// How far the documents so far have come.
#[derive(Default)]
struct Used {
    files: usize,
    output: usize,
    spans: usize,
    work: u64,
}

impl Standin {
    /// The batch's own number.
    fn batch_number(&self, asked: &Asked, lent: &RowLent, rows: usize) -> u32 {
        let count = asked.lengths.len();
        let most = match self.slip {
            Some(Slip::SixtyFourRefused) => 63,
            Some(Slip::SixtyFiveTaken) => 65,
            _ => 64,
        };
        let asked_rows = match self.slip {
            Some(Slip::SixtyFourRows) => 64,
            Some(Slip::RowsOfAll) => count,
            _ => count.min(64),
        };
        let looked_at = if self.slips(Slip::LengthsOfSixtyFour) { count.min(64) } else { count };
        let sum = asked.lengths[..looked_at].iter().map(|length| u64::from(*length)).sum::<u64>();
        let sum = if self.slips(Slip::LengthsWrap) { u64::from(sum as u32) } else { sum };
        let enough =
            call_enough(asked.settings, asked.sizes, lent) && rows >= asked_rows && sum <= asked.files.len() as u64;
        let gates = [(1, !enough), (28, self.no_desk()), (29, count > most)];
        let order = match self.slip {
            Some(Slip::TooManyBeforeDesk) => [0, 2, 1],
            Some(Slip::TooManyBeforeOrder) => [2, 0, 1],
            _ => [0, 1, 2],
        };
        order.map(|at| gates[at]).iter().find(|(_, closed)| *closed).map_or(0, |(number, _)| *number)
    }

    /// What a batch leaves of which no document is tried.
    fn untried(&self, number: u32, count: usize, counts: &mut [u64; 10], answers: &mut [[u64; 26]]) {
        let cleared = match self.slip {
            Some(Slip::NoneClearsCounts) => true,
            Some(Slip::RefusedBatchKeepsCounts) => false,
            _ => count > 0,
        };
        if cleared {
            *counts = [0; 10];
        }
        if let (true, Some(row)) = (self.slips(Slip::RefusedBatchWrites), answers.first_mut()) {
            *row = words(&Err(Refusal::early(number)));
        }
    }

    pub(super) fn batch(
        &mut self,
        asked: Asked,
        desks: &mut [u64; 16],
        counts: &mut [u64; 10],
        mut lent: RowLent,
        answers: &mut [[u64; 26]],
    ) -> u32 {
        self.desk = asked.desk;
        let (count, begun) = (asked.lengths.len(), *desks);
        let number = self.batch_number(&asked, &lent, answers.len());
        if number != 0 || count == 0 {
            self.untried(number, count, counts, answers);
            return number;
        }
        let mut used = Used::default();
        for at in 0..count {
            if self.slips(Slip::EmptySkipped) && asked.lengths[at] == 0 {
                continue;
            }
            let row = self.document(&asked, at, &begun, desks, &mut lent, &mut used);
            self.keep(at, &row, counts);
            if let Some(place) = answers.get_mut(at + usize::from(self.slips(Slip::RowOneFurther))) {
                *place = row;
            }
            if self.slips(Slip::FirstRefusalEnds) && row[0] != 0 {
                break;
            }
        }
        if self.slips(Slip::RowsCleared) {
            answers[count..].fill([0; 26]);
        }
        if self.slips(Slip::RestCleared) {
            lent.output[used.output..].fill(0);
        }
        0
    }

    /// The counts of the record after a document.
    fn keep(&self, at: usize, row: &[u64; 26], counts: &mut [u64; 10]) {
        for (count, own) in counts.iter_mut().zip(&row[7..17]) {
            *count = match self.slip {
                Some(Slip::CountsOfFirst) if at > 0 => *count,
                Some(Slip::CountsOfPages) if row[0] != 0 => *count,
                Some(Slip::CountsSummed) if at > 0 => count.wrapping_add(*own),
                _ => *own,
            };
        }
    }

    /// One document on the parts that are free: the words of its answer.
    fn document(
        &mut self,
        asked: &Asked,
        at: usize,
        begun: &[u64; 16],
        desks: &mut [u64; 16],
        lent: &mut RowLent,
        used: &mut Used,
    ) -> [u64; 26] {
        let length = asked.lengths[at] as usize;
        let file = &asked.files[used.files..used.files + length];
        let (sizes, limits) = self.free(asked, lent.output.len(), used);
        let output = if self.slips(Slip::OldPlace) { 0 } else { used.output };
        let spans = if self.slips(Slip::OldSpans) { 0 } else { used.spans };
        let part =
            RowLent { working: lent.working, output: &mut lent.output[output..], spans: &mut lent.spans[spans..] };
        let mut answer = [0; 26];
        let before = *desks;
        if matches!(self.slip, Some(Slip::SpentOfLast | Slip::AllowanceOfStart)) {
            *desks = *begun;
        }
        self.serve(asked.desk, desks, |own| own.single(file, asked.settings, &sizes, &limits, part, &mut answer));
        if self.slips(Slip::AllowanceOfStart) {
            let spent = 8 + self.own();
            desks[spent] = before[spent].wrapping_add(answer[7]);
        }
        if !(self.slips(Slip::RefusedReadAgain) && answer[0] != 0) {
            used.files += length;
        }
        self.tell(asked, &mut lent.spans[spans..], used, &mut answer);
        answer
    }

    /// The sizes and limits of a document.
    fn free(&self, asked: &Asked, output: usize, used: &Used) -> (Sizes, Limits) {
        let whole = asked.sizes;
        let mut sizes = *whole;
        sizes.output -= used.output as u32;
        sizes.spans -= used.spans as u32;
        match self.slip {
            Some(Slip::WholeOutput) => sizes.output = whole.output,
            Some(Slip::WholeSpans) => sizes.spans = whole.spans,
            Some(Slip::SliceForSize) => sizes.output = (output - used.output) as u32,
            _ => {}
        }
        let together = if self.slips(Slip::WorkTogether) { used.work } else { 0 };
        (sizes, Limits { work: asked.limits.work.saturating_sub(together), ..*asked.limits })
    }

    /// What a document has used, and what its answer tells.
    fn tell(&self, asked: &Asked, spans: &mut [[u64; 4]], used: &mut Used, answer: &mut [u64; 26]) {
        let [number, needed, length, count, ..] = *answer;
        let (before, first) = (used.output as u64, used.spans as u64);
        used.work += answer[7];
        if number != 0 {
            if self.slips(Slip::RefusedTakesNeeded) && number == 20 {
                used.output = (used.output + needed as usize).min(asked.sizes.output as usize);
            }
            if self.slips(Slip::NeededOfBatch) && number == 20 {
                answer[1] += before;
            }
            return;
        }
        for row in &mut spans[..count as usize] {
            let moved = if self.slips(Slip::PositionsOfBatch) { before } else { 0 };
            row[1] += moved;
            row[2] += moved;
            row[3] += if self.slips(Slip::ParentsOfBatch) && row[3] != 0 { first } else { 0 };
        }
        if self.slips(Slip::NeedsOfBatch) {
            answer[24] += before;
        }
        used.output += length as usize;
        used.spans += count as usize;
        if self.slips(Slip::GapBetween) && used.output < asked.sizes.output as usize {
            used.output += 1;
        }
    }
}
