//! A shift's files in one call, from document 02 (change 9): the model's single call for a desk, once for each document, with the output and
//! spans that are then free.

use common::{Answer, Counts, Limits, Settings, Sizes};

use crate::desks::Desks;

/// "One call takes up to 64 documents."
pub const MOST: usize = 64;

/// What is kept from call to call: the desks, and the counts of the last call.
#[derive(Clone, Copy, Debug, Eq, PartialEq)]
pub struct Record {
    pub desks: Desks,
    pub counts: Counts,
}

pub struct Batch<'a> {
    pub desk: u32,
    /// The documents' bytes one behind the other, and the number of bytes of each.
    pub files: &'a [u8],
    pub lengths: &'a [u32],
    pub settings: Settings,
    pub sizes: Sizes,
    pub limits: Limits,
    /// Whether all that a single call is lent suffices for the whole sizes.
    pub lent: bool,
    /// How many answers there is room for.
    pub rows: usize,
}

impl Batch<'_> {
    /// "More than 64 documents is 29, tested after order and the desk, before any document." 0: the documents are tried.
    fn number(&self) -> u32 {
        let together: u64 = self.lengths.iter().map(|length| u64::from(*length)).sum();
        let room = self.rows >= self.lengths.len().min(MOST) && together <= self.files.len() as u64;
        let refusals = [
            (1, !(self.lent && room && crate::right(&self.settings))),
            (28, self.desk > 7),
            (29, self.lengths.len() > MOST),
        ];
        refusals.iter().find(|(_, met)| *met).map_or(0, |(number, _)| *number)
    }

    /// The answers in order, or the batch's own number. "No document alters nothing."
    pub fn file(&self, record: &mut Record) -> Result<Vec<Answer>, u32> {
        let number = self.number();
        if number != 0 {
            if !self.lengths.is_empty() {
                record.counts = Counts::default();
            }
            return Err(number);
        }
        let (mut files, mut free, mut answers) = (self.files, self.sizes, Vec::new());
        for length in self.lengths {
            let (file, rest) = files.split_at(*length as usize);
            let answer = record.desks.call(self.desk, file, &self.settings, &free, &self.limits, true);
            files = rest;
            if let Ok(page) = &answer {
                free.output -= page.bytes.len() as u32;
                free.spans -= page.spans.len() as u32;
            }
            record.counts = common::counts(&answer);
            answers.push(answer);
        }
        Ok(answers)
    }
}
