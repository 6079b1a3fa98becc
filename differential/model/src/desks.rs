//! Work counted by desk, from document 02 (change 8): the record that eight desks share, and a call and a step for one of them. Of the call
//! itself it takes the model's answer.

use common::{Answer, Limits, Refusal, Settings, Sizes};

use crate::report::{Report, Step};

/// "A 64-bit allowance and spent count for each desk, kept between calls."
#[derive(Clone, Copy, Debug, Eq, PartialEq)]
pub struct Desks {
    pub allowance: [u64; 8],
    pub spent: [u64; 8],
}

impl Desks {
    /// Nothing spent.
    pub fn all(allowance: u64) -> Desks {
        Desks { allowance: [allowance; 8], spent: [0; 8] }
    }

    pub fn of(words: [u64; 16]) -> Desks {
        Desks { allowance: std::array::from_fn(|at| words[at]), spent: std::array::from_fn(|at| words[8 + at]) }
    }

    /// As they are lent: allowances, then spent counts.
    pub fn words(&self) -> [u64; 16] {
        std::array::from_fn(|at| if at < 8 { self.allowance[at] } else { self.spent[at - 8] })
    }

    /// What the desk's count may grow by until it would pass the allowance.
    pub fn left(&self, desk: usize) -> u64 {
        self.allowance[desk].saturating_sub(self.spent[desk])
    }

    /// "Number 12 comes when the calling desk's count would pass its allowance, or the call its own work limit": whichever is less. The work of
    /// any answer is added to the desk's count. `lent`: neither what is lent nor the setting is a reason for 1.
    fn serve<T>(
        &mut self,
        desk: u32,
        lent: bool,
        limits: &Limits,
        call: impl FnOnce(&Limits) -> (Answer, Option<T>),
    ) -> (Answer, Option<T>) {
        if !lent {
            return (Err(Refusal::early(1)), None);
        }
        if desk > 7 {
            return (Err(Refusal::early(28)), None);
        }
        let desk = desk as usize;
        let (answer, more) = call(&Limits { work: limits.work.min(self.left(desk)), ..*limits });
        let work = common::counts(&answer).work;
        self.spent[desk] = self.spent[desk].checked_add(work).expect("the work is at most what was left");
        (answer, more)
    }

    /// A call on one file.
    pub fn call(
        &mut self,
        desk: u32,
        file: &[u8],
        settings: &Settings,
        sizes: &Sizes,
        limits: &Limits,
        lent: bool,
    ) -> Answer {
        let lent = lent && crate::right(settings);
        self.serve::<()>(desk, lent, limits, |limits| (crate::answer(file, settings, sizes, limits), None)).0
    }

    /// A step, as of [`Report::step`].
    pub fn step(
        &mut self,
        desk: u32,
        report: &Report,
        step: &Step,
        sizes: &Sizes,
        limits: &Limits,
        lent: bool,
    ) -> (Answer, Option<Report>) {
        self.serve(desk, lent, limits, |limits| report.step(step, sizes, limits, lent))
    }
}
