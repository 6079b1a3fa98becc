//! A plain model of the whole answer, written from documents 01 and 02 and docs/DECISIONS.md: the file's reader and writer, the solver, the
//! materializer, with every refusal, needed size, count and need. It shares no code with the reference and none with our library.
//! The solver is a recursion over nodes that carries the heights of the machine's stacks as numbers; a frontier is a plain list.

pub mod batch;
pub mod desks;
pub mod file;
mod materialize;
mod page;
pub mod report;
mod solve;
pub mod utf8;

pub use page::page;

use common::{Answer, Limits, Refusal, Settings, Sizes, Tables};

/// What a run met on its way.
#[derive(Clone, Copy, Debug, Default)]
pub struct Trace {
    /// The greatest need of each size (in the order of 13 to 21), as far as the run came. Of a page they are its needs.
    pub needs: [u64; 9],
    /// What passed its width, where the answer is 11, 25 or 26.
    pub reason: Option<Reason>,
}

#[derive(Clone, Copy, Debug, Eq, PartialEq)]
pub enum Reason {
    Column,
    Indent,
    Overflow,
    Burden,
}

impl Reason {
    /// Document 02, change 3.
    fn number(self) -> u32 {
        match self {
            Reason::Column => 11,
            Reason::Indent => 25,
            Reason::Overflow | Reason::Burden => 26,
        }
    }
}

/// Whether the settings are no reason for 1.
fn right(settings: &Settings) -> bool {
    settings.width > 0 && settings.policy < 2 && matches!(settings.rule, 1 | 2)
}

/// The whole answer for the bytes of a file.
pub fn answer(file: &[u8], settings: &Settings, sizes: &Sizes, limits: &Limits) -> Answer {
    if !right(settings) {
        return Err(Refusal::early(1));
    }
    let tables = file::read(file).map_err(Refusal::early)?;
    render(&tables, settings, sizes, limits).0
}

/// The answer for the tables of an accepted file, and what the run met.
pub fn render(tables: &Tables, settings: &Settings, sizes: &Sizes, limits: &Limits) -> (Answer, Trace) {
    let mut run = Run { tables, settings, sizes, limits, counts: Default::default(), trace: Default::default() };
    let answer = solve::solve(&mut run).and_then(|solved| materialize::materialize(&mut run, solved));
    (answer, run.trace)
}

/// What solver and materializer have in common.
struct Run<'a> {
    tables: &'a Tables,
    settings: &'a Settings,
    sizes: &'a Sizes,
    limits: &'a Limits,
    counts: common::Counts,
    trace: Trace,
}

impl Run<'_> {
    fn stop<T>(&self, number: u32, needed: u64) -> Result<T, Refusal> {
        Err(Refusal { number, needed, counts: self.counts })
    }

    /// Refuses by `number` (13 to 21) where more than its size is needed.
    fn need(&mut self, number: u32, needed: u64) -> Result<(), Refusal> {
        let index = number as usize - 13;
        self.trace.needs[index] = self.trace.needs[index].max(needed);
        if needed > u64::from(self.sizes.list()[index]) {
            return self.stop(number, needed);
        }
        Ok(())
    }

    /// The greatest needs, where none was refused: so none is above its size.
    fn met(&self) -> Sizes {
        Sizes::of(self.trace.needs.map(|need| u32::try_from(need).expect("no need is above its size")))
    }
}
