//! A prepared file's page, by the proved library.
//!
//! [`Printer`] owns the memory that a call is lent. [`render_lent`], [`read_lent`] and [`write_lent`] take the caller's own slices: what they
//! hold does not matter, and where one is too short the library refuses by 1. The library allocates nothing and keeps nothing between calls but
//! in what it is lent: the memory of a report, and [`Desks`].
//!
//! Whatever can solve is called for a desk, 0 to 7, and counts its work there. [`Desks`] says how much work each desk may do; a caller without
//! desks calls for desk 0 with `&mut Desks::all(u64::MAX)`.
//!
//! [`Printer::file_all`] takes several files in one call; [`file_all_words`] does on the caller's own slices.
//!
//! [`Report`] is a live report: rows that come and go, each a prepared file, and their page after each step. It owns its memory and lets it
//! grow. [`open_lent`], [`insert_lent`] and [`remove_lent`] take the caller's own slices; those of [`ReportMemory`] hold the report.

mod batch;
mod lent;
mod raw;
mod report;
mod steps;

pub use batch::{file_all_words, Filed};
pub use lent::{
    read_lent, render_lent, render_words, told, write_lent, FileCounts, FileTables, Rendered, SolverMemory,
    TableCounts, TableMemory, Written,
};
pub use report::Report;
pub use steps::{insert_lent, insert_words, open_lent, remove_lent, remove_words, ReportMemory};

/// The settings of a call. A width of 0, a policy above 1 and a rule other than 1 and 2 are refused by 1.
///
/// There is no `Default`: which rule a page is filed under follows from its archive year, so each caller names it.
#[derive(Clone, Copy, Debug, Eq, PartialEq)]
pub struct Settings {
    pub width: u32,
    pub newline_cost: u32,
    /// 1 lowers an indent to the width less 1 at most; 0 keeps it.
    pub policy: u32,
    /// What a line past the width is charged: 1 the square of the columns past it, 2 those columns themselves. The overflow is in its unit.
    pub rule: u32,
}

/// How many items of each kind a call may use, in the order of the refusals 13 to 21.
#[derive(Clone, Copy, Debug, Eq, PartialEq)]
pub struct Sizes {
    pub stack: u32,
    pub memo: u32,
    pub kept: u32,
    pub frontier: u32,
    pub plans: u32,
    pub visit: u32,
    pub depth: u32,
    pub output: u32,
    pub spans: u32,
}

impl Sizes {
    /// Those of the program `page`.
    pub const PAGE: Sizes = Sizes {
        stack: 512,
        memo: 1_024,
        kept: 1_024,
        frontier: 256,
        plans: 2_048,
        visit: 512,
        depth: 64,
        output: 32_768,
        spans: 512,
    };

    pub const fn of(list: [u32; 9]) -> Sizes {
        let [stack, memo, kept, frontier, plans, visit, depth, output, spans] = list;
        Sizes { stack, memo, kept, frontier, plans, visit, depth, output, spans }
    }

    pub fn list(&self) -> [u32; 9] {
        [self.stack, self.memo, self.kept, self.frontier, self.plans, self.visit, self.depth, self.output, self.spans]
    }
}

/// Each by the word of its refusal: `stack 6, memo 22, ..`.
impl std::fmt::Display for Sizes {
    fn fmt(&self, f: &mut std::fmt::Formatter) -> std::fmt::Result {
        let sizes: Vec<_> =
            (13..).zip(self.list()).map(|(number, size)| format!("{} {size}", refusal(number))).collect();
        write!(f, "{}", sizes.join(", "))
    }
}

/// How much work and how many visits a call may take.
#[derive(Clone, Copy, Debug, Eq, PartialEq)]
pub struct Limits {
    pub work: u64,
    pub visits: u64,
}

/// How much work each of the desks 0 to 7 may do, and how much it has done. It is kept from call to call by whoever owns it, who sets the
/// allowances; no call alters one. A call adds its work to the spent count of its own desk, refused calls too, and to nothing else. It is
/// refused by 12 where the spent count would pass the allowance, or the call's work its own limit. A desk that has spent more than it is
/// allowed may do no work.
#[derive(Clone, Copy, Debug, Eq, PartialEq)]
#[repr(C)]
pub struct Desks {
    pub allowance: [u64; 8],
    pub spent: [u64; 8],
}

impl Desks {
    /// Each may do so much, and has done nothing.
    pub const fn all(allowance: u64) -> Desks {
        Desks { allowance: [allowance; 8], spent: [0; 8] }
    }
}

/// What was counted up to the end of the call, or to where it was refused.
#[derive(Clone, Copy, Debug, Default, Eq, PartialEq)]
#[repr(C)]
pub struct Counts {
    pub work: u64,
    pub fit_checks: u64,
    pub hits: u64,
    pub misses: u64,
    pub generated: u64,
    pub pruned: u64,
    pub peak_frontier: u64,
    pub memo_entries: u64,
    pub plan_nodes: u64,
    pub visits: u64,
}

#[derive(Clone, Copy, Debug, Eq, PartialEq)]
pub struct Span {
    pub annotation: u32,
    /// Where its child's bytes begin and end on the page.
    pub start: usize,
    pub end: usize,
    /// The number of the nearest span around it.
    pub parent: Option<usize>,
}

/// Annotation, start, end and parent, `-` for none: a line of samples/NAME.spans.
impl std::fmt::Display for Span {
    fn fmt(&self, f: &mut std::fmt::Formatter) -> std::fmt::Result {
        write!(f, "{} {} {} ", self.annotation, self.start, self.end)?;
        match self.parent {
            Some(parent) => write!(f, "{parent}"),
            None => write!(f, "-"),
        }
    }
}

#[derive(Debug)]
pub struct Page<'a> {
    pub bytes: &'a [u8],
    rows: &'a [[u64; 4]],
    pub overflow: u128,
    pub burden: u64,
    pub counts: Counts,
    /// The sizes that just suffice: the greatest that was needed of each kind, whatever was lent. `Printer::new(page.needs)` gives the same
    /// page under the same settings and limits; with one of them smaller and the others as they are, that kind's refusal comes. A refusal
    /// has no needs.
    pub needs: Sizes,
}

impl<'a> Page<'a> {
    /// The page that stands at the front of output and spans.
    pub(crate) fn told(done: Rendered, output: &'a [u8], spans: &'a [[u64; 4]]) -> Page<'a> {
        Page {
            bytes: &output[..done.length],
            rows: &spans[..done.spans],
            overflow: done.overflow,
            burden: done.burden,
            counts: done.counts,
            needs: done.needs,
        }
    }
}

impl Page<'_> {
    pub fn spans(&self) -> impl ExactSizeIterator<Item = Span> + '_ {
        self.rows.iter().map(|row| span(*row))
    }
}

/// A span as a row of words has it.
pub fn span(row: [u64; 4]) -> Span {
    Span {
        annotation: row[0] as u32,
        start: row[1] as usize,
        end: row[2] as usize,
        parent: row[3].checked_sub(1).map(|parent| parent as usize),
    }
}

/// Why there is no page: the number of the refusal, the size that is needed (13 to 21; else 0), and the counts. 23 and 24 are refusals of a
/// live report's steps alone. 28, a desk above 7, comes right after 1. 29 is a refusal of several files in one call alone: more than 64.
#[derive(Clone, Copy, Debug, Eq, PartialEq)]
pub struct Refusal {
    pub number: u32,
    pub needed: u64,
    pub counts: Counts,
}

impl Refusal {
    pub fn word(&self) -> &'static str {
        refusal(self.number)
    }
}

/// The word of a refusal in the rule; empty for a number that is none.
pub fn refusal(number: u32) -> &'static str {
    match number {
        1 => "order",
        2 => "short",
        3 => "form",
        4 => "limit",
        5 => "surplus",
        6 => "reference",
        7 => "text",
        8 => "space",
        9 => "circle",
        10 => "list",
        11 => "domain",
        12 => "work",
        13 => "stack",
        14 => "memo",
        15 => "kept",
        16 => "frontier",
        17 => "plans",
        18 => "visit",
        19 => "depth",
        20 => "output",
        21 => "spans",
        22 => "visits",
        23 => "place",
        24 => "rows",
        25 => "indent",
        26 => "cost",
        28 => "desk",
        29 => "documents",
        _ => "",
    }
}

impl std::fmt::Display for Refusal {
    fn fmt(&self, f: &mut std::fmt::Formatter) -> std::fmt::Result {
        write!(f, "refused {} {}", self.number, self.word())?;
        match self.needed {
            0 => Ok(()),
            needed => write!(f, ", needed {needed}"),
        }
    }
}

impl std::error::Error for Refusal {}

/// Memory for a file's tables, at their limits.
struct Tables {
    nodes: Vec<[u32; 8]>,
    edges: Vec<u32>,
    choices: Vec<u32>,
    texts: Vec<[u32; 3]>,
    bytes: Vec<u8>,
}

impl Tables {
    fn new() -> Tables {
        Tables {
            nodes: vec![[0; 8]; 4_096],
            edges: vec![0; 16_384],
            choices: vec![0; 16_384],
            texts: vec![[0; 3]; 4_096],
            bytes: vec![0; 65_536],
        }
    }

    fn lend(&mut self) -> TableMemory<'_> {
        TableMemory {
            nodes: &mut self.nodes,
            edges: &mut self.edges,
            choices: &mut self.choices,
            texts: &mut self.texts,
            bytes: &mut self.bytes,
        }
    }
}

/// Memory for calls of given sizes.
pub struct Printer {
    sizes: Sizes,
    tables: Tables,
    tasks: Vec<[u32; 9]>,
    results: Vec<[u32; 2]>,
    pending: Vec<[u64; 7]>,
    index: Vec<u64>,
    entries: Vec<[u64; 6]>,
    kept: Vec<[u64; 6]>,
    frontier: Vec<u64>,
    plans: Vec<[u32; 3]>,
    visit: Vec<usize>,
    depth: Vec<usize>,
    output: Vec<u8>,
    spans: Vec<[u64; 4]>,
}

impl Printer {
    pub fn new(sizes: Sizes) -> Printer {
        Printer {
            sizes,
            tables: Tables::new(),
            tasks: vec![[0; 9]; sizes.stack as usize],
            results: vec![[0; 2]; sizes.stack as usize],
            pending: vec![[0; 7]; sizes.stack as usize],
            index: vec![0; memo_slots_for(sizes.memo)],
            entries: vec![[0; 6]; sizes.memo as usize],
            kept: vec![[0; 6]; sizes.kept as usize],
            frontier: vec![0; sizes.frontier as usize * 14],
            plans: vec![[0; 3]; sizes.plans as usize],
            visit: vec![0; sizes.visit as usize],
            depth: vec![0; sizes.depth as usize],
            output: vec![0; sizes.output as usize],
            spans: vec![[0; 4]; sizes.spans as usize],
        }
    }

    pub fn sizes(&self) -> &Sizes {
        &self.sizes
    }

    /// The file is read into the printer's tables; only their counts are handed out.
    pub fn read(&mut self, file: &[u8]) -> Result<TableCounts, u32> {
        read_lent(file, self.tables.lend())
    }

    /// The memory for tables, for solver and materializer, for output and for spans.
    fn lend(&mut self) -> (TableMemory<'_>, SolverMemory<'_>, &mut [u8], &mut [[u64; 4]]) {
        let solver = SolverMemory {
            tasks: &mut self.tasks,
            results: &mut self.results,
            pending: &mut self.pending,
            index: &mut self.index,
            entries: &mut self.entries,
            kept: &mut self.kept,
            frontier: &mut self.frontier,
            plans: &mut self.plans,
            visit: &mut self.visit,
            depth: &mut self.depth,
        };
        (self.tables.lend(), solver, &mut self.output, &mut self.spans)
    }

    /// A file's page, for a desk.
    pub fn render(
        &mut self,
        desk: u32,
        desks: &mut Desks,
        file: &[u8],
        settings: &Settings,
        limits: &Limits,
    ) -> Result<Page<'_>, Refusal> {
        let sizes = self.sizes;
        let (tables, solver, output, spans) = self.lend();
        let done = render_lent(desk, desks, file, settings, &sizes, limits, tables, solver, output, spans)?;
        Ok(Page::told(done, &self.output, &self.spans))
    }
}

/// How many words the memo's index has for so many entries.
pub fn memo_slots_for(entries: u32) -> usize {
    if entries == 0 {
        return 0;
    }
    let mut slots = 8usize;
    while slots * 7 / 10 < entries as usize {
        slots *= 2;
    }
    slots
}
