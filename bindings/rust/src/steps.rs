//! Live reports on the caller's own memory. As safe as the other calls: no call has a condition beyond its types.

use crate::lent::{told, Rendered, SolverMemory, TableMemory};
use crate::raw;
use crate::{Counts, Desks, Limits, Refusal, Settings, Sizes};

/// The memory of a live report, which is no working memory: it holds the report from step to step, and nothing else may write to it.
///
/// A report that [`open_lent`] has just begun asks nothing of the slices but their lengths. Past what the report holds, which stands at their
/// front, anything may stand; a caller may move a report to longer slices by copying the front.
pub struct ReportMemory<'a> {
    /// Number of rows, width, newline cost, policy, rule.
    pub head: &'a mut [u32; 5],
    /// At least 1,024 rows: the lengths of a row's file and page, the number of its spans, overflow high and low, burden, rule, 0.
    pub table: &'a mut [[u64; 8]],
    /// The rows' files one after the other: at least as many bytes as they have after the step.
    pub files: &'a mut [u8],
    /// The rows' pages, likewise: at least the output size.
    pub pages: &'a mut [u8],
    /// The rows' spans, likewise, from each row's own start: at least the spans size.
    pub marks: &'a mut [[u32; 4]],
}

/// A report without rows, under the setting: the head says so, and the rest of its memory need hold nothing. A setting that is not right is
/// refused by 1, and the head is unaltered.
pub fn open_lent(settings: &Settings, head: &mut [u32; 5]) -> Result<(), Refusal> {
    // SAFETY: as in `render_lent`.
    let number = unsafe {
        raw::gannozhi_report_open(settings.width, settings.newline_cost, settings.policy, settings.rule, head)
    };
    match number {
        0 => Ok(()),
        number => Err(Refusal { number, needed: 0, counts: Counts::default() }),
    }
}

/// The file as a new row at a place, 0 to the number of rows, and the whole page in output and spans. Tables and solver memory are for the call
/// on the new row, which puts its page into `row_output` and `row_spans`: as long as output and spans must be, and working memory.
#[allow(clippy::too_many_arguments)]
pub fn insert_lent(
    desk: u32,
    desks: &mut Desks,
    place: usize,
    file: &[u8],
    sizes: &Sizes,
    limits: &Limits,
    report: ReportMemory,
    output: &mut [u8],
    spans: &mut [[u64; 4]],
    tables: TableMemory,
    solver: SolverMemory,
    row_output: &mut [u8],
    row_spans: &mut [[u64; 4]],
) -> Result<Rendered, Refusal> {
    let mut answer = [0; 26];
    insert_words(
        desk,
        desks,
        place,
        file,
        sizes,
        limits,
        report,
        output,
        spans,
        tables,
        solver,
        row_output,
        row_spans,
        &mut answer,
    );
    told(&answer)
}

/// The same call with its answer as words, as [`render_words`](crate::render_words) has it.
#[allow(clippy::too_many_arguments)]
pub fn insert_words(
    desk: u32,
    desks: &mut Desks,
    place: usize,
    file: &[u8],
    sizes: &Sizes,
    limits: &Limits,
    report: ReportMemory,
    output: &mut [u8],
    spans: &mut [[u64; 4]],
    tables: TableMemory,
    solver: SolverMemory,
    row_output: &mut [u8],
    row_spans: &mut [[u64; 4]],
    answer: &mut [u64; 26],
) -> u32 {
    // SAFETY: as in `render_lent`.
    unsafe {
        raw::gannozhi_report_insert(
            desk,
            desks,
            place,
            file.as_ptr(),
            file.len(),
            &sizes.list(),
            limits.work,
            limits.visits,
            report.head,
            report.table.as_mut_ptr(),
            report.table.len(),
            report.files.as_mut_ptr(),
            report.files.len(),
            report.pages.as_mut_ptr(),
            report.pages.len(),
            report.marks.as_mut_ptr(),
            report.marks.len(),
            output.as_mut_ptr(),
            output.len(),
            spans.as_mut_ptr(),
            spans.len(),
            tables.nodes.as_mut_ptr(),
            tables.nodes.len(),
            tables.edges.as_mut_ptr(),
            tables.edges.len(),
            tables.choices.as_mut_ptr(),
            tables.choices.len(),
            tables.texts.as_mut_ptr(),
            tables.texts.len(),
            tables.bytes.as_mut_ptr(),
            tables.bytes.len(),
            solver.tasks.as_mut_ptr(),
            solver.tasks.len(),
            solver.results.as_mut_ptr(),
            solver.results.len(),
            solver.pending.as_mut_ptr(),
            solver.pending.len(),
            solver.index.as_mut_ptr(),
            solver.index.len(),
            solver.entries.as_mut_ptr(),
            solver.entries.len(),
            solver.kept.as_mut_ptr(),
            solver.kept.len(),
            solver.frontier.as_mut_ptr(),
            solver.frontier.len(),
            solver.plans.as_mut_ptr(),
            solver.plans.len(),
            solver.visit.as_mut_ptr(),
            solver.visit.len(),
            solver.depth.as_mut_ptr(),
            solver.depth.len(),
            row_output.as_mut_ptr(),
            row_output.len(),
            row_spans.as_mut_ptr(),
            row_spans.len(),
            answer,
        )
    }
}

/// The row at a place taken away, and the whole page in output and spans. Nothing is solved, so it needs no allowance and alters no spent count;
/// of the sizes output and spans are looked at.
#[allow(clippy::too_many_arguments)]
pub fn remove_lent(
    desk: u32,
    desks: &mut Desks,
    place: usize,
    sizes: &Sizes,
    report: ReportMemory,
    output: &mut [u8],
    spans: &mut [[u64; 4]],
) -> Result<Rendered, Refusal> {
    let mut answer = [0; 26];
    remove_words(desk, desks, place, sizes, report, output, spans, &mut answer);
    told(&answer)
}

/// The same call with its answer as words.
#[allow(clippy::too_many_arguments)]
pub fn remove_words(
    desk: u32,
    desks: &mut Desks,
    place: usize,
    sizes: &Sizes,
    report: ReportMemory,
    output: &mut [u8],
    spans: &mut [[u64; 4]],
    answer: &mut [u64; 26],
) -> u32 {
    // SAFETY: as in `render_lent`.
    unsafe {
        raw::gannozhi_report_remove(
            desk,
            desks,
            place,
            &sizes.list(),
            report.head,
            report.table.as_mut_ptr(),
            report.table.len(),
            report.files.as_mut_ptr(),
            report.files.len(),
            report.pages.as_mut_ptr(),
            report.pages.len(),
            report.marks.as_mut_ptr(),
            report.marks.len(),
            output.as_mut_ptr(),
            output.len(),
            spans.as_mut_ptr(),
            spans.len(),
            answer,
        )
    }
}
