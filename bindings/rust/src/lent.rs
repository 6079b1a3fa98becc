//! Calls on the caller's own memory. They are safe: a Rust slice is what the library's parameter types ask for, and no call has a
//! condition beyond its types.

use crate::raw;
use crate::{Counts, Desks, Limits, Refusal, Settings, Sizes};

/// Where a file's tables are put. At least 4,096 nodes, 16,384 edges, 16,384 choice edges, 4,096 texts and 65,536 bytes.
pub struct TableMemory<'a> {
    pub nodes: &'a mut [[u32; 8]],
    pub edges: &'a mut [u32],
    pub choices: &'a mut [u32],
    pub texts: &'a mut [[u32; 3]],
    pub bytes: &'a mut [u8],
}

/// The working memory of solver and materializer: docs/MEMORY.md says how long each slice is for given sizes.
pub struct SolverMemory<'a> {
    pub tasks: &'a mut [[u32; 9]],
    pub results: &'a mut [[u32; 2]],
    pub pending: &'a mut [[u64; 7]],
    pub index: &'a mut [u64],
    pub entries: &'a mut [[u64; 6]],
    pub kept: &'a mut [[u64; 6]],
    pub frontier: &'a mut [u64],
    pub plans: &'a mut [[u32; 3]],
    pub visit: &'a mut [usize],
    pub depth: &'a mut [usize],
}

/// A page stands in the first `length` bytes of the output, its spans in the first `spans` rows.
#[derive(Clone, Copy, Debug, Eq, PartialEq)]
pub struct Rendered {
    pub length: usize,
    pub spans: usize,
    pub overflow: u128,
    pub burden: u64,
    pub counts: Counts,
    /// The sizes that just suffice for it, as in [`Page::needs`](crate::Page::needs).
    pub needs: Sizes,
}

/// A file's page in output and spans, for a desk: its work is held to what the desk may still do, and charged to it.
#[allow(clippy::too_many_arguments)]
pub fn render_lent(
    desk: u32,
    desks: &mut Desks,
    file: &[u8],
    settings: &Settings,
    sizes: &Sizes,
    limits: &Limits,
    tables: TableMemory,
    solver: SolverMemory,
    output: &mut [u8],
    spans: &mut [[u64; 4]],
) -> Result<Rendered, Refusal> {
    let mut answer = [0; 26];
    render_words(desk, desks, file, settings, sizes, limits, tables, solver, output, spans, &mut answer);
    told(&answer)
}

/// The same call with its answer as the words that the library writes, in the order of the C header; [`told`] names them. The first is
/// returned too. What they hold before does not matter: each is written.
#[allow(clippy::too_many_arguments)]
pub fn render_words(
    desk: u32,
    desks: &mut Desks,
    file: &[u8],
    settings: &Settings,
    sizes: &Sizes,
    limits: &Limits,
    tables: TableMemory,
    solver: SolverMemory,
    output: &mut [u8],
    spans: &mut [[u64; 4]],
    answer: &mut [u64; 26],
) -> u32 {
    // SAFETY: every pointer and length is that of a live Rust slice or array, and no two that are written overlap.
    unsafe {
        raw::gannozhi_render(
            desk,
            desks,
            file.as_ptr(),
            file.len(),
            settings.width,
            settings.newline_cost,
            settings.policy,
            settings.rule,
            &sizes.list(),
            limits.work,
            limits.visits,
            tables.nodes.as_mut_ptr(),
            tables.nodes.len(),
            tables.edges.as_mut_ptr(),
            tables.edges.len(),
            tables.choices.as_mut_ptr(),
            tables.choices.len(),
            tables.texts.as_mut_ptr(),
            tables.texts.len(),
            tables.bytes.as_mut_ptr(),
            tables.bytes.len(),
            solver.tasks.as_mut_ptr(),
            solver.tasks.len(),
            solver.results.as_mut_ptr(),
            solver.results.len(),
            solver.pending.as_mut_ptr(),
            solver.pending.len(),
            solver.index.as_mut_ptr(),
            solver.index.len(),
            solver.entries.as_mut_ptr(),
            solver.entries.len(),
            solver.kept.as_mut_ptr(),
            solver.kept.len(),
            solver.frontier.as_mut_ptr(),
            solver.frontier.len(),
            solver.plans.as_mut_ptr(),
            solver.plans.len(),
            solver.visit.as_mut_ptr(),
            solver.visit.len(),
            solver.depth.as_mut_ptr(),
            solver.depth.len(),
            output.as_mut_ptr(),
            output.len(),
            spans.as_mut_ptr(),
            spans.len(),
            answer,
        )
    }
}

/// What the words of an answer say. A refusal's words from 17 on are 0: it has no needs.
pub fn told(answer: &[u64; 26]) -> Result<Rendered, Refusal> {
    let [number, needed, length, rows, high, low, burden, work, fit_checks, hits, misses, generated, pruned, peak_frontier, memo_entries, plan_nodes, visits, needs @ ..] =
        *answer;
    let counts =
        Counts { work, fit_checks, hits, misses, generated, pruned, peak_frontier, memo_entries, plan_nodes, visits };
    if number != 0 {
        return Err(Refusal { number: number as u32, needed, counts });
    }
    let overflow = u128::from(high) << 64 | u128::from(low);
    // Each is at most its size, a number of 32 bits.
    let needs = Sizes::of(needs.map(|need| need as u32));
    Ok(Rendered { length: length as usize, spans: rows as usize, overflow, burden, counts, needs })
}

/// How many rows or items of each table a file has, and its root and space text.
#[derive(Clone, Copy, Debug, Default, Eq, PartialEq)]
pub struct TableCounts {
    pub nodes: u32,
    pub edges: u32,
    pub choices: u32,
    pub texts: u32,
    pub annotations: u32,
    pub root: u32,
    pub space: u32,
    /// How many bytes the texts have together.
    pub bytes: u32,
}

/// Those of them that a file says itself: how many bytes its texts have together is the sum of their lengths.
#[derive(Clone, Copy, Debug, Default, Eq, PartialEq)]
pub struct FileCounts {
    pub nodes: u32,
    pub edges: u32,
    pub choices: u32,
    pub texts: u32,
    pub annotations: u32,
    pub root: u32,
    pub space: u32,
}

impl From<TableCounts> for FileCounts {
    fn from(counts: TableCounts) -> FileCounts {
        let TableCounts { nodes, edges, choices, texts, annotations, root, space, bytes: _ } = counts;
        FileCounts { nodes, edges, choices, texts, annotations, root, space }
    }
}

/// The file's tables, up to the counts; or the number of the refusal (1 to 10; 7 where a text has a byte 10 or is not UTF-8 by RFC 3629).
pub fn read_lent(file: &[u8], tables: TableMemory) -> Result<TableCounts, u32> {
    let mut words = [0u32; 8];
    // SAFETY: as in `render_lent`.
    let number = unsafe {
        raw::gannozhi_read(
            file.as_ptr(),
            file.len(),
            tables.nodes.as_mut_ptr(),
            tables.nodes.len(),
            tables.edges.as_mut_ptr(),
            tables.edges.len(),
            tables.choices.as_mut_ptr(),
            tables.choices.len(),
            tables.texts.as_mut_ptr(),
            tables.texts.len(),
            tables.bytes.as_mut_ptr(),
            tables.bytes.len(),
            &mut words,
        )
    };
    if number != 0 {
        return Err(number);
    }
    let [nodes, edges, choices, texts, annotations, root, space, bytes] = words;
    Ok(TableCounts { nodes, edges, choices, texts, annotations, root, space, bytes })
}

/// Tables to be written: each at least as long as its count, and the bytes as the lengths of the texts together.
#[derive(Clone, Copy)]
pub struct FileTables<'a> {
    pub counts: FileCounts,
    pub nodes: &'a [[u32; 8]],
    pub edges: &'a [u32],
    pub choices: &'a [u32],
    pub texts: &'a [[u32; 3]],
    pub bytes: &'a [u8],
}

/// How many bytes were written; or the number of the refusal and, for 20, how many bytes the file has.
pub type Written = Result<usize, (u32, usize)>;

/// The file of the tables. It is refused as the reader would refuse it: by 7 where a text has a byte 10 or is not UTF-8 by RFC 3629.
pub fn write_lent(tables: FileTables, out: &mut [u8]) -> Written {
    let n = tables.counts;
    let words = [n.nodes, n.edges, n.choices, n.texts, n.annotations, n.root, n.space];
    let mut size = 0usize;
    // SAFETY: as in `render_lent`.
    let number = unsafe {
        raw::gannozhi_write(
            &words,
            tables.nodes.as_ptr(),
            tables.nodes.len(),
            tables.edges.as_ptr(),
            tables.edges.len(),
            tables.choices.as_ptr(),
            tables.choices.len(),
            tables.texts.as_ptr(),
            tables.texts.len(),
            tables.bytes.as_ptr(),
            tables.bytes.len(),
            out.as_mut_ptr(),
            out.len(),
            &mut size,
        )
    };
    match number {
        0 => Ok(size),
        number => Err((number, size)),
    }
}
