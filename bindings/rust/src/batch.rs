//! Several files in one call: on the caller's own memory, and on a printer's. As safe as the other calls: no call has a condition beyond its
//! types.

use crate::lent::{told, SolverMemory, TableMemory};
use crate::raw;
use crate::{Counts, Desks, Limits, Page, Printer, Refusal, Settings, Sizes};

/// The most documents of a call.
const DOCUMENTS: usize = 64;

/// No file has more than 339,997 bytes; the one more shows that there is a surplus.
const BYTES: usize = 339_998;

/// Of each document in order what a call on it alone gives, its page or its refusal.
pub type Filed<'a> = Vec<Result<Page<'a>, Refusal>>;

impl Printer {
    /// Up to 64 files in one call, for a desk: each gets what [`Printer::render`] gives with the output and spans that the pages before it
    /// leave free, and with what the desk then may still do. A refused one takes no output and no spans, and the next is tried. The other sizes
    /// and the limits are those of each.
    ///
    /// The call itself is refused by 1, by 28, and by 29 where there are more files. Then none is tried, and no work is charged.
    pub fn file_all(
        &mut self,
        desk: u32,
        desks: &mut Desks,
        files: &[&[u8]],
        settings: &Settings,
        limits: &Limits,
    ) -> Result<Filed<'_>, Refusal> {
        let files: Vec<&[u8]> = files.iter().map(|file| &file[..file.len().min(BYTES)]).collect();
        let lengths: Vec<u32> = files.iter().map(|file| file.len() as u32).collect();
        let (bytes, sizes) = (files.concat(), self.sizes);
        let mut answers = vec![[0; 26]; files.len().min(DOCUMENTS)];
        // Those of the last answer, so they need not be kept.
        let mut counts = Counts::default();
        let (tables, solver, output, spans) = self.lend();
        let number = file_all_words(
            desk,
            desks,
            &mut counts,
            &bytes,
            &lengths,
            settings,
            &sizes,
            limits,
            tables,
            solver,
            output,
            spans,
            &mut answers,
        );
        if number != 0 {
            return Err(Refusal { number, needed: 0, counts });
        }
        let (mut output, mut spans) = (&self.output[..], &self.spans[..]);
        let page = |words: &[u64; 26]| {
            let done = told(words)?;
            let page = Page::told(done, output, spans);
            (output, spans) = (&output[done.length..], &spans[done.spans..]);
            Ok(page)
        };
        Ok(answers.iter().map(page).collect())
    }
}

/// Several files in one call, for a desk. `files` has their bytes one behind the other, `lengths` the number of bytes of each. The call's own
/// number is returned: 0, and then each has its answer as words in its row of `answers`, which [`told`] names; or 1, 28 or 29.
///
/// Pages stand one behind the other in output, and so do spans, which count from their own page's first byte and first span. `answers` has at
/// least as many rows as there are files, or 64 where there are more. Rows past the files are unaltered, and all of them on a number other than
/// 0. The counts are left as those of the last file, and as 0 on such a number; without a file nothing is altered, the counts neither.
#[allow(clippy::too_many_arguments)]
pub fn file_all_words(
    desk: u32,
    desks: &mut Desks,
    counts: &mut Counts,
    files: &[u8],
    lengths: &[u32],
    settings: &Settings,
    sizes: &Sizes,
    limits: &Limits,
    tables: TableMemory,
    solver: SolverMemory,
    output: &mut [u8],
    spans: &mut [[u64; 4]],
    answers: &mut [[u64; 26]],
) -> u32 {
    // SAFETY: as in `render_lent`.
    unsafe {
        raw::gannozhi_file_all(
            desk,
            desks,
            counts,
            files.as_ptr(),
            files.len(),
            lengths.as_ptr(),
            lengths.len(),
            settings.width,
            settings.newline_cost,
            settings.policy,
            settings.rule,
            &sizes.list(),
            limits.work,
            limits.visits,
            tables.nodes.as_mut_ptr(),
            tables.nodes.len(),
            tables.edges.as_mut_ptr(),
            tables.edges.len(),
            tables.choices.as_mut_ptr(),
            tables.choices.len(),
            tables.texts.as_mut_ptr(),
            tables.texts.len(),
            tables.bytes.as_mut_ptr(),
            tables.bytes.len(),
            solver.tasks.as_mut_ptr(),
            solver.tasks.len(),
            solver.results.as_mut_ptr(),
            solver.results.len(),
            solver.pending.as_mut_ptr(),
            solver.pending.len(),
            solver.index.as_mut_ptr(),
            solver.index.len(),
            solver.entries.as_mut_ptr(),
            solver.entries.len(),
            solver.kept.as_mut_ptr(),
            solver.kept.len(),
            solver.frontier.as_mut_ptr(),
            solver.frontier.len(),
            solver.plans.as_mut_ptr(),
            solver.plans.len(),
            solver.visit.as_mut_ptr(),
            solver.visit.len(),
            solver.depth.as_mut_ptr(),
            solver.depth.len(),
            output.as_mut_ptr(),
            output.len(),
            spans.as_mut_ptr(),
            spans.len(),
            answers.as_mut_ptr(),
            answers.len(),
        )
    }
}
