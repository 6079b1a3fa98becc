//! A live report that owns its memory.

use crate::steps::{insert_lent, open_lent, remove_lent, ReportMemory};
use crate::{Desks, Limits, Page, Printer, Refusal, Rendered, Settings, Sizes, Span};

/// The most rows of a report.
const ROWS: usize = 1_024;

/// Rows that come and go, each a prepared file, under one setting; and their page: the rows one below the other, as one document whose root is a
/// Seq of the rows with a HardLine between neighbours has it. A report without rows has an empty page.
///
/// Its memory grows as steps need it, up to the sizes that it was opened with. A step that is refused leaves rows and page as they were.
pub struct Report {
    head: [u32; 5],
    table: Vec<[u64; 8]>,
    files: Vec<u8>,
    pages: Vec<u8>,
    marks: Vec<[u32; 4]>,
    output: Vec<u8>,
    spans: Vec<[u64; 4]>,
    /// Bytes and spans of the page in them.
    page: (usize, usize),
    /// For the calls on single rows; its output and spans are those of a row.
    printer: Printer,
    most: Sizes,
}

impl Report {
    /// A report without rows. Its steps are lent what they need, and never more than `most`. A setting that is not right is refused by 1.
    pub fn open(settings: &Settings, most: Sizes) -> Result<Report, Refusal> {
        let mut report = Report {
            head: [0; 5],
            table: vec![[0; 8]; ROWS],
            files: Vec::new(),
            pages: Vec::new(),
            marks: Vec::new(),
            output: Vec::new(),
            spans: Vec::new(),
            page: (0, 0),
            printer: Printer::new(Sizes::of([0; 9])),
            most,
        };
        open_lent(settings, &mut report.head)?;
        let first = Sizes::PAGE.list();
        report.lend_more(Sizes::of(std::array::from_fn(|kind| first[kind].min(most.list()[kind]))));
        Ok(report)
    }

    /// How many rows it has.
    pub fn rows(&self) -> usize {
        self.head[0] as usize
    }

    pub fn settings(&self) -> Settings {
        let [_, width, newline_cost, policy, rule] = self.head;
        Settings { width, newline_cost, policy, rule }
    }

    /// The file of a row, if there is one at the place.
    pub fn file(&self, place: usize) -> Option<&[u8]> {
        let length = |row: &[u64; 8]| row[0] as usize;
        let own = length(self.table[..self.rows()].get(place)?);
        let start = self.table[..place].iter().map(length).sum::<usize>();
        Some(&self.files[start..start + own])
    }

    /// The page after the last step that gave one.
    pub fn bytes(&self) -> &[u8] {
        &self.output[..self.page.0]
    }

    /// The spans of that page.
    pub fn spans(&self) -> impl ExactSizeIterator<Item = Span> + '_ {
        self.spans[..self.page.1].iter().map(|row| crate::span(*row))
    }

    /// The file as a new row at a place, 0 to the number of rows. The limits are those of the call on the new row, which alone is solved, and so
    /// are the counts; of a page's needs, output and spans are the whole page's. A place that is not there is refused by 23, and by 24 where the
    /// report has 1,024 rows.
    ///
    /// Where memory grows, the desk is charged as if it had been there from the start: for the last time that the step is taken.
    pub fn insert(
        &mut self,
        desk: u32,
        desks: &mut Desks,
        place: usize,
        file: &[u8],
        limits: &Limits,
    ) -> Result<Page<'_>, Refusal> {
        self.make_room_for(file);
        let before = *desks;
        loop {
            *desks = before;
            let sizes = self.printer.sizes;
            let (tables, solver, row_output, row_spans) = self.printer.lend();
            let report = ReportMemory {
                head: &mut self.head,
                table: &mut self.table,
                files: &mut self.files,
                pages: &mut self.pages,
                marks: &mut self.marks,
            };
            let (output, spans) = (&mut self.output, &mut self.spans);
            let done = insert_lent(
                desk, desks, place, file, &sizes, limits, report, output, spans, tables, solver, row_output, row_spans,
            );
            match done {
                Err(refusal) if self.grown_for(&refusal) => {}
                done => return self.told(done),
            }
        }
    }

    /// The row at a place taken away. Nothing is solved: all counts are 0, and a desk that may do no work may remove. A place that is not there is
    /// refused by 23, a desk above 7 by 28; nothing else is, since the page gets no longer.
    pub fn remove(&mut self, desk: u32, desks: &mut Desks, place: usize) -> Result<Page<'_>, Refusal> {
        let report = ReportMemory {
            head: &mut self.head,
            table: &mut self.table,
            files: &mut self.files,
            pages: &mut self.pages,
            marks: &mut self.marks,
        };
        let done = remove_lent(desk, desks, place, &self.printer.sizes, report, &mut self.output, &mut self.spans);
        self.told(done)
    }

    fn told(&mut self, done: Result<Rendered, Refusal>) -> Result<Page<'_>, Refusal> {
        let done = done?;
        self.page = (done.length, done.spans);
        Ok(Page::told(done, &self.output, &self.spans))
    }

    /// Files for the rows there are and one more.
    fn make_room_for(&mut self, file: &[u8]) {
        let bytes: usize = self.table[..self.rows()].iter().map(|row| row[0] as usize).sum();
        if self.files.len() < bytes + file.len() {
            self.files.resize((bytes + file.len()).max(2 * self.files.len()), 0);
        }
    }

    /// Whether the step was refused for a size that may be greater, and is now: it can be taken again, since a refused step alters nothing. The
    /// size is doubled at least, so that a page of many lines does not ask for each of its bytes.
    fn grown_for(&mut self, refusal: &Refusal) -> bool {
        let Some(kind) = refusal.number.checked_sub(13).filter(|kind| *kind < 9) else { return false };
        let kind = kind as usize;
        let (mut sizes, most) = (self.printer.sizes.list(), self.most.list()[kind]);
        if u64::from(most) < refusal.needed || most <= sizes[kind] {
            return false;
        }
        sizes[kind] = most.min(sizes[kind].saturating_mul(2).max(refusal.needed as u32));
        self.lend_more(Sizes::of(sizes));
        true
    }

    /// Memory for these sizes, none of which is smaller than before. What the report and its page hold stays.
    fn lend_more(&mut self, sizes: Sizes) {
        self.printer = Printer::new(sizes);
        let (output, spans) = (sizes.output as usize, sizes.spans as usize);
        self.pages.resize(output, 0);
        self.output.resize(output, 0);
        self.marks.resize(spans, [0; 4]);
        self.spans.resize(spans, [0; 4]);
    }
}
