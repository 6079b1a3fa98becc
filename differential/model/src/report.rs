//! Live reports, from document 02 (change 2): rows that come and go, the answer of a step, the one document that the rows make, and the report
//! that lent memory holds. Of a single call it takes the model's answer; a row's page is the same whatever sizes it came with.

use std::rc::Rc;

use common::{kind, Answer, Counts, Limits, Node, Page, Refusal, Settings, Sizes, Span, Tables, Text};

/// The most that a report has.
pub const ROWS: usize = 1_024;

/// Its file, and the page of a single call on it: spans from its own first byte and first span.
#[derive(Clone, Debug, Eq, PartialEq)]
pub struct Row {
    pub file: Vec<u8>,
    /// Of the file; None where the row was read off memory that no step has written.
    pub tables: Option<Tables>,
    pub bytes: Vec<u8>,
    pub spans: Vec<Span>,
    pub overflow: u128,
    pub burden: u64,
}

impl Row {
    fn of(file: &[u8], page: &Page) -> Row {
        let Page { bytes, spans, overflow, burden, .. } = page.clone();
        Row { file: file.to_vec(), tables: crate::file::read(file).ok(), bytes, spans, overflow, burden }
    }
}

#[derive(Clone, Debug)]
pub struct Report {
    pub settings: Settings,
    pub rows: Vec<Rc<Row>>,
}

#[derive(Clone, Copy, Debug)]
pub enum Step<'a> {
    Insert(usize, &'a [u8]),
    Remove(usize),
}

/// The rows one below the other. A cost is None where it is past its width.
#[derive(Debug, Eq, PartialEq)]
pub struct Whole {
    pub bytes: Vec<u8>,
    pub spans: Vec<Span>,
    pub overflow: Option<u128>,
    pub burden: Option<u64>,
}

impl Report {
    pub fn open(settings: Settings) -> Report {
        Report { settings, rows: Vec::new() }
    }

    pub fn with(&self, place: usize, file: &[u8], page: &Page) -> Report {
        let mut after = self.clone();
        after.rows.insert(place, Rc::new(Row::of(file, page)));
        after
    }

    pub fn without(&self, place: usize) -> Report {
        let mut after = self.clone();
        after.rows.remove(place);
        after
    }

    /// Each row starts where a newline to the indent 0 puts it, so its page is its own; the newline costs the newline cost, and no overflow.
    pub fn whole(&self) -> Whole {
        let mut whole = Whole { bytes: Vec::new(), spans: Vec::new(), overflow: Some(0), burden: Some(0) };
        for (place, row) in self.rows.iter().enumerate() {
            if place > 0 {
                whole.bytes.push(10);
                whole.burden = whole.burden.and_then(|sum| sum.checked_add(self.settings.newline_cost.into()));
            }
            let (start, first) = (whole.bytes.len() as u64, whole.spans.len() as u64);
            whole.bytes.extend(&row.bytes);
            whole.spans.extend(row.spans.iter().map(|span| Span {
                annotation: span.annotation,
                start: start + span.start,
                end: start + span.end,
                parent: span.parent.map(|parent| first + parent),
            }));
            whole.overflow = whole.overflow.and_then(|sum| sum.checked_add(row.overflow));
            whole.burden = whole.burden.and_then(|sum| sum.checked_add(row.burden));
        }
        whole
    }

    /// "One document whose root is a Seq of the rows with a HardLine between neighbours, without the count limits of a single file." Nodes,
    /// edges and texts get other numbers, annotations keep theirs. The space text is put first; it is the same in every file. None where a
    /// row has no document.
    pub fn document(&self) -> Option<Tables> {
        let mut out = Tables { texts: vec![Text { width: 1, bytes: vec![32] }], ..Tables::default() };
        let mut roots = Vec::new();
        for row in &self.rows {
            let tables = row.tables.as_ref()?;
            roots.push(out.nodes.len() as u32 + tables.root);
            take_in(&mut out, tables);
        }
        let line = out.nodes.len() as u32;
        out.nodes.push(Node::of(kind::HARD_LINE, 0, 0));
        let start = out.edges.len() as u32;
        for (place, root) in roots.iter().enumerate() {
            if place > 0 {
                out.edges.push(line);
            }
            out.edges.push(*root);
        }
        let length = out.edges.len() as u32 - start;
        out.root = out.nodes.len() as u32;
        out.nodes.push(Node::of(kind::SEQ, start, length));
        Some(out)
    }

    /// The answer, and the report after it where it is a page. `lent`: nothing of what is lent is a reason for 1.
    pub fn step(&self, step: &Step, sizes: &Sizes, limits: &Limits, lent: bool) -> (Answer, Option<Report>) {
        match self.stepped(step, sizes, limits, lent) {
            Ok((page, after)) => (Ok(page), Some(after)),
            Err(refusal) => (Err(refusal), None),
        }
    }

    fn stepped(&self, step: &Step, sizes: &Sizes, limits: &Limits, lent: bool) -> Result<(Page, Report), Refusal> {
        let places = match step {
            Step::Insert(..) => self.rows.len() + 1,
            Step::Remove(_) => self.rows.len(),
        };
        let (Step::Insert(place, _) | Step::Remove(place)) = *step;
        if !lent {
            return Err(Refusal::early(1));
        }
        if place >= places {
            return Err(Refusal::early(23));
        }
        let (after, counts, needs) = match step {
            Step::Insert(..) if self.rows.len() == ROWS => return Err(Refusal::early(24)),
            Step::Insert(place, file) => {
                let row = crate::answer(file, &self.settings, sizes, limits)?;
                (self.with(*place, file, &row), row.counts, row.needs)
            }
            Step::Remove(place) => (self.without(*place), Counts::default(), Sizes::NONE),
        };
        let whole = after.whole();
        let (length, spans) = (whole.bytes.len() as u64, whole.spans.len() as u64);
        let refused = |number, needed| Err(Refusal { number, needed, counts });
        let (Some(overflow), Some(burden)) = (whole.overflow, whole.burden) else { return refused(26, 0) };
        if length > sizes.output.into() {
            return refused(20, length);
        }
        if spans > sizes.spans.into() {
            return refused(21, spans);
        }
        let needs = Sizes { output: length as u32, spans: spans as u32, ..needs };
        Ok((Page { bytes: whole.bytes, spans: whole.spans, overflow, burden, counts, needs }, after))
    }
}

/// The tables of one more row behind the others.
fn take_in(out: &mut Tables, tables: &Tables) {
    let (node, text) = (out.nodes.len() as u32, out.texts.len() as u32);
    let (edge, choice) = (out.edges.len() as u32, out.choice_edges.len() as u32);
    for row in &tables.nodes {
        let mut n = *row;
        match n.kind {
            kind::TEXT => n.first += text,
            kind::SEQ | kind::FILL => n.first += edge,
            kind::GROUP | kind::ALIGN => n.first += node,
            kind::NEST | kind::PENALTY | kind::ANNOTATE => n.second += node,
            kind::CHOICE => {
                n.first += node;
                n.second += node;
            }
            _ => {}
        }
        n.flat = n.flat.map(|flat| flat + node);
        if n.choice_length > 0 {
            n.choice_start += choice;
        }
        out.nodes.push(n);
    }
    out.edges.extend(tables.edges.iter().map(|edge| edge + node));
    out.choice_edges.extend(tables.choice_edges.iter().map(|edge| edge + node));
    out.texts.extend(tables.texts.iter().cloned());
    out.annotations = out.annotations.max(tables.annotations);
}

/// Lent memory of a report: its head (number of rows, width, newline cost, policy, rule); a table with a row of eight words for each (the bytes
/// of file and page, the number of spans, overflow high and low, burden, rule, 0); the rows' files, pages and spans one after the other.
pub struct Memory<'a> {
    pub head: [u32; 5],
    pub table: &'a [[u64; 8]],
    pub files: &'a [u8],
    pub pages: &'a [u8],
    pub marks: &'a [[u32; 4]],
}

impl Memory<'_> {
    fn rows(&self) -> &[[u64; 8]] {
        &self.table[..self.head[0] as usize]
    }

    /// Bytes of files, bytes of pages, spans, of all rows. They are wide enough for any words.
    pub fn sums(&self) -> [u128; 3] {
        [0, 1, 2].map(|word| self.rows().iter().map(|row| u128::from(row[word])).sum())
    }

    /// Whether there is a report in it.
    pub fn sound(&self) -> bool {
        let lengths = [self.files.len(), self.pages.len(), self.marks.len()];
        self.head[0] as usize <= ROWS
            && self.table.len() >= ROWS
            && self.sums().iter().zip(lengths).all(|(sum, length)| *sum <= length as u128)
    }

    pub fn settings(&self) -> Settings {
        let [_, width, newline_cost, policy, rule] = self.head;
        Settings { width, newline_cost, policy, rule }
    }

    /// The report in it, where it is sound, whatever the words say.
    pub fn report(&self) -> Report {
        let (mut files, mut pages, mut marks) = (self.files, self.pages, self.marks);
        let rows = self.rows().iter().map(|words| {
            let [file, bytes, spans] = [words[0], words[1], words[2]].map(|word| word as usize);
            let span = |mark: &[u32; 4]| Span {
                annotation: mark[0],
                start: mark[1].into(),
                end: mark[2].into(),
                parent: mark[3].checked_sub(1).map(u64::from),
            };
            let row = Row {
                file: files[..file].to_vec(),
                tables: None,
                bytes: pages[..bytes].to_vec(),
                spans: marks[..spans].iter().map(span).collect(),
                overflow: u128::from(words[3]) << 64 | u128::from(words[4]),
                burden: words[5],
            };
            (files, pages, marks) = (&files[file..], &pages[bytes..], &marks[spans..]);
            Rc::new(row)
        });
        Report { rows: rows.collect(), settings: self.settings() }
    }
}
