//! Our library, behind two traits: calls on one file, and calls as they are, for desks, on several files and of live reports. It is linked here
//! and nowhere else: by the wrapper `../bindings/rust`, unless the feature `ours` is off.

use common::{Answer, Limits, Settings, Sizes, Tables};
use model::file::WriteRefusal;

use crate::memory::Working;

pub trait Printer {
    /// The whole call, for desk 0 that may do anything, on lent memory that holds anything at all: an implementation fills working memory,
    /// output, spans, the answer's words and those of the other desks with dirt first, and panics where the call altered what it must leave
    /// alone (output and spans on a refusal, what lies past the page's end, a slice's length, the desks but for the work that desk 0 has spent)
    /// or where a refusal's words tell more than the refusal.
    fn answer(&mut self, file: &[u8], settings: &Settings, sizes: &Sizes, limits: &Limits) -> Answer;

    /// The writer on the tables with `room` bytes lent; None where it is not linked or cannot be given these tables.
    fn write(&mut self, _tables: &Tables, _room: u64) -> Option<Result<Vec<u8>, WriteRefusal>> {
        None
    }

    /// The reader; None where it is not linked.
    fn read(&mut self, _file: &[u8]) -> Option<Result<Tables, u32>> {
        None
    }

    /// What the program `page` writes to standard output; None where it is not run. It panics where standard error gets anything.
    fn page(&mut self, _input: &[u8]) -> Option<Vec<u8>> {
        None
    }

    /// What `page` writes to standard error, and whether its status is 0, where standard output takes nothing; None where it is not run.
    fn page_into_full(&mut self, _input: &[u8]) -> Option<(Vec<u8>, bool)> {
        None
    }

    /// What was tried of lent memory.
    fn tally(&self) -> String;
}

/// What a step of a live report is lent for more than work: the report, where its page goes, and the answer's words.
pub struct Lent<'a> {
    pub head: &'a mut [u32; 5],
    pub table: &'a mut [[u64; 8]],
    pub files: &'a mut [u8],
    pub pages: &'a mut [u8],
    pub marks: &'a mut [[u32; 4]],
    pub output: &'a mut [u8],
    pub spans: &'a mut [[u64; 4]],
    pub answer: &'a mut [u64; 26],
}

/// What a call on one file or on several is lent, and an insertion for the call on its row: working memory, and where pages and spans are put.
pub struct RowLent<'a> {
    pub working: &'a mut Working,
    pub output: &'a mut [u8],
    pub spans: &'a mut [[u64; 4]],
}

/// The calls for a desk, on one file, on several and on live reports, as they are: each returns the answer's first word. The desks are sixteen
/// words, allowances and then spent counts. An implementation looks after nothing; the caller does.
pub trait Steps {
    fn open(&mut self, settings: &Settings, head: &mut [u32; 5]) -> u32;

    #[allow(clippy::too_many_arguments)]
    fn render(
        &mut self,
        desk: u32,
        desks: &mut [u64; 16],
        file: &[u8],
        settings: &Settings,
        sizes: &Sizes,
        limits: &Limits,
        lent: RowLent<'_>,
        answer: &mut [u64; 26],
    ) -> u32;

    /// The documents' bytes one behind the other, and the number of bytes of each; a row of words for each answer. The counts are the record's
    /// ten. What is returned is the batch's own number.
    #[allow(clippy::too_many_arguments)]
    fn file_all(
        &mut self,
        desk: u32,
        desks: &mut [u64; 16],
        counts: &mut [u64; 10],
        files: &[u8],
        lengths: &[u32],
        settings: &Settings,
        sizes: &Sizes,
        limits: &Limits,
        lent: RowLent<'_>,
        answers: &mut [[u64; 26]],
    ) -> u32;

    #[allow(clippy::too_many_arguments)]
    fn insert(
        &mut self,
        desk: u32,
        desks: &mut [u64; 16],
        place: usize,
        file: &[u8],
        sizes: &Sizes,
        limits: &Limits,
        lent: Lent<'_>,
        row: RowLent<'_>,
    ) -> u32;

    fn remove(&mut self, desk: u32, desks: &mut [u64; 16], place: usize, sizes: &Sizes, lent: Lent<'_>) -> u32;
}

/// The words of the desks for a call of desk 0 that may do anything; what the others have is dirt.
pub fn free(mut word: impl FnMut() -> u64) -> [u64; 16] {
    std::array::from_fn(|at| match at {
        0 => u64::MAX,
        8 => 0,
        _ => word(),
    })
}

#[cfg(not(feature = "ours"))]
pub fn steps() -> Option<Box<dyn Steps>> {
    None
}

#[cfg(feature = "ours")]
pub fn steps() -> Option<Box<dyn Steps>> {
    Some(Box::new(library::Calls))
}

#[cfg(not(feature = "ours"))]
pub fn linked() -> Option<Box<dyn Printer>> {
    None
}

#[cfg(feature = "ours")]
pub fn linked() -> Option<Box<dyn Printer>> {
    Some(Box::new(library::Library::new()))
}

#[cfg(feature = "ours")]
pub mod library {
    use std::fs::File;
    use std::io::Write;
    use std::path::{Path, PathBuf};
    use std::process::{Command, Output, Stdio};

    use common::{Answer, Counts, Limits, Node, Page, Refusal, Settings, Sizes, Span, Tables, Text};
    use gannozhi::{FileCounts, FileTables, ReportMemory, SolverMemory, TableMemory};
    use generate::Rng;
    use model::file::WriteRefusal;

    use super::{Lent, RowLent};
    use crate::memory::{lengths, Dirt, Item, Store, Working};

    pub struct Library {
        rng: Rng,
        /// The program `page`, where it is built.
        program: Option<PathBuf>,
        /// Calls with memory at the size, above it and below it; files read; files written; runs of the program, and into a full device.
        tried: [u64; 7],
        working: Working,
        output: Store<u8>,
        spans: Store<[u64; 4]>,
    }

    impl Library {
        pub fn new() -> Library {
            let program = PathBuf::from(env!("CARGO_MANIFEST_DIR")).join("../../crates/page/out/page");
            Library {
                rng: Rng::new(1),
                program: Some(program).filter(|program| program.is_file()),
                tried: [0; 7],
                working: Working::new(),
                output: Store::new(),
                spans: Store::new(),
            }
        }

        fn soil(&mut self, lengths: [usize; 17]) {
            let rng = &mut self.rng;
            let dirt = Dirt::any(rng);
            self.working.soil(rng, dirt, &lengths);
            self.output.soil(rng, dirt, lengths[15]);
            self.spans.soil(rng, dirt, lengths[16]);
        }

        fn check(&self) {
            self.working.check();
            self.output.check("output");
            self.spans.check("spans");
        }

        fn run(
            &mut self,
            lengths: [usize; 17],
            file: &[u8],
            settings: &Settings,
            sizes: &Sizes,
            limits: &Limits,
        ) -> Answer {
            self.soil(lengths);
            let output_before = self.output.lent().to_vec();
            let spans_before = self.spans.lent().to_vec();
            let mut words = <[u64; 26]>::made(&mut || self.rng.word());
            let mut desks = super::free(|| self.rng.word());
            let mut charged = desks;
            let (tables, solver) = lend(&mut self.working);
            let (sizes, limits) = bounds(sizes, limits);
            let number = gannozhi::render_words(
                0,
                desked(&mut desks),
                file,
                &set(settings),
                &sizes,
                &limits,
                tables,
                solver,
                self.output.lent(),
                self.spans.lent(),
                &mut words,
            );
            self.check();
            charged[8] = words[7];
            if desks != charged {
                panic!("the desks after a call of work {}: {desks:?}", words[7]);
            }
            let answer = told(number, &words);
            let (put, rows) = answer.as_ref().map_or((0, 0), |page| (page.length, page.spans));
            if self.output.lent()[put..] != output_before[put..] || self.spans.lent()[rows..] != spans_before[rows..] {
                panic!("output or spans were altered where there is no page");
            }
            match answer {
                Err(refusal) => {
                    Err(Refusal { number: refusal.number, needed: refusal.needed, counts: counts(&refusal.counts) })
                }
                Ok(page) => Ok(Page {
                    bytes: self.output.lent()[..put].to_vec(),
                    spans: self.spans.lent()[..rows].iter().map(|row| span(*row)).collect(),
                    overflow: page.overflow,
                    burden: page.burden,
                    counts: counts(&page.counts),
                    needs: Sizes::of(page.needs.list()),
                }),
            }
        }
    }

    fn lend(working: &mut Working) -> (TableMemory<'_>, SolverMemory<'_>) {
        let tables = TableMemory {
            nodes: working.nodes.lent(),
            edges: working.edges.lent(),
            choices: working.choices.lent(),
            texts: working.texts.lent(),
            bytes: working.bytes.lent(),
        };
        let solver = SolverMemory {
            tasks: working.tasks.lent(),
            results: working.results.lent(),
            pending: working.pending.lent(),
            index: working.index.lent(),
            entries: working.entries.lent(),
            kept: working.kept.lent(),
            frontier: working.frontier.lent(),
            plans: working.plans.lent(),
            visit: working.visit.lent(),
            depth: working.depth.lent(),
        };
        (tables, solver)
    }

    /// The sixteen words as the wrapper has them.
    pub fn desked(words: &mut [u64; 16]) -> &mut gannozhi::Desks {
        // SAFETY: `Desks` is two arrays of eight such words, laid out as C does.
        unsafe { &mut *std::ptr::from_mut(words).cast() }
    }

    /// Likewise the ten counts.
    fn counted(words: &mut [u64; 10]) -> &mut gannozhi::Counts {
        // SAFETY: `Counts` is ten such words, laid out as C does.
        unsafe { &mut *std::ptr::from_mut(words).cast() }
    }

    /// What the words say, of which each was dirty before the call: a refusal has neither page nor cost nor needs, and a need has 32 bits.
    pub fn told(number: u32, words: &[u64; 26]) -> Result<gannozhi::Rendered, gannozhi::Refusal> {
        let none = words[2..7].iter().chain(&words[17..]).all(|word| *word == 0);
        let fit = words[17..].iter().all(|need| *need <= u64::from(u32::MAX));
        if words[0] != u64::from(number) || !fit || (number != 0 && !none) {
            panic!("an answer's words: {words:?}, returned {number}");
        }
        gannozhi::told(words)
    }

    pub fn counts(ours: &gannozhi::Counts) -> Counts {
        Counts {
            work: ours.work,
            fit_checks: ours.fit_checks,
            hits: ours.hits,
            misses: ours.misses,
            generated: ours.generated,
            pruned: ours.pruned,
            peak_frontier: ours.peak_frontier,
            memo_entries: ours.memo_entries,
            plan_nodes: ours.plan_nodes,
            visits: ours.visits,
        }
    }

    pub fn span(row: [u64; 4]) -> Span {
        let span = gannozhi::span(row);
        Span {
            annotation: span.annotation,
            start: span.start as u64,
            end: span.end as u64,
            parent: span.parent.map(|parent| parent as u64),
        }
    }

    /// The calls by the library.
    pub struct Calls;

    fn memory<'a>(lent: Lent<'a>) -> (ReportMemory<'a>, &'a mut [u8], &'a mut [[u64; 4]], &'a mut [u64; 26]) {
        let Lent { head, table, files, pages, marks, output, spans, answer } = lent;
        (ReportMemory { head, table, files, pages, marks }, output, spans, answer)
    }

    impl super::Steps for Calls {
        fn open(&mut self, settings: &Settings, head: &mut [u32; 5]) -> u32 {
            gannozhi::open_lent(&set(settings), head).map_or_else(|refusal| refusal.number, |()| 0)
        }

        fn render(
            &mut self,
            desk: u32,
            desks: &mut [u64; 16],
            file: &[u8],
            settings: &Settings,
            sizes: &Sizes,
            limits: &Limits,
            lent: RowLent<'_>,
            answer: &mut [u64; 26],
        ) -> u32 {
            let (tables, solver) = lend(lent.working);
            let (sizes, limits) = bounds(sizes, limits);
            gannozhi::render_words(
                desk,
                desked(desks),
                file,
                &set(settings),
                &sizes,
                &limits,
                tables,
                solver,
                lent.output,
                lent.spans,
                answer,
            )
        }

        fn file_all(
            &mut self,
            desk: u32,
            desks: &mut [u64; 16],
            counts: &mut [u64; 10],
            files: &[u8],
            lengths: &[u32],
            settings: &Settings,
            sizes: &Sizes,
            limits: &Limits,
            lent: RowLent<'_>,
            answers: &mut [[u64; 26]],
        ) -> u32 {
            let (tables, solver) = lend(lent.working);
            let (sizes, limits) = bounds(sizes, limits);
            gannozhi::file_all_words(
                desk,
                desked(desks),
                counted(counts),
                files,
                lengths,
                &set(settings),
                &sizes,
                &limits,
                tables,
                solver,
                lent.output,
                lent.spans,
                answers,
            )
        }

        fn insert(
            &mut self,
            desk: u32,
            desks: &mut [u64; 16],
            place: usize,
            file: &[u8],
            sizes: &Sizes,
            limits: &Limits,
            lent: Lent<'_>,
            row: RowLent<'_>,
        ) -> u32 {
            let (report, output, spans, answer) = memory(lent);
            let (tables, solver) = lend(row.working);
            let (sizes, limits) = bounds(sizes, limits);
            gannozhi::insert_words(
                desk,
                desked(desks),
                place,
                file,
                &sizes,
                &limits,
                report,
                output,
                spans,
                tables,
                solver,
                row.output,
                row.spans,
                answer,
            )
        }

        fn remove(&mut self, desk: u32, desks: &mut [u64; 16], place: usize, sizes: &Sizes, lent: Lent<'_>) -> u32 {
            let (report, output, spans, answer) = memory(lent);
            let sizes = gannozhi::Sizes::of(sizes.list());
            gannozhi::remove_words(desk, desked(desks), place, &sizes, report, output, spans, answer)
        }
    }

    fn bounds(sizes: &Sizes, limits: &Limits) -> (gannozhi::Sizes, gannozhi::Limits) {
        let Limits { work, visits } = *limits;
        (gannozhi::Sizes::of(sizes.list()), gannozhi::Limits { work, visits })
    }

    fn set(settings: &Settings) -> gannozhi::Settings {
        let Settings { width, newline_cost, policy, rule } = *settings;
        gannozhi::Settings { width, newline_cost, policy, rule }
    }

    fn ran(program: &Path, stdout: Stdio, input: &[u8]) -> Output {
        let mut command = Command::new(program);
        let mut child =
            command.stdin(Stdio::piped()).stdout(stdout).stderr(Stdio::piped()).spawn().expect("`page` runs");
        // It ends before it has read all where the input is too long.
        let _ = child.stdin.take().expect("a pipe").write_all(input);
        child.wait_with_output().expect("`page` ends")
    }

    impl super::Printer for Library {
        fn answer(&mut self, file: &[u8], settings: &Settings, sizes: &Sizes, limits: &Limits) -> Answer {
            let need = lengths(sizes);
            // At the size, or above it: the size rules.
            let extra = if self.rng.chance(3) { self.rng.within(1, 3) as usize } else { 0 };
            self.tried[usize::from(extra > 0)] += 1;
            let answer = self.run(need.map(|length| length + extra), file, settings, sizes, limits);
            // One below it is 1, before everything.
            if self.rng.chance(8) {
                let kinds: Vec<usize> = (0..17).filter(|kind| need[*kind] > 0).collect();
                self.tried[2] += 1;
                let mut short = need;
                short[self.rng.pick(&kinds)] -= 1;
                let other = self.run(short, file, settings, sizes, limits);
                if other != Err(Refusal::early(1)) {
                    panic!("lent {short:?} for {need:?}: {other:?}");
                }
            }
            answer
        }

        fn read(&mut self, file: &[u8]) -> Option<Result<Tables, u32>> {
            self.tried[3] += 1;
            self.soil(lengths(&Sizes::of([0; 9])));
            let (lent, _) = lend(&mut self.working);
            let read = gannozhi::read_lent(file, lent);
            self.check();
            Some(read.map(|counts| {
                let node = |row: &[u32; 8]| Node {
                    kind: row[0] as u8,
                    first: row[1],
                    second: row[2],
                    flat: (row[3] != 0).then_some(row[4]),
                    choice_start: row[5],
                    choice_length: row[6],
                    skipped: row[7],
                };
                let bytes = &self.working.bytes.lent()[..counts.bytes as usize];
                let text = |row: &[u32; 3]| Text {
                    width: row[0],
                    bytes: bytes[row[2] as usize..row[2] as usize + row[1] as usize].to_vec(),
                };
                Tables {
                    nodes: self.working.nodes.lent()[..counts.nodes as usize].iter().map(node).collect(),
                    edges: self.working.edges.lent()[..counts.edges as usize].to_vec(),
                    choice_edges: self.working.choices.lent()[..counts.choices as usize].to_vec(),
                    texts: self.working.texts.lent()[..counts.texts as usize].iter().map(text).collect(),
                    annotations: counts.annotations,
                    root: counts.root,
                    space: counts.space,
                }
            }))
        }

        /// One in 20 is run: each takes a process.
        fn page(&mut self, input: &[u8]) -> Option<Vec<u8>> {
            let program = self.program.as_ref().filter(|_| self.rng.chance(20))?;
            self.tried[5] += 1;
            let output = ran(program, Stdio::piped(), input);
            if !output.stderr.is_empty() {
                panic!("`page` said on standard error: {}", output.stderr.escape_ascii());
            }
            Some(output.stdout)
        }

        fn page_into_full(&mut self, input: &[u8]) -> Option<(Vec<u8>, bool)> {
            let program = self.program.as_ref()?;
            self.tried[6] += 1;
            let full = File::options().write(true).open("/dev/full").expect("the full device");
            let output = ran(program, full.into(), input);
            Some((output.stderr, output.status.success()))
        }

        fn tally(&self) -> String {
            let [at, above, below, read, written, run, full] = self.tried;
            format!(
                "our calls with memory at the size {at}, above it {above}, one below it {below}; files read {read}, written {written}; runs of `page` {run}, into a full device {full}"
            )
        }

        fn write(&mut self, tables: &Tables, room: u64) -> Option<Result<Vec<u8>, WriteRefusal>> {
            self.tried[4] += 1;
            let nodes: Vec<[u32; 8]> = tables
                .nodes
                .iter()
                .map(|node| {
                    let flat = node.flat.unwrap_or(0);
                    let mark = u32::from(node.flat.is_some());
                    let kind = u32::from(node.kind);
                    [kind, node.first, node.second, mark, flat, node.choice_start, node.choice_length, node.skipped]
                })
                .collect();
            let mut bytes = Vec::new();
            let mut texts = Vec::new();
            for text in &tables.texts {
                texts.push([text.width, text.bytes.len() as u32, bytes.len() as u32]);
                bytes.extend_from_slice(&text.bytes);
            }
            let counts = FileCounts {
                nodes: nodes.len() as u32,
                edges: tables.edges.len() as u32,
                choices: tables.choice_edges.len() as u32,
                texts: texts.len() as u32,
                annotations: tables.annotations,
                root: tables.root,
                space: tables.space,
            };
            let lent = FileTables {
                counts,
                nodes: &nodes,
                edges: &tables.edges,
                choices: &tables.choice_edges,
                texts: &texts,
                bytes: &bytes,
            };
            self.output.soil(&mut self.rng, Dirt::Words, room as usize);
            let before = self.output.lent().to_vec();
            let written = gannozhi::write_lent(lent, self.output.lent());
            self.output.check("the writer's output");
            let put = *written.as_ref().unwrap_or(&0);
            if self.output.lent()[put..] != before[put..] {
                panic!("the writer altered what it must leave alone");
            }
            Some(match written {
                Ok(length) => Ok(self.output.lent()[..length].to_vec()),
                Err((number, needed)) => Err(WriteRefusal { number, needed: needed as u64 }),
            })
        }
    }
}
