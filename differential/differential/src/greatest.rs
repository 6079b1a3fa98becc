//! Calls at the greatest sizes: 2^32 - 1 items of each kind are lent, as address space that gets memory only where a call touches it.

use std::ffi::c_void;

use common::{kind, Answer, Limits, Page, Refusal, Settings, Sizes};
use gannozhi::{SolverMemory, TableMemory};
use generate::Rng;

use crate::compare::{number, Tally, LIMITS, PROBE};
use crate::fixed::{self, Build};
use crate::memory::lengths;
use crate::ours::library::{counts, desked, span, told};

extern "C" {
    fn mmap(at: *mut c_void, length: usize, protection: i32, flags: i32, file: i32, offset: i64) -> *mut c_void;
}

/// As Linux has them on x86-64: PROT_READ | PROT_WRITE; MAP_PRIVATE | MAP_ANONYMOUS | MAP_NORESERVE.
const READ_WRITE: i32 = 1 | 2;
const RESERVED_ONLY: i32 = 0x2 | 0x20 | 0x4000;

const FRONT: usize = 1_000;

/// So many items of zeros, to the end of the program. `T` is a number or an array of numbers, for which all zeros is a value.
fn reserved<T>(items: usize) -> &'static mut [T] {
    let bytes = items * size_of::<T>();
    // SAFETY: a new mapping, of whole pages of zeros, that is never taken back and that nothing else names.
    unsafe {
        let at = mmap(std::ptr::null_mut(), bytes, READ_WRITE, RESERVED_ONLY, -1, 0);
        assert!(at as isize != -1, "no address space for {bytes} bytes: {}", std::io::Error::last_os_error());
        std::slice::from_raw_parts_mut(at.cast(), items)
    }
}

struct Lent {
    nodes: &'static mut [[u32; 8]],
    edges: &'static mut [u32],
    choices: &'static mut [u32],
    texts: &'static mut [[u32; 3]],
    bytes: &'static mut [u8],
    tasks: &'static mut [[u32; 9]],
    results: &'static mut [[u32; 2]],
    pending: &'static mut [[u64; 7]],
    index: &'static mut [u64],
    entries: &'static mut [[u64; 6]],
    kept: &'static mut [[u64; 6]],
    frontier: &'static mut [u64],
    plans: &'static mut [[u32; 3]],
    visit: &'static mut [usize],
    depth: &'static mut [usize],
    output: &'static mut [u8],
    spans: &'static mut [[u64; 4]],
}

impl Lent {
    fn new(lengths: [usize; 17]) -> Lent {
        let [nodes, edges, choices, texts, bytes, tasks, results, pending, index, entries, kept, frontier, plans, visit, depth, output, spans] =
            lengths;
        Lent {
            nodes: reserved(nodes),
            edges: reserved(edges),
            choices: reserved(choices),
            texts: reserved(texts),
            bytes: reserved(bytes),
            tasks: reserved(tasks),
            results: reserved(results),
            pending: reserved(pending),
            index: reserved(index),
            entries: reserved(entries),
            kept: reserved(kept),
            frontier: reserved(frontier),
            plans: reserved(plans),
            visit: reserved(visit),
            depth: reserved(depth),
            output: reserved(output),
            spans: reserved(spans),
        }
    }

    /// A call at the greatest sizes on the front of each slice, of these lengths.
    fn render(
        &mut self,
        lengths: [usize; 17],
        file: &[u8],
        settings: &Settings,
        limits: &Limits,
    ) -> Result<gannozhi::Rendered, gannozhi::Refusal> {
        let [nodes, edges, choices, texts, bytes, tasks, results, pending, index, entries, kept, frontier, plans, visit, depth, output, spans] =
            lengths;
        let Settings { width, newline_cost, policy, rule } = *settings;
        let mut words = [u64::MAX; 26];
        let mut desks = crate::ours::free(|| u64::MAX);
        let mut charged = desks;
        let number = gannozhi::render_words(
            0,
            desked(&mut desks),
            file,
            &gannozhi::Settings { width, newline_cost, policy, rule },
            &gannozhi::Sizes::of(Sizes::MOST.list()),
            &gannozhi::Limits { work: limits.work, visits: limits.visits },
            TableMemory {
                nodes: &mut self.nodes[..nodes],
                edges: &mut self.edges[..edges],
                choices: &mut self.choices[..choices],
                texts: &mut self.texts[..texts],
                bytes: &mut self.bytes[..bytes],
            },
            SolverMemory {
                tasks: &mut self.tasks[..tasks],
                results: &mut self.results[..results],
                pending: &mut self.pending[..pending],
                index: &mut self.index[..index],
                entries: &mut self.entries[..entries],
                kept: &mut self.kept[..kept],
                frontier: &mut self.frontier[..frontier],
                plans: &mut self.plans[..plans],
                visit: &mut self.visit[..visit],
                depth: &mut self.depth[..depth],
            },
            &mut self.output[..output],
            &mut self.spans[..spans],
            &mut words,
        );
        charged[8] = words[7];
        assert!(desks == charged, "the desks after a call of work {}: {desks:?}", words[7]);
        told(number, &words)
    }

    /// The whole answer; a refusal must leave output and spans as they were, of which the front is looked at.
    fn call(&mut self, lengths: [usize; 17], file: &[u8], settings: &Settings, limits: &Limits) -> Answer {
        let before = (self.output[..FRONT].to_vec(), self.spans[..FRONT].to_vec());
        match self.render(lengths, file, settings, limits) {
            Ok(page) => Ok(Page {
                bytes: self.output[..page.length].to_vec(),
                spans: self.spans[..page.spans].iter().map(|row| span(*row)).collect(),
                overflow: page.overflow,
                burden: page.burden,
                counts: counts(&page.counts),
                needs: Sizes::of(page.needs.list()),
            }),
            Err(refusal) => {
                assert!(before.0 == self.output[..FRONT] && before.1 == self.spans[..FRONT], "altered on a refusal");
                Err(Refusal { number: refusal.number, needed: refusal.needed, counts: counts(&refusal.counts) })
            }
        }
    }
}

struct Tried {
    lent: Lent,
    lengths: [usize; 17],
    /// Pages, refusals, differences.
    tally: [u64; 3],
}

impl Tried {
    fn hold(&mut self, what: &str, got: Answer, want: &Answer) {
        self.tally[usize::from(want.is_err())] += 1;
        if got != *want {
            self.tally[2] += 1;
            println!("DIFFERENCE: {what}\n--- ours\n{}--- right\n{}", common::describe(&got), common::describe(want));
        }
    }

    /// The answer of the model, which no size but that of the output bounds; a longer page than PROBE allows is left out.
    fn modelled(&mut self, what: &str, file: &[u8], settings: &Settings, limits: &Limits) {
        let want = model::answer(file, settings, &PROBE, limits);
        if number(&want) != 20 {
            let got = self.lent.call(self.lengths, file, settings, limits);
            self.hold(what, got, &want);
        }
    }
}

/// A HardLine in a Nest, and behind it a text of width 0, unless it is empty.
fn indented(indent: u32, text: &str) -> Vec<u8> {
    let mut b = Build::new();
    let line = b.node(kind::HARD_LINE, 0, 0);
    let nest = b.node(kind::NEST, indent, line);
    if !text.is_empty() {
        let text = b.wide(text, 0);
        b.list(kind::SEQ, &[nest, text]);
    }
    b.file()
}

pub fn run(seed: u64, cases: u64, whole_page: bool) -> i32 {
    let lengths = lengths(&Sizes::MOST);
    let mut tried = Tried { lent: Lent::new(lengths), lengths, tally: [0; 3] };
    for case in fixed::cases() {
        tried.modelled(case.name, &case.file, &case.settings, &case.limits);
    }
    for index in 0..cases {
        let rng = &mut Rng::of_case(seed, index);
        let (tables, profile) = crate::accepted(rng, &mut Tally::default());
        let drawn = generate::settings(rng, profile.is_some_and(|profile| profile.extreme()));
        let settings = Settings { rule: generate::rule(seed, index), ..drawn };
        tried.modelled(&format!("document {index}"), &model::file::bytes(&tables), &settings, &LIMITS);
    }
    let settings = Settings { width: 80, newline_cost: 1, policy: 0, rule: 1 };
    for short in 0..17 {
        let mut less = lengths;
        less[short] -= 1;
        let got = tried.lent.call(less, &indented(3, "ab"), &settings, &LIMITS);
        tried.hold(&format!("slice {short} one item short"), got, &Err(Refusal::early(1)));
    }
    // The counts are those of the same document with the indent 9 and as much less room.
    let text = "x".repeat(65_535);
    for (indent, text, room, needed) in [(u32::MAX, "", 9, 1 << 32), (u32::MAX - 1, &text, 10, 4_295_032_830)] {
        let sizes = Sizes { output: room, ..PROBE };
        let small = model::answer(&indented(9, text), &settings, &sizes, &LIMITS);
        let want = small.map_err(|refusal| Refusal { needed, ..refusal });
        let got = tried.lent.call(lengths, &indented(indent, text), &settings, &LIMITS);
        tried.hold(&format!("an indent of {indent}"), got, &want);
    }
    if whole_page {
        let got = tried.lent.render(lengths, &indented(u32::MAX - 1, ""), &settings, &LIMITS);
        let got = got.map(|page| (page.length, page.needs.output));
        let [line, spaces @ ..] = &*tried.lent.output else { unreachable!() };
        let right = got == Ok((u32::MAX as usize, u32::MAX)) && *line == 10 && spaces.iter().all(|byte| *byte == 32);
        tried.tally[0] += 1;
        tried.tally[2] += u64::from(!right);
    }
    let [pages, refusals, differences] = tried.tally;
    println!("2^32 - 1 items of each kind lent: {pages} pages, {refusals} refusals, memory at most {}", memory());
    println!("differences {differences}");
    i32::from(differences > 0)
}

/// What of all the address space had memory behind it.
fn memory() -> String {
    let status = std::fs::read_to_string("/proc/self/status").unwrap_or_default();
    let line = status.lines().find_map(|line| line.strip_prefix("VmHWM:"));
    line.unwrap_or("unknown").trim().to_string()
}
