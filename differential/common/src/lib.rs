//! What the parts of the harness speak about: a prepared file's tables, the settings and sizes of a call, and its answer.

/// The prepared file's kinds of nodes.
pub mod kind {
    pub const EMPTY: u8 = 0;
    pub const TEXT: u8 = 1;
    pub const BREAK: u8 = 2;
    pub const HARD_LINE: u8 = 3;
    pub const SEQ: u8 = 4;
    pub const GROUP: u8 = 5;
    pub const FILL: u8 = 6;
    pub const NEST: u8 = 7;
    pub const ALIGN: u8 = 8;
    pub const CHOICE: u8 = 9;
    pub const ANNOTATE: u8 = 10;
    pub const PENALTY: u8 = 11;
}

/// The most of each count that a file may have.
pub mod limit {
    pub const NODES: u32 = 4_096;
    pub const EDGES: u32 = 16_384;
    pub const TEXTS: u32 = 4_096;
    pub const ANNOTATIONS: u32 = 4_096;
    pub const CHOICE_EDGES: u32 = 16_384;
    pub const TEXT_BYTES: u64 = 65_536;
}

/// One node as the file has it. A number that is absent is 0, except the flat node.
#[derive(Clone, Copy, Debug, Default, Eq, PartialEq)]
pub struct Node {
    pub kind: u8,
    pub first: u32,
    pub second: u32,
    pub flat: Option<u32>,
    pub choice_start: u32,
    /// 0: the node has no choice list.
    pub choice_length: u32,
    pub skipped: u32,
}

impl Node {
    pub fn of(kind: u8, first: u32, second: u32) -> Node {
        Node { kind, first, second, ..Node::default() }
    }
}

#[derive(Clone, Debug, Default, Eq, PartialEq)]
pub struct Text {
    pub width: u32,
    pub bytes: Vec<u8>,
}

#[derive(Clone, Debug, Default, Eq, PartialEq)]
pub struct Tables {
    pub nodes: Vec<Node>,
    pub edges: Vec<u32>,
    pub choice_edges: Vec<u32>,
    pub texts: Vec<Text>,
    pub annotations: u32,
    pub root: u32,
    pub space: u32,
}

impl Tables {
    pub fn range(&self, node: Node) -> &[u32] {
        &self.edges[node.first as usize..node.first as usize + node.second as usize]
    }
}

#[derive(Clone, Copy, Debug, Eq, PartialEq)]
pub struct Settings {
    pub width: u32,
    pub newline_cost: u32,
    pub policy: u32,
    /// How a line is charged: 1 the square of the columns past the width, 2 the columns themselves.
    pub rule: u32,
}

/// The sizes in the order of the refusals 13 to 21.
#[derive(Clone, Copy, Debug, Eq, PartialEq)]
pub struct Sizes {
    pub stack: u32,
    pub memo: u32,
    pub kept: u32,
    pub frontier: u32,
    pub plans: u32,
    pub visit: u32,
    pub depth: u32,
    pub output: u32,
    pub spans: u32,
}

impl Sizes {
    /// Those of the program `page`.
    pub const PAGE: Sizes = Sizes::of([512, 1_024, 1_024, 256, 2_048, 512, 64, 32_768, 512]);
    /// Past the need of anything that the harness makes, and small enough to be set aside for a run.
    pub const LARGE: Sizes =
        Sizes::of([1 << 20, 1 << 18, 1 << 20, 1 << 18, 1 << 20, 1 << 20, 1 << 16, 1 << 24, 1 << 20]);
    pub const MOST: Sizes = Sizes::of([u32::MAX; 9]);
    pub const NONE: Sizes = Sizes::of([0; 9]);
    pub const NAMES: [&'static str; 9] =
        ["stack", "memo", "kept", "frontier", "plans", "visit", "depth", "output", "spans"];

    pub const fn of(list: [u32; 9]) -> Sizes {
        let [stack, memo, kept, frontier, plans, visit, depth, output, spans] = list;
        Sizes { stack, memo, kept, frontier, plans, visit, depth, output, spans }
    }

    pub const fn list(&self) -> [u32; 9] {
        [self.stack, self.memo, self.kept, self.frontier, self.plans, self.visit, self.depth, self.output, self.spans]
    }
}

#[derive(Clone, Copy, Debug, Eq, PartialEq)]
pub struct Limits {
    pub work: u64,
    pub visits: u64,
}

impl Limits {
    pub const PAGE: Limits = Limits { work: 1_000_000, visits: 1_000_000 };
    pub const NONE: Limits = Limits { work: u64::MAX, visits: u64::MAX };
}

/// Those of `SolveStats`, plus visits.
#[derive(Clone, Copy, Debug, Default, Eq, PartialEq)]
pub struct Counts {
    pub work: u64,
    pub fit_checks: u64,
    pub hits: u64,
    pub misses: u64,
    pub generated: u64,
    pub pruned: u64,
    pub peak_frontier: u64,
    pub memo_entries: u64,
    pub plan_nodes: u64,
    pub visits: u64,
}

impl Counts {
    pub const NAMES: [&'static str; 10] = [
        "work",
        "fit_checks",
        "hits",
        "misses",
        "generated",
        "pruned",
        "peak_frontier",
        "memo_entries",
        "plan_nodes",
        "visits",
    ];

    pub const fn of(list: [u64; 10]) -> Counts {
        let [work, fit_checks, hits, misses, generated, pruned, peak_frontier, memo_entries, plan_nodes, visits] = list;
        Counts { work, fit_checks, hits, misses, generated, pruned, peak_frontier, memo_entries, plan_nodes, visits }
    }

    pub fn list(&self) -> [u64; 10] {
        [
            self.work,
            self.fit_checks,
            self.hits,
            self.misses,
            self.generated,
            self.pruned,
            self.peak_frontier,
            self.memo_entries,
            self.plan_nodes,
            self.visits,
        ]
    }
}

#[derive(Clone, Copy, Debug, Eq, PartialEq)]
pub struct Span {
    pub annotation: u32,
    pub start: u64,
    pub end: u64,
    pub parent: Option<u64>,
}

#[derive(Clone, Debug, Eq, PartialEq)]
pub struct Page {
    pub bytes: Vec<u8>,
    pub spans: Vec<Span>,
    pub overflow: u128,
    pub burden: u64,
    pub counts: Counts,
    /// The greatest size needed of each kind. A refusal has none.
    pub needs: Sizes,
}

/// A refusal: document 01's number, the needed size (13 to 21, otherwise 0), the counts at the stop.
#[derive(Clone, Copy, Debug, Eq, PartialEq)]
pub struct Refusal {
    pub number: u32,
    pub needed: u64,
    pub counts: Counts,
}

impl Refusal {
    /// Of the order or the file: 1 to 10.
    pub fn early(number: u32) -> Refusal {
        Refusal { number, needed: 0, counts: Counts::default() }
    }
}

pub type Answer = Result<Page, Refusal>;

pub fn counts(answer: &Answer) -> Counts {
    match answer {
        Ok(page) => page.counts,
        Err(refusal) => refusal.counts,
    }
}

pub fn to_hex(bytes: &[u8]) -> String {
    bytes.iter().map(|byte| format!("{byte:02x}")).collect()
}

/// White space is ignored.
pub fn from_hex(text: &str) -> Option<Vec<u8>> {
    let digits: Vec<u32> =
        text.chars().filter(|c| !c.is_whitespace()).map(|c| c.to_digit(16)).collect::<Option<_>>()?;
    if !digits.len().is_multiple_of(2) {
        return None;
    }
    Some(digits.chunks(2).map(|pair| (pair[0] * 16 + pair[1]) as u8).collect())
}

/// An answer as lines of text.
pub fn describe(answer: &Answer) -> String {
    let mut out = String::new();
    let counts = match answer {
        Ok(page) => {
            out.push_str(&format!("page \"{}\" ({} bytes)\n", page.bytes.escape_ascii(), page.bytes.len()));
            out.push_str(&format!("overflow {:032x} ({})\n", page.overflow, page.overflow));
            out.push_str(&format!("burden {}\n", page.burden));
            out.push_str(&format!("spans {}\n", page.spans.len()));
            for (index, span) in page.spans.iter().enumerate() {
                let parent = span.parent.map_or("none".to_string(), |parent| parent.to_string());
                out.push_str(&format!(
                    "  span {index}: annotation {} start {} end {} parent {parent}\n",
                    span.annotation, span.start, span.end
                ));
            }
            page.counts
        }
        Err(refusal) => {
            out.push_str(&format!("refused {}\nneeded {}\n", refusal.number, refusal.needed));
            refusal.counts
        }
    };
    let named = |names: &[&str], list: &[u64]| {
        let pairs: Vec<String> = names.iter().zip(list).map(|(name, value)| format!("{name} {value}")).collect();
        pairs.join(", ")
    };
    out.push_str(&format!("counts {}\n", named(&Counts::NAMES, &counts.list())));
    if let Ok(page) = answer {
        out.push_str(&format!("needs {}\n", named(&Sizes::NAMES, &page.needs.list().map(u64::from))));
    }
    out
}
