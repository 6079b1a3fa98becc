//! From a prepared file's tables to the reference's node table, and from its answer to ours.

use std::num::NonZeroU32;
use std::sync::Arc;

use common::{kind, Answer, Counts, Page, Refusal, Settings, Sizes, Span, Tables, Text};

use crate::doc::FlatAlternative;
use crate::kernel::access::{domain_violation, visits};
use crate::kernel::{
    render_into, solve_into, ExactSolveCapacity, FastSolveCapacity, IndentPolicy, LayoutStrategy, MaterializeCapacity,
    RenderCapacity, RenderError, RenderOptions, RenderWorkspace, SolveStats, VisitCapacity, WorkspaceResource,
};
use crate::prepare::{
    AnnotationId, EdgeRange, ExactChoice, NodeId, PreparedBounds, PreparedData, PreparedDoc, PreparedNode,
    PreparedText, TextId,
};

pub use crate::kernel::access::{memo_hash, memo_slots_for, present_all};

pub(crate) fn empty_data<A>() -> PreparedData<A> {
    PreparedData {
        nodes: Box::new([PreparedNode::Empty]),
        edges: Box::new([]),
        texts: Box::new([]),
        annotations: Box::new([]),
        fit_summaries: Box::new([]),
        flat_nodes: Box::new([None]),
        exact_choices: Box::new([None]),
        exact_choice_edges: Box::new([]),
        root: NodeId(0),
        space_text: TextId(0),
        bounds: PreparedBounds::default(),
    }
}

/// The reference holds texts as `str`; those of an accepted file are UTF-8.
pub struct Document {
    prepared: PreparedDoc<()>,
}

/// The node table of 001 for the tables of an accepted file. The fit summaries and bounds serve the fast path alone and are left out;
/// so is what a Break is when flat, which the exact solver does not ask.
pub fn document(tables: &Tables) -> Document {
    let nodes = tables.nodes.iter().map(|node| {
        let (first, second) = (node.first, node.second);
        let child = NodeId(second);
        match node.kind {
            kind::EMPTY => PreparedNode::Empty,
            kind::TEXT => PreparedNode::Text(TextId(first)),
            kind::BREAK => PreparedNode::Break(FlatAlternative::Space),
            kind::HARD_LINE => PreparedNode::HardLine,
            kind::SEQ => PreparedNode::Seq(EdgeRange { start: first, len: second }),
            kind::GROUP => PreparedNode::Group(NodeId(first)),
            kind::FILL => PreparedNode::Fill(EdgeRange { start: first, len: second }),
            kind::NEST => PreparedNode::Nest { indent: first, child },
            kind::ALIGN => PreparedNode::Align(NodeId(first)),
            kind::CHOICE => PreparedNode::Choice { preferred: NodeId(first), alternative: NodeId(second) },
            kind::ANNOTATE => PreparedNode::Annotate { annotation: AnnotationId(first), child },
            kind::PENALTY => PreparedNode::Penalty { amount: first, child },
            other => panic!("kind {other} is in no accepted file"),
        }
    });
    let choices = tables.nodes.iter().map(|node| {
        (node.choice_length != 0).then_some(ExactChoice {
            alternatives: EdgeRange { start: node.choice_start, len: node.choice_length },
            skipped_choices: node.skipped,
        })
    });
    let texts = tables.texts.iter().map(|text| PreparedText {
        byte_len: text.bytes.len(),
        value: Arc::from(std::str::from_utf8(&text.bytes).expect("UTF-8")),
        display_width: text.width,
    });
    let data = PreparedData {
        nodes: nodes.collect(),
        edges: tables.edges.iter().map(|edge| NodeId(*edge)).collect(),
        texts: texts.collect(),
        annotations: (0..tables.annotations).map(|_| Arc::new(())).collect(),
        fit_summaries: Box::new([]),
        flat_nodes: tables.nodes.iter().map(|node| node.flat.map(NodeId)).collect(),
        exact_choices: choices.collect(),
        exact_choice_edges: tables.choice_edges.iter().map(|edge| NodeId(*edge)).collect(),
        root: NodeId(tables.root),
        space_text: TextId(tables.space),
        bounds: PreparedBounds::default(),
    };
    Document { prepared: PreparedDoc(Arc::new(data)) }
}

/// The tables of a document that prepare.rs made.
pub fn tables<A>(prepared: &PreparedDoc<A>) -> Tables {
    let data = &prepared.0;
    let nodes = data.nodes.iter().enumerate().map(|(index, node)| {
        let (kind, first, second) = match *node {
            PreparedNode::Empty => (kind::EMPTY, 0, 0),
            PreparedNode::Text(text) => (kind::TEXT, text.0, 0),
            PreparedNode::Break(_) => (kind::BREAK, 0, 0),
            PreparedNode::HardLine => (kind::HARD_LINE, 0, 0),
            PreparedNode::Seq(range) => (kind::SEQ, range.start, range.len),
            PreparedNode::Group(child) => (kind::GROUP, child.0, 0),
            PreparedNode::Fill(range) => (kind::FILL, range.start, range.len),
            PreparedNode::Nest { indent, child } => (kind::NEST, indent, child.0),
            PreparedNode::Align(child) => (kind::ALIGN, child.0, 0),
            PreparedNode::Choice { preferred, alternative } => (kind::CHOICE, preferred.0, alternative.0),
            PreparedNode::Annotate { annotation, child } => (kind::ANNOTATE, annotation.0, child.0),
            PreparedNode::Penalty { amount, child } => (kind::PENALTY, amount, child.0),
        };
        let mut node = common::Node::of(kind, first, second);
        node.flat = data.flat_nodes[index].map(|flat| flat.0);
        if let Some(choice) = data.exact_choices[index] {
            node.choice_start = choice.alternatives.start;
            node.choice_length = choice.alternatives.len;
            node.skipped = choice.skipped_choices;
        }
        node
    });
    let texts = data.texts.iter().map(|text| Text { width: text.display_width, bytes: text.value.as_bytes().to_vec() });
    Tables {
        nodes: nodes.collect(),
        edges: data.edges.iter().map(|edge| edge.0).collect(),
        choice_edges: data.exact_choice_edges.iter().map(|edge| edge.0).collect(),
        texts: texts.collect(),
        annotations: data.annotations.len() as u32,
        root: data.root.0,
        space: data.space_text.0,
    }
}

fn counts(stats: SolveStats, visits: u64) -> Counts {
    Counts {
        work: stats.work_items,
        fit_checks: stats.fit_checks,
        hits: stats.memo_hits,
        misses: stats.memo_misses,
        generated: stats.candidates_generated,
        pruned: stats.candidates_pruned,
        peak_frontier: stats.peak_frontier as u64,
        memo_entries: stats.memo_entries as u64,
        plan_nodes: stats.plan_nodes as u64,
        visits,
    }
}

fn number(resource: WorkspaceResource) -> u32 {
    match resource {
        WorkspaceResource::ExactWorkItems => 13,
        WorkspaceResource::MemoEntries => 14,
        WorkspaceResource::RetainedCandidates => 15,
        WorkspaceResource::FrontierScratch => 16,
        WorkspaceResource::PlanNodes => 17,
        WorkspaceResource::VisitWorkItems => 18,
        WorkspaceResource::AnnotationDepth => 19,
        WorkspaceResource::OutputBytes => 20,
        WorkspaceResource::Spans => 21,
        other => panic!("{other:?} has no part in the exact solver"),
    }
}

fn options(settings: &Settings) -> RenderOptions {
    assert_eq!(settings.rule, 1, "the reference charges squares and knows no other rule");
    let policy = match settings.policy {
        0 => IndentPolicy::Preserve,
        _ => IndentPolicy::ClampToWidthMinusOne,
    };
    RenderOptions::new(NonZeroU32::new(settings.width).expect("a width"))
        .with_newline_cost(settings.newline_cost)
        .with_strategy(LayoutStrategy::Exact)
        .with_indent_policy(policy)
}

fn workspace(sizes: &Sizes) -> RenderWorkspace {
    let capacity = RenderCapacity::new(
        FastSolveCapacity::new(0),
        ExactSolveCapacity::new(
            sizes.memo as usize,
            sizes.kept as usize,
            sizes.frontier as usize,
            sizes.stack as usize,
        ),
        sizes.plans as usize,
        VisitCapacity::new(sizes.visit as usize, sizes.depth as usize),
        MaterializeCapacity::new(sizes.output as usize, sizes.spans as usize),
    );
    RenderWorkspace::fixed(capacity).expect("memory for the sizes")
}

/// `ExactSolver::solve`, then `materialize`, on a workspace of these sizes in `WorkspaceMode::Fixed`. The reference has no work and no
/// visit limit and keeps no count of visits: `visits` is 0 in a refusal. Nor does it tell what it needed: a page's needs are 0 here.
pub fn render(document: &Document, settings: &Settings, sizes: &Sizes) -> Answer {
    let options = options(settings);
    let mut space = workspace(sizes);
    let error = match render_into(&document.prepared, options, &mut space) {
        Ok(rendered) => {
            let spans = rendered.spans().iter().map(|span| Span {
                annotation: span.annotation.0,
                start: span.range.start as u64,
                end: span.range.end as u64,
                parent: span.parent.map(|parent| parent.index() as u64),
            });
            return Ok(Page {
                bytes: rendered.text().as_bytes().to_vec(),
                spans: spans.collect(),
                overflow: rendered.cost().overflow(),
                burden: rendered.cost().burden(),
                counts: counts(rendered.stats(), visits(&rendered)),
                needs: Sizes::NONE,
            });
        }
        Err(error) => error,
    };
    Err(match error {
        RenderError::WorkspaceExhausted { resource, required, stats, .. } => {
            Refusal { number: number(resource), needed: required as u64, counts: counts(stats, 0) }
        }
        RenderError::WorkspaceCapacityOverflow { resource, required, stats, .. } => Refusal {
            number: number(resource),
            needed: required.expect("no calculation overflows") as u64,
            counts: counts(stats, 0),
        },
        RenderError::CostDomainViolation => {
            let (number, stats) =
                domain_violation(&document.prepared, options, &mut space).expect("the same stop again");
            Refusal { number, needed: 0, counts: counts(stats, 0) }
        }
        other => panic!("the reference cannot answer so: {other:?}"),
    })
}

/// For measuring: a document with a workspace that is set aside once.
pub struct Bench<'a> {
    document: &'a Document,
    options: RenderOptions,
    space: RenderWorkspace,
}

impl Bench<'_> {
    pub fn new<'a>(document: &'a Document, settings: &Settings, sizes: &Sizes) -> Bench<'a> {
        Bench { document, options: options(settings), space: workspace(sizes) }
    }

    /// The solver alone: the work.
    pub fn solve(&mut self) -> u64 {
        let layout = solve_into(&self.document.prepared, self.options, &mut self.space).expect("a layout");
        layout.stats().work_items
    }

    /// Solver and materializer: the length of the page.
    pub fn render(&mut self) -> usize {
        render_into(&self.document.prepared, self.options, &mut self.space).expect("a page").text().len()
    }
}

/// Takes from the model's answer what the reference does not show: visits at a refusal, a page's needs.
pub fn fill_in(shown: &mut Answer, modelled: &Answer) {
    match (shown, modelled) {
        (Err(refusal), Err(other)) => refusal.counts.visits = other.counts.visits,
        (Ok(page), Ok(other)) => page.needs = other.needs,
        _ => {}
    }
}
