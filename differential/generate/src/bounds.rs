//! Tables at the limits of the file's counts, and one past them.

use common::{kind, limit, Node, Tables, Text};

use crate::Rng;

pub fn tables(rng: &mut Rng) -> Tables {
    let mut out =
        Tables { nodes: vec![Node::default()], texts: vec![Text { width: 1, bytes: vec![32] }], ..Tables::default() };
    let past = rng.within(0, 1);
    match rng.below(7) {
        0 => out.nodes.resize((limit::NODES + past) as usize, Node::default()),
        1 => out.edges = vec![0; (limit::EDGES + past) as usize],
        2 => out.texts.resize((limit::TEXTS + past) as usize, Text::default()),
        3 => out.annotations = limit::ANNOTATIONS + past,
        4 => out.choice_edges = vec![0; (limit::CHOICE_EDGES + past) as usize],
        5 => out.texts.push(Text { width: rng.within(0, 9), bytes: vec![b'x'; 65_535 + past as usize] }),
        _ => {
            // As deep as nodes go.
            let kind = rng.pick(&[kind::ALIGN, kind::GROUP, kind::NEST, kind::PENALTY, kind::SEQ]);
            for child in 0..limit::NODES - 1 {
                let node = match kind {
                    kind::ALIGN | kind::GROUP => Node::of(kind, child, 0),
                    kind::SEQ => {
                        out.edges.push(child);
                        Node::of(kind, child, 1)
                    }
                    _ => Node::of(kind, rng.within(0, 1), child),
                };
                out.nodes.push(node);
            }
            out.root = limit::NODES - 1 - past;
        }
    }
    out
}

/// Accepted tables with every count at its limit: a chain of Choices as deep as nodes go, nearly all with a list.
pub fn largest() -> Tables {
    let mut out = Tables { annotations: limit::ANNOTATIONS, root: limit::NODES - 1, ..Tables::default() };
    let space = Text { width: 1, bytes: vec![32] };
    let text = |length: usize| Text { width: 1, bytes: vec![b'x'; length] };
    out.texts = vec![text(16); limit::TEXTS as usize];
    out.texts[0] = space;
    out.texts[1] = text(31);
    out.edges = vec![1; limit::EDGES as usize];
    out.nodes = vec![Node::default(), Node::of(kind::TEXT, 1, 0)];
    for index in 2..limit::NODES {
        let mut node = Node { flat: Some(0), ..Node::of(kind::CHOICE, 1, index - 1) };
        if index > 2 {
            node.choice_start = out.choice_edges.len() as u32;
            node.choice_length = 3;
            node.skipped = 1;
            out.choice_edges.extend([1, 1, index - 2]);
        }
        out.nodes.push(node);
    }
    out.choice_edges.resize(limit::CHOICE_EDGES as usize, 1);
    out
}
