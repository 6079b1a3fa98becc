//! From a call on which two answers differ to a smaller one on which they still do.

use common::{kind, Limits, Node, Settings, Sizes, Tables};
use model::file::{bytes, read, referred};

#[derive(Clone)]
pub struct Subject {
    pub tables: Tables,
    pub settings: Settings,
    pub sizes: Sizes,
    pub limits: Limits,
}

/// Takes the first smaller subject that still differs, again and again, within a number of trials.
pub fn shrink(mut subject: Subject, differs: &mut dyn FnMut(&Subject) -> bool) -> Subject {
    let mut trials = 20_000;
    'again: loop {
        for smaller in smaller(&subject) {
            if trials == 0 {
                return subject;
            }
            trials -= 1;
            let accepted = read(&bytes(&smaller.tables)).is_ok_and(|tables| tables == smaller.tables);
            if accepted && differs(&smaller) {
                subject = smaller;
                continue 'again;
            }
        }
        return subject;
    }
}

fn smaller(subject: &Subject) -> Vec<Subject> {
    let mut list = Vec::new();
    let tables = &subject.tables;
    let mut with = |change: &dyn Fn(&mut Subject)| {
        let mut next = subject.clone();
        change(&mut next);
        if weight(&next) < weight(subject) {
            list.push(next);
        }
    };
    with(&|next| next.tables = reachable(tables));
    for target in referred(tables, tables.root as usize) {
        with(&|next| {
            next.tables.root = target;
            next.tables = reachable(&next.tables);
        });
    }
    for (index, node) in tables.nodes.iter().enumerate() {
        let becomes = |next: &mut Subject, node: Node| next.tables.nodes[index] = node;
        with(&|next| becomes(next, Node::default()));
        for target in referred(tables, index) {
            with(&|next| becomes(next, tables.nodes[target as usize]));
        }
        with(&|next| becomes(next, Node { flat: None, ..*node }));
        with(&|next| becomes(next, Node { choice_start: 0, choice_length: 0, skipped: 0, ..*node }));
        match node.kind {
            kind::SEQ | kind::FILL if node.second > 0 => {
                with(&|next| becomes(next, Node { second: node.second - 1, ..*node }));
                with(&|next| becomes(next, Node { first: node.first + 1, second: node.second - 1, ..*node }));
            }
            kind::NEST | kind::PENALTY => {
                for amount in [0, 1, node.first / 2, node.first.saturating_sub(1)] {
                    with(&|next| becomes(next, Node { first: amount, ..*node }));
                }
            }
            _ => {}
        }
    }
    for (index, text) in tables.texts.iter().enumerate() {
        for length in [0, 1, text.bytes.len() / 2] {
            with(&|next| next.tables.texts[index].bytes.truncate(length));
        }
        for width in [0, 1, text.width / 2, text.width.saturating_sub(1)] {
            with(&|next| next.tables.texts[index].width = width);
        }
    }
    let settings = subject.settings;
    for width in [1, 2, settings.width / 2, settings.width - 1] {
        with(&|next| next.settings.width = width.max(1));
    }
    for cost in [0, 1, settings.newline_cost / 2] {
        with(&|next| next.settings.newline_cost = cost);
    }
    with(&|next| next.settings.policy = 0);
    with(&|next| next.settings.rule = 1);
    list
}

/// What is to fall.
fn weight(subject: &Subject) -> (usize, u128) {
    let tables = &subject.tables;
    let amounts = tables.nodes.iter().filter(|node| matches!(node.kind, kind::NEST | kind::PENALTY));
    let rest = amounts.map(|node| u128::from(node.first)).sum::<u128>()
        + tables
            .nodes
            .iter()
            .filter(|node| node.kind != kind::EMPTY)
            .map(|node| 1 + u128::from(node.kind))
            .sum::<u128>()
        + tables.nodes.iter().map(|node| u128::from(node.second)).sum::<u128>()
        + tables.texts.iter().map(|text| u128::from(text.width)).sum::<u128>()
        + u128::from(subject.settings.width)
        + u128::from(subject.settings.newline_cost)
        + u128::from(subject.settings.policy)
        + u128::from(subject.settings.rule);
    (bytes(tables).len(), rest)
}

/// The tables without what the root does not lead to.
fn reachable(tables: &Tables) -> Tables {
    let mut order: Vec<u32> = Vec::new();
    let mut number = vec![None; tables.nodes.len()];
    let mut stack = vec![tables.root];
    while let Some(node) = stack.pop() {
        if number[node as usize].is_none() {
            number[node as usize] = Some(order.len() as u32);
            order.push(node);
            stack.extend(referred(tables, node as usize));
        }
    }
    let to = |node: u32| number[node as usize].expect("reached");
    let grouped: Vec<u32> = order
        .iter()
        .map(|index| tables.nodes[*index as usize])
        .filter(|node| node.kind == kind::GROUP)
        .map(|node| node.first)
        .collect();
    let mut out = Tables { annotations: tables.annotations, ..Tables::default() };
    let mut texts = vec![tables.space];
    for index in &order {
        let mut node = tables.nodes[*index as usize];
        node.flat = node.flat.filter(|_| grouped.contains(index)).map(to);
        match node.kind {
            kind::TEXT => {
                let at = texts.iter().position(|text| *text == node.first).unwrap_or_else(|| {
                    texts.push(node.first);
                    texts.len() - 1
                });
                node.first = at as u32;
            }
            kind::SEQ | kind::FILL => {
                let children: Vec<u32> = tables.range(node).iter().map(|child| to(*child)).collect();
                node.first = if children.is_empty() { 0 } else { out.edges.len() as u32 };
                out.edges.extend(children);
            }
            kind::GROUP | kind::ALIGN => node.first = to(node.first),
            kind::NEST | kind::ANNOTATE | kind::PENALTY => node.second = to(node.second),
            kind::CHOICE => {
                let start = node.choice_start as usize;
                let entries =
                    tables.choice_edges[start..start + node.choice_length as usize].iter().map(|entry| to(*entry));
                node.choice_start = if node.choice_length == 0 { 0 } else { out.choice_edges.len() as u32 };
                out.choice_edges.extend(entries);
                node.first = to(node.first);
                node.second = to(node.second);
            }
            _ => {}
        }
        out.nodes.push(node);
    }
    out.texts = texts.iter().map(|text| tables.texts[*text as usize].clone()).collect();
    out
}
