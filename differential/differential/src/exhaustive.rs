//! All documents of a few nodes over a small alphabet, and all Choices of two blocks of lines, under all small settings and both rules; all
//! files that differ in one byte, or are cut short, from a few small ones; every map byte beside every kind byte; all short texts.

use common::{kind, Limits, Node, Settings, Sizes, Tables, Text};
use generate::Rng;

use crate::compare::{Call, Comparer, LIMITS};
use crate::fixed::Build;
use crate::{fixed, needs, pairs, texts};

pub fn run(comparer: &mut Comparer, nodes: usize, progress: &mut dyn FnMut(&Comparer)) {
    let texts = vec![
        Text { width: 1, bytes: vec![32] },
        Text { width: 1, bytes: b"a".to_vec() },
        Text { width: 2, bytes: b"bc".to_vec() },
    ];
    let mut tables = Tables { texts, annotations: 1, ..Tables::default() };
    for count in 1..=nodes {
        documents(comparer, &mut tables, count, progress);
    }
    blocks(comparer, progress);
    files(comparer, progress);
    pairs::run(comparer, progress);
    texts::run(comparer, progress);
}

fn documents(comparer: &mut Comparer, tables: &mut Tables, left: usize, progress: &mut dyn FnMut(&Comparer)) {
    if left == 0 {
        calls(comparer, tables);
        progress(comparer);
        return;
    }
    let edges = tables.edges.len();
    for (node, children, flat) in nodes(tables.nodes.len() as u32) {
        let before = flat.map(|_| tables.nodes[node.first as usize].flat);
        if let Some(flat) = flat {
            tables.nodes[node.first as usize].flat = Some(flat);
        }
        let mut node = node;
        if matches!(node.kind, kind::SEQ | kind::FILL) {
            node.first = edges as u32;
            node.second = children.len() as u32;
        }
        tables.nodes.push(node);
        tables.edges.extend(children);
        documents(comparer, tables, left - 1, progress);
        tables.edges.truncate(edges);
        tables.nodes.pop();
        if let Some(before) = before {
            tables.nodes[node.first as usize].flat = before;
        }
    }
}

/// The nodes that may follow `count` others, with their edges; for a Group, the flat node that its child is given.
fn nodes(count: u32) -> Vec<(Node, Vec<u32>, Option<u32>)> {
    let mut list = Vec::new();
    let mut plain = |kind, first, second| list.push((Node::of(kind, first, second), vec![], None));
    plain(kind::EMPTY, 0, 0);
    plain(kind::TEXT, 1, 0);
    plain(kind::TEXT, 2, 0);
    plain(kind::HARD_LINE, 0, 0);
    for child in 0..count {
        plain(kind::ALIGN, child, 0);
        plain(kind::NEST, 1, child);
        plain(kind::ANNOTATE, 0, child);
        plain(kind::PENALTY, 1, child);
        for other in 0..count {
            plain(kind::CHOICE, child, other);
        }
    }
    for child in 0..count {
        for other in 0..count {
            list.push((Node::of(kind::SEQ, 0, 0), vec![child, other], None));
            list.push((Node::of(kind::FILL, 0, 0), vec![child, other], None));
            list.push((Node::of(kind::GROUP, child, 0), vec![], Some(other)));
        }
    }
    list
}

/// Choices of two blocks of one to three lines, each of 1 to 4 columns: few nodes have few lines, and it takes lines of different lengths
/// for the rules to take different ones.
fn blocks(comparer: &mut Comparer, progress: &mut dyn FnMut(&Comparer)) {
    let longer = |blocks: &[Vec<usize>]| -> Vec<Vec<usize>> {
        blocks.iter().flat_map(|block| (1..=4).map(|width| [&block[..], &[width]].concat())).collect()
    };
    let one = longer(&[vec![]]);
    let two = longer(&one);
    let all = [longer(&two), two, one].concat();
    for (first, second) in all.iter().flat_map(|first| all.iter().map(move |second| (first, second))) {
        let mut b = Build::new();
        let line = b.node(kind::HARD_LINE, 0, 0);
        let texts = [1, 2, 3, 4].map(|width| b.wide(&"abcd"[..width], width as u32));
        let [first, second] = [first, second].map(|block| {
            let lines: Vec<u32> = block.iter().flat_map(|width| [line, texts[width - 1]]).collect();
            b.list(kind::SEQ, &lines[1..])
        });
        b.node(kind::CHOICE, first, second);
        calls(comparer, &mut model::file::read(&b.file()).expect("an accepted file"));
        progress(comparer);
    }
}

fn calls(comparer: &mut Comparer, tables: &mut Tables) {
    tables.root = tables.nodes.len() as u32 - 1;
    let file = model::file::bytes(tables);
    // A later Group may have given a node a flat node that leads back to it.
    if model::file::read(&file).is_err() {
        let settings = Settings { width: 1, newline_cost: 0, policy: 0, rule: 1 };
        let _ = comparer.call(&Call { file: &file, settings, sizes: Sizes::PAGE, limits: Limits::PAGE }, None);
        return;
    }
    comparer.tally.documents += 1;
    let document = reference::access::document(tables);
    // The needs are tried under one setting of each document.
    let rng = &mut Rng::new(comparer.tally.documents);
    let [width, newline_cost, policy, rule] =
        [(1, 3), (0, 1), (0, 1), (1, 2)].map(|(least, most)| rng.within(least, most));
    let drawn = Settings { width, newline_cost, policy, rule };
    for width in 1..=3 {
        for newline_cost in 0..=1 {
            for policy in 0..=1 {
                let [first, second] = [1, 2].map(|rule| {
                    let settings = Settings { width, newline_cost, policy, rule };
                    let call = Call { file: &file, settings, sizes: Sizes::PAGE, limits: LIMITS };
                    let answer = comparer.call(&call, Some((tables, &document)));
                    comparer.enumerate(&call, tables, &answer);
                    if settings == drawn {
                        needs::run(comparer, rng, &call, (tables, &document), &answer);
                    }
                    answer
                });
                comparer.other_page(&second, &first);
            }
        }
    }
}

fn files(comparer: &mut Comparer, progress: &mut dyn FnMut(&Comparer)) {
    let mut cases = fixed::cases();
    cases.retain(|case| case.file.len() < 160);
    for (at, case) in cases.iter().enumerate() {
        // Cases that differ in sizes or limits alone are one here.
        if cases[..at].iter().any(|other| other.file == case.file && other.settings == case.settings) {
            continue;
        }
        for cut in 0..case.file.len() {
            one(comparer, case, &case.file[..cut]);
        }
        for at in 0..case.file.len() {
            let mut file = case.file.clone();
            for byte in 0..=255 {
                file[at] = byte;
                one(comparer, case, &file);
            }
            progress(comparer);
        }
    }
}

fn one(comparer: &mut Comparer, case: &fixed::Case, file: &[u8]) {
    comparer.tally.damaged += 1;
    let Settings { width, newline_cost, policy, rule } = case.settings;
    let settings = Settings { width: width.max(1), newline_cost, policy: policy.min(1), rule: rule.clamp(1, 2) };
    crate::damaged_file(comparer, &Call { file, settings, sizes: Sizes::PAGE, limits: LIMITS });
}
