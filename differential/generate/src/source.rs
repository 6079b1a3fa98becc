//! Random source documents for the real prepare.rs, built through the stand-in for the module `doc`.

use std::sync::Arc;

use reference::doc::{Doc, FlatAlternative, Node, TextRun};

use crate::Rng;

pub fn document(rng: &mut Rng) -> Doc<u32> {
    let annotations: Vec<Arc<u32>> = (0..rng.within(1, 4)).map(Arc::new).collect();
    let mut docs: Vec<Doc<u32>> = Vec::new();
    let most = rng.pick(&[6, 20, 60]);
    let lean = rng.below(4);
    for _ in 0..rng.within(1, most) {
        let node = node(rng, &docs, &annotations, lean);
        docs.push(Doc::new(node));
    }
    docs.pop().expect("at least one")
}

fn child(rng: &mut Rng, docs: &[Doc<u32>]) -> Doc<u32> {
    if docs.is_empty() || rng.chance(5) {
        return Doc::new(leaf(rng));
    }
    let span = match rng.below(4) {
        0 => docs.len(),
        _ => docs.len().min(3),
    };
    docs[docs.len() - 1 - rng.index(span)].clone()
}

fn leaf(rng: &mut Rng) -> Node<u32> {
    match rng.below(8) {
        0 => Node::Empty,
        1 => Node::HardLine,
        2 => Node::Break(FlatAlternative::Empty),
        3 => Node::Break(FlatAlternative::Space),
        _ => {
            let text = rng.pick(&["", "a", "bc", "def", "ghij", " ", "klmnopqr", "é", "日本"]);
            let columns = if rng.chance(8) { rng.within(0, 9) } else { text.chars().count() as u32 };
            Node::Text(TextRun::new(text, columns))
        }
    }
}

fn node(rng: &mut Rng, docs: &[Doc<u32>], annotations: &[Arc<u32>], lean: u64) -> Node<u32> {
    let choice = lean == 0 && rng.chance(2);
    match if choice { 9 } else { rng.below(13) } {
        0..=2 => leaf(rng),
        3 | 4 => Node::Seq((0..rng.within(0, 5)).map(|_| child(rng, docs)).collect()),
        5 | 6 => Node::Group(child(rng, docs)),
        7 => Node::Fill((0..rng.within(0, 6)).map(|_| child(rng, docs)).collect()),
        8 => Node::Nest { indent: rng.within(0, 5), child: child(rng, docs) },
        9 => Node::Choice { preferred: child(rng, docs), alternative: child(rng, docs) },
        10 => Node::Align(child(rng, docs)),
        11 => Node::Annotate { annotation: annotations[rng.index(annotations.len())].clone(), child: child(rng, docs) },
        _ => Node::Penalty { amount: rng.within(0, 5), child: child(rng, docs) },
    }
}

/// A report: rows of cells, each row a group that breaks into indented lines.
pub fn report(rng: &mut Rng, rows: usize) -> Doc<u32> {
    let text = |value: &str| Doc::new(Node::Text(TextRun::trusted_ascii(value)));
    let annotation = Arc::new(0u32);
    let mut lines = Vec::new();
    for row in 0..rows {
        let mut cells = vec![text(&format!("row{row}:"))];
        for _ in 0..rng.within(1, 5) {
            cells.push(Doc::new(Node::Break(FlatAlternative::Space)));
            let word = rng.pick(&["alpha", "beta", "gamma", "delta", "x", "value of the cell", "42"]);
            cells.push(text(word));
        }
        let words = ["a", "few", "words", "to", "fill", "the", "line", "with"];
        let remark: Vec<Doc<u32>> = (0..rng.within(1, 8)).map(|_| text(rng.pick(&words))).collect();
        cells.push(Doc::new(Node::Break(FlatAlternative::Space)));
        cells.push(Doc::new(Node::Align(Doc::new(Node::Fill(remark)))));
        let body = Doc::new(Node::Nest { indent: 4, child: Doc::new(Node::Seq(cells)) });
        let group = Doc::new(Node::Group(body));
        lines.push(Doc::new(Node::Annotate { annotation: annotation.clone(), child: group }));
        lines.push(Doc::new(Node::HardLine));
    }
    Doc::new(Node::Seq(lines))
}

/// A paragraph: a Fill of words.
pub fn paragraph(rng: &mut Rng, words: usize) -> Doc<u32> {
    let list = ["a", "few", "words", "to", "fill", "the", "lines", "with", "paragraph", "of"];
    let words = (0..words).map(|_| Doc::new(Node::Text(TextRun::trusted_ascii(rng.pick(&list)))));
    Doc::new(Node::Fill(words.collect()))
}
