//! Stand-in for the reference's module `doc`: the source documents that prepare.rs walks, and no more.

use std::sync::Arc;

#[derive(Clone, Copy, Debug, Eq, Hash, PartialEq)]
pub enum FlatAlternative {
    Space,
    Empty,
}

#[derive(Clone, Debug)]
pub struct TextRun {
    value: Arc<str>,
    columns: u32,
}

impl TextRun {
    pub fn new(value: &str, columns: u32) -> Self {
        Self { value: Arc::from(value), columns }
    }

    pub fn trusted_ascii(value: &str) -> Self {
        Self::new(value, value.len() as u32)
    }

    pub fn value_arc(&self) -> Arc<str> {
        self.value.clone()
    }

    pub fn columns(&self) -> u32 {
        self.columns
    }
}

pub enum Node<A> {
    Empty,
    Text(TextRun),
    Break(FlatAlternative),
    HardLine,
    Seq(Vec<Doc<A>>),
    Group(Doc<A>),
    Fill(Vec<Doc<A>>),
    Nest { indent: u32, child: Doc<A> },
    Align(Doc<A>),
    Choice { preferred: Doc<A>, alternative: Doc<A> },
    Annotate { annotation: Arc<A>, child: Doc<A> },
    Penalty { amount: u32, child: Doc<A> },
}

pub struct Doc<A>(Arc<Node<A>>);

impl<A> Clone for Doc<A> {
    fn clone(&self) -> Self {
        Self(self.0.clone())
    }
}

impl<A> Doc<A> {
    pub fn new(node: Node<A>) -> Self {
        Self(Arc::new(node))
    }

    pub fn root(&self) -> &Arc<Node<A>> {
        &self.0
    }
}
