//! Optimality by enumeration: all layouts of a small document in choice order, straight from the definition, with no frontier, no memo
//! and no machine. A layout is the list of what it puts; its page, spans, overflow and burden are read off the list; the answer is the
//! first of the cheapest. Columns, indents and costs are taken wide enough not to bound anything.

use std::cell::Cell;

use common::{kind, Settings, Span, Tables};

#[derive(Clone, Copy, Debug)]
enum Put {
    Text(u32),
    /// A newline to the indent.
    Newline(u128),
    Open(u32),
    Close,
    Fee(u32),
}

#[derive(Clone)]
struct Layout {
    puts: Vec<Put>,
    /// The column after it.
    column: u128,
}

#[derive(Clone, Debug, Eq, PartialEq)]
pub struct Best {
    pub bytes: Vec<u8>,
    pub spans: Vec<Span>,
    pub overflow: u128,
    pub burden: u128,
    /// How many layouts there are, and how many of them cost the least.
    pub layouts: usize,
    pub cheapest: usize,
}

/// None where there are more than `most` layouts, where a layout is longer than `longest`, or where finding them takes too long (a shared
/// node is laid out anew each time).
pub fn best(tables: &Tables, settings: &Settings, most: usize, longest: usize) -> Option<Best> {
    let rule = Rule { tables, settings, most, longest, steps: Cell::new(200_000) };
    let layouts = rule.layouts(tables.root, 0, 0)?;
    let costs: Vec<(u128, u128)> = layouts.iter().map(|layout| (rule.overflow(layout), rule.burden(layout))).collect();
    let least = *costs.iter().min()?;
    let first = costs.iter().position(|cost| *cost == least)?;
    let (bytes, spans) = rule.page(&layouts[first])?;
    let cheapest = costs.iter().filter(|cost| **cost == least).count();
    Some(Best { bytes, spans, overflow: least.0, burden: least.1, layouts: layouts.len(), cheapest })
}

struct Rule<'a> {
    tables: &'a Tables,
    settings: &'a Settings,
    most: usize,
    longest: usize,
    /// How many nodes may still be laid out.
    steps: Cell<u32>,
}

impl Rule<'_> {
    fn one(&self, put: Option<Put>, column: u128) -> Option<Vec<Layout>> {
        Some(vec![Layout { puts: put.into_iter().collect(), column }])
    }

    fn lowered(&self, indent: u128) -> u128 {
        match self.settings.policy {
            0 => indent,
            _ => indent.min(u128::from(self.settings.width) - 1),
        }
    }

    /// All layouts of a node at a column and an indent: preferred before alternative, flat before child, space before newline, left to
    /// right.
    fn layouts(&self, number: u32, column: u128, indent: u128) -> Option<Vec<Layout>> {
        self.steps.set(self.steps.get().checked_sub(1)?);
        let node = self.tables.nodes[number as usize];
        match node.kind {
            kind::EMPTY => self.one(None, column),
            kind::TEXT => self.text(node.first, column),
            kind::BREAK | kind::HARD_LINE => self.one(Some(Put::Newline(indent)), indent),
            kind::SEQ | kind::FILL => {
                let mut sofar = self.one(None, column)?;
                for (index, child) in self.tables.range(node).iter().enumerate() {
                    if node.kind == kind::FILL && index > 0 {
                        sofar = self.after(sofar, |column| {
                            let mut gap = self.text(self.tables.space, column)?;
                            gap.extend(self.one(Some(Put::Newline(indent)), indent)?);
                            Some(gap)
                        })?;
                    }
                    sofar = self.after(sofar, |column| self.layouts(*child, column, indent))?;
                }
                Some(sofar)
            }
            kind::GROUP => {
                let mut list = match self.tables.nodes[node.first as usize].flat {
                    Some(flat) => self.layouts(flat, column, indent)?,
                    None => Vec::new(),
                };
                list.extend(self.layouts(node.first, column, indent)?);
                self.bounded(list)
            }
            kind::NEST => self.layouts(node.second, column, self.lowered(indent + u128::from(node.first))),
            kind::ALIGN => self.layouts(node.first, column, self.lowered(column)),
            kind::CHOICE => {
                let mut list = self.layouts(node.first, column, indent)?;
                list.extend(self.layouts(node.second, column, indent)?);
                self.bounded(list)
            }
            kind::ANNOTATE => {
                let mut list = self.layouts(node.second, column, indent)?;
                for layout in &mut list {
                    layout.puts.insert(0, Put::Open(node.first));
                    layout.puts.push(Put::Close);
                }
                Some(list)
            }
            kind::PENALTY => {
                let mut list = self.layouts(node.second, column, indent)?;
                for layout in &mut list {
                    layout.puts.push(Put::Fee(node.first));
                }
                Some(list)
            }
            other => unreachable!("kind {other}"),
        }
    }

    fn text(&self, number: u32, column: u128) -> Option<Vec<Layout>> {
        let width = u128::from(self.tables.texts[number as usize].width);
        self.one(Some(Put::Text(number)), column + width)
    }

    fn bounded(&self, list: Vec<Layout>) -> Option<Vec<Layout>> {
        let longest = list.iter().map(|layout| layout.puts.len()).max().unwrap_or(0);
        (list.len() <= self.most && longest <= self.longest).then_some(list)
    }

    fn after(&self, left: Vec<Layout>, right: impl Fn(u128) -> Option<Vec<Layout>>) -> Option<Vec<Layout>> {
        let mut list = Vec::new();
        for layout in left {
            for next in right(layout.column)? {
                let puts = layout.puts.iter().chain(&next.puts).copied().collect();
                list.push(Layout { puts, column: next.column });
            }
            if list.len() > self.most {
                return None;
            }
        }
        self.bounded(list)
    }

    /// The sum over the lines of what their columns past the width are charged: squared under rule 1, as they are under rule 2.
    fn overflow(&self, layout: &Layout) -> u128 {
        let mut lines = vec![0u128];
        for put in &layout.puts {
            match put {
                Put::Text(number) => {
                    *lines.last_mut().expect("a line") += u128::from(self.tables.texts[*number as usize].width)
                }
                Put::Newline(indent) => lines.push(*indent),
                Put::Open(_) | Put::Close | Put::Fee(_) => {}
            }
        }
        let power = match self.settings.rule {
            1 => 2,
            2 => 1,
            other => unreachable!("rule {other}"),
        };
        lines.iter().map(|columns| columns.saturating_sub(u128::from(self.settings.width)).pow(power)).sum()
    }

    fn burden(&self, layout: &Layout) -> u128 {
        let fee = |put: &Put| match put {
            Put::Newline(_) => u128::from(self.settings.newline_cost),
            Put::Fee(amount) => u128::from(*amount),
            _ => 0,
        };
        layout.puts.iter().map(fee).sum()
    }

    /// The page and the spans in the order of their opening; None where the page is past all reason.
    fn page(&self, layout: &Layout) -> Option<(Vec<u8>, Vec<Span>)> {
        let mut bytes = Vec::new();
        let mut spans: Vec<Span> = Vec::new();
        let mut open = Vec::new();
        for put in &layout.puts {
            match put {
                Put::Text(number) => bytes.extend(&self.tables.texts[*number as usize].bytes),
                Put::Newline(indent) => {
                    if *indent > 1 << 16 || bytes.len() > 1 << 20 {
                        return None;
                    }
                    bytes.push(10);
                    bytes.extend(std::iter::repeat_n(32, *indent as usize));
                }
                Put::Open(annotation) => {
                    let at = bytes.len() as u64;
                    let parent = open.last().map(|index: &usize| *index as u64);
                    open.push(spans.len());
                    spans.push(Span { annotation: *annotation, start: at, end: at, parent });
                }
                Put::Close => spans[open.pop().expect("an open span")].end = bytes.len() as u64,
                Put::Fee(_) => {}
            }
        }
        Some((bytes, spans))
    }
}
