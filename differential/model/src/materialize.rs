//! The materializer: the chosen plan's page and spans, with the refusals 18 to 22.

use common::{Answer, Page, Refusal, Span};

use crate::solve::{Plan, Solved};
use crate::Run;

enum Item {
    Plan(usize),
    /// The end of an Annotate's child.
    Close(usize),
}

struct Walk<'r, 'a> {
    run: &'r mut Run<'a>,
    items: Vec<Item>,
    open: Vec<usize>,
    bytes: Vec<u8>,
    spans: Vec<Span>,
}

pub fn materialize(run: &mut Run<'_>, solved: Solved) -> Answer {
    let mut walk = Walk { run, items: Vec::new(), open: Vec::new(), bytes: Vec::new(), spans: Vec::new() };
    walk.push(Item::Plan(solved.root))?;
    while !walk.items.is_empty() {
        if walk.run.counts.visits >= walk.run.limits.visits {
            return walk.run.stop(22, 0);
        }
        walk.run.counts.visits += 1;
        match walk.items.pop().expect("not empty") {
            Item::Plan(plan) => walk.plan(solved.plans[plan])?,
            Item::Close(span) => {
                walk.open.pop();
                walk.spans[span].end = walk.bytes.len() as u64;
            }
        }
    }
    let (overflow, burden) = (solved.cost.overflow, solved.cost.burden);
    let (counts, needs) = (walk.run.counts, walk.run.met());
    Ok(Page { bytes: walk.bytes, spans: walk.spans, overflow, burden, counts, needs })
}

impl Walk<'_, '_> {
    fn push(&mut self, item: Item) -> Result<(), Refusal> {
        self.run.need(18, self.items.len() as u64 + 1)?;
        self.items.push(item);
        Ok(())
    }

    fn plan(&mut self, plan: Plan) -> Result<(), Refusal> {
        match plan {
            Plan::Empty => Ok(()),
            Plan::Text(number) => {
                let bytes = &self.run.tables.texts[number as usize].bytes;
                self.run.need(20, (self.bytes.len() + bytes.len()) as u64)?;
                self.bytes.extend(bytes);
                Ok(())
            }
            // Byte by byte, so that a refusal needs one more than the size.
            Plan::Newline(indent) => {
                let end = self.bytes.len() as u64 + 1 + u64::from(indent);
                let room = u64::from(self.run.sizes.output);
                self.run.need(20, end.min(room + 1))?;
                self.bytes.push(10);
                self.bytes.resize(end as usize, 32);
                Ok(())
            }
            Plan::Join(left, right) => {
                self.push(Item::Plan(right))?;
                self.push(Item::Plan(left))
            }
            Plan::Mark(annotation, child) => {
                let span = self.spans.len();
                self.run.need(21, span as u64 + 1)?;
                let at = self.bytes.len() as u64;
                let parent = self.open.last().map(|parent| *parent as u64);
                self.spans.push(Span { annotation, start: at, end: at, parent });
                self.run.need(19, self.open.len() as u64 + 1)?;
                self.open.push(span);
                self.push(Item::Close(span))?;
                self.push(Item::Plan(child))
            }
            Plan::Fee(child) => self.push(Item::Plan(child)),
        }
    }
}
