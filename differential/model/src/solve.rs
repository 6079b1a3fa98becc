//! The solver: what a node gives at a column and an indent, as a recursion. `Heights` says how high the machine's three stacks (tasks,
//! results, pending) stand below; refusals and counts come in the order of the reference.

use std::collections::HashMap;
use std::rc::Rc;

use common::{kind, Refusal};

use crate::{Reason, Run};

/// A cost: compared by overflow, then burden.
#[derive(Clone, Copy, Debug, Default, Eq, Ord, PartialEq, PartialOrd)]
pub struct Cost {
    pub overflow: u128,
    pub burden: u64,
}

/// A plan, by the numbers of those it is made of.
#[derive(Clone, Copy, Debug)]
pub enum Plan {
    Empty,
    Text(u32),
    Newline(u32),
    Join(usize, usize),
    Mark(u32, usize),
    Fee(usize),
}

/// A presented candidate's plan: one that has its number, or one to be made.
#[derive(Clone, Copy)]
enum Made {
    Already(usize),
    New(Plan),
}

#[derive(Clone, Copy)]
struct Presented {
    cost: Cost,
    column: u32,
    made: Made,
}

#[derive(Clone, Copy)]
struct Candidate {
    cost: Cost,
    column: u32,
    plan: usize,
}

type Frontier = Rc<Vec<Candidate>>;
type Key = (u32, u32, u32);

#[derive(Clone, Copy)]
struct Heights {
    tasks: u64,
    results: u64,
    pending: u64,
}

impl Heights {
    fn over(self, tasks: u64, results: u64, pending: u64) -> Heights {
        Heights { tasks: self.tasks + tasks, results: self.results + results, pending: self.pending + pending }
    }
}

pub struct Solved {
    pub plans: Vec<Plan>,
    pub root: usize,
    pub cost: Cost,
}

struct Solver<'r, 'a> {
    run: &'r mut Run<'a>,
    memo: HashMap<Key, Frontier>,
    kept: u64,
    plans: Vec<Plan>,
}

pub fn solve(run: &mut Run<'_>) -> Result<Solved, Refusal> {
    let root = run.tables.root;
    let mut solver = Solver { run, memo: HashMap::new(), kept: 0, plans: Vec::new() };
    solver.run.need(13, 1)?;
    let frontier = solver.node((root, 0, 0), Heights { tasks: 0, results: 0, pending: 0 })?;
    // The least cost, then the earliest presented.
    let least = frontier.iter().map(|candidate| candidate.cost).min().expect("a frontier is not empty");
    let best = frontier.iter().find(|candidate| candidate.cost == least).expect("the least is there");
    let (root, cost) = (best.plan, best.cost);
    solver.run.counts.plan_nodes = solver.plans.len() as u64;
    Ok(Solved { plans: solver.plans, root, cost })
}

impl Solver<'_, '_> {
    fn domain<T>(&mut self, value: Option<T>, reason: Reason) -> Result<T, Refusal> {
        if value.is_none() {
            self.run.trace.reason = Some(reason);
        }
        value.map_or_else(|| self.run.stop(reason.number(), 0), Ok)
    }

    /// Of a line that ends at the column: over(c)² under rule 1, over(c) under rule 2.
    fn charge(&self, column: u32) -> u128 {
        let over = u128::from(column.saturating_sub(self.run.settings.width));
        match self.run.settings.rule {
            1 => over * over,
            2 => over,
            other => unreachable!("rule {other}"),
        }
    }

    fn text(&mut self, column: u32, width: u32) -> Result<(Cost, u32), Refusal> {
        let end = self.domain(column.checked_add(width), Reason::Column)?;
        Ok((Cost { overflow: self.charge(end) - self.charge(column), burden: 0 }, end))
    }

    fn newline(&self, indent: u32) -> Cost {
        Cost { overflow: self.charge(indent), burden: u64::from(self.run.settings.newline_cost) }
    }

    fn sum(&mut self, left: Cost, right: Cost) -> Result<Cost, Refusal> {
        let overflow = self.domain(left.overflow.checked_add(right.overflow), Reason::Overflow)?;
        let burden = self.domain(left.burden.checked_add(right.burden), Reason::Burden)?;
        Ok(Cost { overflow, burden })
    }

    fn lowered(&self, indent: u32) -> u32 {
        match self.run.settings.policy {
            0 => indent,
            _ => indent.min(self.run.settings.width - 1),
        }
    }

    /// One item of work, unless the limit is reached.
    fn work(&mut self) -> Result<(), Refusal> {
        if self.run.counts.work >= self.run.limits.work {
            return self.run.stop(12, 0);
        }
        self.run.counts.work += 1;
        Ok(())
    }

    /// Tasks are pushed one by one: the stack needs room for each.
    fn tasks(&mut self, at: Heights, pushed: u64) -> Result<(), Refusal> {
        (1..=pushed).try_for_each(|count| self.run.need(13, at.tasks + count))
    }

    /// The frontier of a node at a column and an indent, whose task has just been taken off.
    fn node(&mut self, key: Key, at: Heights) -> Result<Frontier, Refusal> {
        self.work()?;
        if let Some(frontier) = self.memo.get(&key) {
            let frontier = frontier.clone();
            self.run.counts.hits += 1;
            self.run.need(13, at.results + 1)?;
            return Ok(frontier);
        }
        self.run.counts.misses += 1;
        let frontier = self.fresh(key, at)?;
        self.run.need(14, self.memo.len() as u64 + 1)?;
        self.memo.insert(key, frontier.clone());
        self.run.counts.memo_entries = self.memo.len() as u64;
        self.run.need(13, at.results + 1)?;
        Ok(frontier)
    }

    fn fresh(&mut self, key: Key, at: Heights) -> Result<Frontier, Refusal> {
        let (number, column, indent) = key;
        let tables = self.run.tables;
        let node = tables.nodes[number as usize];
        match node.kind {
            kind::EMPTY => self.single(Cost::default(), column, Plan::Empty),
            kind::TEXT => {
                let (cost, end) = self.text(column, tables.texts[node.first as usize].width)?;
                self.single(cost, end, Plan::Text(node.first))
            }
            kind::BREAK | kind::HARD_LINE => self.single(self.newline(indent), indent, Plan::Newline(indent)),
            kind::SEQ | kind::FILL => self.sequence(tables.range(node), node.kind == kind::FILL, column, indent, at),
            kind::GROUP => match tables.nodes[node.first as usize].flat {
                Some(flat) => self.alternatives(&[flat, node.first], column, indent, at),
                None => self.alias((node.first, column, indent), at),
            },
            kind::NEST => {
                let indent = self.domain(indent.checked_add(node.first), Reason::Indent)?;
                self.alias((node.second, column, self.lowered(indent)), at)
            }
            kind::ALIGN => self.alias((node.first, column, self.lowered(column)), at),
            kind::CHOICE => {
                if node.choice_length == 0 {
                    return self.alternatives(&[node.first, node.second], column, indent, at);
                }
                for _ in 0..node.skipped {
                    self.work()?;
                    self.run.counts.misses += 1;
                }
                let start = node.choice_start as usize;
                let list = &tables.choice_edges[start..start + node.choice_length as usize];
                self.alternatives(list, column, indent, at)
            }
            kind::ANNOTATE => {
                let child = self.alias((node.second, column, indent), at)?;
                let wrap = |candidate: &Candidate| Plan::Mark(node.first, candidate.plan);
                self.wrapped(child, wrap, Cost::default())
            }
            kind::PENALTY => {
                let child = self.alias((node.second, column, indent), at)?;
                let amount = Cost { overflow: 0, burden: u64::from(node.first) };
                self.wrapped(child, |candidate| Plan::Fee(candidate.plan), amount)
            }
            other => unreachable!("kind {other}"),
        }
    }

    /// One child: a task to complete this node, and the child's.
    fn alias(&mut self, child: Key, at: Heights) -> Result<Frontier, Refusal> {
        self.tasks(at, 2)?;
        self.node(child, at.over(1, 0, 0))
    }

    /// A task to complete, and one for each alternative, the first on top; then all their candidates in order.
    fn alternatives(&mut self, list: &[u32], column: u32, indent: u32, at: Heights) -> Result<Frontier, Refusal> {
        let count = list.len() as u64;
        self.tasks(at, 1 + count)?;
        let mut found = Vec::new();
        for (index, number) in list.iter().enumerate() {
            let index = index as u64;
            found.push(self.node((*number, column, indent), at.over(count - index, index, 0))?);
        }
        let mut builder = Vec::new();
        for candidate in found.iter().flat_map(|frontier| frontier.iter()) {
            let made = Made::Already(candidate.plan);
            self.present(&mut builder, Presented { cost: candidate.cost, column: candidate.column, made })?;
        }
        self.finish(builder)
    }

    fn wrapped(
        &mut self,
        child: Frontier,
        wrap: impl Fn(&Candidate) -> Plan,
        amount: Cost,
    ) -> Result<Frontier, Refusal> {
        let mut builder = Vec::new();
        for candidate in child.iter() {
            let cost = self.sum(candidate.cost, amount)?;
            let made = Made::New(wrap(candidate));
            self.present(&mut builder, Presented { cost, column: candidate.column, made })?;
        }
        self.finish(builder)
    }

    fn sequence(
        &mut self,
        children: &[u32],
        fill: bool,
        column: u32,
        indent: u32,
        at: Heights,
    ) -> Result<Frontier, Refusal> {
        let Some((first, rest)) = children.split_first() else {
            return self.single(Cost::default(), column, Plan::Empty);
        };
        self.tasks(at, 2)?;
        let mut sofar = self.node((*first, column, indent), at.over(1, 0, 0))?;
        for child in rest {
            if fill {
                sofar = self.gap(sofar, indent, at.pending)?;
            }
            let mut pending = Vec::new();
            for left in sofar.iter() {
                self.tasks(at, 2)?;
                let right = self.node((*child, left.column, indent), at.over(1, 0, pending.len() as u64))?;
                self.join(&mut pending, *left, &right, at.pending)?;
            }
            sofar = self.present_all(pending)?;
            self.tasks(at, 1)?;
            self.run.need(13, at.results + 1)?;
        }
        Ok(sofar)
    }

    /// Each of `right` after `left`, waiting to be presented.
    fn join(
        &mut self,
        pending: &mut Vec<Presented>,
        left: Candidate,
        right: &[Candidate],
        below: u64,
    ) -> Result<(), Refusal> {
        for candidate in right {
            let cost = self.sum(left.cost, candidate.cost)?;
            self.run.need(13, below + pending.len() as u64 + 1)?;
            let made = Made::New(Plan::Join(left.plan, candidate.plan));
            pending.push(Presented { cost, column: candidate.column, made });
        }
        Ok(())
    }

    /// A Fill's gap after each of `sofar`: a space or a newline.
    fn gap(&mut self, sofar: Frontier, indent: u32, below: u64) -> Result<Frontier, Refusal> {
        let mut pending = Vec::new();
        for left in sofar.iter() {
            let mut builder = Vec::new();
            let (cost, column) = self.text(left.column, 1)?;
            let made = Made::New(Plan::Text(self.run.tables.space));
            self.present(&mut builder, Presented { cost, column, made })?;
            let made = Made::New(Plan::Newline(indent));
            self.present(&mut builder, Presented { cost: self.newline(indent), column: indent, made })?;
            let boundary = self.finish(builder)?;
            self.join(&mut pending, *left, &boundary, below)?;
        }
        self.present_all(pending)
    }

    fn single(&mut self, cost: Cost, column: u32, plan: Plan) -> Result<Frontier, Refusal> {
        self.present_all(vec![Presented { cost, column, made: Made::New(plan) }])
    }

    fn present_all(&mut self, pending: Vec<Presented>) -> Result<Frontier, Refusal> {
        let mut builder = Vec::new();
        for candidate in pending {
            self.present(&mut builder, candidate)?;
        }
        self.finish(builder)
    }

    /// Document 01's pruning rule to the letter, on the list of survivors in order of presentation.
    fn present(&mut self, kept: &mut Vec<Presented>, candidate: Presented) -> Result<(), Refusal> {
        self.work()?;
        self.run.counts.generated += 1;
        let same = kept.iter().find(|other| other.column == candidate.column);
        let lower = kept.iter().filter(|other| other.column < candidate.column).max_by_key(|other| other.column);
        if same.is_some_and(|other| other.cost <= candidate.cost)
            || lower.is_some_and(|other| other.cost < candidate.cost)
        {
            self.run.counts.pruned += 1;
            return Ok(());
        }
        let before = kept.len();
        kept.retain(|other| {
            other.column < candidate.column || (other.column > candidate.column && other.cost <= candidate.cost)
        });
        self.run.counts.pruned += (before - kept.len()) as u64;
        self.run.need(16, kept.len() as u64 + 1)?;
        kept.push(candidate);
        Ok(())
    }

    /// Makes the survivors' plans and keeps them.
    fn finish(&mut self, survivors: Vec<Presented>) -> Result<Frontier, Refusal> {
        let new = survivors.iter().filter(|candidate| matches!(candidate.made, Made::New(_))).count();
        self.run.need(17, (self.plans.len() + new) as u64)?;
        self.run.need(15, self.kept + survivors.len() as u64)?;
        self.kept += survivors.len() as u64;
        self.run.counts.peak_frontier = self.run.counts.peak_frontier.max(survivors.len() as u64);
        let plans = &mut self.plans;
        let frontier = survivors.iter().map(|candidate| {
            let plan = match candidate.made {
                Made::Already(plan) => plan,
                Made::New(plan) => {
                    plans.push(plan);
                    plans.len() - 1
                }
            };
            Candidate { cost: candidate.cost, column: candidate.column, plan }
        });
        Ok(Rc::new(frontier.collect()))
    }
}
