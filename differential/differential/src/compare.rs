//! One comparison: the model, the reference, brute force and our library on the same call.

pub use common::counts;
use common::{describe, to_hex, Answer, Limits, Page, Settings, Sizes, Tables};
use model::file::WriteRefusal;
use reference::access::Document;

use crate::ours::Printer;
use crate::shrink::{shrink, Subject};

/// Runs that go on longer than this are left to the model's limits; the reference has none.
pub const LIMITS: Limits = Limits { work: 40_000, visits: 100_000 };
/// Large, but a page of an extreme indent is refused soon.
pub const PROBE: Sizes = Sizes { output: 1 << 16, ..Sizes::MOST };

#[derive(Default)]
pub struct Tally {
    pub documents: u64,
    /// Calls whose answers were compared.
    pub cases: u64,
    /// Of these, by the reference.
    pub by_reference: u64,
    /// Of these, under rule 2; and pages under it: with an overflow, enumerated, with other bytes than under rule 1.
    pub second_rule: u64,
    pub second_pages: [u64; 3],
    /// Calls with a rule that is none.
    pub no_rule: u64,
    /// By number of refusal; 0 is a page.
    pub answers: [u64; 27],
    pub enumerated: u64,
    pub layouts: u64,
    pub ties: u64,
    pub prepared: u64,
    /// Choice lists that prepare.rs built.
    pub prepared_lists: u64,
    pub damaged: u64,
    /// Files and tables with a pair of map byte and kind byte.
    pub pairs: u64,
    /// Texts that were held to `std`, and those of them with a byte above 127: well formed, ill.
    pub texts: u64,
    pub wide_texts: [u64; 2],
    /// Files with a text damaged.
    pub ill: u64,
    pub past_64: u64,
    pub limit_checks: u64,
    /// Pages whose needs were tried, and of these by the reference; the calls with one size smaller, and of these by the reference. They are
    /// not among the cases.
    pub needs: [u64; 2],
    pub smaller: [u64; 2],
    /// Documents drawn apart, in which something comes near the end of its width.
    pub near: u64,
    /// Documents drawn apart, of lines past a narrow page.
    pub narrow: u64,
    /// Domain refusals by reason: column, indent, overflow, burden.
    pub reasons: [u64; 4],
    pub peak_frontier: u64,
    pub presented: u64,
    pub writer_refusals: [u64; 11],
    pub differences: u64,
}

pub struct Call<'a> {
    pub file: &'a [u8],
    pub settings: Settings,
    pub sizes: Sizes,
    pub limits: Limits,
}

impl Call<'_> {
    /// Settings and file as the program `page` reads them.
    pub fn input(&self) -> Vec<u8> {
        let Settings { width, newline_cost, policy, rule } = self.settings;
        let mut input = vec![1 | u8::from(newline_cost > 0) << 1 | (policy as u8 & 1) << 2 | u8::from(rule == 2) << 3];
        input.extend(width.to_le_bytes());
        if newline_cost > 0 {
            input.extend(newline_cost.to_le_bytes());
        }
        input.extend(self.file);
        input
    }

    pub fn describe(&self) -> String {
        format!(
            "file {}\nsettings {} {} {} {}\nsizes {:?}\nlimits {} {}\n",
            to_hex(self.file),
            self.settings.width,
            self.settings.newline_cost,
            self.settings.policy,
            self.settings.rule,
            self.sizes.list(),
            self.limits.work,
            self.limits.visits
        )
    }
}

pub struct Comparer {
    pub tally: Tally,
    pub ours: Option<Box<dyn Printer>>,
}

pub fn number(answer: &Answer) -> u32 {
    answer.as_ref().err().map_or(0, |refusal| refusal.number)
}

/// Whether the settings are no reason for 1.
pub fn in_order(settings: &Settings) -> bool {
    settings.width > 0 && settings.policy < 2 && matches!(settings.rule, 1 | 2)
}

/// Whether the reference can show the answer that the model gives: it reads no files, has no limits and knows rule 1 alone.
pub fn shown(settings: &Settings, modelled: &Answer) -> bool {
    settings.rule == 1 && !matches!(number(modelled), 1..=10 | 12 | 22)
}

/// What a page's needs have to do with the rest of it: plans only grow, no key is entered into the memo twice, and a frontier that is finished
/// was at work before.
fn fit(page: &Page, sizes: &Sizes) -> bool {
    let (needs, counts) = (page.needs, page.counts);
    let told = [needs.memo, needs.plans, needs.output, needs.spans].map(u64::from);
    told == [counts.memo_entries, counts.plan_nodes, page.bytes.len() as u64, page.spans.len() as u64]
        && u64::from(needs.frontier) >= counts.peak_frontier
        && needs.depth <= needs.spans
        && [needs.stack, needs.memo, needs.kept, needs.frontier, needs.plans, needs.visit].iter().all(|need| *need > 0)
        && needs.list().iter().zip(sizes.list()).all(|(need, size)| *need <= size)
}

impl Comparer {
    pub fn difference(&mut self, what: &str, call: &Call, left: &str, right: &str) {
        self.tally.differences += 1;
        println!("DIFFERENCE: {what}\n{}--- left\n{left}\n--- right\n{right}\n", call.describe());
    }

    /// The model's answer, held to the reference's (where it can give one) and to ours (where it is linked).
    pub fn call(&mut self, call: &Call, document: Option<(&Tables, &Document)>) -> Answer {
        let modelled = match document {
            Some((tables, _)) => {
                let (answer, trace) = model::render(tables, &call.settings, &call.sizes, &call.limits);
                if let Some(reason) = trace.reason {
                    self.tally.reasons[reason as usize] += 1;
                }
                answer
            }
            None => model::answer(call.file, &call.settings, &call.sizes, &call.limits),
        };
        let found = number(&modelled);
        self.tally.cases += 1;
        self.tally.answers[found as usize] += 1;
        let counts = counts(&modelled);
        self.tally.peak_frontier = self.tally.peak_frontier.max(counts.peak_frontier);
        if counts.work != counts.hits + counts.misses + counts.generated || counts.pruned > counts.generated {
            self.difference("counts do not add up", call, &describe(&modelled), "");
        }
        if document.is_some() && shown(&call.settings, &modelled) {
            self.tally.by_reference += 1;
        }
        if call.settings.rule == 2 {
            self.tally.second_rule += 1;
            self.tally.second_pages[0] += u64::from(modelled.as_ref().is_ok_and(|page| page.overflow > 0));
        }
        self.hold(call, document, &modelled);
        modelled
    }

    /// The reference's answer (where it can give one) and ours (where it is linked) are the model's; and a page's needs fit the rest of it.
    pub fn hold(&mut self, call: &Call, document: Option<(&Tables, &Document)>, modelled: &Answer) {
        if modelled.as_ref().is_ok_and(|page| !fit(page, &call.sizes)) {
            self.difference("needs do not fit the page", call, &describe(modelled), "");
        }
        if let Some((what, other)) = self.unlike(call, document, modelled) {
            self.difference(what, call, &describe(&other), &describe(modelled));
            if let Some((tables, _)) = document {
                self.smallest(call, tables);
            }
        }
    }

    /// Which texts are well formed: the model, held to the standard library.
    fn texts(&mut self, tables: &Tables) {
        for text in &tables.texts {
            let well = model::utf8::well_formed(&text.bytes);
            self.tally.texts += 1;
            if !text.bytes.is_ascii() {
                self.tally.wide_texts[usize::from(!well)] += 1;
            }
            if well != std::str::from_utf8(&text.bytes).is_ok() {
                self.tally.differences += 1;
                println!("DIFFERENCE: std, model: a text\n{}\nmodel: {well}\n", to_hex(&text.bytes));
            }
        }
    }

    /// The model's writer, held to ours.
    pub fn write(&mut self, tables: &Tables, room: u64) -> Result<Vec<u8>, WriteRefusal> {
        let modelled = model::file::write(tables, room);
        let ours = self.ours.as_mut().and_then(|ours| ours.write(tables, room));
        if ours.as_ref().is_some_and(|ours| *ours != modelled) {
            self.tally.differences += 1;
            println!("DIFFERENCE: ours, model: the writer, room {room}\n{tables:?}\n{ours:?}\n{modelled:?}\n");
        }
        modelled
    }

    /// The model's reader, held to ours.
    pub fn read(&mut self, file: &[u8]) -> Result<Tables, u32> {
        let modelled = model::file::read(file);
        if let Ok(tables) = model::file::formed(file) {
            self.texts(&tables);
        }
        let ours = self.ours.as_mut().and_then(|ours| ours.read(file));
        if ours.as_ref().is_some_and(|ours| *ours != modelled) {
            self.tally.differences += 1;
            println!("DIFFERENCE: ours, model: the reader\n{}\n{ours:?}\n{modelled:?}\n", to_hex(file));
        }
        modelled
    }

    /// The model's program `page`, held to ours.
    pub fn page(&mut self, call: &Call) {
        let Some(ours) = &mut self.ours else { return };
        let input = call.input();
        let modelled = model::page(&input);
        let Some(output) = ours.page(&input) else { return };
        if output != modelled {
            self.difference(
                "ours, model: the program",
                call,
                &output.escape_ascii().to_string(),
                &modelled.escape_ascii().to_string(),
            );
        }
    }

    /// The program says so where its output is cut short.
    pub fn page_cut_short(&mut self, call: &Call) {
        let said = self.ours.as_mut().and_then(|ours| ours.page_into_full(&call.input()));
        if said.as_ref().is_some_and(|said| *said != (b"page: output cut short\n".to_vec(), true)) {
            self.difference("the program into a full device", call, &format!("{said:?}"), "");
        }
    }

    /// An answer that differs from the model's, and whose it is.
    fn unlike(
        &mut self,
        call: &Call,
        document: Option<(&Tables, &Document)>,
        modelled: &Answer,
    ) -> Option<(&'static str, Answer)> {
        if let (Some((_, document)), true) = (document, shown(&call.settings, modelled)) {
            let mut shown = reference::access::render(document, &call.settings, &call.sizes);
            reference::access::fill_in(&mut shown, modelled);
            if shown != *modelled {
                return Some(("reference, model", shown));
            }
        }
        let ours = self.ours.as_mut()?.answer(call.file, &call.settings, &call.sizes, &call.limits);
        (ours != *modelled).then_some(("ours, model", ours))
    }

    /// Prints a smaller call on which the answers still differ.
    fn smallest(&mut self, call: &Call, tables: &Tables) {
        let Call { settings, sizes, limits, .. } = *call;
        let subject = Subject { tables: tables.clone(), settings, sizes, limits };
        let answers = |comparer: &mut Comparer, subject: &Subject| {
            let (modelled, _) = model::render(&subject.tables, &subject.settings, &subject.sizes, &subject.limits);
            let document = reference::access::document(&subject.tables);
            let file = model::file::bytes(&subject.tables);
            let Subject { settings, sizes, limits, .. } = *subject;
            let call = Call { file: &file, settings, sizes, limits };
            let other = comparer.unlike(&call, Some((&subject.tables, &document)), &modelled);
            other.map(|(what, other)| (format!("{what}\n{}", call.describe()), other, modelled))
        };
        let small = shrink(subject, &mut |subject| answers(self, subject).is_some());
        if let Some((what, other, modelled)) = answers(self, &small) {
            println!("SMALLER: {what}--- left\n{}--- right\n{}", describe(&other), describe(&modelled));
            println!("{:?}\n", small.tables);
        }
    }

    /// What the same call gives under rule 2 and under rule 1.
    pub fn other_page(&mut self, second: &Answer, first: &Answer) {
        if let (Ok(second), Ok(first)) = (second, first) {
            self.tally.second_pages[2] += u64::from(second.bytes != first.bytes);
        }
    }

    /// The first of the cheapest layouts, found by enumeration, is the page.
    pub fn enumerate(&mut self, call: &Call, tables: &Tables, answer: &Answer) {
        let Ok(page) = answer else { return };
        let Some(best) = brute::best(tables, &call.settings, 3_000, 400) else { return };
        self.tally.enumerated += 1;
        self.tally.second_pages[1] += u64::from(call.settings.rule == 2);
        self.tally.layouts += best.layouts as u64;
        self.tally.ties += u64::from(best.cheapest > 1);
        if best.bytes != page.bytes
            || best.spans != page.spans
            || best.overflow != page.overflow
            || best.burden != u128::from(page.burden)
        {
            self.difference("page, enumeration", call, &describe(answer), &format!("{best:?}"));
        }
    }
}

/// Document 01's pruning rule on a list: the survivors by number of presentation.
fn survivors(list: &[(u32, u128, u64)]) -> Vec<usize> {
    let mut kept: Vec<usize> = Vec::new();
    for (index, (column, overflow, burden)) in list.iter().enumerate() {
        let cost = |other: &usize| (list[*other].1, list[*other].2);
        let lower = kept.iter().filter(|other| list[**other].0 < *column).max_by_key(|other| list[**other].0);
        let same = kept.iter().find(|other| list[**other].0 == *column);
        let own = (*overflow, *burden);
        if same.is_some_and(|other| cost(other) <= own) || lower.is_some_and(|other| cost(other) < own) {
            continue;
        }
        kept.retain(|other| list[*other].0 < *column || (list[*other].0 != *column && cost(other) <= own));
        kept.push(index);
    }
    kept
}

/// The heights of a search tree given in pre-order are right and balanced. Returns its height and what is left of the list.
fn balanced(tree: &[(u32, u16)], low: u64, high: u64) -> Option<(u16, &[(u32, u16)])> {
    let Some(((column, height), rest)) = tree.split_first() else { return Some((0, tree)) };
    let key = u64::from(*column);
    if key < low || key >= high {
        return Some((0, tree));
    }
    let (left, rest) = balanced(rest, low, key)?;
    let (right, rest) = balanced(rest, key + 1, high)?;
    (*height == 1 + left.max(right) && left.abs_diff(right) <= 1).then_some((*height, rest))
}

impl Comparer {
    /// The reference's builder on a random list of candidates, against the rule; its tree is a balanced search tree of the survivors.
    pub fn present(&mut self, rng: &mut generate::Rng) {
        self.tally.presented += 1;
        let columns = rng.pick(&[3, 10, 40, 200]);
        let costs = rng.pick(&[2, 10, 100]);
        let stairs = rng.chance(2);
        let length = rng.pick(&[4, 20, 120]);
        let list: Vec<(u32, u128, u64)> = (0..rng.within(0, length))
            .map(|_| {
                let column = rng.within(0, columns);
                let high = if rng.chance(6) { u128::from(rng.word()) << 64 } else { 0 };
                let down = if stairs { u128::from(columns - column) * u128::from(costs) } else { 0 };
                (column, high + down + u128::from(rng.within(0, costs) / 2), rng.below(3))
            })
            .collect();
        let (kept, generated, pruned, tree) = reference::access::present_all(&list);
        let columns = |kept: &[usize]| {
            let mut columns: Vec<u32> = kept.iter().map(|index| list[*index].0).collect();
            columns.sort_unstable();
            columns
        };
        let mut keys: Vec<u32> = tree.iter().map(|(column, _)| *column).collect();
        keys.sort_unstable();
        let shape = balanced(&tree, 0, u64::MAX).is_some_and(|(_, rest)| rest.is_empty());
        let counts = generated == list.len() as u64 && pruned == (list.len() - kept.len()) as u64;
        if kept != survivors(&list) || keys != columns(&kept) || !shape || !counts {
            self.tally.differences += 1;
            println!("DIFFERENCE: frontier\n{list:?}\n{kept:?}\n{:?}\n{tree:?}", survivors(&list));
        }
    }
}
