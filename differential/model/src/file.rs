//! The prepared file: reader and writer, from document 01 ("Prepared file"), document 02 (change 1) and docs/DECISIONS.md 1 to 15 and 97 to 100.

use crate::utf8::well_formed;
use common::{kind, limit, Node, Tables, Text};

/// The refusal's number: 2 to 10.
pub type Number = u32;

pub const SHORT: Number = 2;
pub const FORM: Number = 3;
pub const LIMIT: Number = 4;
pub const SURPLUS: Number = 5;
pub const REFERENCE: Number = 6;
pub const TEXT: Number = 7;
pub const SPACE: Number = 8;
pub const CIRCLE: Number = 9;
pub const LIST: Number = 10;

/// Whether a kind has a first and a second field.
pub fn has_fields(kind: u8) -> (bool, bool) {
    match kind {
        kind::TEXT | kind::GROUP | kind::ALIGN => (true, false),
        kind::SEQ | kind::FILL | kind::NEST | kind::CHOICE | kind::ANNOTATE | kind::PENALTY => (true, true),
        _ => (false, false),
    }
}

struct Input<'a> {
    rest: &'a [u8],
}

impl<'a> Input<'a> {
    fn take(&mut self, count: usize) -> Result<&'a [u8], Number> {
        if self.rest.len() < count {
            return Err(SHORT);
        }
        let (taken, rest) = self.rest.split_at(count);
        self.rest = rest;
        Ok(taken)
    }

    fn byte(&mut self) -> Result<u8, Number> {
        Ok(self.take(1)?[0])
    }

    fn number(&mut self) -> Result<u32, Number> {
        Ok(u32::from_le_bytes(self.take(4)?.try_into().expect("4 bytes")))
    }

    /// A field whose bit stands or not: 0 where it is absent, never 0 where it is present.
    fn field(&mut self, map: u8, bit: u32) -> Result<u32, Number> {
        if map >> bit & 1 == 0 {
            return Ok(0);
        }
        match self.number()? {
            0 => Err(FORM),
            value => Ok(value),
        }
    }

    fn count(&mut self, map: u8, bit: u32, least: u32, most: u32) -> Result<u32, Number> {
        let value = self.field(map, bit)?;
        if value < least || value > most {
            return Err(LIMIT);
        }
        Ok(value)
    }

    fn node(&mut self) -> Result<Node, Number> {
        let map = self.byte()?;
        let bit = |bit: u32| map >> bit & 1 == 1;
        if bit(6) || bit(7) || (bit(3) && !bit(4)) || (bit(5) && !bit(4)) {
            return Err(FORM);
        }
        let kind = self.byte()?;
        let (first, second) = has_fields(kind);
        if kind > 11 || (bit(0) && !first) || (bit(1) && !second) || (bit(4) && kind != kind::CHOICE) {
            return Err(FORM);
        }
        Ok(Node {
            kind,
            first: self.field(map, 0)?,
            second: self.field(map, 1)?,
            flat: if bit(2) { Some(self.number()?) } else { None },
            choice_start: self.field(map, 3)?,
            choice_length: self.field(map, 4)?,
            skipped: self.field(map, 5)?,
        })
    }

    fn text(&mut self, total: &mut u64) -> Result<Text, Number> {
        let map = self.byte()?;
        if map > 3 {
            return Err(FORM);
        }
        let width = self.field(map, 0)?;
        let length = self.field(map, 1)?;
        *total += u64::from(length);
        if *total > limit::TEXT_BYTES {
            return Err(LIMIT);
        }
        Ok(Text { width, bytes: self.take(length as usize)?.to_vec() })
    }
}

/// The tables, or the first refusal in document 01's order.
pub fn read(file: &[u8]) -> Result<Tables, Number> {
    let tables = formed(file)?;
    rules(&tables)?;
    Ok(tables)
}

/// The tables, right or not, or the first of 2 to 5.
pub fn formed(file: &[u8]) -> Result<Tables, Number> {
    let mut input = Input { rest: file };
    let map = input.byte()?;
    if map > 127 {
        return Err(FORM);
    }
    let nodes = input.count(map, 0, 1, limit::NODES)?;
    let edges = input.count(map, 1, 0, limit::EDGES)?;
    let texts = input.count(map, 2, 1, limit::TEXTS)?;
    let annotations = input.count(map, 3, 0, limit::ANNOTATIONS)?;
    let choice_edges = input.count(map, 4, 0, limit::CHOICE_EDGES)?;
    let root = input.field(map, 5)?;
    let space = input.field(map, 6)?;
    let mut total = 0;
    let tables = Tables {
        nodes: (0..nodes).map(|_| input.node()).collect::<Result<_, _>>()?,
        edges: (0..edges).map(|_| input.number()).collect::<Result<_, _>>()?,
        choice_edges: (0..choice_edges).map(|_| input.number()).collect::<Result<_, _>>()?,
        texts: (0..texts).map(|_| input.text(&mut total)).collect::<Result<_, _>>()?,
        annotations,
        root,
        space,
    };
    if !input.rest.is_empty() {
        return Err(SURPLUS);
    }
    Ok(tables)
}

/// 6 to 10, each over the whole file.
fn rules(tables: &Tables) -> Result<(), Number> {
    if !references_right(tables) {
        return Err(REFERENCE);
    }
    if tables.texts.iter().any(|text| text.bytes.contains(&10) || !well_formed(&text.bytes)) {
        return Err(TEXT);
    }
    let space = &tables.texts[tables.space as usize];
    if space.bytes != [32] || space.width != 1 {
        return Err(SPACE);
    }
    if has_circle(tables) {
        return Err(CIRCLE);
    }
    if !(0..tables.nodes.len()).all(|index| list_right(tables, tables.nodes[index])) {
        return Err(LIST);
    }
    Ok(())
}

fn references_right(tables: &Tables) -> bool {
    let node = |number: u32| (number as usize) < tables.nodes.len();
    let text = |number: u32| (number as usize) < tables.texts.len();
    let range = |start: u32, length: u32, end: usize| u64::from(start) + u64::from(length) <= end as u64;
    node(tables.root)
        && text(tables.space)
        && tables.edges.iter().all(|edge| node(*edge))
        && tables.choice_edges.iter().all(|edge| node(*edge))
        && tables.nodes.iter().all(|n| {
            n.flat.is_none_or(node)
                && (n.choice_length == 0 || range(n.choice_start, n.choice_length, tables.choice_edges.len()))
                && match n.kind {
                    kind::TEXT => text(n.first),
                    kind::SEQ | kind::FILL => range(n.first, n.second, tables.edges.len()),
                    kind::GROUP | kind::ALIGN => node(n.first),
                    kind::NEST | kind::PENALTY => node(n.second),
                    kind::CHOICE => node(n.first) && node(n.second),
                    kind::ANNOTATE => n.first < tables.annotations && node(n.second),
                    _ => true,
                }
        })
}

/// The nodes to which a node refers.
pub fn referred(tables: &Tables, index: usize) -> Vec<u32> {
    let n = tables.nodes[index];
    match n.kind {
        kind::SEQ | kind::FILL => tables.range(n).to_vec(),
        kind::GROUP => std::iter::once(n.first).chain(tables.nodes[n.first as usize].flat).collect(),
        kind::ALIGN => vec![n.first],
        kind::NEST | kind::PENALTY | kind::ANNOTATE => vec![n.second],
        kind::CHOICE => vec![n.first, n.second],
        _ => vec![],
    }
}

/// Strikes out, again and again, the nodes that refer to struck nodes only; a circle is what cannot be struck.
fn has_circle(tables: &Tables) -> bool {
    let count = tables.nodes.len();
    let mut open = vec![0usize; count];
    let mut users = vec![Vec::new(); count];
    for (index, left) in open.iter_mut().enumerate() {
        for target in referred(tables, index) {
            *left += 1;
            users[target as usize].push(index);
        }
    }
    let mut ready: Vec<usize> = (0..count).filter(|index| open[*index] == 0).collect();
    let mut struck = 0;
    while let Some(index) = ready.pop() {
        struck += 1;
        for user in &users[index] {
            open[*user] -= 1;
            if open[*user] == 0 {
                ready.push(*user);
            }
        }
    }
    struck != count
}

/// The list comes from [preferred, alternative] by replacing a Choice by its two, `skipped` times.
fn list_right(tables: &Tables, choice: Node) -> bool {
    if choice.choice_length == 0 {
        return true;
    }
    let start = choice.choice_start as usize;
    let mut list = tables.choice_edges[start..start + choice.choice_length as usize].iter();
    let mut stack = vec![choice.second, choice.first];
    let mut next = list.next();
    let mut replaced = 0u64;
    while let Some(node) = stack.pop() {
        let Some(entry) = next else { return false };
        if node == *entry {
            next = list.next();
            continue;
        }
        let replacement = tables.nodes[node as usize];
        if replacement.kind != kind::CHOICE || stack.len() > list.len() {
            return false;
        }
        stack.extend([replacement.second, replacement.first]);
        replaced += 1;
    }
    next.is_none() && replaced == u64::from(choice.skipped)
}

/// The writer's refusal: 3, 4, 6 to 10, or 20 with the needed byte count.
#[derive(Clone, Copy, Debug, Eq, PartialEq)]
pub struct WriteRefusal {
    pub number: Number,
    pub needed: u64,
}

/// The one file that reads back to the tables, where they are right and `room` bytes suffice.
pub fn write(tables: &Tables, room: u64) -> Result<Vec<u8>, WriteRefusal> {
    let file = encode(tables).map_err(|number| WriteRefusal { number, needed: 0 })?;
    rules(tables).map_err(|number| WriteRefusal { number, needed: 0 })?;
    if file.len() as u64 > room {
        return Err(WriteRefusal { number: 20, needed: file.len() as u64 });
    }
    Ok(file)
}

/// A record: fields with their bits; those that are `Some` stand.
fn fields(out: &mut Vec<u8>, kind: Option<u8>, values: &[Option<u32>]) {
    let map = values.iter().enumerate().map(|(bit, value)| u8::from(value.is_some()) << bit).sum();
    out.push(map);
    out.extend(kind);
    for value in values.iter().flatten() {
        out.extend(value.to_le_bytes());
    }
}

fn some(value: u32) -> Option<u32> {
    (value != 0).then_some(value)
}

/// The bytes, or 3 or 4 in the order of the file's fields.
pub fn encode(tables: &Tables) -> Result<Vec<u8>, Number> {
    form(tables)?;
    Ok(bytes(tables))
}

fn form(tables: &Tables) -> Result<(), Number> {
    let counts = [
        (tables.nodes.len(), 1, limit::NODES),
        (tables.edges.len(), 0, limit::EDGES),
        (tables.texts.len(), 1, limit::TEXTS),
        (tables.annotations as usize, 0, limit::ANNOTATIONS),
        (tables.choice_edges.len(), 0, limit::CHOICE_EDGES),
    ];
    if counts.iter().any(|(count, least, most)| count < least || *count > *most as usize) {
        return Err(LIMIT);
    }
    for n in &tables.nodes {
        let (first, second) = has_fields(n.kind);
        let listless = n.choice_length == 0;
        if n.kind > 11
            || (n.first != 0 && !first)
            || (n.second != 0 && !second)
            || (!listless && n.kind != kind::CHOICE)
            || (listless && (n.choice_start != 0 || n.skipped != 0))
        {
            return Err(FORM);
        }
    }
    if tables.texts.iter().map(|text| text.bytes.len() as u64).sum::<u64>() > limit::TEXT_BYTES {
        return Err(LIMIT);
    }
    Ok(())
}

/// The bytes of any tables, right or not.
pub fn bytes(tables: &Tables) -> Vec<u8> {
    let mut out = Vec::new();
    let header = [
        some(tables.nodes.len() as u32),
        some(tables.edges.len() as u32),
        some(tables.texts.len() as u32),
        some(tables.annotations),
        some(tables.choice_edges.len() as u32),
        some(tables.root),
        some(tables.space),
    ];
    fields(&mut out, None, &header);
    for n in &tables.nodes {
        let values =
            [some(n.first), some(n.second), n.flat, some(n.choice_start), some(n.choice_length), some(n.skipped)];
        fields(&mut out, Some(n.kind), &values);
    }
    for number in tables.edges.iter().chain(&tables.choice_edges) {
        out.extend(number.to_le_bytes());
    }
    for text in &tables.texts {
        fields(&mut out, None, &[some(text.width), some(text.bytes.len() as u32)]);
        out.extend(&text.bytes);
    }
    out
}
