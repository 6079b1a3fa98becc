//! Random tables of accepted files. Each profile leans to one side of the format or of the solver.

use common::{kind, Node, Tables, Text};

use crate::Rng;

/// Characters of two, three and four bytes: the least and the greatest of each length, those beside the surrogates, some that are no characters.
pub const WIDE: [char; 15] = [
    '\u{80}',
    'é',
    'ж',
    '\u{7ff}',
    '\u{800}',
    '€',
    '\u{d7ff}',
    '\u{e000}',
    '\u{feff}',
    '\u{fffe}',
    '\u{ffff}',
    '\u{10000}',
    '😀',
    '\u{fffff}',
    '\u{10ffff}',
];

#[derive(Clone, Copy, Debug, Eq, PartialEq)]
pub enum Profile {
    /// A few nodes, so that all layouts can be enumerated.
    Small,
    Medium,
    Large,
    /// Long Fills of words.
    Fill,
    /// Nested Choices with and without lists.
    Choices,
    /// Seq[x, x] again and again: costs and pages past all widths.
    Doubling,
    /// Widths, indents and amounts near 2^32.
    Extreme,
    /// Deep nests of Nest, Align, Annotate, Penalty.
    Deep,
    /// Many kept candidates: choices of widths in sequence.
    Wide,
    /// Lines of widths near 2^32, a few times doubled: overflow past 2^64 on pages that can be made.
    Heavy,
    /// One or two parts of which a column, an indent, an overflow under this rule or a burden comes near the end of its width. Not among
    /// `ALL`: drawn apart.
    Near(u32),
    /// Choices between lines of different widths, of which a narrow page takes others under rule 2 than under rule 1. Not among `ALL`: drawn
    /// apart.
    Lines,
}

impl Profile {
    pub const ALL: [Profile; 10] = [
        Profile::Small,
        Profile::Medium,
        Profile::Large,
        Profile::Fill,
        Profile::Choices,
        Profile::Doubling,
        Profile::Extreme,
        Profile::Deep,
        Profile::Wide,
        Profile::Heavy,
    ];

    pub fn extreme(self) -> bool {
        matches!(self, Profile::Extreme | Profile::Doubling | Profile::Heavy | Profile::Near(_))
    }
}

pub fn tables(rng: &mut Rng, profile: Profile) -> Tables {
    let mut build = Build { tables: Tables::default(), profile };
    build.texts(rng);
    build.tables.annotations = rng.within(0, 4);
    match profile {
        Profile::Doubling => build.doubling(rng),
        Profile::Fill => build.fill(rng),
        Profile::Wide => build.wide(rng),
        Profile::Heavy => build.heavy(rng),
        Profile::Near(rule) => build.near(rng, rule),
        Profile::Lines => build.lines(rng),
        _ => {
            let most = match profile {
                Profile::Small => 12,
                Profile::Large => 200,
                Profile::Deep => 60,
                _ => 40,
            };
            for _ in 0..rng.within(1, most) {
                build.any(rng);
            }
        }
    }
    build.surplus(rng);
    build.tables.root = match rng.below(6) {
        0 => rng.index(build.tables.nodes.len()) as u32,
        _ => build.tables.nodes.len() as u32 - 1,
    };
    build.flats(rng);
    build.lists(rng);
    if rng.chance(2) {
        shuffle(rng, &mut build.tables);
    }
    build.tables
}

struct Build {
    tables: Tables,
    profile: Profile,
}

impl Build {
    fn texts(&mut self, rng: &mut Rng) {
        let count = if self.profile == Profile::Lines { 1 } else { rng.within(1, 6) };
        self.tables.space = rng.within(0, count - 1);
        for index in 0..count {
            let text = if index == self.tables.space { Text { width: 1, bytes: vec![32] } } else { self.text(rng) };
            self.tables.texts.push(text);
        }
    }

    fn text(&mut self, rng: &mut Rng) -> Text {
        let length = match rng.below(8) {
            0 => 0,
            7 => rng.within(0, 20),
            _ => rng.within(1, 5),
        };
        let other = rng.chance(10);
        let text: String = (0..length)
            .map(|_| match rng.below(256) as u8 {
                drawn if other && drawn > 127 => WIDE[usize::from(drawn) % WIDE.len()],
                drawn if other && drawn != 10 => char::from(drawn),
                drawn => char::from(b'a' + drawn % 26),
            })
            .collect();
        let width = match rng.below(6) {
            0 => rng.within(0, 9),
            1..=2 if self.profile == Profile::Extreme => rng.extreme(),
            1..=4 if self.profile == Profile::Heavy => rng.pick(&[u32::MAX, u32::MAX - 1, u32::MAX - 2, 1 << 31]),
            _ => length,
        };
        Text { width, bytes: text.into_bytes() }
    }

    fn push(&mut self, node: Node) -> u32 {
        self.tables.nodes.push(node);
        self.tables.nodes.len() as u32 - 1
    }

    /// One of the nodes so far, the later ones more often; makes a leaf where there is none.
    fn child(&mut self, rng: &mut Rng) -> u32 {
        let count = self.tables.nodes.len();
        if count == 0 {
            return self.leaf(rng);
        }
        let span = match rng.below(4) {
            0 => count,
            1 => count.min(8),
            _ => count.min(3),
        };
        (count - 1 - rng.index(span)) as u32
    }

    fn leaf(&mut self, rng: &mut Rng) -> u32 {
        let kind = rng.pick(&[kind::EMPTY, kind::TEXT, kind::TEXT, kind::TEXT, kind::BREAK, kind::HARD_LINE]);
        let first = if kind == kind::TEXT { rng.index(self.tables.texts.len()) as u32 } else { 0 };
        self.push(Node::of(kind, first, 0))
    }

    fn amount(&mut self, rng: &mut Rng) -> u32 {
        match rng.below(4) {
            0 if self.profile.extreme() => rng.extreme(),
            1 if self.profile == Profile::Extreme => rng.extreme(),
            1 => rng.within(0, 1),
            _ => rng.within(0, 6),
        }
    }

    fn sequence(&mut self, rng: &mut Rng, kind: u8, children: Vec<u32>) -> u32 {
        let _ = rng;
        let start = self.tables.edges.len() as u32;
        let length = children.len() as u32;
        self.tables.edges.extend(children);
        self.push(Node::of(kind, start, length))
    }

    fn any(&mut self, rng: &mut Rng) -> u32 {
        let kind = match (self.profile, rng.below(10)) {
            (_, 0..=2) => return self.leaf(rng),
            (Profile::Choices, 3..=6) => kind::CHOICE,
            (Profile::Deep, 3..=7) => rng.pick(&[kind::NEST, kind::ALIGN, kind::ANNOTATE, kind::PENALTY, kind::GROUP]),
            _ => rng.within(4, 11) as u8,
        };
        match kind {
            kind::SEQ | kind::FILL => {
                // Now and then the edges of an earlier node, or a part of them.
                let count = self.tables.edges.len() as u32;
                if count > 0 && rng.chance(6) {
                    let start = rng.within(0, count);
                    let length = rng.within(0, (count - start).min(4));
                    return self.push(Node::of(kind, start, length));
                }
                let length = match rng.below(8) {
                    0 => 0,
                    1 => 1,
                    2 => rng.within(0, 7),
                    _ => rng.within(2, 4),
                };
                let children = (0..length).map(|_| self.child(rng)).collect();
                self.sequence(rng, kind, children)
            }
            kind::GROUP | kind::ALIGN => {
                let child = self.child(rng);
                self.push(Node::of(kind, child, 0))
            }
            kind::CHOICE => {
                let (first, second) = (self.child(rng), self.child(rng));
                self.push(Node::of(kind, first, second))
            }
            kind::ANNOTATE if self.tables.annotations == 0 => self.leaf(rng),
            kind::ANNOTATE => {
                let annotation = rng.within(0, self.tables.annotations - 1);
                let child = self.child(rng);
                self.push(Node::of(kind, annotation, child))
            }
            _ => {
                let amount = self.amount(rng);
                let child = self.child(rng);
                self.push(Node::of(kind, amount, child))
            }
        }
    }

    fn doubling(&mut self, rng: &mut Rng) {
        for _ in 0..rng.within(1, 4) {
            self.any(rng);
        }
        let mut node = match rng.below(6) {
            0 | 4 => {
                let line = self.push(Node::of(kind::HARD_LINE, 0, 0));
                let indent = if rng.chance(2) { u32::MAX } else { rng.extreme() };
                self.push(Node::of(kind::NEST, indent, line))
            }
            1 | 5 => {
                let amount = if rng.chance(2) { u32::MAX } else { rng.extreme() };
                let child = if rng.chance(3) { self.push(Node::of(kind::EMPTY, 0, 0)) } else { self.leaf(rng) };
                self.push(Node::of(kind::PENALTY, amount, child))
            }
            2 => self.leaf(rng),
            _ => self.any(rng),
        };
        let levels = rng.pick(&[3, 10, 31, 32, 33, 34, 63, 64, 65, 66]) + rng.within(0, 2);
        let mixed = rng.chance(2);
        for _ in 0..levels {
            let twice = if rng.chance(12) { vec![node, node, node] } else { vec![node, node] };
            let kind = if mixed && rng.chance(30) { kind::FILL } else { kind::SEQ };
            node = self.sequence(rng, kind, twice);
            if mixed && rng.chance(25) {
                node = self.any(rng);
            }
        }
    }

    fn near(&mut self, rng: &mut Rng, rule: u32) {
        let mut parts: Vec<u32> = (0..rng.within(1, 2)).map(|_| self.part_near(rng, rule)).collect();
        let leaf = self.leaf(rng);
        parts.insert(rng.index(parts.len() + 1), leaf);
        match rng.below(5) {
            0 => self.push(Node::of(kind::CHOICE, parts[0], parts[1])),
            1 => self.sequence(rng, kind::FILL, parts),
            _ => self.sequence(rng, kind::SEQ, parts),
        };
    }

    fn part_near(&mut self, rng: &mut Rng, rule: u32) -> u32 {
        match rng.below(4) {
            0 => {
                let text = self.tables.texts.len() as u32;
                self.tables.texts.push(Text { width: u32::MAX - rng.within(0, 2), bytes: Vec::new() });
                let pair = vec![self.push(Node::of(kind::TEXT, text, 0)), self.leaf(rng)];
                let kind = rng.pick(&[kind::SEQ, kind::FILL]);
                self.sequence(rng, kind, pair)
            }
            1 => {
                let child = self.leaf(rng);
                let inner = self.push(Node::of(kind::NEST, u32::MAX - rng.within(0, 2), child));
                self.push(Node::of(kind::NEST, rng.within(0, 3), inner))
            }
            2 => {
                let line = self.push(Node::of(kind::HARD_LINE, 0, 0));
                let nest = self.push(Node::of(kind::NEST, u32::MAX - rng.within(0, 1), line));
                // A line is charged some 2^64, or under rule 2 some 2^32.
                let levels = rng.within(64, 68) + if rule == 2 { 32 } else { 0 };
                self.doubled(rng, nest, levels)
            }
            _ => {
                let child = self.leaf(rng);
                let charged = self.push(Node::of(kind::PENALTY, u32::MAX, child));
                let levels = rng.within(31, 33);
                let mut node = self.doubled(rng, charged, levels);
                for _ in 0..rng.within(0, 2) {
                    let amount = rng.pick(&[1, u32::MAX]);
                    node = self.push(Node::of(kind::PENALTY, amount, node));
                }
                node
            }
        }
    }

    fn lines(&mut self, rng: &mut Rng) {
        let line = self.push(Node::of(kind::HARD_LINE, 0, 0));
        let parts = (0..rng.within(1, 3))
            .map(|_| {
                let (first, second) = (self.part_of_lines(rng, line), self.part_of_lines(rng, line));
                self.push(Node::of(kind::CHOICE, first, second))
            })
            .collect();
        let kind = if rng.chance(4) { kind::FILL } else { kind::SEQ };
        self.sequence(rng, kind, parts);
    }

    /// One to three lines.
    fn part_of_lines(&mut self, rng: &mut Rng, line: u32) -> u32 {
        let mut parts = Vec::new();
        for place in 0..rng.within(1, 3) {
            if place > 0 {
                parts.push(line);
            }
            let width = rng.within(1, 9);
            let text = Text { width, bytes: vec![b'0' + width as u8; width as usize] };
            let texts = &mut self.tables.texts;
            let at = texts.iter().position(|other| *other == text).unwrap_or(texts.len());
            if at == texts.len() {
                texts.push(text);
            }
            parts.push(self.push(Node::of(kind::TEXT, at as u32, 0)));
        }
        let lines = self.sequence(rng, kind::SEQ, parts);
        match rng.below(6) {
            0 => self.push(Node::of(kind::ALIGN, lines, 0)),
            1 => self.push(Node::of(kind::NEST, rng.within(1, 3), lines)),
            2 => self.push(Node::of(kind::PENALTY, rng.within(1, 3), lines)),
            _ => lines,
        }
    }

    fn doubled(&mut self, rng: &mut Rng, mut node: u32, levels: u32) -> u32 {
        for _ in 0..levels {
            node = self.sequence(rng, kind::SEQ, vec![node, node]);
        }
        node
    }

    fn fill(&mut self, rng: &mut Rng) {
        for _ in 0..rng.within(1, 6) {
            self.any(rng);
        }
        let words = match rng.below(4) {
            0 => rng.within(30, 120),
            _ => rng.within(2, 30),
        };
        let children = (0..words)
            .map(|_| if rng.chance(6) { self.child(rng) } else { rng.index(self.tables.nodes.len()) as u32 })
            .collect();
        let fill = self.sequence(rng, kind::FILL, children);
        match rng.below(4) {
            0 => {
                self.push(Node::of(kind::ALIGN, fill, 0));
            }
            1 => {
                let indent = self.amount(rng);
                self.push(Node::of(kind::NEST, indent, fill));
            }
            2 => {
                self.any(rng);
            }
            _ => {}
        }
    }

    fn wide(&mut self, rng: &mut Rng) {
        // Choices between texts of different widths and fees: frontiers with many columns.
        if rng.chance(3) {
            let parts = (0..rng.within(1, 3)).map(|_| self.stairs(rng)).collect();
            self.sequence(rng, kind::SEQ, parts);
            return;
        }
        let count = rng.within(2, 7);
        let mut parts = Vec::new();
        for _ in 0..count {
            let mut node = self.leaf(rng);
            for _ in 0..rng.within(1, 5) {
                let mut other = self.leaf(rng);
                if rng.chance(2) {
                    let amount = rng.within(0, 20);
                    other = self.push(Node::of(kind::PENALTY, amount, other));
                }
                let pair = if rng.chance(2) { (node, other) } else { (other, node) };
                node = self.push(Node::of(kind::CHOICE, pair.0, pair.1));
            }
            parts.push(node);
        }
        for _ in 0..rng.within(0, 2) {
            let part = rng.pick(&parts);
            parts.push(part);
        }
        let kind = if rng.chance(4) { kind::FILL } else { kind::SEQ };
        self.sequence(rng, kind, parts);
        if rng.chance(3) {
            self.any(rng);
        }
    }

    /// A choice whose candidates end at ever higher columns and cost ever less, with some that are beaten in between.
    fn stairs(&mut self, rng: &mut Rng) -> u32 {
        let steps = rng.within(2, 40);
        let mut list = Vec::new();
        for step in 0..steps {
            let width = if rng.chance(8) { rng.within(0, steps) } else { step };
            let fee = if rng.chance(8) { rng.within(0, steps) } else { steps - step };
            self.tables.texts.push(Text { width, bytes: vec![b'a' + (step % 26) as u8] });
            let text = self.push(Node::of(kind::TEXT, self.tables.texts.len() as u32 - 1, 0));
            list.push(self.push(Node::of(kind::PENALTY, fee, text)));
        }
        for index in (1..list.len()).rev() {
            if rng.chance(2) {
                list.swap(index, rng.index(index + 1));
            }
        }
        // A Choice of two neighbours, until one is left.
        while list.len() > 1 {
            let at = rng.index(list.len() - 1);
            let choice = self.push(Node::of(kind::CHOICE, list[at], list[at + 1]));
            list.splice(at..=at + 1, [choice]);
        }
        list[0]
    }

    fn heavy(&mut self, rng: &mut Rng) {
        let line = self.push(Node::of(kind::HARD_LINE, 0, 0));
        let mut parts = Vec::new();
        for _ in 0..rng.within(1, 4) {
            let text = rng.index(self.tables.texts.len()) as u32;
            let mut node = self.push(Node::of(kind::TEXT, text, 0));
            if rng.chance(2) {
                let amount = rng.extreme();
                node = self.push(Node::of(kind::PENALTY, amount, node));
            }
            if rng.chance(2) {
                let text = rng.index(self.tables.texts.len()) as u32;
                let other = self.push(Node::of(kind::TEXT, text, 0));
                node = self.push(Node::of(kind::CHOICE, node, other));
            }
            parts.extend([node, line]);
        }
        let mut node = self.sequence(rng, kind::SEQ, parts);
        for _ in 0..rng.within(0, 6) {
            node = self.sequence(rng, kind::SEQ, vec![node, node]);
        }
    }

    /// Edges and choice edges that nobody uses.
    fn surplus(&mut self, rng: &mut Rng) {
        if rng.chance(6) {
            let node = rng.index(self.tables.nodes.len()) as u32;
            self.tables.edges.push(node);
        }
        if rng.chance(6) {
            let node = rng.index(self.tables.nodes.len()) as u32;
            self.tables.choice_edges.push(node);
        }
    }

    /// Flat nodes, in every kind; none later than its node, so that no Group leads back to itself.
    fn flats(&mut self, rng: &mut Rng) {
        let often = rng.within(1, 4);
        for index in 0..self.tables.nodes.len() {
            if rng.chance(u64::from(often)) {
                let near = index.min(4);
                let back = if rng.chance(3) { rng.index(index + 1) } else { rng.index(near + 1) };
                self.tables.nodes[index].flat = Some((index - back) as u32);
            }
        }
    }

    /// Right choice lists: any Choice in the list may be replaced by its two.
    fn lists(&mut self, rng: &mut Rng) {
        let often = rng.within(1, 3);
        for index in 0..self.tables.nodes.len() {
            let node = self.tables.nodes[index];
            if node.kind != kind::CHOICE || !rng.chance(u64::from(often)) {
                continue;
            }
            let mut list = vec![node.first, node.second];
            let wanted = if rng.chance(4) { 0 } else { rng.within(1, 12) };
            let mut skipped = 0;
            for _ in 0..wanted {
                let at: Vec<usize> =
                    (0..list.len()).filter(|at| self.tables.nodes[list[*at] as usize].kind == kind::CHOICE).collect();
                if at.is_empty() {
                    break;
                }
                let at = rng.pick(&at);
                let replaced = self.tables.nodes[list[at] as usize];
                list.splice(at..=at, [replaced.first, replaced.second]);
                skipped += 1;
            }
            let node = &mut self.tables.nodes[index];
            node.choice_start = self.tables.choice_edges.len() as u32;
            node.choice_length = list.len() as u32;
            node.skipped = skipped;
            self.tables.choice_edges.extend(list);
        }
    }
}

/// Gives the nodes other numbers.
pub fn shuffle(rng: &mut Rng, tables: &mut Tables) {
    let count = tables.nodes.len();
    let mut to: Vec<u32> = (0..count as u32).collect();
    for index in (1..count).rev() {
        to.swap(index, rng.index(index + 1));
    }
    let old = tables.nodes.clone();
    for (index, mut node) in old.into_iter().enumerate() {
        match node.kind {
            kind::GROUP | kind::ALIGN => node.first = to[node.first as usize],
            kind::NEST | kind::ANNOTATE | kind::PENALTY => node.second = to[node.second as usize],
            kind::CHOICE => {
                node.first = to[node.first as usize];
                node.second = to[node.second as usize];
            }
            _ => {}
        }
        node.flat = node.flat.map(|flat| to[flat as usize]);
        tables.nodes[to[index] as usize] = node;
    }
    for edge in tables.edges.iter_mut().chain(&mut tables.choice_edges) {
        *edge = to[*edge as usize];
    }
    tables.root = to[tables.root as usize];
}
