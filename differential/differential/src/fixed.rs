//! The hand-checked cases of document 01, the separating inputs of docs/DECISIONS.md, calls under cost rule 2 and pages with their needs, each
//! with what it must give. They are run on the model and (under rule 1) on the reference at the start of every run, and open the frozen sample.

use common::{from_hex, kind, Limits, Node, Settings, Sizes, Tables, Text};

use crate::needs::with;

pub struct Case {
    pub name: &'static str,
    pub file: Vec<u8>,
    pub settings: Settings,
    pub sizes: Sizes,
    pub limits: Limits,
    pub want: Want,
}

pub enum Want {
    /// The page, its overflow and burden, and the work.
    Page(&'static str, u128, u64, Option<u64>),
    /// Number, needed, and the work.
    Refused(u32, u64, Option<u64>),
    /// The page, its peak frontier, and its needs.
    Needs(&'static str, u64, [u32; 9]),
}

/// The tables of a small document; text 0 is the space.
pub struct Build(Tables);

impl Build {
    pub fn new() -> Build {
        Build(Tables { texts: vec![Text { width: 1, bytes: vec![32] }], ..Tables::default() })
    }

    pub fn node(&mut self, kind: u8, first: u32, second: u32) -> u32 {
        self.0.nodes.push(Node::of(kind, first, second));
        self.0.nodes.len() as u32 - 1
    }

    pub fn wide(&mut self, text: &str, width: u32) -> u32 {
        self.0.texts.push(Text { width, bytes: text.as_bytes().to_vec() });
        let text = self.0.texts.len() as u32 - 1;
        self.node(kind::TEXT, text, 0)
    }

    pub fn text(&mut self, text: &str) -> u32 {
        self.wide(text, text.len() as u32)
    }

    pub fn annotated(&mut self, annotation: u32, child: u32) -> u32 {
        self.0.annotations = self.0.annotations.max(annotation + 1);
        self.node(kind::ANNOTATE, annotation, child)
    }

    pub fn list(&mut self, kind: u8, children: &[u32]) -> u32 {
        let start = self.0.edges.len() as u32;
        self.0.edges.extend(children);
        self.node(kind, start, children.len() as u32)
    }

    pub fn doubled(&mut self, node: u32, times: u32) -> u32 {
        self.repeated(node, 2, times)
    }

    /// A Seq of so many of the node, and again of that.
    fn repeated(&mut self, mut node: u32, many: usize, times: u32) -> u32 {
        for _ in 0..times {
            node = self.list(kind::SEQ, &vec![node; many]);
        }
        node
    }

    /// A Choice with a choice list.
    fn listed(&mut self, preferred: u32, alternative: u32, list: &[u32], skipped: u32) -> u32 {
        let choice_start = self.0.choice_edges.len() as u32;
        self.0.choice_edges.extend(list);
        let node = self.node(kind::CHOICE, preferred, alternative);
        let choice_length = list.len() as u32;
        self.0.nodes[node as usize] = Node { choice_start, choice_length, skipped, ..self.0.nodes[node as usize] };
        node
    }

    /// The file whose root is the last node.
    pub fn file(mut self) -> Vec<u8> {
        self.0.root = self.0.nodes.len() as u32 - 1;
        model::file::bytes(&self.0)
    }
}

fn settings(width: u32, newline_cost: u32, policy: u32) -> Settings {
    Settings { width, newline_cost, policy, rule: 1 }
}

fn hex(text: &str) -> Vec<u8> {
    let h = "05 01000000 01000000";
    let sp = "03 01000000 01000000 20";
    from_hex(&text.replace('h', h).replace("sp", sp)).expect("hexadecimal")
}

/// Choice(Empty, Nest 1 over Nest 2^32 - 1 over Empty).
fn nests_choice() -> Vec<u8> {
    let mut b = Build::new();
    let empty = b.node(kind::EMPTY, 0, 0);
    let inner = b.node(kind::NEST, u32::MAX, empty);
    let nests = b.node(kind::NEST, 1, inner);
    b.node(kind::CHOICE, empty, nests);
    b.file()
}

pub fn abc() -> Vec<u8> {
    let mut b = Build::new();
    b.text("abc");
    b.file()
}

/// Choice(`abcd`, Seq[`abc`, HardLine, `abc`]).
pub fn one_or_two() -> Vec<u8> {
    let mut b = Build::new();
    let (long, short, line) = (b.text("abcd"), b.text("abc"), b.node(kind::HARD_LINE, 0, 0));
    let two = b.list(kind::SEQ, &[short, line, short]);
    b.node(kind::CHOICE, long, two);
    b.file()
}

pub fn cases() -> Vec<Case> {
    let mut list = Vec::new();
    let mut add = |name, file: Vec<u8>, settings, sizes, limits, want| {
        list.push(Case { name, file, settings, sizes, limits, want });
    };
    let usual = settings(80, 1, 0);
    let (page, none) = (Sizes::PAGE, Limits::PAGE);
    use Want::{Needs, Page, Refused};

    // Document 01, checked by hand.
    add("one Empty", hex("h 0000 sp"), usual, page, none, Page("", 0, 0, Some(2)));
    let ab = || {
        let mut b = Build::new();
        b.text("ab");
        b.file()
    };
    add("ab, W 2", ab(), settings(2, 1, 0), page, none, Page("ab", 0, 0, Some(2)));
    add("ab, W 1", ab(), settings(1, 1, 0), page, none, Page("ab", 1, 0, Some(2)));
    add("abc, W 1: a square", abc(), settings(1, 1, 0), page, none, Page("abc", 4, 0, Some(2)));
    let group = || {
        let mut b = Build::new();
        let (ab, line, cd) = (b.text("ab"), b.node(kind::BREAK, 0, 0), b.text("cd"));
        let space = b.node(kind::TEXT, 0, 0);
        let flat = b.list(kind::SEQ, &[ab, space, cd]);
        let child = b.list(kind::SEQ, &[ab, line, cd]);
        b.0.nodes[child as usize].flat = Some(flat);
        b.node(kind::GROUP, child, 0);
        b.file()
    };
    add("group, W 5", group(), settings(5, 1, 0), page, none, Page("ab cd", 0, 0, None));
    add("group, W 4", group(), settings(4, 1, 0), page, none, Page("ab\ncd", 0, 1, None));
    add("group, W 5, newline 0: a tie", group(), settings(5, 0, 0), page, none, Page("ab cd", 0, 0, None));
    let fill = || {
        let mut b = Build::new();
        let pair = [b.text("a"), b.text("b")];
        b.list(kind::FILL, &pair);
        b.file()
    };
    add("fill, W 3", fill(), settings(3, 1, 0), page, none, Page("a b", 0, 0, None));
    add("fill, W 2", fill(), settings(2, 1, 0), page, none, Page("a\nb", 0, 1, None));
    let nests = || {
        let mut b = Build::new();
        let empty = b.node(kind::EMPTY, 0, 0);
        let inner = b.node(kind::NEST, u32::MAX, empty);
        b.node(kind::NEST, 1, inner);
        b.file()
    };
    add("Nest 1 over Nest 2^32-1", nests(), usual, page, none, Refused(25, 0, Some(2)));
    add("Nest 1 over Nest 2^32-1, policy 1", nests(), settings(80, 1, 1), page, none, Refused(25, 0, Some(2)));
    let line = || {
        let mut b = Build::new();
        let line = b.node(kind::HARD_LINE, 0, 0);
        b.node(kind::NEST, 3, line);
        b.file()
    };
    add("HardLine in Nest 3, W 3", line(), settings(3, 1, 0), page, none, Page("\n   ", 0, 1, None));
    add("HardLine in Nest 3, W 3, policy 1", line(), settings(3, 1, 1), page, none, Page("\n  ", 0, 1, None));
    add("ab, work limit 1", ab(), usual, page, Limits { work: 1, ..none }, Refused(12, 0, Some(1)));
    add("ab, work limit 2", ab(), usual, page, Limits { work: 2, ..none }, Page("ab", 0, 0, Some(2)));
    add(
        "ab, limits 2^64 - 1",
        ab(),
        usual,
        page,
        Limits { work: u64::MAX, visits: u64::MAX },
        Page("ab", 0, 0, Some(2)),
    );
    add("ab, memo 0", ab(), usual, Sizes { memo: 0, ..page }, none, Refused(14, 1, Some(2)));

    // The reader (1 to 12).
    for (name, file, number) in [
        ("1: the empty file", "", 2),
        ("1: a header alone", "h", 2),
        ("2: nodes absent", "04", 4),
        ("2: 4,097 nodes, then cut", "05 01100000", 4),
        ("3: nodes present with 0", "01 00000000", 3),
        ("3: root present with 0", "25 01000000 01000000 00000000", 3),
        ("3: space text present with 0", "45 01000000 01000000 00000000", 3),
        ("4: node bit 6", "h 40", 3),
        ("4: node bit 7", "h 80", 3),
        ("4: node bit 3 alone", "h 08", 3),
        ("4: node bit 5 alone", "h 20", 3),
        ("4: node bit 4, then cut", "h 10", 2),
        ("4: node bit 4 in an Empty", "h 10 00", 3),
        ("4: header bit 7", "85", 3),
        ("4: text bit 2", "h 0000 04", 3),
        ("5: kind 12", "h 01 0c", 3),
        ("5: a Text with a second", "h 03 01", 3),
        ("5: a Text, cut in its field", "h 01 01", 2),
        ("6: flat node 2^32-1", "h 0400 ffffffff sp", 6),
        ("7: text total at the length", "h 0000 02 01000100", 4),
        ("8: one byte after the last text", "h 0000 sp 00", 5),
        ("9: root past the nodes", "25 01000000 01000000 01000000 0000 sp", 6),
        ("9: an unused edge past the nodes", "07 01000000 01000000 01000000 0000 01000000 sp", 6),
        ("9: an empty range past the edges", "h 0104 01000000 sp", 6),
        ("9: a Text, its absent field is text 0; an Annotate without annotations", "h 000a sp", 6),
        ("10: a single text that is byte 10", "h 0000 03 01000000 01000000 0a", 7),
        ("10: no Fill, yet the space text is wrong", "h 0000 03 02000000 01000000 20", 8),
        ("10: space text of another width, absent", "h 0000 02 01000000 20", 8),
        ("11: a Group in its child's flat node", "05 02000000 01000000 0105 01000000 0400 00000000 sp", 9),
        ("11: an Align of itself", "h 0008 sp", 9),
        ("12: a list of length 1", "17 01000000 01000000 01000000 01000000 1009 01000000 00000000 00000000 sp", 9),
    ] {
        // `17` has edges too; the last case shows that the circle comes before the list.
        add(name, hex(file), usual, page, none, Refused(number, 0, Some(0)));
    }
    add(
        "9: a range at the edges' end of length 0",
        hex("07 01000000 01000000 01000000 0104 01000000 00000000 sp"),
        usual,
        page,
        none,
        Page("", 0, 0, Some(2)),
    );
    add(
        "11: an Empty that is its own flat node",
        hex("h 0400 00000000 sp"),
        usual,
        page,
        none,
        Page("", 0, 0, Some(2)),
    );
    let listed = |length: u32, skipped: u32, entries: &[u32]| {
        let mut b = Build::new();
        b.node(kind::EMPTY, 0, 0);
        b.node(kind::EMPTY, 0, 0);
        b.node(kind::CHOICE, 0, 1);
        b.node(kind::CHOICE, 2, 1);
        b.0.nodes[3].choice_length = length;
        b.0.nodes[3].skipped = skipped;
        b.0.choice_edges.extend(entries);
        b.file()
    };
    add("12: length 1", listed(1, 0, &[2]), usual, page, none, Refused(10, 0, Some(0)));
    add("12: length 2, skipped 0", listed(2, 0, &[2, 1]), usual, page, none, Page("", 0, 0, None));
    add("12: a Choice replaced", listed(3, 1, &[0, 1, 1]), usual, page, none, Page("", 0, 0, None));
    add("12: skipped does not count", listed(3, 0, &[0, 1, 1]), usual, page, none, Refused(10, 0, Some(0)));
    add("12: a list that names its own Choice", listed(2, 0, &[3, 1]), usual, page, none, Refused(10, 0, Some(0)));

    // The calls (16 to 26).
    add("16: output 1", ab(), usual, Sizes { output: 1, ..page }, none, Refused(20, 2, Some(2)));
    add("16: width 0", ab(), settings(0, 1, 0), page, none, Refused(1, 0, Some(0)));
    add("16: policy 2, before a bad file", hex("04"), settings(80, 1, 2), page, none, Refused(1, 0, Some(0)));
    let past = || {
        let mut b = Build::new();
        let pair = [b.wide("x", u32::MAX), b.text("y")];
        b.list(kind::SEQ, &pair);
        b.file()
    };
    add("17: 11 before 12", past(), usual, page, Limits { work: 4, ..none }, Refused(11, 0, Some(4)));
    add("17: 12", past(), usual, page, Limits { work: 3, ..none }, Refused(12, 0, Some(3)));
    add(
        "18: stack 0, work limit 0",
        ab(),
        usual,
        Sizes { stack: 0, ..page },
        Limits { work: 0, ..none },
        Refused(13, 1, Some(0)),
    );
    add("18: work limit 0", ab(), usual, page, Limits { work: 0, ..none }, Refused(12, 0, Some(0)));
    add(
        "18: visit 0, visit limit 0",
        ab(),
        usual,
        Sizes { visit: 0, ..page },
        Limits { visits: 0, ..none },
        Refused(18, 1, Some(2)),
    );
    add("18: visit limit 0", ab(), usual, page, Limits { visits: 0, ..none }, Refused(22, 0, Some(2)));
    add("20: plans and kept both 0", ab(), usual, Sizes { plans: 0, kept: 0, ..page }, none, Refused(17, 1, Some(2)));
    add("20: kept and memo both 0", ab(), usual, Sizes { kept: 0, memo: 0, ..page }, none, Refused(15, 1, Some(2)));
    add("20: frontier 0", ab(), usual, Sizes { frontier: 0, ..page }, none, Refused(16, 1, Some(2)));
    let mark = || {
        let mut b = Build::new();
        let text = b.text("ab");
        b.annotated(0, text);
        b.file()
    };
    add("22: spans before depth", mark(), usual, Sizes { spans: 0, depth: 0, ..page }, none, Refused(21, 1, None));
    add("22: depth before visit", mark(), usual, Sizes { depth: 0, visit: 1, ..page }, none, Refused(19, 1, None));
    add("22: visit", mark(), usual, Sizes { visit: 1, ..page }, none, Refused(18, 2, None));
    add("22: a newline byte by byte", line(), usual, Sizes { output: 2, ..page }, none, Refused(20, 3, None));
    add(
        "22: an empty text needs nothing",
        {
            let mut b = Build::new();
            b.text("");
            b.file()
        },
        usual,
        Sizes { output: 0, ..page },
        none,
        Page("", 0, 0, Some(2)),
    );
    add("22: visit limit 1", ab(), usual, page, Limits { visits: 1, ..none }, Page("ab", 0, 0, Some(2)));
    let choice = |first: bool| {
        let mut b = Build::new();
        let empty = b.node(kind::EMPTY, 0, 0);
        let (wide, one) = (b.wide("x", u32::MAX), b.text("y"));
        if first {
            let both = b.list(kind::SEQ, &[wide, one]);
            b.node(kind::CHOICE, empty, both);
        } else {
            let choice = b.node(kind::CHOICE, empty, wide);
            b.list(kind::SEQ, &[choice, one]);
        }
        b.file()
    };
    add("25: 11 although a page exists", choice(true), usual, page, none, Refused(11, 0, None));
    add("25: a page although a layout passes 2^32 columns", choice(false), usual, page, none, Page("y", 0, 0, None));
    for (name, times, want) in [
        ("26: overflow doubled 64 times", 64, Refused(20, 32_769, None)),
        ("26: overflow doubled 65 times", 65, Refused(26, 0, None)),
    ] {
        let mut b = Build::new();
        let line = b.node(kind::HARD_LINE, 0, 0);
        let nest = b.node(kind::NEST, u32::MAX, line);
        b.doubled(nest, times);
        add(name, b.file(), settings(1, 0, 0), page, none, want);
    }
    for (name, times, want) in [
        ("26: burden doubled 32 times", 32, Refused(22, 0, None)),
        ("26: burden doubled 33 times", 33, Refused(26, 0, None)),
    ] {
        let mut b = Build::new();
        let empty = b.node(kind::EMPTY, 0, 0);
        let penalty = b.node(kind::PENALTY, u32::MAX, empty);
        b.doubled(penalty, times);
        add(name, b.file(), settings(1, 0, 0), page, none, want);
    }

    // What has no place (104 to 107).
    let wide = |kind: u8, order: &[usize]| {
        let mut b = Build::new();
        let texts = [b.wide("x", u32::MAX), b.text("y")];
        let empty = b.node(kind::EMPTY, 0, 0);
        let inner = b.node(kind::NEST, u32::MAX, empty);
        let nests = b.node(kind::NEST, 1, inner);
        let all = [texts[0], texts[1], nests, empty];
        b.list(kind, &order.iter().map(|at| all[*at]).collect::<Vec<_>>());
        b.file()
    };
    add("107: 25 although a page exists", nests_choice(), usual, page, none, Refused(25, 0, None));
    add("104: two Nests first", wide(kind::SEQ, &[2, 0, 1]), usual, page, none, Refused(25, 0, Some(3)));
    add("104: two texts first", wide(kind::SEQ, &[0, 1, 2]), usual, page, none, Refused(11, 0, Some(4)));
    add("104: a Fill's space", wide(kind::FILL, &[0, 3]), usual, page, none, Refused(11, 0, Some(3)));
    let deep = || {
        let mut b = Build::new();
        let pair = [b.node(kind::HARD_LINE, 0, 0), b.text("y")];
        let both = b.list(kind::SEQ, &pair);
        b.node(kind::NEST, u32::MAX, both);
        b.file()
    };
    add("105: a text after the deepest newline", deep(), usual, page, none, Refused(11, 0, Some(5)));
    add(
        "105: the deepest newline lowered",
        deep(),
        settings(80, 1, 1),
        page,
        none,
        Page("\n                                                                               y", 0, 1, Some(7)),
    );
    let mut b = Build::new();
    let line = b.node(kind::HARD_LINE, 0, 0);
    let nest = b.node(kind::NEST, u32::MAX, line);
    b.doubled(nest, 64);
    add("106: burden of 2^64 newlines", b.file(), settings(1, 1, 0), page, none, Refused(26, 0, Some(385)));
    // Burden 2^64 - 2^32, and so much more.
    let charged = |amounts: &[u32], fill: bool| {
        let mut b = Build::new();
        let empty = b.node(kind::EMPTY, 0, 0);
        let penalty = b.node(kind::PENALTY, u32::MAX, empty);
        let mut node = b.doubled(penalty, 32);
        for amount in amounts {
            node = b.node(kind::PENALTY, *amount, node);
        }
        if fill {
            b.list(kind::FILL, &[node, empty]);
        }
        b.file()
    };
    let dear = settings(80, u32::MAX, 0);
    add("104: a charge has its place", charged(&[u32::MAX], false), usual, page, none, Refused(22, 0, None));
    add("104: a charge has none", charged(&[u32::MAX, 1], false), usual, page, none, Refused(26, 0, None));
    add("104: a gap has its place", charged(&[], true), dear, page, none, Refused(22, 0, None));
    add("104: a gap has none", charged(&[1], true), dear, page, none, Refused(26, 0, None));

    // The texts (97 to 100).
    for (name, text) in [
        ("97: text 00", "\0"),
        ("97: text 7f", "\u{7f}"),
        ("97: text c2 80", "\u{80}"),
        ("97: text df bf", "\u{7ff}"),
        ("97: text e0 a0 80", "\u{800}"),
        ("97: text ed 9f bf", "\u{d7ff}"),
        ("97: text ee 80 80", "\u{e000}"),
        ("97: text ef bf bf", "\u{ffff}"),
        ("97: text f0 90 80 80", "\u{10000}"),
        ("97: text f4 8f bf bf", "\u{10ffff}"),
        ("97: text ef bb bf", "\u{feff}"),
        ("98: text c3 a9", "é"),
    ] {
        let mut b = Build::new();
        b.text(text);
        add(name, b.file(), usual, page, none, Page(text, 0, 0, Some(2)));
    }
    for (name, text) in [
        ("97: text 80", "80"),
        ("97: text bf", "bf"),
        ("97: text c0 80", "c080"),
        ("97: text c1 bf", "c1bf"),
        ("97: text c2", "c2"),
        ("97: text c2 41", "c241"),
        ("97: text e0 9f bf", "e09fbf"),
        ("97: text ed a0 80", "eda080"),
        ("97: text ed bf bf", "edbfbf"),
        ("97: text e2 82", "e282"),
        ("97: text f0 8f bf bf", "f08fbfbf"),
        ("97: text f4 90 80 80", "f4908080"),
        ("97: text f5 80 80 80", "f5808080"),
        ("97: text f0 9f 98", "f09f98"),
        ("97: text ff", "ff"),
        ("100: text e2 0a", "e20a"),
    ] {
        let mut b = Build::new();
        b.0.texts.push(Text { width: 1, bytes: hex(text) });
        b.node(kind::TEXT, 1, 0);
        add(name, b.file(), usual, page, none, Refused(7, 0, Some(0)));
    }
    for (name, file, number) in [
        ("98: texts c3 and a9", "05 01000000 03000000 0000 sp 02 01000000 c3 02 01000000 a9", 7),
        ("99: an unused text", "05 01000000 02000000 0000 sp 02 01000000 ff", 7),
        ("99: the space text", "h 0000 03 01000000 01000000 80", 7),
        ("99: 6 before 7", "h 0101 01000000 03 01000000 01000000 80", 6),
        ("99: 7 before 9", "05 01000000 02000000 0005 sp 02 01000000 80", 7),
    ] {
        add(name, hex(file), usual, page, none, Refused(number, 0, Some(0)));
    }

    // Cost rule 2 (109, 111, 113).
    let second = |width, newline_cost| Settings { rule: 2, ..settings(width, newline_cost, 0) };
    add("109: abc, W 1, rule 2: no square", abc(), second(1, 1), page, none, Page("abc", 2, 0, Some(2)));
    let mut b = Build::new();
    let pair = [b.text("ab"), b.text("c")];
    b.list(kind::SEQ, &pair);
    // 1, and 2 less 1.
    add(
        "109: ab and c, W 1, rule 2: from past the width",
        b.file(),
        second(1, 1),
        page,
        none,
        Page("abc", 2, 0, Some(6)),
    );
    // One line of 3 too many, or two lines of 2 too many each: 9 and 8, or 3 and 4.
    add("109: one or two, rule 1", one_or_two(), settings(1, 0, 0), page, none, Page("abc\nabc", 8, 0, None));
    add("109: one or two, rule 2", one_or_two(), second(1, 0), page, none, Page("abcd", 3, 0, None));
    add("109: one or two, W 2, rule 2: a tie", one_or_two(), second(2, 0), page, none, Page("abcd", 2, 0, None));
    for (name, file, rule) in [
        ("111: rule 0", ab(), 0),
        ("111: rule 3", ab(), 3),
        ("111: rule 2^32-1", ab(), u32::MAX),
        ("111: rule 0 before the empty file", vec![], 0),
        ("111: rule 3 before the empty file", vec![], 3),
    ] {
        add(name, file, Settings { rule, ..usual }, page, none, Refused(1, 0, Some(0)));
    }
    // Lines of 2^32 - 2 too many: 2^96 of them have their place, and 2^97 have none; at newline cost 1 the burden of 2^64 has none.
    let lines = |many: usize, times: u32, doublings: u32| {
        let mut b = Build::new();
        let line = b.node(kind::HARD_LINE, 0, 0);
        let nest = b.node(kind::NEST, u32::MAX, line);
        let node = b.repeated(nest, many, times);
        b.doubled(node, doublings);
        b.file()
    };
    for (name, file, newline_cost, want) in [
        ("113: overflow doubled 96 times", lines(2, 96, 0), 0, Refused(20, 32_769, None)),
        ("113: overflow doubled 97 times", lines(2, 97, 0), 0, Refused(26, 0, None)),
        ("113: overflow four times as much 48 times", lines(4, 48, 0), 0, Refused(20, 32_769, None)),
        ("113: overflow four times as much 48 times, doubled", lines(4, 48, 1), 0, Refused(26, 0, None)),
        ("113: burden of 2^63 newlines", lines(4, 31, 1), 1, Refused(20, 32_769, None)),
        ("113: burden of 2^64 newlines", lines(4, 32, 0), 1, Refused(26, 0, None)),
    ] {
        add(name, file, second(1, newline_cost), page, none, want);
    }

    // Needs (116 to 119). The frontier holds 1, 2, then 1 candidate: the Empty ends further left and costs less.
    let mut b = Build::new();
    let [a, bb] = ["a", "bb"].map(|text| b.text(text)).map(|text| b.node(kind::PENALTY, 1, text));
    let empty = b.node(kind::EMPTY, 0, 0);
    let rest = b.node(kind::CHOICE, bb, empty);
    let choice = b.listed(a, rest, &[a, bb, empty], 1);
    // The Annotate's own frontier, which is finished later, holds 1.
    let mut over = Build(b.0.clone());
    over.annotated(0, choice);
    let (held, over) = (b.file(), over.file());
    // Tasks: one for each Align on the way, and one.
    let mut b = Build::new();
    (0..5).fold(b.node(kind::EMPTY, 0, 0), |node, _| b.node(kind::ALIGN, node, 0));
    let tasks = b.file();
    // Results: three of the longer list, and behind them those of the shorter one. Tasks are 5 at most.
    let mut b = Build::new();
    let empty = b.node(kind::EMPTY, 0, 0);
    let pair = b.node(kind::CHOICE, empty, empty);
    let shorter = b.listed(empty, pair, &[empty; 3], 1);
    let last = b.node(kind::CHOICE, empty, shorter);
    let rest = b.node(kind::CHOICE, empty, last);
    b.listed(empty, rest, &[empty, empty, empty, shorter], 2);
    let results = b.file();
    // Pending: each of three candidates behind each of three.
    let mut b = Build::new();
    let [a, bb, ccc] = ["a", "bb", "ccc"].map(|text| b.text(text));
    let rest = b.node(kind::CHOICE, bb, ccc);
    let any = b.node(kind::CHOICE, a, rest);
    b.list(kind::SEQ, &[any, any]);
    let pending = b.file();
    let mut b = Build::new();
    let line = b.node(kind::HARD_LINE, 0, 0);
    b.node(kind::NEST, 3, line);
    let nest = b.file();
    // Each at its needs, and with one of them smaller. Needed is then the first size that is not met, of a newline's spaces one after the other.
    let output = [("119: HardLine in Nest 3, output 3", 20, 3, 4), ("119: HardLine in Nest 3, output 1", 20, 1, 2)];
    for (name, file, (text, peak), needs, smaller) in [
        ("116: frontier", held, ("", 1), [5, 6, 6, 2, 5, 1, 0, 0, 0], &[("116: frontier 1", 16, 1, 2)][..]),
        (
            "116: frontier, one more over it",
            over,
            ("", 1),
            [6, 7, 7, 2, 6, 2, 1, 0, 1],
            &[("116: frontier, one more over it, frontier 1", 16, 1, 2)],
        ),
        ("117: tasks", tasks, ("", 1), [6, 6, 1, 1, 1, 1, 0, 0, 0], &[("117: tasks, stack 5", 13, 5, 6)]),
        ("117: results", results, ("", 1), [6, 3, 3, 1, 1, 1, 0, 0, 0], &[("117: results, stack 5", 13, 5, 6)]),
        ("117: pending", pending, ("aa", 5), [9, 21, 37, 5, 17, 2, 0, 2, 0], &[("117: pending, stack 8", 13, 8, 9)]),
        ("118: one Empty", hex("h 0000 sp"), ("", 1), [1, 1, 1, 1, 1, 1, 0, 0, 0], &[]),
        ("118: ab", ab(), ("ab", 1), [1, 1, 1, 1, 1, 1, 0, 2, 0], &[("118: ab, memo 0", 14, 0, 1)]),
        ("119: HardLine in Nest 3", nest, ("\n   ", 1), [2, 2, 1, 1, 1, 1, 0, 4, 0], &output),
    ] {
        let just = Sizes::of(needs);
        add(name, file.clone(), usual, just, none, Needs(text, peak, needs));
        for (name, number, size, needed) in smaller {
            let less = with(&just, *number as usize - 13, *size);
            add(name, file.clone(), usual, less, none, Refused(*number, *needed, None));
        }
    }
    list
}
