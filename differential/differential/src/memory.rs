//! Memory that a call is lent: a part of a larger one, dirty before each call, with guards around it.

use common::Sizes;
use generate::Rng;

/// Items before and after a lent part, which no call may touch.
pub const GUARD: usize = 4;

/// An item of lent memory.
pub trait Item: Copy + PartialEq {
    fn made(word: &mut dyn FnMut() -> u64) -> Self;
}

impl Item for u8 {
    fn made(word: &mut dyn FnMut() -> u64) -> u8 {
        word() as u8
    }
}

impl Item for u32 {
    fn made(word: &mut dyn FnMut() -> u64) -> u32 {
        word() as u32
    }
}

impl Item for u64 {
    fn made(word: &mut dyn FnMut() -> u64) -> u64 {
        word()
    }
}

impl Item for usize {
    fn made(word: &mut dyn FnMut() -> u64) -> usize {
        word() as usize
    }
}

impl<T: Item, const N: usize> Item for [T; N] {
    fn made(word: &mut dyn FnMut() -> u64) -> [T; N] {
        std::array::from_fn(|_| T::made(word))
    }
}

/// What a call finds in lent memory.
#[derive(Clone, Copy)]
pub enum Dirt {
    /// What an earlier call left there: entries, plans and candidates that look right.
    Left,
    Zeros,
    Ones,
    /// Small numbers, which name something.
    Small,
    Words,
}

impl Dirt {
    pub fn any(rng: &mut Rng) -> Dirt {
        rng.pick(&[Dirt::Left, Dirt::Left, Dirt::Left, Dirt::Zeros, Dirt::Ones, Dirt::Small, Dirt::Words])
    }

    fn word(self, rng: &mut Rng) -> u64 {
        match self {
            Dirt::Left | Dirt::Zeros => 0,
            Dirt::Ones => u64::MAX,
            Dirt::Small => u64::from(rng.within(0, 9)),
            Dirt::Words => rng.word(),
        }
    }
}

/// Memory of one kind: a part of it is lent, and what stands around the part is held to what stood there.
pub struct Store<T> {
    all: Vec<T>,
    length: usize,
    guards: Vec<T>,
}

impl<T: Item> Store<T> {
    pub fn new() -> Store<T> {
        Store { all: Vec::new(), length: 0, guards: Vec::new() }
    }

    pub fn soil(&mut self, rng: &mut Rng, dirt: Dirt, length: usize) {
        self.soil_behind(rng, dirt, 0, length);
    }

    /// The first `kept` items that are lent stay as they are.
    pub fn soil_behind(&mut self, rng: &mut Rng, dirt: Dirt, kept: usize, length: usize) {
        let whole = length.max(kept) + 2 * GUARD;
        let mut word = || dirt.word(rng);
        if self.all.len() < whole {
            self.all.resize_with(whole, || T::made(&mut word));
        }
        if !matches!(dirt, Dirt::Left) {
            let (before, rest) = self.all[..whole].split_at_mut(GUARD);
            // Behind the front of a large store older dirt stays.
            for item in before.iter_mut().chain(&mut rest[kept..]).take(1_000) {
                *item = T::made(&mut word);
            }
        }
        self.lend(length);
    }

    /// Lends so much of what stands there as it is.
    pub fn lend(&mut self, length: usize) {
        self.length = length;
        self.guards.clear();
        self.guards.extend_from_slice(&self.all[..GUARD]);
        self.guards.extend_from_slice(&self.all[GUARD + length..length + 2 * GUARD]);
    }

    pub fn lent(&mut self) -> &mut [T] {
        &mut self.all[GUARD..GUARD + self.length]
    }

    pub fn held(&self) -> &[T] {
        &self.all[GUARD..GUARD + self.length]
    }

    /// All of it, what is not lent too.
    pub fn all(&self) -> &[T] {
        &self.all
    }

    /// What stood there before.
    pub fn put_back(&mut self, all: &[T]) {
        self.all[..all.len()].copy_from_slice(all);
    }

    pub fn check(&self, what: &str) {
        let after = &self.all[GUARD + self.length..self.length + 2 * GUARD];
        if self.all[..GUARD] != self.guards[..GUARD] || *after != self.guards[GUARD..] {
            panic!("{what}: a call wrote outside the lent part");
        }
    }
}

/// The working memory of a call.
pub struct Working {
    pub nodes: Store<[u32; 8]>,
    pub edges: Store<u32>,
    pub choices: Store<u32>,
    pub texts: Store<[u32; 3]>,
    pub bytes: Store<u8>,
    pub tasks: Store<[u32; 9]>,
    pub results: Store<[u32; 2]>,
    pub pending: Store<[u64; 7]>,
    pub index: Store<u64>,
    pub entries: Store<[u64; 6]>,
    pub kept: Store<[u64; 6]>,
    pub frontier: Store<u64>,
    pub plans: Store<[u32; 3]>,
    pub visit: Store<usize>,
    pub depth: Store<usize>,
}

/// How long each slice must be: those of the working memory, then output and spans.
pub fn lengths(sizes: &Sizes) -> [usize; 17] {
    let size = sizes.list().map(|size| size as usize);
    let slots = reference::access::memo_slots_for(size[1]).expect("it has a number");
    [
        4_096,
        16_384,
        16_384,
        4_096,
        65_536,
        size[0],
        size[0],
        size[0],
        slots,
        size[1],
        size[2],
        size[3] * 14,
        size[4],
        size[5],
        size[6],
        size[7],
        size[8],
    ]
}

impl Working {
    pub fn new() -> Working {
        Working {
            nodes: Store::new(),
            edges: Store::new(),
            choices: Store::new(),
            texts: Store::new(),
            bytes: Store::new(),
            tasks: Store::new(),
            results: Store::new(),
            pending: Store::new(),
            index: Store::new(),
            entries: Store::new(),
            kept: Store::new(),
            frontier: Store::new(),
            plans: Store::new(),
            visit: Store::new(),
            depth: Store::new(),
        }
    }

    /// By the first fifteen of the lengths.
    pub fn soil(&mut self, rng: &mut Rng, dirt: Dirt, lengths: &[usize]) {
        self.nodes.soil(rng, dirt, lengths[0]);
        self.edges.soil(rng, dirt, lengths[1]);
        self.choices.soil(rng, dirt, lengths[2]);
        self.texts.soil(rng, dirt, lengths[3]);
        self.bytes.soil(rng, dirt, lengths[4]);
        self.tasks.soil(rng, dirt, lengths[5]);
        self.results.soil(rng, dirt, lengths[6]);
        self.pending.soil(rng, dirt, lengths[7]);
        self.index.soil(rng, dirt, lengths[8]);
        self.entries.soil(rng, dirt, lengths[9]);
        self.kept.soil(rng, dirt, lengths[10]);
        self.frontier.soil(rng, dirt, lengths[11]);
        self.plans.soil(rng, dirt, lengths[12]);
        self.visit.soil(rng, dirt, lengths[13]);
        self.depth.soil(rng, dirt, lengths[14]);
    }

    pub fn check(&self) {
        self.nodes.check("nodes");
        self.edges.check("edges");
        self.choices.check("choices");
        self.texts.check("texts");
        self.bytes.check("bytes");
        self.tasks.check("tasks");
        self.results.check("results");
        self.pending.check("pending");
        self.index.check("index");
        self.entries.check("entries");
        self.kept.check("kept");
        self.frontier.check("frontier");
        self.plans.check("plans");
        self.visit.check("visit");
        self.depth.check("depth");
    }
}
