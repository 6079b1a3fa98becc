//! Random prepared files, settings and sizes; everything follows from a seed.

pub mod bounds;
pub mod damage;
pub mod files;
pub mod source;

use common::Settings;

/// splitmix64.
#[derive(Clone)]
pub struct Rng(u64);

impl Rng {
    pub fn new(seed: u64) -> Rng {
        Rng(seed)
    }

    /// The generator of one case, so that it can be made again alone.
    pub fn of_case(seed: u64, case: u64) -> Rng {
        let mut rng = Rng(seed ^ case.wrapping_mul(0xd1b5_4a32_d192_ed03));
        rng.word();
        rng
    }

    pub fn word(&mut self) -> u64 {
        self.0 = self.0.wrapping_add(0x9e37_79b9_7f4a_7c15);
        let mut value = self.0;
        value = (value ^ (value >> 30)).wrapping_mul(0xbf58_476d_1ce4_e5b9);
        value = (value ^ (value >> 27)).wrapping_mul(0x94d0_49bb_1331_11eb);
        value ^ (value >> 31)
    }

    /// Below `end`, which is not 0.
    pub fn below(&mut self, end: u64) -> u64 {
        ((u128::from(self.word()) * u128::from(end)) >> 64) as u64
    }

    pub fn index(&mut self, end: usize) -> usize {
        self.below(end as u64) as usize
    }

    /// From `least` to `most`, both included.
    pub fn within(&mut self, least: u32, most: u32) -> u32 {
        (u64::from(least) + self.below(u64::from(most) - u64::from(least) + 1)) as u32
    }

    pub fn chance(&mut self, of: u64) -> bool {
        self.below(of) == 0
    }

    pub fn pick<T: Copy>(&mut self, list: &[T]) -> T {
        list[self.index(list.len())]
    }

    /// A number near a boundary of 32 bits or of the usual widths.
    pub fn extreme(&mut self) -> u32 {
        let near = self.pick(&[0u32, 1, 2, 80, 1 << 16, 1 << 31, u32::MAX, u32::MAX / 3 * 2]);
        match self.below(3) {
            0 => near,
            1 => near.wrapping_add(self.within(0, 3)),
            _ => near.wrapping_sub(self.within(0, 3)),
        }
    }
}

/// The rule of a document's calls: 2 for one in three. It has a generator of its own, so the documents of a seed are what they were
/// before there was a rule.
pub fn rule(seed: u64, case: u64) -> u32 {
    1 + u32::from(Rng::of_case(seed ^ 1 << 62, case).chance(3))
}

/// Of a narrow page, under rule 2.
pub fn narrow(rng: &mut Rng) -> Settings {
    Settings { width: rng.within(1, 6), newline_cost: rng.pick(&[0, 0, 1, 3]), policy: rng.within(0, 1), rule: 2 }
}

/// Under rule 1.
pub fn settings(rng: &mut Rng, extreme: bool) -> Settings {
    let width = match rng.below(if extreme { 8 } else { 6 }) {
        0 => 1,
        1..=3 => rng.within(1, 12),
        4 => rng.within(8, 40),
        5 => 80,
        _ => rng.extreme().max(1),
    };
    let newline_cost = match rng.below(if extreme { 6 } else { 5 }) {
        0 => 0,
        1 | 2 => 1,
        3 => rng.within(0, 9),
        4 => rng.within(0, 200),
        _ => rng.extreme(),
    };
    Settings { width, newline_cost, policy: rng.within(0, 1), rule: 1 }
}
