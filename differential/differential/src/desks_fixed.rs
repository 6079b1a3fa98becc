//! Calls for desks with known answers: the open points of change 8 that docs/DECISIONS.md decides. They are run at the start of every run of
//! `desks`.

use common::{kind, Answer, Limits, Settings, Sizes};
use model::desks::Desks;
use model::report::{Step, ROWS};

use crate::compare::{counts, number, Call};
use crate::desks::{Runner, World};
use crate::fixed::Build;
use crate::reports::{sums, Act, Lengths};
use crate::reports_fixed::text;

const SETTINGS: Settings = Settings { width: 80, newline_cost: 1, policy: 0, rule: 1 };
const LIMITS: Limits = Limits { work: 10, visits: 10 };

/// A report without rows, and of each desk the allowance and what it has spent; the words of the others are to stay.
struct Case<'a> {
    runner: &'a mut Runner,
    world: World,
    name: &'static str,
    settings: Settings,
    sizes: Sizes,
    limits: Limits,
    /// Which of the slices of a call is one item short.
    short: Option<usize>,
}

/// The number of the refusal and the size needed, or 0 and the length of the page; work; what the desk has spent then.
type Want = (u32, u64, u64, u64);

impl Case<'_> {
    fn of<'a>(runner: &'a mut Runner, name: &'static str, desk: usize, allowance: u64, spent: u64) -> Case<'a> {
        let report = runner.open(0, SETTINGS);
        let mut desks = Desks::of(std::array::from_fn(|at| if at % 3 == 0 { u64::MAX } else { 5 + at as u64 }));
        if desk < 8 {
            (desks.allowance[desk], desks.spent[desk]) = (allowance, spent);
        }
        let world = World { reports: vec![report], desks };
        Case { runner, world, name, settings: SETTINGS, sizes: Sizes::PAGE, limits: LIMITS, short: None }
    }

    /// Counts are 0 at 1, 23, 24 and 28, and then no word is altered.
    fn held(&mut self, desk: u32, before: Desks, answer: &Answer, want: Want) {
        let needed = match answer {
            Ok(page) => page.bytes.len() as u64,
            Err(refusal) => refusal.needed,
        };
        let mut right = before;
        if desk < 8 {
            right.spent[desk as usize] = want.3;
        }
        let none = !matches!(want.0, 1 | 23 | 24 | 28) || counts(answer) == Default::default() && before == right;
        let got = (number(answer), needed, counts(answer).work);
        if got != (want.0, want.1, want.2) || self.world.desks != right || !none {
            let (left, right) = (format!("{answer:?}, {:?}", self.world.desks), format!("{want:?}, {right:?}"));
            self.runner.differ(self.name, &format!("desk {desk}\n"), &left, &right);
        }
    }

    fn call(&mut self, desk: u32, file: &[u8], want: Want) {
        let before = self.world.desks;
        let call = Call { file, settings: self.settings, sizes: self.sizes, limits: self.limits };
        let answer = self.runner.single(&mut self.world, desk, &call, self.short);
        self.held(desk, before, &answer, want);
    }

    fn step(&mut self, desk: u32, step: Step, want: Want) {
        let before = self.world.desks;
        let mut lengths = Lengths::of(sums(&self.world.reports[0]), &step, &self.sizes);
        if let Some(kind) = self.short {
            *lengths.list()[kind] -= 1;
        }
        let act = Act { step, sizes: self.sizes, limits: self.limits, lengths };
        let answer = self.runner.step(&mut self.world, desk, &act);
        self.held(desk, before, &answer, want);
    }
}

pub fn run(runner: &mut Runner) {
    allowances(runner);
    no_desk(runner);
    limits(runner);
    removals(runner);
    kept(runner);
}

/// Points 1 to 3.
fn allowances(runner: &mut Runner) {
    let a = text("a");
    for desk in 0..8 {
        let mut case = Case::of(runner, "1: refused calls are charged", desk, 3, 0);
        for want in [(0, 1, 2, 2), (12, 0, 1, 3), (12, 0, 0, 3)] {
            case.call(desk as u32, &a, want);
        }
        let mut case = Case::of(runner, "1: of a report", desk, 3, 0);
        for want in [(0, 1, 2, 2), (12, 0, 1, 3), (12, 0, 0, 3)] {
            case.step(desk as u32, Step::Insert(0, &a), want);
        }
        for (allowance, spent) in [(3, 5), (0, 1), (0, u64::MAX), (u64::MAX - 1, u64::MAX)] {
            let mut case = Case::of(runner, "2: spent above the allowance", desk, allowance, spent);
            case.call(desk as u32, &a, (12, 0, 0, spent));
            case.step(desk as u32, Step::Insert(0, &a), (12, 0, 0, spent));
        }
        let mut case = Case::of(runner, "3: one unit remains", desk, u64::MAX, u64::MAX - 1);
        case.call(desk as u32, &a, (12, 0, 1, u64::MAX));
        case.call(desk as u32, &a, (12, 0, 0, u64::MAX));
        let mut case = Case::of(runner, "3: just enough remains", desk, u64::MAX, u64::MAX - 2);
        case.step(desk as u32, Step::Insert(0, &a), (0, 1, 2, u64::MAX));
    }
}

/// Point 4.
fn no_desk(runner: &mut Runner) {
    let a = text("a");
    for desk in [8, 9, 256, 263, u32::MAX] {
        let mut case = Case::of(runner, "4: order before the desk", 8, 0, 0);
        case.settings.width = 0;
        case.call(desk, &a, (1, 0, 0, 0));
        case.call(desk, &[], (1, 0, 0, 0));
        case.settings = SETTINGS;
        for short in 0..17 {
            case.short = Some(short);
            case.call(desk, &a, (1, 0, 0, 0));
        }
        for short in 0..6 {
            case.short = Some(short);
            case.step(desk, Step::Insert(9, &a), (1, 0, 0, 0));
        }
        let mut case = Case::of(runner, "4: the desk before all else", 8, 0, 0);
        for file in [&a[..], &[], &[255; 21]] {
            case.call(desk, file, (28, 0, 0, 0));
            for place in [0, 1, 9, usize::MAX] {
                case.step(desk, Step::Insert(place, file), (28, 0, 0, 0));
                case.step(desk, Step::Remove(place), (28, 0, 0, 0));
            }
        }
        case.sizes = Sizes::NONE;
        case.limits = Limits { work: 0, visits: 0 };
        case.call(desk, &a, (28, 0, 0, 0));
        let mut case = Case::of(runner, "4: the desk before a full report", 8, 0, 0);
        case.world.reports[0] = case.runner.empty_rows(0, SETTINGS, ROWS as u32);
        for (desk, want) in [(desk, 28), (7, 24)] {
            let spent = case.world.desks.spent[7];
            case.step(desk, Step::Insert(ROWS, &a), (want, 0, 0, spent));
        }
    }
}

/// Points 5 and 8.
fn limits(runner: &mut Runner) {
    let a = text("a");
    for (left, limit, want) in [
        (1, 1, (12, 0, 1)),
        (2, 2, (0, 1, 2)),
        (1, 10, (12, 0, 1)),
        (10, 1, (12, 0, 1)),
        (0, 0, (12, 0, 0)),
        (10, 0, (12, 0, 0)),
    ] {
        let mut case = Case::of(runner, "5: both limits", 4, 100 + left, 100);
        case.limits.work = limit;
        case.call(4, &a, (want.0, want.1, want.2, 100 + want.2));
    }
    for (allowance, limit) in [(0, 10), (10, 0), (0, 0)] {
        let mut case = Case::of(runner, "5: stack 0 without work", 4, allowance, 0);
        case.sizes.stack = 0;
        case.limits.work = limit;
        case.call(4, &a, (13, 1, 0, 0));
        case.step(4, Step::Insert(0, &a), (13, 1, 0, 0));
    }
    // Texts of widths 2^32 - 1 and 1; Nest 1 over Nest 2^32 - 1.
    let mut b = Build::new();
    let both = [b.wide("x", u32::MAX), b.wide("y", 1)];
    b.list(kind::SEQ, &both);
    let wide = b.file();
    let mut b = Build::new();
    let empty = b.node(kind::EMPTY, 0, 0);
    let inner = b.node(kind::NEST, u32::MAX, empty);
    b.node(kind::NEST, 1, inner);
    let nested = b.file();
    for (file, want) in [(&wide, (11, 0, 4, 4)), (&nested, (25, 0, 2, 2)), (&a, (0, 1, 2, 2))] {
        let mut case = Case::of(runner, "8: work up to the refusal", 4, 100, 0);
        case.call(4, file, want);
    }
    for (kind, want) in [(1, (14, 1, 2, 2)), (2, (15, 1, 2, 2)), (4, (17, 1, 2, 2)), (7, (20, 1, 2, 2))] {
        let mut case = Case::of(runner, "8: work up to the refusal of a size", 4, 2, 0);
        case.sizes = crate::needs::with(&case.sizes, kind, 0);
        case.call(4, &a, want);
    }
    let mut case = Case::of(runner, "8: visits are not work", 4, 2, 0);
    case.limits.visits = 0;
    case.call(4, &a, (22, 0, 2, 2));
}

/// Point 6: a removal needs no work, and has none where it is refused.
fn removals(runner: &mut Runner) {
    let a = text("a");
    let mut case = Case::of(runner, "6: a removal without allowance", 5, 4, 0);
    case.step(5, Step::Insert(0, &a), (0, 1, 2, 2));
    case.step(5, Step::Insert(0, &a), (0, 3, 2, 4));
    case.step(5, Step::Insert(0, &a), (12, 0, 0, 4));
    case.step(5, Step::Remove(2), (23, 0, 0, 4));
    case.limits.work = 0;
    case.sizes.output = 0;
    case.step(5, Step::Remove(1), (20, 1, 0, 4));
    case.sizes.output = 1;
    case.step(5, Step::Remove(1), (0, 1, 0, 4));
    case.world.desks.allowance[5] = 0;
    case.step(5, Step::Remove(0), (0, 0, 0, 4));
}

/// Point 7: the counts are those of the last call, whoever made it, and what is kept is kept by desk. Of the whole page's refusal the row's work
/// is charged.
fn kept(runner: &mut Runner) {
    let (a, empty) = (text("a"), text(""));
    let mut case = Case::of(runner, "7: desks in turn", 0, 5, 0);
    (case.world.desks.allowance[1], case.world.desks.spent[1]) = (100, 50);
    case.call(0, &a, (0, 1, 2, 2));
    case.step(1, Step::Insert(0, &a), (0, 1, 2, 52));
    case.call(8, &a, (28, 0, 0, 0));
    case.step(0, Step::Insert(1, &a), (0, 3, 2, 4));
    case.settings.width = 0;
    case.call(1, &a, (1, 0, 0, 52));
    case.settings = SETTINGS;
    case.sizes.output = 3;
    case.step(1, Step::Insert(1, &a), (20, 5, 2, 54));
    case.step(0, Step::Insert(1, &a), (12, 0, 1, 5));
    case.step(0, Step::Insert(9, &a), (23, 0, 0, 5));
    case.call(0, &[], (2, 0, 0, 5));
    case.call(1, &empty, (0, 0, 2, 56));
    case.step(0, Step::Remove(0), (0, 1, 0, 5));
}
