//! Work counted by desk: random sequences of calls on single files and of steps on live reports, by several desks that share some of the reports.
//! Every answer, page, span and all sixteen words of the desks are held to the model's. Then isolation by running: what a desk got that shares no
//! report with another, it gets again when its own calls are made alone.

use std::panic::{catch_unwind, AssertUnwindSafe};
use std::rc::Rc;

use common::{Answer, Limits, Settings, Sizes};
use generate::Rng;
use model::desks::Desks;
use model::report::{Report, Step};

use crate::compare::{counts, number, Call, PROBE};
use crate::memory::lengths;
use crate::ours::{self, Steps};
use crate::reports::{
    file, place, sequences, sizes, Act, Drawn, Given, Lends, Lengths, Sequences, Style, Taken, LIMITS,
};
use crate::standin::{Slip, Standin};

/// The most reports of a sequence.
const REPORTS: usize = 4;

#[derive(Default)]
pub struct Tally {
    sequences: u64,
    /// Calls on one file, insertions, removals.
    calls: [u64; 3],
    /// By number of refusal; 0 is a page.
    answers: [u64; 29],
    /// 12 where the desk's allowance was less than the call's limit, where it was more, and where they were alike.
    work: [u64; 3],
    /// Calls of a desk that had spent more than it was allowed; of one whose spent count came within 1,000 of 2^64; steps on reports that
    /// another desk has touched; pages that took the last of an allowance.
    above: u64,
    near: u64,
    shared: u64,
    just: u64,
    /// Sequences in which some desk's calls were made alone; those desks; their calls.
    alone: [u64; 3],
    pub differences: u64,
}

/// What a caller does, so that it can be done again.
enum What {
    /// The calling desk's own words are set.
    Set(u64, u64),
    Single {
        file: Rc<[u8]>,
        settings: Settings,
        sizes: Sizes,
        limits: Limits,
        lent: [usize; 17],
    },
    /// A file is inserted at the place, or the row there removed.
    Step {
        report: usize,
        place: usize,
        file: Option<Rc<[u8]>>,
        sizes: Sizes,
        limits: Limits,
        lengths: Lengths,
    },
}

struct Event {
    desk: u32,
    what: What,
    /// Of a call.
    given: Option<Given>,
}

impl Event {
    fn touched(&self) -> Option<usize> {
        match self.what {
            What::Step { report, .. } => Some(report),
            _ => None,
        }
    }

    fn describe(&self) -> String {
        let own = match &self.what {
            What::Set(allowance, spent) => format!("allowance {allowance}, spent {spent}\n"),
            What::Single { file, settings, sizes, limits, lent } => {
                let call = Call { file, settings: *settings, sizes: *sizes, limits: *limits };
                format!("{}lent {lent:?}\n", call.describe())
            }
            What::Step { report, place, file, sizes, limits, lengths } => {
                let (sizes, limits, lengths) = (*sizes, *limits, lengths.clone());
                let act = Act { step: taking(*place, file.as_deref()), sizes, limits, lengths };
                format!("report {report}, {}", act.describe())
            }
        };
        format!("desk {}, {own}", self.desk)
    }
}

fn taking(place: usize, file: Option<&[u8]>) -> Step<'_> {
    file.map_or(Step::Remove(place), |file| Step::Insert(place, file))
}

/// The reports and the desks, by the model.
pub struct World {
    pub reports: Vec<Report>,
    pub desks: Desks,
}

pub struct Runner {
    pub tally: Tally,
    steps: Box<dyn Steps>,
    /// One for each report of a sequence, and the last for calls on single files.
    lends: Vec<Lends>,
    /// Of dirt alone.
    rng: Rng,
    /// For impostors: nothing is printed; and only what differs between a desk alone and among others counts.
    quiet: bool,
    alone_only: bool,
}

impl Runner {
    fn new(steps: Box<dyn Steps>, quiet: bool) -> Runner {
        let lends = (0..=REPORTS).map(|_| Lends::new()).collect();
        Runner { tally: Tally::default(), steps, lends, rng: Rng::new(3), quiet, alone_only: false }
    }

    pub fn differ(&mut self, what: &str, about: &str, left: &str, right: &str) {
        self.tally.differences += 1;
        if !self.quiet {
            println!("DIFFERENCE: {what}\n{about}--- left\n{left}\n--- right\n{right}\n");
        }
    }

    pub fn open(&mut self, at: usize, settings: Settings) -> Report {
        if !self.lends[at].open(&mut *self.steps, &mut self.rng, &settings) {
            self.differ("open", &format!("{settings:?}\n"), "", "");
        }
        Report::open(settings)
    }

    /// Memory of a report that no step has written: so many rows without bytes, each of a file of no bytes.
    pub fn empty_rows(&mut self, at: usize, settings: Settings, rows: u32) -> Report {
        self.lends[at].empty_rows(&mut self.rng, settings, rows)
    }

    /// The call of a desk beside the model's; None where the event is none. The report is then the model's after it, the desks are as they were
    /// left.
    fn take(&mut self, world: &mut World, desk: u32, what: &What) -> Option<Taken> {
        let (steps, rng) = (&mut *self.steps, &mut self.rng);
        let taken = match what {
            What::Set(allowance, spent) => {
                let own = desk as usize;
                (world.desks.allowance[own], world.desks.spent[own]) = (*allowance, *spent);
                return None;
            }
            What::Single { file, settings, sizes, limits, lent } => {
                let call = Call { file, settings: *settings, sizes: *sizes, limits: *limits };
                self.lends[REPORTS].called(steps, rng, (desk, &world.desks), &call, lent)
            }
            What::Step { report, place, file, sizes, limits, lengths } => {
                let (sizes, limits, lengths) = (*sizes, *limits, lengths.clone());
                let act = Act { step: taking(*place, file.as_deref()), sizes, limits, lengths };
                let (lends, held) = (&mut self.lends[*report], &mut world.reports[*report]);
                lends.lend_report(rng, held, &act.lengths);
                let taken = lends.taken(steps, rng, (desk, &world.desks), held, &act);
                if let Some(after) = &taken.after {
                    *held = after.clone();
                }
                taken
            }
        };
        world.desks = Desks::of(taken.given.desks.clone().try_into().expect("sixteen words"));
        Some(taken)
    }

    /// A call of the sequence: counted, and told where it differs.
    fn event(&mut self, world: &mut World, events: &mut Vec<Event>, desk: u32, what: What) -> Option<Answer> {
        let before = world.desks;
        let taken = self.take(world, desk, &what);
        let mut event = Event { desk, what, given: None };
        let answer = taken.map(|taken| {
            if let Some([what, left, right]) = taken.unlike.as_ref().filter(|_| !self.alone_only) {
                let about = format!("desks {:?}\n{}", before.words(), event.describe());
                self.differ(what, &about, left, right);
            }
            self.count(&before, events, &event, &taken.answer);
            event.given = Some(taken.given);
            taken.answer
        });
        events.push(event);
        answer
    }

    fn count(&mut self, desks: &Desks, events: &[Event], event: &Event, answer: &Answer) {
        let (kind, limit) = match &event.what {
            What::Set(..) => return,
            What::Single { limits, .. } => (0, limits.work),
            What::Step { file, limits, .. } => (if file.is_some() { 1 } else { 2 }, limits.work),
        };
        let tally = &mut self.tally;
        tally.calls[kind] += 1;
        tally.answers[number(answer) as usize] += 1;
        let report = event.touched();
        tally.shared += u64::from(
            report.is_some() && events.iter().any(|other| other.desk != event.desk && other.touched() == report),
        );
        if event.desk > 7 {
            return;
        }
        let desk = event.desk as usize;
        let left = desks.left(desk);
        if number(answer) == 12 {
            tally.work[if left < limit { 0 } else { 1 + usize::from(left == limit) }] += 1;
        }
        let spent = desks.spent[desk];
        let after = spent + counts(answer).work;
        tally.above += u64::from(spent > desks.allowance[desk]);
        tally.near += u64::from(after > u64::MAX - 1_000);
        tally.just += u64::from(answer.is_ok() && after > spent && after == desks.allowance[desk]);
    }

    /// A call on one file, with memory that just suffices but for one item of a kind, for a case with a known answer.
    pub fn single(&mut self, world: &mut World, desk: u32, call: &Call, short: Option<usize>) -> Answer {
        let Call { settings, sizes, limits, .. } = *call;
        let mut lent = lengths(&sizes);
        if let Some(kind) = short {
            lent[kind] -= 1;
        }
        let what = What::Single { file: call.file.into(), settings, sizes, limits, lent };
        self.event(world, &mut Vec::new(), desk, what).expect("a call")
    }

    /// Likewise a step on report 0.
    pub fn step(&mut self, world: &mut World, desk: u32, act: &Act) -> Answer {
        let Act { step, sizes, limits, ref lengths } = *act;
        let (place, file) = match step {
            Step::Insert(place, file) => (place, Some(file.into())),
            Step::Remove(place) => (place, None),
        };
        let what = What::Step { report: 0, place, file, sizes, limits, lengths: lengths.clone() };
        self.event(world, &mut Vec::new(), desk, what).expect("a call")
    }

    /// What each desk got that shares no report with another: the same when its calls are made alone, on reports opened anew and whatever the
    /// other desks' words are.
    fn isolation(&mut self, rng: &mut Rng, begun: &Desks, settings: &[Settings], events: &[Event]) {
        let mut sequence = 0;
        for desk in 0..8 {
            let own = |event: &&Event| event.desk == desk;
            let touched: Vec<usize> = events.iter().filter(own).filter_map(Event::touched).collect();
            let apart = |other: &Event| other.touched().is_none_or(|report| !touched.contains(&report));
            let (calls, others): (Vec<&Event>, Vec<&Event>) =
                events.iter().filter(|event| event.given.is_some()).partition(own);
            if calls.is_empty() || others.is_empty() || !others.iter().all(|other| apart(other)) {
                continue;
            }
            sequence = 1;
            self.tally.alone[1] += 1;
            self.tally.alone[2] += calls.len() as u64;
            let at = desk as usize;
            let mut desks = Desks::of([0; 16].map(|_: u64| rng.word()));
            (desks.allowance[at], desks.spent[at]) = (begun.allowance[at], begun.spent[at]);
            let reports = settings.iter().enumerate().map(|(at, settings)| self.open(at, *settings)).collect();
            let mut world = World { reports, desks };
            for event in events.iter().filter(own) {
                let Some(taken) = self.take(&mut world, desk, &event.what) else { continue };
                let (alone, among) = (mine(&taken.given, at), event.given.as_ref().map(|given| mine(given, at)));
                let same = Some(alone) == among;
                if let Some([what, left, right]) = taken.unlike.filter(|_| !self.alone_only) {
                    self.differ(&format!("{what}, of a desk alone"), &event.describe(), &left, &right);
                }
                if !same {
                    let both = [Some(&taken.given), event.given.as_ref()].map(|given| format!("{given:?}"));
                    self.differ("a desk alone, and among others", &event.describe(), &both[0], &both[1]);
                }
                if self.tally.differences >= 20 {
                    return;
                }
            }
        }
        self.tally.alone[0] += sequence;
    }
}

/// What is the desk's own of what a call gave.
fn mine(given: &Given, desk: usize) -> (&[u64], &[u8], &[[u64; 4]], u64, u64) {
    (&given.words, &given.bytes, &given.spans, given.desks[desk], given.desks[8 + desk])
}

/// An allowance and a spent count.
pub fn account(rng: &mut Rng) -> (u64, u64) {
    let few = rng.below(300);
    match rng.below(16) {
        0 => (0, 0),
        1 => (few, few + 1 + rng.below(300)),
        2 => (few, 0),
        3 => (u64::MAX, u64::MAX - few),
        4 => (few + 100, 100),
        5 => (rng.word() >> 1, u64::MAX - few),
        6..=9 => (u64::MAX, rng.word() >> 1),
        _ => (rng.below(100_000), 0),
    }
}

/// The account of a desk that is to do about so much work.
pub fn about(rng: &mut Rng, work: u64, spent: u64) -> (u64, u64) {
    let left = match rng.below(12) {
        0 | 1 => work,
        2 | 3 => work.saturating_sub(1),
        4 => work + 1,
        5 => work * 2,
        6 => rng.below(work + 1),
        7 => 0,
        _ => work * 20 + 100,
    };
    match (spent.checked_add(left), rng.below(4)) {
        (_, 0) => (u64::MAX, u64::MAX - left),
        (Some(allowance), _) => (allowance, spent),
        (None, _) => (left, 0),
    }
}

/// The work limit of a call that takes so much, if it gets a page, with enough of all.
pub fn work_limit(rng: &mut Rng, row: Option<&Answer>, drawn: u64) -> u64 {
    let work = row.map_or(0, |answer| counts(answer).work);
    match rng.below(12) {
        0 => rng.below(4),
        1 => work,
        2 => work.saturating_sub(1),
        3..=5 if row.is_none_or(Result::is_ok) => u64::MAX,
        _ => drawn,
    }
}

/// Who calls: one in twelve is no desk.
fn caller(rng: &mut Rng, desks: &[u32]) -> u32 {
    if rng.chance(12) {
        rng.pick(&[8, 8, 9, 15, 255, 256, 263, 1 << 31, u32::MAX])
    } else {
        rng.pick(desks)
    }
}

/// A report of a sequence: its setting, and whose it is.
struct Place {
    settings: Settings,
    owner: Option<u32>,
}

pub fn setting(rng: &mut Rng, style: Style) -> Settings {
    if style == Style::Narrow {
        return Settings { rule: rng.pick(&[1, 2]), ..generate::narrow(rng) };
    }
    Settings { rule: 1 + u32::from(rng.chance(3)), ..generate::settings(rng, style == Style::Extreme) }
}

impl Runner {
    fn sequence(&mut self, seed: u64, index: u64) {
        let mut own = Rng::of_case(seed ^ 1 << 58, index);
        let rng = &mut own;
        self.tally.sequences += 1;
        let style = rng.pick(&[
            Style::Small,
            Style::Small,
            Style::Small,
            Style::Small,
            Style::Usual,
            Style::Usual,
            Style::Narrow,
            Style::Extreme,
        ]);
        let mut desks: Vec<u32> = (0..8).collect();
        while desks.len() > rng.within(2, 8) as usize {
            desks.swap_remove(rng.index(desks.len()));
        }
        // In half of them each report has one owner.
        let apart = rng.chance(2);
        let places: Vec<Place> = (0..rng.within(0, REPORTS as u32))
            .map(|_| {
                let owner = (apart || rng.chance(2)).then(|| rng.pick(&desks));
                Place { settings: setting(rng, style), owner }
            })
            .collect();
        let settings: Vec<Settings> = places.iter().map(|place| place.settings).collect();
        let reports = settings.iter().enumerate().map(|(at, settings)| self.open(at, *settings)).collect();
        let mut begun = Desks::all(0);
        for desk in 0..8 {
            (begun.allowance[desk], begun.spent[desk]) = account(rng);
        }
        let (mut world, mut events) = (World { reports, desks: begun }, Vec::new());
        let usual = setting(rng, style);
        let mut pool: Vec<Rc<[u8]>> = (0..rng.within(1, 4)).map(|_| file(rng, style, &usual).into()).collect();
        for _ in 0..rng.within(1, 60) {
            let desk = caller(rng, &desks);
            if rng.chance(4) {
                let at = rng.index(pool.len());
                pool[at] = file(rng, style, &usual).into();
            }
            // Its own reports and those that all touch; who is no desk touches any, unless each has an owner.
            let mine = |place: &Place| match place.owner {
                Some(owner) => owner == desk || desk > 7 && !apart,
                None => true,
            };
            let mut there: Vec<usize> = (0..places.len()).filter(|at| mine(&places[*at])).collect();
            there.truncate(rng.index(REPORTS + 1));
            let file = pool[rng.index(pool.len())].clone();
            let (what, work) = match there.is_empty() {
                true => drawn_call(rng, desk, &file, usual),
                false => {
                    let report = rng.pick(&there);
                    drawn_step(rng, desk, &world.reports[report], report, &file)
                }
            };
            let poor = desk < 8 && world.desks.left(desk as usize) < work;
            if desk < 8 && rng.chance(if poor { 2 } else { 6 }) {
                let spent = world.desks.spent[desk as usize];
                let (allowance, spent) = if rng.chance(4) { account(rng) } else { about(rng, work, spent) };
                self.event(&mut world, &mut events, desk, What::Set(allowance, spent));
            }
            self.event(&mut world, &mut events, desk, what);
            if self.tally.differences >= 20 {
                return;
            }
        }
        self.isolation(rng, &begun, &settings, &events);
    }

    fn calls(&self) -> u64 {
        self.tally.calls.iter().sum()
    }
}

/// A call on one file with all that is drawn for it, and about the work that it takes.
fn drawn_call(rng: &mut Rng, desk: u32, file: &Rc<[u8]>, usual: Settings) -> (What, u64) {
    let often = if desk > 7 { 4 } else { 25 };
    let mut settings = usual;
    let probe = model::file::read(file).ok().map(|tables| model::render(&tables, &settings, &PROBE, &LIMITS));
    let needs = match &probe {
        Some((_, trace)) => Sizes::of(trace.needs.map(|need| need as u32)),
        None => Sizes { output: 64, spans: 8, ..Sizes::PAGE },
    };
    let row = probe.map(|(answer, _)| answer);
    let sizes = sizes(rng, needs, (needs.output, needs.spans));
    let limits = Limits { work: work_limit(rng, row.as_ref(), LIMITS.work), ..LIMITS };
    if rng.chance(often) {
        let [width, policy, rule] = rng.pick(&[[0, 0, 1], [1, 2, 1], [1, 0, 0], [1, 1, 3]]);
        settings = Settings { width, policy, rule, ..settings };
    }
    let mut lent = lengths(&sizes);
    if rng.chance(2) {
        lent = lent.map(|length| length + rng.index(3));
    } else if rng.chance(often) {
        let kind = rng.index(17);
        lent[kind] = lent[kind].saturating_sub(1);
    }
    let work = row.as_ref().map_or(0, |answer| counts(answer).work);
    (What::Single { file: file.clone(), settings, sizes, limits, lent }, work)
}

/// Likewise a step.
fn drawn_step(rng: &mut Rng, desk: u32, report: &Report, number: usize, file: &Rc<[u8]>) -> (What, u64) {
    let count = report.rows.len();
    let inserted = (rng.below(5) < if count < 3 { 4 } else { 2 }).then(|| file.clone());
    let place = place(rng, count + usize::from(inserted.is_some()));
    let step = taking(place, inserted.as_deref());
    let Drawn { act, row, .. } = Drawn::new(rng, report, step, if desk > 7 { 4 } else { 25 });
    let Act { sizes, limits, lengths, .. } = act;
    let limits = Limits { work: work_limit(rng, row.as_ref(), limits.work), ..limits };
    let work = row.as_ref().map_or(0, |answer| counts(answer).work);
    (What::Step { report: number, place, file: inserted, sizes, limits, lengths }, work)
}

impl Sequences for Runner {
    fn sequence(&mut self, seed: u64, index: u64) {
        Runner::sequence(self, seed, index);
    }

    fn taken(&self) -> u64 {
        self.calls()
    }

    fn differences(&self) -> u64 {
        self.tally.differences
    }
}

/// Calls on the library, or on the stand-in where that is asked for or no library is linked.
pub fn run(seed: u64, calls: u64, only: Option<u64>, stand_in: bool) -> i32 {
    let linked = ours::steps().filter(|_| !stand_in);
    let by = if linked.is_some() { "our library" } else { "the stand-in" };
    let mut runner = Runner::new(linked.unwrap_or(Box::new(Standin::new(None))), false);
    crate::desks_fixed::run(&mut runner);
    sequences(&mut runner, "calls", by, seed, calls, only);
    runner.report();
    i32::from(runner.tally.differences > 0)
}

/// Each impostor must differ within so many random calls, and the stand-in without a slip must not. A run that stops, because a guard is gone or
/// the impostor cannot go on, differs too.
pub fn impostors(seed: u64, calls: u64) -> i32 {
    let mut missed = 0;
    std::panic::set_hook(Box::new(|_| {}));
    for slip in std::iter::once(None).chain(Slip::OF_DESKS.map(Some)) {
        let differs = |alone_only: bool, run: &mut dyn FnMut(&mut Runner)| {
            let mut runner = Runner { alone_only, ..Runner::new(Box::new(Standin::new(slip)), true) };
            let stopped = catch_unwind(AssertUnwindSafe(|| run(&mut runner))).is_err();
            (stopped || runner.tally.differences > 0, runner.calls())
        };
        let mut sequences = |runner: &mut Runner| {
            let mut index = 0;
            while runner.calls() < calls && runner.tally.differences == 0 {
                runner.sequence(seed, index);
                index += 1;
            }
        };
        let (fixed, _) = differs(false, &mut crate::desks_fixed::run);
        let (random, after) = differs(false, &mut sequences);
        let (alone, _) = differs(true, &mut sequences);
        let wrong = slip.is_some();
        let not_apart = slip.is_some_and(|slip| Slip::OF_OTHERS.contains(&slip));
        missed += i32::from([random, fixed, alone] != [wrong, wrong, not_apart]);
        let name = slip.map_or("no slip".to_string(), |slip| format!("{slip:?}"));
        let [fixed, random, alone] = [fixed, random, alone].map(|found| if found { "found" } else { "not found" });
        println!("{name}: by the fixed cases {fixed}, by random calls {random}, {after} calls; by desks alone {alone}");
    }
    println!("impostors {}, not as it must be {missed}", Slip::OF_DESKS.len());
    i32::from(missed > 0)
}

impl Runner {
    fn report(&self) {
        let tally = &self.tally;
        let named = |number: &usize| {
            let name = if *number == 0 { "page".to_string() } else { number.to_string() };
            format!("{name}: {}", tally.answers[*number])
        };
        let answers: Vec<String> =
            (0..29).filter(|number| tally.answers[*number] > 0).map(|number| named(&number)).collect();
        println!(
            "sequences {}, calls on one file {}, insertions {}, removals {}; steps on reports that another desk has touched {}",
            tally.sequences, tally.calls[0], tally.calls[1], tally.calls[2], tally.shared
        );
        println!("answers {}", answers.join(", "));
        println!(
            "12 by the allowance {}, by the call's own limit {}, by both {}; pages that took the last of an allowance {}; calls of a desk above its allowance {}, near 2^64 {}",
            tally.work[0], tally.work[1], tally.work[2], tally.just, tally.above, tally.near
        );
        let [sequences, desks, calls] = tally.alone;
        println!("isolation: sequences {sequences}, desks alone {desks}, calls made again {calls}");
        println!("differences {}", tally.differences);
    }
}
