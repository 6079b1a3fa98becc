//! A page's needs just suffice: lent exactly these sizes, or larger ones, a call has the same answer, needs included; with one of them smaller,
//! and the others as reported, it is refused by that kind's own number.

use common::{describe, Answer, Limits, Page, Sizes, Tables};
use generate::Rng;
use reference::access::Document;

use crate::compare::{Call, Comparer};

/// The work of a page above which nothing is tried here: most of the calls below do as much.
const WORK: u64 = 4_000;

/// The call gave this answer, at its own sizes or at larger ones; nothing is tried unless it is a page. Reference and library are held to the
/// model at each call below, so what is asked of the model's answer is asked of theirs. None of these calls is among the cases, so a run has
/// the documents that it had without them.
pub fn run(comparer: &mut Comparer, rng: &mut Rng, call: &Call, both: (&Tables, &Document), answer: &Answer) {
    let Some(page) = answer.as_ref().ok().filter(|page| page.counts.work <= WORK) else { return };
    let by_reference = u64::from(call.settings.rule == 1);
    comparer.tally.needs[0] += 1;
    comparer.tally.needs[1] += by_reference;
    let Page { needs, counts, .. } = *page;
    // Those of the call, or so low that the page just comes.
    let met = Limits { work: counts.work, visits: counts.visits };
    let limits = rng.pick(&[call.limits, met]);
    let more = Limits { work: met.work + rng.below(100), visits: met.visits + rng.below(100) };
    let larger = Sizes::of(needs.list().map(|need| need + rng.within(0, 30)));
    for (what, sizes, limits) in [
        ("the same at the needs", needs, limits),
        ("the same in a larger call", larger, rng.pick(&[more, Limits::NONE])),
    ] {
        let call = Call { sizes, limits, ..*call };
        let other = held(comparer, &call, both);
        if other != *answer {
            comparer.difference(what, &call, &describe(&other), &describe(answer));
        }
    }
    for (kind, size) in smaller(&needs) {
        comparer.tally.smaller[0] += 1;
        comparer.tally.smaller[1] += by_reference;
        let need = needs.list()[kind];
        let call = Call { sizes: with(&needs, kind, size), limits, ..*call };
        let other = held(comparer, &call, both);
        let own = other.as_ref().is_err_and(|refusal| {
            refusal.number == 13 + kind as u32 && refusal.needed > size.into() && refusal.needed <= need.into()
        });
        if !own {
            let what = format!("refused by its own number, {} {size} for {need}", Sizes::NAMES[kind]);
            comparer.difference(&what, &call, &describe(&other), &describe(answer));
        }
    }
}

/// For each kind of which something is needed: one less, and none.
pub fn smaller(needs: &Sizes) -> Vec<(usize, u32)> {
    let both = |need: u32| if need > 1 { vec![need - 1, 0] } else { vec![0; need as usize] };
    needs
        .list()
        .into_iter()
        .enumerate()
        .flat_map(|(kind, need)| both(need).into_iter().map(move |size| (kind, size)))
        .collect()
}

/// The sizes with another one of this kind.
pub fn with(sizes: &Sizes, kind: usize, size: u32) -> Sizes {
    let mut list = sizes.list();
    list[kind] = size;
    Sizes::of(list)
}

fn held(comparer: &mut Comparer, call: &Call, both: (&Tables, &Document)) -> Answer {
    let (modelled, _) = model::render(both.0, &call.settings, &call.sizes, &call.limits);
    comparer.hold(call, Some(both), &modelled);
    modelled
}
