//! Work counted by desk: a call's work is held to what its desk may still do and is charged to it, and to no other.

use gannozhi::*;

const SETTINGS: Settings = Settings { width: 80, newline_cost: 1, policy: 0, rule: 1 };
const LIMITS: Limits = Limits { work: 10, visits: 10 };

/// One Text `a`: work 2.
const A: &[u8] = b"\x05\x01\0\0\0\x02\0\0\0\x01\x01\x01\0\0\0\x03\x01\0\0\0\x01\0\0\0\x20\x03\x01\0\0\0\x01\0\0\0a";

/// The page or the refusal's line, and the work.
fn said(answer: Result<Page, Refusal>) -> (String, u64) {
    match answer {
        Ok(page) => (String::from_utf8_lossy(page.bytes).into_owned(), page.counts.work),
        Err(refusal) => (refusal.to_string(), refusal.counts.work),
    }
}

fn render(desk: u32, desks: &mut Desks, file: &[u8], settings: Settings) -> (String, u64) {
    said(Printer::new(Sizes::PAGE).render(desk, desks, file, &settings, &LIMITS))
}

/// The desks with this allowance and spent count of one of them.
fn with(desks: Desks, desk: usize, allowance: u64, spent: u64) -> Desks {
    let mut desks = desks;
    desks.allowance[desk] = allowance;
    desks.spent[desk] = spent;
    desks
}

/// Words that no call for another desk may read or alter.
const OTHERS: Desks =
    Desks { allowance: [1, 0, 7, 6, 5, 4, 3, 2], spent: [u64::MAX, 20, 30, 40, 50, 60, 70, u64::MAX - 1] };

#[test]
fn as_sixteen_words() {
    assert_eq!((size_of::<Desks>(), align_of::<Desks>()), (size_of::<[u64; 16]>(), align_of::<[u64; 16]>()));
    assert_eq!(Desks::all(5), Desks { allowance: [5; 8], spent: [0; 8] });
}

/// Refused calls are charged, so a desk comes to its allowance.
#[test]
fn spent_up_to_the_allowance() {
    for desk in 0..8 {
        let mut desks = with(OTHERS, desk, 3, 0);
        for (answer, spent) in [(("a", 2), 2), (("refused 12 work", 1), 3), (("refused 12 work", 0), 3)] {
            let (text, work) = render(desk as u32, &mut desks, A, SETTINGS);
            assert_eq!((text.as_str(), work), answer);
            assert_eq!(desks, with(OTHERS, desk, 3, spent));
        }
    }
}

/// The spent count is not lowered, and no count wraps.
#[test]
fn above_the_allowance() {
    for (allowance, before, answer, after) in [
        (3, 5, ("refused 12 work", 0), 5),
        (0, u64::MAX, ("refused 12 work", 0), u64::MAX),
        (u64::MAX, u64::MAX - 1, ("refused 12 work", 1), u64::MAX),
        (u64::MAX, u64::MAX - 2, ("a", 2), u64::MAX),
    ] {
        let mut desks = with(OTHERS, 6, allowance, before);
        let (text, work) = render(6, &mut desks, A, SETTINGS);
        assert_eq!((text.as_str(), work), answer);
        assert_eq!(desks, with(OTHERS, 6, allowance, after));
    }
}

/// The call's own limit is tested too.
#[test]
fn lesser_of_two_limits() {
    for (allowance, limit, answer) in [
        (2, 2, ("a", 2)),
        (10, 1, ("refused 12 work", 1)),
        (1, 10, ("refused 12 work", 1)),
        (1, 1, ("refused 12 work", 1)),
    ] {
        let mut desks = Desks::all(allowance);
        let limits = Limits { work: limit, ..LIMITS };
        let (text, work) = said(Printer::new(Sizes::PAGE).render(3, &mut desks, A, &SETTINGS, &limits));
        assert_eq!((text.as_str(), work), answer);
        assert_eq!(desks, with(Desks::all(allowance), 3, allowance, work));
    }
}

/// Right after order, and before all else.
#[test]
fn no_such_desk() {
    let wrong = Settings { width: 0, ..SETTINGS };
    for desk in [8, 9, u32::MAX] {
        for (file, settings, text) in
            [(A, wrong, "refused 1 order"), (A, SETTINGS, "refused 28 desk"), (&[], SETTINGS, "refused 28 desk")]
        {
            let mut desks = OTHERS;
            assert_eq!(render(desk, &mut desks, file, settings), (text.to_string(), 0));
            assert_eq!(desks, OTHERS);
        }
        let mut report = Report::open(&SETTINGS, Sizes::PAGE).unwrap();
        let mut desks = OTHERS;
        for place in [0, 9] {
            assert_eq!(said(report.insert(desk, &mut desks, place, A, &LIMITS)), ("refused 28 desk".into(), 0));
            assert_eq!(said(report.remove(desk, &mut desks, place)), ("refused 28 desk".into(), 0));
        }
        assert_eq!((desks, report.rows()), (OTHERS, 0));
    }
}

/// A removal needs no work.
#[test]
fn removal_without_allowance() {
    let mut report = Report::open(&SETTINGS, Sizes::PAGE).unwrap();
    let mut desks = with(OTHERS, 1, 4, 0);
    assert_eq!(said(report.insert(1, &mut desks, 0, A, &LIMITS)), ("a".into(), 2));
    assert_eq!(said(report.insert(1, &mut desks, 1, A, &LIMITS)), ("a\na".into(), 2));
    assert_eq!(said(report.insert(1, &mut desks, 1, A, &LIMITS)), ("refused 12 work".into(), 0));
    assert_eq!(said(report.remove(1, &mut desks, 0)), ("a".into(), 0));
    assert_eq!(desks, with(OTHERS, 1, 4, 4));
}

/// A report that lends more and takes the step again charges it once.
#[test]
fn grown_and_charged_once() {
    let mut report = Report::open(&SETTINGS, Sizes { output: 1 << 20, ..Sizes::PAGE }).unwrap();
    let mut long = A[..A.len() - 9].to_vec();
    long.extend([1, 0, 0, 0]);
    long.extend(u32::to_le_bytes(40_000));
    long.extend([b'x'; 40_000]);
    let mut desks = Desks::all(2);
    assert_eq!(report.insert(0, &mut desks, 0, &long, &LIMITS).unwrap().needs.output, 40_000);
    assert_eq!(desks, with(Desks::all(2), 0, 2, 2));
}
