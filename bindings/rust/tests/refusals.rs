//! Every refusal: its word, here and in the C header, and a call that is refused by it.

use gannozhi::*;

/// Those of 1 to 22, as in document 01, of 23 and 24, a report's steps, of 25 and of 26; 27 has none; those of 28 and 29.
const WORDS: &str = "order short form limit surplus reference text space circle list domain work \
    stack memo kept frontier plans visit depth output spans visits place rows indent cost  desk documents";

const FILE: &[u8] = include_bytes!("../../../samples/annotated.prepared");
const SETTINGS: Settings = Settings { width: 24, newline_cost: 1, policy: 0, rule: 1 };
const LIMITS: Limits = Limits { work: 1_000_000, visits: 1_000_000 };

/// Every desk may do anything.
fn all() -> Desks {
    Desks::all(u64::MAX)
}

/// The bytes of the page, or the refusal.
fn page(file: &[u8], settings: Settings, sizes: Sizes, limits: Limits) -> Result<Vec<u8>, Refusal> {
    Printer::new(sizes).render(0, &mut all(), file, &settings, &limits).map(|page| page.bytes.to_vec())
}

#[test]
fn words() {
    assert_eq!((1..=29).map(refusal).collect::<Vec<_>>().join(" "), WORDS);
    for none in [0, 27, 30, u32::MAX] {
        assert_eq!(refusal(none), "");
    }
}

/// Its table begins with the empty word of 0.
#[test]
fn words_of_the_c_header() {
    let header = include_str!("../../c/gannozhi.h");
    let (_, behind) = header.split_once("words[] = {").expect("the table");
    let (table, _) = behind.split_once("};").expect("its end");
    let words: Vec<_> = table.split('"').skip(1).step_by(2).collect();
    assert_eq!(words.join(" "), format!(" {WORDS}"));
}

#[test]
fn order() {
    for settings in [
        Settings { width: 0, ..SETTINGS },
        Settings { policy: 2, ..SETTINGS },
        Settings { rule: 0, ..SETTINGS },
        Settings { rule: 3, ..SETTINGS },
    ] {
        let refused = page(FILE, settings, Sizes::PAGE, LIMITS).unwrap_err();
        assert_eq!((refused.to_string().as_str(), refused.counts), ("refused 1 order", Counts::default()));
    }
}

fn bytes(hex: &str) -> Vec<u8> {
    let digits: Vec<u8> = hex.chars().filter_map(|c| c.to_digit(16)).map(|digit| digit as u8).collect();
    digits.chunks(2).map(|pair| pair[0] << 4 | pair[1]).collect()
}

#[test]
fn of_the_file() {
    // One node and one text; the space.
    const H: &str = "05 01000000 01000000";
    const SP: &str = "03 01000000 01000000 20";
    for (number, file) in [
        // ends in a field
        (2, String::new()),
        // bit 6 in a node
        (3, format!("{H} 40")),
        // no nodes
        (4, "04".into()),
        // a byte after the last text
        (5, format!("{H} 0000 {SP} 0a")),
        // a Text that names no text
        (6, format!("{H} 0101 01000000 {SP}")),
        // a text with byte 10
        (7, format!("{H} 0000 03 01000000 01000000 0a")),
        // a text that is not UTF-8
        (7, format!("{H} 0000 03 01000000 01000000 80")),
        // the space text has width 2
        (8, format!("{H} 0000 03 02000000 01000000 20")),
        // an Align of itself
        (9, format!("{H} 0008 {SP}")),
        // a choice list of one
        (10, format!("15 02000000 01000000 01000000 1309 01000000 01000000 01000000 0000 01000000 {SP}")),
        // a Seq of texts of widths 2^32 - 1 and 1
        (
            11,
            format!(
                "07 03000000 02000000 02000000 0204 02000000 0101 01000000 0001 01000000 02000000 {SP} 01 ffffffff"
            ),
        ),
        // Nest 1 over Nest 2^32 - 1
        (25, format!("05 03000000 01000000 0307 01000000 01000000 0307 ffffffff 02000000 0000 {SP}")),
    ] {
        let file = bytes(&file);
        let refused = page(&file, SETTINGS, Sizes::PAGE, LIMITS).unwrap_err();
        assert_eq!(refused.to_string(), format!("refused {number} {}", refusal(number)));
        // 11 and 25 are found by the solver: the file is right.
        let read = Printer::new(Sizes::PAGE).read(&file).map(|counts| counts.nodes);
        assert_eq!(read, if number < 11 { Err(number) } else { Ok(3) });
    }
}

/// A Penalty of 2^32 - 1 over an Empty, and Seqs of the node before twice, 33 of them: a burden of 2^65 - 2^33. At 32 of them it has
/// its place, and the page has too many parts to be walked.
#[test]
fn cost() {
    for (doublings, said) in [(33, "refused 26 cost"), (32, "refused 22 visits")] {
        let mut file = vec![0x27];
        for word in [doublings + 2, 2 * doublings, 1, doublings + 1] {
            file.extend(u32::to_le_bytes(word));
        }
        file.extend([0, 0, 1, 11, 255, 255, 255, 255]);
        file.extend([2, 4, 2, 0, 0, 0]);
        for k in 1..doublings {
            file.extend([3, 4]);
            file.extend(u32::to_le_bytes(2 * k));
            file.extend(u32::to_le_bytes(2));
        }
        for k in 0..doublings {
            file.extend([u32::to_le_bytes(k + 1); 2].concat());
        }
        file.extend([3, 1, 0, 0, 0, 1, 0, 0, 0, 32]);
        assert_eq!(page(&file, SETTINGS, Sizes::PAGE, LIMITS).unwrap_err().to_string(), said);
    }
}

/// The page tells the least sizes, whatever is lent; with one less of any it is refused, and the refusal says what is needed.
#[test]
fn too_little_of_each_size() {
    const LEAST: [u32; 9] = [6, 22, 70, 4, 70, 11, 2, 36, 3];
    let right = page(FILE, SETTINGS, Sizes::PAGE, LIMITS).unwrap();
    for sizes in [Sizes::PAGE, Sizes::of(LEAST)] {
        let mut printer = Printer::new(sizes);
        let page = printer.render(0, &mut all(), FILE, &SETTINGS, &LIMITS).unwrap();
        assert_eq!((page.bytes, page.needs), (&right[..], Sizes::of(LEAST)));
    }
    for (kind, needed) in LEAST.into_iter().enumerate() {
        let mut less = LEAST;
        less[kind] -= 1;
        let number = 13 + kind as u32;
        let refused = page(FILE, SETTINGS, Sizes::of(less), LIMITS).unwrap_err();
        assert_eq!(refused.to_string(), format!("refused {number} {}, needed {needed}", refusal(number)));
    }
}

/// A Choice with the list Penalty 1 `a`, Penalty 1 `bb`, Empty: the frontier holds 1, 2, then 1 candidate. Its need is not the peak frontier,
/// which is that of finished ones.
#[test]
fn frontier_at_work() {
    let file = bytes(
        "35 07000000 03000000 03000000 06000000 0101 01000000 0101 02000000 010b 01000000 030b 01000000 01000000 0000 \
        0309 03000000 04000000 3309 02000000 05000000 03000000 01000000 02000000 03000000 04000000 \
        03 01000000 01000000 20 03 01000000 01000000 61 03 02000000 02000000 6262",
    );
    let mut printer = Printer::new(Sizes::PAGE);
    let page = printer.render(0, &mut all(), &file, &SETTINGS, &LIMITS).unwrap();
    assert_eq!((page.counts.peak_frontier, page.needs.list()), (1, [5, 6, 6, 2, 5, 1, 0, 0, 0]));
    let less = Sizes { frontier: 1, ..page.needs };
    let refused = Printer::new(less).render(0, &mut all(), &file, &SETTINGS, &LIMITS).unwrap_err();
    assert_eq!(refused.to_string(), "refused 16 frontier, needed 2");
}

#[test]
fn limits() {
    let mut printer = Printer::new(Sizes::PAGE);
    let Counts { work, visits, .. } = printer.render(0, &mut all(), FILE, &SETTINGS, &LIMITS).unwrap().counts;
    assert!(page(FILE, SETTINGS, Sizes::PAGE, Limits { work, visits }).is_ok());
    for less in [1, work] {
        let refused = page(FILE, SETTINGS, Sizes::PAGE, Limits { work: work - less, visits }).unwrap_err();
        assert_eq!((refused.to_string().as_str(), refused.counts.work), ("refused 12 work", work - less));
    }
    for less in [1, visits] {
        let refused = page(FILE, SETTINGS, Sizes::PAGE, Limits { work, visits: visits - less }).unwrap_err();
        assert_eq!((refused.to_string().as_str(), refused.counts.visits), ("refused 22 visits", visits - less));
    }
}

/// The words of a call on slices for the sizes of `page`, with the caller's own output and spans.
fn lent(
    file: &[u8],
    settings: &Settings,
    sizes: &Sizes,
    limits: &Limits,
    output: &mut [u8],
    spans: &mut [[u64; 4]],
) -> [u64; 26] {
    let tables = TableMemory {
        nodes: &mut vec![[0; 8]; 4_096],
        edges: &mut vec![0; 16_384],
        choices: &mut vec![0; 16_384],
        texts: &mut vec![[0; 3]; 4_096],
        bytes: &mut vec![0; 65_536],
    };
    let solver = SolverMemory {
        tasks: &mut [[0; 9]; 512],
        results: &mut [[0; 2]; 512],
        pending: &mut [[0; 7]; 512],
        index: &mut vec![0; memo_slots_for(1_024)],
        entries: &mut [[0; 6]; 1_024],
        kept: &mut [[0; 6]; 1_024],
        frontier: &mut [0; 14 * 256],
        plans: &mut [[0; 3]; 2_048],
        visit: &mut [0; 512],
        depth: &mut [0; 64],
    };
    // Dirty, so that a word that is not written shows.
    let mut answer = [u64::MAX; 26];
    let mut desks = all();
    let number = render_words(0, &mut desks, file, settings, sizes, limits, tables, solver, output, spans, &mut answer);
    assert_eq!(u64::from(number), answer[0]);
    let mut charged = all();
    charged.spent[0] = answer[7];
    assert_eq!(desks, charged);
    answer
}

/// A refusal's words for page, cost and needs are 0; a page's last nine are its needs.
#[test]
fn no_needs_of_a_refusal() {
    let room = Sizes { output: 40, spans: 4, ..Sizes::PAGE };
    let words =
        |file: &[u8], settings, sizes, limits| lent(file, &settings, &sizes, &limits, &mut [0; 40], &mut [[0; 4]; 4]);
    let answer = words(FILE, SETTINGS, room, LIMITS);
    assert_eq!(answer[17..], [6, 22, 70, 4, 70, 11, 2, 36, 3]);
    let mut refused = vec![
        (1, words(FILE, Settings { rule: 0, ..SETTINGS }, room, LIMITS)),
        (2, words(&FILE[..9], SETTINGS, room, LIMITS)),
        (12, words(FILE, SETTINGS, room, Limits { work: answer[7] - 1, ..LIMITS })),
        (22, words(FILE, SETTINGS, room, Limits { visits: answer[16] - 1, ..LIMITS })),
    ];
    for kind in 0..9 {
        let mut less = room.list();
        less[kind] = answer[17 + kind] as u32 - 1;
        refused.push((13 + kind as u64, words(FILE, SETTINGS, Sizes::of(less), LIMITS)));
    }
    for (number, answer) in refused {
        assert_eq!(answer[0], number);
        assert_eq!((&answer[2..7], &answer[17..]), (&[0; 5][..], &[0; 9][..]), "refused {number}");
    }
}

/// What stands in output and spans stays there on a refusal, and always past their end.
#[test]
fn unaltered() {
    let right = page(FILE, SETTINGS, Sizes::PAGE, LIMITS).unwrap();
    let room = Sizes { output: 40, spans: 4, ..Sizes::PAGE };
    for (number, sizes) in [
        (1, Sizes { output: 41, ..room }),
        (20, Sizes { output: 35, ..room }),
        (21, Sizes { spans: 2, ..room }),
        (0, room),
    ] {
        let (mut output, mut spans) = ([b'x'; 40], [[7; 4]; 4]);
        let answer = told(&lent(FILE, &SETTINGS, &sizes, &LIMITS, &mut output, &mut spans));
        assert_eq!(answer.err().map_or(0, |refused| refused.number), number);
        let (length, rows) = answer.map_or((0, 0), |done| (done.length, done.spans));
        assert_eq!(output[..length], right[..length]);
        assert_eq!((&output[length..], &spans[rows..]), (&[b'x'; 40][length..], &[[7; 4]; 4][rows..]));
    }
}
