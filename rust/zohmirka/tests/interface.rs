//! The interface on the sample of document 01 and on single rules.
use zohmirka::{judge, plan, plan_into, run, version};
use zohmirka::{Chain, Counts, Outcome, Refusal, State, CHAIN_WORDS, ROW_NUMBERS, SHEET_BYTES, STORE_WORDS, VERSION};

const REQUEST: &[u8] = b"010100000005\n020000\n020003\n0400\n";
const SHEET: &[u8] = b"010100000005\n020003\n020000\n0300000003\n060100\n0400\n";
const WITHOUT: &[u8] = b"010100000005\n020003\n020000\n0300000003\n0400\n";
/// 4 by 5 cells.
const PLANE: &str = "01020000000400000005\n";
/// The five-point cross, falling.
const CROSS: &str = "0200010000\n0200000001\n0200000000\n020000FFFF\n02FFFF0000\n";
/// Four rows of five cells, each a column further to the right than the one above.
const SLANTED: &str = "09000400000005000100050002000500030005\n";
/// Row 1, columns 2 and 3.
const BOX: &str = "0800000001000000010000000200000003\n";

fn counts(cells: u32, firings: u32, clocks: u32) -> Counts {
    Counts { cells, firings, clocks }
}

/// The words and rows that reading a sheet gives, for a comparison of all of them: `==` of chains passes over what plays no part.
fn read(sheet: &[u8]) -> (Vec<u32>, Vec<u32>) {
    parts(Chain::read(sheet).unwrap())
}

fn parts(chain: Chain) -> (Vec<u32>, Vec<u32>) {
    (chain.words.to_vec(), chain.rows)
}

#[test]
fn the_library_is_of_this_version() {
    assert_eq!(version(), VERSION);
}

#[test]
fn plans_the_sample() {
    assert_eq!(plan(REQUEST).unwrap(), SHEET);
    assert_eq!((judge(SHEET), judge(WITHOUT)), (Ok(()), Ok(())));
}

#[test]
fn refuses_by_number_and_writes_nothing() {
    let mut sheet = [7; 100];
    let requests: [(&[u8], Refusal); 9] = [
        (b"x", Refusal::Malformed),
        (b"", Refusal::Misplaced),
        (b"010100100001\n020000\n0400\n", Refusal::BadGrid),
        (&[b"010100000005\n".as_slice(), &b"020000\n".repeat(33)].concat(), Refusal::BadCount),
        (b"010100000005\n020000\n020000\n0400\n", Refusal::EqualOffsets),
        (b"010100000002\n02FFFF\n020001\n0400\n", Refusal::NoIteration),
        (b"010100000005\n020001\n0401\n", Refusal::NoCentre),
        (b"010100000005\n020000\n04027F800000\n", Refusal::BadFactor),
        (b"010100004E20\n020000\n024001\n0400\n", Refusal::TooLarge),
    ];
    for (at, (request, refusal)) in requests.iter().enumerate() {
        assert_eq!(plan_into(request, &mut sheet), Err(*refusal), "{at}");
        assert_eq!(refusal.number() as usize, at + 1);
    }
    assert_eq!(plan_into(REQUEST, &mut sheet[..SHEET.len() - 1]), Err(Refusal::ShortOutput));
    assert_eq!(plan_into(b"010100000005\n0701\n0400\n", &mut sheet), Err(Refusal::BadName));
    assert_eq!(sheet, [7; 100]);
    assert_eq!(plan_into(REQUEST, &mut sheet), Ok(SHEET.len()));
    assert_eq!(&sheet[..SHEET.len()], SHEET);
    assert_eq!(sheet[SHEET.len()..], [7; 100][SHEET.len()..]);
    assert_eq!(judge(REQUEST), Err(Refusal::Misplaced));
}

#[test]
fn plans_a_window_by_name() {
    let name = b"01020000030000000400\n0701\n0400\n";
    let offsets = b"01020000030000000400\n0200010000\n0200000001\n0200000000\n020000FFFF\n02FFFF0000\n0400\n";
    let sheet = plan(name).unwrap();
    assert_eq!(Ok(&sheet), plan(offsets).as_ref());
    let chain = Chain::read(&sheet).unwrap();
    assert_eq!(chain.capacities(), [1023, 1, 1, 1023]);
    assert_eq!(chain.order(), Some([0, 1, 2, 3, 4].as_slice()));
    assert_eq!(judge(name), Err(Refusal::Misplaced));
}

#[test]
fn adds_in_the_author_s_order() {
    // Cells 1, 1 and 2^24: which of them come first decides what the sum loses.
    let cells = [1.0, 1.0, 16_777_216.0].map(f32::to_bits);
    let sum = |chain: &Chain| {
        let mut out = [0];
        chain.run(&mut State::fresh(), &mut [0; 2], &cells, &mut out, 9).map(|_| out[0])
    };
    let planned = |offsets: &str| Chain::read(&plan(format!("010100000003\n{offsets}04023F800000\n").as_bytes()).unwrap()).unwrap();
    let (rising, turned) = (planned("020000\n020001\n020002\n"), planned("020000\n020002\n020001\n"));
    assert_eq!(rising.order(), Some([2, 1, 0].as_slice()));
    assert_eq!(turned.order(), Some([2, 0, 1].as_slice()));
    assert_eq!((sum(&rising), sum(&turned)), (Ok(0x4B80_0001), Ok(0x4B80_0000)));

    // Without the order in chain order, whatever its words hold.
    let mut without = rising.clone();
    (without.words[168], without.words[170]) = (0, 300);
    assert_eq!((without.order(), sum(&without)), (None, Ok(0x4B80_0000)));
    assert_eq!(without.write().unwrap(), b"010100000003\n020002\n020001\n020000\n0300000001\n0300000001\n04023F800000\n");
    let mut any = rising.clone();
    any.words[168] = u32::MAX;
    assert_eq!((sum(&any), any.write()), (sum(&rising), rising.write()));
}

#[test]
fn refuses_an_order_that_is_none() {
    let chain = Chain::read(SHEET).unwrap();
    for (at, word) in [(169, 0), (169, 2), (169, 255), (169, 257), (170, 1), (170, 256), (170, u32::MAX)] {
        let mut other = chain.clone();
        other.words[at] = word;
        let answer = other.run(&mut State::fresh(), &mut [], &[], &mut [], 0);
        assert_eq!((other.judge(), answer), (Err(Refusal::BadOrder), Err(Refusal::BadOrder)));
        assert_eq!(other.write_into(&mut []), Err(Refusal::BadOrder));
        other.words[134] = 16385;
        assert_eq!(other.judge(), Err(Refusal::TooLarge));
    }
    let text = |line: &str| judge(format!("010100000005\n020003\n020000\n0300000003\n{line}\n0400\n").as_bytes());
    assert_eq!((text("060001"), text("060000"), text("060002")), (Ok(()), Err(Refusal::BadOrder), Err(Refusal::BadOrder)));
    assert_eq!((text("0600"), text("060100\n060100")), (Err(Refusal::Malformed), Err(Refusal::Misplaced)));
    assert_eq!(plan(b"010100000005\n020000\n0600\n0400\n"), Err(Refusal::Misplaced));
}

#[test]
fn runs_over_a_box() {
    // Case 6 of document 01, in row 1 and columns 2 and 3 alone.
    let sheet = plan(format!("{PLANE}0701\n{BOX}0400\n").as_bytes()).unwrap();
    let text = format!("{PLANE}{CROSS}{BOX}0300000004\n0300000001\n0300000001\n0300000004\n060001020304\n0400\n");
    assert_eq!(sheet, text.as_bytes());
    assert_eq!(plan(format!("{PLANE}{CROSS}{BOX}0400\n").as_bytes()).unwrap(), sheet);
    let chain = Chain::read(&sheet).unwrap();
    assert_eq!(chain.bounds(), Some(vec![(1, 1), (2, 3)]));
    assert_eq!(chain.words[201..], [1, 1, 2, 0, 0, 1, 3, 0, 0, 0, 0]);
    assert_eq!(chain.write().unwrap(), sheet);

    let cells: Vec<u32> = (1..=20).collect();
    let run_whole = |chain: &Chain| {
        let mut out = [0; 30];
        let outcome = chain.run(&mut State::fresh(), &mut [0; 10], &cells, &mut out, u32::MAX).unwrap();
        (outcome, out[..outcome.counts().firings as usize * 5].to_vec())
    };
    let words = vec![13, 9, 8, 7, 3, 14, 10, 9, 8, 4];
    assert_eq!(run_whole(&chain), (Outcome::Done(counts(14, 2, 14)), words));
    let before = chain.run(&mut State::fresh(), &mut [0; 10], &cells, &mut [0; 30], 12);
    assert_eq!(before, Ok(Outcome::Spent(counts(12, 0, 12))));

    // Rows 1 and 2, column 3 alone.
    let mut column = chain.clone();
    (column.words[203], column.words[206], column.words[207]) = (3, 2, 3);
    let words = vec![14, 10, 9, 8, 4, 19, 15, 14, 13, 9];
    assert_eq!(run_whole(&column), (Outcome::Done(counts(19, 2, 19)), words));

    // A full box runs as none does, and is not the same chain.
    let (mut full, mut none) = (chain.clone(), chain.clone());
    (full.words[203], full.words[206]) = (1, 2);
    none.words[201] = 0;
    assert_eq!((full.bounds(), none.bounds()), (Some(vec![(1, 2), (1, 3)]), None));
    assert_eq!(run_whole(&full), run_whole(&none));
    assert_eq!(run_whole(&full).0, Outcome::Done(counts(19, 6, 19)));
    assert_eq!(full.write().unwrap(), text.replace(BOX, "0800000001000000020000000100000003\n").as_bytes());
    assert_eq!(none.write().unwrap(), text.replace(BOX, "").as_bytes());
    assert_eq!(Chain::read(&none.write().unwrap()).unwrap().words[201..], [0; 11]);
    let mut any = chain.clone();
    (any.words[201], any.words[204], any.words[209]) = (u32::MAX, 7, 7);
    assert_eq!((run_whole(&any), any.write()), (run_whole(&chain), Ok(sheet)));
}

#[test]
fn refuses_a_box_that_does_not_fit() {
    let sheet = plan(format!("{PLANE}0701\n{BOX}0400\n").as_bytes()).unwrap();
    let chain = Chain::read(&sheet).unwrap();
    const MIN: u32 = 1 << 31;
    const MAX: u32 = MIN - 1;
    // All iterations are rows 1 and 2, columns 1 to 3.
    let rows = [(202, 0), (202, 2), (202, MIN), (206, 3), (206, 0), (206, MAX)];
    let columns = [(203, 0), (203, 4), (203, u32::MAX), (207, 4), (207, 1), (207, MAX), (207, MIN)];
    for (at, word) in rows.into_iter().chain(columns) {
        let mut other = chain.clone();
        other.words[at] = word;
        let answer = other.run(&mut State::fresh(), &mut [], &[], &mut [], 0);
        assert_eq!((other.judge(), answer), (Err(Refusal::BadBox), Err(Refusal::BadBox)), "{at} {word:X}");
        assert_eq!(other.write_into(&mut []), Err(Refusal::BadBox));
        // After 6, before 7, 8, 9 and 14.
        let changed = |changes: &[(usize, u32)]| {
            let mut chain = other.clone();
            changes.iter().for_each(|&(at, word)| chain.words[at] = word);
            chain.judge()
        };
        assert_eq!(changed(&[(1, 2)]), Err(Refusal::NoIteration));
        assert_eq!(changed(&[(15, 2), (165, 1)]), Err(Refusal::BadBox));
        assert_eq!(changed(&[(165, 4), (134, 16385), (169, 9)]), Err(Refusal::BadBox));
        assert_eq!(changed(&[(201, 0)]), Ok(()));
    }
    let text = |line: &str| judge(format!("010100000005\n020003\n020000\n{line}\n0300000003\n0400\n").as_bytes());
    assert_eq!(text("080000000000000001"), Ok(()));
    for line in ["080000000000000002", "080000000100000000", "08FFFFFFFF00000001", "088000000000000001", "08000000007FFFFFFF"] {
        assert_eq!(text(line), Err(Refusal::BadBox), "{line}");
    }
    assert_eq!((text("0800000000"), text("08")), (Err(Refusal::Malformed), Err(Refusal::Malformed)));
    let behind = |line: &str| text(&format!("080000000000000001\n{line}"));
    assert_eq!((behind("08"), behind("020001")), (Err(Refusal::Misplaced), Err(Refusal::Misplaced)));
    assert_eq!(plan(format!("{PLANE}0701\n0800000001000000010000000200000004\n0400\n").as_bytes()), Err(Refusal::BadBox));
    assert_eq!(plan(format!("{PLANE}{BOX}0701\n0400\n").as_bytes()), Err(Refusal::Misplaced));
}

/// Outcome and words of a whole run over cells 1, 2, 3 and so on.
fn run_over(chain: &Chain, cells: u32) -> (Outcome, Vec<u32>) {
    let cells: Vec<u32> = (1..=cells).collect();
    let (mut store, mut out) = (vec![0; chain.places()], vec![0; cells.len() * chain.width()]);
    let outcome = chain.run(&mut State::fresh(), &mut store, &cells, &mut out, u32::MAX).unwrap();
    out.truncate(outcome.counts().firings as usize * chain.width());
    (outcome, out)
}

#[test]
fn plans_and_runs_a_slanted_map() {
    let sheet = plan(format!("{SLANTED}0701\n0400\n").as_bytes()).unwrap();
    let text = format!("{SLANTED}{CROSS}0300000003\n0300000001\n0300000001\n0300000003\n060001020304\n0400\n");
    assert_eq!(sheet, text.as_bytes());
    assert_eq!(plan(format!("{SLANTED}{CROSS}0400\n").as_bytes()).unwrap(), sheet);
    let chain = Chain::read(&sheet).unwrap();
    assert_eq!(chain.skewed(), Some(vec![(0, 5), (1, 5), (2, 5), (3, 5)]));
    assert_eq!((chain.words[0], &chain.words[1..5], &chain.words[210..]), (2, [0; 4].as_slice(), [1, 4].as_slice()));
    assert_eq!((chain.rows.as_slice(), chain.capacities(), chain.places()), ([0, 5, 1, 5, 2, 5, 3, 5].as_slice(), [3, 1, 1, 3].as_slice(), 8));
    assert_eq!((chain.judge(), chain.write()), (Ok(()), Ok(sheet)));
    // Rows 1 and 2, columns 2 to 4 and 3 to 5: below, right, centre, left, above.
    let words = [[11, 8, 7, 6, 3], [12, 9, 8, 7, 4], [13, 10, 9, 8, 5], [16, 13, 12, 11, 8], [17, 14, 13, 12, 9], [18, 15, 14, 13, 10]].concat();
    assert_eq!(run_over(&chain, 20), (Outcome::Done(counts(18, 6, 18)), words.clone()));

    // Rows 1 and 2, columns 3 and 4.
    let mut boxed = chain.clone();
    boxed.words[201..204].copy_from_slice(&[1, 1, 3]);
    boxed.words[206..208].copy_from_slice(&[2, 4]);
    assert_eq!(boxed.bounds(), Some(vec![(1, 2), (3, 4)]));
    assert_eq!(run_over(&boxed, 20), (Outcome::Done(counts(17, 4, 17)), words[5..25].to_vec()));
    assert_eq!(boxed.write().unwrap(), text.replace(CROSS, &format!("{CROSS}0800000001000000020000000300000004\n")).as_bytes());
    // Column 2 has no left neighbour in row 2.
    boxed.words[203] = 2;
    assert_eq!((boxed.judge(), boxed.write()), (Err(Refusal::BadBox), Err(Refusal::BadBox)));

    // A rectangle has no rows.
    let rectangle = Chain::read(SHEET).unwrap();
    assert_eq!((rectangle.skewed(), rectangle.rows.len(), &rectangle.words[210..]), (None, 0, [0, 0].as_slice()));
}

#[test]
fn capacities_are_the_largest_distances() {
    let planned = |rows: &str, bounds: &str| Chain::read(&plan(format!("{rows}0200000000\n02FFFF0000\n{bounds}0400\n").as_bytes()).unwrap()).unwrap();
    // The two distances are 2 and 1: the second firing waits for its cell.
    let late = planned("090003000200020002000100020001\n", "");
    assert_eq!((late.capacities(), run_over(&late, 4)), ([2].as_slice(), (Outcome::Done(counts(4, 2, 5)), vec![3, 1, 4, 3])));

    // 1 and 2: with capacity 1 the first firing is made.
    let rows = "090003000100010001000100000002\n";
    let mut chain = planned(rows, "");
    assert_eq!((chain.capacities(), run_over(&chain, 4)), ([2].as_slice(), (Outcome::Done(counts(4, 2, 4)), vec![2, 1, 4, 2])));
    chain.words[134] = 1;
    assert_eq!(run_over(&chain, 4), (Outcome::Stalled(counts(2, 1, 2)), vec![2, 1]));
    // In a box of the first iteration alone it is enough, and planned.
    let boxed = planned(rows, "0800000001000000010000000100000001\n");
    assert_eq!((boxed.capacities(), run_over(&boxed, 4)), ([1].as_slice(), (Outcome::Done(counts(2, 1, 2)), vec![2, 1])));

    // The wrong way round nothing fires.
    (chain.words[6], chain.words[10]) = (0xFFFF, 0);
    assert_eq!(run_over(&chain, 4).0.counts().firings, 0);
}

#[test]
fn refuses_rows_outside_their_range() {
    let text = |line: &str| plan(format!("{line}\n0200000000\n0400\n").as_bytes()).map(|_| ());
    assert_eq!((text("0900010FFF0400"), text("09000100000001")), (Ok(()), Ok(())));
    for line in ["090000", "090201", "09FFFF", "09000110000001", "09000100000000", "09000100000401", "0900020000000100000000"] {
        assert_eq!(text(line), Err(Refusal::BadRows), "{line}");
    }
    // A missing count and a wrong length are 1, before starts and lengths are looked at.
    for line in ["09", "0900", "090001", "0900011000000", "090001100000010000", "09000210000000"] {
        assert_eq!(text(line), Err(Refusal::Malformed), "{line}");
    }
    // It stands first, once, and in place of `01`; the grid has two dimensions.
    assert_eq!(text("09000100000005\n09000000"), Err(Refusal::Misplaced));
    assert_eq!(text("09000100000005\n010100000005"), Err(Refusal::Misplaced));
    assert_eq!(text("010100000005\n09000100000005"), Err(Refusal::Misplaced));
    assert_eq!(text("09000100000005\n020000"), Err(Refusal::Malformed));
    assert_eq!(text("09000100000005\n080000000000000001"), Err(Refusal::Misplaced));
    assert_eq!(plan(format!("{SLANTED}0704\n0400\n").as_bytes()), Err(Refusal::BadName));

    let chain = Chain::read(&plan(format!("{SLANTED}0701\n0400\n").as_bytes()).unwrap()).unwrap();
    // What turns a changed chain back: the empty store where nothing else does.
    let changed = |change: &dyn Fn(&mut Chain)| {
        let mut other = chain.clone();
        change(&mut other);
        let answer = other.run(&mut State::fresh(), &mut [], &[], &mut [], 0).unwrap_err();
        let judged = other.judge().map_or_else(|refusal| refusal, |()| Refusal::ShortStore);
        let written = other.write_into(&mut []).unwrap_err();
        assert_eq!(written, if answer == Refusal::ShortStore { Refusal::ShortOutput } else { answer });
        assert_eq!(answer, judged);
        answer
    };
    for (at, number) in [(0, 4096), (0, u32::MAX), (1, 0), (1, 1025), (7, 65541), (7, u32::MAX)] {
        assert_eq!(changed(&|c| c.rows[at] = number), Refusal::BadRows);
        // Before 4, and in place of 3.
        assert_eq!(changed(&|c| (c.rows[at], c.words[5], c.words[0]) = (number, 0, 0)), Refusal::BadRows);
        // A rectangle's rows play no part.
        assert_eq!(changed(&|c| (c.rows[at], c.words[210]) = (number, 0)), Refusal::BadGrid);
        assert_eq!(changed(&|c| (c.rows[at], c.words[210], c.words[1], c.words[2]) = (number, 0, 4, 5)), Refusal::ShortStore);
        // Nor do rows past the count.
        assert_eq!(changed(&|c| c.rows.extend([number, number])), Refusal::ShortStore);
    }
    for count in [0, 513, 65540, u32::MAX] {
        assert_eq!(changed(&|c| c.words[211] = count), Refusal::BadRows);
        assert_eq!(changed(&|c| c.words[210..].copy_from_slice(&[0, count])), Refusal::BadGrid);
    }
    for lent in 0..8 {
        assert_eq!(changed(&|c| c.rows.truncate(lent)), Refusal::BadRows);
    }
    assert_eq!(changed(&|c| c.words[211] = 5), Refusal::BadRows);
    assert_eq!(changed(&|c| c.words[211] = 2), Refusal::NoIteration);
    // Any other number than 0 says that the grid is skewed; dimension count and sizes then play no part.
    assert_eq!(changed(&|c| c.words[210] = u32::MAX), Refusal::ShortStore);
    assert_eq!(changed(&|c| c.words[..5].fill(9)), Refusal::ShortStore);
    let mut other = chain.clone();
    (other.words[210], other.words[0], other.words[4]) = (256, 7, 9);
    other.rows.push(9);
    assert_eq!((run_over(&other, 20), other.write()), (run_over(&chain, 20), chain.write()));
    assert_eq!(read(&other.write().unwrap()), parts(chain));
}

#[test]
fn the_longest_sheets() {
    // 32 references in a row, blend, the order and a full box.
    let mut chain = Chain { words: [0; CHAIN_WORDS], rows: Vec::new() };
    chain.words[5] = 32;
    for k in 0..32 {
        chain.words[169 + k] = k as u32;
    }
    chain.words[134..165].fill(1);
    (chain.words[165], chain.words[168], chain.words[201]) = (3, 1, 1);

    let mut rectangle = chain.clone();
    rectangle.words[..5].copy_from_slice(&[4, 32, 32, 32, 32]);
    (0..32).for_each(|k| rectangle.words[6 + 4 * k + 3] = 31 - k as u32);
    rectangle.words[206..210].copy_from_slice(&[31, 31, 31, 0]);
    let sheet = rectangle.write().unwrap();
    assert_eq!((sheet.len(), read(&sheet)), (1141, parts(rectangle)));

    let mut skewed = chain;
    skewed.words[0] = 2;
    (0..32).for_each(|k| skewed.words[6 + 4 * k + 1] = 31 - k as u32);
    skewed.words[202..204].copy_from_slice(&[0, 4095]);
    skewed.words[206..208].copy_from_slice(&[511, 4095 + 992]);
    skewed.words[210..].copy_from_slice(&[1, 512]);
    skewed.rows = [4095, 1024].repeat(512);
    assert_eq!(skewed.rows.len(), ROW_NUMBERS);
    let sheet = skewed.write().unwrap();
    assert_eq!((sheet.len(), read(&sheet)), (SHEET_BYTES, parts(skewed)));
}

#[test]
fn runs_a_sheet_and_its_chain_alike() {
    let chain = Chain::read(SHEET).unwrap();
    assert_eq!((chain.references(), chain.capacities(), chain.places(), chain.width()), (2, [3].as_slice(), 3, 2));
    assert_eq!((chain.order(), Chain::read(WITHOUT).unwrap().order()), (Some([1, 0].as_slice()), None));
    for lent in 0..6 {
        let (mut s, mut t) = (State::fresh(), State::fresh());
        let (mut a, mut b) = ([9; 5], [9; 5]);
        let (mut x, mut y) = ([8; 5], [8; 5]);
        let cells = [1, 2, 3, 4, 5];
        let one = run(SHEET, &mut s, &mut a, &cells[..lent], &mut x, 100);
        assert_eq!(one, chain.run(&mut t, &mut b, &cells[..lent], &mut y, 100));
        assert_eq!((s, a, x), (t, b, y));
    }
}

#[test]
fn a_run_in_pieces_makes_what_a_whole_run_makes() {
    // Case 1 of document 01: 768 by 1024, five-point cross.
    let sheet = plan(b"01020000030000000400\n02FFFF0000\n020000FFFF\n0200000000\n0200000001\n0200010000\n04023E4CCCCD\n").unwrap();
    let chain = Chain::read(&sheet).unwrap();
    assert_eq!(chain.capacities(), [1023, 1, 1, 1023]);
    let cells: Vec<u32> = (0..786_432u32).map(|i| (i as f32).to_bits()).collect();
    let mut whole = vec![0; 782_852];
    let mut state = State::fresh();
    let mut store = vec![0; chain.places()];
    let outcome = chain.run(&mut state, &mut store, &cells, &mut whole, u32::MAX).unwrap();
    assert_eq!(outcome, Outcome::Done(counts(786_431, 782_852, 786_431)));
    assert_eq!(state.firings(), 782_852);

    let (mut cut, mut places) = (State::fresh(), vec![0; chain.places()]);
    let (mut pieces, mut total, mut at) = (Vec::new(), Counts::default(), 0);
    loop {
        let mut out = [0; 64];
        let outcome = chain.run(&mut cut, &mut places, &cells[at..(at + 64).min(cells.len())], &mut out, u32::MAX).unwrap();
        let c = outcome.counts();
        pieces.extend_from_slice(&out[..c.firings as usize]);
        total = counts(total.cells + c.cells, total.firings + c.firings, total.clocks + c.clocks);
        at = cut.passed(0) as usize;
        if let Outcome::Done(_) = outcome {
            break;
        }
        assert!(matches!(outcome, Outcome::Starved(_)));
    }
    assert_eq!((total, cut), (outcome.counts(), state));
    assert!(pieces == whole);
}

#[test]
fn each_outcome_and_each_refusal_of_a_call() {
    let chain = Chain::read(SHEET).unwrap();
    let cells = [1, 2, 3, 4, 5];
    let call = |chain: &Chain, state: State, places: usize, lent: usize, room: usize, allowance: u32| {
        let (mut s, mut store, mut out) = (state, vec![9; places], vec![8; room]);
        let answer = chain.run(&mut s, &mut store, &cells[..lent], &mut out, allowance);
        if answer.is_err() {
            assert_eq!((s, store, out), (state, vec![9; places], vec![8; room]));
        }
        answer
    };
    let fresh = State::fresh();
    assert_eq!(call(&chain, fresh, 3, 5, 4, 100), Ok(Outcome::Done(counts(5, 2, 5))));
    assert_eq!(call(&chain, fresh, 3, 5, 4, 2), Ok(Outcome::Spent(counts(2, 0, 2))));
    assert_eq!(call(&chain, fresh, 3, 4, 4, 100), Ok(Outcome::Starved(counts(4, 1, 4))));
    assert_eq!(call(&chain, fresh, 3, 5, 3, 100), Ok(Outcome::Full(counts(4, 1, 4))));
    let mut short = chain.clone();
    short.words[134] = 2;
    assert_eq!(call(&short, fresh, 2, 5, 4, 100), Ok(Outcome::Stalled(counts(2, 0, 2))));
    assert_eq!(call(&chain, fresh, 2, 5, 4, 100), Err(Refusal::ShortStore));
    let mut ahead = fresh;
    ahead.words[32] = 3;
    assert_eq!(call(&chain, ahead, 3, 5, 4, 100), Err(Refusal::BadState));

    // Any words are a chain.
    let changed = |at: usize, word: u32| {
        let mut other = chain.clone();
        other.words[at] = word;
        call(&other, fresh, STORE_WORDS, 5, 4, 100)
    };
    assert_eq!(changed(0, 0), Err(Refusal::BadGrid));
    assert_eq!(changed(0, 257), Err(Refusal::BadGrid));
    assert_eq!(changed(1, 0x0010_0001), Err(Refusal::BadGrid));
    assert_eq!(changed(5, 33), Err(Refusal::BadCount));
    assert_eq!(changed(5, u32::MAX), Err(Refusal::BadCount));
    assert_eq!(changed(10, 3), Err(Refusal::EqualOffsets));
    assert_eq!(changed(10, 0x0001_0003), Err(Refusal::EqualOffsets));
    assert_eq!(changed(10, 0xFFFF), Ok(Outcome::Stalled(counts(3, 0, 3))));
    assert_eq!(changed(6, 5), Err(Refusal::NoIteration));
    assert_eq!(changed(134, 16385), Err(Refusal::TooLarge));
    assert_eq!(changed(165, 4), Err(Refusal::BadFactor));
    assert_eq!(changed(165, u32::MAX), Err(Refusal::BadFactor));
}

#[test]
fn a_state_and_a_store_may_be_of_any_length() {
    let chain = Chain::read(SHEET).unwrap();
    let (mut state, mut store) = (State::fresh(), [0; 0]);
    assert_eq!(chain.run(&mut state, &mut store, &[], &mut [], 0), Err(Refusal::ShortStore));
    assert_eq!(run(SHEET, &mut state, &mut store, &[], &mut [], 0), Err(Refusal::ShortStore));
    assert_eq!(run(b"", &mut state, &mut store, &[], &mut [], 0), Err(Refusal::Misplaced));
    let mut store = [0; 3];
    assert_eq!(chain.run(&mut state, &mut store, &[], &mut [], 0), Ok(Outcome::Spent(Counts::default())));
}

#[test]
fn judges_a_chain_and_writes_its_sheet() {
    let chain = Chain::read(SHEET).unwrap();
    assert_eq!(chain.judge(), Ok(()));
    assert_eq!(chain.write().unwrap(), SHEET);
    let mut sheet = [7; 100];
    assert_eq!(chain.write_into(&mut sheet[..SHEET.len() - 1]), Err(Refusal::ShortOutput));
    for (at, word, refusal) in [
        (0, 0, Refusal::BadGrid),
        (5, 33, Refusal::BadCount),
        (10, 3, Refusal::EqualOffsets),
        (6, 5, Refusal::NoIteration),
        (134, 16385, Refusal::TooLarge),
        (165, 4, Refusal::BadFactor),
    ] {
        let mut other = chain.clone();
        other.words[at] = word;
        assert_eq!(other.judge(), Err(refusal));
        assert_eq!(other.write_into(&mut sheet), Err(refusal));
    }
    let mut off_centre = chain.clone();
    (off_centre.words[10], off_centre.words[165]) = (1, 1);
    assert_eq!((off_centre.judge(), off_centre.write()), (Err(Refusal::NoCentre), Err(Refusal::NoCentre)));
    assert_eq!(sheet, [7; 100]);
    assert_eq!(chain.write_into(&mut sheet), Ok(SHEET.len()));
    assert_eq!(&sheet[..SHEET.len()], SHEET);
    assert_eq!(sheet[SHEET.len()..], [7; 100][SHEET.len()..]);

    // Words past the counts play no part, and the sheet gives back the chain without them.
    let mut other = chain.clone();
    (other.words[14], other.words[135], other.words[167], other.words[171]) = (9, 9, 9, 999);
    (other.words[202], other.words[206]) = (9, 1);
    assert_eq!(other.write().unwrap(), SHEET);
    assert_eq!(read(&other.write().unwrap()), parts(chain));
    other.words[168] = 0;
    assert_eq!(other.write().unwrap(), WITHOUT);
    let without = Chain::read(WITHOUT).unwrap();
    assert_eq!(without.words[168..], [0; 44]);
    assert_eq!(read(&other.write().unwrap()), parts(without));
}
