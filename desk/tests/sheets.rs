//! Sheets in words beside `straight`: which line, which number, which part, on random and damaged sheets.

use compare::damage::damage;
use compare::dice::Dice;
use compare::draft::Draft;
use compare::ground::Ground;
use desk::sheet::{bad_line, explain, refused, refused_options, tidy, Kind};
use std::collections::BTreeSet;
use std::path::Path;
use zohmirka::Refusal;

const REFUSALS: [Refusal; 17] = [
    Refusal::Malformed,
    Refusal::Misplaced,
    Refusal::BadGrid,
    Refusal::BadCount,
    Refusal::EqualOffsets,
    Refusal::NoIteration,
    Refusal::NoCentre,
    Refusal::BadFactor,
    Refusal::TooLarge,
    Refusal::ShortStore,
    Refusal::BadState,
    Refusal::ShortOutput,
    Refusal::BadName,
    Refusal::BadOrder,
    Refusal::BadBox,
    Refusal::BadRows,
    Refusal::Other(99),
];

/// The sheets that the repository holds.
fn kept() -> Vec<Vec<u8>> {
    let top = Path::new(env!("CARGO_MANIFEST_DIR")).join("..");
    let mut paths = Vec::new();
    for folder in ["samples", "crates/sample/data"] {
        let files = std::fs::read_dir(top.join(folder)).expect("the folder is there");
        paths.extend(files.map(|file| file.expect("a file of the folder").path()));
    }
    paths.retain(|path| {
        let ending = path.extension().and_then(|ending| ending.to_str());
        matches!(ending, Some("request" | "chain" | "in"))
    });
    paths.sort();
    let read = |path: &std::path::PathBuf| std::fs::read(path).expect("a sheet can be read");
    paths.iter().map(read).collect()
}

/// A request or chain sheet, mostly accepted.
fn some_sheet(dice: &mut Dice, kept: &[Vec<u8>]) -> Vec<u8> {
    if dice.one_in(2) {
        return sheet_of(dice, kept, Kind::Request);
    }
    sheet_of(dice, kept, Kind::Chain)
}

/// A sheet of this kind; at times one that the repository holds, of either kind.
fn sheet_of(dice: &mut Dice, kept: &[Vec<u8>], kind: Kind) -> Vec<u8> {
    match (dice.below(6), kind) {
        (0, _) => kept[dice.below(kept.len())].clone(),
        (1, Kind::Request) => {
            let (name, draft) = Draft::named(dice);
            draft.named_text(name)
        }
        (_, Kind::Request) => Draft::unplanned(dice).request_text(),
        (_, Kind::Chain) => Draft::random(dice).chain_text(),
    }
}

/// The first line that `straight` turns back.
fn straight_line(sheet: &[u8], kind: straight::Kind) -> Option<usize> {
    let mut reading = straight::Reading::new(kind);
    let (mut from, mut number) = (0, 1);
    while let Some(line) = straight::line_at(sheet, from) {
        match line {
            Ok(text) if reading.take(text).is_ok() => from += text.len() + 1,
            _ => return Some(number),
        }
        number += 1;
    }
    None
}

/// Looks at the form of a refusal's message: its beginning, and words behind it.
fn look_at(message: &str, beginning: &str) {
    let mut lines = message.lines();
    let first = lines.next().expect("a message has a first line");
    assert!(first.starts_with(beginning), "{message}");
    let indented: Vec<&str> = lines.collect();
    assert!(
        indented.iter().all(|line| line.starts_with("  ")),
        "{message}"
    );
    let words = indented.last().expect("a message has words");
    assert!(words.trim().len() > 5, "{message}");
}

/// Compares the line on 100,000 damaged sheets and looks at the words; hands back the numbers met.
fn compared(kind: Kind, straight: straight::Kind, seed: u64) -> Vec<u32> {
    let (kept, mut dice) = (kept(), Dice::new(seed));
    let mut numbers = BTreeSet::new();
    for _ in 0..100_000 {
        let mut sheet = sheet_of(&mut dice, &kept, kind);
        if !dice.one_in(10) {
            damage(&mut dice, &mut sheet);
        }
        let line = straight_line(&sheet, straight);
        let shown = String::from_utf8_lossy(&sheet);
        assert_eq!(bad_line(&sheet, kind), line, "{shown}");
        let Err(refusal) = kind.judge(&sheet) else {
            assert_eq!(line, None, "{shown}");
            continue;
        };
        let fault = refused("a", &sheet, kind, refusal);
        let place = line.map_or("a".to_string(), |line| format!("a:{line}"));
        let number = refusal.number();
        look_at(fault.text(), &format!("{place}: refused by {number}: "));
        // Words that say nothing of a part are for answers that no sheet gets.
        for empty in ["the line is turned back", "no line is at fault by itself"] {
            assert!(!fault.text().contains(empty), "{}\n{shown}", fault.text());
        }
        numbers.insert(number);
    }
    numbers.into_iter().collect()
}

#[test]
fn the_line_and_its_words_on_damaged_requests() {
    let met = compared(Kind::Request, straight::Kind::Request, 31);
    assert_eq!(met, [1, 2, 3, 4, 5, 6, 7, 8, 9, 13, 15, 16]);
}

#[test]
fn the_line_and_its_words_on_damaged_chains() {
    let met = compared(Kind::Chain, straight::Kind::Chain, 32);
    assert_eq!(met, [1, 2, 3, 4, 5, 6, 7, 8, 9, 14, 15, 16]);
}

/// Bytes that are often nearly a sheet.
fn noise(dice: &mut Dice) -> Vec<u8> {
    let signs: &[u8] = dice.pick(&[
        &b"0123456789ABCDEF\n"[..],
        b"01234\n",
        b"0f\r\n \t",
        b"\xEF\xBB\xBF\xFF\xFE0\n",
        b"",
    ]);
    let mut bytes = Vec::new();
    if dice.one_in(8) {
        bytes.extend(b"\xEF\xBB\xBF".repeat(1 + dice.below(2)));
    }
    for _ in 0..dice.below(80) {
        let any = dice.word() as u8;
        bytes.push(if signs.is_empty() {
            any
        } else {
            dice.pick(signs)
        });
    }
    bytes
}

#[test]
fn any_bytes_are_answered_by_words() {
    let (kept, mut dice) = (kept(), Dice::new(33));
    for _ in 0..30_000 {
        let mut bytes = noise(&mut dice);
        if dice.one_in(2) {
            let mut sheet = some_sheet(&mut dice, &kept);
            let at = dice.below(sheet.len() + 1);
            sheet.splice(at..at, bytes);
            bytes = sheet;
        }
        let refusal = dice.pick(&REFUSALS);
        for kind in [Kind::Request, Kind::Chain] {
            look_at(refused("a", &bytes, kind, refusal).text(), "a");
        }
        look_at(
            refused_options(&bytes, refusal).text(),
            "request: refused by ",
        );
        match explain("a", &bytes) {
            Ok(text) => assert!(text.starts_with("a: ")),
            Err(fault) => look_at(fault.text(), "a:"),
        }
    }
}

/// Spoils a sheet by what `tidy` mends, and by nothing else.
fn spoil(dice: &mut Dice, sheet: &[u8]) -> Vec<u8> {
    let mut spoilt = Vec::new();
    if dice.one_in(2) {
        spoilt.extend(b"\xEF\xBB\xBF");
    }
    let behind = dice.pick(&[&b""[..], b"\r", b" ", b"\t \r"]);
    for line in sheet.split_inclusive(|&c| c == b'\n') {
        let mut text = line[..line.len() - 1].to_vec();
        if dice.one_in(3) {
            text.make_ascii_lowercase();
        }
        if dice.one_in(2) {
            text.extend(behind);
        }
        spoilt.extend(text);
        spoilt.push(b'\n');
    }
    if dice.one_in(3) {
        spoilt.pop();
    }
    spoilt
}

#[test]
fn tidy_gives_the_sheet_back() {
    let (kept, mut dice) = (kept(), Dice::new(34));
    for _ in 0..20_000 {
        let sheet = some_sheet(&mut dice, &kept);
        if !sheet.ends_with(b"\n") || sheet.iter().any(|c| !b"0123456789ABCDEF\n".contains(c)) {
            continue;
        }
        let spoilt = spoil(&mut dice, &sheet);
        let tidied = tidy(&spoilt);
        assert_eq!(tidied.text, sheet);
        assert_eq!(tidied.mended.is_empty(), spoilt == sheet);
    }
}

#[test]
fn tidying_twice_is_tidying_once() {
    let mut dice = Dice::new(35);
    for _ in 0..30_000 {
        let noise = noise(&mut dice);
        let once = tidy(&noise);
        assert_eq!(once.mended.is_empty(), once.text == noise);
        let twice = tidy(&once.text);
        assert_eq!((twice.text, twice.mended), (once.text, vec![]));
    }
}

/// The words of a refusal by 15, worked out by geometry.
fn box_words(draft: &Draft) -> Vec<String> {
    let bounds = draft.bounds.clone().expect("15 is of a box");
    let name = |d: usize| match (bounds.len(), d) {
        (2, 0) => "row".to_string(),
        (2, _) => "column".to_string(),
        _ => format!("dimension {d}"),
    };
    let crossed = |(d, [low, high]): (usize, &[i32; 2])| {
        (low > high).then(|| {
            format!(
                "the box's {} is {low} to {high}, the lowest index above the highest",
                name(d)
            )
        })
    };
    let words: Vec<String> = bounds.iter().enumerate().filter_map(crossed).collect();
    if !words.is_empty() {
        return words;
    }
    let mut request = draft.request().expect("15 is of a request");
    (request.bounds, request.kernel) = (straight::Bounds::none(), straight::Kernel::Raw);
    let unknown = "a vector of the box is no iteration; which one is not known: the reuse distances sum above 16,384";
    let sizes = match &draft.ground {
        Ground::Sizes(sizes) => sizes,
        Ground::Rows(_) if straight::plan(&request).is_err() => return vec![unknown.to_string()],
        Ground::Rows(_) => return vec![row_words(&request, &bounds)],
    };
    // The references of one dimension have a plan where they lie at most 16,384 apart.
    let spread = |d: usize| {
        let entries = || draft.offsets.iter().map(|offset| offset[d] as i64);
        entries().max().unwrap() - entries().min().unwrap()
    };
    let range = |(d, (&[low, high], (least, most))): (usize, (&[i32; 2], (i64, i64)))| {
        let outside = (low as i64) < least || high as i64 > most;
        (outside && spread(d) <= 16_384).then(|| {
            format!(
                "the box's {} is {low} to {high}; it may be {least} to {most}",
                name(d)
            )
        })
    };
    let ranges = bounds.iter().zip(draft.iterations(sizes));
    let words: Vec<String> = ranges.enumerate().filter_map(range).collect();
    if words.is_empty() {
        return vec![unknown.to_string()];
    }
    words
}

/// The same on rows: the first vector that is no iteration.
fn row_words(request: &straight::Request, bounds: &[[i32; 2]]) -> String {
    let straight::Grid::Rows(rows) = &request.grid else {
        panic!("a grid of rows");
    };
    for row in bounds[0][0] as i64..=bounds[0][1] as i64 {
        let columns = straight::rows::columns(rows, &request.window, row);
        for column in bounds[1][0] as i64..=bounds[1][1] as i64 {
            if !columns.contains(&column) {
                let has = match (columns.start, columns.end - 1) {
                    (least, most) if least > most => "none".to_string(),
                    (least, most) if least == most => format!("column {least}"),
                    (least, most) => format!("column {least} to {most}"),
                };
                return format!("({row},{column}) is no iteration; row {row} has {has}");
            }
        }
    }
    panic!("a box of iterations");
}

#[test]
fn the_ends_of_a_box_and_what_they_may_be() {
    let (mut dice, mut found) = (Dice::new(36), 0);
    for _ in 0..20_000 {
        let draft = Draft::unplanned(&mut dice);
        let sheet = draft.request_text();
        if Kind::Request.judge(&sheet) != Err(Refusal::BadBox) {
            continue;
        }
        found += 1;
        let line = draft.offsets.len() + 2;
        let words = box_words(&draft);
        let words: Vec<String> = words
            .iter()
            .map(|w| format!("  line {line}: {w}"))
            .collect();
        let fault = refused("a", &sheet, Kind::Request, Refusal::BadBox);
        let said: Vec<&str> = fault.text().lines().skip(1).collect();
        assert_eq!(said, words, "{}", String::from_utf8_lossy(&sheet));
    }
    assert!(found > 500, "{found}");
}

#[test]
fn the_dimensions_that_are_too_small() {
    let (mut dice, mut found) = (Dice::new(37), 0);
    for _ in 0..30_000 {
        let draft = Draft::random(&mut dice);
        let (sheet, sizes) = match &draft.ground {
            Ground::Sizes(sizes) => (draft.chain_text(), sizes),
            Ground::Rows(_) => continue,
        };
        if Kind::Chain.judge(&sheet) != Err(Refusal::NoIteration) {
            continue;
        }
        found += 1;
        let ranges = draft.iterations(sizes);
        let too_small = ranges.iter().filter(|(low, high)| low > high).count();
        let fault = refused("a", &sheet, Kind::Chain, Refusal::NoIteration);
        assert_eq!(fault.text().lines().count(), 1 + too_small);
    }
    assert!(found > 300, "{found}");
}

#[test]
fn accepted_sheets_are_explained_line_by_line() {
    let (kept, mut dice) = (kept(), Dice::new(38));
    let mut explained = 0;
    for _ in 0..5_000 {
        let mut sheet = some_sheet(&mut dice, &kept);
        let is_chain = Kind::Chain.judge(&sheet).is_ok();
        if !is_chain && Kind::Request.judge(&sheet).is_err() {
            continue;
        }
        if is_chain {
            for cell in dice.cells(4) {
                sheet.extend(format!("05{cell:08X}\n").bytes());
            }
        }
        let text = explain("a", &sheet).expect("an accepted sheet");
        let mut rows = text.lines();
        let kind = if is_chain {
            "a: a chain sheet"
        } else {
            "a: a request sheet"
        };
        assert!(rows.next().is_some_and(|heading| heading.starts_with(kind)));
        for line in sheet.split_inclusive(|&c| c == b'\n') {
            let line = std::str::from_utf8(&line[..line.len() - 1]).expect("digits");
            let row = rows.next().expect("a row for each line");
            let words = row
                .strip_prefix(&line[..line.len().min(38)])
                .expect("the line");
            assert!(words.trim().len() > 5, "{row}");
        }
        assert_eq!(rows.next(), None);
        explained += 1;
    }
    assert!(explained > 1_000, "{explained}");
}
