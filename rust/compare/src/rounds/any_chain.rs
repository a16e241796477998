use super::call::{call, Given, Lengths, Lent, BEHIND};
use super::sheets::number;
use crate::dice::Dice;
use crate::draft::Draft;
use zohmirka::native;
use crate::round::{Differs, Round};
use crate::tally::Function;
use crate::words::{
    chain_of, chain_words, row_words, CHAIN_WORDS, GRID_KIND, ROW_COUNT, STATE_WORDS,
};
use straight::{judge_chain, Chain};
use zohmirka::SHEET_BYTES;

const FILL: u8 = 0xA5;

pub fn calls(round: &mut Round) -> Result<(), Differs> {
    let (words, rows) = any_words(&mut round.dice);
    let value = chain_of(&words, &rows);
    let chain = judge_chain(&value).map(|_| value);
    round.note_words("chain words", &words);
    round.note_words("rows", &rows);
    let limits = &mut round.tally.limits;
    limits.count_words(&words, &rows, number(&chain));

    let dice = &mut round.dice;
    let places = match &chain {
        Ok(chain) => chain.given().iter().sum::<u32>() as usize,
        Err(_) => dice.below(64),
    };
    let mut lent = Lent {
        state: vec![0; STATE_WORDS + BEHIND],
        store: (0..places + BEHIND).map(|_| dice.word()).collect(),
        out: Vec::new(),
    };
    for _ in 0..3 {
        let dice = &mut round.dice;
        let lengths = Lengths {
            state: if dice.one_in(20) {
                dice.below(STATE_WORDS + BEHIND)
            } else {
                STATE_WORDS
            },
            store: if dice.one_in(10) {
                dice.below(places + BEHIND)
            } else {
                places
            },
            out: dice.below(400),
        };
        lent.out = vec![0x5A5A_5A5A; lengths.out + BEHIND];
        let many = dice.below(300);
        let cells = dice.cells(many);
        let allowance = if dice.one_in(4) {
            dice.below(50) as u32
        } else {
            u32::MAX
        };
        let given = Given::Words(&words, &rows);
        let report = call(round, given, &chain, &mut lent, lengths, &cells, allowance)?;
        if report.refusal != 0 && round.dice.one_in(2) {
            break;
        }
    }
    Ok(())
}

/// Any words judged, and their sheet written.
pub fn written(round: &mut Round) -> Result<(), Differs> {
    let (words, rows) = any_words(&mut round.dice);
    let value = chain_of(&words, &rows);
    round.note_words("chain words", &words);
    round.note_words("rows", &rows);
    let judged = number(&judge_chain(&value));
    round.tally.count(Function::JudgeChain, judged);
    round.tally.limits.count_words(&words, &rows, judged);
    round.same("judge_chain", &native::judge_chain(&words, &rows), &judged)?;

    let needed = match judged {
        0 => straight::sheet::chain_text(&value).len(),
        _ => 0,
    };
    let dice = &mut round.dice;
    let room = dice.room(SHEET_BYTES, needed);
    round.note("sheet lent", || format!("{room} bytes"));
    let mut wanted = [FILL; SHEET_BYTES + BEHIND];
    let (refusal, bytes) = match straight::write_chain(&value, &mut wanted[..room]) {
        Ok(bytes) => (0, bytes),
        Err(refusal) => (refusal.number() as u32, 0),
    };
    let mut sheet = [FILL; SHEET_BYTES + BEHIND];
    let got = native::write_chain(&words, &rows, &mut sheet[..room]);
    round.tally.count(Function::WriteChain, refusal);
    round.same("write_chain", &got, &native::Sheet { refusal, bytes })?;
    round.same_at("write_chain: sheet", &sheet, &wanted)?;

    let Ok(words) = <[u32; CHAIN_WORDS]>::try_from(words) else {
        return Ok(());
    };
    let chain = zohmirka::Chain { words, rows };
    let safe = chain.judge().map_or_else(|r| r.number(), |()| 0);
    round.same("safe judge", &safe, &judged)?;
    let mut sheet = [FILL; SHEET_BYTES + BEHIND];
    let safe = match chain.write_into(&mut sheet[..room]) {
        Ok(bytes) => (0, bytes),
        Err(refusal) => (refusal.number(), 0),
    };
    round.same("write_into", &safe, &(refusal, bytes))?;
    round.same_at("write_into: sheet", &sheet, &wanted)?;
    equal(round, &chain)
}

/// An accepted chain is equal to one that differs from it past the counts alone; of two chains of which one is accepted, those
/// with the same sheet are equal.
fn equal(round: &mut Round, chain: &zohmirka::Chain) -> Result<(), Differs> {
    let sheet = chain.write();
    let mut other = chain.clone();
    past_counts(&mut round.dice, &mut other.words);
    if sheet.is_ok() {
        round.note_words("past the counts", &other.words);
        round.same("== past the counts", &(chain == &other), &true)?;
    }
    change(&mut round.dice, &mut other.words);
    if round.dice.one_in(4) {
        change_rows(&mut round.dice, &mut other.words, &mut other.rows);
    }
    round.note_words("other chain", &other.words);
    round.note_words("other rows", &other.rows);
    let written = other.write();
    if sheet.is_ok() || written.is_ok() {
        round.same("==", &(chain == &other), &(sheet == written))?;
    }
    Ok(())
}

/// A chain's words and the rows beside them, with some of them changed, and words past the counts filled at random.
fn any_words(dice: &mut Dice) -> (Vec<u32>, Vec<u32>) {
    let draft = Draft::random(dice);
    let chain = draft.chain().unwrap_or(Chain::blank());
    let (mut words, mut rows) = (chain_words(&chain).to_vec(), row_words(&chain));
    if dice.one_in(2) {
        past_counts(dice, &mut words);
    }
    for _ in 0..dice.below(3) {
        change(dice, &mut words);
    }
    if dice.one_in(4) {
        change_rows(dice, &mut words, &mut rows);
    }
    if dice.one_in(30) {
        // Also what earlier versions of the interface took for a chain.
        let length = dice.below(CHAIN_WORDS);
        words.truncate(dice.pick(&[length, length, 168, 201, 210]));
    }
    if dice.one_in(10) {
        words.extend((0..dice.below(20)).map(|_| dice.word()));
    }
    (words, rows)
}

/// Another kind or row count, a row changed, or fewer or more rows than the count.
pub fn change_rows(dice: &mut Dice, words: &mut [u32], rows: &mut Vec<u32>) {
    match dice.below(6) {
        0 => words[GRID_KIND] = dice.pick(&[0, 1, 2, 256, 1 << 31, u32::MAX]),
        1 => words[ROW_COUNT] = dice.pick(&[0, 1, 2, 511, 512, 513, 65_536, 65_537, u32::MAX]),
        2 if words[ROW_COUNT] > 0 => words[ROW_COUNT] -= 1,
        3 => rows.truncate(dice.below(rows.len() + 1)),
        4 => rows.extend((0..dice.below(20)).map(|_| dice.word())),
        _ if rows.is_empty() => {}
        _ => {
            let at = dice.below(rows.len());
            rows[at] = match dice.below(3) {
                0 => rows[at].wrapping_add(1 << 16),
                1 => dice.word(),
                _ => dice.pick(&[0, 1, 5, 1024, 1025, 4095, 4096, 65_535, u32::MAX]),
            };
        }
    }
}

/// Fills the words that play no part; the kind of a grid that is skewed becomes any other number than 0.
pub fn past_counts(dice: &mut Dice, words: &mut [u32]) {
    let n = (words[5] as usize).min(32);
    let skewed = words[GRID_KIND] != 0;
    let (dims, sizes) = match words[0] as usize {
        _ if skewed => (2, 0),
        dims => (dims.min(4), dims.min(4)),
    };
    words[1 + sizes..5].fill_with(|| dice.word());
    if skewed {
        words[0] = dice.word();
        words[GRID_KIND] |= dice.word();
    } else {
        words[ROW_COUNT] = dice.word();
    }
    for k in 0..32 {
        let from = if k < n { dims } else { 0 };
        words[6 + 4 * k + from..10 + 4 * k].fill_with(|| dice.word());
    }
    words[134 + n.saturating_sub(1)..165].fill_with(|| dice.word());
    if words[165] < 2 {
        words[166] = dice.word();
    }
    if words[165] < 3 {
        words[167] = dice.word();
    }
    let terms = if words[168] == 0 { 0 } else { n };
    words[169 + terms..201].fill_with(|| dice.word());
    let ends = if words[201] == 0 { 0 } else { dims };
    words[202 + ends..206].fill_with(|| dice.word());
    words[206 + ends..GRID_KIND].fill_with(|| dice.word());
    for k in 0..4 * n {
        // The high half of an entry.
        words[6 + k] |= (dice.word() & dice.word()) << 16;
    }
}

pub fn change(dice: &mut Dice, words: &mut [u32]) {
    match dice.below(13) {
        0 => words[0] = dice.pick(&[0, 1, 2, 3, 4, 5, 255, 256, 257, u32::MAX]),
        1 => words[1 + dice.below(4)] = dice.pick(&[0, 1, 2, 5, 1024, 1_048_577, u32::MAX]),
        2 => words[5] = dice.pick(&[0, 1, 2, 31, 32, 33, 255, 256, 257, 258, u32::MAX]),
        3 => {
            let k = 6 + dice.below(128);
            words[k] = dice.pick(&[0, 1, 2, 0xFFFF, 0x8000, 0x7FFF, 0x0001_0000, u32::MAX]);
        }
        4 => {
            let k = 134 + dice.below(31);
            words[k] = dice.pick(&[0, 1, 2, 3, 16_383, 16_384, 16_385, 1 << 31, u32::MAX]);
        }
        5 => words[165] = dice.pick(&[0, 1, 2, 3, 4, 255, 256, 257, u32::MAX]),
        6 => words[166 + dice.below(2)] = dice.float(),
        7 => words[168] = dice.pick(&[0, 1, 2, 256, 1 << 31, u32::MAX]),
        8 => {
            let t = 169 + dice.below((words[5] as usize).clamp(1, 32));
            words[t] = match dice.below(4) {
                0 => words[5],
                1 => words[t].wrapping_add(256),
                _ => dice.pick(&[0, 1, 2, 31, 32, 255, 256, 1 << 16, u32::MAX]),
            };
        }
        9 => {
            let n = (words[5] as usize).clamp(1, 32);
            words.swap(169 + dice.below(n), 169 + dice.below(n));
        }
        10 => words[201] = dice.pick(&[0, 1, 2, 256, 1 << 31, u32::MAX]),
        11 => {
            // An index of the box, a step up or down or any other.
            let dims = match words[GRID_KIND] {
                0 => (words[0] as usize).clamp(1, 4),
                _ => 2,
            };
            let k = dice.pick(&[202, 206]) + dice.below(dims);
            words[k] = match dice.below(4) {
                0 => words[k].wrapping_add(1),
                1 => words[k].wrapping_sub(1),
                _ => dice.pick(&[0, 1, 2, u32::MAX, 0x7FFF_FFFF, 1 << 31, 0x8000_0001]),
            };
        }
        _ => {
            let k = dice.below(words.len());
            words[k] = dice.word();
        }
    }
}
