use crate::damage::damage;
use crate::dice::Dice;
use crate::draft::Draft;
use zohmirka::native;
use crate::round::{Differs, Round};
use crate::tally::Function;
use crate::words::{chain_words, row_words, CHAIN_WORDS, ROW_WORDS};
use straight::Refusal;
use zohmirka::SHEET_BYTES;

const FILL: u8 = 0xA5;
const FILL_WORD: u32 = 0xA5A5_A5A5;

pub fn plan(round: &mut Round) -> Result<(), Differs> {
    let dice = &mut round.dice;
    let mut draft = Draft::random(dice);
    dice.shuffle(&mut draft.offsets);
    let mut text = match dice.below(30) {
        0 => draft.chain_text(),
        1..=3 => {
            let name = dice.pick(&[0, 1, 2, 3, 4, 5, 6, 255]);
            draft.named_text(name)
        }
        4..=6 => {
            let (name, draft) = Draft::named(dice);
            draft.named_text(name)
        }
        _ => draft.request_text(),
    };
    spoil(dice, &mut text);

    let mut whole = [FILL; SHEET_BYTES + 8];
    let needed = planned(&text, &mut whole[..SHEET_BYTES]).unwrap_or(0);
    let room = dice.room(SHEET_BYTES, needed);
    round.note_text("request", &text);
    round.note("sheet lent", || format!("{room} bytes"));

    let mut wanted = [FILL; SHEET_BYTES + 8];
    let want = planned(&text, &mut wanted[..room]);
    let mut sheet = [FILL; SHEET_BYTES + 8];
    let got = native::plan(&text, &mut sheet[..room]);
    let refusal = number(&want);
    round.tally.count(Function::Plan, refusal);
    round.tally.limits.count_sheet(&text, refusal);
    let bytes = *want.as_ref().unwrap_or(&0);
    round.same(
        "plan: refusal and bytes",
        &got,
        &native::Sheet { refusal, bytes },
    )?;
    round.same_at("plan: sheet", &sheet, &wanted)?;

    let mut sheet = [FILL; SHEET_BYTES + 8];
    let safe = zohmirka::plan_into(&text, &mut sheet[..room]).map_err(|r| r.number());
    round.same(
        "plan_into: answer",
        &safe,
        &want.map_err(|refusal| refusal.number() as u32),
    )?;
    round.same_at("plan_into: sheet", &sheet, &wanted)?;
    Ok(())
}

/// The library alone: a sheet with a name and the one with its offsets written out are planned alike.
pub fn by_name(round: &mut Round) -> Result<(), Differs> {
    let (name, draft) = Draft::named(&mut round.dice);
    let (text, out) = (draft.named_text(name), draft.request_text());
    round.note_text("by name", &text);
    let mut sheets = [[FILL; SHEET_BYTES]; 2];
    let answers = [
        native::plan(&text, &mut sheets[0]),
        native::plan(&out, &mut sheets[1]),
    ];
    round.tally.count(Function::Plan, answers[0].refusal);
    round.same("by name: refusal and bytes", &answers[0], &answers[1])?;
    round.same_at("by name: sheet", &sheets[0], &sheets[1])
}

pub fn chain(round: &mut Round) -> Result<(), Differs> {
    let dice = &mut round.dice;
    let draft = Draft::random(dice);
    let mut text = match dice.below(30) {
        0 => draft.request_text(),
        1 => draft.named_text(dice.pick(&[0, 1, 4, 6])),
        _ => draft.chain_text(),
    };
    spoil(dice, &mut text);
    let room = if dice.one_in(3) {
        dice.pick(&[0, 168, 201, 210, CHAIN_WORDS - 1, 240])
    } else {
        CHAIN_WORDS
    };
    let want = straight::read_chain(&text);
    let needed = want.as_ref().map_or(Vec::new(), row_words);
    let row_room = dice.room(ROW_WORDS, needed.len());
    round.note_text("chain", &text);
    round.note("words and rows lent", || format!("{room}, {row_room}"));

    let judged = native::judge(&text);
    round.tally.count(Function::Judge, number(&want));
    round.tally.limits.count_sheet(&text, number(&want));
    round.same("judge", &judged, &number(&want))?;
    let safe = zohmirka::judge(&text).map_err(|r| r.number());
    round.same(
        "safe judge",
        &safe,
        &want.map(|_| ()).map_err(|r| r.number() as u32),
    )?;

    let (mut wanted, mut wanted_rows) = ([FILL_WORD; 248], [FILL_WORD; ROW_WORDS + 8]);
    let refusal = match &want {
        Err(refusal) => refusal.number() as u32,
        Ok(_) if room < CHAIN_WORDS || row_room < needed.len() => {
            Refusal::ShortOutput.number() as u32
        }
        Ok(chain) => {
            wanted[..CHAIN_WORDS].copy_from_slice(&chain_words(chain));
            wanted_rows[..needed.len()].copy_from_slice(&needed);
            0
        }
    };
    let (mut words, mut rows) = ([FILL_WORD; 248], [FILL_WORD; ROW_WORDS + 8]);
    let got = native::read_chain(&text, &mut words[..room], &mut rows[..row_room]);
    round.tally.count(Function::ReadChain, refusal);
    round.same("read_chain", &got, &refusal)?;
    round.same_at("read_chain: words", &words, &wanted)?;
    round.same_at("read_chain: rows", &rows, &wanted_rows)?;
    let safe = zohmirka::Chain::read(&text)
        .map(|c| (c.words, c.rows))
        .map_err(|r| r.number());
    let want = want
        .map(|c| (chain_words(&c), needed))
        .map_err(|r| r.number() as u32);
    round.same("safe read", &safe, &want)?;
    Ok(())
}

/// What planning a request sheet gives, from `straight`.
fn planned(text: &[u8], sheet: &mut [u8]) -> Result<usize, Refusal> {
    let request = straight::read_request(text)?;
    let chain = straight::plan(&request)?;
    straight::write_chain(&chain, sheet)
}

pub fn number<T>(answer: &Result<T, Refusal>) -> u32 {
    match answer {
        Ok(_) => 0,
        Err(refusal) => refusal.number() as u32,
    }
}

/// Leaves a sheet as it is, damages it, or makes any bytes of it.
fn spoil(dice: &mut Dice, text: &mut Vec<u8>) {
    match dice.below(100) {
        0 => *text = (0..dice.below(60)).map(|_| dice.word() as u8).collect(),
        1 => {
            *text = (0..dice.below(60))
                .map(|_| dice.pick(b"0123456789ABCDEF\n"))
                .collect()
        }
        2..=50 => damage(dice, text),
        _ => {}
    }
}
