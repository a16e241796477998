use crate::dice::Dice;
use crate::draft::Draft;
use zohmirka::native;
use crate::round::{Differs, Round};
use crate::words::{CHAIN_WORDS, ROW_WORDS, STATE_WORDS};
use straight::judge::capacity_sum;
use straight::{nested_words, plan, Chain, Kernel, Order, Request};
use zohmirka::SHEET_BYTES;

const MOST_CELLS: u128 = 4096;

/// The library alone: a request planned and run whole writes what a nested loop does that has the request's references in the request's order; raw's in chain order.
pub fn words(round: &mut Round) -> Result<(), Differs> {
    let (draft, request, planned) = small_request(&mut round.dice);
    let text = draft.request_text();
    let cells = round.dice.cells(request.grid.cells() as usize);
    round.note_text("request", &text);
    round.note_words("cells", &cells);
    let author = Chain {
        window: match request.kernel {
            Kernel::Raw => planned.window,
            _ => request.window,
        },
        order: Order::none(),
        ..planned
    };
    let want = nested_words(&author, &cells);

    let mut sheet = [0; SHEET_BYTES];
    let wrote = native::plan(&text, &mut sheet);
    let mut chain = [0; CHAIN_WORDS];
    let mut rows = [0; ROW_WORDS];
    let read = native::read_chain(&sheet[..wrote.bytes], &mut chain, &mut rows);
    round.same("plan and read_chain", &(wrote.refusal, read), &(0, 0))?;
    let mut store = vec![0; capacity_sum(&planned) as usize];
    let mut out = vec![0; want.len()];
    let mut state = [0; STATE_WORDS];
    let report = native::run_chain(
        &chain,
        &rows,
        &mut state,
        &mut store,
        &cells,
        &mut out,
        u32::MAX,
    );
    round.same(
        "refusal and outcome",
        &(report.refusal, report.outcome),
        &(0, 0),
    )?;
    round.tally.count_run(&planned, &report);
    round.same_at("words", &out, &want)
}

/// A request that is accepted, on a grid of at most `MOST_CELLS` cells, and its plan.
fn small_request(dice: &mut Dice) -> (Draft, Request, Chain) {
    loop {
        let mut draft = Draft::random(dice);
        dice.shuffle(&mut draft.offsets);
        let Some(request) = draft.request() else {
            continue;
        };
        if let Ok(planned) = plan(&request) {
            if request.grid.cells() <= MOST_CELLS {
                return (draft, request, planned);
            }
        }
    }
}
