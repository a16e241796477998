use super::sheets::number;
use crate::dice::Dice;
use crate::draft::{offsets_of, Draft};
use crate::ground::{Ground, Span};
use zohmirka::native;
use crate::round::{Differs, Round};
use crate::tally::Function;
use crate::words::{chain_of, CHAIN_WORDS, ROW_WORDS};
use straight::judge::{judge_box, judge_kernel, judge_window, MOST_PLACES};
use straight::{Bounds, Order, Steps};
use zohmirka::SHEET_BYTES;

/// Up to so many iterations all are looked at; of more the first, the last and `SOME`.
const FEW: i64 = 200;
const SOME: usize = 10;

/// The steps of a request beside what document 01 says of them, also where 15, 7, 8 or 9 turn it back; then the library's answer beside the steps.
pub fn steps(round: &mut Round) -> Result<(), Differs> {
    let (draft, request) = loop {
        let draft = Draft::unplanned(&mut round.dice);
        if let Some(request) = draft.request() {
            break (draft, request);
        }
    };
    let text = draft.request_text();
    round.note_text("request", &text);
    let mut sheet = [0; SHEET_BYTES];
    let wrote = native::plan(&text, &mut sheet);
    let planned = number(&straight::plan(&request));
    round.tally.count(Function::Plan, planned);
    round.same("plan: refusal", &wrote.refusal, &planned)?;

    let (grid, window) = (&request.grid, &request.window);
    if let Err(refusal) = judge_window(grid, window) {
        let refusal = refusal.number() as u32;
        let due = [3, 4, 5, 6, 16].contains(&refusal);
        round.holds("steps: refused by 3 to 6 or 16", due)?;
        return round.same("steps: refusal", &wrote.refusal, &refusal);
    }
    // A box that does not fit is left out: 15 is answered, and the steps of all iterations are looked at.
    let fits = judge_box(grid, window, &request.bounds);
    let bounds = fits.map_or(Bounds::none(), |()| request.bounds);
    let steps = straight::steps(grid, window, &bounds).expect("nothing turns it back");
    let sorted = offsets_of(&steps.window, draft.ground.dims());
    falling(round, &draft.offsets, &sorted, &steps.filters)?;
    let iterations = match &draft.ground {
        // In every iteration, in the box or not.
        Ground::Sizes(sizes) => iterations(&mut round.dice, draft.iterations(sizes)),
        Ground::Rows(_) => row_ends(&draft, &bounds),
    };
    apart(round, &draft.ground, &sorted, &iterations, &steps)?;
    let sum: u64 = steps.distances.iter().map(|&d| d as u64).sum();
    round.holds("total: the sum", steps.total == sum)?;

    let above = steps.total > MOST_PLACES;
    let judged = fits.and_then(|()| judge_kernel(grid, window, &request.kernel));
    let refusal = match judged {
        Err(refusal) => refusal.number() as u32,
        Ok(()) if above => 9,
        Ok(()) => 0,
    };
    round.same("refusal beside the steps", &wrote.refusal, &refusal)?;
    round.tally.count_steps(refusal, above, iterations.len());
    if refusal != 0 {
        return Ok(());
    }
    let mut words = [0; CHAIN_WORDS];
    let mut rows = [0; ROW_WORDS];
    let read = native::read_chain(&sheet[..wrote.bytes], &mut words, &mut rows);
    round.same("read_chain", &read, &0)?;
    let chain = chain_of(&words, &rows);
    round.same("grid", &chain.grid, &request.grid)?;
    round.same("window", &chain.window, &steps.window)?;
    round.same("box", &chain.bounds, &request.bounds)?;
    round.same("order", &chain.order, &Order::new(&steps.filters))?;
    round.same_at("capacities", chain.given(), &steps.distances)
}

/// The offsets are the author's, each lexicographically before the one in front of it, and filters[t] holds reference t.
fn falling(
    round: &mut Round,
    author: &[Vec<i16>],
    sorted: &[Vec<i16>],
    filters: &[u8],
) -> Result<(), Differs> {
    round.holds("offsets: as many", sorted.len() == author.len())?;
    let same = author.iter().all(|offset| sorted.contains(offset))
        && sorted.iter().all(|offset| author.contains(offset));
    round.holds("offsets: the same", same)?;
    let before = |a: &[i16], b: &[i16]| {
        let first = (0..a.len()).find(|&d| a[d] != b[d]);
        first.is_some_and(|d| a[d] < b[d])
    };
    let falling = sorted.windows(2).all(|pair| before(&pair[1], &pair[0]));
    round.holds("offsets: falling", falling)?;
    let held: Vec<&Vec<i16>> = filters.iter().map(|&k| &sorted[k as usize]).collect();
    let author: Vec<&Vec<i16>> = author.iter().collect();
    round.holds("filters", held == author)
}

/// The positions that neighbours read differ by at least 1 and at most by their distance, which is reached. On a rectangle they differ by it in every iteration, and
/// those of the first and the last by the total.
fn apart(
    round: &mut Round,
    ground: &Ground,
    sorted: &[Vec<i16>],
    iterations: &[Vec<i64>],
    steps: &Steps,
) -> Result<(), Differs> {
    let mut largest = vec![0; steps.distances.len()];
    for iteration in iterations {
        let read = |offset: &Vec<i16>| {
            let cell: Vec<i64> = iteration
                .iter()
                .zip(offset)
                .map(|(i, &o)| i + o as i64)
                .collect();
            ground.position(&cell)
        };
        let reads: Vec<i64> = sorted.iter().map(read).collect();
        let apart: Vec<i64> = reads.windows(2).map(|pair| pair[0] - pair[1]).collect();
        round.holds("distances: at least 1", apart.iter().all(|&d| d >= 1))?;
        if let Ground::Sizes(_) = ground {
            let same = apart
                .iter()
                .zip(&steps.distances)
                .all(|(&a, &d)| a == d as i64);
            round.holds("distances", same)?;
            let total = reads[0] - reads[reads.len() - 1];
            round.holds("total: first less last", steps.total as i64 == total)?;
        }
        for (most, &apart) in largest.iter_mut().zip(&apart) {
            *most = apart.max(*most);
        }
    }
    let distances: Vec<i64> = steps.distances.iter().map(|&d| d as i64).collect();
    round.holds("distances: the largest", distances == largest)
}

/// On rows: the first and the last iteration of each row, of the box where one stood.
fn row_ends(draft: &Draft, bounds: &Bounds) -> Vec<Vec<i64>> {
    if bounds.stood {
        let [top, left] = [0, 1].map(|d| bounds.lowest[d] as i64);
        let [bottom, right] = [0, 1].map(|d| bounds.highest[d] as i64);
        let both = |row: i64| [vec![row, left], vec![row, right]];
        return (top..=bottom).flat_map(both).collect();
    }
    let spans = draft.ground.spans(&draft.offsets);
    let both = |span: &Span| [vec![span.row, span.from], vec![span.row, span.to]];
    spans.iter().flat_map(both).collect()
}

/// All iterations of a rectangle, or the first, the last and some; from the least and the greatest in each dimension.
fn iterations(dice: &mut Dice, ends: Vec<(i64, i64)>) -> Vec<Vec<i64>> {
    let count: i64 = ends.iter().map(|(low, high)| high - low + 1).product();
    if count > FEW {
        let first = ends.iter().map(|&(low, _)| low).collect();
        let last = ends.iter().map(|&(_, high)| high).collect();
        let mut list = vec![first, last];
        for _ in 0..SOME {
            let any = |&(low, high): &(i64, i64)| dice.between(low, high);
            list.push(ends.iter().map(any).collect());
        }
        return list;
    }
    let mut list = vec![vec![]];
    for (low, high) in ends {
        list = list
            .into_iter()
            .flat_map(|front: Vec<i64>| (low..=high).map(move |i| [&front[..], &[i]].concat()))
            .collect();
    }
    list
}
