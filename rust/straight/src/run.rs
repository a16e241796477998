use crate::geometry::{Shape, Walk};
use crate::judge::{capacity_sum, judge_chain};
use crate::kernel::{apply, words, Terms};
use crate::types::{Answer, Chain, Counts, Outcome, Refusal, State};

pub fn run(
    chain: &Chain,
    state: &State,
    store: &mut [u32],
    cells: &[u32],
    out: &mut [u32],
    allowance: u32,
) -> (Answer, State) {
    if let Err(refusal) = judge_chain(chain) {
        return (Answer::Refused(refusal), *state);
    }
    if (store.len() as u64) < capacity_sum(chain) {
        return (Answer::Refused(Refusal::ShortStore), *state);
    }
    let shape = Shape::of_run(chain);
    if bad_state(chain, &shape, state) {
        return (Answer::Refused(Refusal::BadState), *state);
    }
    let mut state = *state;
    let terms = Terms::new(chain);
    let size = words(&chain.kernel, shape.count);
    let mut written = 0;
    let fire = |heads: &[u32]| {
        if out.len() - written < size {
            return false;
        }
        apply(&chain.kernel, &terms, heads, &mut out[written..]);
        written += size;
        true
    };
    let outcome = go(chain, &shape, &mut state, store, cells, allowance, fire);
    (Answer::Ended(outcome), state)
}

/// Number 11.
pub(crate) fn bad_state(chain: &Chain, shape: &Shape, state: &State) -> bool {
    let n = shape.count;
    let fired = state.fired as i64;
    if fired > shape.iterations {
        return true;
    }
    let next = (fired < shape.iterations).then(|| shape.reads(fired));
    let last = (fired > 0).then(|| shape.reads(fired - 1));
    for k in 0..n {
        let passed = state.passed[k];
        if next.is_some_and(|reads| passed > reads[k]) {
            return true;
        }
        if last.is_some_and(|reads| passed <= reads[k]) {
            return true;
        }
        if passed as i64 > shape.cells {
            return true;
        }
        if k + 1 < n {
            let held = passed as i64 - state.passed[k + 1] as i64;
            if held < 0 || held > chain.capacities[k] as i64 {
                return true;
            }
        }
    }
    false
}

/// The clocks of a call. A firing hands its cells, in chain order, to `fire`, which writes nothing and says false where it lacks
/// places.
pub(crate) fn go(
    chain: &Chain,
    shape: &Shape,
    state: &mut State,
    store: &mut [u32],
    cells: &[u32],
    allowance: u32,
    mut fire: impl FnMut(&[u32]) -> bool,
) -> Outcome {
    let n = shape.count;
    let mut start = [0usize; 32];
    for k in 1..n {
        start[k] = start[k - 1] + chain.capacities[k - 1] as usize;
    }
    // Place of a cell of position p in FIFO k.
    let place = |k: usize, p: u32| start[k] + (p % chain.capacities[k]) as usize;
    let passed = &mut state.passed;
    let mut counts = Counts::default();
    let mut walk = Walk::at(shape, state.fired as i64);

    loop {
        if state.fired as i64 == shape.iterations {
            return Outcome::Done(counts);
        }
        if counts.clocks == allowance {
            return Outcome::Spent(counts);
        }
        if counts.cells as usize == cells.len() {
            return Outcome::Starved(counts);
        }
        let next = cells[counts.cells as usize];
        let wanted = &walk.reads;
        let fires = (0..n).all(|k| (k == 0 || passed[k - 1] > passed[k]) && passed[k] == wanted[k]);
        if fires {
            let mut heads = [0u32; 32];
            heads[0] = next;
            for k in 1..n {
                heads[k] = store[place(k - 1, passed[k])];
            }
            if !fire(&heads[..n]) {
                return Outcome::Full(counts);
            }
            for k in 0..n {
                if k + 1 < n {
                    store[place(k, passed[k])] = heads[k];
                }
                passed[k] += 1;
            }
            counts.cells += 1;
            counts.firings += 1;
            state.fired += 1;
            walk.step(shape);
        } else {
            let mut moved = false;
            for k in (0..n).rev() {
                let presented = k == 0 || passed[k - 1] > passed[k];
                let free = k + 1 == n || passed[k] - passed[k + 1] < chain.capacities[k];
                if presented && passed[k] != wanted[k] && free {
                    let cell = if k == 0 {
                        next
                    } else {
                        store[place(k - 1, passed[k])]
                    };
                    if k + 1 < n {
                        store[place(k, passed[k])] = cell;
                    }
                    passed[k] += 1;
                    moved = true;
                    if k == 0 {
                        counts.cells += 1;
                    }
                }
            }
            if !moved {
                return Outcome::Stalled(counts);
            }
        }
        counts.clocks += 1;
    }
}
