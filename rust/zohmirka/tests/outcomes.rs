//! The five outcomes of a run call: which is looked at first, calls after the end, too few places, cells past the grid's and counters past the chain's.
use zohmirka::{run, Chain, Counts, Outcome, Refusal, State};

/// Size 5, offsets 3 and 0: firings in clocks 3 and 4.
const SHEET: &[u8] = b"010100000005\n020003\n020000\n0300000003\n0400\n";
/// With a place less it stalls after two clocks.
const TIGHT: &[u8] = b"010100000005\n020003\n020000\n0300000002\n0400\n";
/// Case 8 of document 01: it never moves.
const STUCK: &[u8] = b"010100000005\n020000\n020003\n0300000010\n0400\n";
/// More cells than the grid has.
const CELLS: [u32; 9] = [1, 2, 3, 4, 5, 6, 7, 8, 9];

const ZERO: Counts = Counts { cells: 0, firings: 0, clocks: 0 };

fn counts(cells: u32, firings: u32, clocks: u32) -> Counts {
    Counts { cells, firings, clocks }
}

struct Run {
    sheet: &'static [u8],
    state: State,
    store: [u32; 16],
    out: [u32; 8],
}

impl Run {
    fn of(sheet: &'static [u8]) -> Run {
        Run { sheet, state: State::fresh(), store: [0; 16], out: [0; 8] }
    }

    /// One more call, which is lent so many cells and places: by the sheet, and by its chain the same.
    fn call(&mut self, cells: usize, places: usize, allowance: u32) -> Outcome {
        let at = self.state.passed(0) as usize;
        let (mut state, mut store, mut out) = (self.state, self.store, self.out);
        let cells = &CELLS[at..at + cells];
        let chain = Chain::read(self.sheet).unwrap();
        let other = chain.run(&mut state, &mut store, cells, &mut out[..places], allowance);
        let outcome = run(self.sheet, &mut self.state, &mut self.store, cells, &mut self.out[..places], allowance);
        assert_eq!((other, state, store, out), (outcome, self.state, self.store, self.out));
        outcome.unwrap()
    }
}

#[test]
fn a_stalled_chain_lent_no_cell_is_starved() {
    let mut stuck = Run::of(STUCK);
    assert_eq!(stuck.call(0, 0, 0), Outcome::Spent(ZERO));
    assert_eq!(stuck.call(5, 8, 0), Outcome::Spent(ZERO));
    assert_eq!(stuck.call(0, 8, 9), Outcome::Starved(ZERO));
    assert_eq!(stuck.call(1, 8, 1), Outcome::Stalled(ZERO));
}

#[test]
fn stalled_stays_stalled_with_zeros() {
    let mut tight = Run::of(TIGHT);
    assert_eq!(tight.call(9, 8, 99), Outcome::Stalled(counts(2, 0, 2)));
    for _ in 0..3 {
        assert_eq!(tight.call(1, 0, 1), Outcome::Stalled(ZERO));
        assert_eq!(tight.call(7, 8, u32::MAX), Outcome::Stalled(ZERO));
        assert_eq!(tight.call(0, 8, 9), Outcome::Starved(ZERO));
        assert_eq!(tight.call(7, 8, 0), Outcome::Spent(ZERO));
        assert_eq!(tight.call(0, 8, 0), Outcome::Spent(ZERO));
    }
}

#[test]
fn done_stays_done_with_zeros_whatever_is_lent() {
    let mut sound = Run::of(SHEET);
    assert_eq!(sound.call(5, 8, 5), Outcome::Done(counts(5, 2, 5)));
    for (cells, places, allowance) in [(0, 0, 0), (0, 8, 9), (4, 0, 9), (4, 8, 0), (4, 8, u32::MAX)] {
        assert_eq!(sound.call(cells, places, allowance), Outcome::Done(ZERO));
    }
    assert_eq!((sound.out, &sound.store[..4]), ([4, 1, 5, 2, 0, 0, 0, 0], [4, 5, 3, 0].as_slice()));
    let answer = run(SHEET, &mut sound.state, &mut [0; 2], &[], &mut [], 9);
    assert_eq!(answer, Err(Refusal::ShortStore));
}

#[test]
fn full_only_where_the_next_clock_would_fire() {
    // Clocks that do not fire need no places.
    let mut sound = Run::of(SHEET);
    for _ in 0..3 {
        assert_eq!(sound.call(1, 0, 9), Outcome::Starved(counts(1, 0, 1)));
    }
    for places in 0..2 {
        assert_eq!(sound.call(6, places, 9), Outcome::Full(ZERO));
        assert_eq!(sound.call(1, places, 1), Outcome::Full(ZERO));
        assert_eq!(sound.call(0, places, 9), Outcome::Starved(ZERO));
        assert_eq!(sound.call(6, places, 0), Outcome::Spent(ZERO));
    }
    assert_eq!(sound.call(2, 3, 9), Outcome::Full(counts(1, 1, 1)));
    assert_eq!(sound.out, [4, 1, 0, 0, 0, 0, 0, 0]);
    assert_eq!(sound.call(1, 2, 1), Outcome::Done(counts(1, 1, 1)));

    // Lent no places in any call, a chain that stalls before it fires is never Full.
    let mut tight = Run::of(TIGHT);
    assert_eq!(tight.call(9, 0, 99), Outcome::Stalled(counts(2, 0, 2)));
    assert_eq!(tight.call(7, 0, 99), Outcome::Stalled(ZERO));
}

#[test]
fn cells_past_the_grid_s_are_not_taken() {
    let mut sound = Run::of(SHEET);
    assert_eq!(sound.call(9, 8, u32::MAX), Outcome::Done(counts(5, 2, 5)));
    assert_eq!((sound.state.passed(0), sound.state.passed(1)), (5, 2));
    // On rows of one cell and two.
    let sheet = zohmirka::plan(b"0900020005000100060002\n0200000000\n0400\n").unwrap();
    let (mut state, mut out) = (State::fresh(), [0; 9]);
    let outcome = run(&sheet, &mut state, &mut [], &CELLS, &mut out, 99);
    assert_eq!((outcome, out), (Ok(Outcome::Done(counts(3, 3, 3))), [1, 2, 3, 0, 0, 0, 0, 0, 0]));
}

#[test]
fn counters_past_the_chain_s_play_no_part_and_stay() {
    let (mut odd, mut plain) = (Run::of(SHEET), Run::of(SHEET));
    for k in 2..32 {
        odd.state.words[k] = u32::MAX - k as u32;
    }
    for (places, outcome) in [(0, Outcome::Full(counts(3, 0, 3))), (4, Outcome::Done(counts(2, 2, 2)))] {
        assert_eq!((odd.call(5, places, 9), plain.call(5, places, 9)), (outcome, outcome));
        assert_eq!((odd.store, odd.out), (plain.store, plain.out));
        let kept: Vec<u32> = (2..32).map(|k| u32::MAX - k).collect();
        assert_eq!((&odd.state.words[2..32], &plain.state.words[2..32]), (kept.as_slice(), [0; 30].as_slice()));
        assert_eq!((odd.state.passed(0), odd.state.passed(1), odd.state.firings()), (plain.state.passed(0), plain.state.passed(1), plain.state.firings()));
    }
}

#[test]
fn a_state_has_32_input_counters() {
    let mut state = State::fresh();
    (state.words[31], state.words[32]) = (7, 8);
    assert_eq!((state.passed(31), state.firings()), (7, 8));
}

#[test]
#[should_panic(expected = "index out of bounds")]
fn and_no_counter_32() {
    State::fresh().passed(32);
}
