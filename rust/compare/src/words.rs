//! Chains, windows, states and answers of `straight` as words, in the layout of c/zohmirka.h.
use straight::grid::MOST_ROWS;
use straight::{Answer, Chain, Factors, Grid, Kernel, Rectangle, Row, Rows, Side, State, Window};
use zohmirka::native::Report;

pub const CHAIN_WORDS: usize = 212;
pub const WINDOW_WORDS: usize = 132;
pub const STATE_WORDS: usize = 33;
/// 0 a rectangle, else rows.
pub const GRID_KIND: usize = 210;
pub const ROW_COUNT: usize = 211;
/// No grid has more words of rows.
pub const ROW_WORDS: usize = 2 * MOST_ROWS;

/// The words of a chain without its rows.
pub fn chain_words(chain: &Chain) -> [u32; CHAIN_WORDS] {
    let mut words = [0; CHAIN_WORDS];
    words[0] = chain.grid.dims() as u32;
    match &chain.grid {
        Grid::Rectangle(rectangle) => words[1..5].copy_from_slice(&rectangle.sizes),
        Grid::Rows(rows) => {
            words[GRID_KIND] = 1;
            words[ROW_COUNT] = rows.count as u32;
        }
    }
    words[5] = chain.window.count as u32;
    for (word, &entry) in words[6..134].iter_mut().zip(&chain.window.offsets) {
        *word = entry as u16 as u32;
    }
    words[134..165].copy_from_slice(&chain.capacities);
    words[165..168].copy_from_slice(&kernel_words(&chain.kernel));
    words[168] = chain.order.stood as u32;
    for (word, &filter) in words[169..201].iter_mut().zip(&chain.order.filters) {
        *word = filter as u32;
    }
    words[201] = chain.bounds.stood as u32;
    for d in 0..4 {
        words[202 + d] = chain.bounds.lowest[d] as u32;
        words[206 + d] = chain.bounds.highest[d] as u32;
    }
    words
}

fn kernel_words(kernel: &Kernel) -> [u32; 3] {
    let (kind, a, b) = kernel.bits();
    [kind as u32, a, b]
}

/// The words of a window.
pub fn side_words(side: &Side) -> [u32; WINDOW_WORDS] {
    let mut words = [0; WINDOW_WORDS];
    words[0] = side.window.count as u32;
    for (word, &entry) in words[1..129].iter_mut().zip(&side.window.offsets) {
        *word = entry as u16 as u32;
    }
    words[129..].copy_from_slice(&kernel_words(&side.kernel));
    words
}

/// The rows that are lent beside the words of a chain: the start of row i at 2 * i, its length behind it. A rectangle has none.
pub fn row_words(chain: &Chain) -> Vec<u32> {
    match &chain.grid {
        Grid::Rectangle(_) => Vec::new(),
        Grid::Rows(rows) => {
            let both = |row: &Row| [row.start as u32, row.length as u32];
            rows.given().iter().flat_map(both).collect()
        }
    }
}

fn grid_of(words: &[u32], rows: &[u32]) -> Grid {
    if words[GRID_KIND] != 0 {
        return Grid::Rows(rows_of(words[ROW_COUNT], rows));
    }
    let mut rectangle = Rectangle {
        dims: words[0].min(255) as u8,
        sizes: [0; 4],
    };
    rectangle.sizes.copy_from_slice(&words[1..5]);
    Grid::Rectangle(rectangle)
}

/// Rows that are not lent have length 0.
fn rows_of(count: u32, words: &[u32]) -> Rows {
    let narrow = |word: u32| word.min(u16::MAX as u32) as u16;
    let mut rows = Rows {
        count: narrow(count),
        rows: [Row::default(); MOST_ROWS],
    };
    for (row, both) in rows.rows.iter_mut().zip(words.chunks_exact(2)) {
        row.start = narrow(both[0]);
        row.length = narrow(both[1]);
    }
    rows
}

fn window_of(count: u32, entries: &[u32]) -> Window {
    let mut window = Window {
        count: count.min(255) as u8,
        offsets: [0; 128],
    };
    for (entry, &word) in window.offsets.iter_mut().zip(entries) {
        *entry = word as u16 as i16;
    }
    window
}

fn kernel_of(words: &[u32]) -> Kernel {
    let (a, b) = (f32::from_bits(words[1]), f32::from_bits(words[2]));
    match words[0] {
        0 => Kernel::Raw,
        1 => Kernel::Difference,
        2 => Kernel::Scaled(a),
        3 => Kernel::Blend(Factors { a, b }),
        _ => Kernel::Scaled(f32::NAN),
    }
}

/// Fewer words are a window without references.
pub fn side_of(words: &[u32]) -> Side {
    if words.len() < WINDOW_WORDS {
        return Side::new(&[], Kernel::Raw);
    }
    Side {
        window: window_of(words[0], &words[1..129]),
        kernel: kernel_of(&words[129..WINDOW_WORDS]),
    }
}

pub fn chain_of(words: &[u32], rows: &[u32]) -> Chain {
    let mut chain = Chain::blank();
    if words.len() < CHAIN_WORDS {
        return chain;
    }
    chain.grid = grid_of(words, rows);
    chain.window = window_of(words[5], &words[6..134]);
    chain.capacities.copy_from_slice(&words[134..165]);
    chain.kernel = kernel_of(&words[165..168]);
    chain.order.stood = words[168] != 0;
    for (filter, &word) in chain.order.filters.iter_mut().zip(&words[169..201]) {
        *filter = word.min(255) as u8;
    }
    chain.bounds.stood = words[201] != 0;
    for d in 0..4 {
        chain.bounds.lowest[d] = words[202 + d] as i32;
        chain.bounds.highest[d] = words[206 + d] as i32;
    }
    chain
}

pub fn state_of(words: &[u32]) -> State {
    let mut state = State::default();
    if words.len() < STATE_WORDS {
        // A state that is too short is refused as one that fits no run.
        state.fired = u32::MAX;
        return state;
    }
    state.passed.copy_from_slice(&words[..32]);
    state.fired = words[32];
    state
}

pub fn put_state(state: &State, words: &mut [u32]) {
    words[..32].copy_from_slice(&state.passed);
    words[32] = state.fired;
}

pub fn report_of(answer: Answer) -> Report {
    let counts = answer.counts();
    Report {
        refusal: answer.number() as u32,
        outcome: match answer {
            Answer::Ended(outcome) => outcome.index() as u32,
            Answer::Refused(_) => 5,
        },
        cells: counts.cells,
        firings: counts.firings,
        clocks: counts.clocks,
    }
}
