//! How often each kind of pair came up.
use crate::draft::offsets_of;
use straight::judge::{judge_centre, judge_count, judge_factors, judge_twins};
use straight::kernel::words;
use straight::{judge_chain, Chain, Grid, Kernel, Refusal, Shape, Side};
use zohmirka::native::Report;

const FULL: u32 = 4;
/// More words than the library keeps of the firings of a pair at a time.
pub const MANY: usize = 8192;

/// Kinds of pairs, by calls that fired.
const FIRED: [&str; 10] = [
    "equal windows",
    "windows that share nothing",
    "windows that share something",
    "a window inside the other",
    "a window of one reference",
    "32 references together",
    "a chain whose own kernel or order is refused elsewhere",
    "terms of both windows in other orders than the chain's",
    "a smaller box",
    "rows",
];

#[derive(Default)]
pub struct PairTally {
    outcomes: [u64; 5],
    /// Firings, by the kernels of the first window and of the second.
    firings: [[u64; 4]; 4],
    /// Calls that ended Full for lack of places in the first output, in the second, in both.
    full: [u64; 3],
    fired: [u64; FIRED.len()],
    /// Calls that were not refused on references that do not fall.
    turned: u64,
    /// Calls whose firings read more than `MANY` cells.
    long: u64,
    refused: Refused,
    /// Words that were compared with a loop's, of each output.
    pub looped: [u64; 2],
}

/// Pairs that were turned back by one fault of this number and no other.
#[derive(Default)]
struct Refused {
    /// 4 of the chain, of the first window, of the second, of both together.
    counts: [u64; 4],
    /// 4 of both together in planning.
    planned: u64,
    /// 5 of the chain, of the first window, of the second.
    twins: [u64; 3],
    /// 7 of the first window, of the second.
    centres: [u64; 2],
    /// 7 of one window, and the other would be refused by 8.
    before_factors: u64,
    /// 8 of the first window, of the second.
    factors: [u64; 2],
    /// 14 by references that the chain has and no window, and that a window has and not the chain.
    unions: [u64; 2],
}

impl PairTally {
    /// A plan of a pair.
    pub fn count_plan(&mut self, sides: &[Side; 2], planned: &Result<Chain, Refusal>) {
        let together = sides.iter().all(|side| !bad_count(side));
        self.refused.planned += (together && *planned == Err(Refusal::BadCount)) as u64;
    }

    /// A call on a pair that was lent so many places.
    pub fn count_call(
        &mut self,
        chain: &Chain,
        sides: &[Side; 2],
        report: &Report,
        places: [usize; 2],
    ) {
        if report.refusal != 0 {
            self.refused.count(chain, sides, report.refusal);
            return;
        }
        self.outcomes[report.outcome as usize] += 1;
        let [one, two] = sides.map(|side| side.kernel.bits().0 as usize);
        self.firings[one][two] += report.firings as u64;
        if report.outcome == FULL {
            let lacks = [0, 1].map(|s| lacks(&sides[s], report.firings, places[s]));
            self.full[only(&lacks).unwrap_or(2)] += 1;
        }
        let references = offsets_of(&chain.window, chain.grid.dims());
        self.turned += references.windows(2).any(|pair| pair[0] < pair[1]) as u64;
        self.long += (report.firings as usize * references.len() > MANY) as u64;
        if report.firings > 0 {
            for (count, kind) in self.fired.iter_mut().zip(kinds(chain, sides)) {
                *count += kind as u64;
            }
        }
    }

    pub fn print(&self) {
        let [done, spent, starved, stalled, full] = self.outcomes;
        println!("pairs: Done {done}, Spent {spent}, Starved {starved}, Stalled {stalled}, Full {full}: of the first output, the second, both {:?}", self.full);
        println!(
            "firings, by the kernels of the two windows: {:?}",
            self.firings
        );
        let fired: Vec<String> = FIRED
            .iter()
            .zip(self.fired)
            .map(|(kind, count)| format!("{kind} {count}"))
            .collect();
        println!("calls on pairs that fired: {}", fired.join("; "));
        println!(
            "{} calls on references that do not fall; {} that read more than {MANY} cells; {:?} words beside loops",
            self.turned, self.long, self.looped
        );
        for (what, counts) in self.refused.list() {
            println!("refused by {what}: {counts:?}");
        }
    }

    /// What should have come up and did not.
    pub fn missing(&self) -> Vec<String> {
        let firings = self.firings.as_flattened();
        let mut lists: Vec<(&str, &[u64])> = vec![
            ("each outcome", &self.outcomes),
            ("firings of each two kernels", firings),
            ("Full of each output", &self.full),
            (
                "references that do not fall",
                std::slice::from_ref(&self.turned),
            ),
            ("long calls", std::slice::from_ref(&self.long)),
            ("words beside loops", &self.looped),
        ];
        lists.extend(FIRED.into_iter().zip(self.fired.chunks(1)));
        lists.extend(self.refused.list());
        lists.retain(|(_, counts)| counts.contains(&0));
        let line = |(what, _)| format!("pairs: missing among {what}");
        lists.into_iter().map(line).collect()
    }
}

impl Refused {
    fn count(&mut self, chain: &Chain, sides: &[Side; 2], refusal: u32) {
        match refusal {
            4 => self.count_4(chain, sides),
            5 => self.count_5(chain, sides),
            7 => self.count_7(chain, sides),
            8 => step(&mut self.factors, &sides.map(|side| bad_factor(&side))),
            14 => self.count_14(chain, sides),
            _ => {}
        }
    }

    fn count_4(&mut self, chain: &Chain, sides: &[Side; 2]) {
        let chain = judge_count(chain.window.count as usize).is_err();
        let [first, second] = sides.each_ref().map(bad_count);
        let together = !(chain || first || second);
        step(&mut self.counts, &[chain, first, second, together]);
    }

    fn count_5(&mut self, chain: &Chain, sides: &[Side; 2]) {
        let windows = [&chain.window, &sides[0].window, &sides[1].window];
        let twins = windows.map(|window| judge_twins(window, chain.grid.dims()).is_err());
        step(&mut self.twins, &twins);
    }

    fn count_7(&mut self, chain: &Chain, sides: &[Side; 2]) {
        let dims = chain.grid.dims();
        let lacks = sides.map(|side| judge_centre(&side.window, dims, &side.kernel).is_err());
        let other = only(&lacks).map(|one| &sides[1 - one]);
        if other.is_some_and(bad_factor) {
            self.before_factors += 1;
        } else {
            step(&mut self.centres, &lacks);
        }
    }

    fn count_14(&mut self, chain: &Chain, sides: &[Side; 2]) {
        let dims = chain.grid.dims();
        let references = offsets_of(&chain.window, dims);
        let both = sides.map(|side| offsets_of(&side.window, dims)).concat();
        let more = references.iter().any(|offset| !both.contains(offset));
        let fewer = both.iter().any(|offset| !references.contains(offset));
        step(&mut self.unions, &[more, fewer]);
    }

    fn list(&self) -> [(&str, &[u64]); 7] {
        let one = std::slice::from_ref;
        [
            ("4 of chain, first, second, both together", &self.counts),
            ("4 of both together in planning", one(&self.planned)),
            ("5 of chain, first, second", &self.twins),
            ("7 of first, second", &self.centres),
            ("7 of one beside 8 of the other", one(&self.before_factors)),
            ("8 of first, second", &self.factors),
            ("14 by the chain's, by a window's", &self.unions),
        ]
    }
}

/// Counts the one fault that there is, where there is one alone.
fn step(counts: &mut [u64], faults: &[bool]) {
    if let Some(at) = only(faults) {
        counts[at] += 1;
    }
}

/// Which one holds, where no other does.
fn only(holds: &[bool]) -> Option<usize> {
    let at = holds.iter().position(|&holds| holds)?;
    (!holds[at + 1..].contains(&true)).then_some(at)
}

fn bad_count(side: &Side) -> bool {
    judge_count(side.window.count as usize).is_err()
}

fn bad_factor(side: &Side) -> bool {
    judge_factors(&side.kernel).is_err()
}

/// Whether an output of so many places has none for another firing.
fn lacks(side: &Side, firings: u32, places: usize) -> bool {
    let width = words(&side.kernel, side.window.count as usize);
    places - firings as usize * width < width
}

/// Which of `FIRED` an accepted pair is.
fn kinds(chain: &Chain, sides: &[Side; 2]) -> [bool; FIRED.len()] {
    let dims = chain.grid.dims();
    let [first, second] = sides.map(|side| offsets_of(&side.window, dims));
    let shared = first.iter().filter(|offset| second.contains(offset));
    let shared = shared.count();
    let references = offsets_of(&chain.window, dims);
    let other_order = |side: &Side| {
        let author = offsets_of(&side.window, dims);
        let chained = references.iter().filter(|offset| author.contains(offset));
        !matches!(side.kernel, Kernel::Raw) && author.iter().ne(chained)
    };
    let all = Shape::new(&chain.grid, &chain.window).iterations;
    let (a, b) = (first.len(), second.len());
    [
        shared == a && shared == b,
        shared == 0,
        shared > 0 && shared < a && shared < b,
        shared == a.min(b) && a != b,
        a == 1 || b == 1,
        chain.window.count == 32,
        judge_chain(chain).is_err(),
        sides.iter().all(other_order),
        Shape::of_run(chain).iterations < all,
        matches!(chain.grid, Grid::Rows(_)),
    ]
}
