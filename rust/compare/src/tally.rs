use crate::limits::Limits;
use crate::pair_tally::PairTally;
use straight::{Chain, Grid, Shape};
use zohmirka::native::Report;

/// How often each number (0: accepted) and each outcome came up, by function.
pub struct Tally {
    pub refusals: [[u64; NUMBERS + 1]; FUNCTIONS.len()],
    pub outcomes: [u64; 5],
    /// Firings compared, by dimension count and kernel; last those on rows.
    pub firings: [[u64; 4]; 5],
    /// Calls on rows that fired and stalled.
    pub stalled_late: u64,
    /// Calls on rows whose state has the firings of whole rows, neither none nor all: those accepted, and those refused by 11.
    pub row_ends: [u64; 2],
    /// Firings whose terms go in an order other than the chain's.
    pub ordered: u64,
    /// Those in a box that leaves iterations out.
    pub boxed: u64,
    /// Those in a box of all iterations.
    pub full_box: u64,
    /// Calls that ended Done in a box that leaves iterations out.
    pub boxed_done: u64,
    pub clocks: u64,
    /// Requests whose steps were looked at, by the number that planning answers.
    pub steps: [u64; NUMBERS + 1],
    /// Those whose distances sum above the limit.
    pub above: u64,
    /// The iterations in which they were looked at.
    pub iterations: u64,
    pub limits: Limits,
    pub pairs: PairTally,
}

#[derive(Clone, Copy)]
pub enum Function {
    Plan,
    Judge,
    ReadChain,
    Run,
    RunChain,
    JudgeChain,
    WriteChain,
    PlanPair,
    RunPair,
}

/// The greatest number of a refusal.
const NUMBERS: usize = 16;
/// Each function with the numbers that it can answer.
const FUNCTIONS: [(&str, &[usize]); 9] = [
    ("plan", &[1, 2, 3, 4, 5, 6, 7, 8, 9, 12, 13, 15, 16]),
    ("judge", &[1, 2, 3, 4, 5, 6, 7, 8, 9, 14, 15, 16]),
    ("read_chain", &[1, 2, 3, 4, 5, 6, 7, 8, 9, 12, 14, 15, 16]),
    ("run", &[1, 2, 3, 4, 5, 6, 7, 8, 9, 10, 11, 14, 15, 16]),
    ("run_chain", &[3, 4, 5, 6, 7, 8, 9, 10, 11, 14, 15, 16]),
    ("judge_chain", &[3, 4, 5, 6, 7, 8, 9, 14, 15, 16]),
    ("write_chain", &[3, 4, 5, 6, 7, 8, 9, 12, 14, 15, 16]),
    ("plan_pair", &[3, 4, 5, 6, 7, 8, 9, 12, 15, 16]),
    ("run_pair", &[3, 4, 5, 6, 7, 8, 9, 10, 11, 14, 15, 16]),
];
const KERNELS: [&str; 4] = ["raw", "difference", "scaled", "blend"];
const STALLED: u32 = 3;
const OUTCOMES: [&str; 5] = ["Done", "Spent", "Starved", "Stalled", "Full"];

impl Tally {
    pub fn new() -> Tally {
        Tally {
            refusals: [[0; NUMBERS + 1]; FUNCTIONS.len()],
            outcomes: [0; 5],
            firings: [[0; 4]; 5],
            stalled_late: 0,
            row_ends: [0; 2],
            ordered: 0,
            boxed: 0,
            full_box: 0,
            boxed_done: 0,
            clocks: 0,
            steps: [0; NUMBERS + 1],
            above: 0,
            iterations: 0,
            limits: Limits::default(),
            pairs: PairTally::default(),
        }
    }

    pub fn count(&mut self, function: Function, refusal: u32) {
        self.refusals[function as usize][refusal as usize] += 1;
    }

    /// A call that was not refused.
    pub fn count_run(&mut self, chain: &Chain, report: &Report) {
        self.outcomes[report.outcome as usize] += 1;
        let (kernel, ..) = chain.kernel.bits();
        let skewed = matches!(chain.grid, Grid::Rows(_));
        let ground = if skewed { 4 } else { chain.grid.dims() - 1 };
        self.firings[ground][kernel as usize] += report.firings as u64;
        self.stalled_late += (skewed && report.outcome == STALLED && report.firings > 0) as u64;
        let n = chain.window.count as usize;
        if kernel != 0 && (0..n).any(|t| chain.term(t) != t) {
            self.ordered += report.firings as u64;
        }
        if chain.bounds.stood {
            let all = Shape::new(&chain.grid, &chain.window).iterations;
            if Shape::of_run(chain).iterations < all {
                self.boxed += report.firings as u64;
                self.boxed_done += (report.outcome == 0) as u64;
            } else {
                self.full_box += report.firings as u64;
            }
        }
        self.clocks += report.clocks as u64;
    }

    /// A call on an accepted chain, after so many firings.
    pub fn count_row_end(&mut self, chain: &Chain, fired: u32, refusal: u32) {
        let at = match refusal {
            0 => 0,
            11 => 1,
            _ => return,
        };
        if let Grid::Rows(_) = chain.grid {
            let shape = Shape::of_run(chain);
            let fired = fired as i64;
            let between = fired > 0 && fired < shape.iterations;
            self.row_ends[at] += (between && shape.row_end(fired - 1) == fired) as u64;
        }
    }

    /// Steps of a request that planning answers by this number, looked at in so many iterations.
    pub fn count_steps(&mut self, refusal: u32, above: bool, iterations: usize) {
        self.steps[refusal as usize] += 1;
        self.above += above as u64;
        self.iterations += iterations as u64;
    }

    pub fn print(&self) {
        print!("{:11} {:>9} {:>8}", "", "calls", "accepted");
        (1..=NUMBERS).for_each(|number| print!(" {number:>7}"));
        println!();
        for ((name, ..), counts) in FUNCTIONS.iter().zip(&self.refusals) {
            print!(
                "{name:11} {:>9} {:>8}",
                counts.iter().sum::<u64>(),
                counts[0]
            );
            counts[1..].iter().for_each(|count| print!(" {count:>7}"));
            println!();
        }
        let outcomes: Vec<String> = OUTCOMES
            .iter()
            .zip(&self.outcomes)
            .map(|(name, count)| format!("{name} {count}"))
            .collect();
        println!("outcomes    {}", outcomes.join(", "));
        println!("{} clocks; firings:", self.clocks);
        println!(
            "{:11} {}",
            "",
            KERNELS.map(|name| format!("{name:>12}")).concat()
        );
        let grounds = ["1 dim.", "2 dim.", "3 dim.", "4 dim.", "rows"];
        for (firings, ground) in self.firings.iter().zip(grounds) {
            println!(
                "{ground:11} {}",
                firings.map(|count| format!("{count:>12}")).concat()
            );
        }
        println!(
            "{} of them in an order other than the chain's",
            self.ordered
        );
        println!(
            "{} of them in a smaller box, {} in a full one; {} calls Done in a smaller one",
            self.boxed, self.full_box, self.boxed_done
        );
        println!("{} calls on rows fired and stalled", self.stalled_late);
        println!(
            "{} calls at the end of a row, {} refused by 11 there",
            self.row_ends[0], self.row_ends[1]
        );
        println!(
            "steps of {} requests in {} iterations: {} planned, refused by 15 {}, 7 {}, 8 {}, 9 {}; {} sums above the limit",
            self.steps.iter().sum::<u64>(),
            self.iterations,
            self.steps[0],
            self.steps[15],
            self.steps[7],
            self.steps[8],
            self.steps[9],
            self.above
        );
        self.limits.print();
        self.pairs.print();
    }

    /// What should have come up and did not.
    pub fn missing(&self) -> Vec<String> {
        let mut missing = Vec::new();
        for ((name, numbers), counts) in FUNCTIONS.iter().zip(&self.refusals) {
            for (number, count) in counts.iter().enumerate() {
                let due = number == 0 || numbers.contains(&number);
                if due && *count == 0 {
                    missing.push(format!("{name} never answered {number}"));
                }
            }
        }
        for (name, count) in OUTCOMES.iter().zip(&self.outcomes) {
            if *count == 0 {
                missing.push(format!("no call ended {name}"));
            }
        }
        if self.firings.as_flattened().contains(&0) {
            missing.push("a kernel never fired".to_string());
        }
        if self.stalled_late == 0 {
            missing.push("no call on rows fired and stalled".to_string());
        }
        if self.row_ends.contains(&0) {
            missing.push("no call at the end of a row, or none refused by 11".to_string());
        }
        if self.ordered == 0 {
            missing.push("no kernel added in an order other than the chain's".to_string());
        }
        if self.boxed == 0 || self.full_box == 0 {
            missing.push("no firing in a smaller box, or none in a full one".to_string());
        }
        if self.boxed_done == 0 {
            missing.push("no call ended Done in a smaller box".to_string());
        }
        for number in [0, 7, 8, 9, 15] {
            if self.steps[number] == 0 {
                missing.push(format!("no steps of a request answered {number}"));
            }
        }
        missing.extend(self.limits.missing());
        missing.extend(self.pairs.missing());
        missing
    }
}

impl Default for Tally {
    fn default() -> Tally {
        Tally::new()
    }
}
