use super::checked;
use crate::arguments::Arguments;
use crate::fault::{trouble, Fault, Result};
use crate::files;
use crate::results::Results;
use crate::svg::{self, Clock, Timeline};
use crate::wording::{count, grouped};
use zohmirka::{Chain, Counts, Outcome, Refusal, State};

/// No more clocks are drawn.
const MOST_CLOCKS: usize = 4000;

pub fn time(arguments: &Arguments) -> Result<()> {
    let name = files::shown(&arguments.operands[0]);
    let chain = checked(arguments)?.chain;
    let from = arguments.number("--from")?.unwrap_or(0);
    let to = arguments.number("--to")?.unwrap_or(u64::MAX);
    if from >= to {
        return trouble(format!(
            "--from {from} --to {to}: no clock lies between them"
        ));
    }
    let mut course = Course::of(chain);
    let refused = |refusal: Refusal| Fault::No(format!("{name}: {refusal}"));
    course.skip(from).map_err(refused)?;
    let mut clocks = Vec::new();
    while course.clocks < to {
        match course.clock().map_err(refused)? {
            Some(clock) => clocks.push(clock),
            None => break,
        }
        if clocks.len() > MOST_CLOCKS {
            return trouble(format!(
                "{name}: more than {} clocks; name a part with --from and --to",
                grouped(MOST_CLOCKS as u128)
            ));
        }
    }
    if course.clocks == 0 {
        return Err(Fault::No(format!(
            "{name}: {}; there is no clock to draw",
            course.note()
        )));
    }
    if clocks.is_empty() {
        return trouble(format!(
            "{name}: the run ends after {}, before --from {from}",
            count(course.clocks as usize, "clock")
        ));
    }
    let picture = svg::time(&Timeline {
        title: name,
        first: from,
        capacities: course.chain.capacities(),
        clocks: &clocks,
        note: &course.note(),
    });
    Results::write(arguments.value("-o"), picture)
}

/// A run over the cells 0, 1, 2, .., in calls of one clock or of many.
struct Course {
    chain: Chain,
    state: State,
    store: Vec<u32>,
    cells: Vec<u32>,
    clocks: u64,
    end: Option<&'static str>,
}

impl Course {
    fn of(chain: Chain) -> Course {
        let (store, cells) = (vec![0; chain.places()], (0..chain.cells() as u32).collect());
        Course {
            chain,
            state: State::fresh(),
            store,
            cells,
            clocks: 0,
            end: None,
        }
    }

    fn call(&mut self, allowance: u32) -> std::result::Result<Counts, Refusal> {
        let mut out = vec![0; 64 * zohmirka::FIRING_WORDS];
        let rest = &self.cells[self.state.passed(0) as usize..];
        let outcome =
            self.chain
                .run(&mut self.state, &mut self.store, rest, &mut out, allowance)?;
        self.end = match outcome {
            Outcome::Done(_) => Some("done"),
            Outcome::Stalled(_) => Some("stalled"),
            Outcome::Starved(_) => Some("starved"),
            Outcome::Spent(_) | Outcome::Full(_) => None,
        };
        self.clocks += u64::from(outcome.counts().clocks);
        Ok(outcome.counts())
    }

    /// Makes the clocks up to this one, as far as there are any.
    fn skip(&mut self, to: u64) -> std::result::Result<(), Refusal> {
        while self.clocks < to && self.end.is_none() {
            self.call((to - self.clocks).min(u64::from(u32::MAX)) as u32)?;
        }
        Ok(())
    }

    /// The next clock, where there is one.
    fn clock(&mut self) -> std::result::Result<Option<Clock>, Refusal> {
        let counts = self.call(1)?;
        let level = |k: usize| self.state.passed(k) - self.state.passed(k + 1);
        let levels = (0..self.chain.capacities().len()).map(level).collect();
        Ok((counts.clocks > 0).then_some(Clock {
            took: counts.cells > 0,
            fired: counts.firings > 0,
            levels,
        }))
    }

    fn note(&self) -> String {
        let end = self.end.unwrap_or("goes on");
        format!(
            "{end} after {}, {}",
            count(self.clocks as usize, "clock"),
            count(self.state.firings() as usize, "firing")
        )
    }
}
