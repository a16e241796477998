use crate::arguments::Arguments;
use crate::fault::{Fault, Result};
use crate::grid::Grid;
use crate::request::WINDOWS;
use crate::results::Results;
use crate::wording::columns;
use zohmirka::{Chain, Refusal};

pub fn run(arguments: &Arguments) -> Result<()> {
    let grid = Grid::asked(arguments)?.judged()?;
    let plans = WINDOWS.map(|(name, window)| (name, grid.request().named(window).plan()));
    let heading = ["window", "filters", "places", "FIFOs"].map(String::from);
    let mut lines = vec![heading.to_vec()];
    lines.extend(plans.iter().map(|(name, plan)| line(name, plan)));
    Results::write(arguments.value("-o"), columns(&lines))?;
    if plans.iter().all(|(_, plan)| plan.is_err()) {
        return Err(Fault::No("no window has a plan on this grid".into()));
    }
    Ok(())
}

fn line(name: &str, plan: &std::result::Result<Chain, Refusal>) -> Vec<String> {
    let chain = match plan {
        Ok(chain) => chain,
        Err(refusal) => return vec![name.into(), "-".into(), "-".into(), refusal.to_string()],
    };
    let fifos: Vec<String> = chain.capacities().iter().map(u32::to_string).collect();
    vec![
        name.into(),
        chain.references().to_string(),
        chain.places().to_string(),
        fifos.join(" "),
    ]
}
