//! Whether a chain finishes, and what is short: the chain beside the plan of its own window.
use crate::fault::{Fault, Result};
use crate::sheet::{self, Kind};
use crate::wording::{count, grouped, vector};
use zohmirka::{Chain, Refusal};

#[derive(Clone, Debug, PartialEq, Eq)]
pub enum Verdict {
    Finishes,
    /// Filters k and k + 1 stand in rising order.
    Rises(usize),
    /// FIFO k has fewer places than it needs.
    Short(usize),
    /// The reuse distances sum above what a store has.
    NoStore,
}

pub struct Checked {
    pub chain: Chain,
    pub verdict: Verdict,
    /// The places that each FIFO needs, where the offsets fall and there is a plan.
    pub needs: Option<Vec<u32>>,
}

/// Reads a chain sheet and says whether it finishes.
pub fn check(name: &str, sheet: &[u8]) -> Result<Checked> {
    let refused = |refusal| sheet::refused(name, sheet, Kind::Chain, refusal);
    let chain = Chain::read(sheet).map_err(refused)?;
    let offsets = chain.offsets();
    if let Some(k) = (1..offsets.len()).find(|&k| offsets[k - 1] <= offsets[k]) {
        return Ok(Checked {
            chain,
            verdict: Verdict::Rises(k - 1),
            needs: None,
        });
    }
    let request = sheet::without(sheet, &["03", "06"]);
    let planned = zohmirka::plan(&request).and_then(|plan| Chain::read(&plan));
    let planned = match planned {
        Ok(planned) => planned,
        Err(Refusal::TooLarge) => {
            return Ok(Checked {
                chain,
                verdict: Verdict::NoStore,
                needs: None,
            })
        }
        Err(refusal) => return Err(Fault::No(format!("{name}: its window planned: {refusal}"))),
    };
    let needs = planned.capacities().to_vec();
    let short = chain
        .capacities()
        .iter()
        .zip(&needs)
        .position(|(has, needs)| has < needs);
    let verdict = short.map_or(Verdict::Finishes, Verdict::Short);
    Ok(Checked {
        chain,
        verdict,
        needs: Some(needs),
    })
}

impl Checked {
    pub fn finishes(&self) -> bool {
        self.verdict == Verdict::Finishes
    }

    pub fn words(&self) -> String {
        let shown = |k: usize| vector(&self.chain.offsets()[k]);
        match self.verdict {
            Verdict::Finishes => {
                let fifos = count(self.chain.capacities().len(), "FIFO");
                format!(
                    "finishes: {} in {fifos}",
                    count(self.chain.places(), "place")
                )
            }
            Verdict::Rises(k) => {
                format!(
                    "stalls: filters {k} and {} rise: {} stands before {}",
                    k + 1,
                    shown(k),
                    shown(k + 1)
                )
            }
            Verdict::Short(k) => {
                let has = count(self.chain.capacities()[k] as usize, "place");
                let needs = self.needs.as_ref().map_or(0, |needs| needs[k]);
                format!(
                    "stalls: FIFO {k}, between {} and {}, has {has} and needs {}",
                    shown(k),
                    shown(k + 1),
                    grouped(needs.into())
                )
            }
            Verdict::NoStore => {
                "stalls: its reuse distances sum above 16,384; no store would do".into()
            }
        }
    }
}
