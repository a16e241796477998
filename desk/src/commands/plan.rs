use crate::arguments::Arguments;
use crate::fault::Result;
use crate::request::Source;
use crate::results::Results;
use crate::wording::{columns, count, vector};
use zohmirka::Chain;

pub fn run(arguments: &Arguments) -> Result<()> {
    let (sheet, chain) = Source::asked(arguments)?.plan()?;
    let text = if arguments.has("--table") {
        table(&chain).into_bytes()
    } else {
        sheet
    };
    Results::write(arguments.value("-o"), text)
}

/// A line for each filter, with the FIFO behind it, and what they sum to.
fn table(chain: &Chain) -> String {
    let mut lines = vec![vec![
        "filter".to_string(),
        "offset".into(),
        "FIFO behind it".into(),
    ]];
    for (k, entries) in chain.offsets().iter().enumerate() {
        let places = chain
            .capacities()
            .get(k)
            .map_or(String::new(), |&places| count(places as usize, "place"));
        lines.push(vec![k.to_string(), vector(entries), places]);
    }
    let fifos = count(chain.capacities().len(), "FIFO");
    let order: Vec<String> = chain
        .order()
        .unwrap_or_default()
        .iter()
        .map(u32::to_string)
        .collect();
    let places = count(chain.places(), "place");
    columns(&lines)
        + &format!(
            "{places} in {fifos}; the author's references are filters {}\n",
            order.join(" ")
        )
}
