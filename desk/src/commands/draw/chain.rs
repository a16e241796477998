use super::checked;
use crate::arguments::Arguments;
use crate::fault::Result;
use crate::files;
use crate::request::kernel_name;
use crate::results::Results;
use crate::svg::{self, ChainPicture};
use crate::verdict::Verdict;
use crate::wording::vector;

pub fn chain(arguments: &Arguments) -> Result<()> {
    let name = files::shown(&arguments.operands[0]);
    let checked = checked(arguments)?;
    let offsets: Vec<String> = checked
        .chain
        .offsets()
        .iter()
        .map(|entries| vector(entries))
        .collect();
    let picture = svg::chain(&ChainPicture {
        title: name,
        offsets: &offsets,
        places: checked.chain.capacities(),
        needs: checked.needs.as_deref(),
        rising: match checked.verdict {
            Verdict::Rises(k) => Some(k),
            _ => None,
        },
        kernel: &kernel_name(checked.chain.kernel()),
        note: &checked.words(),
        bad: !checked.finishes(),
    });
    Results::write(arguments.value("-o"), picture)
}
