use crate::arguments::Arguments;
use crate::fault::Result;
use crate::request::Source;
use crate::results::Results;

pub fn run(arguments: &Arguments) -> Result<()> {
    let source = Source::asked(arguments)?;
    // A sheet that is handed on is one that can be planned.
    source.plan()?;
    Results::write(arguments.value("-o"), source.sheet)
}
