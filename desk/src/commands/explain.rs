use crate::arguments::Arguments;
use crate::fault::Result;
use crate::files;
use crate::results::Results;
use crate::sheet;

pub fn run(arguments: &Arguments) -> Result<()> {
    let name = &arguments.operands[0];
    let text = sheet::explain(files::shown(name), &files::read(name)?)?;
    Results::write(arguments.value("-o"), text)
}
