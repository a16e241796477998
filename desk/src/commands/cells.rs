use crate::arguments::Arguments;
use crate::fault::Result;
use crate::maps;
use crate::results::Results;

pub fn run(arguments: &Arguments) -> Result<()> {
    let map = maps::read(&arguments.operands[0], arguments)?;
    let lines: String = map.cells().iter().map(|&cell| maps::line(cell)).collect();
    Results::write(arguments.value("-o"), lines)
}
