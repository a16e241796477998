use crate::arguments::Arguments;
use crate::fault::Result;
use crate::files;
use crate::results::Results;
use crate::sheet;

pub fn run(arguments: &Arguments) -> Result<()> {
    let name = &arguments.operands[0];
    let tidied = sheet::tidy(&files::read(name)?);
    Results::write(arguments.value("-o"), tidied.text)?;
    let what = if tidied.mended.is_empty() {
        "nothing to mend".into()
    } else {
        format!("mended: {}", tidied.mended.join(", "))
    };
    files::note(&format!("{}: {what}", files::shown(name)));
    Ok(())
}
