use crate::arguments::Arguments;
use crate::fault::{trouble, Fault, Result};
use crate::files;
use crate::results::Results;
use crate::verdict::check;

/// A line for each chain. One that cannot be read is told on standard error, and the others are
/// still looked at.
pub fn run(arguments: &Arguments) -> Result<()> {
    let (mut lines, mut stopped, mut unread) = (String::new(), 0, 0);
    for name in &arguments.operands {
        let shown = files::shown(name);
        let sheet = match files::read(name) {
            Ok(sheet) => sheet,
            Err(fault) => {
                files::note(fault.text());
                unread += 1;
                continue;
            }
        };
        let (finishes, words) = match check(shown, &sheet) {
            Ok(checked) => (checked.finishes(), format!("{shown}: {}", checked.words())),
            Err(fault) => (false, in_a_line(fault.text())),
        };
        stopped += usize::from(!finishes);
        lines += &(words + "\n");
    }
    Results::write(None, lines)?;
    let all = arguments.operands.len();
    match (unread, stopped) {
        (0, 0) => Ok(()),
        (0, stopped) => Err(Fault::No(format!("{stopped} of {all} would not finish"))),
        (unread, _) => trouble(format!("{unread} of {all} could not be read")),
    }
}

/// A refusal on one line: its number, and behind it the part that is at fault.
fn in_a_line(text: &str) -> String {
    let mut lines = text.lines();
    let number = lines.next().unwrap_or_default();
    match lines.last() {
        Some(part) => format!("{number}: {}", part.trim_start()),
        None => number.to_string(),
    }
}
