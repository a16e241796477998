//! Pictures, a file each.

mod chain;
mod heat;
mod time;

pub use chain::chain;
pub use heat::heat;
pub use time::time;

use crate::arguments::Arguments;
use crate::fault::{trouble, Result};
use crate::files;
use crate::verdict::{check, Checked};
use crate::wording::count;

/// The chain that a picture is of.
fn checked(arguments: &Arguments) -> Result<Checked> {
    let name = &arguments.operands[0];
    check(files::shown(name), &files::read(name)?)
}

/// Whether a map is small enough for a picture. Each place is looked at, also those outside a slanted map,
/// of which a short file may have very many.
pub fn drawable(height: usize, width: usize) -> Result<()> {
    const MOST_PLACES: usize = 1 << 24;
    if height.saturating_mul(width) <= MOST_PLACES {
        return Ok(());
    }
    trouble(format!(
        "{} of {} are too many for a picture",
        count(height, "row"),
        count(width, "column")
    ))
}

#[cfg(test)]
mod tests {
    use super::*;

    #[test]
    fn pictures_have_a_largest_size() {
        assert_eq!(drawable(4096, 4096), Ok(()));
        assert_eq!(
            drawable(4096, 4097).unwrap_err().text(),
            "4,096 rows of 4,097 columns are too many for a picture"
        );
        assert!(drawable(usize::MAX, usize::MAX).is_err());
    }
}
