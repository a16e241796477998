//! Decimal numbers, exact.

use crate::csv::excerpt;

/// With so many digits, twice a centre and one step more are exact in an f64.
pub(super) const MOST_DIGITS: usize = 15;

/// A decimal number: digits without the point, and how many of them stand behind it.
pub(super) struct Decimal {
    digits: i64,
    pub decimals: u32,
}

pub(super) fn decimal(text: &str) -> Result<Decimal, String> {
    let wrong = || {
        format!(
            "{} is not a number of at most {MOST_DIGITS} digits, such as 12.5",
            excerpt(text)
        )
    };
    let (sign, unsigned) = match text.trim().strip_prefix('-') {
        Some(rest) => (-1, rest),
        None => (1, text.trim()),
    };
    let (whole, part) = unsigned.split_once('.').unwrap_or((unsigned, ""));
    let all = [whole, part].concat();
    if all.len() > MOST_DIGITS || !all.bytes().all(|byte| byte.is_ascii_digit()) {
        return Err(wrong());
    }
    let digits: i64 = all.parse().map_err(|_| wrong())?;
    Ok(Decimal {
        digits: sign * digits,
        decimals: part.len() as u32,
    })
}

impl Decimal {
    /// The number times a power of ten, where that is whole and not too long.
    pub fn scaled(&self, decimals: u32) -> Option<i64> {
        let digits = match decimals.checked_sub(self.decimals) {
            Some(more) => self.digits.checked_mul(10i64.pow(more))?,
            None => {
                let unit = 10i64.pow(self.decimals - decimals);
                (self.digits % unit == 0).then(|| self.digits / unit)?
            }
        };
        (digits.unsigned_abs() < 10u64.pow(MOST_DIGITS as u32)).then_some(digits)
    }
}
