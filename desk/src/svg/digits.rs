//! Numbers as texts: with the digits that a range asks for, or shortest.

/// So many values from low to high at equal distances, with enough digits to tell them apart. Low
/// is below high.
pub fn spread(low: f64, high: f64, count: usize) -> Vec<String> {
    let step = (high - low) / (count.max(2) - 1) as f64;
    let values = (0..count).map(|k| {
        if k + 1 == count {
            high
        } else {
            low + step * k as f64
        }
    });
    let largest = exponent(low.abs().max(high.abs()));
    let finest = exponent(step) - 2;
    if largest > 6 || finest < -8 {
        let digits = (largest - finest - 1).clamp(2, 8) as usize;
        return values.map(|value| powered(value, digits)).collect();
    }
    let decimals = (-finest).max(0) as usize;
    let mut texts: Vec<String> = values.map(|value| fixed(value, decimals)).collect();
    for _ in 0..decimals {
        if texts.iter().all(|text| text.ends_with('0')) {
            texts
                .iter_mut()
                .for_each(|text| text.truncate(text.len() - 1));
        }
    }
    for text in &mut texts {
        if text.ends_with('.') {
            text.pop();
        }
    }
    texts
}

/// The shortest text of this very f32.
pub fn shortest(value: f32) -> String {
    if value == 0.0 || (1e-4..1e9).contains(&value.abs()) {
        value.to_string()
    } else {
        format!("{value:e}")
    }
}

fn exponent(value: f64) -> i32 {
    value.log10().floor() as i32
}

fn fixed(value: f64, decimals: usize) -> String {
    let text = format!("{value:.decimals$}");
    let is_zero = !text.contains(|sign: char| ('1'..='9').contains(&sign));
    match text.strip_prefix('-') {
        Some(rest) if is_zero => rest.to_string(),
        _ => text,
    }
}

fn powered(value: f64, digits: usize) -> String {
    if value == 0.0 {
        "0".to_string()
    } else {
        format!("{value:.digits$e}")
    }
}

#[cfg(test)]
mod tests {
    use super::*;
    use compare::dice::Dice;

    #[test]
    fn digits_for_the_range() {
        let spread = |low, high, count| spread(low, high, count).join(" ");
        assert_eq!(spread(0.0, 100.0, 5), "0 25 50 75 100");
        assert_eq!(spread(33.2187, 109.8412, 5), "33.2 52.4 71.5 90.7 109.8");
        assert_eq!(spread(-0.4, 0.4, 5), "-0.4 -0.2 0.0 0.2 0.4");
        assert_eq!(
            spread(12.0001, 12.0005, 5),
            "12.0001 12.0002 12.0003 12.0004 12.0005"
        );
        assert_eq!(spread(0.0, 0.0004, 3), "0.0000 0.0002 0.0004");
        assert_eq!(spread(0.0, 1e30, 5), "0 2.50e29 5.00e29 7.50e29 1.00e30");
        assert_eq!(spread(-3e38, 3e38, 3), "-3.00e38 0 3.00e38");
        assert_eq!(spread(0.0, 1e-9, 3), "0 5.00e-10 1.00e-9");
        assert_eq!(spread(1000.0, 5000.0, 5), "1000 2000 3000 4000 5000");
        assert_eq!(
            spread(16_777_216.0, 16_777_218.0, 3),
            "1.67772160e7 1.67772170e7 1.67772180e7"
        );
    }

    #[test]
    fn shortest_texts() {
        assert_eq!(shortest(0.1), "0.1");
        assert_eq!(shortest(-12.0), "-12");
        assert_eq!(shortest(0.0), "0");
        assert_eq!(shortest(1e30), "1e30");
        assert_eq!(shortest(f32::from_bits(1)), "1e-45");
        let mut dice = Dice::new(5);
        for _ in 0..100_000 {
            let value = f32::from_bits(dice.finite());
            let text = shortest(value);
            assert_eq!(text.parse::<f32>().unwrap().to_bits(), value.to_bits());
            assert!(text.len() <= 15, "{text}");
        }
    }

    #[test]
    fn any_range_has_different_texts_of_some_length() {
        let mut dice = Dice::new(6);
        for _ in 0..100_000 {
            let (one, other) = (f32::from_bits(dice.finite()), f32::from_bits(dice.finite()));
            if one >= other {
                continue;
            }
            let texts = spread(f64::from(one), f64::from(other), 3);
            assert!(texts.iter().all(|text| text.len() <= 15), "{texts:?}");
            assert!(texts[0] != texts[1] && texts[1] != texts[2], "{texts:?}");
        }
    }
}
