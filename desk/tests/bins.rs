//! The means of random logs beside a plain count.

#[path = "draft/dialect.rs"]
mod dialect;

use compare::dice::Dice;
use desk::bins::{bin, Axis, Binned, Bins};
use desk::csv::{table, Dialect};
use dialect::{any_dialect, joined};

/// A decimal number: so many thousandths.
fn thousandths(number: i64, decimals: usize) -> String {
    let sign = if number < 0 { "-" } else { "" };
    let text = format!("{sign}{}.{:03}", number.abs() / 1000, number.abs() % 1000);
    match decimals {
        0 => text[..text.len() - 4].to_string(),
        decimals => text[..text.len() - 3 + decimals].to_string(),
    }
}

/// An axis: first, step and count of its centres in thousandths, and the decimals that it is written with.
struct Centres {
    first: i64,
    step: i64,
    count: i64,
    decimals: usize,
}

impl Centres {
    fn any(dice: &mut Dice) -> Centres {
        let decimals = dice.below(4);
        let unit = 10i64.pow(3 - decimals as u32);
        Centres {
            first: dice.between(-20, 20) * unit,
            step: dice.pick(&[1, 2, 3, 5, 10, -1, -3, -10]) * unit,
            count: dice.between(1, 6),
            decimals,
        }
    }

    fn centre(&self, place: i64) -> i64 {
        self.first + place * self.step
    }

    fn label(&self, place: i64) -> String {
        thousandths(self.centre(place), self.decimals)
    }

    fn axis(&self, name: &str) -> Axis {
        let (first, last) = (self.label(0), self.label(self.count - 1));
        let step = thousandths(self.step, self.decimals);
        Axis::parse(&format!("{name}={first}:{last}:{step}")).expect("a good axis")
    }

    fn holds(&self, place: i64, number: i64) -> bool {
        let (twice, half) = (2 * (number - self.centre(place)), self.step.abs());
        -half <= twice && twice < half
    }

    /// A number near the centres, often on a bound.
    fn near(&self, dice: &mut Dice) -> i64 {
        let centre = self.centre(dice.between(-1, self.count));
        match dice.below(3) {
            0 => centre + self.step / 2,
            1 => centre + dice.between(-self.step.abs(), self.step.abs()),
            _ => centre - self.step / 2 + dice.between(-1, 1),
        }
    }
}

/// A line of a log: row and column in thousandths, and the text of the value; none where a field is empty.
type Line = Option<(i64, i64, String)>;

struct Case {
    dialect: Dialect,
    rows: Centres,
    columns: Centres,
    least: usize,
    log: Vec<Line>,
}

impl Case {
    fn any(dice: &mut Dice) -> Case {
        let (rows, columns) = (Centres::any(dice), Centres::any(dice));
        let line = |dice: &mut Dice| {
            let value = f32::from_bits(dice.finite()).to_string();
            (!dice.one_in(10)).then(|| (rows.near(dice), columns.near(dice), value))
        };
        Case {
            dialect: any_dialect(dice),
            least: dice.below(4),
            log: (0..dice.below(60)).map(|_| line(dice)).collect(),
            rows,
            columns,
        }
    }

    fn bins(&self) -> Bins {
        let (rows, columns) = (self.rows.axis("row"), self.columns.axis("col"));
        Bins::new(rows, columns, "val", self.least).expect("few bins")
    }

    /// A number's text with the dialect's sign.
    fn shown(&self, number: &str) -> String {
        number.replace('.', &char::from(self.dialect.decimal).to_string())
    }

    fn text_of_log(&self) -> String {
        let mut lines = vec![["time", "col", "val", "row"].map(String::from).to_vec()];
        for line in &self.log {
            let fields = match line {
                Some((row, column, value)) => {
                    ["0", &thousandths(*column, 3), value, &thousandths(*row, 3)]
                        .map(|number| self.shown(number))
                }
                None => ["0", "1", "2", ""].map(String::from),
            };
            lines.push(fields.to_vec());
        }
        joined(&lines, &self.dialect)
    }

    /// The texts of the values in a bin, by a search through the whole log.
    fn values(&self, i: i64, j: i64) -> Vec<&str> {
        let lines = self.log.iter().flatten();
        lines
            .filter(|(row, column, _)| self.rows.holds(i, *row) && self.columns.holds(j, *column))
            .map(|(_, _, value)| &value[..])
            .collect()
    }

    fn mean(&self, i: i64, j: i64) -> String {
        let values = self.values(i, j);
        if values.is_empty() || values.len() < self.least {
            return String::new();
        }
        let mut sum = 0.0;
        for value in &values {
            sum += value.parse::<f64>().expect("a number");
        }
        let mean = (sum / values.len() as f64) as f32;
        // Above 20 characters a number is written with an exponent.
        let plain = mean.to_string();
        let short = if plain.len() > 20 {
            format!("{mean:e}")
        } else {
            plain
        };
        self.shown(&short)
    }

    fn expected(&self) -> Binned {
        let (rows, columns) = (0..self.rows.count, 0..self.columns.count);
        let mut lines = vec![vec!["row\\col".to_string()]];
        lines[0].extend(columns.clone().map(|j| self.shown(&self.columns.label(j))));
        let (mut used, mut filled) = (0, 0);
        for i in rows {
            let mut line = vec![self.shown(&self.rows.label(i))];
            for j in columns.clone() {
                let mean = self.mean(i, j);
                used += self.values(i, j).len();
                filled += usize::from(!mean.is_empty());
                line.push(mean);
            }
            lines.push(line);
        }
        let skipped = self.log.iter().filter(|line| line.is_none()).count();
        Binned {
            csv: joined(&lines, &self.dialect).into_bytes(),
            used,
            outside: self.log.len() - used - skipped,
            skipped,
            filled,
            bins: (self.rows.count * self.columns.count) as usize,
        }
    }
}

#[test]
fn means_beside_a_plain_count() {
    let mut dice = Dice::new(35);
    for _ in 0..20_000 {
        let case = Case::any(&mut dice);
        let text = case.text_of_log();
        let (delimiter, decimal) = (case.dialect.delimiter, case.dialect.decimal);
        let log = table(text.clone().into_bytes(), Some(delimiter), Some(decimal));
        let binned = log.and_then(|log| bin(&log, &case.bins()));
        assert_eq!(binned, Ok(case.expected()), "{text}");
    }
}

#[test]
fn any_log_without_a_panic() {
    let mut dice = Dice::new(36);
    let (mut taken, mut turned_back) = (0, 0);
    for _ in 0..100_000 {
        let case = Case::any(&mut dice);
        let mut bytes = case.text_of_log().into_bytes();
        for _ in 0..dice.below(3) {
            let place = dice.below(bytes.len());
            bytes[place] = dice.pick(b"\",;\t\n\r .5e-9x\0\xFF");
        }
        let lines = 1 + bytes.iter().filter(|&&byte| byte == b'\n').count();
        match table(bytes, None, None).and_then(|log| bin(&log, &case.bins())) {
            Ok(binned) => {
                assert!(binned.used + binned.outside + binned.skipped < lines);
                taken += 1;
            }
            Err(fault) => {
                assert!((1..=lines).contains(&fault.line), "{fault}");
                turned_back += 1;
            }
        }
    }
    assert!(
        taken > 10_000 && turned_back > 10_000,
        "{taken} {turned_back}"
    );
}
