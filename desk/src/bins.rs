//! The means of a log's lines, as a map.

mod axis;
mod decimal;

use crate::csv::{excerpt, number, Cells, Fault, Table, Writer};
pub use axis::Axis;
use axis::MOST_BINS;

/// What to make of a log: bins by two of its columns, and in each the mean of a third.
#[derive(Clone, Debug)]
pub struct Bins {
    rows: Axis,
    columns: Axis,
    value: String,
    least: usize,
}

impl Bins {
    /// A bin of fewer lines than the least stays empty.
    pub fn new(rows: Axis, columns: Axis, value: &str, least: usize) -> Result<Bins, String> {
        let bins = rows.count().saturating_mul(columns.count());
        if bins > MOST_BINS {
            return Err(format!("{bins} bins, and at most {MOST_BINS} are made"));
        }
        let value = value.trim().to_string();
        Ok(Bins {
            rows,
            columns,
            value,
            least,
        })
    }
}

/// The map, and what became of the log's lines.
#[derive(Clone, Debug, PartialEq, Eq)]
pub struct Binned {
    /// The map in the log's dialect.
    pub csv: Vec<u8>,
    /// Lines in bins.
    pub used: usize,
    /// Lines outside all bins.
    pub outside: usize,
    /// Lines with an empty field in one of the three columns.
    pub skipped: usize,
    /// Bins that have a mean.
    pub filled: usize,
    pub bins: usize,
}

#[derive(Clone, Copy, Default)]
struct Sum {
    lines: usize,
    sum: f64,
}

impl Sum {
    fn add(&mut self, value: f64) {
        self.lines += 1;
        self.sum += value;
    }

    fn mean(&self, least: usize) -> Option<f32> {
        // The mean of f32 numbers is one; the rounding of the sum may not lead beyond the largest.
        let largest = f64::from(f32::MAX);
        let mean = || (self.sum / self.lines as f64).clamp(-largest, largest) as f32;
        (self.lines >= least.max(1)).then(mean)
    }
}

/// The means of a log whose first line names its columns.
pub fn bin(log: &Table, bins: &Bins) -> Result<Binned, Fault> {
    log.expect_even()?;
    let names = [&bins.rows.name, &bins.columns.name, &bins.value];
    let mut fields = [0; 3];
    for (field, name) in fields.iter_mut().zip(names) {
        *field = column(log, name)?;
    }
    let (rows, columns) = (bins.rows.bounds(), bins.columns.bounds());
    let width = bins.columns.count();
    let mut sums = vec![Sum::default(); bins.rows.count() * width];
    let (mut used, mut outside, mut skipped) = (0, 0, 0);
    for line in 1..log.height() {
        let Some([row, column, value]) = numbers(log, line, fields)? else {
            skipped += 1;
            continue;
        };
        if let (Some(row), Some(column)) = (rows.place(row), columns.place(column)) {
            sums[row * width + column].add(value);
            used += 1;
        } else {
            outside += 1;
        }
    }
    let means: Vec<Option<f32>> = sums.iter().map(|sum| sum.mean(bins.least)).collect();
    Ok(Binned {
        csv: written(log, bins, &means),
        used,
        outside,
        skipped,
        filled: means.iter().flatten().count(),
        bins: means.len(),
    })
}

/// The field of the column of a name.
fn column(log: &Table, name: &str) -> Result<usize, Fault> {
    let mut named = (0..log.width(0)).filter(|&field| log.field(0, field) == name);
    let Some(first) = named.next() else {
        return Err(unknown(log, name));
    };
    match named.next() {
        Some(second) => Err(log.fault(0, second, format!("a second column {}", excerpt(name)))),
        None => Ok(first),
    }
}

fn unknown(log: &Table, name: &str) -> Fault {
    const MOST_NAMES: usize = 100;
    let width = log.width(0);
    let listed = (0..width.min(MOST_NAMES)).map(|field| excerpt(log.field(0, field)));
    let names = listed.collect::<Vec<_>>().join(", ");
    let more = if width > MOST_NAMES { ", .." } else { "" };
    let text = format!("no column {}; the columns are {names}{more}", excerpt(name));
    Fault::of_file(text)
}

/// The numbers in the fields of a line, and none where one of the fields is empty.
fn numbers(log: &Table, line: usize, fields: [usize; 3]) -> Result<Option<[f64; 3]>, Fault> {
    let is_empty = |&field: &usize| log.field(line, field).is_empty();
    if fields.iter().any(is_empty) {
        return Ok(None);
    }
    let mut numbers = [0.0; 3];
    for (number, field) in numbers.iter_mut().zip(fields) {
        *number = number_in(log, line, field)?;
    }
    Ok(Some(numbers))
}

/// A number that is not too large for an f32, so that no sum of them is too large for an f64.
fn number_in(log: &Table, line: usize, field: usize) -> Result<f64, Fault> {
    let text = log.field(line, field);
    let wrong = match number::<f64>(text, log.dialect().decimal) {
        Some(number) if (number as f32).is_finite() => return Ok(number),
        Some(_) => "too large for an f32",
        None => "not a number",
    };
    let (text, name) = (excerpt(text), excerpt(log.field(0, field)));
    Err(log.fault(line, field, format!("{text} is {wrong} (column {name})")))
}

fn written(log: &Table, bins: &Bins, means: &[Option<f32>]) -> Vec<u8> {
    let dialect = *log.dialect();
    let mut writer = Writer::new(dialect);
    writer.field(&format!("{}\\{}", bins.rows.name, bins.columns.name));
    for column in 0..bins.columns.count() {
        writer.field(&dialect.with_decimal(bins.columns.label(column)));
    }
    writer.end_line();
    for (row, means) in means.chunks(bins.columns.count()).enumerate() {
        writer.field(&dialect.with_decimal(bins.rows.label(row)));
        for mean in means {
            let shown = |mean: &f32| dialect.shown(mean.to_bits(), Cells::F32, None);
            writer.field(&mean.as_ref().map_or(String::new(), shown));
        }
        writer.end_line();
    }
    writer.into_bytes()
}

#[cfg(test)]
mod tests {
    use super::*;
    use crate::csv::table;

    const LOG: &str = "time,rpm, torque ,load\n\
                       0,610,100,5\n\
                       1,590,101,4.5\n\
                       2,575,7,7.5\n\
                       3,624.9,3,12.5\n\
                       4,,3,12.5\n\
                       5,650,4,10\n\
                       6,650, ,10\n";

    fn bins(rows: &str, columns: &str, value: &str, least: usize) -> Bins {
        let axis = |text| Axis::parse(text).expect("a good axis");
        Bins::new(axis(rows), axis(columns), value, least).expect("few bins")
    }

    fn binned(log: &str, bins: &Bins) -> Result<Binned, String> {
        let log = table(log.as_bytes().to_vec(), None, None).expect("the log is well formed");
        bin(&log, bins).map_err(|fault| fault.to_string())
    }

    #[test]
    fn means_of_a_log() {
        let bins = bins("load=5:10:5", "rpm=600:650:50", "torque", 1);
        let expected = Binned {
            csv: b"load\\rpm,600,650\n5,100.5,\n10,7,4\n".to_vec(),
            used: 4,
            outside: 1,
            skipped: 2,
            filled: 3,
            bins: 4,
        };
        assert_eq!(binned(LOG, &bins), Ok(expected));
    }

    #[test]
    fn bins_of_few_lines_are_empty() {
        let few =
            binned(LOG, &bins("load=5:10:5", "rpm=600:650:50", "torque", 2)).expect("a good log");
        assert_eq!(few.csv, b"load\\rpm,600,650\n5,100.5,\n10,,\n");
        assert_eq!((few.used, few.filled), (4, 1));
        let none =
            binned(LOG, &bins("load=5:10:5", "rpm=600:650:50", "torque", 0)).expect("a good log");
        assert_eq!(none.filled, 3);
    }

    #[test]
    fn the_dialect_is_the_logs() {
        let log = "\u{feff}n;m;\"a;b\"\r\n0,5;1,5;0,1\r\n0,5;1,5;0,2\r\n";
        let map = binned(log, &bins("a;b=0.1:0.2:0.1", "m=1.5:1.5:1", "n", 1)).expect("a good log");
        let expected = "\u{feff}\"a;b\\m\";1,5\r\n0,1;0,5\r\n0,2;0,5\r\n";
        assert_eq!(String::from_utf8(map.csv).as_deref(), Ok(expected));
    }

    #[test]
    fn faults_of_a_log() {
        let fault = |log, value| {
            let bins = bins("load=5:10:5", "rpm=600:650:50", value, 1);
            binned(log, &bins).unwrap_err()
        };
        assert_eq!(
            fault("rpm,load\n1,2\n", "torque"),
            "1: no column \"torque\"; the columns are \"rpm\", \"load\""
        );
        assert_eq!(
            fault("rpm,load,rpm\n1,2,3\n", "load"),
            "1:3: a second column \"rpm\""
        );
        assert_eq!(
            fault("rpm,load\n1,2\n3,x\n", "load"),
            "3:2: \"x\" is not a number (column \"load\")"
        );
        assert_eq!(
            fault("rpm,load\n1e39,2\n", "load"),
            "2:1: \"1e39\" is too large for an f32 (column \"rpm\")"
        );
        assert_eq!(
            fault("rpm,load\n1,2\n3\n", "load"),
            "3: 1 field, and the first line has 2"
        );
        let names: String = (1..=100).map(|name| format!("c{name},")).collect();
        assert!(fault(&names, "load").ends_with("\"c100\", .."));
        let names = names.trim_end_matches(',');
        assert!(fault(names, "load").ends_with("\"c100\""));
    }

    #[test]
    fn the_largest_numbers_have_a_mean() {
        // The largest f64 that is rounded to an f32 and not to infinity.
        let largest = "340282356779733623858607532500980858880";
        let log = format!("x,v\n{}", format!("1,{largest}\n").repeat(7));
        let map = binned(&log, &bins("x=1:1:1", "x=1:1:1", "v", 1)).expect("a good log");
        let expected = "x\\x,1\n1,3.4028235e38\n".to_string();
        assert_eq!(String::from_utf8(map.csv), Ok(expected));
    }

    #[test]
    fn there_are_not_too_many_bins() {
        let axis = |text| Axis::parse(text).expect("a good axis");
        assert!(Bins::new(axis("a=1:1024:1"), axis("b=1:1024:1"), "v", 1).is_ok());
        assert_eq!(
            Bins::new(axis("a=1:1024:1"), axis("b=1:1025:1"), "v", 1).err(),
            Some("1049600 bins, and at most 1048576 are made".to_string())
        );
    }
}
