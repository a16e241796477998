//! Planning, judging and reading sheets.
use super::table::{ratio, Table};
use super::timing::least;
use crate::dice::Dice;
use crate::draft::Draft;
use crate::ground::Ground;
use std::hint::black_box;
use straight::sheet::push_line;
use zohmirka::SHEET_BYTES;

const WINDOWS: usize = 100_000;
const MAPS: usize = 20_000;

fn bytes(sheets: &[Vec<u8>]) -> usize {
    sheets.iter().map(Vec::len).sum()
}

/// Megabytes per second.
fn speed(bytes: usize, nanos: f64) -> String {
    format!("{:.0}", bytes as f64 * 1000.0 / nanos)
}

fn plan_straight(request: &[u8], sheet: &mut [u8]) -> usize {
    let request = straight::read_request(request).expect("the request is accepted");
    let chain = straight::plan(&request).expect("the request is accepted");
    straight::write_chain(&chain, sheet).expect("the sheet fits")
}

fn rows(table: &mut Table, name: &str, requests: &[Vec<u8>]) {
    let chains: Vec<Vec<u8>> = requests
        .iter()
        .map(|request| zohmirka::plan(request).expect("the request is accepted"))
        .collect();
    let (mut x, mut y) = ([0; SHEET_BYTES], [0; SHEET_BYTES]);
    for (request, chain) in requests.iter().zip(&chains) {
        let written = plan_straight(request, &mut x);
        assert!(x[..written] == chain[..]);
    }
    let [plan, a_plan, judge, a_judge, read, a_read] = least([
        &mut || {
            for request in requests {
                let _ = black_box(zohmirka::plan_into(black_box(request), &mut x));
            }
        },
        &mut || {
            for request in requests {
                black_box(plan_straight(black_box(request), &mut y));
            }
        },
        &mut || {
            for chain in &chains {
                let _ = black_box(zohmirka::judge(black_box(chain)));
            }
        },
        &mut || {
            for chain in &chains {
                let _ = black_box(straight::read_chain(black_box(chain)).map(|_| ()));
            }
        },
        &mut || {
            for chain in &chains {
                let _ = black_box(zohmirka::Chain::read(black_box(chain)));
            }
        },
        &mut || {
            for chain in &chains {
                let _ = black_box(straight::read_chain(black_box(chain)));
            }
        },
    ]);
    let both = bytes(requests) + bytes(&chains);
    let mut row = |what: &str, bytes: usize, library: f64, straight: f64| {
        table.row(vec![
            format!("{name}: {what}"),
            format!("{:.1}", library / 1e6),
            format!("{:.1}", straight / 1e6),
            format!("{:.2}", library / 1000.0 / requests.len() as f64),
            speed(bytes, library),
            speed(bytes, straight),
            ratio(straight / library, true),
        ]);
    };
    row("planned, read and written", both, plan, a_plan);
    row("chain sheets judged", bytes(&chains), judge, a_judge);
    row("chain sheets read into words", bytes(&chains), read, a_read);
}

/// 512 rows with the five-point cross by name.
fn most_rows() -> Vec<u8> {
    let row = |number: u16| [number, 1024 - number];
    let mut text = Vec::new();
    push_line(&mut text, &Ground::Rows((0..512).map(row).collect()).line());
    push_line(&mut text, &[7, 1]);
    push_line(&mut text, &[4, 0]);
    text
}

pub fn sheets() {
    let mut table = Table::new(&[
        "sheets",
        "library, ms",
        "straight, ms",
        "µs per sheet",
        "library, MB/s",
        "straight, MB/s",
        "straight / library",
    ]);
    let mut dice = Dice::new(1);
    let requests: Vec<Vec<u8>> = (0..WINDOWS)
        .map(|_| Draft::accepted(&mut dice).request_text())
        .collect();
    rows(&mut table, "100,000 windows", &requests);
    let longest = requests.iter().max_by_key(|text| text.len()).unwrap();
    let copies = vec![longest.clone(); 10_000];
    let name = format!("10,000 times {} bytes", longest.len());
    rows(&mut table, &name, &copies);

    let requests: Vec<Vec<u8>> = (0..MAPS)
        .map(|_| Draft::accepted_skewed(&mut dice).request_text())
        .collect();
    rows(&mut table, "20,000 windows on rows", &requests);
    let copies = vec![most_rows(); 1000];
    rows(&mut table, "1,000 times 512 rows", &copies);

    // A long line that is refused by 2 after its last character.
    let mut long = b"0123456789ABCDEF".repeat(1 << 16);
    long[..2].copy_from_slice(b"02");
    long.push(b'\n');
    assert_eq!(zohmirka::judge(&long), Err(zohmirka::Refusal::Misplaced));
    let [library, straight] = least([
        &mut || {
            let _ = black_box(zohmirka::judge(black_box(&long)));
        },
        &mut || {
            let _ = black_box(straight::read_chain(black_box(&long)));
        },
    ]);
    table.row(vec![
        "a line of 1,048,576 digits".to_string(),
        format!("{:.1}", library / 1e6),
        format!("{:.1}", straight / 1e6),
        format!("{:.2}", library / 1000.0),
        speed(long.len(), library),
        speed(long.len(), straight),
        ratio(straight / library, true),
    ]);
    table.print("Sheets: planning (a request sheet read, planned, its chain sheet written), judging and reading. MB/s of sheets read and written.");
}
