//! Compares the library with `straight` on random and damaged input.
//!
//! COMPARE_SEED: the seed; the clock where there is none. COMPARE_ROUNDS: how many rounds. COMPARE_ROUND: this round alone, its input written to a file.
//! COMPARE_PLANS: no comparison with `straight`; so many random requests planned by the library alone, their counts and a digest printed, to be compared by `diff`
//! with what another build of the library prints (ZOHMIRKA_LIB names its folder); the seed is 0 where there is none.
use compare::plans;
use compare::round::{Differs, Round};
use compare::rounds::KINDS;
use compare::saved;
use compare::tally::Tally;
use std::fs::File;
use std::os::unix::fs::FileExt;
use std::panic::{catch_unwind, AssertUnwindSafe};
use std::time::{Instant, SystemTime, UNIX_EPOCH};

const ROUNDS: u64 = 500_000;

fn number(name: &str) -> Option<u64> {
    let text = std::env::var(name).ok()?;
    match text.parse() {
        Ok(number) => Some(number),
        Err(_) => {
            eprintln!("{name} is no number: {text}");
            std::process::exit(2);
        }
    }
}

fn go(seed: u64, at: u64, tally: &mut Tally, record: Option<File>) -> Result<(), Differs> {
    let (_, kind) = KINDS[(at % KINDS.len() as u64) as usize];
    let mut round = Round::new(seed, at, tally, record);
    catch_unwind(AssertUnwindSafe(|| kind(&mut round)))
        .unwrap_or_else(|_| Err(Differs("a panic".to_string())))
}

/// Makes a round once more and writes its input to a file, call by call.
fn record(seed: u64, at: u64) -> Result<(), Differs> {
    let name = saved(&format!("input-{seed}-{at}.txt"));
    let file = File::create(&name).expect("target/compare can be written");
    println!("input of round {at}: {}", name.display());
    go(seed, at, &mut Tally::new(), Some(file))
}

fn main() {
    if let Some(requests) = number("COMPARE_PLANS") {
        plans::print(number("COMPARE_SEED").unwrap_or(0), requests);
        return;
    }
    let seed = number("COMPARE_SEED").unwrap_or_else(|| {
        let now = SystemTime::now().duration_since(UNIX_EPOCH);
        now.expect("the clock is set").as_nanos() as u64 % 1_000_000_007
    });
    println!("seed {seed}");
    if let Some(at) = number("COMPARE_ROUND") {
        match record(seed, at) {
            Ok(()) => println!("round {at}: equal"),
            Err(Differs(what)) => {
                println!("round {at}: the two differ: {what}");
                std::process::exit(1);
            }
        }
        return;
    }

    let rounds = number("COMPARE_ROUNDS").unwrap_or(ROUNDS);
    let start = Instant::now();
    let mut tally = Tally::new();
    // Says which round was under way, should the process end by a signal.
    let under_way = File::create(saved("under-way")).expect("target/compare can be written");
    for at in 0..rounds {
        let line = format!("COMPARE_SEED={seed:<20} COMPARE_ROUND={at:<20}\n");
        let _ = under_way.write_all_at(line.as_bytes(), 0);
        if let Err(Differs(what)) = go(seed, at, &mut tally, None) {
            println!("round {at}: the two differ: {what}");
            let _ = record(seed, at);
            println!("again: COMPARE_SEED={seed} COMPARE_ROUND={at} rust/test");
            std::process::exit(1);
        }
    }
    let _ = std::fs::remove_file(saved("under-way"));
    for (k, (name, _)) in KINDS.iter().enumerate() {
        let count = (rounds + KINDS.len() as u64 - 1 - k as u64) / KINDS.len() as u64;
        println!("{count} rounds: {name}");
    }
    tally.print();
    let missing = tally.missing();
    for line in &missing {
        println!("{line}");
    }
    if !missing.is_empty() && rounds >= ROUNDS {
        std::process::exit(1);
    }
    println!(
        "equal in every word, in {:.0} s",
        start.elapsed().as_secs_f64()
    );
}
