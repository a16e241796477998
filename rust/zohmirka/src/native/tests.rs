//! Slices of other lengths than those that the header names.
use super::*;
use crate::{Chain, CHAIN_WORDS};

const SHEET: &[u8] = b"010100000005\n020003\n020000\n0300000003\n060100\n0400\n";
/// Three rows, of two cells, one and one.
const SKEWED: &[u8] = b"090003000200020002000100020001\n0200000000\n02FFFF0000\n0300000002\n060001\n0400\n";
const ROWS: [u32; 6] = [2, 2, 2, 1, 2, 1];

/// A call on a chain and its rows, and on the first `state_len` words of a state: its refusal, its outcome and the state's words.
fn call(chain: &[u32], rows: &[u32], state_len: usize) -> (u32, u32, [u32; 40]) {
    let (mut state, mut store, cells, mut out) = ([0; 40], [0; 3], [1, 2, 3, 4, 5], [0; 4]);
    state[33..].fill(6);
    let report = run_chain(chain, rows, &mut state[..state_len], &mut store, &cells, &mut out, 100);
    (report.refusal, report.outcome, state)
}

/// What turns a chain and its rows back in judging and in writing, and what is written to a sheet of 100 bytes.
fn judged_and_written(chain: &[u32], rows: &[u32]) -> (u32, u32, Vec<u8>) {
    let mut sheet = [0; 100];
    let judged = judge_chain(chain, rows);
    let wrote = write_chain(chain, rows, &mut sheet);
    assert!(sheet[wrote.bytes..].iter().all(|&b| b == 0));
    (judged, wrote.refusal, sheet[..wrote.bytes].to_vec())
}

#[test]
fn slices_of_other_lengths() {
    let mut chain = [7; 240];
    for len in [0, 168, 201, 210, 211] {
        assert_eq!(read_chain(SHEET, &mut chain[..len], &mut []), 12);
    }
    assert_eq!(chain, [7; 240]);
    let mut rows = [5; 4];
    assert_eq!((read_chain(SHEET, &mut chain, &mut rows), rows), (0, [5; 4]));
    assert!(chain[212..].iter().all(|&w| w == 7));

    let mut untouched = [0; 40];
    untouched[33..].fill(6);
    for len in [0, 168, 201, 210, 211] {
        assert_eq!(call(&chain[..len], &[], 33), (3, 5, untouched));
    }
    assert_eq!(call(&chain[..0], &[], 0), (3, 5, untouched));
    assert_eq!(call(&chain[..212], &[], 32), (11, 5, untouched));
    assert_eq!(call(&chain, &[], 0), (11, 5, untouched));
    let mut done = untouched;
    (done[0], done[1], done[32]) = (5, 2, 2);
    assert_eq!(call(&chain[..212], &[], 33), (0, 0, done));
    assert_eq!(call(&chain, &[0; 9], 40), (0, 0, done));
}

#[test]
fn rows_of_other_lengths() {
    let (mut chain, mut rows) = ([7; 240], [5; 9]);
    for len in 0..6 {
        assert_eq!(read_chain(SKEWED, &mut chain, &mut rows[..len]), 12);
    }
    assert_eq!(read_chain(SKEWED, &mut chain[..211], &mut rows), 12);
    assert_eq!((chain, rows), ([7; 240], [5; 9]));
    assert_eq!(read_chain(SKEWED, &mut chain, &mut rows[..6]), 0);
    assert_eq!((&rows[..6], &rows[6..]), (ROWS.as_slice(), [5; 3].as_slice()));
    assert_eq!((read_chain(SKEWED, &mut chain, &mut rows), &rows[6..]), (0, [5; 3].as_slice()));

    let mut done = [0; 40];
    (done[0], done[1], done[32]) = (4, 3, 2);
    done[33..].fill(6);
    for len in 0..6 {
        let (refusal, outcome, _) = call(&chain, &rows[..len], 33);
        assert_eq!((refusal, outcome), (16, 5));
        assert_eq!(judged_and_written(&chain, &rows[..len]), (16, 16, vec![]));
    }
    for len in 6..9 {
        assert_eq!(call(&chain, &rows[..len], 33), (0, 0, done));
        assert_eq!(judged_and_written(&chain, &rows[..len]), (0, 0, SKEWED.to_vec()));
    }
}

#[test]
fn chains_of_other_lengths() {
    let mut chain = [7; 240];
    chain[..CHAIN_WORDS].copy_from_slice(&Chain::read(SHEET).unwrap().words);
    for len in [0, 168, 201, 210, 211] {
        assert_eq!(judged_and_written(&chain[..len], &[]), (3, 3, vec![]));
    }
    for len in [212, 240] {
        assert_eq!(judged_and_written(&chain[..len], &[]), (0, 0, SHEET.to_vec()));
    }
}
