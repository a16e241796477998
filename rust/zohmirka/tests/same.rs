//! `==` and hashes of chains: past the counts and in absent parts plays no part, everything else makes a difference.
use std::collections::hash_map::DefaultHasher;
use std::collections::HashSet;
use std::hash::{Hash, Hasher};
use zohmirka::{plan, Chain, Refusal, State, CHAIN_WORDS};

fn hash(chain: &Chain) -> u64 {
    let mut hasher = DefaultHasher::new();
    chain.hash(&mut hasher);
    hasher.finish()
}

/// Whether two chains are equal; if so, their hashes are.
fn same(one: &Chain, other: &Chain) -> bool {
    let equal = one == other;
    assert_eq!(equal, other == one);
    assert!(one == &one.clone() && other == &other.clone());
    assert_eq!(equal, hash(one) == hash(other));
    equal
}

fn planned(request: &str) -> Chain {
    Chain::read(&plan(request.as_bytes()).unwrap()).unwrap()
}

fn with(chain: &Chain, changes: &[(usize, u32)]) -> Chain {
    let mut other = chain.clone();
    changes.iter().for_each(|&(at, word)| other.words[at] = word);
    other
}

/// The chain with a word changed in several ways, of which each changes its meaning where it has one.
fn changed(chain: &Chain, at: usize) -> Vec<Chain> {
    let word = chain.words[at];
    [word ^ 1, word ^ 6, word.wrapping_add(5)].iter().map(|&other| with(chain, &[(at, other)])).collect()
}

/// Exactly these words play a part; the library agrees: a chain with another word is written as the same sheet, or it is another.
fn exactly(chain: &Chain, parts: &[usize]) {
    let sheet = chain.write().unwrap();
    for at in 0..CHAIN_WORDS {
        for other in changed(chain, at) {
            // A flag that is not 0 is one of many that say the same.
            let flag = [168, 201, 210].contains(&at) && chain.words[at] != 0 && other.words[at] != 0;
            let differs = parts.contains(&at) && !flag;
            assert_eq!(same(chain, &other), !differs, "word {at}: {} and {}", chain.words[at], other.words[at]);
            assert_eq!(other.write().as_ref() == Ok(&sheet), !differs, "word {at}: {} and {}", chain.words[at], other.words[at]);
        }
    }
}

#[test]
fn one_dimension_two_references_raw() {
    let chain = planned("010100000009\n020000\n020003\n0400\n");
    let always = [0, 1, 5, 6, 10, 134, 165, 168, 201, 210];
    exactly(&chain, &[always.as_slice(), &[169, 170]].concat());
    // Without the order its words play no part.
    exactly(&with(&chain, &[(168, 0)]), &always);
    assert!(same(&with(&chain, &[(168, 0), (169, 9)]), &with(&chain, &[(168, 0)])));
    // The chain order written out is not none, that of one reference neither.
    assert!(!same(&with(&chain, &[(169, 0), (170, 1)]), &with(&chain, &[(168, 0)])));
    let alone = planned("010100000009\n020000\n0400\n");
    assert!(!same(&alone, &with(&alone, &[(168, 0)])));
}

#[test]
fn two_dimensions_a_box_and_factors() {
    let plane = "01020000000900000009\n0200000000\n0200010000\n0200010001\n";
    let bounds = "0800000001000000050000000200000005\n";
    let entries = [0, 1, 2, 5, 6, 7, 10, 11, 14, 15, 134, 135, 165, 168, 169, 170, 171, 201, 210];
    exactly(&planned(&format!("{plane}0400\n")), &entries);
    let boxed = planned(&format!("{plane}{bounds}0400\n"));
    exactly(&boxed, &[entries.as_slice(), &[202, 203, 206, 207]].concat());
    // A box that did not stand, and one that is the full one.
    assert!(same(&with(&boxed, &[(201, 0)]), &planned(&format!("{plane}0400\n"))));
    let full = with(&boxed, &[(202, 0), (203, 0), (206, 7), (207, 7)]);
    assert_eq!(full.judge(), Ok(()));
    assert!(!same(&full, &with(&full, &[(201, 0)])));

    exactly(&planned(&format!("{plane}0401\n")), &entries);
    exactly(&planned(&format!("{plane}04023F000000\n")), &[entries.as_slice(), &[166]].concat());
    exactly(&planned(&format!("{plane}04033F0000003E800000\n")), &[entries.as_slice(), &[166, 167]].concat());
}

#[test]
fn four_dimensions_and_32_references() {
    let mut chain = Chain { words: [0; CHAIN_WORDS], rows: vec![] };
    chain.words[..6].copy_from_slice(&[4, 9, 9, 9, 99, 32]);
    for k in 0..32 {
        (chain.words[6 + 4 * k + 3], chain.words[169 + k]) = (62 - 2 * k as u32, k as u32);
    }
    chain.words[134..165].fill(2);
    (chain.words[168], chain.words[201]) = (1, 1);
    chain.words[206..210].copy_from_slice(&[8, 8, 8, 36]);
    // All words but the factors of raw and the row count of a rectangle.
    let parts: Vec<usize> = (0..CHAIN_WORDS).filter(|at| ![166, 167, 211].contains(at)).collect();
    exactly(&chain, &parts);
    let none = with(&chain, &[(201, 0), (168, 0)]);
    let parts: Vec<usize> = parts.into_iter().filter(|at| !(169..=200).contains(at) && !(202..=209).contains(at)).collect();
    exactly(&none, &parts);
}

#[test]
fn a_skewed_grid_and_its_rows() {
    // Columns 0 to 4, 1 to 5, 2 to 6 and 3 to 7: a cell and the one above.
    let rows = "09000400000005000100050002000500030005\n";
    let chain = planned(&format!("{rows}0200000000\n02FFFF0000\n0400\n"));
    // Dimension count and sizes play no part.
    let parts = [5, 6, 7, 10, 11, 134, 165, 168, 169, 170, 201, 210, 211];
    exactly(&chain, &parts);
    let boxed = planned(&format!("{rows}0200000000\n02FFFF0000\n0800000001000000020000000200000004\n0400\n"));
    exactly(&boxed, &[parts.as_slice(), &[202, 203, 206, 207]].concat());

    for at in 0..8 {
        let mut other = chain.clone();
        other.rows[at] += 1;
        assert!(!same(&chain, &other), "row number {at}");
    }
    let mut longer = chain.clone();
    longer.rows.extend([7, 7, 7]);
    assert!(same(&chain, &longer) && longer.write() == chain.write());
    // A fifth row is another grid, and a row that is missing is one of zeros.
    let five = with(&chain, &[(211, 5)]);
    let (mut zeros, mut sevens) = (five.clone(), with(&longer, &[(211, 5)]));
    zeros.rows.extend([0, 0, 0, 0]);
    assert!(same(&five, &zeros) && !same(&five, &chain) && !same(&five, &sevens));
    assert_eq!((five.judge(), zeros.judge()), (Err(Refusal::BadRows), Err(Refusal::BadRows)));
    sevens.rows.truncate(9);
    assert!(!same(&five, &sevens));
    let mut short = chain.clone();
    short.rows.truncate(7);
    assert!(!same(&chain, &short));
    short.rows.push(0);
    assert!(!same(&chain, &short));
    let most = with(&chain, &[(211, u32::MAX)]);
    assert!(same(&most, &most.clone()) && !same(&most, &five));

    // Of a rectangle neither the row count nor the rows play a part.
    let rectangle = planned("01020000000400000005\n0200000000\n02FFFF0000\n0400\n");
    let mut beside = with(&rectangle, &[(211, 4)]);
    beside.rows = chain.rows.clone();
    assert!(same(&rectangle, &beside) && beside.write() == rectangle.write());
    // No rows, and a rectangle of two dimensions without cells.
    let (none, empty) = (with(&chain, &[(211, 0)]), with(&rectangle, &[(1, 0), (2, 0), (134, chain.words[134])]));
    assert_eq!((none.judge(), empty.judge()), (Err(Refusal::BadRows), Err(Refusal::BadGrid)));
    assert!(!same(&none, &empty));
}

#[test]
fn what_the_library_takes_for_the_same() {
    let chain = planned("010100000009\n020000\n020003\n04023F800000\n");
    let pair = |one: &[(usize, u32)], other: &[(usize, u32)]| {
        let (one, other) = (with(&chain, one), with(&chain, other));
        if one == other {
            let run = |chain: &Chain| chain.run(&mut State::fresh(), &mut [0; 64], &[], &mut [], 0);
            assert_eq!((one.judge(), run(&one), one.write()), (other.judge(), run(&other), other.write()));
        }
        same(&one, &other)
    };
    // Counts and filter numbers from 255 on.
    for at in [0, 5, 169, 170] {
        assert!(pair(&[(at, 255)], &[(at, 256)]) && pair(&[(at, 255)], &[(at, u32::MAX)]), "word {at}");
        assert!(!pair(&[(at, 254)], &[(at, 255)]) && !pair(&[(at, 254)], &[(at, 510)]), "word {at}");
    }
    // Sizes, capacities and the row count are whole words.
    for at in [1, 134] {
        assert!(!pair(&[(at, 255)], &[(at, 256)]) && !pair(&[(at, 1)], &[(at, 0x0001_0001)]), "word {at}");
    }
    assert!(!pair(&[(210, 1), (211, 255)], &[(210, 1), (211, 256)]));
    // Entries: their low 16 bits.
    assert!(pair(&[(6, 0x0001_0003)], &[]) && pair(&[(6, 0xFFFF_0003)], &[]) && !pair(&[(6, 0x8003)], &[]));
    // Flags.
    for at in [168, 201, 210] {
        assert!(pair(&[(at, 1)], &[(at, u32::MAX)]) && pair(&[(at, 1)], &[(at, 256)]) && !pair(&[(at, 1)], &[(at, 0)]), "word {at}");
    }
    // Factors that are not a number are one, and so is a kernel that is none of the four.
    for nan in [0x7FC0_0000, 0x7F80_0001, 0xFFFF_FFFF] {
        assert!(pair(&[(166, nan)], &[(166, 0x7FC0_0000)]) && pair(&[(166, nan), (167, 5)], &[(165, 4)]));
        assert!(pair(&[(165, 3), (167, nan)], &[(165, 3), (167, 0x7FC0_0000)]));
        assert!(!pair(&[(165, 3), (166, nan)], &[(165, 4)]) && !pair(&[(166, nan)], &[]));
    }
    assert!(pair(&[(165, 4)], &[(165, u32::MAX), (166, 1), (167, 2)]));
    // Infinities and zeros by their sign.
    assert!(!pair(&[(166, 0x7F80_0000)], &[(166, 0x7FC0_0000)]) && !pair(&[(166, 0x7F80_0000)], &[(166, 0xFF80_0000)]));
    assert!(!pair(&[(166, 0)], &[(166, 0x8000_0000)]));
    // Another kernel with the same words behind it.
    assert!(!pair(&[(165, 0)], &[(165, 1)]) && !pair(&[(165, 2)], &[(165, 3)]) && pair(&[(165, 1)], &[(165, 1), (166, 9), (167, 9)]));
}

#[test]
fn equal_chains_are_one_in_a_set() {
    let chain = planned("010100000009\n020000\n020003\n0400\n");
    let others = [with(&chain, &[(2, 9)]), with(&chain, &[(7, 9), (166, 1)]), with(&chain, &[(168, 7), (171, 3)]), with(&chain, &[(134, 9)])];
    let set: HashSet<Chain> = others.into_iter().chain([chain.clone()]).collect();
    assert_eq!(set.len(), 2);
    assert!(set.contains(&chain) && set.contains(&with(&chain, &[(134, 9)])) && !set.contains(&with(&chain, &[(134, 8)])));
}

#[test]
fn references_and_width_count_to_255() {
    let chain = planned("010100000009\n020000\n020003\n0400\n");
    for (word, references) in [(0, 0), (32, 32), (33, 33), (255, 255), (256, 255), (300, 255), (u32::MAX, 255)] {
        let other = with(&chain, &[(5, word)]);
        assert_eq!((other.references(), other.width()), (references, references));
        assert_eq!((other.capacities().len(), other.order().map(|o| o.len())), (references.clamp(1, 32) - 1, Some(references.min(32))));
        assert_eq!(with(&other, &[(165, 1)]).width(), 1);
    }
}
