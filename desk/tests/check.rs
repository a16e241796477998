//! What `check` says of a chain, beside a run of it.
use compare::dice::Dice;
use compare::draft::Draft;
use desk::place::{self, End};
use desk::verdict::{check, Verdict};

#[test]
fn a_chain_finishes_exactly_if_its_run_does() {
    let mut dice = Dice::new(11);
    let (mut finish, mut rise, mut short, mut none) = (0, 0, 0, 0);
    for _ in 0..60_000 {
        let draft = Draft::random(&mut dice);
        let sheet = draft.chain_text();
        let Ok(checked) = check("x", &sheet) else {
            assert!(
                zohmirka::judge(&sheet).is_err(),
                "{}",
                String::from_utf8_lossy(&sheet)
            );
            continue;
        };
        let cells = checked.chain.cells() as usize;
        if cells > 20_000 {
            continue;
        }
        let numbers: Vec<u32> = (0..cells as u32).collect();
        let ran = place::run(&checked.chain, &numbers, |_| {}).unwrap();
        assert_eq!(
            checked.finishes(),
            ran.end == End::Done,
            "{}",
            String::from_utf8_lossy(&sheet)
        );
        assert_eq!(
            checked.words().starts_with("finishes: "),
            checked.finishes()
        );
        match checked.verdict {
            Verdict::Finishes => finish += 1,
            Verdict::Rises(_) => rise += 1,
            Verdict::Short(_) => short += 1,
            Verdict::NoStore => none += 1,
        }
    }
    let counts = [finish, rise, short, none];
    assert!(finish > 2000 && rise > 1000 && short > 2000, "{counts:?}");
}

/// Each place that the words name is the one that is short: with as many as it needs there, and in every FIFO behind it,
/// the chain finishes.
#[test]
fn what_is_named_is_what_is_short() {
    let mut dice = Dice::new(13);
    let mut mended = 0;
    for _ in 0..20_000 {
        let mut draft = Draft::random(&mut dice);
        let Ok(checked) = check("x", &draft.chain_text()) else {
            continue;
        };
        let (Verdict::Short(k), Some(needs)) = (checked.verdict.clone(), checked.needs.clone())
        else {
            continue;
        };
        assert!(draft.capacities[k] < needs[k] && (0..k).all(|j| draft.capacities[j] >= needs[j]));
        draft.capacities[k..].copy_from_slice(&needs[k..]);
        if let Ok(checked) = check("x", &draft.chain_text()) {
            assert!(checked.finishes());
            mended += 1;
        }
    }
    assert!(mended > 500, "{mended}");
}
