//! Random pairs of windows on one chain, accepted, nearly accepted and not.
use crate::dice::Dice;
use crate::draft::Draft;
use crate::words::{chain_words, row_words, side_words};
use straight::{Chain, Factors, Kernel, Side, Window};

/// Grid, box, references and capacities of the draft are the chain's; its kernel and its order play no part.
#[derive(Clone, Debug)]
pub struct PairDraft {
    pub draft: Draft,
    pub halves: [Half; 2],
}

/// One of the two windows, with any counts and entries, in its author's order.
#[derive(Clone, Debug)]
pub struct Half {
    pub offsets: Vec<Vec<i16>>,
    pub kernel: u8,
    pub factors: [u32; 2],
}

/// A pair as it is handed over: the words of the chain and of the windows, and the rows.
#[derive(Clone, Debug)]
pub struct PairWords {
    pub chain: Vec<u32>,
    pub rows: Vec<u32>,
    pub first: Vec<u32>,
    pub second: Vec<u32>,
}

impl PairDraft {
    /// With a chain as planned or changed.
    pub fn random(dice: &mut Dice) -> PairDraft {
        let draft = Draft::random(dice);
        PairDraft::of(dice, draft)
    }

    /// One to be planned: distances whose sum is often above the limit.
    pub fn unplanned(dice: &mut Dice) -> PairDraft {
        let draft = Draft::unplanned(dice);
        PairDraft::of(dice, draft)
    }

    /// On a row of cells, as planned, with so many iterations that all of them read two or three times `words` cells.
    pub fn long(dice: &mut Dice, words: usize) -> PairDraft {
        let references = dice.pick(&[1, 2, 3, 5, 8, 13, 20, 31, 32]);
        let iterations = words / references * dice.pick(&[2, 3]) + dice.below(100);
        let draft = Draft::long(dice, references, iterations);
        PairDraft::of(dice, draft)
    }

    fn of(dice: &mut Dice, draft: Draft) -> PairDraft {
        let halves = share(dice, &draft.offsets).map(|offsets| {
            let mut half = Half {
                offsets,
                kernel: dice.below(4) as u8,
                factors: [dice.finite(), dice.finite()],
            };
            half.settle_centre(dice, &draft);
            half
        });
        let mut pair = PairDraft { draft, halves };
        for _ in 0..2 {
            if dice.one_in(6) {
                pair.spoil(dice);
            }
        }
        pair
    }

    /// A reference that one of the windows has twice, has not or has in addition; or a factor that is none.
    fn spoil(&mut self, dice: &mut Dice) {
        let dims = self.draft.ground.dims();
        let half = &mut self.halves[dice.below(2)];
        let count = half.offsets.len();
        match dice.below(5) {
            0 if count > 0 => {
                let twin = half.offsets[dice.below(count)].clone();
                half.offsets.insert(dice.below(count + 1), twin);
            }
            1 if count > 1 => {
                half.offsets.remove(dice.below(count));
            }
            2 => {
                let entry = |_| dice.between(-2, 2) as i16;
                half.offsets.push((0..dims).map(entry).collect());
            }
            3 => half.kernel = dice.pick(&[1, 3]),
            _ => {
                const BAD: [u32; 4] = [0x7F80_0000, 0xFF80_0000, 0x7FC0_0000, u32::MAX];
                half.factors[dice.below(2)] = dice.pick(&BAD);
                half.kernel = dice.pick(&[2, 3]);
            }
        }
    }

    pub fn sides(&self) -> [Side; 2] {
        [self.halves[0].side(), self.halves[1].side()]
    }

    pub fn words(&self) -> PairWords {
        let chain = self.draft.chain().unwrap_or(Chain::blank());
        let [first, second] = self.sides().map(|side| side_words(&side).to_vec());
        PairWords {
            chain: chain_words(&chain).to_vec(),
            rows: row_words(&chain),
            first,
            second,
        }
    }
}

impl Half {
    /// A kernel that needs the centre mostly finds it: in this window, taken from the other, or else it is another kernel.
    fn settle_centre(&mut self, dice: &mut Dice, draft: &Draft) {
        let zero = vec![0; draft.ground.dims()];
        let needs = [1, 3].contains(&self.kernel);
        if !needs || self.offsets.contains(&zero) || dice.one_in(10) {
            return;
        }
        if draft.offsets.contains(&zero) {
            self.offsets
                .insert(dice.below(self.offsets.len() + 1), zero);
        } else {
            self.kernel = dice.pick(&[0, 2]);
        }
    }

    /// The window as a value: references past the 32nd are counted alone.
    pub fn side(&self) -> Side {
        let offsets: Vec<&[i16]> = self.offsets.iter().map(|o| &o[..o.len().min(4)]).collect();
        let mut window = Window::new(&offsets[..offsets.len().min(32)]);
        window.count = offsets.len().min(255) as u8;
        Side {
            window,
            kernel: self.straight_kernel(),
        }
    }

    fn straight_kernel(&self) -> Kernel {
        let [a, b] = self.factors.map(f32::from_bits);
        match self.kernel {
            0 => Kernel::Raw,
            1 => Kernel::Difference,
            2 => Kernel::Scaled(a),
            _ => Kernel::Blend(Factors { a, b }),
        }
    }
}

/// Shares references out to two windows: all to both, none to both, some to both, one to one of them, those of one among those of the other; each in any order. A window
/// is seldom left empty.
fn share(dice: &mut Dice, offsets: &[Vec<i16>]) -> [Vec<Vec<i16>>; 2] {
    let kind = dice.below(8);
    let one = dice.below(offsets.len());
    let mut halves = [Vec::new(), Vec::new()];
    for (k, offset) in offsets.iter().enumerate() {
        let to = match kind {
            0 => [true, true],
            1 => [k == one, true],
            2 => [k == one, k != one],
            3 => [dice.one_in(2), true],
            4 | 5 => dice.pick(&[[true, false], [false, true]]),
            _ => dice.pick(&[[true, true], [true, false], [false, true]]),
        };
        for (half, to) in halves.iter_mut().zip(to) {
            if to {
                half.push(offset.clone());
            }
        }
    }
    for half in &mut halves {
        if half.is_empty() && !dice.one_in(20) {
            half.push(offsets[one].clone());
        }
        if !dice.one_in(4) {
            dice.shuffle(half);
        }
    }
    if dice.one_in(2) {
        halves.swap(0, 1);
    }
    halves
}
