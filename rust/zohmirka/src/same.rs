//! Chains are equal by what plays a part.
use crate::{Chain, CHAIN_WORDS};
use std::hash::{Hash, Hasher};

impl PartialEq for Chain {
    fn eq(&self, other: &Chain) -> bool {
        self.normal() == other.normal()
    }
}

impl Eq for Chain {}

impl Hash for Chain {
    fn hash<H: Hasher>(&self, state: &mut H) {
        self.normal().hash(state);
    }
}

/// The bits of a factor; all that are not a number are one.
fn bits(factor: f32) -> u32 {
    if factor.is_nan() {
        return 0x7FC0_0000;
    }
    factor.to_bits()
}

impl Chain {
    /// All that plays a part, in one form, with 0 in the other words: the chain that `chain_in` (crates/zohmirka_words/specs/Words.antt) takes the words for, as
    /// `trimmed` (crates/model/specs/Values.antt) has it.
    fn normal(&self) -> ([u32; CHAIN_WORDS], &[u32]) {
        let words = &self.words;
        let (skewed, ordered, boxed) = (self.is_skewed(), words[168] != 0, words[201] != 0);
        let (dims, count) = (self.dimensions(), self.references());
        let mut normal = [0; CHAIN_WORDS];
        (normal[0], normal[5]) = (dims as u32, count as u32);
        (normal[168], normal[201], normal[210]) = (ordered as u32, boxed as u32, skewed as u32);
        for d in 0..dims.min(4) {
            if !skewed {
                normal[1 + d] = words[1 + d];
            }
            if boxed {
                (normal[202 + d], normal[206 + d]) = (words[202 + d], words[206 + d]);
            }
        }
        for k in 0..count.min(32) {
            for entry in 6 + 4 * k..(6 + 4 * k + dims).min(134) {
                normal[entry] = words[entry] & 0xFFFF;
            }
            if ordered {
                normal[169 + k] = words[169 + k].min(255);
            }
        }
        normal[134..134 + self.capacities().len()].copy_from_slice(self.capacities());
        let kernel = self.kernel();
        normal[165] = kernel.number().into();
        for (place, factor) in normal[166..168].iter_mut().zip(kernel.factors()) {
            *place = bits(factor);
        }
        let mut rows: &[u32] = &[];
        if skewed {
            normal[211] = words[211];
            rows = &self.rows[..self.rows.len().min(2 * words[211] as usize)];
        }
        let end = rows.iter().rposition(|&number| number != 0).map_or(0, |last| last + 1);
        (normal, &rows[..end])
    }
}
