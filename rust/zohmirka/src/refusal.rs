//! Why input is turned back.

/// Why input was turned back: the numbers of documents 01 and 02. Later ones may get names of their own.
#[derive(Clone, Copy, Debug, PartialEq, Eq, Hash)]
#[non_exhaustive]
pub enum Refusal {
    Malformed,
    Misplaced,
    BadGrid,
    BadCount,
    EqualOffsets,
    NoIteration,
    NoCentre,
    BadFactor,
    TooLarge,
    ShortStore,
    BadState,
    ShortOutput,
    BadName,
    /// Of a chain, an order that does not hold each filter number once; of a pair, a chain whose references are not those of both windows.
    BadOrder,
    BadBox,
    BadRows,
    /// A number that has no name here.
    Other(u32),
}

impl Refusal {
    pub fn number(self) -> u32 {
        match self {
            Refusal::Malformed => 1,
            Refusal::Misplaced => 2,
            Refusal::BadGrid => 3,
            Refusal::BadCount => 4,
            Refusal::EqualOffsets => 5,
            Refusal::NoIteration => 6,
            Refusal::NoCentre => 7,
            Refusal::BadFactor => 8,
            Refusal::TooLarge => 9,
            Refusal::ShortStore => 10,
            Refusal::BadState => 11,
            Refusal::ShortOutput => 12,
            Refusal::BadName => 13,
            Refusal::BadOrder => 14,
            Refusal::BadBox => 15,
            Refusal::BadRows => 16,
            Refusal::Other(number) => number,
        }
    }

    /// The refusal of a number, as on a `1F` line.
    pub fn of(number: u32) -> Refusal {
        match number {
            1 => Refusal::Malformed,
            2 => Refusal::Misplaced,
            3 => Refusal::BadGrid,
            4 => Refusal::BadCount,
            5 => Refusal::EqualOffsets,
            6 => Refusal::NoIteration,
            7 => Refusal::NoCentre,
            8 => Refusal::BadFactor,
            9 => Refusal::TooLarge,
            10 => Refusal::ShortStore,
            11 => Refusal::BadState,
            12 => Refusal::ShortOutput,
            13 => Refusal::BadName,
            14 => Refusal::BadOrder,
            15 => Refusal::BadBox,
            16 => Refusal::BadRows,
            _ => Refusal::Other(number),
        }
    }
}

impl std::fmt::Display for Refusal {
    fn fmt(&self, f: &mut std::fmt::Formatter<'_>) -> std::fmt::Result {
        let text = match self {
            Refusal::Malformed => "a malformed line",
            Refusal::Misplaced => "a line out of its order or missing",
            Refusal::BadGrid => "dimension count, sizes or number of cells",
            Refusal::BadCount => "number of references",
            Refusal::EqualOffsets => "two equal offsets",
            Refusal::NoIteration => "no iteration",
            Refusal::NoCentre => "difference or blend without a centre",
            Refusal::BadFactor => "a factor that is infinite or not a number",
            Refusal::TooLarge => "capacities summing above 16,384",
            Refusal::ShortStore => "a store that is too short",
            Refusal::BadState => "a state whose counters do not fit the chain",
            Refusal::ShortOutput => "an output that is too short for what is to be written",
            Refusal::BadName => "no name of a window, or one of other dimensions than the grid's",
            Refusal::BadOrder => "an order that does not hold each filter number once",
            Refusal::BadBox => "a box with a lowest index above its highest, or with an iteration that reads outside the grid",
            Refusal::BadRows => "a row count, start or length outside its range",
            Refusal::Other(_) => "a number that has no name here",
        };
        write!(f, "refused by {}: {}", self.number(), text)
    }
}

impl std::error::Error for Refusal {}

/// What a number that the library answers says.
pub(crate) fn accepted(number: u32) -> Result<(), Refusal> {
    if number == 0 {
        return Ok(());
    }
    Err(Refusal::of(number))
}

#[cfg(test)]
mod tests {
    use super::*;

    #[test]
    fn every_number_of_a_refusal_is_kept() {
        for number in 1..=300 {
            let refusal = Refusal::of(number);
            assert_eq!((refusal.number(), matches!(refusal, Refusal::Other(_))), (number, number > 16));
        }
    }
}
