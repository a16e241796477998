//! What a chain makes of the words of a firing.

/// A kernel (docs/SHEETS.md, "Kernels"). The centre is the reference with offset zero. The enum is not open for later kernels, as documents 01 and 02 have these four;
/// were there a fifth, the compiler would name each place that tells them apart.
///
/// Any factors may stand here; the library refuses those that are infinite or not a number, by 8. Kernels are compared as f32 are: one with a factor that is not a
/// number equals none.
#[derive(Clone, Copy, Debug, PartialEq)]
pub enum Kernel {
    /// The cells of all references, in chain order, as they are.
    Raw,
    /// The sum of the squares of centre less each other reference.
    Difference,
    /// The sum of all references, times the factor.
    Scaled(f32),
    /// a times the centre, plus b times the sum of the others.
    Blend { a: f32, b: f32 },
}

impl Kernel {
    /// The kernel of a number, as the library takes it: one above 3 is a scaled one whose factor is not a number.
    pub(crate) fn of(number: u32, a: f32, b: f32) -> Kernel {
        match number {
            0 => Kernel::Raw,
            1 => Kernel::Difference,
            2 => Kernel::Scaled(a),
            3 => Kernel::Blend { a, b },
            _ => Kernel::Scaled(f32::NAN),
        }
    }

    /// Its number in chains and on an `04` line.
    pub(crate) fn number(self) -> u8 {
        match self {
            Kernel::Raw => 0,
            Kernel::Difference => 1,
            Kernel::Scaled(_) => 2,
            Kernel::Blend { .. } => 3,
        }
    }

    pub(crate) fn factors(self) -> Vec<f32> {
        match self {
            Kernel::Raw | Kernel::Difference => vec![],
            Kernel::Scaled(factor) => vec![factor],
            Kernel::Blend { a, b } => vec![a, b],
        }
    }
}
