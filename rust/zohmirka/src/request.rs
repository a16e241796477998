//! Requests built by calls, and their sheets.
use crate::{plan, Chain, Kernel, Refusal};

/// A window of the fixed list (docs/SHEETS.md, "Windows by name"). It is not open for later names, for the same reason as `Kernel`.
#[derive(Clone, Copy, Debug, PartialEq, Eq, Hash)]
pub enum NamedWindow {
    /// The five-point cross, of two dimensions.
    Cross,
    /// The four neighbours, of two dimensions.
    Four,
    /// The 3 by 3 square, of two dimensions.
    Square,
    /// The seven-point cross, of three dimensions.
    Seven,
    /// The 27 points of a cube less its 8 corners, of three dimensions.
    Nineteen,
}

impl NamedWindow {
    /// Its byte on an `07` line.
    fn byte(self) -> u8 {
        match self {
            NamedWindow::Cross => 1,
            NamedWindow::Four => 2,
            NamedWindow::Square => 3,
            NamedWindow::Seven => 4,
            NamedWindow::Nineteen => 5,
        }
    }
}

/// A request: a grid, a window, perhaps a smaller box, a kernel. It may hold anything; what is wrong with it is the library's to say, in `plan`, by the number that
/// its sheet is answered with.
///
/// Here the five-point cross on 4 rows of 5 cells, and then the same references in another order, which decides in which order the kernel adds:
///
/// ```
/// use zohmirka::{Kernel, NamedWindow, Request};
/// let request = Request::on_rectangle(&[4, 5]).named(NamedWindow::Cross).kernel(Kernel::Blend { a: 0.5, b: 0.125 });
/// assert_eq!(request.sheet(), b"01020000000400000005\n0701\n04033F0000003E000000\n");
/// let chain = request.plan().unwrap();
/// assert_eq!((chain.capacities(), chain.order()), ([4, 1, 1, 4].as_slice(), Some([0, 1, 2, 3, 4].as_slice())));
///
/// let request = Request::on_rectangle(&[4, 5]).kernel(Kernel::Difference);
/// let request = [[0, 0], [0, -1], [0, 1], [-1, 0], [1, 0]].iter().fold(request, |request, offset| request.reference(offset));
/// assert_eq!(request.plan().unwrap().order(), Some([2, 3, 1, 4, 0].as_slice()));
/// ```
///
/// A number that has no room on its line is written as the largest that has, which the library refuses in any case: more than 255 dimensions as 255 (by 3), and a row
/// count, a start or a length above 65,535 as 65,535 (by 16).
#[derive(Clone, Debug)]
pub struct Request {
    grid: Grid,
    window: Vec<Part>,
    bounds: Option<Vec<(i32, i32)>>,
    kernel: Kernel,
}

#[derive(Clone, Debug)]
enum Grid {
    Rectangle(Vec<u32>),
    Rows(Vec<(u32, u32)>),
}

/// A line of the window.
#[derive(Clone, Debug)]
enum Part {
    Name(NamedWindow),
    Offset(Vec<i16>),
}

impl Request {
    /// On a rectangle of these sizes, slowest dimension first; without a window yet.
    pub fn on_rectangle(sizes: &[u32]) -> Request {
        Request::on(Grid::Rectangle(sizes.to_vec()))
    }

    /// On a skewed grid of these rows, from the top, each by its start and its length; without a window yet.
    pub fn on_rows(rows: &[(u32, u32)]) -> Request {
        Request::on(Grid::Rows(rows.to_vec()))
    }

    fn on(grid: Grid) -> Request {
        Request { grid, window: Vec::new(), bounds: None, kernel: Kernel::Raw }
    }

    /// With a window by its name, which stands for all references: one more reference, before or behind it, is refused by 2, and so is one more name.
    pub fn named(mut self, window: NamedWindow) -> Request {
        self.window.push(Part::Name(window));
        self
    }

    /// With one more reference: its offset, an entry for each dimension. The order of these calls is the author's, in which the kernel adds.
    pub fn reference(mut self, offset: &[i16]) -> Request {
        self.window.push(Part::Offset(offset.to_vec()));
        self
    }

    /// With the box of these iterations alone, in place of one that was given before: the lowest and the highest index, for each dimension in turn.
    pub fn bounds(mut self, ends: &[(i32, i32)]) -> Request {
        self.bounds = Some(ends.to_vec());
        self
    }

    /// With this kernel in place of the one before, which is raw at first.
    pub fn kernel(mut self, kernel: Kernel) -> Request {
        self.kernel = kernel;
        self
    }

    /// The request sheet (docs/SHEETS.md).
    pub fn sheet(&self) -> Vec<u8> {
        let mut lines = vec![self.grid.line()];
        lines.extend(self.window.iter().map(Part::line));
        lines.extend(self.bounds.iter().map(|ends| box_line(ends)));
        lines.push(kernel_line(self.kernel));
        lines.iter().flat_map(|line| text(line)).collect()
    }

    /// The request planned, and its chain read.
    pub fn plan(&self) -> Result<Chain, Refusal> {
        Chain::read(&plan(&self.sheet())?)
    }
}

impl Grid {
    fn line(&self) -> Vec<u8> {
        match self {
            Grid::Rectangle(sizes) => {
                let dimensions = u8::try_from(sizes.len()).unwrap_or(u8::MAX);
                line(0x01, [dimensions].into_iter().chain(sizes.iter().flat_map(|size| size.to_be_bytes())))
            }
            Grid::Rows(rows) => {
                let count = u16::try_from(rows.len()).unwrap_or(u16::MAX);
                let numbers = rows.iter().flat_map(|&(start, length)| [start, length]).map(|number| u16::try_from(number).unwrap_or(u16::MAX));
                line(0x09, [count].into_iter().chain(numbers).flat_map(u16::to_be_bytes))
            }
        }
    }
}

impl Part {
    fn line(&self) -> Vec<u8> {
        match self {
            Part::Name(window) => line(0x07, [window.byte()]),
            Part::Offset(entries) => line(0x02, entries.iter().flat_map(|entry| entry.to_be_bytes())),
        }
    }
}

fn box_line(ends: &[(i32, i32)]) -> Vec<u8> {
    line(0x08, ends.iter().flat_map(|&(lowest, highest)| [lowest, highest]).flat_map(i32::to_be_bytes))
}

fn kernel_line(kernel: Kernel) -> Vec<u8> {
    let factors = kernel.factors().into_iter().map(f32::to_bits);
    line(0x04, [kernel.number()].into_iter().chain(factors.flat_map(u32::to_be_bytes)))
}

/// The bytes of a line, of which the first says its kind.
fn line(kind: u8, rest: impl IntoIterator<Item = u8>) -> Vec<u8> {
    [kind].into_iter().chain(rest).collect()
}

/// A line as text: two digits for each byte, then LF.
fn text(line: &[u8]) -> Vec<u8> {
    const DIGITS: &[u8; 16] = b"0123456789ABCDEF";
    let digits = line.iter().flat_map(|&byte| [DIGITS[usize::from(byte / 16)], DIGITS[usize::from(byte % 16)]]);
    digits.chain([b'\n']).collect()
}
