//! The planner's steps, with numbers worked out by hand: of plans, and of requests that 7, 8 or 9 turn back.

use straight::*;

/// Centre, left, right, up, down, as Listing 1 of document 003 names them.
const LISTING_1: [&[i16]; 5] = [&[0, 0], &[0, -1], &[0, 1], &[-1, 0], &[1, 0]];

/// What the steps give for references in the author's order, without a box and with one.
struct Row<'a> {
    sizes: &'a [u32],
    author: &'a [&'a [i16]],
    sorted: &'a [&'a [i16]],
    filters: &'a [u8],
    distances: &'a [u32],
    total: u64,
    /// A box that fits.
    inside: &'a [[i32; 2]],
}

impl Row<'_> {
    /// Looks at the steps, and at the plan with this kernel: a chain made of them, or this number.
    fn check(&self, kernel: Kernel, number: u8) {
        let request = Request::new(self.sizes, self.author, kernel);
        let want = Steps {
            window: Window::new(self.sorted),
            filters: self.filters.to_vec(),
            distances: self.distances.to_vec(),
            total: self.total,
        };
        let mut chain = Chain::new(self.sizes, self.sorted, self.distances, kernel);
        chain.order = Order::new(self.filters);
        let planned = |bounds: Bounds| {
            let steps = steps(&request.grid, &request.window, &bounds);
            let plan = plan(&Request { bounds, ..request });
            let number = |refusal: Refusal| refusal.number();
            (steps.map_err(number), plan.map_err(number))
        };
        for ends in [None, Some(self.inside)] {
            let bounds = ends.map_or(Bounds::none(), Bounds::new);
            let chain = Chain { bounds, ..chain };
            let answer = if number == 0 { Ok(chain) } else { Err(number) };
            assert_eq!(planned(bounds), (Ok(want.clone()), answer));
        }
        // One past the grid: 15, before the kernel and the sum are looked at.
        let mut ends = self.inside.to_vec();
        ends[0][1] = self.sizes[0] as i32;
        assert_eq!(planned(Bounds::new(&ends)), (Err(15), Err(15)));
    }
}

#[test]
fn the_example_of_the_paper() {
    let row = Row {
        sizes: &[768, 1024],
        author: &LISTING_1,
        sorted: &[&[1, 0], &[0, 1], &[0, 0], &[0, -1], &[-1, 0]],
        filters: &[2, 3, 1, 4, 0],
        distances: &[1023, 1, 1, 1023],
        total: 2048,
        inside: &[[1, 766], [1, 1022]],
    };
    row.check(Kernel::Difference, 0);
    row.check(Kernel::Scaled(f32::INFINITY), 8);
}

#[test]
fn without_a_centre() {
    let row = Row {
        sizes: &[768, 1024],
        author: &LISTING_1[1..],
        sorted: &[&[1, 0], &[0, 1], &[0, -1], &[-1, 0]],
        filters: &[2, 1, 3, 0],
        distances: &[1023, 2, 1023],
        total: 2048,
        inside: &[[300, 400], [7, 7]],
    };
    row.check(Kernel::Raw, 0);
    row.check(Kernel::Difference, 7);
}

#[test]
fn above_the_limit() {
    let row = Row {
        sizes: &[40_000],
        author: &[&[0], &[20_000]],
        sorted: &[&[20_000], &[0]],
        filters: &[1, 0],
        distances: &[20_000],
        total: 20_000,
        inside: &[[0, 19_999]],
    };
    row.check(Kernel::Difference, 9);
    row.check(Kernel::Scaled(f32::NAN), 8);
    // Each distance is below the limit.
    let row = Row {
        sizes: &[1024, 1024],
        author: &[&[8, 1], &[0, 1], &[16, 2]],
        sorted: &[&[16, 2], &[8, 1], &[0, 1]],
        filters: &[1, 2, 0],
        distances: &[8193, 8192],
        total: 16_385,
        inside: &[[0, 1007], [-1, 1021]],
    };
    row.check(Kernel::Raw, 9);
    row.check(Kernel::Difference, 7);
    let row = Row {
        author: &[&[8, 1], &[0, 1], &[16, 1]],
        sorted: &[&[16, 1], &[8, 1], &[0, 1]],
        distances: &[8192, 8192],
        total: 16_384,
        ..row
    };
    row.check(Kernel::Raw, 0);
    // One iteration, from the grid's first cell to its last.
    let row = Row {
        sizes: &[16, 65_536],
        author: &[&[0, -32_768], &[15, 32_767]],
        sorted: &[&[15, 32_767], &[0, -32_768]],
        filters: &[1, 0],
        distances: &[1_048_575],
        total: 1_048_575,
        inside: &[[0, 0], [32_768, 32_768]],
    };
    row.check(Kernel::Raw, 9);
}

#[test]
fn lexicographic_order() {
    let row = Row {
        sizes: &[2, 5],
        author: &[&[0, 3], &[1, -1]],
        sorted: &[&[1, -1], &[0, 3]],
        filters: &[1, 0],
        distances: &[1],
        total: 1,
        inside: &[[0, 0], [1, 1]],
    };
    row.check(Kernel::Raw, 0);
}

#[test]
fn one_reference() {
    let row = Row {
        sizes: &[3, 4, 5, 6],
        author: &[&[1, -2, 3, -4]],
        sorted: &[&[1, -2, 3, -4]],
        filters: &[0],
        distances: &[],
        total: 0,
        inside: &[[-1, 0], [2, 2], [-3, 1], [8, 9]],
    };
    row.check(Kernel::Raw, 0);
    row.check(Kernel::Difference, 7);
}

#[test]
fn refused_before_the_steps() {
    let number = |sizes: &[u32], offsets: &[&[i16]]| {
        // A box that fits nowhere comes after.
        let bounds = Bounds::new(&[[1, 0]]);
        let answer = steps(&Grid::new(sizes), &Window::new(offsets), &bounds);
        answer.map_err(|r| r.number()).unwrap_err()
    };
    assert_eq!(number(&[1_048_577], &[]), 3);
    assert_eq!(number(&[5], &[]), 4);
    assert_eq!(number(&[5], &[&[9], &[0], &[9]]), 5);
    assert_eq!(number(&[2, 4], &[&[0, 3], &[1, -1]]), 6);
    assert_eq!(number(&[2, 5], &[&[0, 3], &[1, -1]]), 15);
}

#[test]
fn entries_past_the_counts() {
    let mut request = Request::new(&[2, 5], &[&[0, 3], &[1, -1]], Kernel::Raw);
    let mut other = request;
    other.grid = Grid::Rectangle(Rectangle {
        dims: 2,
        sizes: [2, 5, 9, 9],
    });
    other.window.offsets[2] = 1;
    other.window.offsets[8..].fill(2);
    (other.bounds.lowest, other.bounds.highest) = ([7; 4], [-7; 4]);
    let answers = |request: &Request| {
        let steps = steps(&request.grid, &request.window, &request.bounds);
        (steps, plan(request))
    };
    assert_eq!(answers(&other), answers(&request));
    request.bounds = Bounds::new(&[[0, 0], [1, 1]]);
    other.bounds = Bounds::new(&[[0, 0], [1, 1], [i32::MAX, i32::MIN], [5, 4]]);
    assert_eq!(answers(&other), answers(&request));
    assert_eq!(plan(&other).unwrap().bounds, request.bounds);
}
