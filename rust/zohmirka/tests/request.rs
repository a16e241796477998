//! Requests built by calls: their sheets, worked out by hand from docs/SHEETS.md, what they are refused by, and what their chains say.
use zohmirka::{plan, Chain, Kernel, NamedWindow, Refusal, Request};

fn text(request: &Request) -> String {
    String::from_utf8(request.sheet()).unwrap()
}

/// What turns a request back. Its sheet is refused alike.
fn refused(request: &Request) -> Option<Refusal> {
    let refusal = request.plan().err();
    assert_eq!(plan(&request.sheet()).err(), refusal);
    refusal
}

fn with_references(request: Request, offsets: &[&[i16]]) -> Request {
    offsets.iter().fold(request, |request, offset| request.reference(offset))
}

#[test]
fn sheets_worked_out_by_hand() {
    // The sample of document 01.
    let sample = with_references(Request::on_rectangle(&[5]), &[&[0], &[3]]);
    assert_eq!(text(&sample), "010100000005\n020000\n020003\n0400\n");
    // Listing 1 of document 003, in the order of its author.
    let listing = with_references(Request::on_rectangle(&[4, 5]), &[&[0, 0], &[0, -1], &[0, 1], &[-1, 0], &[1, 0]]).kernel(Kernel::Difference);
    assert_eq!(text(&listing), "01020000000400000005\n0200000000\n020000FFFF\n0200000001\n02FFFF0000\n0200010000\n0401\n");
    // The box of docs/SHEETS.md, and one of negative indices; the last one counts.
    let boxed = Request::on_rectangle(&[768, 1024]).named(NamedWindow::Cross).bounds(&[(1, 1), (2, 3)]);
    assert_eq!(text(&boxed), "01020000030000000400\n0701\n0800000001000000010000000200000003\n0400\n");
    assert_eq!(text(&boxed.bounds(&[(-2, -1)])), "01020000030000000400\n0701\n08FFFFFFFEFFFFFFFF\n0400\n");
    // The three rows of docs/SHEETS.md.
    let rows = with_references(Request::on_rows(&[(2, 2), (2, 1), (2, 1)]), &[&[0, 0], &[-1, 0]]);
    assert_eq!(text(&rows), "090003000200020002000100020001\n0200000000\n02FFFF0000\n0400\n");
    // The ends of every kind of number.
    let ends = Request::on_rectangle(&[u32::MAX, 0]).reference(&[i16::MIN, i16::MAX]).bounds(&[(i32::MIN, i32::MAX)]);
    assert_eq!(text(&ends), "0102FFFFFFFF00000000\n0280007FFF\n08800000007FFFFFFF\n0400\n");
    assert_eq!(text(&Request::on_rows(&[(4095, 1024), (65535, 65534)])), "0900020FFF0400FFFFFFFE\n0400\n");
    // Nothing at all.
    assert_eq!(text(&Request::on_rectangle(&[]).reference(&[]).bounds(&[])), "0100\n02\n08\n0400\n");
    assert_eq!(text(&Request::on_rows(&[])), "090000\n0400\n");
}

#[test]
fn kernels_and_names() {
    let with = |kernel| text(&Request::on_rectangle(&[5]).kernel(Kernel::Difference).kernel(kernel));
    assert_eq!(with(Kernel::Raw), "010100000005\n0400\n");
    assert_eq!(with(Kernel::Difference), "010100000005\n0401\n");
    assert_eq!(with(Kernel::Scaled(1.0)), "010100000005\n04023F800000\n");
    assert_eq!(with(Kernel::Blend { a: 0.5, b: 0.125 }), "010100000005\n04033F0000003E000000\n");
    assert_eq!(with(Kernel::Blend { a: -0.0, b: f32::INFINITY }), "010100000005\n0403800000007F800000\n");
    assert_eq!(with(Kernel::Scaled(f32::from_bits(1))), "010100000005\n040200000001\n");

    let windows = [NamedWindow::Cross, NamedWindow::Four, NamedWindow::Square, NamedWindow::Seven, NamedWindow::Nineteen];
    // How many references each has, and its last one.
    let expected = [(5, [-1, 0, 0]), (4, [-1, 0, 0]), (9, [-1, -1, 0]), (7, [-1, 0, 0]), (19, [-1, -1, 0])];
    for (at, (window, (references, last))) in windows.into_iter().zip(expected).enumerate() {
        let sizes = &[9, 9, 9][..if at < 3 { 2 } else { 3 }];
        let request = Request::on_rectangle(sizes).named(window);
        assert_eq!(text(&request).lines().nth(1), Some(["0701", "0702", "0703", "0704", "0705"][at]));
        let chain = request.plan().unwrap();
        assert_eq!((chain.references(), chain.dimensions()), (references, sizes.len()));
        assert_eq!(chain.offsets().last().unwrap(), &last[..sizes.len()]);
    }
}

#[test]
fn what_is_wrong_the_library_says() {
    let line = Request::on_rectangle(&[5]);
    let centre = line.clone().reference(&[0]);
    assert_eq!(refused(&centre), None);
    // Entries and ends that are too few or too many.
    assert_eq!(refused(&line.clone().reference(&[])), Some(Refusal::Malformed));
    assert_eq!(refused(&line.clone().reference(&[0, 0])), Some(Refusal::Malformed));
    assert_eq!(refused(&centre.clone().bounds(&[])), Some(Refusal::Malformed));
    assert_eq!(refused(&centre.clone().bounds(&[(0, 0), (0, 0)])), Some(Refusal::Malformed));
    // No window; a name that is not alone.
    let plane = Request::on_rectangle(&[4, 5]);
    assert_eq!(refused(&line), Some(Refusal::Misplaced));
    assert_eq!(refused(&plane.clone().named(NamedWindow::Cross).reference(&[2, 0])), Some(Refusal::Misplaced));
    assert_eq!(refused(&plane.clone().reference(&[2, 0]).named(NamedWindow::Cross)), Some(Refusal::Misplaced));
    assert_eq!(refused(&plane.clone().named(NamedWindow::Four).named(NamedWindow::Four)), Some(Refusal::Misplaced));
    assert_eq!(refused(&plane.clone().named(NamedWindow::Seven)), Some(Refusal::BadName));
    // Grids, windows, boxes, kernels.
    assert_eq!(refused(&Request::on_rectangle(&[1024, 1025]).named(NamedWindow::Cross)), Some(Refusal::BadGrid));
    let many: Vec<[i16; 1]> = (0..33).map(|entry| [entry]).collect();
    let references: Vec<&[i16]> = many.iter().map(|offset| offset.as_slice()).collect();
    assert_eq!(refused(&with_references(Request::on_rectangle(&[99]), &references)), Some(Refusal::BadCount));
    assert_eq!(refused(&with_references(Request::on_rectangle(&[99]), &references[..32])), None);
    assert_eq!(refused(&centre.clone().reference(&[0])), Some(Refusal::EqualOffsets));
    assert_eq!(refused(&centre.clone().reference(&[5])), Some(Refusal::NoIteration));
    assert_eq!(refused(&line.clone().reference(&[1]).kernel(Kernel::Difference)), Some(Refusal::NoCentre));
    for factor in [f32::INFINITY, f32::NEG_INFINITY, f32::NAN] {
        assert_eq!(refused(&centre.clone().kernel(Kernel::Scaled(factor))), Some(Refusal::BadFactor));
        assert_eq!(refused(&centre.clone().kernel(Kernel::Blend { a: 1.0, b: factor })), Some(Refusal::BadFactor));
    }
    assert_eq!(refused(&with_references(Request::on_rectangle(&[20000]), &[&[0], &[16385]])), Some(Refusal::TooLarge));
    assert_eq!(refused(&centre.clone().bounds(&[(0, 5)])), Some(Refusal::BadBox));
}

#[test]
fn numbers_without_room_do_not_wrap() {
    for dimensions in [0, 5, 254, 255, 256, 257, 258, 259, 260, 511, 512, 65537, 65538] {
        let request = Request::on_rectangle(&vec![1; dimensions]).reference(&vec![0; dimensions]);
        assert_eq!(refused(&request), Some(Refusal::BadGrid), "{dimensions} dimensions");
    }
    let wide = text(&Request::on_rectangle(&[1; 257]));
    assert_eq!((&wide[..20], wide.len()), ("01FF0000000100000001", 4 + 8 * 257 + 1 + 5));

    let centre = |rows: &[(u32, u32)]| refused(&Request::on_rows(rows).reference(&[0, 0]));
    for count in [0, 513, 65535, 65536, 65537, 65538, 66048] {
        assert_eq!(centre(&vec![(0, 1); count]), Some(Refusal::BadRows), "{count} rows");
    }
    assert_eq!((centre(&[(0, 1); 512]), centre(&[(4095, 1024)])), (None, None));
    for number in [4096, 65535, 65536, 65537, 65536 + 4095, u32::MAX] {
        assert_eq!(centre(&[(number, 1)]), Some(Refusal::BadRows), "start {number}");
        assert_eq!(centre(&[(0, number)]), Some(Refusal::BadRows), "length {number}");
    }
    assert_eq!(text(&Request::on_rows(&[(65536, 65537)])), "090001FFFFFFFF\n0400\n");
}

#[test]
fn a_chain_gives_back_what_was_asked_for() {
    // One reference: the sheet is a chain sheet too, one without the order.
    for (sizes, offset, ends) in [
        ([5].as_slice(), [-2].as_slice(), [(3, 5)].as_slice()),
        (&[4, 5], &[1, -3], &[(0, 2), (3, 7)]),
        (&[2, 3, 4], &[0, 0, 0], &[(1, 1), (0, 2), (0, 3)]),
        (&[1, 2, 1024, 512], &[-32768, 32767, -1, 1], &[(32768, 32768), (-32767, -32766), (1, 1024), (0, 500)]),
    ] {
        for kernel in [Kernel::Raw, Kernel::Scaled(-1.5e-40)] {
            let request = Request::on_rectangle(sizes).reference(offset).bounds(ends).kernel(kernel);
            let (read, planned) = (Chain::read(&request.sheet()).unwrap(), request.plan().unwrap());
            for chain in [&read, &planned] {
                assert_eq!((chain.dimensions(), chain.sizes(), chain.skewed()), (sizes.len(), Some(sizes), None));
                assert_eq!((chain.offsets(), chain.kernel(), chain.bounds()), (vec![offset.to_vec()], kernel, Some(ends.to_vec())));
                assert_eq!(chain.cells(), sizes.iter().map(|&size| size as u64).product::<u64>());
            }
            assert_eq!((read.order(), planned.order()), (None, Some([0].as_slice())));
            assert_eq!(read.write().unwrap(), request.sheet());
        }
    }
    // Several: the planned chain has them falling, and says in which order they were asked for.
    let rows = [(0, 5), (1, 5), (2, 5), (3, 5)];
    let kernel = Kernel::Blend { a: 0.25, b: -3.0 };
    let asked = [[-1, 0], [0, 0], [1, 0], [0, -1]];
    let references: Vec<&[i16]> = asked.iter().map(|offset| offset.as_slice()).collect();
    let chain = with_references(Request::on_rows(&rows), &references).kernel(kernel).plan().unwrap();
    assert_eq!((chain.dimensions(), chain.sizes(), chain.skewed(), chain.cells()), (2, None, Some(rows.to_vec()), 20));
    assert_eq!((chain.kernel(), chain.bounds()), (kernel, None));
    assert_eq!(chain.offsets(), [[1, 0], [0, 0], [0, -1], [-1, 0]]);
    let order = chain.order().unwrap().iter().map(|&filter| chain.offsets()[filter as usize].clone());
    assert_eq!(order.collect::<Vec<_>>(), asked);
}

#[test]
fn any_words_say_something() {
    let chain = Request::on_rectangle(&[4, 5]).reference(&[1, -1]).plan().unwrap();
    let with = |changes: &[(usize, u32)]| {
        let mut other = chain.clone();
        changes.iter().for_each(|&(at, word)| other.words[at] = word);
        other
    };
    // Counts that are too large.
    let large = with(&[(0, u32::MAX), (1, u32::MAX), (2, u32::MAX), (3, u32::MAX), (4, 7), (5, u32::MAX)]);
    assert_eq!((large.dimensions(), large.sizes(), large.cells()), (255, Some([u32::MAX, u32::MAX, u32::MAX, 7].as_slice()), u64::MAX));
    assert_eq!((large.offsets().len(), large.offsets()[0].as_slice()), (32, [1, -1, 0, 0].as_slice()));
    let none = with(&[(0, 0), (5, 0)]);
    assert_eq!((none.dimensions(), none.sizes(), none.offsets().len()), (0, Some([].as_slice()), 0));
    // Of an entry the low 16 bits count.
    assert_eq!(with(&[(6, 0xFFFF_8000), (7, 0x0001_0002)]).offsets(), [[-32768, 2]]);
    // A kernel that is none of the four.
    for number in [4, 255, 256, u32::MAX] {
        let other = with(&[(165, number), (166, 1.0f32.to_bits())]);
        assert!(matches!(other.kernel(), Kernel::Scaled(factor) if factor.is_nan()));
        assert_eq!(other.judge(), Err(Refusal::BadFactor));
    }
    // Rows that are missing, and such as play no part.
    let mut rows = with(&[(210, 9), (211, 3)]);
    rows.rows = vec![0, 7, 1, u32::MAX, 5];
    assert_eq!((rows.sizes(), rows.dimensions(), rows.cells()), (None, 2, 7 + u64::from(u32::MAX)));
    rows.words[211] = 1;
    assert_eq!((rows.cells(), rows.skewed()), (7, Some(vec![(0, 7)])));
    rows.words[210] = 0;
    assert_eq!((rows.cells(), rows.skewed()), (20, None));
}

#[test]
fn a_chain_with_another_kernel_is_that_of_another_request() {
    let request = Request::on_rectangle(&[4, 5]).named(NamedWindow::Cross);
    let kernels = [Kernel::Raw, Kernel::Difference, Kernel::Scaled(0.2), Kernel::Blend { a: 0.5, b: 0.125 }];
    for from in kernels {
        let chain = request.clone().kernel(from).plan().unwrap();
        for to in kernels {
            assert_eq!(chain.with_kernel(to).words, request.clone().kernel(to).plan().unwrap().words);
        }
    }
}
