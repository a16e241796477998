use super::*;
use compare::dice::Dice;

/// The remainder of document W3C PNG, annex D, bit by bit.
fn slow_crc(data: &[u8]) -> u32 {
    let mut rest = 0xFFFF_FFFF_u32;
    for byte in data {
        for bit in 0..8 {
            let low = rest & 1 ^ u32::from(byte >> bit & 1);
            rest = (rest >> 1) ^ (low * 0xEDB8_8320);
        }
    }
    rest ^ 0xFFFF_FFFF
}

/// RFC 1950: the sum of all bytes and the sum of all those sums.
fn slow_adler(data: &[u8]) -> u32 {
    let (mut first, mut second) = (1_u64, 0_u64);
    for byte in data {
        first = (first + u64::from(*byte)) % 65_521;
        second = (second + first) % 65_521;
    }
    (second * 65_536 + first) as u32
}

fn number(bytes: &[u8]) -> usize {
    bytes
        .iter()
        .fold(0, |sum, byte| sum * 256 + usize::from(*byte))
}

/// The chunks of a file in turn, their sums checked.
fn chunks(file: &[u8]) -> Vec<(String, Vec<u8>)> {
    assert_eq!(file[..8], [137, 80, 78, 71, 13, 10, 26, 10]);
    let mut rest = &file[8..];
    let mut found = Vec::new();
    while !rest.is_empty() {
        let length = number(&rest[..4]);
        let body = &rest[4..8 + length];
        assert_eq!(
            number(&rest[8 + length..12 + length]),
            slow_crc(body) as usize
        );
        found.push((
            String::from_utf8(body[..4].to_vec()).unwrap(),
            body[4..].to_vec(),
        ));
        rest = &rest[12 + length..];
    }
    found
}

fn unstored(packed: &[u8]) -> Vec<u8> {
    assert_eq!(packed[0] & 15, 8);
    assert_eq!(number(&packed[..2]) % 31, 0);
    assert_eq!(packed[1] & 32, 0);
    let mut rest = &packed[2..];
    let mut data = Vec::new();
    loop {
        assert_eq!(rest[0] & 0xFE, 0);
        let length = usize::from(rest[1]) + 256 * usize::from(rest[2]);
        assert_eq!(
            length + usize::from(rest[3]) + 256 * usize::from(rest[4]),
            65_535
        );
        data.extend(&rest[5..5 + length]);
        let last = rest[0] == 1;
        rest = &rest[5 + length..];
        if last {
            break;
        }
    }
    assert_eq!(number(rest), slow_adler(&data) as usize);
    assert_eq!(rest.len(), 4);
    data
}

fn read_back(width: usize, palette: &[[u8; 3]], pixels: &[u8]) {
    let found = chunks(&png(width, palette, pixels));
    let kinds: Vec<&str> = found.iter().map(|(kind, _)| kind.as_str()).collect();
    assert_eq!(kinds, ["IHDR", "PLTE", "IDAT", "IEND"]);
    let header = &found[0].1;
    assert_eq!(number(&header[..4]), width);
    assert_eq!(number(&header[4..8]), pixels.len() / width);
    assert_eq!(header[8..], [8, 3, 0, 0, 0]);
    assert_eq!(found[1].1, palette.concat());
    let rows = unstored(&found[2].1);
    assert_eq!(rows.len(), pixels.len() + pixels.len() / width);
    for (row, expected) in rows.chunks(width + 1).zip(pixels.chunks(width)) {
        assert_eq!(row[0], 0);
        assert_eq!(&row[1..], expected);
    }
    assert!(found[3].1.is_empty());
}

#[test]
fn any_picture_is_read_back() {
    let mut dice = Dice::new(83);
    for _ in 0..200 {
        let (width, height) = (1 + dice.below(40), 1 + dice.below(40));
        let colours = 1 + dice.below(256);
        let palette: Vec<[u8; 3]> = (0..colours)
            .map(|_| [dice.roll() as u8, dice.roll() as u8, dice.roll() as u8])
            .collect();
        let pixels: Vec<u8> = (0..width * height)
            .map(|_| dice.below(colours) as u8)
            .collect();
        read_back(width, &palette, &pixels);
    }
}

#[test]
fn many_blocks_are_read_back() {
    // With the filter byte a row has 65,535 bytes, a block exactly; then one less and one more.
    for width in [65_533, 65_534, 65_535] {
        for height in 1..4 {
            read_back(width, &[[0; 3]; 256], &vec![255; width * height]);
        }
    }
    let mut dice = Dice::new(84);
    let pixels: Vec<u8> = (0..1 << 20).map(|_| dice.roll() as u8).collect();
    read_back(1024, &[[7; 3]; 256], &pixels);
}

#[test]
fn known_sums() {
    assert_eq!(crc(b"123456789"), 0xCBF4_3926);
    assert_eq!(crc(b"IEND"), 0xAE42_6082);
    assert_eq!(adler(b"Wikipedia"), 0x11E6_0398);
    assert_eq!(adler(&[]), 1);
}
