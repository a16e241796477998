//! PNG with a palette, a byte a pixel, its data stored and not packed.

/// The picture of `width` pixels a row; a pixel is the number of its colour in the palette. Sides
/// of 1 to 2^31 - 1 pixels, 1 to 256 colours.
pub fn png(width: usize, palette: &[[u8; 3]], pixels: &[u8]) -> Vec<u8> {
    let height = pixels.len() / width.max(1);
    let mut file = b"\x89PNG\r\n\x1A\n".to_vec();
    let mut header = Vec::with_capacity(13);
    header.extend((width as u32).to_be_bytes());
    header.extend((height as u32).to_be_bytes());
    // Eight bits, palette; the one packing, filtering and order that all readers know.
    header.extend([8, 3, 0, 0, 0]);
    chunk(&mut file, b"IHDR", &header);
    chunk(&mut file, b"PLTE", palette.as_flattened());
    chunk(&mut file, b"IDAT", &stored(&unfiltered(width, pixels)));
    chunk(&mut file, b"IEND", &[]);
    file
}

/// Each row behind a byte that says that it is not filtered.
fn unfiltered(width: usize, pixels: &[u8]) -> Vec<u8> {
    let mut rows = Vec::with_capacity(pixels.len() + pixels.len() / width.max(1));
    for row in pixels.chunks_exact(width.max(1)) {
        rows.push(0);
        rows.extend(row);
    }
    rows
}

fn chunk(file: &mut Vec<u8>, kind: &[u8; 4], data: &[u8]) {
    file.extend((data.len() as u32).to_be_bytes());
    let start = file.len();
    file.extend(kind);
    file.extend(data);
    let sum = crc(&file[start..]);
    file.extend(sum.to_be_bytes());
}

/// The zlib format of RFC 1950 with the stored blocks of RFC 1951.
fn stored(data: &[u8]) -> Vec<u8> {
    const MOST: usize = 65_535;
    let blocks = data.len().div_ceil(MOST).max(1);
    let mut out = Vec::with_capacity(data.len() + 5 * blocks + 6);
    out.extend([0x78, 0x01]);
    for block in 0..blocks {
        let piece = &data[block * MOST..data.len().min((block + 1) * MOST)];
        let length = piece.len() as u16;
        out.push(u8::from(block + 1 == blocks));
        out.extend(length.to_le_bytes());
        out.extend((!length).to_le_bytes());
        out.extend(piece);
    }
    out.extend(adler(data).to_be_bytes());
    out
}

const fn crc_table() -> [u32; 256] {
    let mut table = [0; 256];
    let mut byte = 0;
    while byte < 256 {
        let mut rest = byte as u32;
        let mut bit = 0;
        while bit < 8 {
            rest = rest >> 1 ^ if rest & 1 == 1 { 0xEDB8_8320 } else { 0 };
            bit += 1;
        }
        table[byte] = rest;
        byte += 1;
    }
    table
}

fn crc(data: &[u8]) -> u32 {
    const TABLE: [u32; 256] = crc_table();
    !data.iter().fold(!0, |rest: u32, byte| {
        rest >> 8 ^ TABLE[(rest as u8 ^ byte) as usize]
    })
}

fn adler(data: &[u8]) -> u32 {
    const MODULUS: u32 = 65_521;
    let (mut first, mut second) = (1, 0);
    // After so many bytes neither sum can have passed 2^32.
    for piece in data.chunks(5552) {
        for byte in piece {
            first += u32::from(*byte);
            second += first;
        }
        first %= MODULUS;
        second %= MODULUS;
    }
    second << 16 | first
}

#[cfg(test)]
mod tests;
