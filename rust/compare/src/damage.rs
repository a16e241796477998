use crate::dice::Dice;

/// Damages a sheet: bytes and digits changed, lines dropped, doubled, moved, cut, or from another sheet.
pub fn damage(dice: &mut Dice, text: &mut Vec<u8>) {
    for _ in 0..=dice.below(2) {
        if dice.one_in(8) {
            rows(dice, text);
        } else if dice.one_in(3) {
            characters(dice, text);
        } else {
            lines(dice, text);
        }
    }
}

/// Puts a line of rows, sound or nearly, in place of the first line, behind a line of some kind or behind the last.
fn rows(dice: &mut Dice, text: &mut Vec<u8>) {
    let mut lines: Vec<Vec<u8>> = text.split(|&c| c == b'\n').map(<[u8]>::to_vec).collect();
    let many = dice.pick(&[1, 2, 3, 4, 9, 511, 512, 513]);
    let said = match dice.below(8) {
        0 => many + 1,
        1 => many - 1,
        2 => dice.pick(&[0, 512, 513, 1024, 0xFFFF]),
        _ => many,
    };
    let mut line = format!("09{said:04X}").into_bytes();
    for _ in 0..many {
        let row = format!("{:04X}{:04X}", dice.below(4), 1 + dice.below(9));
        line.extend(row.bytes());
    }
    match dice.below(10) {
        0 => line.truncate(dice.below(line.len())),
        1 => line.truncate(line.len() - 2),
        2 => line.extend(b"00"),
        3 => {
            // One digit: perhaps a start, a length or the count outside its range.
            let at = dice.below(line.len());
            line[at] = dice.pick(b"0148Fg");
        }
        _ => {}
    }
    match dice.below(4) {
        0 => behind(dice, &mut lines, line),
        1 => lines.insert(lines.len() - 1, line),
        _ => lines[0] = line,
    }
    *text = lines.join(&b'\n');
}

fn characters(dice: &mut Dice, text: &mut Vec<u8>) {
    let at = dice.below(text.len() + 1);
    match dice.below(6) {
        0 => text.truncate(at),
        1 => text.insert(at, dice.pick(b"0A5F\n\r G@/:a\0")),
        2 if at < text.len() => text[at] ^= 1 << dice.below(8),
        3 if at < text.len() => text[at] = dice.pick(b"0123456789ABCDEF"),
        4 if at < text.len() => {
            text.remove(at);
        }
        5 => text.extend(dice.pick(&[&b"\n"[..], b"0", b"0400\n", b"0500000001\n", b"05000001\n"])),
        _ => text.insert(at, dice.word() as u8),
    }
}

fn lines(dice: &mut Dice, text: &mut Vec<u8>) {
    const OTHERS: [&str; 49] = [
        "",
        "01",
        "0100",
        "0101",
        "010100000005",
        "0101000000050",
        "01020000000500000005",
        "01050000000100000001000000010000000100000001",
        "0102FFFFFFFFFFFFFFFF",
        "02",
        "020000",
        "0200000001",
        "02000000010001",
        "020001000100010001",
        "03",
        "0300000001",
        "030000000001",
        "0400",
        "0401",
        "04023F800000",
        "04047F800000",
        "04033F80000040000000",
        "0500000001",
        "06",
        "0600",
        "0601",
        "060001",
        "060100",
        "06010002",
        "07",
        "0700",
        "0701",
        "0703",
        "0704",
        "0706",
        "070101",
        "08",
        "0800",
        "080000000000000001",
        "080000000100000000",
        "08FFFFFFFF00000001",
        "0800000001000000010000000200000003",
        "09",
        "0900",
        "090000",
        "09000100000005",
        "0900020000000500010005",
        "09000110000005",
        "1000",
    ];
    let mut lines: Vec<Vec<u8>> = text.split(|&c| c == b'\n').map(<[u8]>::to_vec).collect();
    let (k, j) = (dice.below(lines.len()), dice.below(lines.len()));
    match dice.below(13) {
        0 => {
            lines.remove(k);
        }
        1 => lines.insert(j, lines[k].clone()),
        2 => lines.swap(k, j),
        3 => lines.insert(j, dice.pick(&OTHERS).as_bytes().to_vec()),
        4 => lines[k] = dice.pick(&OTHERS).as_bytes().to_vec(),
        5 => {
            let to = dice.below(lines[k].len() + 1);
            lines[k].truncate(to);
        }
        6 => lines[k].extend(dice.pick(&[&b"00"[..], b"0", b"0000", b"00000000"])),
        7 => lines[k].make_ascii_lowercase(),
        8 if lines[k].len() > 2 => {
            // Another first byte, or another second one.
            let at = 1 + 2 * dice.below(2).min((lines[k].len() - 2) / 2);
            lines[k][at] = dice.pick(b"0123456789F");
        }
        9 => {
            // An order, of as many bytes as there are references or nearly.
            let count = lines.iter().filter(|line| line.starts_with(b"02")).count();
            let bytes = (count + dice.below(3)).saturating_sub(1);
            let mut order = b"06".to_vec();
            for _ in 0..bytes {
                order.extend(format!("{:02X}", dice.below(count + 2)).bytes());
            }
            let behind = lines.len().saturating_sub(2);
            lines.insert(if dice.one_in(2) { behind } else { j }, order);
        }
        10 => {
            // A box, of as many dimensions as the grid has or nearly, behind a line of some kind.
            let dims = match lines[0].get(3) {
                _ if lines[0].starts_with(b"09") => 2,
                Some(digit) => digit.wrapping_sub(b'0').min(4),
                None => 1,
            };
            let mut line = b"08".to_vec();
            for _ in 0..(dims as usize + dice.below(3)).saturating_sub(1) {
                line.extend(format!("{:08X}{:08X}", dice.below(3), dice.below(4)).bytes());
            }
            if dice.one_in(8) {
                line.truncate(line.len() - 2);
            }
            behind(dice, &mut lines, line);
        }
        11 => {
            // The box's line behind a line of some kind, in place of its own or again.
            if let Some(at) = lines.iter().position(|line| line.starts_with(b"08")) {
                let line = lines[at].clone();
                if dice.one_in(2) {
                    lines.remove(at);
                }
                behind(dice, &mut lines, line);
            }
        }
        _ => {
            // A long line, sound or not.
            let mut long = dice
                .pick(&[b"02", b"06", b"08", b"09"])
                .repeat(1 + dice.below(300));
            if dice.one_in(2) {
                let at = dice.below(long.len());
                long[at] = dice.pick(b"G0F");
            }
            lines.insert(j, long);
        }
    }
    *text = lines.join(&b'\n');
}

/// Puts a line behind the first or the last line that begins with some byte; to the front where there is none.
fn behind(dice: &mut Dice, lines: &mut Vec<Vec<u8>>, line: Vec<u8>) {
    let first = dice.pick(&[
        b"01", b"02", b"02", b"02", b"03", b"04", b"06", b"07", b"08", b"09",
    ]);
    let begins = |line: &Vec<u8>| line.starts_with(first);
    let at = if dice.one_in(2) {
        lines.iter().position(begins)
    } else {
        lines.iter().rposition(begins)
    };
    lines.insert(at.map_or(0, |at| at + 1), line);
}
