use compare::dice::Dice;
use desk::csv::Dialect;

pub fn any_dialect(dice: &mut Dice) -> Dialect {
    let delimiter = dice.pick(b",;\t");
    let decimals: &[u8] = if delimiter == b',' { b"." } else { b".," };
    Dialect {
        delimiter,
        decimal: dice.pick(decimals),
        crlf: dice.one_in(2),
        bom: dice.one_in(2),
    }
}

/// A file of lines whose fields stand ready, quotes and all.
pub fn joined(lines: &[Vec<String>], dialect: &Dialect) -> String {
    let end = if dialect.crlf { "\r\n" } else { "\n" };
    let delimiter = char::from(dialect.delimiter).to_string();
    let mut text = String::from(if dialect.bom { "\u{feff}" } else { "" });
    for line in lines {
        text += &line.join(&delimiter);
        text += end;
    }
    text
}
