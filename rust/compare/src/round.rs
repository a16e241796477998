use crate::dice::Dice;
use crate::tally::Tally;
use std::fmt::Debug;
use std::fs::File;
use std::io::Write;

/// One round of the comparison: its dice, what is counted, and, where the round is recorded, the file that gets its input.
pub struct Round<'a> {
    pub dice: Dice,
    pub tally: &'a mut Tally,
    pub record: Option<File>,
}

/// The library and `straight` differ.
#[derive(Debug)]
pub struct Differs(pub String);

impl<'a> Round<'a> {
    pub fn new(seed: u64, number: u64, tally: &'a mut Tally, record: Option<File>) -> Round<'a> {
        let start = Dice::new(seed).roll() ^ number;
        Round {
            dice: Dice::new(Dice::new(start).roll()),
            tally,
            record,
        }
    }

    /// Records a part of the input, before it is handed over.
    pub fn note(&mut self, name: &str, value: impl FnOnce() -> String) {
        if let Some(file) = &mut self.record {
            writeln!(file, "{name}: {}", value()).expect("the record can be written");
        }
    }

    pub fn note_words(&mut self, name: &str, words: &[u32]) {
        self.note(name, || {
            let list: Vec<String> = words.iter().map(|word| format!("{word:X}")).collect();
            format!("{} [{}]", words.len(), list.join(" "))
        });
    }

    pub fn note_text(&mut self, name: &str, text: &[u8]) {
        self.note(name, || {
            format!("{} bytes\n{}", text.len(), text.escape_ascii())
        });
    }

    pub fn same<T: PartialEq + Debug>(
        &mut self,
        what: &str,
        library: &T,
        straight: &T,
    ) -> Result<(), Differs> {
        if library == straight {
            return Ok(());
        }
        self.note("DIFFERS", || {
            format!("{what}\nlibrary: {library:?}\nstraight: {straight:?}")
        });
        Err(Differs(what.to_string()))
    }

    /// What is asked of one answer by itself.
    pub fn holds(&mut self, what: &str, holds: bool) -> Result<(), Differs> {
        if holds {
            return Ok(());
        }
        self.note("DOES NOT HOLD", || what.to_string());
        Err(Differs(what.to_string()))
    }

    /// The same of words or bytes; tells the first place where they differ.
    pub fn same_at<T: PartialEq + std::fmt::UpperHex>(
        &mut self,
        what: &str,
        library: &[T],
        straight: &[T],
    ) -> Result<(), Differs> {
        assert_eq!(library.len(), straight.len());
        let Some(at) = (0..library.len()).find(|&at| library[at] != straight[at]) else {
            return Ok(());
        };
        let (x, y) = (&library[at], &straight[at]);
        self.note("DIFFERS", || {
            format!("{what}, place {at}: library {x:X}, straight {y:X}")
        });
        Err(Differs(what.to_string()))
    }
}
