//! What the library alone answers to random requests, as counts and digests: where they are the same for two builds of it, so are the plans.
use crate::dice::Dice;
use crate::draft::Draft;
use zohmirka::native;
use crate::words::{CHAIN_WORDS, ROW_WORDS};
use zohmirka::SHEET_BYTES;

/// FNV-1a, 64 bits.
struct Digest(u64);

impl Digest {
    fn new() -> Digest {
        Digest(0xCBF2_9CE4_8422_2325)
    }

    fn take(&mut self, bytes: &[u8]) {
        for &byte in bytes {
            self.0 = (self.0 ^ byte as u64).wrapping_mul(0x0000_0100_0000_01B3);
        }
    }
}

/// Plans so many requests, reads each sheet that was planned back as words, and prints how often each number was answered and the digest of all numbers, lent
/// sheets and words.
pub fn print(seed: u64, requests: u64) {
    let mut dice = Dice::new(seed);
    let (mut asked, mut answered) = (Digest::new(), Digest::new());
    let mut counts = [0u64; 256];
    for _ in 0..requests {
        let text = Draft::unplanned(&mut dice).request_text();
        asked.take(&text);
        let mut sheet = [0; SHEET_BYTES];
        let wrote = native::plan(&text, &mut sheet);
        let mut words = [0; CHAIN_WORDS];
        let mut rows = [0; ROW_WORDS];
        let read = native::read_chain(&sheet[..wrote.bytes], &mut words, &mut rows);
        counts[wrote.refusal.min(255) as usize] += 1;
        let numbers = [wrote.refusal, wrote.bytes as u32, read];
        answered.take(&sheet);
        for word in numbers.iter().chain(&words).chain(&rows) {
            answered.take(&word.to_le_bytes());
        }
    }
    println!("seed {seed}, {requests} requests: {:016X}", asked.0);
    println!("planned: {}", counts[0]);
    for (number, count) in counts.iter().enumerate().skip(1) {
        if *count > 0 {
            println!("refused by {number}: {count}");
        }
    }
    println!("answers: {:016X}", answered.0);
}
