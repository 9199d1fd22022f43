//! What came up in the records that programs were given.

use super::BYTES;

/// What came up in the records of days: each kind answered, each reset, each refusal that a record can meet, times that are no whole milliseconds or
/// go back within one, and short last records.
#[derive(Debug, Default)]
pub struct Seen {
    kinds: [u64; 6],
    resets: [u64; 7],
    refusals: [u64; 20],
    remainders: u64,
    back: u64,
    short: u64,
}

impl Seen {
    /// Looks at records, and at the lines that were printed after `armed`.
    pub fn look(&mut self, input: &[u8], printed: &[u8]) {
        let text = String::from_utf8_lossy(printed);
        let mut before = 0;
        for (record, line) in input.chunks(BYTES).zip(text.lines().skip(1)) {
            let refusal: usize = line.split(' ').nth(1).and_then(|word| word.parse().ok()).expect("a refusal");
            self.refusals[refusal] += 1;
            self.short += u64::from(record.len() < BYTES);
            let [faulty, kind, time, _, _, _, _, reset, ..] = crate::read_record16(record);
            if (faulty, refusal) == (0, 0) {
                self.kinds[kind as usize] += 1;
                self.resets[reset as usize] += 1;
                self.remainders += u64::from(time % 1_000 != 0);
                self.back += u64::from(time < before);
                before = time;
            }
        }
    }

    /// Did all of it come up?
    pub fn is_enough(&self) -> bool {
        let refused = [0, 12, 13, 15, 16, 17, 18, 19].map(|refusal: usize| self.refusals[refusal]);
        let counts = [&self.kinds[..], &self.resets, &refused, &[self.remainders, self.back, self.short]].concat();
        counts.iter().all(|count| *count > 0)
    }
}
