//! Makes debug sections with statics.

use crate::random::Random;

/// The section's type.
pub const DEBUG: u32 = 0x7000_0005;

/// A debug section: files of entries, and names.
#[derive(Default)]
pub struct Debug {
    /// Of each file its entries, three words each.
    pub files: Vec<Vec<[u32; 3]>>,
    pub strings: Vec<u8>,
}

impl Debug {
    /// Its bytes, and where the words stand that count from the file's start.
    pub fn bytes(&self, random: &mut Random) -> (Vec<u8>, Vec<usize>) {
        const HEADER: usize = 96;
        const FILE: usize = 72;
        const ENTRY: usize = 12;
        let entries: usize = self.files.iter().map(Vec::len).sum();
        let entries_at = HEADER + FILE * self.files.len();
        let strings_at = entries_at + ENTRY * entries;
        let mut words = [0u32; HEADER / 4];
        words[0] = 0x7009_0000 | random.below(1 << 16) as u32;
        let parts = [
            (8, entries, entries_at),
            (14, self.strings.len(), strings_at),
            (18, self.files.len(), HEADER),
        ];
        // Eleven parts, each with a count and an offset.
        for count in (2..24).step_by(2) {
            let known = parts.iter().find(|part| part.0 == count);
            let (n, at) = known.map_or((random.below(3), random.below(9)), |part| (part.1, part.2));
            (words[count], words[count + 1]) = (n as u32, at as u32);
        }
        if random.once_in(10) {
            // A part whose count is 0 stays where it is.
            words[14] = 0;
        }
        let mut bytes: Vec<u8> = words.iter().flat_map(|word| word.to_be_bytes()).collect();
        let mut first = 0;
        for file in &self.files {
            let mut words = [0u32; FILE / 4];
            (words[4], words[5]) = (first, file.len() as u32);
            first += file.len() as u32;
            bytes.extend(words.iter().flat_map(|word| word.to_be_bytes()));
        }
        let entries = self.files.iter().flatten().flatten();
        bytes.extend(entries.flat_map(|word| word.to_be_bytes()));
        bytes.extend(&self.strings);
        let moved = (2..24).step_by(2).map(|count| 4 * count + 4);
        (bytes, moved.collect())
    }
}
