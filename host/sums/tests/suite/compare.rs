//! The library's sum of some bytes beside the second implementation's, wherever the bytes stand.

use reference::checksum::{fold, sum};

/// The bytes of a machine word.
const WORD: usize = 8;

/// What stands before and behind the bytes. Were some of it counted, beside the bytes or for one of them, one of the two would show.
const GUARDS: [u8; 2] = [0x01, 0x5A];

/// A copy of some bytes between guards.
struct Guarded {
    all: Vec<u8>,
    first: usize,
    length: usize,
}

impl Guarded {
    /// The first byte stands so many bytes behind the beginning of a machine word.
    fn new(bytes: &[u8], behind: usize, guard: u8) -> Guarded {
        let length = bytes.len();
        let mut all = vec![guard; length + 4 * WORD];
        let first = WORD + all.as_ptr().align_offset(WORD) + behind;
        all[first..first + length].copy_from_slice(bytes);
        Guarded { all, first, length }
    }

    fn bytes(&self) -> &[u8] {
        &self.all[self.first..self.first + self.length]
    }
}

/// The sum that both give, at every alignment and between guards of both kinds.
pub fn same_sum(bytes: &[u8]) -> u16 {
    let wanted = fold(sum(bytes));
    let length = bytes.len();
    for (guard, behind) in GUARDS.iter().flat_map(|&guard| (0..WORD).map(move |at| (guard, at))) {
        let told = sums::ones_sum(Guarded::new(bytes, behind, guard).bytes());
        assert_eq!(told, wanted, "{length} bytes, {behind} behind a word, guards {guard:02X}");
    }
    wanted
}
