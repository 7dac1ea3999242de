//! What the sources call of the kit's `rand_core` beside its trait.

pub mod utils {
    pub trait NextWord<W> {
        fn next_word(&mut self) -> W;
    }

    pub fn fill_bytes_via_u32(words: &mut impl NextWord<u32>, bytes: &mut [u8]) {
        for room in bytes.chunks_mut(4) {
            room.copy_from_slice(&words.next_word().to_le_bytes()[..room.len()]);
        }
    }
}
