//! Random numbers, by the one call that all versions of `rand` from 0.8 to 0.10 have.

/// A generator of random bytes.
pub trait Rng {
    /// Fills the bytes.
    fn fill_bytes(&mut self, bytes: &mut [u8]);
}

/// The generator of the thread, which the operating system seeds.
pub struct ThreadRng;

impl Rng for ThreadRng {
    fn fill_bytes(&mut self, bytes: &mut [u8]) {
        bytes.fill_with(::rand::random)
    }
}

pub trait RngExt {
    fn random_range(&mut self, range: std::ops::Range<u8>) -> u8;
}

impl<R: Rng> RngExt for R {
    /// A number of the range, each as likely: bytes past the last whole range are drawn again.
    fn random_range(&mut self, range: std::ops::Range<u8>) -> u8 {
        let span = range.end - range.start;
        let mut byte = [0];
        loop {
            self.fill_bytes(&mut byte);
            if u16::from(byte[0]) < 256 / u16::from(span) * u16::from(span) {
                return range.start + byte[0] % span;
            }
        }
    }
}

#[cfg(test)]
mod tests {
    use super::*;

    struct Counting(u8);

    impl Rng for Counting {
        fn fill_bytes(&mut self, bytes: &mut [u8]) {
            for byte in bytes {
                *byte = self.0;
                self.0 = self.0.wrapping_add(1);
            }
        }
    }

    // Of the bytes 0 to 255 each number of 100 comes twice; 200 to 255 are drawn again.
    #[test]
    fn every_number_of_the_range_comes_as_often() {
        let (mut rng, mut seen) = (Counting(0), [0; 256]);
        for _ in 0..200 {
            seen[usize::from(rng.random_range(3..103))] += 1;
        }
        assert_eq!(rng.0, 200);
        assert!(seen.iter().enumerate().all(|(number, count)| *count == if (3..103).contains(&number) { 2 } else { 0 }));
        assert_eq!((rng.random_range(3..103), rng.0), (3, 1));
    }

    #[test]
    fn the_thread_draws_all_bytes() {
        let mut bytes = [0; 10_000];
        ThreadRng.fill_bytes(&mut bytes);
        assert!((0..=255u8).all(|byte| bytes.contains(&byte)));
    }
}
