//! The lanes that the sources xor, under the names of `std::simd`.
#![allow(non_camel_case_types)]

#[derive(Clone, Copy)]
pub struct u8x32([u8; 32]);

impl u8x32 {
    #[inline(always)]
    pub fn from_slice(bytes: &[u8]) -> u8x32 {
        let mut lanes = [0; 32];
        lanes.copy_from_slice(&bytes[..32]);
        u8x32(lanes)
    }

    #[inline(always)]
    pub fn copy_to_slice(self, out: &mut [u8]) {
        out[..32].copy_from_slice(&self.0)
    }
}

impl std::ops::BitXor for u8x32 {
    type Output = u8x32;

    #[inline(always)]
    fn bitxor(mut self, other: u8x32) -> u8x32 {
        for (byte, with) in self.0.iter_mut().zip(other.0) {
            *byte ^= with;
        }
        self
    }
}

#[cfg(test)]
mod tests {
    use super::*;

    #[test]
    fn each_lane_is_the_xor_of_two() {
        let bytes: Vec<u8> = (0..40).collect();
        let mut out = [0xee; 33];
        (u8x32::from_slice(&bytes) ^ u8x32::from_slice(&bytes[8..])).copy_to_slice(&mut out);
        for i in 0..32 {
            assert_eq!(out[i], bytes[i] ^ bytes[i + 8]);
        }
        assert_eq!(out[32], 0xee);
    }
}
