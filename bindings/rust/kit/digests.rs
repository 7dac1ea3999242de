//! SHA-256 and MD5, whose digests are arrays.

use std::convert::Infallible;

macro_rules! digests {
    ($($name:ident, $from:ident, $len:literal;)*) => {$(
        pub struct $name($from::$name);

        impl $name {
            #[inline]
            #[allow(clippy::new_without_default)]
            pub fn new() -> $name {
                $name($from::Digest::new())
            }

            #[inline]
            pub fn update(&mut self, bytes: impl AsRef<[u8]>) {
                $from::Digest::update(&mut self.0, bytes)
            }

            #[inline]
            pub fn finalize(self) -> [u8; $len] {
                $from::Digest::finalize(self.0).into()
            }

            #[inline]
            pub fn digest(bytes: impl AsRef<[u8]>) -> [u8; $len] {
                <$from::$name as $from::Digest>::digest(bytes).into()
            }

            #[inline]
            #[allow(clippy::should_implement_trait)]
            pub fn clone(&self) -> Result<$name, Infallible> {
                Ok($name(self.0.clone()))
            }
        }
    )*};
}

digests! {
    Sha256, sha2, 32;
    Md5, md5, 16;
}

#[cfg(test)]
mod tests {
    use super::super::Global;
    use super::*;

    // FIPS 180-2, appendix B.1, and RFC 1321, appendix A.5.
    #[test]
    fn vectors() {
        let hex = |bytes: &[u8]| Global.hex_of(bytes).unwrap();
        assert_eq!(hex(&Sha256::digest("abc")), "ba7816bf8f01cfea414140de5dae2223b00361a396177a9cb410ff61f20015ad");
        assert_eq!(hex(&Md5::digest("abc")), "900150983cd24fb0d6963f7d28e17f72");
    }

    #[test]
    fn a_clone_goes_on_from_what_was_absorbed() {
        let mut first = Sha256::new();
        first.update("a");
        let mut second = first.clone().unwrap();
        first.update("x");
        second.update("bc");
        assert_eq!(second.finalize(), Sha256::digest("abc"));
        assert_eq!(first.finalize(), Sha256::digest("ax"));
    }
}
