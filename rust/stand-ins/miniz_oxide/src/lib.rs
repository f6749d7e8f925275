//! Names of `miniz_oxide` that the reference mentions. Nothing that is compared calls them.

pub mod inflate {
    #[derive(Debug)]
    pub struct DecompressError;

    pub fn decompress_to_vec_with_limit(
        _input: &[u8],
        _max_size: usize,
    ) -> Result<Vec<u8>, DecompressError> {
        unimplemented!("stand-in for miniz_oxide: decompress_to_vec_with_limit")
    }
}
