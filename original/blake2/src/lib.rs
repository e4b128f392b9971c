//! A stand-in for the crate `blake2`: what hns-rs uses of it, over `blake2b_simd`.

pub mod digest {
    /// The output's length is not one that BLAKE2b has, or not the one that was asked for.
    #[derive(Debug)]
    pub struct InvalidLength;

    pub trait Update {
        fn update(&mut self, data: &[u8]);
    }

    pub trait VariableOutput: Sized {
        fn new(length: usize) -> Result<Self, InvalidLength>;
        fn finalize_variable(self, output: &mut [u8]) -> Result<(), InvalidLength>;
    }
}

use digest::{InvalidLength, Update, VariableOutput};

pub struct Blake2bVar {
    state: blake2b_simd::State,
    length: usize,
}

impl Update for Blake2bVar {
    fn update(&mut self, data: &[u8]) {
        self.state.update(data);
    }
}

impl VariableOutput for Blake2bVar {
    fn new(length: usize) -> Result<Self, InvalidLength> {
        if length == 0 || length > blake2b_simd::OUTBYTES {
            return Err(InvalidLength);
        }
        let state = blake2b_simd::Params::new().hash_length(length).to_state();
        Ok(Self { state, length })
    }

    fn finalize_variable(self, output: &mut [u8]) -> Result<(), InvalidLength> {
        if output.len() != self.length {
            return Err(InvalidLength);
        }
        output.copy_from_slice(self.state.finalize().as_bytes());
        Ok(())
    }
}
