//! Stand-in for the crate `rand`: the names that the published Rust imports, over a fixed 64-bit generator.
//! Neither `prove` nor `verify` draws from it.

/// A source of random words.
pub trait Rng {
    fn next_u64(&mut self) -> u64;

    fn random_bool(&mut self, p: f64) -> bool {
        ((self.next_u64() >> 11) as f64) < p * (1u64 << 53) as f64
    }
}

pub trait CryptoRng {}

/// SplitMix64.
pub struct ThreadRng(u64);

impl Rng for ThreadRng {
    fn next_u64(&mut self) -> u64 {
        self.0 = self.0.wrapping_add(0x9e37_79b9_7f4a_7c15);
        let mut z = self.0;
        z = (z ^ (z >> 30)).wrapping_mul(0xbf58_476d_1ce4_e5b9);
        z = (z ^ (z >> 27)).wrapping_mul(0x94d0_49bb_1331_11eb);
        z ^ (z >> 31)
    }
}

impl CryptoRng for ThreadRng {}

/// A generator with a fixed seed.
pub fn rng() -> ThreadRng {
    ThreadRng(1)
}

pub mod prelude {
    pub use crate::Rng;
}

pub mod distr {
    use crate::Rng;
    use uniform::{SampleBorrow, SampleUniform, UniformSampler};

    pub trait Distribution<T> {
        fn sample<R: Rng + ?Sized>(&self, rng: &mut R) -> T;
    }

    pub struct Uniform<X: SampleUniform>(X::Sampler);

    impl<X: SampleUniform> Uniform<X> {
        pub fn new_inclusive<B1, B2>(low: B1, high: B2) -> Result<Self, uniform::Error>
        where
            B1: SampleBorrow<X> + Sized,
            B2: SampleBorrow<X> + Sized,
        {
            X::Sampler::new_inclusive(low, high).map(Uniform)
        }
    }

    impl<X: SampleUniform> Distribution<X> for Uniform<X> {
        fn sample<R: Rng + ?Sized>(&self, rng: &mut R) -> X {
            self.0.sample(rng)
        }
    }

    pub mod uniform {
        use crate::Rng;

        #[derive(Debug)]
        pub struct Error;

        pub trait SampleBorrow<X> {
            fn borrow(&self) -> &X;
        }

        impl<X> SampleBorrow<X> for X {
            fn borrow(&self) -> &X {
                self
            }
        }

        pub trait SampleUniform: Sized {
            type Sampler: UniformSampler<X = Self>;
        }

        pub trait UniformSampler: Sized {
            type X;

            fn new<B1, B2>(low: B1, high: B2) -> Result<Self, Error>
            where
                B1: SampleBorrow<Self::X> + Sized,
                B2: SampleBorrow<Self::X> + Sized;

            fn new_inclusive<B1, B2>(low: B1, high: B2) -> Result<Self, Error>
            where
                B1: SampleBorrow<Self::X> + Sized,
                B2: SampleBorrow<Self::X> + Sized;

            fn sample<R: Rng + ?Sized>(&self, rng: &mut R) -> Self::X;
        }

        /// The whole numbers from a least to a greatest one.
        #[derive(Clone, Copy, Debug)]
        pub struct UniformInt<T> {
            low: T,
            high: T,
        }

        impl UniformSampler for UniformInt<u32> {
            type X = u32;

            fn new<B1, B2>(low: B1, high: B2) -> Result<Self, Error>
            where
                B1: SampleBorrow<u32> + Sized,
                B2: SampleBorrow<u32> + Sized,
            {
                let (low, high) = (*low.borrow(), *high.borrow());
                if low < high {
                    Ok(UniformInt { low, high: high - 1 })
                } else {
                    Err(Error)
                }
            }

            fn new_inclusive<B1, B2>(low: B1, high: B2) -> Result<Self, Error>
            where
                B1: SampleBorrow<u32> + Sized,
                B2: SampleBorrow<u32> + Sized,
            {
                let (low, high) = (*low.borrow(), *high.borrow());
                if low <= high {
                    Ok(UniformInt { low, high })
                } else {
                    Err(Error)
                }
            }

            fn sample<R: Rng + ?Sized>(&self, rng: &mut R) -> u32 {
                let count = u64::from(self.high - self.low) + 1;
                self.low + (rng.next_u64() % count) as u32
            }
        }
    }
}
