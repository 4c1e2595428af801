//! Stand-in for the crate `rustfft`: a direct discrete Fourier transform under its names.

use num_complex::Complex;
use std::f64::consts::TAU;
use std::marker::PhantomData;

pub mod num_complex {
    #[derive(Clone, Copy, Debug)]
    pub struct Complex<T> {
        pub re: T,
        pub im: T,
    }

    impl Complex<f64> {
        pub fn norm(&self) -> f64 {
            self.re.hypot(self.im)
        }
    }
}

#[derive(Default)]
pub struct FftPlanner<T>(PhantomData<T>);

impl FftPlanner<f64> {
    pub fn new() -> Self {
        FftPlanner(PhantomData)
    }

    pub fn plan_fft_forward(&mut self, n: usize) -> Fft {
        Fft((0..n).map(|k| (TAU * k as f64 / n as f64).sin_cos()).collect())
    }
}

/// The sine and cosine of each n-th part of a turn.
pub struct Fft(Vec<(f64, f64)>);

impl Fft {
    /// Replaces x by Σ_j x_j·exp(−2πi·jk/n).
    pub fn process(&self, x: &mut [Complex<f64>]) {
        let n = self.0.len();
        let sums: Vec<Complex<f64>> = (0..n)
            .map(|k| {
                let mut sum = Complex { re: 0.0, im: 0.0 };
                for (j, c) in x.iter().enumerate() {
                    let (sin, cos) = self.0[j * k % n];
                    sum.re += c.re * cos + c.im * sin;
                    sum.im += c.im * cos - c.re * sin;
                }
                sum
            })
            .collect();
        x.copy_from_slice(&sums);
    }
}
