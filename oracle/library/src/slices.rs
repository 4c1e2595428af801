//! The calls of the slice layer, which exist for the comparison and the benchmark alone.

/// A call, with the order of its inputs and of its sizes.
#[derive(Clone, Copy, Debug, PartialEq, Eq)]
pub enum SliceCall {
    /// x and y; n.
    InnerProduct,
    /// Elements and numbers; n.
    Combination,
    /// Projection words and s; n, r.
    Projection,
    /// φ', and projection words, psi and omega; r, n, constraints, rows of psi and of omega.
    Phi,
    /// B and C, and t and g; rows, cells and parts of t, cells and parts of g.
    U1,
}

impl SliceCall {
    pub const ALL: [SliceCall; 5] =
        [SliceCall::InnerProduct, SliceCall::Combination, SliceCall::Projection, SliceCall::Phi, SliceCall::U1];

    pub fn name(self) -> &'static str {
        match self {
            SliceCall::InnerProduct => "inner product",
            SliceCall::Combination => "combination",
            SliceCall::Projection => "p",
            SliceCall::Phi => "phi''",
            SliceCall::U1 => "u1",
        }
    }
}

mod exported {
    extern "C" {
        pub fn slice_inner_product(
            x: *const u32,
            x_length: usize,
            y: *const u32,
            y_length: usize,
            n: usize,
            out: *mut u32,
            out_length: usize,
        ) -> bool;
        pub fn slice_combination(
            x: *const u32,
            x_length: usize,
            factors: *const u32,
            factors_length: usize,
            n: usize,
            out: *mut u32,
            out_length: usize,
        ) -> bool;
        pub fn slice_projection(
            pi: *const u32,
            pi_length: usize,
            s: *const u32,
            s_length: usize,
            n: usize,
            r: usize,
            out: *mut u32,
            out_length: usize,
        ) -> bool;
        pub fn slice_phi(
            phi: *const u32,
            phi_length: usize,
            randomness: *const u32,
            randomness_length: usize,
            r: usize,
            n: usize,
            count: usize,
            number: usize,
            out: *mut u32,
            out_length: usize,
        ) -> bool;
        pub fn slice_u1(
            matrices: *const u32,
            matrices_length: usize,
            from: *const u32,
            from_length: usize,
            rows: usize,
            t_cells: usize,
            t_parts: usize,
            g_cells: usize,
            g_parts: usize,
            base: u32,
            out: *mut u32,
            out_length: usize,
        ) -> bool;
        pub fn slice_judged(
            job: *const u32,
            job_length: usize,
            randomness: *const u32,
            randomness_length: usize,
            witness: *const u32,
            witness_length: usize,
            scratch: usize,
            output: usize,
        ) -> super::Judged;
    }
}

/// A refusal's number, 0 where nothing is refused, and its place.
#[repr(C)]
#[derive(Clone, Copy, Debug, PartialEq, Eq)]
pub struct Judged {
    pub number: u32,
    pub place: u64,
}

/// The tests before the work of the whole prover, with the lengths of the lent buffers.
pub fn judged([job, randomness, witness]: [&[u32]; 3], scratch: usize, output: usize) -> Judged {
    // The call takes slices of any length and any words.
    unsafe {
        exported::slice_judged(
            job.as_ptr(),
            job.len(),
            randomness.as_ptr(),
            randomness.len(),
            witness.as_ptr(),
            witness.len(),
            scratch,
            output,
        )
    }
}

/// A call; the base is that of the digits, where there are any.
pub fn slice_call(call: SliceCall, [first, second]: [&[u32]; 2], sizes: &[usize], base: u32, out: &mut [u32]) -> bool {
    use exported::*;
    let (a, a_length) = (first.as_ptr(), first.len());
    let (b, b_length) = (second.as_ptr(), second.len());
    let (to, length) = (out.as_mut_ptr(), out.len());
    // The calls take slices of any length, any words and any sizes.
    unsafe {
        match call {
            SliceCall::InnerProduct => slice_inner_product(a, a_length, b, b_length, sizes[0], to, length),
            SliceCall::Combination => slice_combination(a, a_length, b, b_length, sizes[0], to, length),
            SliceCall::Projection => slice_projection(a, a_length, b, b_length, sizes[0], sizes[1], to, length),
            SliceCall::Phi => slice_phi(a, a_length, b, b_length, sizes[0], sizes[1], sizes[2], sizes[3], to, length),
            SliceCall::U1 => {
                slice_u1(a, a_length, b, b_length, sizes[0], sizes[1], sizes[2], sizes[3], sizes[4], base, to, length)
            }
        }
    }
}
