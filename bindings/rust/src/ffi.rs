//! The calls of `bindings/labrador.h` over slices, and all that is `unsafe` in this crate. The structs are the header's,
//! field by field. Nothing else of the crate is needed here: tests and the oracle read this file too.

#[repr(C)]
#[derive(Clone, Copy)]
pub struct Element {
    pub coeffs: [u32; 64],
}

#[repr(C)]
#[derive(Clone, Copy)]
pub struct ChallengeWords {
    pub words: [u32; 104],
}

/// The fields of section one's table, in its order.
#[repr(C)]
#[derive(Clone, Copy)]
pub struct Parameters {
    pub words: [u32; 12],
}

#[repr(C)]
pub struct Status {
    pub number: u32,
    pub place: u32,
}

#[repr(C)]
pub struct WordAnswer {
    pub number: u32,
    pub place: u32,
    pub value: u32,
}

#[repr(C)]
pub struct CentreAnswer {
    pub number: u32,
    pub place: u32,
    pub value: i64,
}

#[repr(C)]
pub struct DigitsAnswer {
    pub number: u32,
    pub place: u32,
    pub digits: [u32; 32],
    pub left: u32,
}

#[repr(C)]
pub struct ElementAnswer {
    pub number: u32,
    pub place: u32,
    pub coeffs: [u32; 64],
}

#[repr(C)]
pub struct NormAnswer {
    pub number: u32,
    pub place: u32,
    pub hi: u64,
    pub lo: u64,
}

#[repr(C)]
pub struct Answer {
    pub number: u32,
    pub place: u64,
}

#[repr(C)]
pub struct Need {
    pub number: u32,
    pub place: u64,
    pub words: u64,
}

#[repr(C)]
pub struct LoadNeed {
    pub number: u32,
    pub place: u64,
    pub job: u64,
    pub witness: u64,
    pub randomness: u64,
}

#[repr(C)]
pub struct Verdict {
    pub number: u32,
    pub index: u32,
    pub first_hi: u64,
    pub first_lo: u64,
    pub second_hi: u64,
    pub second_lo: u64,
    pub place: u64,
    pub cells_left: u64,
}

#[repr(C)]
pub struct Verdicts {
    pub number: u32,
    pub place: u64,
    pub verdicts: [Verdict; 8],
}

#[repr(C)]
pub struct MistypedAnswer {
    pub number: u32,
    pub place: u64,
    pub entries: u64,
}

#[repr(C)]
pub struct RangeNorms {
    pub meets: u32,
    pub least_hi: u64,
    pub least_lo: u64,
    pub greatest_hi: u64,
    pub greatest_lo: u64,
}

#[repr(C)]
pub struct RangesAnswer {
    pub number: u32,
    pub place: u64,
    pub vectors: [RangeNorms; 16],
}

/// A number in two words of 64 bits.
pub fn joined(hi: u64, lo: u64) -> u128 {
    u128::from(hi) << 64 | u128::from(lo)
}

/// Calls that take and give numbers by value.
macro_rules! by_value {
    ($($name:ident = $call:ident($($a:ident: $t:ty),*) -> $r:ty;)*) => {
        extern "C" { $(fn $call($($a: $t),*) -> $r;)* }
        $(#[inline]
        pub fn $name($($a: $t),*) -> $r {
            // SAFETY: the call answers all words, is handed no pointer, and its types are the header's.
            unsafe { $call($($a),*) }
        })*
    };
}

by_value! {
    zq_add = labrador_zq_add(a: u32, b: u32) -> WordAnswer;
    zq_sub = labrador_zq_sub(a: u32, b: u32) -> WordAnswer;
    zq_mul = labrador_zq_mul(a: u32, b: u32) -> WordAnswer;
    zq_neg = labrador_zq_neg(a: u32) -> WordAnswer;
    zq_centre = labrador_zq_centre(a: u32) -> CentreAnswer;
    zq_digits = labrador_zq_digits(base: u32, parts: u32, a: u32) -> DigitsAnswer;
    parts_needed = labrador_parts_needed(base: u32) -> WordAnswer;
    projection_entry = labrador_projection_entry(word: u32) -> WordAnswer;
    rq_add = labrador_rq_add(a: Element, b: Element) -> ElementAnswer;
    rq_sub = labrador_rq_sub(a: Element, b: Element) -> ElementAnswer;
    rq_mul = labrador_rq_mul(a: Element, b: Element) -> ElementAnswer;
    rq_mul_fast = labrador_rq_mul_fast(a: Element, b: Element) -> ElementAnswer;
    rq_scale = labrador_rq_scale(a: Element, c: u32) -> ElementAnswer;
    rq_conj = labrador_rq_conj(a: Element) -> ElementAnswer;
    rq_norm = labrador_rq_norm(a: Element) -> NormAnswer;
    rq_left = labrador_rq_left(base: u32, parts: u32, a: Element) -> ElementAnswer;
    challenge = labrador_challenge(words: ChallengeWords) -> ElementAnswer;
    load_needs = labrador_load_needs(parameters: Parameters) -> LoadNeed;
}

/// The prover's whole call and its rounds.
macro_rules! provers {
    ($($name:ident)*) => {
        extern "C" {
            $(fn $name(
                job: *const u32, job_length: usize, randomness: *const u32, randomness_length: usize,
                witness: *const u32, witness_length: usize, scratch: *mut u32, scratch_length: usize,
                output: *mut u32, output_length: usize,
            ) -> Answer;)*
        }
    };
}

provers!(labrador_prove labrador_round_1 labrador_round_2 labrador_round_3 labrador_round_4 labrador_round_5);

extern "C" {
    fn labrador_recompose(base: u32, digits: *const u32, length: usize) -> WordAnswer;
    fn labrador_rq_digits(base: u32, parts: u32, a: Element, out: *mut u32, length: usize) -> Status;
    fn labrador_scratch_need(job: *const u32, job_length: usize) -> Need;
    fn labrador_output_need(job: *const u32, job_length: usize) -> Need;
    fn labrador_load(
        parameters: Parameters,
        seed: u32,
        job: *mut u32,
        job_length: usize,
        witness: *mut u32,
        witness_length: usize,
        randomness: *mut u32,
        randomness_length: usize,
    ) -> Answer;
    fn labrador_verify(
        job: *const u32,
        job_length: usize,
        randomness: *const u32,
        randomness_length: usize,
        transcript: *const u32,
        transcript_length: usize,
        scratch: *mut u32,
        scratch_length: usize,
    ) -> Verdict;
    fn labrador_verify_many(
        job: *const u32,
        job_length: usize,
        count: u32,
        randomness: *const u32,
        randomness_length: usize,
        transcripts: *const u32,
        transcripts_length: usize,
        scratch: *mut u32,
        scratch_length: usize,
    ) -> Verdicts;
    fn labrador_shed_projection(
        job: *const u32,
        job_length: usize,
        first: u32,
        end: u32,
        projection: *const u32,
        projection_length: usize,
        vectors: *const u32,
        vectors_length: usize,
        scratch: *mut u32,
        scratch_length: usize,
        output: *mut u32,
        output_length: usize,
    ) -> Answer;
    fn labrador_shed_rows(
        job: *const u32,
        job_length: usize,
        first: u32,
        end: u32,
        vectors: *const u32,
        vectors_length: usize,
        scratch: *mut u32,
        scratch_length: usize,
        output: *mut u32,
        output_length: usize,
    ) -> Answer;
    fn labrador_add_projections(
        p: *const u32,
        p_length: usize,
        other: *const u32,
        other_length: usize,
        output: *mut u32,
        output_length: usize,
    ) -> Answer;
    fn labrador_mistyped(
        job: *const u32,
        job_length: usize,
        randomness: *const u32,
        randomness_length: usize,
        transcript: *const u32,
        transcript_length: usize,
        scratch: *mut u32,
        scratch_length: usize,
        list: *mut u32,
        list_length: usize,
    ) -> MistypedAnswer;
    fn labrador_ranges(
        job: *const u32,
        job_length: usize,
        lows: *const i64,
        lows_length: usize,
        highs: *const i64,
        highs_length: usize,
    ) -> RangesAnswer;
}

pub fn recompose(base: u32, digits: &[u32]) -> WordAnswer {
    // SAFETY: the pointer is a slice's, so it is not null and that many words can be read.
    unsafe { labrador_recompose(base, digits.as_ptr(), digits.len()) }
}

#[inline]
pub fn rq_digits(base: u32, parts: u32, a: Element, out: &mut [u32]) -> Status {
    // SAFETY: the pointer is a slice's that is lent alone, so it is not null and that many words can be written.
    unsafe { labrador_rq_digits(base, parts, a, out.as_mut_ptr(), out.len()) }
}

pub fn scratch_need(job: &[u32]) -> Need {
    // SAFETY: the pointer is a slice's, so it is not null and that many words can be read.
    unsafe { labrador_scratch_need(job.as_ptr(), job.len()) }
}

pub fn output_need(job: &[u32]) -> Need {
    // SAFETY: the pointer is a slice's, so it is not null and that many words can be read.
    unsafe { labrador_output_need(job.as_ptr(), job.len()) }
}

pub fn load(parameters: Parameters, seed: u32, job: &mut [u32], witness: &mut [u32], randomness: &mut [u32]) -> Answer {
    // SAFETY: the pointers are those of slices that are lent alone, so none is null, no two overlap, and that many words
    // of each can be written.
    unsafe {
        labrador_load(
            parameters,
            seed,
            job.as_mut_ptr(),
            job.len(),
            witness.as_mut_ptr(),
            witness.len(),
            randomness.as_mut_ptr(),
            randomness.len(),
        )
    }
}

/// The prover's whole call (0) or one of its rounds (1 to 5).
pub fn prove(
    round: usize,
    job: &[u32],
    randomness: &[u32],
    witness: &[u32],
    scratch: &mut [u32],
    output: &mut [u32],
) -> Answer {
    let call =
        [labrador_prove, labrador_round_1, labrador_round_2, labrador_round_3, labrador_round_4, labrador_round_5]
            [round];
    // SAFETY: the pointers are those of slices, so none is null and that many words of each can be read, and what is only
    // read may overlap; scratch and output are lent alone, so they can be written and overlap with nothing.
    unsafe {
        call(
            job.as_ptr(),
            job.len(),
            randomness.as_ptr(),
            randomness.len(),
            witness.as_ptr(),
            witness.len(),
            scratch.as_mut_ptr(),
            scratch.len(),
            output.as_mut_ptr(),
            output.len(),
        )
    }
}

pub fn verify(job: &[u32], randomness: &[u32], transcript: &[u32], scratch: &mut [u32]) -> Verdict {
    // SAFETY: the pointers are those of slices, so none is null and that many words of each can be read, and what is only
    // read may overlap; scratch is lent alone, so it can be written and overlaps with nothing.
    unsafe {
        labrador_verify(
            job.as_ptr(),
            job.len(),
            randomness.as_ptr(),
            randomness.len(),
            transcript.as_ptr(),
            transcript.len(),
            scratch.as_mut_ptr(),
            scratch.len(),
        )
    }
}

pub fn verify_many(job: &[u32], count: u32, randomness: &[u32], transcripts: &[u32], scratch: &mut [u32]) -> Verdicts {
    // SAFETY: the pointers are those of slices, so none is null and that many words of each can be read, and what is only
    // read may overlap; scratch is lent alone, so it can be written and overlaps with nothing.
    unsafe {
        labrador_verify_many(
            job.as_ptr(),
            job.len(),
            count,
            randomness.as_ptr(),
            randomness.len(),
            transcripts.as_ptr(),
            transcripts.len(),
            scratch.as_mut_ptr(),
            scratch.len(),
        )
    }
}

pub fn mistyped(
    job: &[u32],
    randomness: &[u32],
    transcript: &[u32],
    scratch: &mut [u32],
    list: &mut [u32],
) -> MistypedAnswer {
    // SAFETY: the pointers are those of slices, so none is null and that many words of each can be read, and what is only
    // read may overlap; scratch and list are lent alone, so they can be written and overlap with nothing.
    unsafe {
        labrador_mistyped(
            job.as_ptr(),
            job.len(),
            randomness.as_ptr(),
            randomness.len(),
            transcript.as_ptr(),
            transcript.len(),
            scratch.as_mut_ptr(),
            scratch.len(),
            list.as_mut_ptr(),
            list.len(),
        )
    }
}

/// The run from `first` up to `end`: its p, or its rows of t where no projection words are handed in.
pub fn shed(
    job: &[u32],
    [first, end]: [u32; 2],
    projection: Option<&[u32]>,
    vectors: &[u32],
    scratch: &mut [u32],
    output: &mut [u32],
) -> Answer {
    // SAFETY: the pointers are those of slices, so none is null and that many words of each can be read, and what is only
    // read may overlap; scratch and output are lent alone, so they can be written and overlap with nothing.
    unsafe {
        match projection {
            Some(projection) => labrador_shed_projection(
                job.as_ptr(),
                job.len(),
                first,
                end,
                projection.as_ptr(),
                projection.len(),
                vectors.as_ptr(),
                vectors.len(),
                scratch.as_mut_ptr(),
                scratch.len(),
                output.as_mut_ptr(),
                output.len(),
            ),
            None => labrador_shed_rows(
                job.as_ptr(),
                job.len(),
                first,
                end,
                vectors.as_ptr(),
                vectors.len(),
                scratch.as_mut_ptr(),
                scratch.len(),
                output.as_mut_ptr(),
                output.len(),
            ),
        }
    }
}

pub fn add_projections(p: &[u32], other: &[u32], output: &mut [u32]) -> Answer {
    // SAFETY: the pointers are those of slices, so none is null and that many words of each can be read, and what is only
    // read may overlap; the output is lent alone, so it can be written and overlaps with nothing.
    unsafe {
        labrador_add_projections(p.as_ptr(), p.len(), other.as_ptr(), other.len(), output.as_mut_ptr(), output.len())
    }
}

pub fn ranges(job: &[u32], lows: &[i64], highs: &[i64]) -> RangesAnswer {
    // SAFETY: the pointers are those of slices, so none is null and that many numbers of each can be read; nothing is written.
    unsafe { labrador_ranges(job.as_ptr(), job.len(), lows.as_ptr(), lows.len(), highs.as_ptr(), highs.len()) }
}

/// What the command line asks of Linux and std does not give.
#[cfg(feature = "system")]
pub mod system {
    use std::ffi::{c_char, c_int, CStr, CString};
    use std::fs::File;
    use std::io;
    use std::os::fd::AsRawFd;
    use std::sync::atomic::{AtomicBool, AtomicI32, Ordering};

    extern "C" {
        fn linkat(from: c_int, old: *const c_char, to: c_int, new: *const c_char, flags: c_int) -> c_int;
        fn signal(number: c_int, action: usize) -> usize;
        fn raise(number: c_int) -> c_int;
        fn fcntl(file: c_int, command: c_int, ...) -> c_int;
    }

    /// Names count from the working folder.
    const AT_FDCWD: c_int = -100;
    /// A link to what a name leads to.
    const AT_SYMLINK_FOLLOW: c_int = 0x400;

    /// Gives an open file a name, if nothing has it. The file may have had none (`O_TMPFILE`).
    pub fn link(file: &File, name: &CStr) -> io::Result<()> {
        let open = CString::new(format!("/proc/self/fd/{}", file.as_raw_fd())).expect("no zero byte");
        // SAFETY: both texts end with a zero byte and live until the call is over, which only reads them.
        match unsafe { linkat(AT_FDCWD, open.as_ptr(), AT_FDCWD, name.as_ptr(), AT_SYMLINK_FOLLOW) } {
            0 => Ok(()),
            _ => Err(io::Error::last_os_error()),
        }
    }

    /// HUP, INT and TERM.
    const ENDING: [c_int; 3] = [1, 2, 15];
    /// The action of a signal that is ignored.
    const SIG_IGN: usize = 1;

    /// The signal that came while it was put off; 0 is none.
    static NOTED: AtomicI32 = AtomicI32::new(0);

    extern "C" fn note(number: c_int) {
        NOTED.store(number, Ordering::Relaxed);
    }

    fn act(number: c_int, action: usize) -> usize {
        // SAFETY: the action is `note`, which only stores a word, or one that the call gave for this signal before.
        unsafe { signal(number, action) }
    }

    /// While this lives, the signals HUP, INT and TERM are put off. The one that came ends the program when it is dropped.
    pub struct PutOff {
        before: [usize; 3],
    }

    impl PutOff {
        pub fn begin() -> PutOff {
            let before = ENDING.map(|number| act(number, note as *const () as usize));
            let put_off = PutOff { before };
            // what was ignored stays so
            put_off.restore(|before| before == SIG_IGN);
            put_off
        }

        /// Whether one came.
        pub fn came(&self) -> bool {
            NOTED.load(Ordering::Relaxed) != 0
        }

        fn restore(&self, which: impl Fn(usize) -> bool) {
            for (number, before) in ENDING.into_iter().zip(self.before).filter(|(_, before)| which(*before)) {
                act(number, before);
            }
        }
    }

    impl Drop for PutOff {
        fn drop(&mut self) {
            self.restore(|_| true);
            let number = NOTED.swap(0, Ordering::Relaxed);
            if number != 0 {
                // SAFETY: the call takes a number alone; its action is again the one of before.
                unsafe { raise(number) };
            }
        }
    }

    static OUTPUT_IS_CLOSED: AtomicBool = AtomicBool::new(false);

    extern "C" fn look() {
        const F_GETFD: c_int = 1;
        // SAFETY: the call takes numbers alone and alters nothing.
        OUTPUT_IS_CLOSED.store(unsafe { fcntl(1, F_GETFD) } == -1, Ordering::Relaxed);
    }

    /// Called before `main`: the runtime of Rust then opens /dev/null in place of a standard output that is closed.
    #[used]
    #[link_section = ".init_array"]
    static LOOK: extern "C" fn() = look;

    /// Whether the program was started with its standard output closed.
    pub fn output_is_closed() -> bool {
        // so that it is linked
        std::hint::black_box(LOOK);
        OUTPUT_IS_CLOSED.load(Ordering::Relaxed)
    }
}
