//! The calls into the proved archive: the only `unsafe` of this crate.
//!
//! The proved functions take any bytes, any model's number and slices of any
//! length. What they ask is that pointers are not null, are good for the lengths
//! given and do not overlap, which Rust's references see to; those that read into
//! zeros ask for zeros too, which `slices.rs` sees to.

/// Lengths that the limits ask for.
pub const WORDS: usize = 78_848;
pub const WIDES: usize = 9_216;
pub const SIGNEDS: usize = 4_096;
pub const ANSWER: usize = 6;

/// Which of the two entries is called.
#[derive(Clone, Copy, Debug, PartialEq, Eq)]
pub enum Entry {
    Unit,
    Declaration,
}

#[rustfmt::skip]
extern "C" {
    fn recordtable_unit(text: *const u8, text_length: usize, model: u32,
        words: *mut u32, words_length: usize, wides: *mut u64, wides_length: usize,
        signeds: *mut i64, signeds_length: usize, answer: *mut u64, answer_length: usize) -> u32;
    fn recordtable_declaration(text: *const u8, text_length: usize, model: u32,
        words: *mut u32, words_length: usize, wides: *mut u64, wides_length: usize,
        signeds: *mut i64, signeds_length: usize, answer: *mut u64, answer_length: usize) -> u32;
    fn recordtable_unit_in_zeros(text: *const u8, text_length: usize, model: u32,
        words: *mut u32, words_length: usize, wides: *mut u64, wides_length: usize,
        signeds: *mut i64, signeds_length: usize, answer: *mut u64, answer_length: usize) -> u32;
    fn recordtable_declaration_in_zeros(text: *const u8, text_length: usize, model: u32,
        words: *mut u32, words_length: usize, wides: *mut u64, wides_length: usize,
        signeds: *mut i64, signeds_length: usize, answer: *mut u64, answer_length: usize) -> u32;
    fn recordtable_unit_report(text: *const u8, text_length: usize, model: u32,
        words: *mut u32, words_length: usize, wides: *mut u64, wides_length: usize,
        signeds: *mut i64, signeds_length: usize, out: *mut u8, out_length: usize) -> usize;
    fn recordtable_declaration_report(text: *const u8, text_length: usize, model: u32,
        words: *mut u32, words_length: usize, wides: *mut u64, wides_length: usize,
        signeds: *mut i64, signeds_length: usize, out: *mut u8, out_length: usize) -> usize;
}

/// Lent slices, of any length.
pub struct Lent<'a> {
    pub words: &'a mut [u32],
    pub wides: &'a mut [u64],
    pub signeds: &'a mut [i64],
}

/// A function of the archive that reads a text.
#[rustfmt::skip]
type Read = unsafe extern "C" fn(*const u8, usize, u32, *mut u32, usize, *mut u64, usize, *mut i64, usize, *mut u64, usize) -> u32;

/// Reads a text. 0 is accepted, with six counts; else it is the refusal's number, with offset, line and column.
pub fn read(entry: Entry, text: &[u8], model: u32, lent: Lent<'_>, answer: &mut [u64]) -> u32 {
    let function = match entry {
        Entry::Unit => recordtable_unit,
        Entry::Declaration => recordtable_declaration,
    };
    // SAFETY: these ask for nothing of what stands in the slices.
    unsafe { call(function, text, model, lent, answer) }
}

/// The same in slices of zeros, which are not cleared first.
///
/// # Safety
///
/// Every element of the three slices is 0.
pub unsafe fn read_in_zeros(
    entry: Entry,
    text: &[u8],
    model: u32,
    lent: Lent<'_>,
    answer: &mut [u64],
) -> u32 {
    let function = match entry {
        Entry::Unit => recordtable_unit_in_zeros,
        Entry::Declaration => recordtable_declaration_in_zeros,
    };
    // SAFETY: the caller promises zeros.
    unsafe { call(function, text, model, lent, answer) }
}

/// # Safety
///
/// What stands in the slices is what the function asks for.
unsafe fn call(function: Read, text: &[u8], model: u32, lent: Lent<'_>, answer: &mut [u64]) -> u32 {
    let Lent { words, wides, signeds } = lent;
    // SAFETY: each pointer and length are those of a slice that is borrowed for this call, mutably but for the text, so none
    // is null and none overlap; the function is proved to write within them and to end.
    unsafe {
        function(
            text.as_ptr(),
            text.len(),
            model,
            words.as_mut_ptr(),
            words.len(),
            wides.as_mut_ptr(),
            wides.len(),
            signeds.as_mut_ptr(),
            signeds.len(),
            answer.as_mut_ptr(),
            answer.len(),
        )
    }
}

/// Reads a text and writes its listing, or the line of its refusal, as far as it fits. The length of it.
pub fn report(entry: Entry, text: &[u8], model: u32, lent: Lent<'_>, out: &mut [u8]) -> usize {
    let call = match entry {
        Entry::Unit => recordtable_unit_report,
        Entry::Declaration => recordtable_declaration_report,
    };
    let Lent { words, wides, signeds } = lent;
    // SAFETY: as above.
    unsafe {
        call(
            text.as_ptr(),
            text.len(),
            model,
            words.as_mut_ptr(),
            words.len(),
            wides.as_mut_ptr(),
            wides.len(),
            signeds.as_mut_ptr(),
            signeds.len(),
            out.as_mut_ptr(),
            out.len(),
        )
    }
}

#[cfg(test)]
mod tests {
    use super::*;

    const NOISE_32: u32 = 0xdead_beef;
    const NOISE_64: u64 = 0xdead_beef_dead_beef;
    const GUARD: usize = 64;
    const TEXT: &[u8] = b"struct T{char d;short m[6];};enum{A=-1};int f(int a);";

    /// Noise around and in slices of these lengths, lent from the middle.
    struct Noisy {
        words: Vec<u32>,
        wides: Vec<u64>,
        signeds: Vec<i64>,
        answer: Vec<u64>,
        out: Vec<u8>,
    }

    fn inner<T>(guarded: &mut [T]) -> &mut [T] {
        let end = guarded.len() - GUARD;
        &mut guarded[GUARD..end]
    }

    fn guards_hold<T: PartialEq>(guarded: &[T], noise: T) -> bool {
        let (before, after) = (&guarded[..GUARD], &guarded[guarded.len() - GUARD..]);
        before.iter().chain(after).all(|x| *x == noise)
    }

    impl Noisy {
        fn new(words: usize, wides: usize, signeds: usize, rest: usize) -> Noisy {
            Noisy {
                words: vec![NOISE_32; words + 2 * GUARD],
                wides: vec![NOISE_64; wides + 2 * GUARD],
                signeds: vec![NOISE_64 as i64; signeds + 2 * GUARD],
                answer: vec![NOISE_64; rest + 2 * GUARD],
                out: vec![0xaa; rest + 2 * GUARD],
            }
        }

        fn read(&mut self, entry: Entry, text: &[u8], model: u32) -> u32 {
            let lent = Lent {
                words: inner(&mut self.words),
                wides: inner(&mut self.wides),
                signeds: inner(&mut self.signeds),
            };
            let number = read(entry, text, model, lent, inner(&mut self.answer));
            self.unhurt();
            number
        }

        /// In zeros between the guards.
        fn read_in_zeros(&mut self, entry: Entry, text: &[u8], model: u32) -> u32 {
            let lent = Lent {
                words: inner(&mut self.words),
                wides: inner(&mut self.wides),
                signeds: inner(&mut self.signeds),
            };
            lent.words.fill(0);
            lent.wides.fill(0);
            lent.signeds.fill(0);
            // SAFETY: they were filled with zeros.
            let number =
                unsafe { read_in_zeros(entry, text, model, lent, inner(&mut self.answer)) };
            self.unhurt();
            number
        }

        fn report(&mut self, entry: Entry, text: &[u8], model: u32) -> usize {
            let lent = Lent {
                words: inner(&mut self.words),
                wides: inner(&mut self.wides),
                signeds: inner(&mut self.signeds),
            };
            let length = report(entry, text, model, lent, inner(&mut self.out));
            self.unhurt();
            length
        }

        fn unhurt(&self) {
            assert!(guards_hold(&self.words, NOISE_32), "written beside the 32-bit slice");
            assert!(guards_hold(&self.wides, NOISE_64), "written beside the 64-bit slice");
            assert!(guards_hold(&self.signeds, NOISE_64 as i64), "written beside the signed slice");
            assert!(guards_hold(&self.answer, NOISE_64), "written beside the answer");
            assert!(guards_hold(&self.out, 0xaa), "written beside the buffer");
        }

        fn all_zero(&mut self) -> bool {
            inner(&mut self.words).iter().all(|x| *x == 0)
                && inner(&mut self.wides).iter().all(|x| *x == 0)
                && inner(&mut self.signeds).iter().all(|x| *x == 0)
        }
    }

    #[test]
    fn slices_of_wrong_length_are_refused_and_cleared() {
        let lengths = [
            (WORDS - 1, WIDES, SIGNEDS),
            (WORDS, WIDES - 1, SIGNEDS),
            (WORDS, WIDES, SIGNEDS - 1),
            (0, 0, 0),
            (1, 1, 1),
        ];
        for (words, wides, signeds) in lengths {
            for entry in [Entry::Unit, Entry::Declaration] {
                let mut noisy = Noisy::new(words, wides, signeds, ANSWER);
                assert_eq!(noisy.read(entry, TEXT, 0), 1);
                assert_eq!(inner(&mut noisy.answer), [0, 1, 1, 0, 0, 0]);
                assert!(noisy.all_zero());
                assert_eq!(noisy.report(entry, TEXT, 0), "refused 1 0 1 1\n".len());
            }
        }
    }

    #[test]
    fn zeros_or_noise_before_make_no_difference() {
        let texts: [&[u8]; 6] =
            [TEXT, b"", b"int @;", b"struct T{int a;foo b;};", b"int a,b;", b"\xff"];
        for (words, wides, signeds) in
            [(WORDS, WIDES, SIGNEDS), (WORDS + 7, WIDES + 7, SIGNEDS + 7), (0, 1, 2)]
        {
            for entry in [Entry::Unit, Entry::Declaration] {
                for text in texts {
                    for model in 0..4 {
                        let mut noisy = Noisy::new(words, wides, signeds, ANSWER);
                        let mut zeros = Noisy::new(words, wides, signeds, ANSWER);
                        let number = noisy.read(entry, text, model);
                        assert_eq!(zeros.read_in_zeros(entry, text, model), number);
                        assert_eq!(inner(&mut zeros.answer), inner(&mut noisy.answer));
                        assert_eq!(inner(&mut zeros.words), inner(&mut noisy.words));
                        assert_eq!(inner(&mut zeros.wides), inner(&mut noisy.wides));
                        assert_eq!(inner(&mut zeros.signeds), inner(&mut noisy.signeds));
                        assert!(number == 0 || zeros.all_zero());
                    }
                }
            }
        }
    }

    #[test]
    fn unknown_models_are_refused() {
        for model in [3, 4, 255, 65_536, u32::MAX] {
            let mut noisy = Noisy::new(WORDS, WIDES, SIGNEDS, ANSWER);
            assert_eq!(noisy.read(Entry::Unit, TEXT, model), 1);
            assert!(noisy.all_zero());
        }
    }

    #[test]
    fn noise_leaves_no_trace_and_longer_slices_end_in_zeros() {
        let mut exact = Noisy::new(WORDS, WIDES, SIGNEDS, ANSWER);
        let mut longer = Noisy::new(WORDS + 100, WIDES + 100, SIGNEDS + 100, ANSWER + 4);
        let mut clean = (vec![0; WORDS], vec![0; WIDES], vec![0; SIGNEDS]);
        let lent = Lent { words: &mut clean.0, wides: &mut clean.1, signeds: &mut clean.2 };
        let mut answer = [0; ANSWER];
        assert_eq!(read(Entry::Unit, TEXT, 0, lent, &mut answer), 0);
        assert_eq!(exact.read(Entry::Unit, TEXT, 0), 0);
        assert_eq!(longer.read(Entry::Unit, TEXT, 0), 0);
        assert_eq!(inner(&mut exact.words), clean.0);
        assert_eq!(inner(&mut exact.wides), clean.1);
        assert_eq!(inner(&mut exact.signeds), clean.2);
        assert_eq!(inner(&mut exact.answer), answer);
        assert_eq!(inner(&mut longer.words)[..WORDS], clean.0);
        assert!(inner(&mut longer.words)[WORDS..].iter().all(|x| *x == 0));
        assert!(inner(&mut longer.wides)[WIDES..].iter().all(|x| *x == 0));
        assert!(inner(&mut longer.signeds)[SIGNEDS..].iter().all(|x| *x == 0));
        // six numbers, and what lies after them stays
        assert_eq!(inner(&mut longer.answer)[..ANSWER], answer);
        assert!(inner(&mut longer.answer)[ANSWER..].iter().all(|x| *x == NOISE_64));
    }

    #[test]
    fn short_answers_get_what_fits() {
        for length in 0..ANSWER {
            let mut noisy = Noisy::new(WORDS, WIDES, SIGNEDS, length);
            assert_eq!(noisy.read(Entry::Unit, b"int a;\nint @;", 0), 7);
            assert_eq!(inner(&mut noisy.answer)[..], [11, 2, 5, 0, 0, 0][..length]);
        }
    }

    #[test]
    fn short_buffers_get_the_beginning_of_the_listing() {
        let mut whole = Noisy::new(WORDS, WIDES, SIGNEDS, 10_000);
        let length = whole.report(Entry::Unit, TEXT, 0);
        assert!(length < 10_000);
        let listing = inner(&mut whole.out)[..length].to_vec();
        assert!(inner(&mut whole.out)[length..].iter().all(|b| *b == 0xaa));
        for fits in [0, 1, length - 1, length] {
            let mut short = Noisy::new(WORDS, WIDES, SIGNEDS, fits);
            assert_eq!(short.report(Entry::Unit, TEXT, 0), length);
            assert_eq!(inner(&mut short.out), &listing[..fits]);
        }
    }
}
