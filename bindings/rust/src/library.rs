//! The linked library's one call.

/// How many bytes the two texts of a run have, whether or not they fitted.
#[repr(C)]
#[derive(Default)]
struct Lengths {
    out: usize,
    err: usize,
}

// In crates/witx_c/src/lib.rt this is `witx_run(alloc: Global, words: &[u8], input: &[u8], out: &mut [u8],
// err: &mut [u8], lengths: &mut WitxLengths) -> u8`: a slice crosses as a pointer and then a length, and a
// `Global` takes no bytes.
extern "C" {
    fn witx_run(
        words: *const u8,
        words_len: usize,
        input: *const u8,
        input_len: usize,
        out: *mut u8,
        out_len: usize,
        err: *mut u8,
        err_len: usize,
        lengths: *mut Lengths,
    ) -> u8;
}

/// What came of a run.
#[derive(Debug, Clone, PartialEq, Eq)]
pub struct Outcome {
    /// 0: done; 1: refused; 2: words without a form; 5: no memory; 6: the input is no bundle.
    pub status: u8,
    /// What the program writes on standard output.
    pub out: Vec<u8>,
    /// What it writes on standard error.
    pub err: Vec<u8>,
}

/// The room that each text is given first.
const ROOM: usize = 1 << 16;

/// Runs the program over the words behind its name and the bytes that it reads.
///
/// No command line has a word with a byte 0 in it: words with one have no form.
#[must_use]
pub fn run(words: &[&str], input: &[u8]) -> Outcome {
    let words = if words.iter().any(|word| word.contains('\0')) {
        String::new()
    } else {
        words.join("\0")
    };
    let mut room = Lengths {
        out: ROOM,
        err: ROOM,
    };
    loop {
        match run_within(words.as_bytes(), input, &room) {
            Ok(outcome) => return outcome,
            // Both texts have that length the next time too, so that one more call is enough.
            Err(lengths) => room = lengths,
        }
    }
}

/// One call with so much room for the texts; or how much they take, where that is more.
fn run_within(words: &[u8], input: &[u8], room: &Lengths) -> Result<Outcome, Lengths> {
    let mut out = vec![0; room.out];
    let mut err = vec![0; room.err];
    let mut lengths = Lengths::default();
    // SAFETY: the declaration above fits the library's, which asks for nothing but what a slice and a reference
    // are: each pointer and length are those of one slice, and the three that are written are borrowed here
    // alone.
    let status = unsafe {
        witx_run(
            words.as_ptr(),
            words.len(),
            input.as_ptr(),
            input.len(),
            out.as_mut_ptr(),
            out.len(),
            err.as_mut_ptr(),
            err.len(),
            &mut lengths,
        )
    };
    if lengths.out > out.len() || lengths.err > err.len() {
        return Err(lengths);
    }
    out.truncate(lengths.out);
    err.truncate(lengths.err);
    Ok(Outcome { status, out, err })
}

#[cfg(test)]
mod tests {
    use super::{run_within, Lengths, Outcome};

    const BUNDLE: &[u8] = b";;;; file /a.witx\n(typename $size u32)\n";

    fn run_in(words: &[u8], out: usize, err: usize) -> Result<Outcome, (usize, usize)> {
        run_within(words, BUNDLE, &Lengths { out, err }).map_err(|told| (told.out, told.err))
    }

    #[test]
    fn a_small_buffer_is_told_the_length() {
        let listing = b"typename size size 4 align 4\n";
        for room in 0..listing.len() {
            assert_eq!(run_in(b"adapt\0/a.witx", room, 0), Err((listing.len(), 0)));
        }
        let whole = run_in(b"adapt\0/a.witx", listing.len(), 0).unwrap();
        assert_eq!((whole.status, whole.out), (0, listing.to_vec()));
        let refusal = b"witx: with file \"/b.witx\": file not found\n";
        for room in 0..refusal.len() {
            assert_eq!(run_in(b"adapt\0/b.witx", 0, room), Err((0, refusal.len())));
        }
        let whole = run_in(b"adapt\0/b.witx", 0, refusal.len()).unwrap();
        assert_eq!((whole.status, whole.err), (1, refusal.to_vec()));
    }
}
