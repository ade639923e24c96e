//! The library, by its C interface.

use crate::verdict::Verdict;

#[cfg(not(without_library))]
mod archive {
    // A slice is passed as a pointer and a length.
    #[link(name = "capi", kind = "static")]
    extern "C" {
        fn plan_judge(
            file: *const u8,
            file_length: usize,
            flags: *mut u8,
            flags_length: usize,
            out: *mut [u64; 4],
        ) -> u64;
    }

    pub fn judge(file: &[u8], flags: &mut [u8], out: &mut [u64; 4]) -> u64 {
        // SAFETY: both slices are lent for the call with their own lengths, `flags` and `out` to no one else, and the
        // library keeps none of them.
        unsafe { plan_judge(file.as_ptr(), file.len(), flags.as_mut_ptr(), flags.len(), out) }
    }
}

/// For a build without the archive: the reference in its place, so that the generator can be tried alone.
#[cfg(without_library)]
mod archive {
    pub fn judge(file: &[u8], flags: &mut [u8], out: &mut [u64; 4]) -> u64 {
        *out = crate::reference::judge(file, flags).numbers();
        out[0]
    }
}

/// Whether the library is linked.
pub const LINKED: bool = cfg!(not(without_library));

/// The library's answer as it gives it: which verdict, and in `out` that number and its values.
pub fn plan_judge(file: &[u8], flags: &mut [u8], out: &mut [u64; 4]) -> u64 {
    archive::judge(file, flags, out)
}

/// The library's verdict, or what it said that is none.
pub fn judge(file: &[u8], flags: &mut [u8]) -> Result<Verdict, String> {
    let mut out = [u64::MAX; 4];
    let answer = plan_judge(file, flags, &mut out);
    match Verdict::from_numbers(out) {
        Some(verdict) if answer == out[0] => Ok(verdict),
        _ => Err(format!("no verdict: {answer} with {out:?}")),
    }
}
