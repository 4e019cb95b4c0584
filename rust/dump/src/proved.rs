//! The texts of the dump. They come from the proved library, by the calls of `ffi`, and
//! from nowhere else.

/// Bytes that are lent for a text at first: enough for most boards. A longer text asks
/// for more.
const ROOM: usize = 4096;

/// The library's calls, as crates/dump/src/lib.rt has them.
///
/// `crpm_sizes` writes the image's own sizes. The other two return the refusal, 0 to 4,
/// and write the length of the whole text to `size` and the text to the start of `out`,
/// if it fits there; else `out` stays as it was.
pub mod ffi {
    extern "C" {
        pub fn crpm_sizes(
            image: *const u8,
            image_length: usize,
            mains: *mut u64,
            backups: *mut u64,
            blocks: *mut u64,
        );
        pub fn crpm_dump_text(
            image: *const u8,
            image_length: usize,
            mains: u64,
            backups: u64,
            blocks: u64,
            out: *mut u8,
            out_length: usize,
            size: *mut u64,
        ) -> u64;
        pub fn crpm_same_text(
            a: *const u8,
            a_length: usize,
            b: *const u8,
            b_length: usize,
            mains: u64,
            backups: u64,
            blocks: u64,
            out: *mut u8,
            out_length: usize,
            size: *mut u64,
        ) -> u64;
    }
}

/// The image's own sizes: levels, spares, frames.
pub fn own_sizes(image: &[u8]) -> [u64; 3] {
    let [mut levels, mut spares, mut frames] = [0; 3];
    // SAFETY: the slice is valid for its length, each reference for what it points to.
    unsafe { ffi::crpm_sizes(image.as_ptr(), image.len(), &mut levels, &mut spares, &mut frames) };
    [levels, spares, frames]
}

/// The refusal of an image, 0 if it is sound, and its lines.
pub fn dump_text(image: &[u8], [levels, spares, frames]: [u64; 3]) -> (u64, String) {
    whole_text(|out, size| {
        // SAFETY: each slice is valid for its length, the reference for what it points
        // to; what is lent for change is not shared.
        unsafe {
            ffi::crpm_dump_text(
                image.as_ptr(),
                image.len(),
                levels,
                spares,
                frames,
                out.as_mut_ptr(),
                out.len(),
                size,
            )
        }
    })
}

/// The refusal of two images, 0 if both are sound, and their line.
pub fn same_text(a: &[u8], b: &[u8], [levels, spares, frames]: [u64; 3]) -> (u64, String) {
    whole_text(|out, size| {
        // SAFETY: as in `dump_text`.
        unsafe {
            ffi::crpm_same_text(
                a.as_ptr(),
                a.len(),
                b.as_ptr(),
                b.len(),
                levels,
                spares,
                frames,
                out.as_mut_ptr(),
                out.len(),
                size,
            )
        }
    })
}

/// What a call returns, and its whole text: if that is longer than the room lent, the
/// call is made once more with room enough.
fn whole_text(call: impl Fn(&mut [u8], &mut u64) -> u64) -> (u64, String) {
    let (mut out, mut size) = (vec![0; ROOM], 0);
    let mut refusal = call(&mut out, &mut size);
    if size as usize > out.len() {
        out.resize(size as usize, 0);
        refusal = call(&mut out, &mut size);
    }
    out.truncate(size as usize);
    (refusal, String::from_utf8_lossy(&out).into_owned())
}
