//! The simplifier for Rust: `dilkaums_simplify` of dilkaums.h, whose duties the types here meet.

/// A refusal of docs/RULES.md: its number and its place.
#[derive(Clone, Copy, PartialEq, Eq, Debug)]
pub struct Refused {
    pub number: u32,
    pub place: u32,
}

unsafe extern "C" {
    fn dilkaums_simplify(
        image: *const u32,
        image_len: usize,
        frozen: *const u32,
        frozen_len: usize,
        indexed: bool,
        room: u32,
        store: *mut u32,
        store_len: usize,
        working: *mut u32,
        working_len: usize,
        out: *mut u32,
        out_len: usize,
        told: &mut u32,
    ) -> u32;
}

/// Writes the image that is handed out to the front of `out`, and says how many words it has.
pub fn simplify(
    image: &[u32],
    frozen: &[u32],
    indexed: bool,
    room: u32,
    store: &mut [u32],
    working: &mut [u32],
    out: &mut [u32],
) -> Result<u32, Refused> {
    let mut told = 0;
    // SAFETY: each pointer and length are of one slice that is borrowed for the call, and slices that are written lie apart.
    let number = unsafe {
        dilkaums_simplify(
            image.as_ptr(),
            image.len(),
            frozen.as_ptr(),
            frozen.len(),
            indexed,
            room,
            store.as_mut_ptr(),
            store.len(),
            working.as_mut_ptr(),
            working.len(),
            out.as_mut_ptr(),
            out.len(),
            &mut told,
        )
    };
    if number == 0 {
        Ok(told)
    } else {
        Err(Refused {
            number,
            place: told,
        })
    }
}
