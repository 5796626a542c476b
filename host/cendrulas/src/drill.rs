//! The drill over a sheet, an output and a work area.

use crate::abi;

/// Bytes of the work area.
pub const WORK_AREA: usize = 2_097_152;
/// Bytes of a line of a listing.
const LISTING_LINE: usize = 65;

/// The output that a run asks for: a line for each of the sheet's after the first, and at least one. Lines are counted by their
/// ends, with an unended rest as one more.
pub fn listing_room(sheet: &[u8]) -> usize {
    let ends = sheet.iter().filter(|&&byte| byte == b'\n').count();
    let unended = sheet.last().is_some_and(|&byte| byte != b'\n') as usize;
    LISTING_LINE * (ends + unended).saturating_sub(1).max(1)
}

/// What a run answers: a listing can be longer than an `Answer` can count.
#[derive(Clone, Copy, Debug, PartialEq, Eq)]
pub struct Listing {
    /// 0, or the number of the refusal.
    pub refusal: u8,
    /// Bytes of listing at the front of the output.
    pub count: usize,
}

/// Runs the sheet; the listing stands at the front of `out`.
pub fn drill(sheet: &[u8], out: &mut [u8], work: &mut [u8]) -> Listing {
    // SAFETY: pointers and lengths are those of live slices; `out` and `work` are lent alone.
    let word = unsafe {
        abi::cendrulas_drill(
            sheet.as_ptr(),
            sheet.len(),
            out.as_mut_ptr(),
            out.len(),
            work.as_mut_ptr(),
            work.len(),
        )
    };
    Listing { refusal: (word >> 56) as u8, count: (word & 0x00FF_FFFF_FFFF_FFFF) as usize }
}
