use cendrulas::Listing;

pub fn drill(sheet: &[u8], out: &mut [u8], work: &mut [u8]) -> Listing {
    match shelf::drill::drill(sheet, out, work) {
        Ok(count) => Listing { refusal: 0, count },
        Err(refusal) => Listing { refusal: refusal as u8, count: 0 },
    }
}
