use super::{answer, WRONG_SIZE};
use cendrulas::Answer;
use shelf::plan::{plan, PLAN};

pub fn plan_numbers(t: usize, length: usize, readers: usize, stores: usize, numbers: &mut [usize]) -> Answer {
    match numbers.first_chunk_mut() {
        Some(numbers) => answer(plan(t, length, readers, stores, numbers).map(|()| PLAN)),
        None => Answer::refused(WRONG_SIZE),
    }
}
