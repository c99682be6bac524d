//! A refusal of one pass: its number and its places.

use sessions::layout::NO_PLACE;

/// A refusal.
#[derive(Clone, Copy, Debug, PartialEq, Eq)]
pub struct Refusal {
    pub number: u32,
    pub place: u32,
    pub earlier: u32,
}

/// What a check answers.
pub type Check = Result<(), Refusal>;

/// Refuses with the number and place where the test holds.
pub fn refuse_if(test: bool, number: u32, place: u32) -> Check {
    refuse_after(test, number, place, NO_PLACE)
}

/// Refuses with the number, place and earlier place where the test holds.
pub fn refuse_after(test: bool, number: u32, place: u32, earlier: u32) -> Check {
    if test {
        Err(Refusal {
            number,
            place,
            earlier,
        })
    } else {
        Ok(())
    }
}
