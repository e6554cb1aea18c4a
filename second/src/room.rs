//! The working room that 01 asks of a caller, with the tags of request 7 of 02.
//! Direct sums use none of it, but a caller who lends too little is refused 6
//! all the same.

use crate::refusal::Refusal;

pub struct Room<'a> {
    pub wide: &'a mut [i64],
    pub tags: &'a mut [u32],
}

impl Room<'_> {
    /// P+1 wide numbers and P tags; the tags are P, half of what 01 asks, by request 7 of 02.
    pub fn check(&self, p: usize) -> Result<(), Refusal> {
        if self.wide.len() < p + 1 || self.tags.len() < p {
            return Err(Refusal::RoomTooShort);
        }
        Ok(())
    }

    /// On success the room holds zeros; what is lent beyond it is kept.
    pub fn clear(&mut self, p: usize) {
        self.wide[..p + 1].fill(0);
        self.tags[..p].fill(0);
    }
}
