//! Turns for eight lanes.

/// Waiting families of each lane, and the lane served last.
#[derive(Clone, Copy, Debug, PartialEq, Eq)]
pub struct Lanes {
    pub waiting: [u16; 8],
    pub last: u32,
}

impl Lanes {
    /// After one more family of this lane, or the refusal's number.
    pub fn add(mut self, lane: u32) -> Result<Lanes, u32> {
        if lane.max(self.last) >= 8 {
            return Err(22);
        }
        let count = &mut self.waiting[lane as usize];
        *count = count.checked_add(1).ok_or(23_u32)?;
        Ok(self)
    }

    /// The lane served, or none, and what is left; or the refusal's number.
    pub fn turn(mut self) -> Result<(Option<u32>, Lanes), u32> {
        if self.last >= 8 {
            return Err(22);
        }
        let waiting = (0..8).filter(|&lane| self.waiting[lane as usize] > 0);
        let next = waiting.min_by_key(|lane| (lane + 7 - self.last) % 8);
        if let Some(lane) = next {
            self.waiting[lane as usize] -= 1;
            self.last = lane;
        }
        Ok((next, self))
    }
}
