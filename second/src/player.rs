//! The player: the next sign at each sample clock.

use crate::refusal::Refusal;
use crate::register::{all_ones, check_form, next_window};

#[derive(Clone, Debug, PartialEq, Eq)]
pub struct Player {
    pub order: u32,
    pub taps: u32,
    pub window: u32,
    pub count: u32,
}

impl Player {
    /// Refusals 1, 2, 3: a player need not be maximal.
    pub fn new(order: u32, taps: u32) -> Result<Player, Refusal> {
        check_form(order, taps)?;
        Ok(Player {
            order,
            taps,
            window: all_ones(order),
            count: 0,
        })
    }

    /// Gives bit 0 of the window as a sign and moves on. Refusals 1, 2, 3, 16.
    pub fn step(&mut self) -> Result<i32, Refusal> {
        check_form(self.order, self.taps)?;
        if self.window == 0 || self.window > all_ones(self.order) {
            return Err(Refusal::Window);
        }
        let sign = if self.window & 1 == 0 { 1 } else { -1 };
        self.window = next_window(self.order, self.taps, self.window);
        self.count = self.count.wrapping_add(1);
        Ok(sign)
    }
}
