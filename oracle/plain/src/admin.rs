//! Module 2 and the admin commands: seats 6, then 3, then the account's 4.

use journal::Command;

use crate::{test, Desk, Test};

const SEAT_BITS: u64 = 0xFFFF_FFFF;
const WINDOW: std::ops::RangeInclusive<u64> = 3_600..=2_592_000;

impl Desk {
    /// Seats both presented and configured reach the threshold; bits past 32 are ignored.
    fn seats(&self, presented: u64) -> Test {
        let both = presented & SEAT_BITS & self.book.seats;
        test(u64::from(both.count_ones()) >= self.book.threshold, 6)
    }

    pub fn admin_command(&mut self, command: &Command) -> Test {
        match *command {
            Command::Pause { seats, .. } => {
                self.seats(seats)?;
                self.book.paused = true;
                return Ok(());
            }
            Command::Unpause { seats, .. } => {
                self.seats(seats)?;
                self.book.paused = false;
                return Ok(());
            }
            _ => self.not_paused()?,
        }
        match *command {
            Command::SetWindow { seats, window, .. } => {
                self.seats(seats)?;
                test(WINDOW.contains(&window), 3)?;
                self.book.window = window;
            }
            Command::SetRepaymentAccount { id, seats, .. } => {
                self.seats(seats)?;
                self.account(id)?;
                (self.book.repayment, self.book.idle) = (Some(id), 0);
            }
            Command::SetBlacklisted { id, code, seats, .. } => {
                self.seats(seats)?;
                test(code <= 1, 3)?;
                let account = self.account(id)?;
                self.book.accounts[account].blacklisted = code.into();
            }
            Command::SetSeats { seats, threshold, next, .. } => {
                self.seats(seats)?;
                test(next <= SEAT_BITS, 3)?;
                test((1..=next.count_ones()).contains(&threshold), 3)?;
                self.book.seats = next;
                self.book.threshold = threshold.into();
            }
            _ => unreachable!("an admin command"),
        }
        Ok(())
    }
}
