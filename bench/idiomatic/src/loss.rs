//! Sharing a loss over a pool's rows.

use crate::answer::Code;
use crate::pool::Pool;
use crate::LIMIT;

impl Pool {
    /// Takes the loss from the stakes and the balance. `left` is room for the stakes after it, so that a refusal changes nothing.
    pub fn share_loss(&mut self, loss: i64, left: &mut Vec<i64>) -> Result<(), Code> {
        let last = self.stakes.iter().rposition(|row| row.stake != 0).expect("a balance above 0 has a stake");
        left.clear();
        let mut rest = loss;
        let (loss, balance) = (i128::from(loss), i128::from(self.balance));
        for row in &self.stakes[..last] {
            let share = (i128::from(row.stake) * loss / balance) as i64;
            let reduction = share.min(rest);
            // A wiped row has no share and no part in the rest.
            let reduction = if row.stake == 0 { 0 } else { reduction };
            rest -= reduction;
            left.push(row.stake - reduction);
        }
        let last_left = self.stakes[last].stake - rest;
        if last_left.abs() > LIMIT {
            return Err(Code::OverLimit);
        }
        left.push(last_left);
        let mut gone = false;
        for (row, left) in self.stakes.iter_mut().zip(left.iter()) {
            row.stake = *left;
            if row.stake == 0 {
                row.since = 0;
                gone |= row.accrual == 0;
            }
        }
        if gone {
            self.stakes.retain(|row| row.stake != 0 || row.accrual != 0);
        }
        self.balance -= loss as i64;
        Ok(())
    }
}
