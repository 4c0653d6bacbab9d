//! Release: the owner of a connection gives up a call that it has cancelled.

use crate::calls::{Call, CallTable};
use crate::refusal::{Reason, Refusal};
use crate::tallies::{Figure, Tally};

/// The answer to a release.
#[derive(Clone, Copy, Debug, PartialEq, Eq)]
pub struct Released {
    pub result: Result<(), Refusal>,
    /// How many calls are open afterwards.
    pub open: usize,
}

impl Released {
    /// The number of the answer.
    pub fn number(&self) -> u32 {
        self.result.map_or_else(Refusal::number, |()| 0)
    }

    /// The place of a refusal, else 0.
    pub fn place(&self) -> u32 {
        self.result.map_or_else(|refusal| refusal.place, |()| 0)
    }
}

impl CallTable {
    /// Ends a cancelled call without waiting for its ERROR.
    pub fn release(&mut self, schema: &[u8], tallies: &mut [Tally], correlation: u64) -> Released {
        let result = self.end_cancelled(schema, tallies, correlation);
        Released {
            result,
            open: self.open_count(),
        }
    }

    fn end_cancelled(
        &mut self,
        schema: &[u8],
        tallies: &mut [Tally],
        correlation: u64,
    ) -> Result<(), Refusal> {
        self.check(schema, tallies)?;
        let slot = self.find(correlation).ok_or(Reason::CallNotOpen.at(0))?;
        let call = self.slots[slot];
        if !call.cancelled {
            return Err(Reason::NotAllowedNow.at(0));
        }
        let tally = &mut tallies[call.method as usize];
        if tally.is_full(Figure::Cancelled) {
            return Err(Reason::TallyFull.at(0));
        }
        tally.raise(Figure::Cancelled);
        self.slots[slot] = Call::default();
        Ok(())
    }
}
