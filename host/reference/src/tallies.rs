//! Tallies: what became of the calls of each method.

use crate::schema::Schema;

/// The tally row of one method.
#[derive(Clone, Copy, Debug, Default, PartialEq, Eq)]
pub struct Tally {
    pub opened: u32,
    pub completed: u32,
    pub errored: u32,
    pub cancelled: u32,
    /// Ended by a payload refusal.
    pub failed: u32,
}

/// A figure of a tally row.
#[derive(Clone, Copy, Debug, PartialEq, Eq)]
pub enum Figure {
    Opened,
    Completed,
    Errored,
    Cancelled,
    Failed,
}

impl Tally {
    /// The figures in their order.
    pub const fn figures(&self) -> [u32; 5] {
        let Tally {
            opened,
            completed,
            errored,
            cancelled,
            failed,
        } = *self;
        [opened, completed, errored, cancelled, failed]
    }

    pub const fn from_figures([opened, completed, errored, cancelled, failed]: [u32; 5]) -> Tally {
        Tally {
            opened,
            completed,
            errored,
            cancelled,
            failed,
        }
    }

    /// Whether a figure can rise no more.
    pub const fn is_full(&self, figure: Figure) -> bool {
        self.figures()[figure as usize] == u32::MAX
    }

    /// Raises a figure that is not full.
    pub fn raise(&mut self, figure: Figure) {
        let mut figures = self.figures();
        figures[figure as usize] += 1;
        *self = Tally::from_figures(figures);
    }
}

/// The tallies of a new connection: a row of zeros for each method, and none
/// where the schema table is not good.
pub fn fresh(schema: &[u8]) -> Vec<Tally> {
    let methods = Schema::check(schema).map_or(0, |schema| schema.methods().len());
    vec![Tally::default(); methods]
}
