//! What became of the calls of each method.

/// The tally row of one method. A slice of them, one row for each method of the
/// schema file in its order, is lent to [`CallTable::receive`] and
/// [`CallTable::release`], which raise at most one figure of one row by one.
/// [`Calls`] has rows of its own.
///
/// Over any run from a fresh call table and rows of zeros, under one schema
/// table, `opened` is the sum of the other four and of the calls of that method
/// that are open now.
///
/// ```
/// // A schema file with no type and one method that neither takes nor gives a value.
/// let none = u32::MAX;
/// let words = [1, 2, 3, 0, none, none, none, none, 0, 0, 32, 1];
/// let bytes: Vec<u8> = words.iter().flat_map(|word| word.to_le_bytes()).collect();
/// let schema = arf::Schema::new(&bytes)?;
/// let tallies = vec![arf::Tally::default(); schema.methods().len()];
/// assert_eq!(tallies.len(), 1);
/// # Ok::<(), arf::Refusal>(())
/// ```
///
/// [`CallTable::receive`]: crate::CallTable::receive
/// [`CallTable::release`]: crate::CallTable::release
/// [`Calls`]: crate::Calls
#[derive(Clone, Copy, Debug, Default, PartialEq, Eq, Hash)]
#[repr(C)]
pub struct Tally {
    /// INVOKE was accepted.
    pub opened: u32,
    /// The frame that completes the call was accepted.
    pub completed: u32,
    /// ERROR ended a call that was not cancelled.
    pub errored: u32,
    /// ERROR after CANCEL, or a release, ended the call. CANCEL alone counts
    /// nowhere: the call is still open.
    pub cancelled: u32,
    /// A payload refusal, 20 to 29 or 31, ended the call. An INVOKE so refused
    /// opens none, and counts nowhere.
    pub failed: u32,
}

impl Tally {
    /// A row of zeros.
    pub const ZERO: Tally = Tally {
        opened: 0,
        completed: 0,
        errored: 0,
        cancelled: 0,
        failed: 0,
    };

    /// How many calls have ended.
    pub fn ended(&self) -> u64 {
        [self.completed, self.errored, self.cancelled, self.failed]
            .map(u64::from)
            .iter()
            .sum()
    }

    /// Takes the calls that have ended out of the row, and gives them. What
    /// stays are the calls that are open, so that the sum still holds. A host
    /// adds the row to longer numbers of its own when a figure is full (18), or
    /// whenever it likes. None where more calls have ended than were opened,
    /// which no run from fresh rows comes to.
    ///
    /// ```
    /// let mut row = arf::Tally { opened: 9, completed: 5, errored: 1, cancelled: 2, failed: 0 };
    /// let ended = row.take_ended().unwrap();
    /// assert_eq!((ended.opened, ended.completed), (8, 5));
    /// assert_eq!(row, arf::Tally { opened: 1, ..Default::default() });
    /// ```
    pub fn take_ended(&mut self) -> Option<Tally> {
        let ended = u32::try_from(self.ended()).ok()?;
        let open = self.opened.checked_sub(ended)?;
        let taken = Tally {
            opened: ended,
            ..*self
        };
        *self = Tally {
            opened: open,
            ..Tally::ZERO
        };
        Some(taken)
    }
}
