//! The call table: 128 slots, and what a good table is.

use crate::refusal::{Reason, Refusal};
use crate::schema::{Method, Schema};
use crate::tallies::Tally;

/// The number of slots.
pub const SLOTS: usize = 128;

/// Which streaming frames a method form permits.
#[derive(Clone, Copy, Debug, PartialEq, Eq)]
pub struct Form {
    pub in_stream: bool,
    pub in_close: bool,
    pub out_stream: bool,
    pub out_close: bool,
}

const fn form(in_stream: bool, in_close: bool, out_stream: bool, out_close: bool) -> Form {
    Form {
        in_stream,
        in_close,
        out_stream,
        out_close,
    }
}

const Y: bool = true;
const N: bool = false;

/// Table 1 of the arf draft, one row a form: C:IS, C:IC, S:OS, S:OC.
pub const FORMS: [Form; 16] = [
    form(N, N, N, N), // NNNN
    form(N, N, Y, Y), // NNNY
    form(Y, Y, N, N), // NNYN
    form(Y, Y, Y, Y), // NNYY
    form(N, N, N, N), // NYNN
    form(N, N, Y, Y), // NYNY
    form(Y, Y, N, N), // NYYN
    form(Y, Y, Y, Y), // NYYY
    form(N, N, N, N), // YNNN
    form(N, N, Y, Y), // YNNY
    form(Y, Y, N, N), // YNYN
    form(Y, Y, Y, Y), // YNYY
    form(N, N, N, N), // YYNN
    form(N, N, Y, Y), // YYNY
    form(Y, Y, N, N), // YYYN
    form(Y, Y, Y, Y), // YYYY
];

/// The record of one slot. A free slot is zero in every member.
#[derive(Clone, Copy, Debug, Default, PartialEq, Eq)]
pub struct Call {
    pub open: bool,
    pub correlation: u64,
    /// The number of the method entry.
    pub method: u32,
    pub response: bool,
    pub input_closed: bool,
    pub output_closed: bool,
    /// Whether the client has cancelled the call, which stays open.
    pub cancelled: bool,
    /// How many elements of the input stream were accepted.
    pub input_elements: u16,
    /// How many elements of the output stream were accepted.
    pub output_elements: u16,
}

impl Call {
    /// Whether RESPONSE came and each stream of the form is closed.
    pub const fn is_complete(&self, form: Form) -> bool {
        self.response
            && (self.input_closed || !form.in_close)
            && (self.output_closed || !form.out_close)
    }

    /// Whether this record may stand in a good table by itself.
    pub(crate) fn is_good(&self, schema: &Schema) -> bool {
        if !self.open {
            return *self == Call::default();
        }
        let Some(Method { form, .. }) = schema.method(self.method) else {
            return false;
        };
        let form = FORMS[form];
        (form.in_close || !self.input_closed)
            && (form.out_close || !self.output_closed)
            && (self.response || !self.output_closed)
            && (form.in_stream || self.input_elements == 0)
            && (form.out_stream || self.output_elements == 0)
            && !self.is_complete(form)
    }
}

/// The calls of one connection.
#[derive(Clone, Copy, Debug, PartialEq, Eq)]
pub struct CallTable {
    pub slots: [Call; SLOTS],
}

impl Default for CallTable {
    fn default() -> Self {
        CallTable::fresh()
    }
}

impl CallTable {
    /// The table of a new connection: all slots free.
    pub fn fresh() -> Self {
        CallTable {
            slots: [Call::default(); SLOTS],
        }
    }

    /// How many calls are open.
    pub fn open_count(&self) -> usize {
        self.slots.iter().filter(|call| call.open).count()
    }

    /// The slot of an open call.
    pub fn find(&self, correlation: u64) -> Option<usize> {
        let same = |call: &Call| call.open && call.correlation == correlation;
        self.slots.iter().position(same)
    }

    /// The lowest free slot.
    pub fn lowest_free(&self) -> Option<usize> {
        self.slots.iter().position(|call| !call.open)
    }

    /// Whether the table keeps its rules under a schema table.
    pub fn is_good(&self, schema: &Schema) -> bool {
        self.slots.iter().all(|call| call.is_good(schema)) && self.identifiers_differ()
    }

    /// The schema table, where it is good, this call table is good under it, and
    /// there is a tally row for each of its methods.
    pub(crate) fn check<'a>(
        &self,
        schema: &'a [u8],
        tallies: &[Tally],
    ) -> Result<Schema<'a>, Refusal> {
        let schema = Schema::check(schema)?;
        if !self.is_good(&schema) {
            return Err(Reason::CallTableNotGood.at(0));
        }
        if tallies.len() != schema.methods().len() {
            return Err(Reason::TallyRows.at(0));
        }
        Ok(schema)
    }

    fn identifiers_differ(&self) -> bool {
        let open = || self.slots.iter().filter(|call| call.open);
        open().enumerate().all(|(index, call)| {
            let same = |earlier: &Call| earlier.correlation == call.correlation;
            !open().take(index).any(same)
        })
    }
}
