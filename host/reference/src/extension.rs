//! Whether one table extends another.

use crate::bitmap;
use crate::refusal::Refusal;
use crate::schema::{Schema, Type};

/// Whether the new table extends the old one. A table that is not good gives
/// its refusal, the old table first.
pub fn extends(old: &[u8], new: &[u8]) -> Result<bool, Refusal> {
    let old = Schema::check(old)?;
    let new = Schema::check(new)?;
    Ok(keeps_all(&old, &new, Bitmaps::Stay))
}

/// Whether added fields may need more bytes of bitmap.
#[derive(Clone, Copy, PartialEq, Eq)]
pub(crate) enum Bitmaps {
    Stay,
    MayGrow,
}

/// Whether the new table keeps everything that the old one has.
pub(crate) fn keeps_all(old: &Schema, new: &Schema, bitmaps: Bitmaps) -> bool {
    keeps_types(old, new, bitmaps) && keeps_methods(old, new)
}

/// Each old type row has a new row of the same number that extends it.
fn keeps_types(old: &Schema, new: &Schema, bitmaps: Bitmaps) -> bool {
    let pairs = || old.type_rows().zip(new.type_rows());
    new.type_rows().len() >= old.type_rows().len()
        && pairs().all(|(before, after)| keeps_type(old, new, before, after, bitmaps))
}

/// A struct may gain fields; any other row stays as it was.
fn keeps_type(old: &Schema, new: &Schema, before: Type, after: Type, bitmaps: Bitmaps) -> bool {
    match (before, after) {
        (
            Type::Struct { first, count },
            Type::Struct {
                first: new_first,
                count: new_count,
            },
        ) => {
            let same_width = bitmap::width(new_count) == bitmap::width(count);
            (same_width || bitmaps == Bitmaps::MayGrow)
                && keeps_fields(old, (first, count), new, (new_first, new_count))
        }
        _ => before == after,
    }
}

/// The old fields stay in order, and only optional ones follow.
fn keeps_fields(old: &Schema, before: (u32, u32), new: &Schema, after: (u32, u32)) -> bool {
    let old_fields = || old.fields(before.0, before.1);
    let new_fields = || new.fields(after.0, after.1);
    after.1 >= before.1
        && old_fields().eq(new_fields().take(before.1 as usize))
        && new_fields()
            .skip(before.1 as usize)
            .all(|field| field.optional)
}

/// Each old method entry is found unchanged, wherever it stands.
fn keeps_methods(old: &Schema, new: &Schema) -> bool {
    old.methods()
        .all(|method| new.methods().any(|found| found == method))
}
