//! Values that are as deep as the format allows, for the stack that they take.

use reference::generate::table::{Table, ARRAY, MAP, STRING};
use reference::schema::NO_TYPE;
use reference::MAX_DEPTH;

use crate::samples::{size, text};
use crate::CELLS;
use Level::{Array, Map, String, Struct};

/// A payload with its table and type, and the rows that show it. `read_beside`
/// has it by two tables, of which theirs has one field more in each struct.
pub struct Nest {
    pub name: &'static str,
    pub schema: Vec<u8>,
    pub ours: Vec<u8>,
    pub theirs: Vec<u8>,
    pub type_number: u32,
    pub payload: Vec<u8>,
    pub sheet: Vec<u32>,
    /// How many values stand behind the innermost one, each of a byte and a
    /// row.
    behind: usize,
}

/// What the value of one level is.
#[derive(Clone, Copy, PartialEq)]
enum Level {
    Array,
    Map,
    Struct,
    String,
}

/// What the payload has of the fields that theirs has more.
#[derive(Clone, Copy, PartialEq)]
enum Added {
    /// None of them.
    Absent,
    /// All of them, so that ours shows each struct in part.
    Present,
    /// That of the root, which holds all the rest, so that ours shows nothing
    /// of it.
    Root,
}

/// The nests that the stack is measured on.
pub fn nests() -> Vec<Nest> {
    let whole = |name, pairs, turns, inner| nest(name, pairs, turns, inner, Added::Absent);
    let partly = |name, pairs, turns, inner| nest(name, pairs, turns, inner, Added::Present);
    vec![
        whole("maps of 2 pairs", 2, &[Map], &[Map]),
        whole("maps of 64 pairs", 64, &[Map], &[Map]),
        whole("arrays", 2, &[Array], &[Array]),
        whole("structs", 2, &[Struct], &[Struct]),
        whole("maps and arrays by turns", 2, &[Map, Array], &[Map]),
        whole("maps and structs by turns", 2, &[Map, Struct], &[Map]),
        whole("arrays and structs by turns", 2, &[Array, Struct], &[Array]),
        whole("all three by turns", 2, &[Map, Array, Struct], &[Struct]),
        whole("maps around an array", 2, &[Map], &[Array]),
        whole("maps around a struct", 2, &[Map], &[Struct]),
        whole("maps around a string", 2, &[Map], &[String]),
        whole("structs around a map", 2, &[Struct], &[Map]),
        whole("structs around a string", 2, &[Struct], &[String]),
        whole(
            "64 pairs, an array of empty maps",
            64,
            &[Map],
            &[Array, Map],
        ),
        whole(
            "64 pairs, an array of maps",
            64,
            &[Map],
            &[Array, Map, String],
        ),
        whole(
            "64 pairs, an array of structs",
            64,
            &[Map],
            &[Array, Struct],
        ),
        partly("structs in part", 2, &[Struct], &[Struct]),
        partly("arrays and structs in part", 2, &[Array, Struct], &[Array]),
        partly("64 pairs and structs in part", 64, &[Map, Struct], &[Map]),
        partly(
            "64 pairs, an empty struct in part",
            64,
            &[Map],
            &[Array, Struct],
        ),
        partly(
            "64 pairs, a struct in part",
            64,
            &[Map],
            &[Array, Struct, String],
        ),
        nest("64 pairs, not shown", 64, &[Map], &[Map], Added::Root),
    ]
}

/// A root that holds levels by turns, then the inner ones, of which the last
/// stands at the greatest depth.
fn nest(name: &'static str, pairs: usize, turns: &[Level], inner: &[Level], added: Added) -> Nest {
    let outer = MAX_DEPTH as usize - 1 - inner.len();
    let outer = turns.iter().cycle().take(outer);
    let mut levels: Vec<Level> = outer.chain(inner).copied().collect();
    levels.reverse();
    let (innermost, levels) = (levels[0], &levels[1..]);
    let mut payload = match innermost {
        String => text("é".as_bytes()),
        _ => vec![0],
    };
    for level in levels {
        payload = level.around(pairs, payload, added == Added::Present);
    }
    payload = match added {
        Added::Root => [vec![2], payload].concat(),
        _ => Struct.around(pairs, payload, added == Added::Present),
    };
    let (ours, type_number) = table(innermost, levels, added, 1);
    let (theirs, _) = table(innermost, levels, added, 2);
    let structs = levels.iter().filter(|level| **level == Struct).count();
    let (schema, behind) = match added {
        Added::Absent => (ours.clone(), 0),
        Added::Present => (theirs.clone(), 1 + structs),
        Added::Root => (theirs.clone(), 0),
    };
    let mut sheet = vec![0; CELLS];
    let reading = reference::read(&schema, type_number, &payload, &mut sheet);
    sheet.truncate(4 * reading.expect("the nest is right").rows);
    Nest {
        name,
        schema,
        ours,
        theirs,
        type_number,
        payload,
        sheet,
        behind,
    }
}

/// The table of a nest, with the type of its root. A struct has one optional
/// field, which holds the level below it, or a string behind it too. In a root
/// that theirs has added the nest to, the string comes first.
fn table(innermost: Level, levels: &[Level], added: Added, fields: usize) -> (Vec<u8>, u32) {
    let mut table = Table::default();
    let key = table.add_type(STRING, 0, 0);
    let mut below = innermost.over(&mut table, key, key, fields);
    for level in levels {
        below = level.over(&mut table, key, below, fields);
    }
    let mut members = [[below, 1], [key, 1]];
    if added == Added::Root {
        members.reverse();
    }
    let root = table.add_struct(&members[..fields]);
    let method = [1, 2, 3, 12, root, root, NO_TYPE, NO_TYPE];
    table.methods.push(method);
    (table.bytes(), root)
}

impl Level {
    /// Adds the type of this level, which holds values of the type below; a
    /// struct has so many fields.
    fn over(self, table: &mut Table, key: u32, below: u32, fields: usize) -> u32 {
        match self {
            Array => table.add_type(ARRAY, below, 0),
            Map => table.add_type(MAP, key, below),
            Struct => table.add_struct(&[[below, 1], [key, 1]][..fields]),
            String => key,
        }
    }

    /// The value of this level that holds the inner one. A map has it in its
    /// last pair, and in the others the empty value, which is the byte 0; a
    /// struct that carries its second field has an empty string there.
    fn around(self, pairs: usize, inner: Vec<u8>, carries: bool) -> Vec<u8> {
        let key = |index| text(format!("{index:02}").as_bytes());
        match self {
            Map => {
                let others = (1..pairs).flat_map(|index| [key(index), vec![0]].concat());
                [size(pairs), others.collect(), key(0), inner].concat()
            }
            Struct if carries => [vec![3], inner, vec![0]].concat(),
            Array | Struct => [vec![1], inner].concat(),
            String => inner,
        }
    }
}

impl Nest {
    /// The same nest with one level more, which is refused with 28: the
    /// innermost value is no longer empty. None where it is a string.
    pub fn too_deep(&self) -> Option<Nest> {
        let (before, behind) = self.payload.split_at(self.payload.len() - self.behind);
        let before = before.strip_suffix(&[0])?;
        let mut sheet = self.sheet.clone();
        let innermost = sheet.len() - 4 * self.behind;
        sheet[innermost - 1] = 1;
        Some(Nest {
            name: self.name,
            schema: self.schema.clone(),
            ours: self.ours.clone(),
            theirs: self.theirs.clone(),
            type_number: self.type_number,
            payload: [before, &[1, 0, 0], behind].concat(),
            sheet,
            behind: self.behind,
        })
    }
}
