//! A relay that runs an old schema between a new gateway and a new client: what
//! it cannot name it passes on. `cargo run -p arf --example relay`.

use arf::{Refusal, Schema};

/// Reads a payload by the relay's own schema, and writes it again with what
/// that does not know.
fn relay(schema: Schema, type_number: u32, payload: &[u8]) -> Result<Vec<u8>, Refusal> {
    // Each value has a byte at least, so there are never more rows.
    let mut sheet = vec![0; 4 * payload.len()];
    let value = schema.read(type_number, payload, &mut sheet)?;
    let mut out = vec![0; payload.len()];
    let reading = value.reading();
    let length = arf::forward(
        schema.bytes(),
        type_number,
        value.cells(),
        payload,
        reading.tail_place,
        reading.tail_length,
        &mut out,
    )?;
    out.truncate(length);
    Ok(out)
}

/// A schema file with uint8 and a struct of so many such fields, the first one
/// required.
fn schema_file(fields: u32) -> Vec<u8> {
    let mut words = vec![6, 0, 0, 16, 0, fields];
    words.extend((0..fields).flat_map(|i| [0, u32::from(i > 0)]));
    words.extend([24, 24 + 8 * fields, 24 + 8 * fields, 1]);
    words
        .iter()
        .flat_map(|word: &u32| word.to_le_bytes())
        .collect()
}

fn main() -> Result<(), Refusal> {
    let (old, new) = (schema_file(1), schema_file(2));
    let (old, new) = (Schema::new(&old)?, Schema::new(&new)?);
    assert!(new.extends(&old));
    let payload = [0x03, 7, 9];
    let relayed = relay(old, 1, &payload)?;
    let mut sheet = [0; 12];
    for node in new.read(1, &relayed, &mut sheet)?.rows().skip(1) {
        println!("{:?}: {}", node.role, node.scalar()?);
    }
    Ok(())
}

#[cfg(test)]
mod tests {
    use super::{relay, schema_file};
    use arf::Schema;

    #[test]
    fn nothing_is_lost_on_the_way() {
        super::main().unwrap();
        let old = schema_file(1);
        let old = Schema::new(&old).unwrap();
        for payload in [
            &[0x01, 7][..],
            &[0x03, 7, 9],
            &[0xFF, 7, 1, 2, 3, 4, 5, 6, 8],
        ] {
            assert_eq!(relay(old, 1, payload).as_deref(), Ok(payload));
        }
        assert_eq!(relay(old, 1, &[0x00]).unwrap_err().number, 25);
    }
}
