//! The fields of tables, one by one and as the bytes of a digest.

use crate::level::Level;
use crate::places::{number, places};
use crate::tables::{Tables, FIRMS, FOLDERS, PERSONS, ROLES, STEPS};

/// Changes one field of the tables.
pub fn set_field(tables: &mut Tables, which: u8, index: u8, value: u64) {
    let index = usize::from(index);
    match which {
        0 => tables.mask = value as u8,
        1 => tables.firms[index % FIRMS].declared = value != 0,
        2 => tables.firms[index % FIRMS].class = value as u8,
        3 => tables.persons[index % PERSONS].declared = value != 0,
        4 => tables.persons[index % PERSONS].level = Level::from_number(value as u16),
        5 => tables.folders[index % FOLDERS].declared = value != 0,
        6 => tables.folders[index % FOLDERS].firm = value as u8,
        7 => tables.folders[index % FOLDERS].kind = value as u8,
        8 => tables.folders[index % FOLDERS].level = Level::from_number(value as u16),
        9 => tables.roles[index % ROLES].declared = value != 0,
        10 => tables.roles[index % ROLES].rights = places(value),
        11 => tables.enables[index % STEPS] = places(value),
        12 => tables.folders[index % FOLDERS].public = value != 0,
        _ => {}
    }
}

/// The value of one field of the tables, as FIELD would set it.
pub fn field(tables: &Tables, which: u8, index: u8) -> u64 {
    let index = usize::from(index);
    match which {
        0 => u64::from(tables.mask),
        1 => u64::from(tables.firms[index % FIRMS].declared),
        2 => u64::from(tables.firms[index % FIRMS].class),
        3 => u64::from(tables.persons[index % PERSONS].declared),
        4 => u64::from(tables.persons[index % PERSONS].level.number()),
        5 => u64::from(tables.folders[index % FOLDERS].declared),
        6 => u64::from(tables.folders[index % FOLDERS].firm),
        7 => u64::from(tables.folders[index % FOLDERS].kind),
        8 => u64::from(tables.folders[index % FOLDERS].level.number()),
        9 => u64::from(tables.roles[index % ROLES].declared),
        10 => number(&tables.roles[index % ROLES].rights),
        11 => number(&tables.enables[index % STEPS]),
        12 => u64::from(tables.folders[index % FOLDERS].public),
        _ => 0,
    }
}

/// The bytes over which the digest of tables runs.
pub fn table_bytes(tables: &Tables) -> Vec<u8> {
    let mut bytes = vec![tables.mask];
    for firm in &tables.firms {
        bytes.extend([u8::from(firm.declared), firm.class]);
    }
    for person in &tables.persons {
        bytes.push(u8::from(person.declared));
        bytes.extend(person.level.number().to_le_bytes());
    }
    for folder in &tables.folders {
        bytes.extend([u8::from(folder.declared), folder.firm, folder.kind]);
        bytes.extend(folder.level.number().to_le_bytes());
        bytes.push(u8::from(folder.public));
    }
    for role in &tables.roles {
        bytes.push(u8::from(role.declared));
        bytes.extend(number(&role.rights).to_le_bytes());
    }
    for enabled in &tables.enables {
        bytes.extend((number(enabled) as u16).to_le_bytes());
    }
    bytes
}

/// FNV-1a over 32 bits.
pub fn digest(bytes: &[u8]) -> u32 {
    let mut sum: u32 = 2_166_136_261;
    for byte in bytes {
        sum = (sum ^ u32::from(*byte)).wrapping_mul(16_777_619);
    }
    sum
}

#[cfg(test)]
mod tests {
    use super::*;

    #[test]
    fn digests_are_those_of_the_known_function() {
        assert_eq!(digest(b""), 2_166_136_261);
        assert_eq!(digest(b"a"), 0xe40c_292c);
        assert_eq!(digest(b"foobar"), 0xbf9c_f968);
    }

    #[test]
    fn table_bytes_have_the_length_of_the_format() {
        let bytes = table_bytes(&Tables::empty_book());
        assert_eq!(bytes.len(), 1 + 2 * 64 + 3 * 64 + 6 * 128 + 9 * 32 + 2 * 16);
        assert_eq!(bytes.len(), 1_409);
    }

    #[test]
    fn the_mark_of_a_public_folder_is_the_last_of_its_six_bytes() {
        let mut tables = Tables::empty_book();
        let mut expected = table_bytes(&tables);
        // The index is taken modulo 128, and any bit of the value is enough.
        set_field(&mut tables, 12, 130, 256);
        assert_eq!(field(&tables, 12, 2), 1);
        expected[1 + 2 * 64 + 3 * 64 + 6 * 2 + 5] = 1;
        assert_eq!(table_bytes(&tables), expected);
        set_field(&mut tables, 12, 2, 0);
        assert_eq!(tables, Tables::empty_book());
    }
}
