//! Class dumps: what one says of its class.

use crate::values::{is_id_type, read_id, value_len};

/// A field that a class declares.
pub struct Field {
    pub name: u64,
    pub code: u8,
}

/// What the layout of a class is made of.
pub struct Class {
    pub id: u64,
    pub super_id: u64,
    pub fields: Vec<Field>,
}

/// A class, and what its class object holds.
pub struct ClassDump {
    pub class: Class,
    /// The IDs in its statics and its constants, then those of its super class, loader, signers and domain.
    pub references: Vec<u64>,
    /// The bytes of the values of its statics.
    pub static_bytes: u32,
}

/// Bytes, and how many of them have been taken.
struct Cursor<'a> {
    bytes: &'a [u8],
    taken: usize,
}

impl<'a> Cursor<'a> {
    fn take(&mut self, len: usize) -> Option<&'a [u8]> {
        let taken = self.bytes.get(self.taken..self.taken + len)?;
        self.taken += len;
        Some(taken)
    }

    fn id<const ID: usize>(&mut self) -> Option<u64> {
        Some(read_id::<ID>(self.take(ID)?))
    }

    fn short(&mut self) -> Option<usize> {
        let bytes = self.take(2)?;
        Some(usize::from(u16::from_be_bytes([bytes[0], bytes[1]])))
    }

    /// Takes the type of a value and the value, and notes the value if it is an ID. Gives its bytes.
    fn value<const ID: usize>(&mut self, references: &mut Vec<u64>) -> Option<u32> {
        let code = self.take(1)?[0];
        let value = self.take(value_len(code, ID))?;
        if is_id_type(code) {
            references.push(read_id::<ID>(value));
        }
        Some(value.len() as u32)
    }
}

impl ClassDump {
    /// Reads the class dump at the beginning of the bytes, and says how long it is; nothing where the bytes end
    /// before it.
    pub fn read<const ID: usize>(bytes: &[u8]) -> Option<(ClassDump, usize)> {
        let mut cursor = Cursor { bytes, taken: 1 };
        let id = cursor.id::<ID>()?;
        cursor.take(4)?;
        let mut links = [0; 4];
        for link in &mut links {
            *link = cursor.id::<ID>()?;
        }
        cursor.take(2 * ID + 4)?;
        let (mut constants, mut references, mut static_bytes) = (Vec::new(), Vec::new(), 0);
        for _ in 0..cursor.short()? {
            cursor.take(2)?;
            cursor.value::<ID>(&mut constants)?;
        }
        for _ in 0..cursor.short()? {
            cursor.take(ID)?;
            static_bytes += cursor.value::<ID>(&mut references)?;
        }
        references.extend(constants);
        references.extend(links);
        let class = Class {
            id,
            super_id: links[0],
            fields: read_fields::<ID>(&mut cursor)?,
        };
        let dump = ClassDump {
            class,
            references,
            static_bytes,
        };
        Some((dump, cursor.taken))
    }
}

fn read_fields<const ID: usize>(cursor: &mut Cursor) -> Option<Vec<Field>> {
    let (mut fields, count) = (Vec::new(), cursor.short()?);
    for _ in 0..count {
        fields.push(Field {
            name: cursor.id::<ID>()?,
            code: cursor.take(1)?[0],
        });
    }
    Some(fields)
}
