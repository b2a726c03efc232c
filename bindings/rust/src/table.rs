//! Layout tables as values, their bytes, and back.

use crate::bytes::{Reader, put_count, put_four};
use crate::error::{ByteFault, BytesError, ValueError};
use crate::usage::Type;
use std::num::NonZeroU32;

const SCALAR: u8 = 0x20;
const ELEMENTS: u8 = 0x21;
const FIELDS: u8 = 0x22;
const HANDLE: u8 = 0x23;
const FAILED: u8 = 0x24;

/// What is known of the layout of each type. A [`Type`] is the number of its record.
///
/// Components of a record are earlier records that are concrete, a table has at most 1,024 records
/// and a record at most 64 fields; [`UsageMerger::new`](crate::UsageMerger::new) refuses others.
///
/// ```
/// use std::num::NonZeroU32;
/// use usage_merger::{Table, TypeLayout};
///
/// let mut table = Table::default();
/// let float = table.push(TypeLayout::scalar(4));
/// let pair = table.push(TypeLayout::fields(8, [(0, float), (4, float)]));
/// let stride = NonZeroU32::new(8).ok_or("a stride is not 0")?;
/// table.push(TypeLayout::elements(32, stride, pair, NonZeroU32::new(4)));
/// assert_eq!(table.to_string(), "scalar 4; fields 8 {0:0 4:0}; elements 32 (8, 1, 4)");
/// assert_eq!(table.to_string().parse(), Ok(table));
/// # Ok::<(), &str>(())
/// ```
#[derive(Clone, Debug, Default, PartialEq, Eq, Hash)]
pub struct Table {
    /// The records, numbered from 0.
    pub records: Vec<TypeLayout>,
}

/// The layout of one type.
#[derive(Clone, Debug, PartialEq, Eq, Hash)]
pub enum TypeLayout {
    /// A type that lies in memory.
    Concrete(MemTypeLayout),
    /// A handle, or an array of handles.
    Handle,
    /// A type whose layout could not be computed.
    Failed,
}

/// The layout of a type that lies in memory.
#[derive(Clone, Debug, PartialEq, Eq, Hash)]
pub struct MemTypeLayout {
    /// The bytes of its fixed part.
    pub size: u32,
    /// The bytes of each unit of its dynamic part, if it has one.
    pub dyn_unit_stride: Option<NonZeroU32>,
    /// What it is made of.
    pub components: Components,
}

/// What a type is made of.
#[derive(Clone, Debug, PartialEq, Eq, Hash)]
pub enum Components {
    /// Nothing else.
    Scalar,
    /// The elements of a vector or an array.
    Elements {
        /// The bytes from one element to the next.
        stride: NonZeroU32,
        /// The type of each.
        elem: Type,
        /// How many there are, if that is fixed.
        fixed_len: Option<NonZeroU32>,
    },
    /// The fields of a struct, none of which starts before the one before it ends.
    Fields(Vec<Field>),
}

/// A field of a struct.
#[derive(Clone, Copy, Debug, PartialEq, Eq, Hash)]
pub struct Field {
    /// Where it starts.
    pub offset: u32,
    /// Its type.
    pub ty: Type,
}

impl Table {
    /// Document 01's bench table: 0 and 1 scalars of 4 bytes, 2 a struct of both, 3 an array of
    /// four of the first, 4 a handle.
    ///
    /// ```
    /// let words = "scalar 4; scalar 4; fields 8 {0:0 4:1}; elements 16 (4, 0, 4); handle";
    /// assert_eq!(usage_merger::Table::bench().to_string(), words);
    /// ```
    pub fn bench() -> Table {
        let (first, second, four) = (Type(0), Type(1), NonZeroU32::MIN.saturating_add(3));
        Table {
            records: vec![
                TypeLayout::scalar(4),
                TypeLayout::scalar(4),
                TypeLayout::fields(8, [(0, first), (4, second)]),
                TypeLayout::elements(16, four, first, Some(four)),
                TypeLayout::Handle,
            ],
        }
    }

    /// Adds a record, and gives back the type that it stands for.
    pub fn push(&mut self, record: TypeLayout) -> Type {
        let number = u32::try_from(self.records.len()).unwrap_or(u32::MAX);
        self.records.push(record);
        Type(number)
    }

    /// The record of a type, if the table has it.
    pub fn get(&self, ty: Type) -> Option<&TypeLayout> {
        self.records.get(usize::try_from(ty.0).ok()?)
    }
}

impl TypeLayout {
    /// A scalar of so many bytes.
    pub fn scalar(size: u32) -> TypeLayout {
        TypeLayout::fixed(size, Components::Scalar)
    }

    /// A vector or an array. One without a fixed length has the stride as its dynamic stride, too.
    pub fn elements(
        size: u32,
        stride: NonZeroU32,
        elem: Type,
        fixed_len: Option<NonZeroU32>,
    ) -> TypeLayout {
        let dyn_unit_stride = if fixed_len.is_none() { Some(stride) } else { None };
        let components = Components::Elements { stride, elem, fixed_len };
        TypeLayout::Concrete(MemTypeLayout { size, dyn_unit_stride, components })
    }

    /// A struct with these offsets and types, and no dynamic part.
    pub fn fields(size: u32, fields: impl IntoIterator<Item = (u32, Type)>) -> TypeLayout {
        let field = |(offset, ty)| Field { offset, ty };
        TypeLayout::fixed(size, Components::Fields(fields.into_iter().map(field).collect()))
    }

    fn fixed(size: u32, components: Components) -> TypeLayout {
        TypeLayout::Concrete(MemTypeLayout { size, dyn_unit_stride: None, components })
    }
}

impl Table {
    /// The table's bytes.
    ///
    /// ```
    /// use usage_merger::Table;
    /// let bytes = Table::bench().to_bytes()?;
    /// assert_eq!(Table::from_bytes(&bytes), Ok(Table::bench()));
    /// # Ok::<(), usage_merger::ValueError>(())
    /// ```
    ///
    /// # Errors
    /// If there are more records, or more fields in one, than a count can say.
    pub fn to_bytes(&self) -> Result<Vec<u8>, ValueError> {
        let mut bytes = Vec::new();
        put_count(&mut bytes, self.records.len(), ValueError::Records)?;
        for record in &self.records {
            match record {
                TypeLayout::Concrete(layout) => put_layout(&mut bytes, layout)?,
                TypeLayout::Handle => bytes.push(HANDLE),
                TypeLayout::Failed => bytes.push(FAILED),
            }
        }
        Ok(bytes)
    }

    /// Reads a table. Whether its records keep the rules is left to the library.
    ///
    /// # Errors
    /// If the bytes are not exactly so many records as they say.
    pub fn from_bytes(bytes: &[u8]) -> Result<Table, BytesError> {
        let mut bytes = Reader::of(bytes);
        let mut table = Table::default();
        for _ in 0..bytes.two()? {
            table.records.push(record(&mut bytes)?);
        }
        bytes.whole(table)
    }
}

fn put_layout(bytes: &mut Vec<u8>, layout: &MemTypeLayout) -> Result<(), ValueError> {
    bytes.push(match layout.components {
        Components::Scalar => SCALAR,
        Components::Elements { .. } => ELEMENTS,
        Components::Fields(_) => FIELDS,
    });
    put_four(bytes, layout.size);
    put_four(bytes, or_0(layout.dyn_unit_stride));
    match &layout.components {
        Components::Scalar => {}
        Components::Elements { stride, elem, fixed_len } => {
            put_four(bytes, stride.get());
            put_four(bytes, elem.0);
            put_four(bytes, or_0(*fixed_len));
        }
        Components::Fields(fields) => {
            put_count(bytes, fields.len(), ValueError::Fields)?;
            for field in fields {
                put_four(bytes, field.offset);
                put_four(bytes, field.ty.0);
            }
        }
    }
    Ok(())
}

/// Where 0 stands for none.
pub(crate) fn or_0(number: Option<NonZeroU32>) -> u32 {
    number.map_or(0, NonZeroU32::get)
}

fn record(bytes: &mut Reader<'_>) -> Result<TypeLayout, BytesError> {
    let command = bytes.byte()?;
    match command {
        SCALAR | ELEMENTS | FIELDS => {}
        HANDLE => return Ok(TypeLayout::Handle),
        FAILED => return Ok(TypeLayout::Failed),
        _ => return Err(bytes.fault(1, ByteFault::Command(command))),
    }
    let (size, dyn_unit_stride) = (bytes.four()?, NonZeroU32::new(bytes.four()?));
    let components = match command {
        SCALAR => Components::Scalar,
        ELEMENTS => {
            let (stride, elem) = (bytes.stride()?, Type(bytes.four()?));
            Components::Elements { stride, elem, fixed_len: NonZeroU32::new(bytes.four()?) }
        }
        _ => Components::Fields(fields(bytes)?),
    };
    Ok(TypeLayout::Concrete(MemTypeLayout { size, dyn_unit_stride, components }))
}

fn fields(bytes: &mut Reader<'_>) -> Result<Vec<Field>, BytesError> {
    let mut fields = Vec::new();
    for _ in 0..bytes.two()? {
        fields.push(Field { offset: bytes.four()?, ty: Type(bytes.four()?) });
    }
    Ok(fields)
}

#[cfg(test)]
mod tests {
    use super::*;

    #[test]
    fn tables_read_back() {
        let text =
            "scalar 4; elements 0+4 (4, 0, 0); fields 8+4 {0:0 8:1}; handle; failed; fields 0 {}";
        let table: Table = text.parse().unwrap();
        let bytes = table.to_bytes().unwrap();
        assert_eq!(Table::from_bytes(&bytes), Ok(table));
        for cut in 0..bytes.len() {
            assert!(Table::from_bytes(&bytes[..cut]).is_err());
        }
        assert!(Table::from_bytes(&[&bytes[..], &[0]].concat()).is_err());
    }

    #[test]
    fn faults_are_found_where_they_are() {
        let fault = |bytes: &[u8]| Table::from_bytes(bytes).unwrap_err();
        let command = BytesError { position: 2, fault: ByteFault::Command(0x25) };
        assert_eq!(fault(&[1, 0, 0x25]), command);
        let elements = [1, 0, 0x21, 4, 0, 0, 0, 0, 0, 0, 0, 0, 0, 0, 0, 0, 0, 0, 0, 0, 0, 0, 0];
        assert_eq!(fault(&elements), BytesError { position: 11, fault: ByteFault::Stride });
    }

    #[test]
    fn what_cannot_be_counted_is_refused() {
        let records = Table { records: vec![TypeLayout::Handle; 65_536] };
        assert_eq!(records.to_bytes(), Err(ValueError::Records(65_536)));
        let fields = vec![(0, Type(0)); 65_536];
        let fields = Table { records: vec![TypeLayout::fields(0, fields)] };
        assert_eq!(fields.to_bytes(), Err(ValueError::Fields(65_536)));
    }
}
