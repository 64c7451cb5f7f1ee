//! Values: where each value of an instance stands, and its content as the batch format writes it.

use crate::binxml::BinXmlTemplateValues;
use crate::binxml::tokens::read_template_header;
use crate::binxml::value_variant::{BinXmlValue, BinXmlValueType};
use crate::err::{DeserializationError, DeserializationResult};
use crate::oracle::hex;
use crate::oracle::nests::BODY;
use crate::utils::ByteCursor;
use crate::utils::windows::SysTime;
use crate::{Bump, WINDOWS_1252};

pub(super) const STRING_ARRAY: u8 = 0x81;
const BOOLEAN: u8 = 0x0d;
const INSTANCE_TOKEN: u8 = 0x0c;

/// One value of an instance, read a second time.
struct Placed<'a> {
    code: u8,
    size: u16,
    start: usize,
    /// Where its own read ends.
    read_end: usize,
    /// Where the next value starts.
    next: usize,
    value: BinXmlValue<'a>,
}

/// The values of an instance, as the batch format writes them.
pub(super) struct Fields {
    pub(super) fields: Vec<String>,
    /// Whether every array of strings ended where its size says.
    pub(super) exact: bool,
    /// Where each value of type 21 starts, and its size.
    pub(super) bodies: Vec<Body>,
}

/// A value of type 21: where it starts, and its size.
pub(super) type Body = (usize, usize);

/// The values of the instance whose token stands at `place` and ends at `end`.
///
/// The printed reader hands out the values alone. So the instance is read a second time with the
/// printed readers, one value after the other, and this reading is held against the first: it
/// must end where the token ends, and give as many values of the same content.
pub(super) fn of_instance(
    data: &[u8],
    instance: &BinXmlTemplateValues<'_>,
    place: usize,
    end: usize,
) -> Fields {
    let bump = Bump::new();
    let mut placed = Vec::new();
    let again = read_again(data, place + 1, &bump, &mut placed);
    let end_again = again.expect("what was read once can be read again");
    assert_eq!((placed.len(), end_again), (instance.values.len(), end));

    let mut fields = Vec::with_capacity(placed.len());
    let mut exact = true;
    for (placed, value) in placed.iter().zip(&instance.values) {
        let raw = &data[placed.start..placed.read_end];
        let content = content(placed.code, value, raw);
        assert_eq!(content, self::content(placed.code, &placed.value, raw));
        fields.push(format!(
            "{:02x}:{}:{}:{}:{content}",
            placed.code, placed.size, placed.start, placed.next
        ));
        if placed.code == STRING_ARRAY {
            exact &= raw.len() == usize::from(placed.size);
        }
    }
    let bodies = bodies(&placed);
    Fields {
        fields,
        exact,
        bodies,
    }
}

fn bodies(values: &[Placed<'_>]) -> Vec<Body> {
    let of_type = values.iter().filter(|value| value.code == BODY);
    of_type
        .map(|value| (value.start, value.size.into()))
        .collect()
}

/// The values of type 21 that are read of the instance whose token stands at `place` before it is refused; none where it is its table
/// that is refused, or it is no instance.
pub(super) fn bodies_before_refusal(data: &[u8], place: usize) -> Vec<Body> {
    let bump = Bump::new();
    let mut placed = Vec::new();
    if data.get(place) == Some(&INSTANCE_TOKEN) {
        // Where it is refused is the walk's business.
        let _ = read_again(data, place + 1, &bump, &mut placed);
    }
    bodies(&placed)
}

/// Reads the sizes and type codes of the instance whose body the cursor stands at. Where the
/// stream is cut, `table` holds those before the cut.
pub(super) fn read_table(
    cursor: &mut ByteCursor<'_>,
    table: &mut Vec<(u16, u8)>,
) -> DeserializationResult<()> {
    cursor.u8()?;
    let _id = cursor.u32()?;
    let definition = cursor.u32()?;
    if cursor.position() == u64::from(definition) {
        let header = read_template_header(cursor)?;
        let after = cursor.position() + u64::from(header.data_size);
        cursor.set_pos_u64(after, "definition")?;
    }
    let count = cursor.u32()?;
    for _ in 0..count {
        let size = cursor.u16()?;
        table.push((size, cursor.u8()?));
        cursor.u8()?;
    }
    Ok(())
}

/// Reads the values of the instance whose body starts at `body`, and says where it ends. Where a value is refused, `values` holds those
/// before it.
fn read_again<'a>(
    data: &'a [u8],
    body: usize,
    bump: &'a Bump,
    values: &mut Vec<Placed<'a>>,
) -> DeserializationResult<usize> {
    let mut cursor = ByteCursor::with_pos(data, body)?;
    let mut table = Vec::new();
    read_table(&mut cursor, &mut table)?;
    let typed = table.into_iter().map(|(size, code)| {
        let value_type = BinXmlValueType::from_u8(code);
        let offset = body as u64;
        let unknown = DeserializationError::InvalidValueVariant {
            value: code,
            offset,
        };
        value_type
            .map(|value_type| (size, code, value_type))
            .ok_or(unknown)
    });
    // The whole table comes before any value.
    let typed: Vec<_> = typed.collect::<DeserializationResult<_>>()?;
    for (size, code, value_type) in typed {
        let start = cursor.pos();
        let value = BinXmlValue::deserialize_value_type_cursor_in(
            &value_type,
            &mut cursor,
            Some(size),
            WINDOWS_1252,
            bump,
        )?;
        let read_end = cursor.pos();
        // A short read goes on to the end that its size says, a long one stays where it is.
        cursor.set_pos(read_end.max(start + usize::from(size)), "value")?;
        values.push(Placed {
            code,
            size,
            start,
            read_end,
            next: cursor.pos(),
            value,
        });
    }
    Ok(cursor.pos())
}

/// A value's content. The type code says how it is written, since the printed reader hands a
/// boolean out as a number where it is neither 0 nor 1. `raw` is what its read took; it is looked
/// at only for ANSI text, which the printed reader decodes, and decoding is left out.
pub(super) fn content(code: u8, value: &BinXmlValue<'_>, raw: &[u8]) -> String {
    use BinXmlValue as V;
    match value {
        V::NullType => "n".to_owned(),
        V::StringType(view) if decodes(view.as_bytes()) => format!("t{}", hex(view.as_bytes())),
        V::StringType(view) => format!("x{}", hex(view.as_bytes())),
        V::Int8Type(number) => format!("i{number}"),
        V::Int16Type(number) => format!("i{number}"),
        V::Int32Type(number) if code == BOOLEAN => format!("u{}", number.cast_unsigned()),
        V::Int32Type(number) => format!("i{number}"),
        V::Int64Type(number) => format!("i{number}"),
        V::UInt8Type(number) => format!("u{number}"),
        V::UInt16Type(number) => format!("u{number}"),
        V::UInt32Type(number) | V::HexInt32Type(number) => format!("u{number}"),
        V::UInt64Type(number) | V::HexInt64Type(number) => format!("u{number}"),
        V::BoolType(set) => format!("u{}", u8::from(*set)),
        V::FileTimeType(time) => format!("u{}", time.0),
        V::Real32Type(real) => format!("f{:08x}", real.to_bits()),
        V::Real64Type(real) => format!("f{:016x}", real.to_bits()),
        value => format!("b{}", hex(&stored(value, raw))),
    }
}

/// Whether the standard library's decoder of UTF-16 takes these units.
pub(super) fn decodes(bytes: &[u8]) -> bool {
    let units = bytes.as_chunks::<2>().0.iter();
    char::decode_utf16(units.map(|&unit| u16::from_le_bytes(unit))).all(|char| char.is_ok())
}

/// The stored bytes of a value that is written as bytes.
fn stored(value: &BinXmlValue<'_>, raw: &[u8]) -> Vec<u8> {
    use BinXmlValue as V;

    fn join<T: Copy, const N: usize>(items: &[T], bytes: impl Fn(T) -> [u8; N]) -> Vec<u8> {
        items.iter().flat_map(|&item| bytes(item)).collect()
    }

    match value {
        V::AnsiStringType(_) | V::AnsiStringArrayType(_) => raw.to_vec(),
        V::BinaryType(bytes) | V::BinXmlType(bytes) | V::UInt8ArrayType(bytes) => bytes.to_vec(),
        V::GuidType(bytes) => bytes.to_vec(),
        V::SysTimeType(time) => systime(*time).to_vec(),
        V::SidType(sid) => sid.as_bytes().to_vec(),
        // Each string was ended by a zero unit, which is not part of it.
        V::StringArrayType(texts) => texts
            .iter()
            .flat_map(|text| [text.as_bytes(), &[0, 0]].concat())
            .collect(),
        V::Int8ArrayType(items) => join(items, i8::to_le_bytes),
        V::Int16ArrayType(items) => join(items, i16::to_le_bytes),
        V::UInt16ArrayType(items) => join(items, u16::to_le_bytes),
        V::Int32ArrayType(items) => join(items, i32::to_le_bytes),
        V::UInt32ArrayType(items) | V::HexInt32ArrayType(items) => join(items, u32::to_le_bytes),
        V::Int64ArrayType(items) => join(items, i64::to_le_bytes),
        V::UInt64ArrayType(items) | V::HexInt64ArrayType(items) => join(items, u64::to_le_bytes),
        V::Real32ArrayType(items) => join(items, f32::to_le_bytes),
        V::Real64ArrayType(items) => join(items, f64::to_le_bytes),
        V::BoolArrayType(items) => join(items, |set| u32::from(set).to_le_bytes()),
        V::GuidArrayType(items) => items.concat(),
        V::FileTimeArrayType(items) => join(items, |time| time.0.to_le_bytes()),
        V::SysTimeArrayType(items) => join(items, systime),
        V::SidArrayType(sids) => sids
            .iter()
            .flat_map(|sid| sid.as_bytes().to_vec())
            .collect(),
        value => panic!("no reader hands this out: {value:?}"),
    }
}

fn systime(time: SysTime) -> [u8; 16] {
    let fields = [
        time.year,
        time.month,
        time.day_of_week,
        time.day,
        time.hour,
        time.minute,
        time.second,
        time.milliseconds,
    ];
    let mut bytes = [0; 16];
    for (at, field) in fields.into_iter().enumerate() {
        bytes[2 * at..2 * at + 2].copy_from_slice(&field.to_le_bytes());
    }
    bytes
}
