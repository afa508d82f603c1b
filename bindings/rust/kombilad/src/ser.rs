//! Encodes the types of serde as blocks.

use std::fmt;

use serde::ser::{self, Error as _, Impossible, Serialize, SerializeMap, Serializer};

use crate::cid::Cid;
use crate::de::{CID, SERDE_LEVELS};
use crate::error::EncodeError;
use crate::ipld::Ipld;
use crate::room;
use crate::write::{Pair, Writer};

/// Encodes a value as its canonical block. The keys of each map are sorted, and the library encodes
/// the block from a tape of the value.
///
/// - A [`Cid`], or that of the crate `cid`, is a link.
/// - `None` and `()` are null.
/// - A struct is a map.
/// - An enum is the name of its variant, or a map from the name to the content of the variant.
/// - A float of 32 bits is the same float of 64.
///
/// ```
/// #[derive(serde::Serialize)]
/// struct Post {
///     text: &'static str,
///     likes: u32,
///     of: kombilad::Cid,
/// }
///
/// let post = Post { text: "hi", likes: 3, of: "bafkqaaa".parse()? };
/// assert_eq!(kombilad::to_vec(&post)?, b"\xa3\x62of\xd8\x2a\x45\x00\x01\x55\x00\x00\x64text\x62hi\x65likes\x03");
/// # Ok::<(), Box<dyn std::error::Error>>(())
/// ```
///
/// # Errors
///
/// [`EncodeError`] if the value has no block. It is [`EncodeError::TooDeep`] if the value nests
/// deeper than [`SERDE_LEVELS`].
pub fn to_vec<T: Serialize + ?Sized>(value: &T) -> Result<Vec<u8>, EncodeError> {
    let mut block = Block { writer: Writer::new(), pairs: room::Pairs::new() };
    value.serialize(ItemSerializer { block: &mut block, left: SERDE_LEVELS })?;
    block.writer.finish()
}

impl ser::Error for EncodeError {
    fn custom<T: fmt::Display>(message: T) -> Self {
        EncodeError::Message(message.to_string())
    }
}

/// The tape as far as it is written, and the pairs of the open maps.
struct Block {
    writer: Writer,
    pairs: room::Pairs,
}

impl Block {
    /// Ends the map of one pair around an enum's content, if there is one.
    fn close_variant(&mut self, begin: Option<usize>) -> Result<(), EncodeError> {
        begin.map_or(Ok(()), |begin| self.writer.end(begin, 1))
    }
}

/// Writes one item, which may nest `left` levels deep.
struct ItemSerializer<'b> {
    block: &'b mut Block,
    left: usize,
}

impl<'b> ItemSerializer<'b> {
    /// Reborrows this.
    fn again(&mut self) -> ItemSerializer<'_> {
        ItemSerializer { block: self.block, left: self.left }
    }

    fn deeper(&self) -> Result<usize, EncodeError> {
        self.left.checked_sub(1).ok_or(EncodeError::TooDeep)
    }

    fn list(self) -> Result<Items<'b>, EncodeError> {
        let left = self.deeper()?;
        let begin = self.block.writer.list()?;
        Ok(Items { block: self.block, left, begin, variant: None, count: 0 })
    }

    fn pairs(self) -> Result<Pairs<'b>, EncodeError> {
        let left = self.deeper()?;
        let first = self.block.pairs.0.len();
        let begin = self.block.writer.map()?;
        Ok(Pairs { block: self.block, left, begin, variant: None, first })
    }

    /// Begins a map of one pair, whose key is the name of an enum's variant. Returns the index of
    /// its entry, and a serializer for the value.
    fn variant(self, variant: &str) -> Result<(usize, ItemSerializer<'b>), EncodeError> {
        let left = self.deeper()?;
        let begin = self.block.writer.map()?;
        self.block.writer.key(variant)?;
        Ok((begin, ItemSerializer { block: self.block, left }))
    }
}

impl<'b> Serializer for ItemSerializer<'b> {
    type Ok = ();
    type Error = EncodeError;
    type SerializeSeq = Items<'b>;
    type SerializeTuple = Items<'b>;
    type SerializeTupleStruct = Items<'b>;
    type SerializeTupleVariant = Items<'b>;
    type SerializeMap = Pairs<'b>;
    type SerializeStruct = Pairs<'b>;
    type SerializeStructVariant = Pairs<'b>;

    fn serialize_bool(self, value: bool) -> Result<(), EncodeError> {
        self.block.writer.bool(value)
    }

    fn serialize_i8(self, number: i8) -> Result<(), EncodeError> {
        self.block.writer.signed(number.into())
    }

    fn serialize_i16(self, number: i16) -> Result<(), EncodeError> {
        self.block.writer.signed(number.into())
    }

    fn serialize_i32(self, number: i32) -> Result<(), EncodeError> {
        self.block.writer.signed(number.into())
    }

    fn serialize_i64(self, number: i64) -> Result<(), EncodeError> {
        self.block.writer.signed(number)
    }

    fn serialize_i128(self, number: i128) -> Result<(), EncodeError> {
        self.block.writer.integer(number)
    }

    fn serialize_u8(self, number: u8) -> Result<(), EncodeError> {
        self.block.writer.unsigned(number.into())
    }

    fn serialize_u16(self, number: u16) -> Result<(), EncodeError> {
        self.block.writer.unsigned(number.into())
    }

    fn serialize_u32(self, number: u32) -> Result<(), EncodeError> {
        self.block.writer.unsigned(number.into())
    }

    fn serialize_u64(self, number: u64) -> Result<(), EncodeError> {
        self.block.writer.unsigned(number)
    }

    fn serialize_u128(self, number: u128) -> Result<(), EncodeError> {
        let number = u64::try_from(number).map_err(|_| EncodeError::Integer)?;
        self.block.writer.unsigned(number)
    }

    fn serialize_f32(self, number: f32) -> Result<(), EncodeError> {
        self.block.writer.float(number.into())
    }

    fn serialize_f64(self, number: f64) -> Result<(), EncodeError> {
        self.block.writer.float(number)
    }

    fn serialize_char(self, letter: char) -> Result<(), EncodeError> {
        self.block.writer.string(letter.encode_utf8(&mut [0; 4]))
    }

    fn serialize_str(self, text: &str) -> Result<(), EncodeError> {
        self.block.writer.string(text)
    }

    fn serialize_bytes(self, bytes: &[u8]) -> Result<(), EncodeError> {
        self.block.writer.bytes(bytes)
    }

    fn serialize_none(self) -> Result<(), EncodeError> {
        self.block.writer.null()
    }

    fn serialize_some<T: Serialize + ?Sized>(self, value: &T) -> Result<(), EncodeError> {
        value.serialize(self)
    }

    fn serialize_unit(self) -> Result<(), EncodeError> {
        self.block.writer.null()
    }

    fn serialize_unit_struct(self, _: &'static str) -> Result<(), EncodeError> {
        self.block.writer.null()
    }

    fn serialize_unit_variant(
        self,
        _: &'static str,
        _: u32,
        variant: &'static str,
    ) -> Result<(), EncodeError> {
        self.block.writer.string(variant)
    }

    fn serialize_newtype_struct<T: Serialize + ?Sized>(
        self,
        name: &'static str,
        value: &T,
    ) -> Result<(), EncodeError> {
        if name == CID {
            value.serialize(OnlySerializer { block: self.block, only: Only::Link })
        } else {
            value.serialize(self)
        }
    }

    fn serialize_newtype_variant<T: Serialize + ?Sized>(
        self,
        _: &'static str,
        _: u32,
        variant: &'static str,
        value: &T,
    ) -> Result<(), EncodeError> {
        let (begin, mut item) = self.variant(variant)?;
        value.serialize(item.again())?;
        item.block.writer.end(begin, 1)
    }

    fn serialize_seq(self, _: Option<usize>) -> Result<Items<'b>, EncodeError> {
        self.list()
    }

    fn serialize_tuple(self, _: usize) -> Result<Items<'b>, EncodeError> {
        self.list()
    }

    fn serialize_tuple_struct(self, _: &'static str, _: usize) -> Result<Items<'b>, EncodeError> {
        self.list()
    }

    fn serialize_tuple_variant(
        self,
        _: &'static str,
        _: u32,
        variant: &'static str,
        _: usize,
    ) -> Result<Items<'b>, EncodeError> {
        let (begin, item) = self.variant(variant)?;
        Ok(Items { variant: Some(begin), ..item.list()? })
    }

    fn serialize_map(self, _: Option<usize>) -> Result<Pairs<'b>, EncodeError> {
        self.pairs()
    }

    fn serialize_struct(self, _: &'static str, _: usize) -> Result<Pairs<'b>, EncodeError> {
        self.pairs()
    }

    fn serialize_struct_variant(
        self,
        _: &'static str,
        _: u32,
        variant: &'static str,
        _: usize,
    ) -> Result<Pairs<'b>, EncodeError> {
        let (begin, item) = self.variant(variant)?;
        Ok(Pairs { variant: Some(begin), ..item.pairs()? })
    }

    fn is_human_readable(&self) -> bool {
        false
    }
}

/// A list that is being written.
struct Items<'b> {
    block: &'b mut Block,
    left: usize,
    begin: usize,
    /// The entry of the map of one pair whose value this is, if it is an enum's content.
    variant: Option<usize>,
    count: usize,
}

impl Items<'_> {
    fn item<T: Serialize + ?Sized>(&mut self, value: &T) -> Result<(), EncodeError> {
        self.count += 1;
        value.serialize(ItemSerializer { block: self.block, left: self.left })
    }

    fn close(self) -> Result<(), EncodeError> {
        self.block.writer.end(self.begin, self.count)?;
        self.block.close_variant(self.variant)
    }
}

macro_rules! items {
    ($($trait:ident $method:ident),*) => {$(
        impl ser::$trait for Items<'_> {
            type Ok = ();
            type Error = EncodeError;

            fn $method<T: Serialize + ?Sized>(&mut self, value: &T) -> Result<(), EncodeError> {
                self.item(value)
            }

            fn end(self) -> Result<(), EncodeError> {
                self.close()
            }
        }
    )*};
}

items!(SerializeSeq serialize_element, SerializeTuple serialize_element, SerializeTupleStruct serialize_field, SerializeTupleVariant serialize_field);

/// A map that is being written.
struct Pairs<'b> {
    block: &'b mut Block,
    left: usize,
    begin: usize,
    /// The entry of the map of one pair whose value this is, if it is an enum's content.
    variant: Option<usize>,
    first: usize,
}

impl Pairs<'_> {
    fn pair<T: Serialize + ?Sized>(
        &mut self,
        key: &'static str,
        value: &T,
    ) -> Result<(), EncodeError> {
        self.serialize_key(key)?;
        self.serialize_value(value)
    }

    fn close(self) -> Result<(), EncodeError> {
        let pairs = &mut self.block.pairs.0[self.first..];
        let count = pairs.len();
        self.block.writer.sort_pairs(pairs)?;
        self.block.pairs.0.truncate(self.first);
        self.block.writer.end(self.begin, count)?;
        self.block.close_variant(self.variant)
    }
}

impl SerializeMap for Pairs<'_> {
    type Ok = ();
    type Error = EncodeError;

    fn serialize_key<T: Serialize + ?Sized>(&mut self, key: &T) -> Result<(), EncodeError> {
        let begin = self.block.writer.len();
        self.block.pairs.0.try_reserve(1).map_err(|_| EncodeError::OutOfMemory)?;
        self.block.pairs.0.push(Pair::at(begin));
        key.serialize(OnlySerializer { block: self.block, only: Only::Key })
    }

    fn serialize_value<T: Serialize + ?Sized>(&mut self, value: &T) -> Result<(), EncodeError> {
        value.serialize(ItemSerializer { block: self.block, left: self.left })
    }

    fn end(self) -> Result<(), EncodeError> {
        self.close()
    }
}

macro_rules! pairs {
    ($($trait:ident),*) => {$(
        impl ser::$trait for Pairs<'_> {
            type Ok = ();
            type Error = EncodeError;

            fn serialize_field<T: Serialize + ?Sized>(&mut self, key: &'static str, value: &T) -> Result<(), EncodeError> {
                self.pair(key, value)
            }

            fn end(self) -> Result<(), EncodeError> {
                self.close()
            }
        }
    )*};
}

pairs!(SerializeStruct, SerializeStructVariant);

#[derive(Clone, Copy)]
enum Only {
    /// The key of a map, which is a string.
    Key,
    /// The bytes of a CID.
    Link,
}

/// Writes a key, or the bytes of a link, and rejects anything else.
struct OnlySerializer<'b> {
    block: &'b mut Block,
    only: Only,
}

impl OnlySerializer<'_> {
    fn rejected<T>(&self) -> Result<T, EncodeError> {
        Err(match self.only {
            Only::Key => EncodeError::KeyNotText,
            Only::Link => EncodeError::custom("a CID that is not its bytes"),
        })
    }
}

macro_rules! rejected {
    ($($method:ident $type:ty),*) => {$(
        fn $method(self, _: $type) -> Result<(), EncodeError> {
            self.rejected()
        }
    )*};
}

impl Serializer for OnlySerializer<'_> {
    type Ok = ();
    type Error = EncodeError;
    type SerializeSeq = Impossible<(), EncodeError>;
    type SerializeTuple = Impossible<(), EncodeError>;
    type SerializeTupleStruct = Impossible<(), EncodeError>;
    type SerializeTupleVariant = Impossible<(), EncodeError>;
    type SerializeMap = Impossible<(), EncodeError>;
    type SerializeStruct = Impossible<(), EncodeError>;
    type SerializeStructVariant = Impossible<(), EncodeError>;

    rejected!(
        serialize_bool bool, serialize_i8 i8, serialize_i16 i16, serialize_i32 i32, serialize_i64 i64, serialize_i128 i128, serialize_u8 u8,
        serialize_u16 u16, serialize_u32 u32, serialize_u64 u64, serialize_u128 u128, serialize_f32 f32, serialize_f64 f64,
        serialize_unit_struct &'static str
    );

    fn serialize_char(self, letter: char) -> Result<(), EncodeError> {
        self.serialize_str(letter.encode_utf8(&mut [0; 4]))
    }

    fn serialize_str(self, text: &str) -> Result<(), EncodeError> {
        match self.only {
            Only::Key => self.block.writer.key(text),
            Only::Link => self.rejected(),
        }
    }

    fn serialize_bytes(self, bytes: &[u8]) -> Result<(), EncodeError> {
        match self.only {
            Only::Key => self.rejected(),
            Only::Link => self.block.writer.link(bytes),
        }
    }

    fn serialize_none(self) -> Result<(), EncodeError> {
        self.rejected()
    }

    fn serialize_some<T: Serialize + ?Sized>(self, _: &T) -> Result<(), EncodeError> {
        self.rejected()
    }

    fn serialize_unit(self) -> Result<(), EncodeError> {
        self.rejected()
    }

    fn serialize_unit_variant(
        self,
        _: &'static str,
        _: u32,
        variant: &'static str,
    ) -> Result<(), EncodeError> {
        self.serialize_str(variant)
    }

    fn serialize_newtype_struct<T: Serialize + ?Sized>(
        self,
        name: &'static str,
        value: &T,
    ) -> Result<(), EncodeError> {
        if name == CID {
            return self.rejected();
        }
        value.serialize(self)
    }

    fn serialize_newtype_variant<T: Serialize + ?Sized>(
        self,
        _: &'static str,
        _: u32,
        _: &'static str,
        _: &T,
    ) -> Result<(), EncodeError> {
        self.rejected()
    }

    fn serialize_seq(self, _: Option<usize>) -> Result<Self::SerializeSeq, EncodeError> {
        self.rejected()
    }

    fn serialize_tuple(self, _: usize) -> Result<Self::SerializeTuple, EncodeError> {
        self.rejected()
    }

    fn serialize_tuple_struct(
        self,
        _: &'static str,
        _: usize,
    ) -> Result<Self::SerializeTupleStruct, EncodeError> {
        self.rejected()
    }

    fn serialize_tuple_variant(
        self,
        _: &'static str,
        _: u32,
        _: &'static str,
        _: usize,
    ) -> Result<Self::SerializeTupleVariant, EncodeError> {
        self.rejected()
    }

    fn serialize_map(self, _: Option<usize>) -> Result<Self::SerializeMap, EncodeError> {
        self.rejected()
    }

    fn serialize_struct(
        self,
        _: &'static str,
        _: usize,
    ) -> Result<Self::SerializeStruct, EncodeError> {
        self.rejected()
    }

    fn serialize_struct_variant(
        self,
        _: &'static str,
        _: u32,
        _: &'static str,
        _: usize,
    ) -> Result<Self::SerializeStructVariant, EncodeError> {
        self.rejected()
    }

    fn is_human_readable(&self) -> bool {
        false
    }
}

/// Bytes that serde encodes as bytes. It would encode a slice as a list of numbers.
struct Bytes<'a>(&'a [u8]);

impl Serialize for Bytes<'_> {
    fn serialize<S: Serializer>(&self, serializer: S) -> Result<S::Ok, S::Error> {
        serializer.serialize_bytes(self.0)
    }
}

impl Serialize for Cid {
    fn serialize<S: Serializer>(&self, serializer: S) -> Result<S::Ok, S::Error> {
        serializer.serialize_newtype_struct(CID, &Bytes(self.as_bytes()))
    }
}

impl Serialize for Ipld {
    fn serialize<S: Serializer>(&self, serializer: S) -> Result<S::Ok, S::Error> {
        match self {
            Ipld::Null => serializer.serialize_none(),
            Ipld::Bool(value) => serializer.serialize_bool(*value),
            Ipld::Integer(number) => serializer.serialize_i128(*number),
            Ipld::Float(number) => serializer.serialize_f64(*number),
            Ipld::String(text) => serializer.serialize_str(text),
            Ipld::Bytes(bytes) => serializer.serialize_bytes(bytes),
            Ipld::List(items) => items.serialize(serializer),
            Ipld::Map(pairs) => pairs.serialize(serializer),
            Ipld::Link(cid) => cid.serialize(serializer),
        }
    }
}
