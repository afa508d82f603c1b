//! Decodes blocks to the types of serde.

use std::fmt;

use serde::de::value::{BorrowedBytesDeserializer, BorrowedStrDeserializer};
use serde::de::{
    self, Deserialize, DeserializeSeed, Deserializer, EnumAccess, Error as _, IntoDeserializer,
    MapAccess, SeqAccess, Unexpected, VariantAccess, Visitor,
};
use serde::forward_to_deserialize_any;

use crate::block::Limits;
use crate::cid::Cid;
use crate::error::{DecodeError, Error};
use crate::ffi::kind;
use crate::ipld::Ipld;
use crate::tape::{Items, Pairs, TapeRef};

/// The name that distinguishes a CID from other bytes. The crates `cid` and `serde_ipld_dagcbor`
/// use the same.
pub(crate) const CID: &str = "$__private__serde__identifier__for__cid";

/// The maximum depth of a value that serde encodes or decodes, since serde is recursive.
pub const SERDE_LEVELS: usize = 256;

/// Decodes a block to a type: [`Limits::from_slice`] within the default limits.
///
/// ```
/// #[derive(serde::Deserialize)]
/// struct Post<'a> {
///     text: &'a str,
///     reply: Option<kombilad::Cid>,
/// }
///
/// let post: Post = kombilad::from_slice(b"\xa2\x64text\x62hi\x65reply\xd8\x2a\x45\x00\x01\x55\x00\x00")?;
/// assert_eq!(post.text, "hi");
/// assert_eq!(post.reply, Some("bafkqaaa".parse()?));
/// # Ok::<(), Box<dyn std::error::Error>>(())
/// ```
///
/// # Errors
///
/// [`DecodeError::Block`] if the bytes are not a block or exceed a limit, and
/// [`DecodeError::Message`] if the type rejects the block's value.
pub fn from_slice<'a, T: Deserialize<'a>>(block: &'a [u8]) -> Result<T, DecodeError> {
    Limits::default().from_slice(block)
}

impl Limits {
    /// Decodes a block to a type.
    ///
    /// - A type may borrow strings and bytes from the block. Strings don't decode as bytes, nor
    ///   bytes as strings.
    /// - A link decodes to a [`Cid`], or to that of the crate `cid`.
    /// - Null decodes to `None` and to `()`.
    /// - A map decodes to a struct.
    /// - An enum is the name of its variant, or a map from the name to the content of the variant.
    ///
    /// The block may nest at most [`SERDE_LEVELS`] deep.
    ///
    /// # Errors
    ///
    /// [`DecodeError::Block`] if the bytes are not a block or exceed a limit, and
    /// [`DecodeError::Message`] if the type rejects the block's value.
    pub fn from_slice<'a, T: Deserialize<'a>>(&self, block: &'a [u8]) -> Result<T, DecodeError> {
        let levels = self.levels.min(SERDE_LEVELS);
        let tape = Limits { levels, ..*self }.tape(block).map_err(DecodeError::Block)?;
        T::deserialize(tape.root())
    }
}

impl de::Error for DecodeError {
    fn custom<T: fmt::Display>(message: T) -> Self {
        DecodeError::Message(message.to_string())
    }
}

impl<'a> TapeRef<'_, 'a> {
    fn unexpected(self) -> Unexpected<'a> {
        let entry = self.entry();
        match entry.kind {
            kind::FALSE => Unexpected::Bool(false),
            kind::TRUE => Unexpected::Bool(true),
            kind::UNSIGNED => Unexpected::Unsigned(entry.value),
            kind::NEGATIVE => i64::try_from(entry.value)
                .map_or(Unexpected::Other("a negative integer"), |n| Unexpected::Signed(!n)),
            kind::FLOAT => Unexpected::Float(self.as_float().unwrap_or_default()),
            kind::STRING => Unexpected::Str(self.as_str().unwrap_or_default()),
            kind::BYTES => Unexpected::Bytes(self.as_bytes().unwrap_or_default()),
            kind::LINK => Unexpected::Other("a link"),
            kind::LIST => Unexpected::Seq,
            kind::MAP => Unexpected::Map,
            _ => Unexpected::Unit,
        }
    }
}

/// Decodes the value to a type. This is recursive, to the depth that the limits of the tape allow.
/// For an untrusted block set at most [`SERDE_LEVELS`] levels, as [`Limits::from_slice`] does.
impl<'a> Deserializer<'a> for TapeRef<'_, 'a> {
    type Error = DecodeError;

    fn deserialize_any<V: Visitor<'a>>(self, visitor: V) -> Result<V::Value, DecodeError> {
        let entry = self.entry();
        match entry.kind {
            kind::FALSE => visitor.visit_bool(false),
            kind::TRUE => visitor.visit_bool(true),
            kind::UNSIGNED => visitor.visit_u64(entry.value),
            kind::NEGATIVE => match i64::try_from(entry.value) {
                Ok(number) => visitor.visit_i64(!number),
                Err(_) => visitor.visit_i128(!i128::from(entry.value)),
            },
            kind::FLOAT => visitor.visit_f64(self.as_float().unwrap_or_default()),
            kind::STRING => visitor.visit_borrowed_str(self.as_str().unwrap_or_default()),
            kind::BYTES => visitor.visit_borrowed_bytes(self.as_bytes().unwrap_or_default()),
            kind::LINK => {
                visitor.visit_newtype_struct(Link(self.as_link_bytes().unwrap_or_default()))
            }
            kind::LIST => {
                let mut items = ItemAccess(self.items());
                let value = visitor.visit_seq(&mut items)?;
                all_read(items.0.len(), self, &"a list of fewer items").map(|()| value)
            }
            kind::MAP => {
                let mut pairs = PairAccess { pairs: self.pairs(), value: None };
                let value = visitor.visit_map(&mut pairs)?;
                all_read(pairs.pairs.len(), self, &"a map of fewer pairs").map(|()| value)
            }
            _ => visitor.visit_unit(),
        }
    }

    fn deserialize_str<V: Visitor<'a>>(self, visitor: V) -> Result<V::Value, DecodeError> {
        match self.as_str() {
            Some(text) => visitor.visit_borrowed_str(text),
            None => Err(DecodeError::invalid_type(self.unexpected(), &visitor)),
        }
    }

    fn deserialize_string<V: Visitor<'a>>(self, visitor: V) -> Result<V::Value, DecodeError> {
        self.deserialize_str(visitor)
    }

    fn deserialize_bytes<V: Visitor<'a>>(self, visitor: V) -> Result<V::Value, DecodeError> {
        match self.as_bytes() {
            Some(bytes) => visitor.visit_borrowed_bytes(bytes),
            None => Err(DecodeError::invalid_type(self.unexpected(), &visitor)),
        }
    }

    fn deserialize_byte_buf<V: Visitor<'a>>(self, visitor: V) -> Result<V::Value, DecodeError> {
        self.deserialize_bytes(visitor)
    }

    fn deserialize_option<V: Visitor<'a>>(self, visitor: V) -> Result<V::Value, DecodeError> {
        if self.is_null() {
            visitor.visit_none()
        } else {
            visitor.visit_some(self)
        }
    }

    fn deserialize_newtype_struct<V: Visitor<'a>>(
        self,
        name: &'static str,
        visitor: V,
    ) -> Result<V::Value, DecodeError> {
        if name != CID {
            return visitor.visit_newtype_struct(self);
        }
        match self.as_link_bytes() {
            Some(cid) => visitor.visit_newtype_struct(Link(cid)),
            None => Err(DecodeError::invalid_type(self.unexpected(), &"a link")),
        }
    }

    fn deserialize_enum<V: Visitor<'a>>(
        self,
        _: &'static str,
        _: &'static [&'static str],
        visitor: V,
    ) -> Result<V::Value, DecodeError> {
        if let Some(variant) = self.as_str() {
            return visitor.visit_enum(BorrowedStrDeserializer::new(variant));
        }
        match self.pairs().next() {
            Some((variant, content)) if self.len() == 1 => {
                visitor.visit_enum(Variant { variant, content })
            }
            _ => Err(DecodeError::invalid_type(
                self.unexpected(),
                &"the name of a variant, or a map from it",
            )),
        }
    }

    fn deserialize_ignored_any<V: Visitor<'a>>(self, visitor: V) -> Result<V::Value, DecodeError> {
        visitor.visit_unit()
    }

    fn is_human_readable(&self) -> bool {
        false
    }

    forward_to_deserialize_any! {
        <V: Visitor<'a>>
        bool i8 i16 i32 i64 i128 u8 u16 u32 u64 u128 f32 f64 char unit unit_struct seq tuple tuple_struct map struct identifier
    }
}

impl<'a> IntoDeserializer<'a, DecodeError> for TapeRef<'_, 'a> {
    type Deserializer = Self;

    fn into_deserializer(self) -> Self {
        self
    }
}

/// Returns an error unless the type has read all items or pairs.
fn all_read(
    left: usize,
    whole: TapeRef<'_, '_>,
    expected: &dyn de::Expected,
) -> Result<(), DecodeError> {
    if left == 0 {
        Ok(())
    } else {
        Err(DecodeError::invalid_length(whole.len(), expected))
    }
}

struct ItemAccess<'t, 'a>(Items<'t, 'a>);

impl<'a> SeqAccess<'a> for ItemAccess<'_, 'a> {
    type Error = DecodeError;

    fn next_element_seed<T: DeserializeSeed<'a>>(
        &mut self,
        seed: T,
    ) -> Result<Option<T::Value>, DecodeError> {
        self.0.next().map(|item| seed.deserialize(item)).transpose()
    }

    fn size_hint(&self) -> Option<usize> {
        Some(self.0.len())
    }
}

struct PairAccess<'t, 'a> {
    pairs: Pairs<'t, 'a>,
    value: Option<TapeRef<'t, 'a>>,
}

impl<'a> MapAccess<'a> for PairAccess<'_, 'a> {
    type Error = DecodeError;

    fn next_key_seed<K: DeserializeSeed<'a>>(
        &mut self,
        seed: K,
    ) -> Result<Option<K::Value>, DecodeError> {
        let pair = self.pairs.next();
        self.value = pair.map(|(_, value)| value);
        pair.map(|(key, _)| seed.deserialize(Key(key))).transpose()
    }

    fn next_value_seed<V: DeserializeSeed<'a>>(
        &mut self,
        seed: V,
    ) -> Result<V::Value, DecodeError> {
        match self.value.take() {
            Some(value) => seed.deserialize(value),
            None => Err(DecodeError::custom("a value was asked for before its key")),
        }
    }

    fn size_hint(&self) -> Option<usize> {
        Some(self.pairs.len())
    }
}

/// The key of a map: a string, a newtype of one, or an enum.
struct Key<'a>(&'a str);

impl<'a> Deserializer<'a> for Key<'a> {
    type Error = DecodeError;

    fn deserialize_any<V: Visitor<'a>>(self, visitor: V) -> Result<V::Value, DecodeError> {
        visitor.visit_borrowed_str(self.0)
    }

    fn deserialize_newtype_struct<V: Visitor<'a>>(
        self,
        _: &'static str,
        visitor: V,
    ) -> Result<V::Value, DecodeError> {
        visitor.visit_newtype_struct(self)
    }

    fn deserialize_enum<V: Visitor<'a>>(
        self,
        _: &'static str,
        _: &'static [&'static str],
        visitor: V,
    ) -> Result<V::Value, DecodeError> {
        visitor.visit_enum(BorrowedStrDeserializer::new(self.0))
    }

    fn is_human_readable(&self) -> bool {
        false
    }

    forward_to_deserialize_any! {
        <V: Visitor<'a>>
        bool i8 i16 i32 i64 i128 u8 u16 u32 u64 u128 f32 f64 char str string bytes byte_buf option unit unit_struct seq tuple tuple_struct
        map struct identifier ignored_any
    }
}

/// The variant of an enum, with its content.
struct Variant<'t, 'a> {
    variant: &'a str,
    content: TapeRef<'t, 'a>,
}

impl<'t, 'a> EnumAccess<'a> for Variant<'t, 'a> {
    type Error = DecodeError;
    type Variant = Content<'t, 'a>;

    fn variant_seed<V: DeserializeSeed<'a>>(
        self,
        seed: V,
    ) -> Result<(V::Value, Content<'t, 'a>), DecodeError> {
        Ok((seed.deserialize(Key(self.variant))?, Content(self.content)))
    }
}

struct Content<'t, 'a>(TapeRef<'t, 'a>);

impl<'a> VariantAccess<'a> for Content<'_, 'a> {
    type Error = DecodeError;

    fn unit_variant(self) -> Result<(), DecodeError> {
        Deserialize::deserialize(self.0)
    }

    fn newtype_variant_seed<T: DeserializeSeed<'a>>(
        self,
        seed: T,
    ) -> Result<T::Value, DecodeError> {
        seed.deserialize(self.0)
    }

    fn tuple_variant<V: Visitor<'a>>(self, _: usize, visitor: V) -> Result<V::Value, DecodeError> {
        self.0.deserialize_seq(visitor)
    }

    fn struct_variant<V: Visitor<'a>>(
        self,
        _: &'static [&'static str],
        visitor: V,
    ) -> Result<V::Value, DecodeError> {
        self.0.deserialize_map(visitor)
    }
}

/// The bytes of a CID.
struct Link<'a>(&'a [u8]);

impl<'a> Deserializer<'a> for Link<'a> {
    type Error = DecodeError;

    fn deserialize_any<V: Visitor<'a>>(self, visitor: V) -> Result<V::Value, DecodeError> {
        BorrowedBytesDeserializer::new(self.0).deserialize_any(visitor)
    }

    fn deserialize_newtype_struct<V: Visitor<'a>>(
        self,
        _: &'static str,
        visitor: V,
    ) -> Result<V::Value, DecodeError> {
        visitor.visit_newtype_struct(self)
    }

    fn is_human_readable(&self) -> bool {
        false
    }

    forward_to_deserialize_any! {
        <V: Visitor<'a>>
        bool i8 i16 i32 i64 i128 u8 u16 u32 u64 u128 f32 f64 char str string bytes byte_buf option unit unit_struct seq tuple tuple_struct
        map struct enum identifier ignored_any
    }
}

struct CidVisitor;

impl<'de> Visitor<'de> for CidVisitor {
    type Value = Cid;

    fn expecting(&self, f: &mut fmt::Formatter<'_>) -> fmt::Result {
        f.write_str("a link")
    }

    fn visit_newtype_struct<D: Deserializer<'de>>(self, deserializer: D) -> Result<Cid, D::Error> {
        deserializer.deserialize_bytes(self)
    }

    fn visit_bytes<E: de::Error>(self, bytes: &[u8]) -> Result<Cid, E> {
        Cid::try_from(bytes).map_err(E::custom)
    }
}

impl<'de> Deserialize<'de> for Cid {
    fn deserialize<D: Deserializer<'de>>(deserializer: D) -> Result<Self, D::Error> {
        deserializer.deserialize_newtype_struct(CID, CidVisitor)
    }
}

struct IpldVisitor;

impl<'de> Visitor<'de> for IpldVisitor {
    type Value = Ipld;

    fn expecting(&self, f: &mut fmt::Formatter<'_>) -> fmt::Result {
        f.write_str("a value of the IPLD data model")
    }

    fn visit_unit<E>(self) -> Result<Ipld, E> {
        Ok(Ipld::Null)
    }

    fn visit_none<E>(self) -> Result<Ipld, E> {
        Ok(Ipld::Null)
    }

    fn visit_some<D: Deserializer<'de>>(self, deserializer: D) -> Result<Ipld, D::Error> {
        deserializer.deserialize_any(self)
    }

    fn visit_bool<E>(self, value: bool) -> Result<Ipld, E> {
        Ok(Ipld::Bool(value))
    }

    fn visit_u64<E>(self, number: u64) -> Result<Ipld, E> {
        Ok(Ipld::Integer(number.into()))
    }

    fn visit_i64<E>(self, number: i64) -> Result<Ipld, E> {
        Ok(Ipld::Integer(number.into()))
    }

    fn visit_i128<E>(self, number: i128) -> Result<Ipld, E> {
        Ok(Ipld::Integer(number))
    }

    fn visit_f64<E>(self, number: f64) -> Result<Ipld, E> {
        Ok(Ipld::Float(number))
    }

    fn visit_str<E>(self, text: &str) -> Result<Ipld, E> {
        Ok(Ipld::String(text.to_owned()))
    }

    fn visit_string<E>(self, text: String) -> Result<Ipld, E> {
        Ok(Ipld::String(text))
    }

    fn visit_bytes<E>(self, bytes: &[u8]) -> Result<Ipld, E> {
        Ok(Ipld::Bytes(bytes.to_owned()))
    }

    fn visit_byte_buf<E>(self, bytes: Vec<u8>) -> Result<Ipld, E> {
        Ok(Ipld::Bytes(bytes))
    }

    fn visit_newtype_struct<D: Deserializer<'de>>(self, deserializer: D) -> Result<Ipld, D::Error> {
        deserializer.deserialize_bytes(CidVisitor).map(Ipld::Link)
    }

    fn visit_seq<A: SeqAccess<'de>>(self, mut items: A) -> Result<Ipld, A::Error> {
        let mut list = Vec::new();
        while let Some(item) = items.next_element()? {
            list.push(item);
        }
        Ok(Ipld::List(list))
    }

    fn visit_map<A: MapAccess<'de>>(self, mut pairs: A) -> Result<Ipld, A::Error> {
        let mut map = std::collections::BTreeMap::new();
        while let Some((key, value)) = pairs.next_entry()? {
            map.insert(key, value);
        }
        Ok(Ipld::Map(map))
    }
}

impl<'de> Deserialize<'de> for Ipld {
    fn deserialize<D: Deserializer<'de>>(deserializer: D) -> Result<Self, D::Error> {
        deserializer.deserialize_any(IpldVisitor)
    }
}

impl From<Error> for DecodeError {
    fn from(error: Error) -> Self {
        DecodeError::Block(error)
    }
}
