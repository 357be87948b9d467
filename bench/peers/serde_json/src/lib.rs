//! Single calls of serde_json over a text in memory, for a benchmark in C++.
use serde::de::{DeserializeSeed, Deserializer, IgnoredAny, MapAccess, SeqAccess, Visitor};
use serde::Deserialize;
use serde_json::value::RawValue;
use serde_json::Value;
use std::fmt;
use std::slice;
use std::str;

/// Follows the steps that are left of a path, and leaves the length of what it leads to. It reads on to
/// the end: only an error leaves a container early, for which serde_json counts all lines.
struct Follow<'path> {
    steps: &'path [Value],
    found: &'path mut usize,
}

impl<'text> DeserializeSeed<'text> for Follow<'_> {
    type Value = ();

    fn deserialize<D: Deserializer<'text>>(self, value: D) -> Result<(), D::Error> {
        match self.steps.first() {
            Some(Value::String(_)) => value.deserialize_map(self),
            Some(_) => value.deserialize_seq(self),
            None => {
                *self.found = <&RawValue>::deserialize(value)?.get().len();
                Ok(())
            }
        }
    }
}

impl<'text> Visitor<'text> for Follow<'_> {
    type Value = ();

    fn expecting(&self, out: &mut fmt::Formatter) -> fmt::Result {
        out.write_str("the container that the path goes into")
    }

    fn visit_map<A: MapAccess<'text>>(self, mut object: A) -> Result<(), A::Error> {
        let Follow { steps, found } = self;
        let mut wanted = steps[0].as_str();
        while let Some(is_wanted) = object.next_key_seed(IsKey(wanted))? {
            if is_wanted {
                object.next_value_seed(Follow { steps: &steps[1..], found: &mut *found })?;
                // Of equal keys the first one counts.
                wanted = None;
            } else {
                object.next_value::<IgnoredAny>()?;
            }
        }
        Ok(())
    }

    fn visit_seq<A: SeqAccess<'text>>(self, mut array: A) -> Result<(), A::Error> {
        let Follow { steps, found } = self;
        for _ in 0..steps[0].as_u64().unwrap_or(0) {
            array.next_element::<IgnoredAny>()?;
        }
        array.next_element_seed(Follow { steps: &steps[1..], found: &mut *found })?;
        while array.next_element::<IgnoredAny>()?.is_some() {}
        Ok(())
    }
}

/// Whether a key is this one.
struct IsKey<'path>(Option<&'path str>);

impl<'text> DeserializeSeed<'text> for IsKey<'_> {
    type Value = bool;

    fn deserialize<D: Deserializer<'text>>(self, key: D) -> Result<bool, D::Error> {
        key.deserialize_str(self)
    }
}

impl Visitor<'_> for IsKey<'_> {
    type Value = bool;

    fn expecting(&self, out: &mut fmt::Formatter) -> fmt::Result {
        out.write_str("a key")
    }

    fn visit_str<E>(self, key: &str) -> Result<bool, E> {
        Ok(self.0 == Some(key))
    }
}

/// Whether the text is one value in UTF-8.
///
/// # Safety
///
/// The text is that long.
#[no_mangle]
pub unsafe extern "C" fn serde_json_validate(json: *const u8, length: usize) -> bool {
    let text = slice::from_raw_parts(json, length);
    str::from_utf8(text).is_ok_and(|text| serde_json::from_str::<IgnoredAny>(text).is_ok())
}

/// The length of the value that a path leads to, or 0.
///
/// # Safety
///
/// The text and the path are that long.
#[no_mangle]
pub unsafe extern "C" fn serde_json_get(json: *const u8, length: usize, path: *const u8, path_length: usize) -> usize {
    let text = slice::from_raw_parts(json, length);
    let path = slice::from_raw_parts(path, path_length);
    let (Ok(text), Ok(steps)) = (str::from_utf8(text), serde_json::from_slice::<Vec<Value>>(path)) else {
        return 0;
    };
    let mut found = 0;
    let mut document = serde_json::Deserializer::from_str(text);
    match (Follow { steps: &steps, found: &mut found }).deserialize(&mut document) {
        Ok(()) => found,
        Err(_) => 0,
    }
}
