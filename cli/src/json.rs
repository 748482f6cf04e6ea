//! JSON: the one place where it is written.

use std::fmt::{self, Display, Formatter, Write};

/// A value. Numbers are whole and not negative.
#[derive(Clone, Debug, PartialEq, Eq)]
pub enum Json {
    Bool(bool),
    Number(u64),
    Text(String),
    List(Vec<Json>),
    Object(Fields),
}

/// The fields of an object, in the order in which they are written.
pub type Fields = Vec<(&'static str, Json)>;

/// A list of values.
pub fn list<T: Into<Json>>(all: impl IntoIterator<Item = T>) -> Json {
    Json::List(all.into_iter().map(Into::into).collect())
}

impl Display for Json {
    fn fmt(&self, f: &mut Formatter<'_>) -> fmt::Result {
        match self {
            Json::Bool(yes) => write!(f, "{yes}"),
            Json::Number(number) => write!(f, "{number}"),
            Json::Text(text) => string(f, text),
            Json::List(all) => separated(f, '[', all, |f, value| write!(f, "{value}"), ']'),
            Json::Object(fields) => {
                let field = |f: &mut Formatter<'_>, (name, value): &(&str, Json)| string(f, name).and_then(|()| write!(f, ":{value}"));
                separated(f, '{', fields, field, '}')
            }
        }
    }
}

/// Parts between two brackets, a comma between each two.
fn separated<T>(f: &mut Formatter<'_>, open: char, all: &[T], part: impl Fn(&mut Formatter<'_>, &T) -> fmt::Result, close: char) -> fmt::Result {
    f.write_char(open)?;
    for (place, one) in all.iter().enumerate() {
        if place > 0 {
            f.write_char(',')?;
        }
        part(f, one)?;
    }
    f.write_char(close)
}

/// A string between quotes; control characters by their numbers.
fn string(f: &mut Formatter<'_>, text: &str) -> fmt::Result {
    f.write_char('"')?;
    for c in text.chars() {
        match c {
            '"' | '\\' => write!(f, "\\{c}")?,
            c if c.is_control() => write!(f, "\\u{:04x}", u32::from(c))?,
            c => f.write_char(c)?,
        }
    }
    f.write_char('"')
}

macro_rules! from {
    ($($from:ty => $value:ident, $as:expr;)+) => {
        $(impl From<$from> for Json {
            fn from(value: $from) -> Json {
                Json::$value($as(value))
            }
        })+
    };
}

from! {
    bool => Bool, |yes| yes;
    u8 => Number, u64::from;
    u16 => Number, u64::from;
    u64 => Number, |number| number;
    usize => Number, |number| number as u64;
    &str => Text, String::from;
    &String => Text, String::clone;
    String => Text, |text| text;
    Fields => Object, |fields| fields;
}

#[cfg(test)]
mod tests {
    use super::*;

    #[test]
    fn values_as_they_are_written() {
        let inner: Fields = vec![("yes", true.into()), ("none", list::<u8>([]))];
        let all: Fields = vec![("number", u64::MAX.into()), ("list", list([1u8, 2])), ("object", inner.into())];
        assert_eq!(Json::from(all).to_string(), r#"{"number":18446744073709551615,"list":[1,2],"object":{"yes":true,"none":[]}}"#);
    }

    #[test]
    fn strings_keep_their_line() {
        assert_eq!(Json::from("a\"b\\c\n\u{1}\u{7f}ä\u{2028}").to_string(), "\"a\\\"b\\\\c\\u000a\\u0001\\u007fä\u{2028}\"");
    }
}
