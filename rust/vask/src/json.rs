//! Values as JSON. Assumes nothing.
use std::fmt::{self, Display, Formatter, Write};

#[derive(Clone, Debug, PartialEq)]
pub enum Json {
    Number(u64),
    Flag(bool),
    Text(String),
    List(Vec<Json>),
    Object(Vec<(&'static str, Json)>),
}

impl From<usize> for Json {
    fn from(number: usize) -> Json {
        Json::Number(number as u64)
    }
}

impl From<u32> for Json {
    fn from(number: u32) -> Json {
        Json::Number(number.into())
    }
}

impl From<&str> for Json {
    fn from(text: &str) -> Json {
        Json::Text(text.to_string())
    }
}

impl From<String> for Json {
    fn from(text: String) -> Json {
        Json::Text(text)
    }
}

impl<T: Into<Json>> FromIterator<T> for Json {
    fn from_iter<I: IntoIterator<Item = T>>(values: I) -> Json {
        Json::List(values.into_iter().map(T::into).collect())
    }
}

impl Display for Json {
    fn fmt(&self, to: &mut Formatter) -> fmt::Result {
        match self {
            Json::Number(number) => number.fmt(to),
            Json::Flag(flag) => flag.fmt(to),
            Json::Text(text) => quoted(text, to),
            Json::List(values) => {
                to.write_char('[')?;
                separated(values, to, |value, to| value.fmt(to))?;
                to.write_char(']')
            }
            Json::Object(fields) => {
                to.write_char('{')?;
                separated(fields, to, |(name, value), to| {
                    quoted(name, to)?;
                    write!(to, ":{value}")
                })?;
                to.write_char('}')
            }
        }
    }
}

fn separated<T>(values: &[T], to: &mut Formatter, each: impl Fn(&T, &mut Formatter) -> fmt::Result) -> fmt::Result {
    for (index, value) in values.iter().enumerate() {
        if index > 0 {
            to.write_char(',')?;
        }
        each(value, to)?;
    }
    Ok(())
}

fn quoted(text: &str, to: &mut Formatter) -> fmt::Result {
    to.write_char('"')?;
    for character in text.chars() {
        match character {
            '"' | '\\' => write!(to, "\\{character}")?,
            '\n' => to.write_str("\\n")?,
            control if control < ' ' => write!(to, "\\u{:04x}", control as u32)?,
            other => to.write_char(other)?,
        }
    }
    to.write_char('"')
}

#[cfg(test)]
mod tests {
    use super::*;

    #[test]
    fn text_is_quoted() {
        assert_eq!(Json::from("a \"b\" \\ \n \u{1} é").to_string(), r#""a \"b\" \\ \n \u0001 é""#);
    }

    #[test]
    fn values_nest() {
        let value = Json::Object(vec![("list", Json::from_iter([1u32, 2])), ("flag", Json::Flag(true)), ("none", Json::List(vec![]))]);
        assert_eq!(value.to_string(), r#"{"list":[1,2],"flag":true,"none":[]}"#);
    }
}
