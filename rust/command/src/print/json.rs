//! Results for programs, as JSON.

use std::fmt::{self, Display, Write};

use cuzhaveli_images::read::gaps::Beyond;

pub enum Value {
    Number(u64),
    Flag(bool),
    Text(String),
    List(Vec<Value>),
    Object(Object),
}

/// Names and values in their order.
pub struct Object(pub Vec<(&'static str, Value)>);

/// A string as JSON writes it.
struct Text<'a>(&'a str);

impl Display for Text<'_> {
    fn fmt(&self, f: &mut fmt::Formatter) -> fmt::Result {
        f.write_char('"')?;
        for letter in self.0.chars() {
            match letter {
                '"' | '\\' => write!(f, "\\{letter}")?,
                '\0'..='\x1f' => write!(f, "\\u{:04x}", letter as u32)?,
                _ => f.write_char(letter)?,
            }
        }
        f.write_char('"')
    }
}

impl Display for Value {
    fn fmt(&self, f: &mut fmt::Formatter) -> fmt::Result {
        match self {
            Value::Number(number) => write!(f, "{number}"),
            Value::Flag(flag) => write!(f, "{flag}"),
            Value::Text(text) => Text(text).fmt(f),
            Value::List(values) => {
                let values: Vec<String> = values.iter().map(Value::to_string).collect();
                write!(f, "[{}]", values.join(","))
            }
            Value::Object(object) => object.fmt(f),
        }
    }
}

impl Object {
    /// The fields, without the braces around them.
    pub fn fields(&self) -> String {
        let field = |(name, value): &(&str, Value)| format!("{}:{value}", Text(name));
        self.0.iter().map(field).collect::<Vec<_>>().join(",")
    }
}

impl Display for Object {
    fn fmt(&self, f: &mut fmt::Formatter) -> fmt::Result {
        write!(f, "{{{}}}", self.fields())
    }
}

/// Stripes that cannot be made right.
pub fn beyond(beyond: &Beyond) -> Object {
    let stripes = &beyond.stripes;
    Object(vec![
        ("stripe", stripes.start.into()),
        ("count", (stripes.end - stripes.start).into()),
        ("disks", (&*beyond.disks).into()),
    ])
}

impl From<u64> for Value {
    fn from(number: u64) -> Value {
        Value::Number(number)
    }
}

impl From<usize> for Value {
    fn from(number: usize) -> Value {
        Value::Number(number as u64)
    }
}

impl From<bool> for Value {
    fn from(flag: bool) -> Value {
        Value::Flag(flag)
    }
}

impl From<&str> for Value {
    fn from(text: &str) -> Value {
        Value::Text(text.into())
    }
}

impl From<&[usize]> for Value {
    fn from(numbers: &[usize]) -> Value {
        Value::List(numbers.iter().map(|number| (*number).into()).collect())
    }
}

impl FromIterator<Object> for Value {
    fn from_iter<I: IntoIterator<Item = Object>>(objects: I) -> Value {
        Value::List(objects.into_iter().map(Value::Object).collect())
    }
}

#[cfg(test)]
mod tests {
    use super::*;

    #[test]
    fn every_kind_of_value() {
        let inner = Object(vec![("a", true.into())]);
        let object = Object(vec![
            ("text", "a\"b\\c\n\u{1f}é".into()),
            ("most", u64::MAX.into()),
            ("disks", (&[1, 4][..]).into()),
            ("none", (&[][..]).into()),
            ("list", [inner].into_iter().collect()),
        ]);
        let told = r#"{"text":"a\"b\\c\u000a\u001fé","most":18446744073709551615,"disks":[1,4],"none":[],"list":[{"a":true}]}"#;
        assert_eq!(object.to_string(), told);
    }
}
