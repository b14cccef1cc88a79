//! JSON, written: numbers, texts, lists and objects, each field in the order it is given.

use std::fmt::Write;

/// A value.
#[derive(Clone, Debug)]
pub enum Json {
    /// Nothing that can be told.
    Null,
    /// Yes or no.
    Truth(bool),
    /// A whole number.
    Number(i64),
    /// A text.
    Text(String),
    /// Some values.
    List(Vec<Json>),
    /// Values by name.
    Object(Vec<(&'static str, Json)>),
    /// Short lists of numbers, one after the other, in as little room as they take.
    Rows(Vec<Vec<u8>>),
}

impl From<bool> for Json {
    fn from(truth: bool) -> Json {
        Json::Truth(truth)
    }
}

impl From<&str> for Json {
    fn from(text: &str) -> Json {
        Json::Text(text.to_string())
    }
}

impl From<String> for Json {
    fn from(text: String) -> Json {
        Json::Text(text)
    }
}

impl<T: Into<Json>> From<Option<T>> for Json {
    fn from(value: Option<T>) -> Json {
        value.map_or(Json::Null, Into::into)
    }
}

impl<T: Into<Json>> From<Vec<T>> for Json {
    fn from(values: Vec<T>) -> Json {
        Json::List(values.into_iter().map(Into::into).collect())
    }
}

macro_rules! numbers {
    ($($number:ty)*) => {$(
        impl From<$number> for Json {
            fn from(number: $number) -> Json {
                Json::Number(i64::try_from(number).unwrap_or(i64::MAX))
            }
        }
    )*};
}

numbers!(u8 u16 u32 u64 usize i64);

impl Json {
    /// As a text that ends with a line break.
    pub fn document(&self) -> String {
        let mut out = String::new();
        self.put(&mut out, 0);
        out.push('\n');
        out
    }

    /// In one line, and with no `<`, so that it may stand inside a page.
    pub fn in_page(&self) -> String {
        let mut out = String::new();
        self.put_flat(&mut out);
        out.replace('<', "\\u003c")
    }

    fn put(&self, out: &mut String, depth: usize) {
        match self {
            Json::List(values)
                if values
                    .iter()
                    .any(|value| matches!(value, Json::Object(_) | Json::List(_))) =>
            {
                let values: Vec<_> = values.iter().map(|value| (None, value)).collect();
                put_lines(out, depth, ['[', ']'], &values);
            }
            Json::Object(fields) if !fields.is_empty() => {
                let values: Vec<_> = fields
                    .iter()
                    .map(|(name, value)| (Some(*name), value))
                    .collect();
                put_lines(out, depth, ['{', '}'], &values);
            }
            flat => flat.put_flat(out),
        }
    }

    fn put_flat(&self, out: &mut String) {
        match self {
            Json::Null => out.push_str("null"),
            Json::Truth(truth) => out.push_str(if *truth { "true" } else { "false" }),
            Json::Number(number) => {
                let _ = write!(out, "{number}");
            }
            Json::Text(text) => put_text(out, text),
            Json::List(values) => {
                put_between(out, ['[', ']'], values, |out, value| value.put_flat(out))
            }
            Json::Object(fields) => put_between(out, ['{', '}'], fields, |out, (name, value)| {
                put_text(out, name);
                out.push(':');
                value.put_flat(out);
            }),
            Json::Rows(rows) => put_between(out, ['[', ']'], rows, |out, row| {
                put_between(out, ['[', ']'], row, |out, byte| {
                    let _ = write!(out, "{byte}");
                });
            }),
        }
    }
}

/// Each value on a line of its own, with its name where it has one.
fn put_lines(
    out: &mut String,
    depth: usize,
    [open, close]: [char; 2],
    values: &[(Option<&str>, &Json)],
) {
    let indent = |out: &mut String, depth: usize| {
        out.push('\n');
        out.extend(std::iter::repeat_n("  ", depth));
    };
    out.push(open);
    for (at, (name, value)) in values.iter().enumerate() {
        if at > 0 {
            out.push(',');
        }
        indent(out, depth + 1);
        if let Some(name) = name {
            put_text(out, name);
            out.push_str(": ");
        }
        value.put(out, depth + 1);
    }
    indent(out, depth);
    out.push(close);
}

/// Values in one line.
fn put_between<T>(
    out: &mut String,
    [open, close]: [char; 2],
    values: &[T],
    put: impl Fn(&mut String, &T),
) {
    out.push(open);
    for (at, value) in values.iter().enumerate() {
        if at > 0 {
            out.push(',');
        }
        put(out, value);
    }
    out.push(close);
}

/// A text between its marks, with what JSON wants escaped.
fn put_text(out: &mut String, text: &str) {
    out.push('"');
    for letter in text.chars() {
        match letter {
            '"' | '\\' => out.extend(['\\', letter]),
            '\n' => out.push_str("\\n"),
            '\r' => out.push_str("\\r"),
            '\t' => out.push_str("\\t"),
            control if control < ' ' || control == '\u{7f}' => {
                let _ = write!(out, "\\u{:04x}", u32::from(control));
            }
            other => out.push(other),
        }
    }
    out.push('"');
}

#[cfg(test)]
mod tests {
    use super::*;

    #[test]
    fn texts_are_escaped() {
        let text = Json::from("a\"b\\c\n\u{1}é<");
        assert_eq!(text.document(), "\"a\\\"b\\\\c\\n\\u0001é<\"\n");
        assert_eq!(text.in_page(), "\"a\\\"b\\\\c\\n\\u0001é\\u003c\"");
    }

    #[test]
    fn objects_stand_in_lines_and_short_lists_in_one() {
        let object = Json::Object(vec![
            ("good", true.into()),
            ("none", Json::from(None::<u8>)),
            ("k", vec![1u8, 2].into()),
            ("rows", Json::Rows(vec![vec![1, 2], vec![0]])),
            (
                "kinds",
                Json::List(vec![Json::Object(vec![("room", Json::Number(-1))])]),
            ),
            ("empty", Json::List(Vec::new())),
        ]);
        let expected = "{\n  \"good\": true,\n  \"none\": null,\n  \"k\": [1,2],\n  \"rows\": [[1,2],[0]],\n  \
             \"kinds\": [\n    {\n      \"room\": -1\n    }\n  ],\n  \"empty\": []\n}\n";
        assert_eq!(object.document(), expected);
    }
}
