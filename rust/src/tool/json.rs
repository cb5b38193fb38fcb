//! JSON, as scripts read it.

use std::fmt;

pub enum Json {
    None,
    Flag(bool),
    Number(u64),
    Text(String),
    List(Vec<Json>),
    Object(Vec<(&'static str, Json)>),
}

impl Json {
    pub fn number(n: impl TryInto<u64>) -> Json {
        n.try_into().map_or(Json::None, Json::Number)
    }

    pub fn text(words: impl Into<String>) -> Json {
        Json::Text(words.into())
    }

    pub fn numbers(numbers: impl IntoIterator<Item = u32>) -> Json {
        Json::List(numbers.into_iter().map(Json::number).collect())
    }
}

fn quoted(words: &str, f: &mut fmt::Formatter) -> fmt::Result {
    f.write_str("\"")?;
    for c in words.chars() {
        match c {
            '"' | '\\' => write!(f, "\\{c}")?,
            c if (c as u32) < 32 => write!(f, "\\u{:04x}", c as u32)?,
            c => write!(f, "{c}")?,
        }
    }
    f.write_str("\"")
}

fn between<T>(parts: &[T], f: &mut fmt::Formatter, mut write: impl FnMut(&T, &mut fmt::Formatter) -> fmt::Result) -> fmt::Result {
    for (i, part) in parts.iter().enumerate() {
        if i > 0 {
            f.write_str(", ")?;
        }
        write(part, f)?;
    }
    Ok(())
}

impl fmt::Display for Json {
    fn fmt(&self, f: &mut fmt::Formatter) -> fmt::Result {
        match self {
            Json::None => f.write_str("null"),
            Json::Flag(flag) => write!(f, "{flag}"),
            Json::Number(n) => write!(f, "{n}"),
            Json::Text(words) => quoted(words, f),
            Json::List(parts) => {
                f.write_str("[")?;
                between(parts, f, |part, f| part.fmt(f))?;
                f.write_str("]")
            }
            Json::Object(parts) => {
                f.write_str("{")?;
                between(parts, f, |(name, part), f| {
                    quoted(name, f)?;
                    f.write_str(": ")?;
                    part.fmt(f)
                })?;
                f.write_str("}")
            }
        }
    }
}

#[cfg(test)]
mod tests {
    use super::*;

    #[test]
    fn written_as_scripts_read_it() {
        let json = Json::Object(vec![
            ("image", Json::text("a \"b\"\\\n.img")),
            ("opens", Json::Flag(true)),
            ("tables", Json::numbers([0, 1024])),
            ("last", Json::None),
        ]);
        assert_eq!(json.to_string(), r#"{"image": "a \"b\"\\\u000a.img", "opens": true, "tables": [0, 1024], "last": null}"#);
    }
}
