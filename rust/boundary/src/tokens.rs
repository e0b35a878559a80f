//! Splits a Rattle source into tokens.

use crate::Error;

#[derive(Clone, Debug, PartialEq, Eq)]
pub enum Kind {
    Word(String),
    Number(u64),
    /// Text between double quotes.
    Text(String),
    /// `::` and `->`, and every other character on its own.
    Mark(String),
}

#[derive(Clone, Debug, PartialEq, Eq)]
pub struct Token {
    pub kind: Kind,
    pub line: usize,
}

/// A `//` comment on a line of its own.
#[derive(Clone, Debug, PartialEq, Eq)]
pub struct Comment {
    pub text: String,
    pub line: usize,
}

#[derive(Debug, Default)]
pub struct Tokens {
    pub tokens: Vec<Token>,
    /// In the order of their lines. A comment behind code is not among them.
    pub comments: Vec<Comment>,
}

/// The tokens of a file. Contracts are in another language with other
/// characters: what is no word or number there is a mark.
pub fn tokens(file: &str, source: &str) -> Result<Tokens, Error> {
    let mut found = Tokens::default();
    for (index, text) in source.lines().enumerate() {
        let line = index + 1;
        let mut rest = text.trim_start();
        let mut code = false;
        while !rest.is_empty() {
            if let Some(comment) = rest.strip_prefix("//") {
                if !code {
                    let text = comment.trim().to_string();
                    found.comments.push(Comment { text, line });
                }
                break;
            }
            code = true;
            let (kind, length) = first(rest).map_err(|text| Error::at(file, line, text))?;
            found.tokens.push(Token { kind, line });
            rest = rest[length..].trim_start();
        }
    }
    Ok(found)
}

/// The first token of a text that begins with one, and its length in bytes.
fn first(text: &str) -> Result<(Kind, usize), String> {
    if let Some(quoted) = text.strip_prefix('"') {
        let end = quoted.find('"').ok_or("a text that does not end")?;
        return Ok((Kind::Text(quoted[..end].to_string()), end + 2));
    }
    if let Some(length) = character(text) {
        return Ok((Kind::Text(text[..length].to_string()), length));
    }
    let word = |c: char| c.is_ascii_alphanumeric() || c == '_';
    let length = text.find(|c| !word(c)).unwrap_or(text.len());
    if text.starts_with(|c: char| c.is_ascii_digit()) {
        return Ok((Kind::Number(number(&text[..length])?), length));
    }
    if length > 0 {
        return Ok((Kind::Word(text[..length].to_string()), length));
    }
    let length = match text.get(..2) {
        Some(pair @ ("::" | "->")) => pair.len(),
        _ => text.chars().next().map_or(0, char::len_utf8),
    };
    Ok((Kind::Mark(text[..length].to_string()), length))
}

/// The length of a character in single quotes: `'{'` or `'\n'`. In contracts a
/// single quote also ends names.
fn character(text: &str) -> Option<usize> {
    let inner = text.strip_prefix('\'')?;
    let escaped = inner.starts_with('\\') as usize;
    let end = escaped + inner.get(escaped..)?.chars().next()?.len_utf8();
    inner.get(end..)?.starts_with('\'').then_some(end + 2)
}

/// A decimal or hexadecimal number, with or without the name of its type.
fn number(text: &str) -> Result<u64, String> {
    let plain = text.replace('_', "");
    let (digits, base) = match plain.strip_prefix("0x") {
        Some(digits) => (digits, 16),
        None => (&plain[..], 10),
    };
    let end = digits.find(|c: char| !c.is_digit(base));
    let (digits, suffix) = digits.split_at(end.unwrap_or(digits.len()));
    let known = [
        "", "u8", "u16", "u32", "u64", "usize", "i8", "i16", "i32", "i64", "isize",
    ];
    match u64::from_str_radix(digits, base) {
        Ok(value) if known.contains(&suffix) => Ok(value),
        _ => Err(format!("`{text}` is not a number")),
    }
}

#[cfg(test)]
mod tests {
    use super::*;

    fn kinds(source: &str) -> Vec<Kind> {
        let found = tokens("a.rt", source).unwrap();
        found.tokens.into_iter().map(|t| t.kind).collect()
    }

    fn mark(text: &str) -> Kind {
        Kind::Mark(text.into())
    }

    #[test]
    fn words_numbers_marks() {
        let wanted = vec![
            Kind::Word("a_1".into()),
            mark("::"),
            Kind::Word("B".into()),
            mark("->"),
            mark("-"),
            Kind::Number(1_000),
            Kind::Number(255),
            Kind::Number(7),
            Kind::Text("C".into()),
        ];
        assert_eq!(kinds(r#"a_1::B -> - 1_000 0xff 7u32 "C""#), wanted);
    }

    #[test]
    fn contracts() {
        let wanted = vec![Kind::Word("x".into()), mark("'"), mark("≡"), mark("◌")];
        assert_eq!(kinds("x' ≡ ◌"), wanted);
    }

    #[test]
    fn quoted_characters() {
        let wanted = vec![
            Kind::Text("'{'".into()),
            Kind::Text("'\\''".into()),
            Kind::Word("b".into()),
            Kind::Text("'\"'".into()),
        ];
        assert_eq!(kinds(r#"'{' '\'' b'"'"#), wanted);
    }

    #[test]
    fn comments() {
        let found = tokens("a.rt", "// one\nx; // behind\n\n    // two: // three\ny").unwrap();
        let seen: Vec<_> = found
            .comments
            .iter()
            .map(|c| (c.line, &c.text[..]))
            .collect();
        assert_eq!(seen, [(1, "one"), (4, "two: // three")]);
        let lines: Vec<_> = found.tokens.iter().map(|t| t.line).collect();
        assert_eq!(lines, [2, 2, 5]);
    }

    #[test]
    fn refused() {
        let said = |source| tokens("a.rt", source).unwrap_err().to_string();
        assert_eq!(said("x\n\"y"), "a.rt:2: a text that does not end");
        assert_eq!(said("12ab"), "a.rt:1: `12ab` is not a number");
        assert_eq!(
            said("99999999999999999999"),
            "a.rt:1: `99999999999999999999` is not a number"
        );
    }
}
