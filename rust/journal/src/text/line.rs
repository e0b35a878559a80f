//! The words of a line.

/// A text without the mark of its encoding that some editors begin it with.
pub(crate) fn without_mark(text: &[u8]) -> &[u8] {
    text.strip_prefix(b"\xef\xbb\xbf").unwrap_or(text)
}

/// The words of a line still to be read.
pub(crate) type Words<'a> =
    std::iter::Filter<std::slice::Split<'a, u8, fn(&u8) -> bool>, fn(&&[u8]) -> bool>;

pub(crate) fn words_of(line: &[u8]) -> Words<'_> {
    let line = match line.iter().position(|&b| b == b'#') {
        Some(comment) => &line[..comment],
        None => line,
    };
    let blank: fn(&u8) -> bool = u8::is_ascii_whitespace;
    let some: fn(&&[u8]) -> bool = |word| !word.is_empty();
    line.split(blank).filter(some)
}

/// A text that is one line, whatever it was.
pub(crate) fn without_control(text: &str) -> String {
    let shown = |c: char| if c.is_control() { '\u{fffd}' } else { c };
    text.chars().map(shown).collect()
}

/// A word as it may stand in a message.
pub(crate) fn shown(word: &[u8]) -> String {
    let text = without_control(&String::from_utf8_lossy(word));
    let mut text: String = text.chars().take(33).collect();
    if text.chars().count() > 32 {
        text.pop();
        text.push_str("..");
    }
    format!("'{text}'")
}

pub(crate) fn number(word: Option<&[u8]>, name: &str, most: u64) -> Result<u64, String> {
    let Some(word) = word else {
        return Err(format!("the line ends before the number of {name}"));
    };
    if !word.iter().all(u8::is_ascii_digit) {
        return Err(format!("{name}: {} is not a decimal number", shown(word)));
    }
    let value = word.iter().try_fold(0u64, |value, digit| {
        value.checked_mul(10)?.checked_add((digit - b'0') as u64)
    });
    match value {
        Some(value) if value <= most => Ok(value),
        _ => Err(format!("{name}: {} is above {most}", shown(word))),
    }
}

/// Which of some words follows.
pub(super) fn expect<'w>(
    words: &mut Words,
    wanted: impl Iterator<Item = &'w str> + Clone,
) -> Result<usize, String> {
    let found = words.next();
    let follows = |word: &str| found == Some(word.as_bytes());
    if let Some(which) = wanted.clone().position(follows) {
        return Ok(which);
    }
    let wanted: Vec<String> = wanted.map(|word| format!("'{word}'")).collect();
    let wanted = wanted.join(" or ");
    Err(match found {
        Some(word) => format!("{wanted} expected, {} found", shown(word)),
        None => format!("the line ends where {wanted} is expected"),
    })
}

/// Whether a word follows that may be left out with all after it.
pub(super) fn follows(words: &mut Words, wanted: &str) -> Result<bool, String> {
    match words.next() {
        None => Ok(false),
        Some(word) if word == wanted.as_bytes() => Ok(true),
        Some(word) => Err(format!(
            "'{wanted}' or the end of the line expected, {} found",
            shown(word)
        )),
    }
}

pub(super) fn end(words: &mut Words) -> Result<(), String> {
    match words.next() {
        None => Ok(()),
        Some(word) => Err(format!("{} after the end of the line", shown(word))),
    }
}
