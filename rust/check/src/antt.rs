//! Definitions, proofs and code as text: lines without their comments, names, imports.

use std::collections::BTreeSet;

/// A line up to its comment: up to a word that begins with this mark.
pub fn uncommented<'a>(line: &'a str, mark: &str) -> &'a str {
    let begins = |(at, _): &(usize, &str)| {
        line[..*at]
            .chars()
            .next_back()
            .is_none_or(char::is_whitespace)
    };
    let end = line.match_indices(mark).find(begins);
    line[..end.map_or(line.len(), |(at, _)| at)].trim_end()
}

/// The names in a text: what stands between blanks and brackets. Of one with a dot it is what stands before the dot, so that a field that is
/// taken (`t.status`) is none.
pub fn names(text: &str) -> BTreeSet<&str> {
    let apart = |c: char| c.is_whitespace() || "(){};,«»".contains(c);
    text.split(apart)
        .flat_map(|word| word.split(".."))
        .filter_map(|word| word.split('.').next())
        .filter(|word| !word.is_empty())
        .collect()
}

/// Whether a name is among these: whole, or, if it has places for arguments (`◌+◌`), by what stands between them.
pub fn uses(names: &BTreeSet<&str>, name: &str) -> bool {
    let name = name.trim_matches(['«', '»']);
    let mut parts = name.split('◌').filter(|part| !part.is_empty());
    names.contains(name) || name.contains('◌') && parts.all(|part| names.contains(part))
}

/// What a line imports: each name with the one that it has here. A module that is given a name here is one too.
pub struct Import<'a> {
    pub module: &'a str,
    pub names: Vec<(&'a str, &'a str)>,
}

/// The import of a line that begins with this word: `use M.{a, b as c}` or `use M as c`.
pub fn import<'a>(line: &'a str, word: &str) -> Option<Import<'a>> {
    let rest = line.strip_prefix(word)?.trim_end_matches(';');
    let renamed = |name: &'a str| {
        let (there, here) = name.split_once(" as ").unwrap_or((name, name));
        (there.trim(), here.trim())
    };
    if let Some((module, names)) = rest.split_once(".{") {
        let names = names.strip_suffix('}')?.split(',').map(renamed).collect();
        return Some(Import { module, names });
    }
    let (module, here) = rest.split_once(" as ")?;
    Some(Import {
        module,
        names: vec![(module, here)],
    })
}
