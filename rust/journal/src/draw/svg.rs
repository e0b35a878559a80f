//! Writing of SVG.

use std::fmt::Write;

/// Text as it may stand in an element or an attribute. Characters that XML
/// does not have are replaced.
pub fn escape(text: &str) -> String {
    let mut out = String::with_capacity(text.len());
    for c in text.chars() {
        match c {
            '&' => out.push_str("&amp;"),
            '<' => out.push_str("&lt;"),
            '>' => out.push_str("&gt;"),
            '"' => out.push_str("&quot;"),
            c if (c.is_control() && !matches!(c, '\t' | '\n'))
                || matches!(c, '\u{fffe}' | '\u{ffff}') =>
            {
                out.push('\u{fffd}')
            }
            c => out.push(c),
        }
    }
    out
}

/// A coordinate with at most two decimals.
pub struct C(pub f64);

impl std::fmt::Display for C {
    fn fmt(&self, f: &mut std::fmt::Formatter) -> std::fmt::Result {
        let hundredths = (self.0 * 100.0).round() as i64;
        let (sign, size) = if hundredths < 0 {
            ("-", -hundredths)
        } else {
            ("", hundredths)
        };
        match (size / 100, size % 100) {
            (whole, 0) => write!(f, "{sign}{whole}"),
            (whole, part) if part % 10 == 0 => write!(f, "{sign}{whole}.{}", part / 10),
            (whole, part) => write!(f, "{sign}{whole}.{part:02}"),
        }
    }
}

/// Width of a character in parts of its size, by the widest font of the style.
fn ems(c: char) -> f64 {
    match c {
        'i' | 'j' | 'l' | 'I' | '.' | ',' | ':' | ';' | '\'' | '|' | '!' => 0.31,
        't' | 'f' | 'r' | '(' | ')' | '[' | ']' | '-' | ' ' | '/' | '\u{b7}' => 0.4,
        'w' => 0.82,
        'm' | 'M' | 'W' | '%' | '@' | '\u{2026}' => 1.0,
        '\u{2030}' => 1.35,
        'A'..='Z' => 0.7,
        ' '..='~' => 0.62,
        '\u{1f000}'.. => 1.4,
        '\u{1100}'.. => 1.05,
        _ => 0.64,
    }
}

/// Rough width of a text, by the widest font of the style.
pub fn width(text: &str, size: f64) -> f64 {
    text.chars().map(ems).sum::<f64>() * size
}

/// Bold text is wider by so much.
const BOLD: f64 = 1.13;

/// Rough width of a text in bold.
pub fn bold(text: &str, size: f64) -> f64 {
    BOLD * width(text, size)
}

/// The text, or as much of its beginning as has room, with a mark.
pub fn fit(text: &str, size: f64, room: f64) -> String {
    if bold(text, size) <= room {
        return text.to_string();
    }
    let mut out = String::new();
    let mut end = bold("\u{2026}", size);
    for c in text.chars() {
        end += BOLD * size * ems(c);
        if end > room {
            break;
        }
        out.push(c);
    }
    out.truncate(out.trim_end().len());
    out.push('\u{2026}');
    out
}

/// A text in lines that have room; a word that has none is cut.
pub fn wrap(text: &str, size: f64, room: f64) -> Vec<String> {
    let mut lines: Vec<String> = Vec::new();
    for word in text.split(' ') {
        match lines.last_mut() {
            Some(line) if bold(&format!("{line} {word}"), size) <= room => {
                line.push(' ');
                line.push_str(word);
            }
            _ => lines.push(fit(word, size, room)),
        }
    }
    lines
}

#[derive(Clone, Copy, PartialEq, Eq)]
pub enum Anchor {
    Start,
    Middle,
    End,
}

/// A picture being written.
#[derive(Default)]
pub struct Svg {
    pub out: String,
}

impl Svg {
    /// Appends formatted markup.
    pub fn put(&mut self, markup: std::fmt::Arguments) {
        // Writing to a string does not fail.
        let _ = self.out.write_fmt(markup);
        self.out.push('\n');
    }

    /// A line of text in one of the style's classes.
    pub fn text(&mut self, x: f64, y: f64, anchor: Anchor, class: &str, text: &str) {
        let anchor = match anchor {
            Anchor::Start => "",
            Anchor::Middle => " text-anchor=\"middle\"",
            Anchor::End => " text-anchor=\"end\"",
        };
        self.put(format_args!(
            "<text x=\"{}\" y=\"{}\"{anchor} class=\"{class}\">{}</text>",
            C(x),
            C(y),
            escape(text)
        ));
    }

    /// A text at its left end that tells more when pointed at.
    pub fn titled(&mut self, x: f64, y: f64, class: &str, text: &str, title: &str) {
        self.put(format_args!(
            "<text x=\"{}\" y=\"{}\" class=\"{class}\">{}<title>{}</title></text>",
            C(x),
            C(y),
            escape(text),
            escape(title)
        ));
    }

    /// A path in one of the style's classes, unless it is empty.
    pub fn path(&mut self, class: &str, d: &str) {
        if !d.is_empty() {
            self.put(format_args!("<path class=\"{class}\" d=\"{d}\"/>"));
        }
    }

    pub fn rect(&mut self, class: &str, x: f64, y: f64, w: f64, h: f64) {
        self.put(format_args!(
            "<rect class=\"{class}\" x=\"{}\" y=\"{}\" width=\"{}\" height=\"{}\"/>",
            C(x),
            C(y),
            C(w.max(0.0)),
            C(h.max(0.0))
        ));
    }
}

#[cfg(test)]
mod tests {
    use super::*;

    #[test]
    fn coordinates_are_short() {
        let texts: Vec<String> = [1.0, 1.5, -0.25, 0.004, -0.004, 12.345]
            .iter()
            .map(|&v| C(v).to_string())
            .collect();
        assert_eq!(texts, ["1", "1.5", "-0.25", "0", "0", "12.35"]);
    }

    #[test]
    fn texts_are_cut_where_the_room_ends() {
        assert_eq!(fit("readout", 12.0, 100.0), "readout");
        for text in [
            "readout of the detector",
            "WWWWWWWWWWWWWW",
            "\u{8b80}\u{307f}\u{53d6}\u{308a}\u{8b80}\u{307f}\u{53d6}\u{308a}\u{8b80}",
        ] {
            let cut = fit(text, 12.0, 100.0);
            assert!(
                cut.ends_with('\u{2026}') && bold(&cut, 12.0) <= 100.0,
                "{cut}"
            );
            assert!(bold(&cut, 12.0) > 80.0, "{cut}");
        }
    }

    #[test]
    fn lines_have_room() {
        let text = "as much of a line as there is room for";
        let lines = wrap(text, 12.0, 120.0);
        assert!(lines.len() > 2 && lines.iter().all(|line| bold(line, 12.0) <= 120.0));
        assert_eq!(lines.join(" "), text);
        assert_eq!(wrap(text, 12.0, 1000.0), [text]);
    }
}
