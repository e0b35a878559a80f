//! The parser's walk over the tokens: what stands next, and what must.

use super::Parser;
use crate::tokens::Kind;
use crate::Error;

impl Parser {
    /// The comment lines right above the next token.
    pub(super) fn doc(&self) -> Vec<String> {
        let mut line = self.line();
        let mut doc = Vec::new();
        for comment in self.comments.iter().rev() {
            if comment.line + 1 == line {
                doc.push(comment.text.clone());
                line = comment.line;
            }
        }
        doc.reverse();
        doc
    }

    /// Passes a block in braces.
    pub(super) fn block(&mut self) -> Result<(), Error> {
        self.expect("{")?;
        let mut depth = 1;
        while depth > 0 {
            let token = self.next("`}`")?;
            if token == mark("{") {
                depth += 1;
            } else if token == mark("}") {
                depth -= 1;
            }
        }
        Ok(())
    }

    /// Passes everything up to a block in braces, and the block.
    pub(super) fn past_block(&mut self) -> Result<(), Error> {
        while !self.is("{") {
            self.next("`{`")?;
        }
        self.block()
    }

    /// Passes everything up to a mark outside of braces, and the mark.
    pub(super) fn past(&mut self, end: &str) -> Result<(), Error> {
        loop {
            if self.is("{") {
                self.block()?;
            } else if self.next(&format!("`{end}`"))? == mark(end) {
                return Ok(());
            }
        }
    }

    pub(super) fn is(&self, text: &str) -> bool {
        self.tokens
            .get(self.at)
            .is_some_and(|t| t.kind == mark(text))
    }

    pub(super) fn is_word(&self, text: &str) -> bool {
        let token = self.tokens.get(self.at);
        token.is_some_and(|t| matches!(&t.kind, Kind::Word(word) if word == text))
    }

    pub(super) fn passes(&mut self, text: &str) -> bool {
        let is = self.is(text);
        self.at += is as usize;
        is
    }

    pub(super) fn passes_word(&mut self, text: &str) -> bool {
        let is = self.is_word(text);
        self.at += is as usize;
        is
    }

    pub(super) fn expect(&mut self, text: &str) -> Result<(), Error> {
        match self.passes(text) {
            true => Ok(()),
            false => Err(self.missing(&format!("`{text}`"))),
        }
    }

    pub(super) fn word(&mut self, what: &str) -> Result<String, Error> {
        match self.tokens.get(self.at).map(|t| t.kind.clone()) {
            Some(Kind::Word(word)) => {
                self.at += 1;
                Ok(word)
            }
            _ => Err(self.missing(what)),
        }
    }

    pub(super) fn next(&mut self, what: &str) -> Result<Kind, Error> {
        let Some(token) = self.tokens.get(self.at) else {
            return Err(self.missing(what));
        };
        self.at += 1;
        Ok(token.kind.clone())
    }

    /// The line of the next token, at the file's end that of the last.
    pub(super) fn line(&self) -> usize {
        let token = self.tokens.get(self.at).or(self.tokens.last());
        token.map_or(1, |t| t.line)
    }

    pub(super) fn missing(&self, what: &str) -> Error {
        let found = match self.tokens.get(self.at) {
            Some(token) => format!("`{}`", shown(&token.kind)),
            None => "the file's end".to_string(),
        };
        self.error(self.line(), format!("{found} where {what} should stand"))
    }

    pub(super) fn error(&self, line: usize, text: impl Into<String>) -> Error {
        Error::at(&self.file.name, line, text)
    }
}

fn mark(text: &str) -> Kind {
    Kind::Mark(text.to_string())
}

pub(super) fn shown(kind: &Kind) -> String {
    match kind {
        Kind::Word(text) | Kind::Mark(text) => text.clone(),
        Kind::Number(value) => value.to_string(),
        Kind::Text(text) => format!("{text:?}"),
    }
}
