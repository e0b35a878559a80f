//! Reads the items of a Rattle source that a boundary is made of: structs,
//! constants, exported functions, and what is imported. Bodies and contracts
//! are passed over.

mod cursor;
mod items;
#[cfg(test)]
mod tests;

use crate::tokens::{tokens, Comment, Kind, Token};
use crate::Error;

use cursor::shown;
pub use items::{Constant, Field, File, Function, Length, Path, Struct, Type};

/// The items of a file.
pub fn parse(name: &str, source: &str) -> Result<File, Error> {
    let found = tokens(name, source)?;
    let mut parser = Parser {
        file: File {
            name: name.to_string(),
            ..File::default()
        },
        tokens: found.tokens,
        comments: found.comments,
        at: 0,
    };
    while parser.at < parser.tokens.len() {
        parser.item(None)?;
    }
    Ok(parser.file)
}

struct Parser {
    file: File,
    tokens: Vec<Token>,
    comments: Vec<Comment>,
    at: usize,
}

impl Parser {
    /// One item, of an `impl` of the owner's or of the file.
    fn item(&mut self, owner: Option<&str>) -> Result<(), Error> {
        let doc = self.doc();
        let (mut fixed, mut exported) = (false, false);
        while self.passes("#") {
            // One of the whole file, as `#![tactic(auto)]`.
            if self.passes("!") {
                self.attribute()?;
                return Ok(());
            }
            match &self.attribute()?[..] {
                "repr ( C )" => fixed = true,
                "unsafe ( no_mangle )" => exported = true,
                _ => {}
            }
        }
        let public = self.visibility()?;
        let line = self.line();
        let word = self.word("an item")?;
        match &word[..] {
            "use" => self.imports(),
            // What the contracts import.
            "ghost" if self.is_word("use") => self.past(";"),
            "mod" => {
                let module = self.word("a module's name")?;
                self.file.modules.push(module);
                self.expect(";")
            }
            "const" => self.constant(doc, public, owner),
            "enum" => {
                let name = self.word("an enum's name")?;
                self.variants(public, &name)?;
                self.file.enums.push(name);
                Ok(())
            }
            "struct" => {
                let item = self.structure(doc, fixed, public, line)?;
                self.file.structs.push(item);
                Ok(())
            }
            // A trait, and what a type has of one: nothing of it is at the boundary.
            "trait" => self.past_block(),
            "type" => self.past(";"),
            "impl" if self.is("<") => self.past_block(),
            "impl" => {
                let owner = self.word("a type's name")?;
                if !self.passes("{") {
                    return self.past_block();
                }
                while !self.passes("}") {
                    self.item(Some(&owner))?;
                }
                Ok(())
            }
            "extern" => {
                let c = self.next("an exported function")? == Kind::Text("C".into());
                if !(c && public && exported && owner.is_none() && self.passes_word("fn")) {
                    return Err(self.error(
                        line,
                        "an exported function is marked `#[unsafe(no_mangle)] pub extern \"C\"` and stands in no impl",
                    ));
                }
                let function = self.function(doc, line)?;
                self.file.functions.push(function);
                Ok(())
            }
            "fn" if exported => {
                Err(self.error(line, "`#[unsafe(no_mangle)]` without `extern \"C\"`"))
            }
            "fn" => self.body(),
            other => Err(self.error(line, format!("`{other}` begins no item that is known"))),
        }
    }

    /// What `use` names: one path, or names of one module in braces.
    fn imports(&mut self) -> Result<(), Error> {
        let mut path = vec![self.word("a name")?];
        while self.passes("::") {
            if self.passes("{") {
                while !self.passes("}") {
                    let name = self.word("a name")?;
                    let import = path.iter().cloned().chain([name]).collect();
                    self.file.imports.push(import);
                    if !self.passes(",") {
                        self.expect("}")?;
                        break;
                    }
                }
                return self.expect(";");
            }
            path.push(self.word("a name")?);
        }
        self.file.imports.push(path);
        self.expect(";")
    }

    /// What stands in an attribute's brackets, its tokens parted by a space.
    fn attribute(&mut self) -> Result<String, Error> {
        self.expect("[")?;
        let mut parts = Vec::new();
        while !self.passes("]") {
            parts.push(shown(&self.next("`]`")?));
        }
        Ok(parts.join(" "))
    }

    /// Whether `pub` stands next. `pub(crate)` counts as private.
    fn visibility(&mut self) -> Result<bool, Error> {
        if !self.passes_word("pub") {
            return Ok(false);
        }
        if self.passes("(") {
            self.past(")")?;
            return Ok(false);
        }
        Ok(true)
    }

    fn structure(
        &mut self,
        doc: Vec<String>,
        fixed: bool,
        public: bool,
        line: usize,
    ) -> Result<Struct, Error> {
        let name = self.word("a struct's name")?;
        // A unit, a struct of a tuple and one with parameters have no form at the boundary.
        let (fixed, fields) = if self.is("(") || self.is(";") {
            self.past(";")?;
            (false, Vec::new())
        } else if self.is("<") {
            self.past_block()?;
            (false, Vec::new())
        } else {
            self.expect("{")?;
            (fixed, self.fields("}")?)
        };
        Ok(Struct {
            doc,
            fixed,
            public,
            name,
            fields,
            line,
        })
    }

    /// The variants of an enum; those with a number are constants, as `Refusal::Settings`.
    fn variants(&mut self, public: bool, owner: &str) -> Result<(), Error> {
        self.expect("{")?;
        while !self.passes("}") {
            let doc = self.doc();
            let name = self.word("a variant's name")?;
            if self.passes("=") {
                let Kind::Number(value) = self.next("a variant's number")? else {
                    self.at -= 1;
                    return Err(self.missing("a variant's number"));
                };
                self.file.constants.push(Constant {
                    doc,
                    public,
                    name: format!("{owner}::{name}"),
                    of: owner.to_string(),
                    value,
                });
            } else if self.is("{") {
                self.block()?;
            } else if self.passes("(") {
                self.past(")")?;
            }
            if !self.passes(",") {
                self.expect("}")?;
                break;
            }
        }
        Ok(())
    }

    /// Fields or parameters up to the closing mark.
    fn fields(&mut self, end: &str) -> Result<Vec<Field>, Error> {
        let mut fields = Vec::new();
        while !self.passes(end) {
            // A ghost field has no form in memory.
            if self.passes_word("ghost") {
                self.word("a name")?;
                self.expect(":")?;
                self.block()?;
                if !self.passes(",") {
                    self.expect(end)?;
                    break;
                }
                continue;
            }
            let doc = self.doc();
            let public = self.visibility()?;
            self.passes_word("mut");
            let line = self.line();
            let name = self.word("a name")?;
            self.expect(":")?;
            let of = self.one_type()?;
            fields.push(Field {
                doc,
                public,
                name,
                of,
                line,
            });
            if !self.passes(",") {
                self.expect(end)?;
                break;
            }
        }
        Ok(fields)
    }

    fn one_type(&mut self) -> Result<Type, Error> {
        if self.passes("[") {
            let element = Box::new(self.one_type()?);
            self.expect(";")?;
            let length = match self.next("a length")? {
                Kind::Number(value) => Length::Number(value),
                _ => {
                    self.at -= 1;
                    Length::Constant(self.path()?)
                }
            };
            self.expect("]")?;
            return Ok(Type::Array(element, length));
        }
        if self.passes("&") {
            let mutable = self.passes_word("mut");
            let mark = if mutable { "&mut " } else { "&" };
            if !self.passes("[") {
                let behind = self.one_type()?;
                return Ok(Type::Other(format!("{mark}{}", behind.shown())));
            }
            let element = self.one_type()?;
            if self.passes(";") {
                self.past("]")?;
                return Ok(Type::Other(format!("{mark}[{}; ..]", element.shown())));
            }
            self.expect("]")?;
            let element = Box::new(element);
            return Ok(Type::Slice { mutable, element });
        }
        if self.passes("(") {
            self.past(")")?;
            return Ok(Type::Other("(..)".to_string()));
        }
        Ok(Type::Path(self.path()?))
    }

    fn path(&mut self) -> Result<Path, Error> {
        let mut path = vec![self.word("a name")?];
        while self.passes("::") {
            path.push(self.word("a name")?);
        }
        Ok(path)
    }

    /// A constant's value is kept if it is written as a number.
    fn constant(
        &mut self,
        doc: Vec<String>,
        public: bool,
        owner: Option<&str>,
    ) -> Result<(), Error> {
        let name = self.word("a constant's name")?;
        self.expect(":")?;
        let of = self.one_type()?;
        self.expect("=")?;
        let value = self.next("a value")?;
        if let (Type::Path(path), Kind::Number(value), true) = (of, value, self.passes(";")) {
            let name = owner.map_or(name.clone(), |owner| format!("{owner}::{name}"));
            let of = path.join("::");
            self.file.constants.push(Constant {
                doc,
                public,
                name,
                of,
                value,
            });
            return Ok(());
        }
        self.past(";")
    }

    fn function(&mut self, doc: Vec<String>, line: usize) -> Result<Function, Error> {
        let name = self.word("a function's name")?;
        self.expect("(")?;
        let parameters = self.fields(")")?;
        let result = match self.passes("->") {
            true => Some(self.one_type()?),
            false => None,
        };
        self.body()?;
        Ok(Function {
            doc,
            name,
            parameters,
            result,
            line,
        })
    }

    /// Passes what is left of a function: the block that no contract's word
    /// stands before is its body.
    fn body(&mut self) -> Result<(), Error> {
        loop {
            let contract = self.is_word("requires") || self.is_word("ensures");
            if self.is("{") {
                return self.block();
            }
            // A value that the clauses share.
            if self.passes_word("ghost") {
                self.past_block()?;
                continue;
            }
            self.next("a function's body")?;
            if contract {
                // A clause may have a name.
                if !self.is("{") {
                    self.word("a clause")?;
                }
                self.block()?;
            }
        }
    }
}
