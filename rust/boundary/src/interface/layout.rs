//! The size of each struct and the place of each field. A struct has no byte
//! that is not a field's.

use super::resolve::Work;
use super::{Field, Form, Struct};
use crate::parse::{self, Length};
use crate::Error;

impl Work<'_> {
    pub(super) fn length(
        &mut self,
        file: &str,
        line: usize,
        length: &Length,
    ) -> Result<u64, Error> {
        let path = match length {
            Length::Number(value) => return Ok(*value),
            Length::Constant(path) => path.join("::"),
        };
        let here = &self.files[file].constants;
        match here.iter().find(|c| c.name == path) {
            Some(constant) => Ok(constant.value),
            None => Err(Error::at(
                file,
                line,
                format!("the length `{path}` is no number of this file"),
            )),
        }
    }

    /// Adds a struct, and before it those that it holds.
    pub(super) fn structure(&mut self, file: &str, s: &parse::Struct) -> Result<(), Error> {
        match self.homes.get(&s.name) {
            Some(home) if home == file => {
                let done = self.found.structs.iter().any(|known| known.name == s.name);
                let text = format!("the struct `{}` holds itself", s.name);
                return done.then_some(()).ok_or(Error::at(file, s.line, text));
            }
            Some(home) => {
                let text = format!("{home} has a struct `{}` at the boundary too", s.name);
                return Err(Error::at(file, s.line, text));
            }
            None => self.homes.insert(s.name.clone(), file.to_string()),
        };
        let mut fields = Vec::new();
        let (mut at, mut align) = (0u64, 1u64);
        for field in &s.fields {
            if !field.public {
                let text = format!(
                    "the field `{}` of a struct at the boundary is private",
                    field.name
                );
                return Err(Error::at(file, field.line, text));
            }
            let form = self.form(file, field.line, &field.of)?;
            let (size, own) = self.size_and_align(&form);
            let offset = at.next_multiple_of(own);
            if offset > at {
                let place = format!("before its field `{}`", field.name);
                return Err(padded(file, field.line, &s.name, &place));
            }
            at = offset + size;
            align = align.max(own);
            fields.push(Field {
                doc: field.doc.join(" "),
                name: field.name.clone(),
                form,
                offset,
                size,
            });
        }
        if at == 0 {
            return Err(Error::at(
                file,
                s.line,
                format!("the struct `{}` is empty", s.name),
            ));
        }
        let size = at.next_multiple_of(align);
        if size > at {
            return Err(padded(file, s.line, &s.name, "at its end"));
        }
        let own = format!("{}::", s.name);
        let constants = &self.files[file].constants;
        let zero = !constants.iter().any(|c| c.name.starts_with(&own));
        self.found.structs.push(Struct {
            doc: s.doc.join(" "),
            name: s.name.clone(),
            fields,
            size,
            align,
            zero,
        });
        Ok(())
    }

    fn size_and_align(&self, form: &Form) -> (u64, u64) {
        match form {
            Form::Number(number) => (number.size, number.size),
            Form::Array(element, length) => {
                let (size, align) = self.size_and_align(element);
                (size * length, align)
            }
            Form::Struct(name) => {
                let known = self.found.structs.iter().find(|s| &s.name == name);
                known.map_or((0, 1), |s| (s.size, s.align))
            }
        }
    }
}

/// The refusal of bytes that are no field's. What they hold is no part of the
/// value, and a copy need not keep it: states that are equal would differ byte
/// by byte, and one that a host stores would take along what lay in memory.
fn padded(file: &str, line: usize, name: &str, place: &str) -> Error {
    let text = format!("the struct `{name}` has padding {place}");
    Error::at(file, line, text)
}
