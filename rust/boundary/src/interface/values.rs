//! The values of the constants.

use super::resolve::Work;
use super::{Constant, Form};
use crate::names::{self, Names, Value, VERSION};
use crate::Error;

/// Where the names stand.
const OWN: &str = "rust/boundary/src/names.rs";

/// A variant's name as that of a constant: NoGroup is NO_GROUP.
fn capitals(name: &str) -> String {
    let mut out = String::new();
    for c in name.chars() {
        if c.is_ascii_uppercase() && !out.is_empty() {
            out.push('_');
        }
        out.push(c.to_ascii_uppercase());
    }
    out
}

impl Work<'_> {
    /// The constants of a family, in its order.
    pub(super) fn names(&mut self, family: &names::Family) -> Result<Vec<Constant>, Error> {
        let mut found = Vec::new();
        for names in family.names {
            match *names {
                Names::One(name, value, doc) => found.push(Constant {
                    name: name.to_string(),
                    value: self.value(name, value)?,
                    doc: doc.to_string(),
                }),
                Names::Variants {
                    file,
                    start,
                    of,
                    but,
                } => {
                    let source = self.load(file, OWN, 1)?;
                    let before = found.len();
                    for c in source.constants.iter().filter(|c| c.public && c.of == of) {
                        let name = c.name.rsplit("::").next().unwrap_or_default();
                        if but.contains(&name) {
                            continue;
                        }
                        if c.doc.is_empty() {
                            let text = format!("{} of {file} has no comment", c.name);
                            return Err(Error::at(OWN, 1, text));
                        }
                        found.push(Constant {
                            name: format!("{start}{}", capitals(name)),
                            value: c.value,
                            doc: c.doc.join(" "),
                        });
                    }
                    if found.len() == before {
                        let text = format!("{file} has no public {of} with numbers");
                        return Err(Error::at(OWN, 1, text));
                    }
                }
            }
        }
        Ok(found)
    }

    pub(super) fn value(&mut self, name: &str, value: Value) -> Result<u64, Error> {
        match value {
            Value::Number(value) => Ok(value),
            Value::Constant { file, name: of } => {
                let file = self.load(file, OWN, 1)?;
                match file.constants.iter().find(|c| c.name == of) {
                    Some(constant) => Ok(constant.value),
                    None => {
                        let text = format!(
                            "{name} is `{of}` of {}, which has no such number",
                            file.name
                        );
                        Err(Error::at(OWN, 1, text))
                    }
                }
            }
            Value::Below { file, name: of } => {
                let above = self.value(name, Value::Constant { file, name: of })?;
                above
                    .checked_sub(1)
                    .ok_or_else(|| Error::at(OWN, 1, format!("{name} is one less than 0")))
            }
            Value::Version => {
                let mut value = 0;
                for part in ["MAJOR", "MINOR", "PATCH"] {
                    let part = Value::Constant {
                        file: VERSION,
                        name: part,
                    };
                    value = 100 * value + self.value(name, part)?;
                }
                Ok(value)
            }
            Value::Length { of, field } => {
                let fields = self
                    .found
                    .structs
                    .iter()
                    .filter(|s| s.name == of)
                    .flat_map(|s| &s.fields);
                let length = fields
                    .filter(|f| f.name == field)
                    .find_map(|f| match f.form {
                        Form::Array(_, length) => Some(length),
                        _ => None,
                    });
                length.ok_or_else(|| {
                    Error::at(
                        OWN,
                        1,
                        format!("{name} is the length of {of}.{field}, which is no array"),
                    )
                })
            }
        }
    }
}
