//! The boundary as a whole: every exported function, the structs that they
//! use with the place of each field, and the constants.
//!
//! A number or a struct of numbers passes by value, and a slice as a pointer
//! and a length. Everything else is refused, and so is a struct with padding.

mod layout;
mod resolve;
#[cfg(test)]
mod tests;
mod values;

use crate::comment::Comment;

pub use resolve::resolve;

/// The text of a source by its path from the repository's root.
pub type Sources<'a> = dyn Fn(&str) -> Result<String, String> + 'a;

#[derive(Clone, Copy, Debug, PartialEq, Eq)]
pub struct Number {
    /// Name in Rattle and Rust.
    pub name: &'static str,
    /// Name in C.
    pub c: &'static str,
    /// Bytes, and the alignment.
    pub size: u64,
}

const fn of(name: &'static str, c: &'static str, size: u64) -> Number {
    Number { name, c, size }
}

pub(crate) const NUMBERS: [Number; 10] = [
    of("u8", "uint8_t", 1),
    of("u16", "uint16_t", 2),
    of("u32", "uint32_t", 4),
    of("u64", "uint64_t", 8),
    of("usize", "size_t", 8),
    of("i8", "int8_t", 1),
    of("i16", "int16_t", 2),
    of("i32", "int32_t", 4),
    of("i64", "int64_t", 8),
    of("isize", "ptrdiff_t", 8),
];

/// A type with a fixed form.
#[derive(Clone, Debug, PartialEq, Eq)]
pub enum Form {
    Number(Number),
    Struct(String),
    Array(Box<Form>, u64),
}

#[derive(Clone, Debug, PartialEq, Eq)]
pub struct Field {
    pub doc: String,
    pub name: String,
    pub form: Form,
    pub offset: u64,
    pub size: u64,
}

#[derive(Clone, Debug, PartialEq, Eq)]
pub struct Struct {
    pub doc: String,
    pub name: String,
    pub fields: Vec<Field>,
    pub size: u64,
    pub align: u64,
    /// Zeros are a default: the source gives it no values of its own.
    pub zero: bool,
}

#[derive(Clone, Debug, PartialEq, Eq)]
pub enum Pass {
    Value(Form),
    /// A pointer and a length; the length's name is the slice's with `_len`.
    Slice {
        mutable: bool,
        element: Form,
    },
}

#[derive(Clone, Debug, PartialEq, Eq)]
pub struct Function {
    pub comment: Comment,
    pub name: String,
    pub parameters: Vec<(String, Pass)>,
    pub result: Option<Form>,
}

/// The functions of a module.
#[derive(Clone, Debug, PartialEq, Eq)]
pub struct Section {
    pub title: &'static str,
    pub functions: Vec<Function>,
}

/// A constant's name outside without the prefix, its value, and what it is.
#[derive(Clone, Debug, PartialEq, Eq)]
pub struct Constant {
    pub name: String,
    pub value: u64,
    pub doc: String,
}

/// Constants that belong together, with their values.
#[derive(Clone, Debug, PartialEq, Eq)]
pub struct Family {
    pub doc: &'static str,
    pub of: &'static str,
    /// The enum in C; macros if it has no name.
    pub c: &'static str,
    pub names: Vec<Constant>,
}

#[derive(Clone, Debug, Default, PartialEq, Eq)]
pub struct Interface {
    pub families: Vec<Family>,
    /// A struct stands behind those that it holds.
    pub structs: Vec<Struct>,
    pub sections: Vec<Section>,
}

/// `LagLine` in C: `mtr_lag_line`.
pub fn c_name(name: &str) -> String {
    let mut text = "mtr".to_string();
    for letter in name.chars() {
        if letter.is_ascii_uppercase() {
            text.push('_');
        }
        text.push(letter.to_ascii_lowercase());
    }
    text
}
