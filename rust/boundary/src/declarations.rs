//! The Rust declarations, in rustfmt's layout.

use crate::interface::{Constant, Family, Form, Function, Interface, Pass, Struct};
use crate::{words, wrapped, ANSWER, COMMAND};

const WIDTH: usize = 80;
/// The longest line of code.
const CODE: usize = 100;

/// The module's text.
pub fn print(interface: &Interface) -> String {
    let mut out = HEAD.replace("COMMAND", COMMAND);
    for family in &interface.families {
        out += &constants(family);
    }
    for family in interface.families.iter().filter(|f| f.c == ANSWER) {
        out += &answer_text(family);
    }
    for s in &interface.structs {
        out += &structure(interface, s);
    }
    out += FUNCTIONS;
    let functions = interface.sections.iter().flat_map(|s| &s.functions);
    let functions: Vec<String> = functions.map(function).collect();
    out += &functions.join("\n");
    out + "}\n"
}

const HEAD: &str = "\
//! The boundary as it is exported: structs of numbers and functions of the C
//! calling convention.
//!
//! Written from the Rattle sources; do not edit. To renew it:
//!
//! ```text
//! COMMAND
//! ```

use core::mem::{align_of, offset_of, size_of};

const _: () = assert!(size_of::<usize>() == 8);

const fn size_of_field<T, F>(_: fn(&T) -> &F) -> usize {
    size_of::<F>()
}

// Asserts a struct's size and alignment, and each field's offset and size.
macro_rules! layout {
    ($name:ident = $size:literal, $align:literal; $($field:ident = $offset:literal, $bytes:literal;)+) => {
        const _: () = {
            assert!(size_of::<$name>() == $size);
            assert!(align_of::<$name>() == $align);
            $(
                assert!(offset_of!($name, $field) == $offset);
                assert!(size_of_field(|s: &$name| &s.$field) == $bytes);
            )+
        };
    };
}

";

const FUNCTIONS: &str = "\
// SAFETY: these are the library's exported functions. Those that take numbers
// and structs of numbers alone accept every bit pattern and touch no memory of
// the caller's, so they are safe to call.
unsafe extern \"C\" {
";

fn constants(family: &Family) -> String {
    let mut out = String::new();
    for Constant { name, value, doc } in &family.names {
        out += &docs("", doc);
        out += &format!("pub const {name}: {} = {value};\n", family.of);
    }
    format!("// {}\n\n{out}\n", family.doc)
}

/// The function that puts an answer into words.
fn answer_text(family: &Family) -> String {
    let mut out = docs("", "What an answer says, in words.");
    out += "pub const fn answer_text(answer: u32) -> &'static str {\n    match answer {\n";
    for Constant { name, doc, .. } in &family.names {
        let text = words(doc);
        let line = format!("        {name} => {text:?},\n");
        // rustfmt gives a long one a block of its own.
        out += &match line.len() > CODE + 1 {
            true => format!("        {name} => {{\n            {text:?}\n        }}\n"),
            false => line,
        };
    }
    out + "        _ => \"no listed answer\",\n    }\n}\n\n"
}

fn structure(interface: &Interface, s: &Struct) -> String {
    let name = &s.name;
    let default = match has_default(interface, s) {
        true => ", Default",
        false => "",
    };
    let mut out = docs("", &s.doc);
    out += "#[repr(C)]\n";
    out += &format!("#[derive(Clone, Copy, Debug, PartialEq, Eq{default})]\n");
    out += &format!("pub struct {name} {{\n");
    for field in &s.fields {
        out += &docs("    ", &field.doc);
        out += &format!("    pub {}: {},\n", field.name, named(&field.form));
    }
    out += "}\n\nlayout! {\n";
    out += &format!("    {name} = {}, {};\n", s.size, s.align);
    for field in &s.fields {
        let (field, offset, size) = (&field.name, field.offset, field.size);
        out += &format!("    {field} = {offset}, {size};\n");
    }
    out + "}\n\n"
}

/// Zeros are a default, and Rust can derive it: for arrays of up to 32.
fn has_default(interface: &Interface, s: &Struct) -> bool {
    fn form_has(interface: &Interface, form: &Form) -> bool {
        match form {
            Form::Number(_) => true,
            Form::Array(element, length) => *length <= 32 && form_has(interface, element),
            Form::Struct(name) => {
                let mut structs = interface.structs.iter();
                structs.any(|s| &s.name == name && has_default(interface, s))
            }
        }
    }
    s.zero && s.fields.iter().all(|f| form_has(interface, &f.form))
}

fn named(form: &Form) -> String {
    match form {
        Form::Number(number) => number.name.to_string(),
        Form::Struct(name) => name.clone(),
        Form::Array(element, length) => format!("[{}; {length}]", named(element)),
    }
}

fn function(f: &Function) -> String {
    let mut out = docs("    ", &f.comment.does);
    out += "    ///\n";
    if f.comment.refuses.is_empty() {
        out += &docs("    ", "Refuses nothing.");
        out += "    ///\n";
    } else {
        out += &docs("    ", "Refuses, the first that applies:");
        for refusal in &f.comment.refuses {
            let (number, name) = (refusal.number, &refusal.name);
            let text = format!("{number} [`{name}`]: {}", refusal.reason);
            for (i, line) in wrapped(&text, WIDTH - 10).iter().enumerate() {
                let indent = if i == 0 { "- " } else { "  " };
                out += &format!("    /// {indent}{line}\n");
            }
        }
        out += "    ///\n";
    }
    out += &docs("    ", &f.comment.leaves);
    let mut parameters = Vec::new();
    let mut unsafety = Vec::new();
    for (name, pass) in &f.parameters {
        match pass {
            Pass::Value(form) => parameters.push(format!("{name}: {}", named(form))),
            Pass::Slice { mutable, element } => {
                let (pointer, access) = match mutable {
                    true => ("*mut", "reads and writes"),
                    false => ("*const", "reads"),
                };
                let element = named(element);
                parameters.push(format!("{name}: {pointer} {element}"));
                parameters.push(format!("{name}_len: usize"));
                unsafety.push(format!(
                    "`{name}` is valid for {access} of `{name}_len` elements, is aligned and not null, and nothing else uses them during the call."
                ));
            }
        }
    }
    let safe = if unsafety.is_empty() {
        "safe"
    } else {
        "unsafe"
    };
    if !unsafety.is_empty() {
        out += "    ///\n    /// # Safety\n    ///\n";
        out += &docs("    ", &unsafety.join(" "));
    }
    let result = match &f.result {
        Some(form) => format!(" -> {}", named(form)),
        None => String::new(),
    };
    let head = format!("    pub {safe} fn {}", f.name);
    let line = format!("{head}({}){result};", parameters.join(", "));
    if line.len() < CODE {
        return out + &line + "\n";
    }
    // So rustfmt has a line that ends in the last column.
    if line.len() == CODE {
        let line = format!("{head}({})", parameters.join(", "));
        return out + &line + &format!("\n       {result};\n");
    }
    out += &format!("{head}(\n");
    for parameter in parameters {
        out += &format!("        {parameter},\n");
    }
    out + &format!("    ){result};\n")
}

fn docs(indent: &str, text: &str) -> String {
    let lines = wrapped(text, WIDTH - 4 - indent.len());
    lines
        .iter()
        .map(|line| format!("{indent}/// {line}\n"))
        .collect()
}
