//! The C header.

mod calls;
mod head;
#[cfg(test)]
mod tests;

use crate::costs::Cost;
use crate::interface::{c_name, Constant, Family, Form, Function, Interface, Pass, Struct};
use crate::names::BY_VALUE;
use crate::{words, wrapped, ANSWER};

const WIDTH: usize = 80;
const PREFIX: &str = "MTR_";

/// The header's text.
pub fn print(interface: &Interface, costs: &[Cost]) -> String {
    let mut out = head::print(interface, costs);
    for family in &interface.families {
        out += &constants(family);
    }
    for family in &interface.families {
        if family.c == ANSWER {
            out += &answer_text(family);
        }
    }
    for s in &interface.structs {
        out += &structure(s);
    }
    out += calls::RUN;
    let functions = || interface.sections.iter().flat_map(|s| &s.functions);
    out += &boxed("", &wrapped(EXPORTS, WIDTH - 3));
    for f in functions().filter(|f| f.name.starts_with(BY_VALUE)) {
        out += &prototype(f);
    }
    out.push('\n');
    for section in &interface.sections {
        out += &format!("/* {} */\n\n", section.title);
        for f in &section.functions {
            out += &match f.name.strip_prefix(BY_VALUE) {
                Some(name) => calls::print(interface, f, name),
                None => boxed("", &described(f, &f.comment.leaves)) + &prototype(f) + "\n",
            };
        }
    }
    out + head::TAIL
}

const EXPORTS: &str =
    "What the library exports, for the functions below alone: the state goes by value, and one that is not stored back is lost.";

fn constants(family: &Family) -> String {
    let mut out = comment("", family.doc);
    if family.c.is_empty() {
        out.push('\n');
        for Constant { name, value, doc } in &family.names {
            let value = match family.of {
                "u64" => format!("UINT64_C({value})"),
                _ => value.to_string(),
            };
            out += &comment("", doc);
            out += &format!("#define {PREFIX}{name} {value}\n");
        }
        return out + "\n";
    }
    out += &format!("typedef enum {} MTR_UNSIGNED {{\n", family.c);
    let last = family.names.len().saturating_sub(1);
    for (i, Constant { name, value, doc }) in family.names.iter().enumerate() {
        let comma = if i == last { "" } else { "," };
        out += &comment("    ", doc);
        out += &format!("    {PREFIX}{name} = {value}{comma}\n");
    }
    out + &format!("}} {};\n\n", family.c)
}

/// The function that puts an answer into words.
fn answer_text(family: &Family) -> String {
    let mut out = comment("", "What an answer says, in words.");
    out += "MTR_MUST_USE static inline const char *mtr_answer_text(mtr_answer answer)\n{\n";
    out += "    switch (answer) {\n";
    for Constant { name, doc, .. } in &family.names {
        out += &format!("    case {PREFIX}{name}:\n");
        out += &format!("        return {:?};\n", words(doc));
    }
    out + "    }\n    return \"no listed answer\";\n}\n\n"
}

fn structure(s: &Struct) -> String {
    let name = c_name(&s.name);
    let mut out = comment("", &s.doc);
    out += &format!("typedef struct {name} {{\n");
    for field in &s.fields {
        out += &comment("    ", &field.doc);
        out += &format!("    {};\n", declared(&field.form, &field.name));
    }
    out += &format!("}} {name};\n");
    out += &format!("MTR_STRUCT({name}, {}, {});\n", s.size, s.align);
    for field in &s.fields {
        let (field, offset, size) = (&field.name, field.offset, field.size);
        out += &format!("MTR_FIELD({name}, {field}, {offset}, {size});\n");
    }
    out + "\n"
}

/// A declaration of a name.
fn declared(form: &Form, name: &str) -> String {
    match form {
        Form::Number(number) => format!("{} {name}", number.c),
        Form::Struct(of) => format!("{} {name}", c_name(of)),
        Form::Array(element, length) => declared(element, &format!("{name}[{length}]")),
    }
}

/// An exported function's declaration.
fn prototype(f: &Function) -> String {
    let parameters: Vec<String> = f
        .parameters
        .iter()
        .map(|(name, pass)| match pass {
            Pass::Value(form) => declared(form, name),
            Pass::Slice { mutable, element } => slice(name, *mutable, element),
        })
        .collect();
    let head = match &f.result {
        Some(form) => declared(form, &f.name),
        None => format!("void {}", f.name),
    };
    folded(&format!("{head}({});", listed(&parameters))) + "\n"
}

fn slice(name: &str, mutable: bool, element: &Form) -> String {
    let constant = if mutable { "" } else { "const " };
    let pointer = declared(element, &format!("*{name}"));
    format!("{constant}{pointer}, size_t {name}_len")
}

fn listed(parameters: &[String]) -> String {
    match parameters {
        [] => "void".to_string(),
        some => some.join(", "),
    }
}

/// A line of code, parted behind commas if it is long.
fn folded(line: &str) -> String {
    let indent = line.len() - line.trim_start().len();
    let mut out = String::new();
    let mut width = 0;
    for part in line.split_inclusive(", ") {
        if width > 0 && width + part.trim_end().len() > WIDTH {
            out.truncate(out.trim_end().len());
            out += &format!("\n{}", " ".repeat(indent + 4));
            width = indent + 4;
        }
        out += part;
        width += part.len();
    }
    out
}

/// A function's head. Its name begins a line where it does not fit behind the
/// result with what stands before the first comma.
fn headed(result: &str, rest: &str) -> String {
    let line = format!("{result} {rest}");
    let first = line.split(", ").next().map_or(0, str::len);
    // The comma too, where one follows.
    match first + usize::from(first < line.len()) > WIDTH {
        true => format!("{result}\n{}", folded(rest)),
        false => folded(&line),
    }
}

/// What a function does, refuses and leaves unchanged.
fn described(f: &Function, leaves: &str) -> Vec<String> {
    let mut lines = wrapped(&f.comment.does, WIDTH - 3);
    lines.push(String::new());
    if f.comment.refuses.is_empty() {
        lines.push("Refuses nothing.".to_string());
    } else {
        lines.push("Refuses, the first that applies:".to_string());
        for refusal in &f.comment.refuses {
            let (number, name) = (refusal.number, &refusal.name);
            let text = format!("{number} {PREFIX}{name}: {}", refusal.reason);
            for (i, line) in wrapped(&text, WIDTH - 9).iter().enumerate() {
                let indent = if i == 0 { "  " } else { "      " };
                lines.push(format!("{indent}{line}"));
            }
        }
    }
    lines.extend(wrapped(leaves, WIDTH - 3));
    lines
}

/// A comment, on one line if it fits.
fn comment(indent: &str, text: &str) -> String {
    match text.len() + indent.len() + 6 <= WIDTH {
        _ if text.is_empty() => String::new(),
        true => format!("{indent}/* {text} */\n"),
        false => boxed(indent, &wrapped(text, WIDTH - 3 - indent.len())),
    }
}

fn boxed(indent: &str, lines: &[String]) -> String {
    let mut out = format!("{indent}/*\n");
    for line in lines {
        out += format!("{indent} * {line}").trim_end();
        out.push('\n');
    }
    out + indent + " */\n"
}
