//! The functions that a host calls: each takes a pointer to the state, makes
//! the exported call by value and stores what it hands back.

use super::{boxed, declared, described, folded, headed, listed, slice};
use crate::interface::{c_name, Field, Form, Function, Interface, Pass, Struct};
use crate::ANSWER;

/// What a dispatch decides. It is no struct of the library's.
pub const RUN: &str = "\
/*
 * What a dispatch decides: the thread, the ticks that it may run, and how many
 * reserved threads, all blocked, stood before it; before a best-effort thread
 * that is all of them. Idle: MTR_NO_THREAD, no ticks, and the number of all
 * threads, of either kind.
 */
typedef struct mtr_run {
    uint32_t thread;
    uint32_t slice;
    uint32_t before;
} mtr_run;

";

/// The call whose reply has more to tell than its answer and the state.
const RUNS: &str = "dispatch";

/// The field that a refusal has to tell as well: a reply with it is handed back
/// whole, since a refused call stores nothing.
const REFUSED_TOO: &str = "place";

/// What is unchanged, where C differs from the exported function: there the
/// reply says what C leaves as it was.
const LEAVES: [(&str, &str); 2] = [
    (
        "start",
        "*state is then unchanged. Accepted, the fresh scheduler is stored to it.",
    ),
    ("read_block", "The area is unchanged."),
];

/// Stores the number of admitted threads. The list has the reserved ones alone.
const ADMITTED: [&str; 4] = [
    "*filled = 0;",
    "for (size_t i = 0; i < MTR_THREADS; i++)",
    "    if (state->threads[i].status != MTR_STATUS_FREE)",
    "        ++*filled;",
];

/// A place that an accepted call stores to beside the state.
struct Out {
    /// Its type and name.
    declared: String,
    name: String,
    /// The statements that store.
    stores: Vec<String>,
}

/// The function `name` over the export.
pub fn print(interface: &Interface, f: &Function, name: &str) -> String {
    let reply = match &f.result {
        Some(Form::Struct(of)) => interface.structs.iter().find(|s| &s.name == of),
        _ => None,
    };
    let has = |s: &Struct, field: &str| s.fields.iter().any(|f| f.name == field);
    let stores = reply.is_some_and(|s| has(s, "state"));
    let whole = reply.filter(|s| has(s, REFUSED_TOO));
    let outs = match whole {
        Some(_) => Vec::new(),
        None => outs(interface, name, reply, stores),
    };

    let mut parameters = Vec::new();
    let mut arguments = Vec::new();
    if stores && !f.parameters.iter().any(|p| p.0 == "state") {
        parameters.push("mtr_scheduler *state".to_string());
    }
    for (parameter, pass) in &f.parameters {
        let (declared, argument) = taken(parameter, pass, stores);
        parameters.push(declared);
        arguments.push(argument);
    }
    parameters.extend(outs.iter().map(|out| out.declared.clone()));

    let call = format!("{}({})", f.name, arguments.join(", "));
    let answer = ANSWER.to_string();
    let (result, lines) = match (whole, reply) {
        (Some(of), _) => (c_name(&of.name), vec![format!("return {call};")]),
        (_, Some(of)) => (answer, stored(of, &call, stores, &outs)),
        _ if f.comment.refuses.is_empty() => {
            ("bool".to_string(), vec![format!("return {call} == 1;")])
        }
        _ => (answer, counted(&call, &outs)),
    };
    let head = headed(
        &format!("MTR_MUST_USE static inline {result}"),
        &format!("mtr_{name}({})", listed(&parameters)),
    );
    let body: String = lines
        .iter()
        .map(|line| folded(&format!("    {line}")) + "\n")
        .collect();
    let text = boxed("", &described(f, &leaves(f, name, &outs)));
    format!("{text}{head}\n{{\n{body}}}\n\n")
}

/// A parameter as C has it, and what goes to the export for it.
fn taken(name: &str, pass: &Pass, stores: bool) -> (String, String) {
    match pass {
        // As wide as the export takes it: an enum of C would cut a greater number.
        Pass::Value(Form::Number(number)) => (format!("{} {name}", number.c), name.to_string()),
        Pass::Value(form) => {
            let constant = match name == "state" && stores {
                true => "",
                false => "const ",
            };
            let pointer = declared(form, &format!("*{name}"));
            (format!("{constant}{pointer}"), format!("*{name}"))
        }
        Pass::Slice { mutable, element } => (
            slice(name, *mutable, element),
            format!("{name}, {name}_len"),
        ),
    }
}

/// Where the values of an accepted reply go.
fn outs(interface: &Interface, name: &str, reply: Option<&Struct>, stores: bool) -> Vec<Out> {
    let rest = |s: &Struct| -> Vec<Field> {
        let own = |f: &&Field| f.name != "answer" && f.name != "state";
        s.fields.iter().filter(own).cloned().collect()
    };
    match reply {
        // A roster has a record for each thread that is admitted.
        None if name == "roster" => vec![Out {
            declared: "size_t *filled".to_string(),
            name: "filled".to_string(),
            stores: ADMITTED.map(str::to_string).to_vec(),
        }],
        None => Vec::new(),
        Some(s) if stores && name == RUNS => vec![Out {
            declared: "mtr_run *run".to_string(),
            name: "run".to_string(),
            stores: rest(s)
                .iter()
                .map(|f| format!("run->{0} = reply.{0};", f.name))
                .collect(),
        }],
        Some(_) if stores => Vec::new(),
        Some(s) => {
            let mut outs: Vec<Out> = rest(s).iter().map(|f| out(interface, f)).collect();
            // A list stands before its count, as where it is written.
            outs.sort_by_key(|out| out.name == "count");
            outs
        }
    }
}

/// The place for one field of a reply.
fn out(interface: &Interface, field: &Field) -> Out {
    match &field.form {
        Form::Array(_, length) => {
            let same = |s: &&Struct| s.fields.len() == 1 && s.fields[0].form == field.form;
            let of = interface.structs.iter().find(same).map(|s| c_name(&s.name));
            Out {
                declared: format!("{} *list", of.unwrap_or_default()),
                name: "list".to_string(),
                stores: vec![
                    format!("for (size_t i = 0; i < {length}; i++)"),
                    format!("    list->{0}[i] = reply.{0}[i];", field.name),
                ],
            }
        }
        form => {
            let name = field.name.clone();
            let declared = match &name[..] {
                "count" => "size_t *count".to_string(),
                other => declared(form, &format!("*{other}")),
            };
            let stores = vec![format!("*{name} = reply.{name};")];
            Out {
                declared,
                name,
                stores,
            }
        }
    }
}

/// The body over an export that hands back a struct.
fn stored(reply: &Struct, call: &str, stores: bool, outs: &[Out]) -> Vec<String> {
    let mut lines = vec![format!("const {} reply = {call};", c_name(&reply.name))];
    lines.push("if (reply.answer == MTR_ACCEPTED) {".to_string());
    if stores {
        lines.push("    *state = reply.state;".to_string());
    }
    let all = outs.iter().flat_map(|out| &out.stores);
    lines.extend(all.map(|line| format!("    {line}")));
    lines.push("}".to_string());
    lines.push(format!("return MTR_CAST({ANSWER}, reply.answer);"));
    lines
}

/// The body over an export that hands back its answer alone.
fn counted(call: &str, outs: &[Out]) -> Vec<String> {
    let mut lines = vec![format!("const uint32_t answer = {call};")];
    if !outs.is_empty() {
        lines.push("if (answer == MTR_ACCEPTED) {".to_string());
        let all = outs.iter().flat_map(|out| &out.stores);
        lines.extend(all.map(|line| format!("    {line}")));
        lines.push("}".to_string());
    }
    lines.push(format!("return MTR_CAST({ANSWER}, answer);"));
    lines
}

/// What the function leaves unchanged, and where it stores.
fn leaves(f: &Function, name: &str, outs: &[Out]) -> String {
    let known = LEAVES.iter().find(|l| l.0 == name);
    let mut text = known.map_or(f.comment.leaves.clone(), |l| l.1.to_string());
    let names: Vec<String> = outs.iter().map(|out| format!("*{}", out.name)).collect();
    match &names[..] {
        [] => {}
        [one] if one == "*filled" => {
            text += " *filled is how many records are filled; refused, it is unchanged.";
        }
        [one] => text += &format!(" Accepted, {one} is set; refused, it is unchanged."),
        all => {
            let all = all.join(" and ");
            text += &format!(" Accepted, {all} are set; refused, they are unchanged.");
        }
    }
    text
}
