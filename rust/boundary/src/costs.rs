//! What a call costs: stack and instructions, as they were measured.

use crate::interface::Interface;
use crate::names::BY_VALUE;
use crate::Error;

/// The file of the measurements, from the root.
pub const FILE: &str = "rust/boundary/costs.txt";

/// The cost of one call.
#[derive(Clone, Debug, PartialEq, Eq)]
pub struct Cost {
    /// The function in C.
    pub name: String,
    /// Bytes of stack.
    pub stack: u64,
    /// Instructions of the dearest case that was measured.
    pub instructions: u64,
}

/// The calls that have a cost: those that take the state by value.
pub fn calls(interface: &Interface) -> Vec<&str> {
    let functions = interface.sections.iter().flat_map(|s| &s.functions);
    functions
        .filter_map(|f| f.name.strip_prefix(BY_VALUE))
        .collect()
}

/// The costs in a file with a line `NAME STACK INSTRUCTIONS` for each of these
/// calls, in their order. Lines that begin with `#` are passed over.
pub fn costs(text: &str, calls: &[&str]) -> Result<Vec<Cost>, Error> {
    let lines = text.lines().zip(1..).filter(|l| !l.0.starts_with('#'));
    let mut found = Vec::new();
    for (text, line) in lines {
        let cost = match text.split_whitespace().collect::<Vec<_>>()[..] {
            [name, stack, instructions] => match (stack.parse(), instructions.parse()) {
                (Ok(stack), Ok(instructions)) => Some(Cost {
                    name: name.to_string(),
                    stack,
                    instructions,
                }),
                _ => None,
            },
            _ => None,
        };
        let wrong = || Error::at(FILE, line, format!("`{text}` is no name and two numbers"));
        found.push(cost.ok_or_else(wrong)?);
    }
    let names: Vec<&str> = found.iter().map(|cost| &cost.name[..]).collect();
    match names == calls {
        true => Ok(found),
        false => Err(Error::at(
            FILE,
            1,
            format!("the calls are {calls:?}, and those measured {names:?}"),
        )),
    }
}
