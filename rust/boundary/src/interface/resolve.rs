//! Reads the sources that the exported functions and constants need, and
//! finds what each name in them stands for.

use std::collections::BTreeMap;

use super::{c_name, Constant, Family, Form, Function, Interface, Pass, Section, Sources, NUMBERS};
use crate::comment::comment;
use crate::names::{FAMILIES, SECTIONS};
use crate::parse::{self, parse, File, Path, Type};
use crate::{Error, ANSWER};

const CRATE: &str = "abi";

/// Reads the sources that the exported functions and constants need.
pub fn resolve(sources: &Sources) -> Result<Interface, Error> {
    let mut work = Work {
        sources,
        files: BTreeMap::new(),
        homes: BTreeMap::new(),
        answers: Vec::new(),
        found: Interface::default(),
    };
    let root = path_of(CRATE, None);
    let modules = work.load(&root, &root, 1)?.modules.clone();
    let mut listed: Vec<&str> = SECTIONS.iter().map(|s| s.0).collect();
    let mut present: Vec<&str> = modules.iter().map(|m| &m[..]).collect();
    listed.sort_unstable();
    present.sort_unstable();
    if listed != present {
        let text = format!("the modules are {present:?}, and the sections {listed:?}");
        return Err(Error::at(&root, 1, text));
    }
    for family in FAMILIES.iter().filter(|f| f.c == ANSWER) {
        work.answers = work.names(family)?;
    }
    for (module, title) in SECTIONS {
        let file = path_of(CRATE, Some(module));
        let functions = work.load(&file, &root, 1)?.functions.clone();
        let functions: Result<_, _> = functions.iter().map(|f| work.function(&file, f)).collect();
        let functions = functions?;
        work.found.sections.push(Section { title, functions });
    }
    work.distinct()?;
    for family in FAMILIES {
        let names = work.names(&family)?;
        work.found.families.push(Family {
            doc: family.doc,
            of: family.of,
            c: family.c,
            names,
        });
    }
    Ok(work.found)
}

/// The source of a crate's module, or of the crate itself.
fn path_of(of: &str, module: Option<&str>) -> String {
    format!("crates/{of}/src/{}.rt", module.unwrap_or("lib"))
}

pub(super) struct Work<'a> {
    pub(super) sources: &'a Sources<'a>,
    pub(super) files: BTreeMap<String, File>,
    /// The source of each struct that is added.
    pub(super) homes: BTreeMap<String, String>,
    /// The answers, 0 among them.
    answers: Vec<Constant>,
    pub(super) found: Interface,
}

impl Work<'_> {
    /// A source, read once. Where it is needed is named if it can't be read.
    pub(super) fn load(&mut self, path: &str, needed: &str, line: usize) -> Result<&File, Error> {
        if !self.files.contains_key(path) {
            let text = (self.sources)(path)
                .map_err(|e| Error::at(needed, line, format!("{path} can't be read: {e}")))?;
            self.files.insert(path.to_string(), parse(path, &text)?);
        }
        Ok(&self.files[path])
    }

    fn function(&mut self, file: &str, f: &parse::Function) -> Result<Function, Error> {
        let mut parameters = Vec::new();
        for parameter in &f.parameters {
            let pass = match &parameter.of {
                Type::Slice { mutable, element } => Pass::Slice {
                    mutable: *mutable,
                    element: self.passed(file, parameter.line, element)?,
                },
                other => Pass::Value(self.passed(file, parameter.line, other)?),
            };
            parameters.push((parameter.name.clone(), pass));
        }
        let result = match &f.result {
            Some(of) => Some(self.passed(file, f.line, of)?),
            None => None,
        };
        if f.name.strip_prefix("mtr_").is_none_or(str::is_empty) {
            let text = format!("the name {} does not begin with mtr_", f.name);
            return Err(Error::at(file, f.line, text));
        }
        Ok(Function {
            comment: comment(file, f, &self.answers)?,
            name: f.name.clone(),
            parameters,
            result,
        })
    }

    /// Functions and structs share their names in C.
    fn distinct(&self) -> Result<(), Error> {
        let mut functions = self
            .files
            .values()
            .flat_map(|file| file.functions.iter().map(move |f| (file, f)));
        let taken = |name: &str| self.found.structs.iter().find(|s| c_name(&s.name) == name);
        match functions.find_map(|(file, f)| Some((file, f, taken(&f.name)?))) {
            Some((file, f, of)) => {
                let text = format!("{} is also the name of the struct {} in C", f.name, of.name);
                Err(Error::at(&file.name, f.line, text))
            }
            None => Ok(()),
        }
    }

    /// The form of a type that passes by value or is an element of a slice.
    fn passed(&mut self, file: &str, line: usize, of: &Type) -> Result<Form, Error> {
        match self.form(file, line, of)? {
            Form::Array(..) => {
                let text = format!("`{}`: an array passes in a struct only", of.shown());
                Err(Error::at(file, line, text))
            }
            form => Ok(form),
        }
    }

    pub(super) fn form(&mut self, file: &str, line: usize, of: &Type) -> Result<Form, Error> {
        let refused = |why: &str| {
            let text = format!("`{}` has no fixed form at the boundary: {why}", of.shown());
            Error::at(file, line, text)
        };
        let unknown = || Error::at(file, line, format!("the type `{}` is unknown", of.shown()));
        match of {
            Type::Slice { .. } => Err(refused("a slice is a parameter only")),
            Type::Other(_) => Err(refused("a number, a struct of numbers or a slice has")),
            Type::Array(element, length) => {
                let element = self.form(file, line, element)?;
                let length = self.length(file, line, length)?;
                Ok(Form::Array(Box::new(element), length))
            }
            Type::Path(path) => {
                if let [name] = &path[..] {
                    if let Some(number) = NUMBERS.iter().find(|n| n.name == name) {
                        return Ok(Form::Number(*number));
                    }
                    if name == "bool" {
                        return Err(refused("a byte other than 0 and 1 is no bool; take u8"));
                    }
                }
                let (home, name) = self.home(file, line, path)?.ok_or_else(unknown)?;
                let there = &self.files[&home];
                if there.enums.contains(&name) {
                    return Err(refused("it is an enum; take a struct of numbers"));
                }
                let found = there.structs.iter().find(|s| s.name == name).cloned();
                let found = found.ok_or_else(unknown)?;
                if !(found.fixed && found.public) {
                    return Err(refused("the struct is not `#[repr(C)] pub`"));
                }
                self.structure(&home, &found)?;
                Ok(Form::Struct(name))
            }
        }
    }

    /// The source that a name in a file stands for, loaded, and the name there.
    fn home(
        &mut self,
        file: &str,
        line: usize,
        path: &Path,
    ) -> Result<Option<(String, String)>, Error> {
        let here = &self.files[file];
        let Some((name, before)) = path.split_last() else {
            return Ok(None);
        };
        let Some(first) = before.first() else {
            let own = here.structs.iter().any(|s| &s.name == name) || here.enums.contains(name);
            if own {
                return Ok(Some((file.to_string(), name.clone())));
            }
            let import = here
                .imports
                .iter()
                .find(|i| i.len() > 1 && i.last() == Some(name));
            return match import.cloned() {
                Some(import) => self.home(file, line, &import),
                None => Ok(None),
            };
        };
        let own = file.split('/').nth(1).unwrap_or_default().to_string();
        let module = here
            .imports
            .iter()
            .find(|i| i.len() > 1 && i.last() == Some(first));
        let before: Vec<String> = match module {
            Some(import) => import.iter().chain(&before[1..]).cloned().collect(),
            None => before.to_vec(),
        };
        let (of, module) = match &before[..] {
            [of] => (of, None),
            [of, module] => (of, Some(&module[..])),
            _ => return Ok(None),
        };
        let of = if of == "crate" { &own } else { of };
        let home = path_of(of, module);
        self.load(&home, file, line)?;
        Ok(Some((home, name.clone())))
    }
}
