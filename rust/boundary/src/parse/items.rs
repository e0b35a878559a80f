//! The items of a Rattle source that a boundary is made of.

/// A name with the names before it: `scheduler::Scheduler`.
pub type Path = Vec<String>;

/// A type as written.
#[derive(Clone, Debug, PartialEq, Eq)]
pub enum Type {
    Path(Path),
    Array(Box<Type>, Length),
    Slice {
        mutable: bool,
        element: Box<Type>,
    },
    /// Any other, as text: it has no form at the boundary.
    Other(String),
}

#[derive(Clone, Debug, PartialEq, Eq)]
pub enum Length {
    Number(u64),
    Constant(Path),
}

/// A field of a struct or a parameter of a function.
#[derive(Clone, Debug, PartialEq, Eq)]
pub struct Field {
    pub doc: Vec<String>,
    pub public: bool,
    pub name: String,
    pub of: Type,
    pub line: usize,
}

#[derive(Clone, Debug, PartialEq, Eq)]
pub struct Struct {
    pub doc: Vec<String>,
    /// It has `#[repr(C)]`.
    pub fixed: bool,
    pub public: bool,
    pub name: String,
    pub fields: Vec<Field>,
    pub line: usize,
}

/// A function marked `#[unsafe(no_mangle)] pub extern "C"`.
#[derive(Clone, Debug, PartialEq, Eq)]
pub struct Function {
    pub doc: Vec<String>,
    pub name: String,
    pub parameters: Vec<Field>,
    pub result: Option<Type>,
    pub line: usize,
}

/// A constant whose value is written as a number.
#[derive(Clone, Debug, PartialEq, Eq)]
pub struct Constant {
    pub doc: Vec<String>,
    pub public: bool,
    /// `THREADS`, or `Scheduler::THREADS` in an `impl`.
    pub name: String,
    pub of: String,
    pub value: u64,
}

#[derive(Debug, Default)]
pub struct File {
    /// Path as errors name it.
    pub name: String,
    pub modules: Vec<String>,
    pub imports: Vec<Path>,
    pub structs: Vec<Struct>,
    pub enums: Vec<String>,
    pub constants: Vec<Constant>,
    pub functions: Vec<Function>,
}

impl Type {
    /// The type as text.
    pub fn shown(&self) -> String {
        match self {
            Type::Path(path) => path.join("::"),
            Type::Array(element, Length::Number(n)) => format!("[{}; {n}]", element.shown()),
            Type::Array(element, Length::Constant(path)) => {
                format!("[{}; {}]", element.shown(), path.join("::"))
            }
            Type::Slice { mutable, element } => {
                let mark = if *mutable { "&mut " } else { "&" };
                format!("{mark}[{}]", element.shown())
            }
            Type::Other(text) => text.clone(),
        }
    }
}
