//! The description, read.

/// The type of a field or of an argument.
#[derive(Clone, Debug, PartialEq, Eq)]
pub enum Type {
    Bool,
    /// Bits, and whether it is shown in hexadecimal.
    Number(usize, bool),
    Size,
    /// So many octets in a struct.
    Array(usize),
    Struct(String),
    /// Octets or sessions lent with their length.
    Octets,
    Sessions,
    /// One struct of this name, lent where it stands.
    One(String),
}

impl Type {
    fn read(word: &str) -> Type {
        match word {
            "bool" => Type::Bool,
            "size" => Type::Size,
            "octets" => Type::Octets,
            "sessions" => Type::Sessions,
            "u8" | "u16" | "u32" | "x8" | "x16" | "x32" => {
                let bits = word[1..].parse().expect("digits");
                Type::Number(bits, word.starts_with('x'))
            }
            _ => match word
                .strip_prefix("u8[")
                .and_then(|rest| rest.strip_suffix(']'))
            {
                Some(count) => Type::Array(count.parse().expect("a number of octets")),
                None => Type::Struct(word.to_string()),
            },
        }
    }

    /// Is it lent, as one session or as many?
    pub fn is_sessions(&self) -> bool {
        match self {
            Type::Sessions => true,
            Type::One(name) => name == "session",
            _ => false,
        }
    }

    pub fn is_lent(&self) -> bool {
        matches!(self, Type::Octets | Type::Sessions | Type::One(_))
    }

    /// What a call may write.
    fn lent_to_write(self) -> Type {
        match self {
            Type::Struct(name) => Type::One(name),
            other => other,
        }
    }
}

/// A field of a struct, or an argument of a call.
#[derive(Clone, Debug)]
pub struct Field {
    pub name: String,
    pub kind: Type,
    /// The call may write there.
    pub written: bool,
}

pub struct Struct {
    pub name: String,
    pub fields: Vec<Field>,
}

/// What a call answers that is no struct.
pub struct Value {
    pub name: String,
    pub kind: Type,
}

pub struct Call {
    pub name: String,
    /// The name of a struct or a value.
    pub answer: String,
    pub arguments: Vec<Field>,
}

pub struct Table {
    pub structs: Vec<Struct>,
    pub values: Vec<Value>,
    pub calls: Vec<Call>,
}

impl Table {
    pub fn read(text: &str) -> Table {
        let mut table = Table {
            structs: Vec::new(),
            values: Vec::new(),
            calls: Vec::new(),
        };
        for line in text
            .lines()
            .filter(|line| !line.is_empty() && !line.starts_with('#'))
        {
            let words: Vec<&str> = line.split_whitespace().collect();
            match words[..] {
                ["struct", name, ..] => table.structs.push(Struct {
                    name: name.to_string(),
                    fields: fields(&words[2..]),
                }),
                ["value", name, kind] => table.values.push(Value {
                    name: name.to_string(),
                    kind: Type::read(kind),
                }),
                ["call", name, answer, ..] => table.calls.push(Call {
                    name: name.to_string(),
                    answer: answer.to_string(),
                    arguments: fields(&words[3..]),
                }),
                _ => panic!("calls.txt: cannot be read: {line}"),
            }
        }
        table
    }

    /// Every name that an argument has, once.
    pub fn arguments(&self) -> Vec<Field> {
        let mut all: Vec<Field> = Vec::new();
        for argument in self.calls.iter().flat_map(|call| &call.arguments) {
            match all.iter_mut().find(|other| other.name == argument.name) {
                Some(other) => {
                    assert_eq!(other.kind, argument.kind, "calls.txt: {}", argument.name);
                    other.written |= argument.written;
                }
                None => all.push(argument.clone()),
            }
        }
        all
    }

    /// The arguments that are lent.
    pub fn buffers(&self) -> Vec<Field> {
        let all = self.arguments().into_iter();
        all.filter(|argument| argument.kind.is_lent()).collect()
    }

    /// The value of this name; none if it is a struct.
    pub fn value(&self, name: &str) -> Option<&Value> {
        self.values.iter().find(|value| value.name == name)
    }

    pub fn fields(&self, name: &str) -> &[Field] {
        let found = self.structs.iter().find(|found| found.name == name);
        &found
            .unwrap_or_else(|| panic!("calls.txt: no struct {name}"))
            .fields
    }

    /// Octets of a type, field behind field.
    pub fn octets(&self, kind: &Type) -> usize {
        match kind {
            Type::Bool => 1,
            Type::Number(bits, _) => bits / 8,
            Type::Size => 8,
            Type::Array(count) => *count,
            Type::Struct(name) => self
                .fields(name)
                .iter()
                .map(|field| self.octets(&field.kind))
                .sum(),
            Type::Octets | Type::Sessions | Type::One(_) => {
                panic!("calls.txt: lent in a struct")
            }
        }
    }

    /// The type of what a call answers.
    pub fn answer(&self, call: &Call) -> Type {
        match self.value(&call.answer) {
            Some(value) => value.kind.clone(),
            None => Type::Struct(call.answer.clone()),
        }
    }

    /// Octets of the longest argument that is not lent.
    pub fn widest_argument(&self) -> usize {
        let all = self.arguments().into_iter();
        let octets = all.filter(|argument| !argument.kind.is_lent());
        let octets = octets.map(|argument| self.octets(&argument.kind));
        octets.max().unwrap_or(0)
    }

    /// Octets of the longest answer.
    pub fn longest_answer(&self) -> usize {
        let all = self
            .calls
            .iter()
            .map(|call| self.octets(&self.answer(call)));
        all.max().unwrap_or(0)
    }
}

/// `NAME TYPE [mut], ..`
fn fields(words: &[&str]) -> Vec<Field> {
    let text = words.join(" ");
    let each = text.split(", ").filter(|field| !field.is_empty());
    each.map(|field| {
        let words: Vec<&str> = field.split(' ').collect();
        let (name, kind, written) = match words[..] {
            [name, kind] => (name, Type::read(kind), false),
            [name, kind, "mut"] => (name, Type::read(kind).lent_to_write(), true),
            _ => panic!("calls.txt: cannot be read: {field}"),
        };
        Field {
            name: name.to_string(),
            kind,
            written,
        }
    })
    .collect()
}

/// `row_event` as `RowEvent`.
pub fn camel(name: &str) -> String {
    let words = name
        .split('_')
        .map(|word| word[..1].to_uppercase() + &word[1..]);
    words.collect()
}

/// The second program's struct of this name.
pub fn seconds(name: &str) -> String {
    match name {
        "session" => "second::Fields".to_string(),
        _ => format!("second::{}", camel(name)),
    }
}

/// One text for each, one behind the other.
pub fn each<T>(items: impl IntoIterator<Item = T>, text: impl Fn(T) -> String) -> String {
    items.into_iter().map(text).collect()
}

/// One text for each, with something between them.
pub fn joined<T>(
    items: impl IntoIterator<Item = T>,
    between: &str,
    text: impl Fn(T) -> String,
) -> String {
    items
        .into_iter()
        .map(text)
        .collect::<Vec<_>>()
        .join(between)
}
