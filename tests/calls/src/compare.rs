//! The calls as `compare` has them, for its `call.rs`.

use crate::table::{camel, each, joined, seconds, Call, Field, Struct, Table, Type};

pub fn module(table: &Table) -> String {
    let structs = each(&table.structs, value);
    [
        which(table),
        call(table),
        asked(table),
        left(table),
        said(table),
        structs,
    ]
    .concat()
}

/// The calls by their names.
fn which(table: &Table) -> String {
    let session = table.octets(&Type::Struct("session".to_string()));
    let longest = table.longest_answer();
    let which = joined(&table.calls, ", ", |call| camel(&call.name));
    let names = joined(&table.calls, ", ", |call| format!("\"{}\"", call.name));
    format!(
        r#"/// Octets of the fields of a session, and of the longest answer.
pub const SESSION_OCTETS: usize = {session};
pub const SAID_OCTETS: usize = {longest};

#[derive(Clone, Copy, Debug, PartialEq, Eq, PartialOrd, Ord)]
pub enum Which {{ {which} }}

impl Which {{
    pub fn name(self) -> &'static str {{
        [{names}][self as usize]
    }}
}}
"#
    )
}

/// A call with what it is given.
fn call(table: &Table) -> String {
    let given = each(&table.arguments(), declared);
    let nothing = each(&table.arguments(), |argument| {
        format!("            {}: Default::default(),\n", argument.name)
    });
    format!(
        r#"
/// A call with all that it is given; what it does not take is empty or 0.
#[derive(Clone, Debug, PartialEq, Eq)]
pub struct Call {{
    pub which: Which,
{given}}}

impl Call {{
    /// This call, given nothing yet.
    pub fn new(which: Which) -> Call {{
        Call {{
            which,
{nothing}        }}
    }}
}}
"#
    )
}

/// What can be asked of a call: what it is given, simpler ones, and what the second
/// implementation makes of it.
fn asked(table: &Table) -> String {
    let given = arms(table, |call| {
        format!("vec![{}]", joined(&call.arguments, ", ", given_by_name))
    });
    let simpler = arms(table, |call| match call.arguments.is_empty() {
        true => "false".to_string(),
        false => joined(&call.arguments, " || ", |argument| {
            format!(
                "way.of(&self.{0}, &mut |{0}| take(Call {{ {0}, ..self.clone() }}))",
                argument.name
            )
        }),
    });
    let second = arms(table, second_says);
    format!(
        r#"
impl Call {{
    /// What the call is given, by its names.
    pub fn given(&self) -> Vec<(&'static str, &dyn Given)> {{
        match self.which {{
{given}        }}
    }}

    /// Hands over the call with one thing simpler until one is taken; tells
    /// whether one was.
    pub fn simpler(&self, way: Way, take: &mut dyn FnMut(Call) -> bool) -> bool {{
        match self.which {{
{simpler}        }}
    }}

    fn second_says(&self, left: &mut Left) -> Said {{
        match self.which {{
{second}        }}
    }}
}}
"#
    )
}

/// What a call leaves in its buffers.
fn left(table: &Table) -> String {
    let mut written = table.buffers();
    written.retain(|buffer| buffer.written);
    let left = each(&written, declared);
    let as_found = each(&written, |buffer| {
        let copied = match buffer.kind {
            Type::One(_) => "",
            _ => ".clone()",
        };
        format!("            {0}: call.{0}{copied},\n", buffer.name)
    });
    let names = joined(&written, ", ", given_by_name);
    let gets = each(&table.calls, |call| get_left(call, &written));
    format!(
        r#"
/// What there is, after a call, of the buffers that calls may write.
#[derive(Clone, Debug, PartialEq, Eq)]
pub struct Left {{
{left}}}

impl Left {{
    pub fn as_found(call: &Call) -> Left {{
        Left {{
{as_found}        }}
    }}

    pub fn by_name(&self) -> Vec<(&'static str, &dyn Given)> {{
        vec![{names}]
    }}

    pub fn get(call: &Call, octets: &mut &[u8]) -> Option<Left> {{
        let mut left = Left::as_found(call);
        match call.which {{
{gets}        }}
        Some(left)
    }}
}}
"#
    )
}

/// What a call answers.
fn said(table: &Table) -> String {
    let answers = answers(table);
    let said = each(&answers, |(name, kind)| {
        format!("    {}({kind}),\n", camel(name))
    });
    let gets = arms(table, |call| {
        format!("Said::{}(Value::get(octets)?)", camel(&call.answer))
    });
    let refusals = each(&answers, |(name, _)| refusal(table, name));
    let shows = each(&answers, |(name, _)| {
        let shown = match table.value(name) {
            Some(_) => format!("format!(\"{name} {{}}\", value.show())"),
            None => "value.show()".to_string(),
        };
        format!("            Said::{}(value) => {shown},\n", camel(name))
    });
    format!(
        r#"
/// What came back as a value.
#[derive(Clone, Debug, PartialEq, Eq)]
pub enum Said {{
{said}    /// Nothing: the second implementation broke off.
    Panicked,
    /// Nothing: the library broke off or did not return.
    Lost(Lost),
}}

impl Said {{
    pub fn get(which: Which, octets: &mut &[u8]) -> Option<Said> {{
        Some(match which {{
{gets}        }})
    }}

    /// The refusal, or 0 where there can be none.
    pub fn refusal(&self) -> u8 {{
        match self {{
{refusals}            _ => 0,
        }}
    }}

    pub fn show(&self) -> String {{
        match self {{
{shows}            Said::Panicked => "broke off".to_string(),
            Said::Lost(Lost(why)) => why.clone(),
        }}
    }}
}}
"#
    )
}

/// An arm for the refusal of an answer that has one.
fn refusal(table: &Table, answer: &str) -> String {
    let refusal = match table.value(answer) {
        Some(_) if answer == "refusal" => "*value".to_string(),
        None => match refusal_in(table, answer) {
            Some(path) => format!("value.{path}"),
            None => return String::new(),
        },
        _ => return String::new(),
    };
    format!("            Said::{}(value) => {refusal},\n", camel(answer))
}

/// Where the refusal stands in a struct, or in a struct in it.
fn refusal_in(table: &Table, name: &str) -> Option<String> {
    table
        .fields(name)
        .iter()
        .find_map(|field| match &field.kind {
            _ if field.name == "refusal" => Some("refusal".to_string()),
            Type::Struct(inner) => {
                let path = refusal_in(table, inner)?;
                Some(format!("{}.{path}", field.name))
            }
            _ => None,
        })
}

fn given_by_name(field: &Field) -> String {
    format!("(\"{0}\", &self.{0} as &dyn Given)", field.name)
}

/// An arm for each call.
fn arms(table: &Table, text: impl Fn(&Call) -> String) -> String {
    each(&table.calls, |call| {
        format!(
            "            Which::{} => {},\n",
            camel(&call.name),
            text(call)
        )
    })
}

fn type_of(kind: &Type) -> String {
    match kind {
        Type::Bool => "bool".to_string(),
        Type::Number(bits, _) => format!("u{bits}"),
        Type::Size => "u64".to_string(),
        Type::Array(count) => format!("[u8; {count}]"),
        Type::Struct(name) => seconds(name),
        Type::Octets => "Vec<u8>".to_string(),
        Type::Sessions => format!("Vec<{}>", seconds("session")),
        Type::One(name) => seconds(name),
    }
}

fn declared(field: &Field) -> String {
    format!("    pub {}: {},\n", field.name, type_of(&field.kind))
}

/// Everything that calls answer, once, with its type.
fn answers(table: &Table) -> Vec<(String, String)> {
    let mut all: Vec<(String, String)> = Vec::new();
    for call in &table.calls {
        if all.iter().all(|(name, _)| *name != call.answer) {
            all.push((call.answer.clone(), type_of(&table.answer(call))));
        }
    }
    all
}

fn get_left(call: &Call, written: &[Field]) -> String {
    let such = |buffer: &&Field| {
        let argument = call
            .arguments
            .iter()
            .find(|argument| argument.name == buffer.name);
        argument.is_some_and(|argument| argument.written)
    };
    let gets = each(written.iter().filter(such), |buffer| {
        format!("left.{} = Value::get(octets)?; ", buffer.name)
    });
    format!("            Which::{} => {{ {gets}}}\n", camel(&call.name))
}

fn second_says(call: &Call) -> String {
    let passed = joined(&call.arguments, ", ", |argument| {
        let name = &argument.name;
        match (&argument.kind, argument.written) {
            (kind, true) if kind.is_lent() => format!("&mut left.{name}"),
            (kind, false) if kind.is_lent() => format!("&self.{name}"),
            (Type::Size, _) => format!("size(self.{name})"),
            _ => format!("self.{name}"),
        }
    });
    format!(
        "Said::{}(second::{}({passed}))",
        camel(&call.answer),
        call.name
    )
}

/// A struct as a value: all of it is said of its fields.
fn value(this: &Struct) -> String {
    let (name, fields) = (seconds(&this.name), &this.fields);
    let puts = each(fields, |field| {
        format!("        self.{}.put(octets);\n", field.name)
    });
    let bits = joined(fields, " + ", |field| format!("self.{}.bits()", field.name));
    let show = show(fields);
    let gets = joined(fields, ", ", |field| {
        format!("{}: Value::get(octets)?", field.name)
    });
    let plainer = joined(fields, "\n            || ", |field| {
        format!(
            "self.{0}.plainer(&mut |{0}| take({name} {{ {0}, ..*self }}))",
            field.name
        )
    });
    format!(
        r#"
impl Given for {name} {{
    fn put(&self, octets: &mut Vec<u8>) {{
{puts}    }}

    fn bits(&self) -> u32 {{
        {bits}
    }}

    fn show(&self) -> String {{
        {show}
    }}
}}

impl Value for {name} {{
    fn get(octets: &mut &[u8]) -> Option<{name}> {{
        Some({name} {{ {gets} }})
    }}

    #[allow(clippy::needless_update)]
    fn plainer(&self, take: &mut dyn FnMut({name}) -> bool) -> bool {{
        {plainer}
    }}
}}
"#
    )
}

/// An expression that shows a struct: its fields with their names, but a single
/// one without.
fn show(fields: &[Field]) -> String {
    if let [only] = fields {
        return format!("self.{}.show()", only.name);
    }
    let text = joined(fields, ", ", |field| match field.kind {
        Type::Number(bits, true) => format!("{} {{:0{}X}}", field.name, bits / 4),
        Type::Struct(_) => format!("{} ({{}})", field.name),
        _ => format!("{} {{}}", field.name),
    });
    let shown = joined(fields, ", ", |field| match field.kind {
        Type::Number(_, true) => format!("self.{}", field.name),
        _ => format!("self.{}.show()", field.name),
    });
    format!("format!(\"{text}\", {shown})")
}
