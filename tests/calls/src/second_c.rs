//! The second program's C names, for `tests/second_c`.

use crate::table::{each, joined, seconds, Call, Field, Table, Type};

pub fn functions(table: &Table) -> String {
    each(&table.calls, |call| function(table, call))
}

fn function(table: &Table, call: &Call) -> String {
    let name = &call.name;
    let parameters = joined(&call.arguments, ", ", parameter);
    let answer = type_of(&table.answer(call));
    let passed = joined(&call.arguments, ", ", passed);
    format!(
        r#"
#[no_mangle]
pub unsafe extern "C" fn second_{name}({parameters}) -> {answer} {{
    second::{name}({passed})
}}
"#
    )
}

fn type_of(kind: &Type) -> String {
    match kind {
        Type::Bool => "bool".to_string(),
        Type::Number(bits, _) => format!("u{bits}"),
        Type::Size => "usize".to_string(),
        Type::Struct(name) => seconds(name),
        _ => panic!("calls.txt: no type of its own"),
    }
}

fn parameter(argument: &Field) -> String {
    let name = &argument.name;
    let pointer = if argument.written { "*mut" } else { "*const" };
    match &argument.kind {
        Type::Octets => format!("{name}: {pointer} u8, {name}_len: usize"),
        Type::Sessions => format!("{name}: {pointer} second::Fields, {name}_len: usize"),
        Type::One(of) => format!("{name}: {pointer} {}", seconds(of)),
        _ => format!("{name}: {}", type_of(&argument.kind)),
    }
}

fn passed(argument: &Field) -> String {
    let name = &argument.name;
    match (&argument.kind, argument.written) {
        (Type::Octets | Type::Sessions, true) => format!("lent_mut({name}, {name}_len)"),
        (Type::Octets | Type::Sessions, false) => format!("lent({name}, {name}_len)"),
        (Type::One(_), _) => format!("&mut *{name}"),
        _ => name.clone(),
    }
}
