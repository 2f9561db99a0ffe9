//! The C header.

use crate::table::{each, joined, Call, Field, Struct, Table, Type};

pub fn header(table: &Table) -> String {
    let structs = each(&table.structs, |this| octets_of(table, this));
    let parts = [
        numbers(table),
        given(table),
        structs,
        single(table),
        functions(table),
        taken(table),
        shown(table),
        made(table),
    ];
    format!(
        r#"/* calls.h - the calls of the library as values; made of tests/calls/calls.txt */
#ifndef CALLS_H
#define CALLS_H

#include "octets.h"
#include "tacit.h"
{}
#endif
"#,
        parts.concat()
    )
}

/// The numbers of calls and buffers, and their names.
fn numbers(table: &Table) -> String {
    let upper = |name: &str| name.to_uppercase();
    let quoted = |name: &str| format!("\"{name}\"");
    let calls = joined(&table.calls, ", ", |call| upper(&call.name));
    let names = joined(&table.calls, ", ", |call| quoted(&call.name));
    let buffers = joined(table.buffers(), ", ", |buffer| upper(&buffer.name));
    let buffer_names = joined(table.buffers(), ", ", |buffer| quoted(&buffer.name));
    let lent = masks(table, |_| true);
    let written = masks(table, |argument| argument.written);
    let sessions = joined(table.buffers(), ", ", |buffer| {
        buffer.kind.is_sessions().to_string()
    });
    let longest = table.longest_answer();
    let widest = table.widest_argument();
    format!(
        r#"
enum call {{ {calls}, CALLS }};
enum buffer {{ {buffers}, BUFFERS }};
enum {{
    SAID = {longest}, /* octets of the longest answer, field behind field */
    WIDEST = {widest} /* octets of the longest argument that is not lent */
}};

static const char *const call_names[CALLS] = {{{names}}};
static const char *const buffer_names[BUFFERS] = {{{buffer_names}}};

/* The buffers that are sessions, as many as there are or the one; the others are octets. */
static const bool of_sessions[BUFFERS] = {{{sessions}}};

/* The buffers that each call is lent, and those that it may write, a bit for each. */
static const unsigned lent_to[CALLS] = {{{lent}}};
static const unsigned written_by[CALLS] = {{{written}}};
"#
    )
}

/// What calls are given, and where it is taken from.
fn given(table: &Table) -> String {
    let mut values = table.arguments();
    values.retain(|argument| !argument.kind.is_lent());
    let values = each(values, |argument| {
        format!("    {};\n", declared(&argument.kind, &argument.name))
    });
    format!(
        r#"
/* All that a call can be given; each takes its own. Sessions that are lent are their fields. */
struct given {{
    uint8_t call;
    bool null; /* lend empty buffers as NULL */
    struct octets lent[BUFFERS];
{values}}};

/* Where what a call is given is taken from; a struct as octets, field behind field. */
struct source {{
    bool (*flag)(struct source *source);
    uint64_t (*number)(struct source *source, int octets);
    const uint8_t *(*octets)(struct source *source, size_t length);
    struct octets (*buffer)(struct source *source, enum buffer which);
}};
"#
    )
}

/// The buffers that are one struct.
fn single(table: &Table) -> String {
    let octets = joined(table.buffers(), ", ", |buffer| match buffer.kind {
        Type::One(name) => format!("{}_OCTETS", name.to_uppercase()),
        _ => "0".to_string(),
    });
    let asserts = each(table.buffers(), |buffer| match buffer.kind {
        Type::One(name) if name != "session" => octets_alone(&name),
        _ => String::new(),
    });
    format!(
        r#"
/* The octets of a buffer that is one struct, and so has no length; 0 for the others. */
static const size_t single[BUFFERS] = {{{octets}}};
{asserts}"#
    )
}

/// Such a struct is lent as octets are.
fn octets_alone(name: &str) -> String {
    let upper = name.to_uppercase();
    format!(
        "_Static_assert(sizeof(struct tacit_{name}) == {upper}_OCTETS && \
         _Alignof(struct tacit_{name}) == 1, \"{name} is octets alone\");\n"
    )
}

/// The functions of a library with these calls, whatever word their names begin with.
fn functions(table: &Table) -> String {
    let pointers = each(&table.calls, |call| pointer(table, call));
    let members = joined(&table.calls, ", ", |call| format!("word##_{}", call.name));
    let signatures = each(&table.calls, |call| signature(table, call));
    let declarations = each(&table.calls, |call| {
        format!(" \\\n    SIGNATURE_{}(word);", call.name)
    });
    let nothing = each(&table.calls, |call| does_nothing(table, call));
    format!(
        r#"
struct calls {{
{pointers}}};

/* The calls whose names begin with this word. */
#define CALLS_OF(word) {{{members}}}

/* Each call's result, name and parameters, and the parameters passed on. */
{signatures}
#define DECLARE_CALLS(word){declarations}

/* Calls with the same parameters that do nothing. */
#define CALLS_THAT_DO_NOTHING(word){nothing}
"#
    )
}

fn taken(table: &Table) -> String {
    let cases = each(&table.calls, |call| take_call(table, call));
    format!(
        r#"
static inline void take_given(struct given *given, struct source *source)
{{
    switch ((enum call)given->call) {{
{cases}    case CALLS:
        break;
    }}
}}
"#
    )
}

fn shown(table: &Table) -> String {
    let cases = each(&table.calls, |call| show_call(table, call));
    format!(
        r#"
/* Hands over all that a call is given, as octets. */
static inline void show_given(const struct given *given,
                              void (*show)(const char *name, const uint8_t *octets, size_t length))
{{
    uint8_t octets[WIDEST];
    switch ((enum call)given->call) {{
{cases}    case CALLS:
        break;
    }}
}}
"#
    )
}

fn made(table: &Table) -> String {
    let cases = each(&table.calls, |call| make_call(table, call));
    format!(
        r#"
/* Makes a call with its buffers at these places, of the lengths that are given. */
static inline void make_call(const struct calls *calls, const struct given *given,
                             void *const at[BUFFERS], uint8_t *said)
{{
    memset(said, 0, SAID);
    switch ((enum call)given->call) {{
{cases}    case CALLS:
        break;
    }}
}}
"#
    )
}

/// For each call a number with a bit for each buffer that is such.
fn masks(table: &Table, such: impl Fn(&Field) -> bool) -> String {
    let buffers = table.buffers();
    joined(&table.calls, ", ", |call| {
        let bit = |argument: &Field| {
            buffers
                .iter()
                .position(|buffer| buffer.name == argument.name)
        };
        let of = call
            .arguments
            .iter()
            .filter(|argument| such(argument))
            .filter_map(bit);
        of.map(|bit| 1 << bit).sum::<u32>().to_string()
    })
}

fn type_of(kind: &Type) -> String {
    match kind {
        Type::Bool => "bool".to_string(),
        Type::Number(bits, _) => format!("uint{bits}_t"),
        Type::Size => "size_t".to_string(),
        Type::Struct(name) => format!("struct tacit_{name}"),
        _ => panic!("calls.txt: no type of its own"),
    }
}

fn declared(kind: &Type, name: &str) -> String {
    match kind {
        Type::Array(count) => format!("uint8_t {name}[{count}]"),
        _ => format!("{} {name}", type_of(kind)),
    }
}

/// An expression that puts a value of this type at `to` and is where it ends.
fn put(kind: &Type, to: &str, value: &str) -> String {
    match kind {
        Type::Bool => format!("put_number({to}, {value}, 1)"),
        Type::Number(bits, _) => format!("put_number({to}, {value}, {})", bits / 8),
        Type::Size => format!("put_number({to}, {value}, 8)"),
        Type::Array(count) => format!("(uint8_t *)memcpy({to}, {value}, {count}) + {count}"),
        Type::Struct(name) => format!("put_{name}({to}, &{value})"),
        _ => panic!("calls.txt: lent in a struct"),
    }
}

/// A statement that gets a value of this type from behind `from`.
fn get(kind: &Type, value: &str) -> String {
    match kind {
        Type::Bool => format!("{value} = get_number(from, 1) != 0, from += 1;"),
        Type::Number(bits, _) => {
            let (kind, octets) = (type_of(kind), bits / 8);
            format!("{value} = ({kind})get_number(from, {octets}), from += {octets};")
        }
        Type::Array(count) => format!("memcpy({value}, from, {count}), from += {count};"),
        Type::Struct(name) => format!("from = get_{name}(&{value}, from);"),
        _ => panic!("calls.txt: in no struct yet"),
    }
}

/// A statement that takes an argument of this type from the source.
fn take(table: &Table, kind: &Type, value: &str) -> String {
    match kind {
        Type::Bool => format!("{value} = source->flag(source);"),
        Type::Number(..) | Type::Size => {
            let (octets, kind) = (table.octets(kind), type_of(kind));
            format!("{value} = ({kind})source->number(source, {octets});")
        }
        Type::Struct(name) => {
            let octets = table.octets(kind);
            format!("get_{name}(&{value}, source->octets(source, {octets}));")
        }
        _ => panic!("calls.txt: no argument of its own"),
    }
}

/// A struct as octets, field behind field, and back; and whether two are the same.
fn octets_of(table: &Table, this: &Struct) -> String {
    let name = &this.name;
    let octets = table.octets(&Type::Struct(name.clone()));
    let puts = each(&this.fields, |field| {
        format!(
            "    to = {};\n",
            put(&field.kind, "to", &format!("from->{}", field.name))
        )
    });
    let gets = each(&this.fields, |field| {
        let get = get(&field.kind, &format!("to->{}", field.name));
        format!("    {get}\n")
    });
    let members = each(&this.fields, |field| {
        format!("{}; ", declared(&field.kind, &field.name))
    });
    format!(
        r#"
enum {{ {upper}_OCTETS = {octets} }};
_Static_assert(sizeof(struct tacit_{name}) == sizeof(struct {{ {members}}}), "{name} in calls.txt");

static inline uint8_t *put_{name}(uint8_t *to, const struct tacit_{name} *from)
{{
{puts}    return to;
}}

static inline const uint8_t *get_{name}(struct tacit_{name} *to, const uint8_t *from)
{{
{gets}    return from;
}}
"#,
        upper = name.to_uppercase()
    )
}

fn parameter(argument: &Field) -> String {
    let name = &argument.name;
    let constant = if argument.written { "" } else { "const " };
    match &argument.kind {
        Type::Octets => format!("{constant}uint8_t *{name}, size_t {name}_len"),
        Type::Sessions => format!("{constant}struct tacit_session *{name}, size_t {name}_len"),
        Type::One(of) => format!("{constant}struct tacit_{of} *{name}"),
        _ => declared(&argument.kind, name),
    }
}

fn parameters(call: &Call) -> String {
    match call.arguments.is_empty() {
        true => "void".to_string(),
        false => joined(&call.arguments, ", ", parameter),
    }
}

/// The names of a call's parameters.
fn passed(call: &Call) -> Vec<String> {
    let names = call
        .arguments
        .iter()
        .flat_map(|argument| match argument.kind {
            Type::Octets | Type::Sessions => {
                vec![argument.name.clone(), format!("{}_len", argument.name)]
            }
            _ => vec![argument.name.clone()],
        });
    names.collect()
}

fn pointer(table: &Table, call: &Call) -> String {
    let answer = type_of(&table.answer(call));
    format!("    {answer} (*{})({});\n", call.name, parameters(call))
}

fn signature(table: &Table, call: &Call) -> String {
    let (name, answer) = (&call.name, type_of(&table.answer(call)));
    let (parameters, passed) = (parameters(call), passed(call).join(", "));
    format!(
        "#define SIGNATURE_{name}(word) {answer} word##_{name}({parameters})\n\
         #define PASSED_{name} {passed}\n"
    )
}

fn does_nothing(table: &Table, call: &Call) -> String {
    let answer = type_of(&table.answer(call));
    let unused = each(passed(call), |name| format!("(void){name}; "));
    format!(
        " \\\n    static SIGNATURE_{}(word) {{ {unused}return ({answer}){{0}}; }}",
        call.name
    )
}

fn take_call(table: &Table, call: &Call) -> String {
    let takes = each(&call.arguments, |argument| match argument.kind.is_lent() {
        true => {
            let buffer = argument.name.to_uppercase();
            format!("        given->lent[{buffer}] = source->buffer(source, {buffer});\n")
        }
        false => format!(
            "        {}\n",
            take(table, &argument.kind, &format!("given->{}", argument.name))
        ),
    });
    format!(
        "    case {}:\n{takes}        break;\n",
        call.name.to_uppercase()
    )
}

fn show_call(table: &Table, call: &Call) -> String {
    let shows = each(&call.arguments, |argument| {
        let name = &argument.name;
        if argument.kind.is_lent() {
            let lent = format!("given->lent[{}]", name.to_uppercase());
            return format!("        show(\"{name}\", {lent}.start, {lent}.length);\n");
        }
        let put = put(&argument.kind, "octets", &format!("given->{name}"));
        let length = table.octets(&argument.kind);
        format!("        {put};\n        show(\"{name}\", octets, {length});\n")
    });
    format!(
        "    case {}:\n{shows}        break;\n",
        call.name.to_uppercase()
    )
}

fn make_call(table: &Table, call: &Call) -> String {
    let passed = joined(&call.arguments, ", ", |argument| {
        let upper = argument.name.to_uppercase();
        match argument.kind {
            Type::Octets => format!("at[{upper}], given->lent[{upper}].length"),
            Type::Sessions => format!("at[{upper}], given->lent[{upper}].length / SESSION_OCTETS"),
            Type::One(_) => format!("at[{upper}]"),
            _ => format!("given->{}", argument.name),
        }
    });
    let answer = table.answer(call);
    let put = put(&answer, "said", "answer");
    format!(
        "    case {}: {{\n        {} = calls->{}({passed});\n        {put};\n        break;\n    }}\n",
        call.name.to_uppercase(),
        declared(&answer, "answer"),
        call.name
    )
}
