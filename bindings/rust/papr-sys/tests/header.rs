//! The declarations of this crate against the headers, as the C compiler reads them: sizes and
//! places of fields, numbers, and the types of functions.

use papr_sys::*;
use std::collections::BTreeSet;
use std::fmt::Write;
use std::mem::{offset_of, size_of};
use std::path::Path;
use std::process::Command;

const HEADERS: [&str; 3] = ["papr.h", "papr_shared.h", "papr_bytes.h"];
const FUNCTIONS: [&str; 3] = [
    include_str!("../src/functions.rs"),
    include_str!("../src/shared_functions.rs"),
    include_str!("../src/bytes_functions.rs"),
];
const CODES: [&str; 3] = [
    include_str!("../src/codes.rs"),
    include_str!("../src/shared.rs"),
    include_str!("../src/bytes.rs"),
];
/// What the headers define, and neither a library nor this crate has.
const INLINE: [&str; 2] = ["papr_bytes", "papr_overlap"];

/// The size of a field of this struct.
fn size_of_field<Struct, Field>(_: fn(&Struct) -> &Field) -> usize {
    size_of::<Field>()
}

/// For each struct with all its fields, what the compiler of C has to find.
macro_rules! assertions {
    ($($name:ident { $($field:ident),* })*) => {{
        let mut told = String::new();
        $(
            // All fields are named: else this pattern isn't one.
            let _: fn($name) = |$name { $($field: _),* }| ();
            let name = stringify!($name);
            assert_in_c(&mut told, &format!("sizeof(struct {name})"), size_of::<$name>());
            $(
                let field = stringify!($field);
                let place = offset_of!($name, $field);
                assert_in_c(&mut told, &format!("offsetof(struct {name}, {field})"), place);
                let size = size_of_field(|it: &$name| &it.$field);
                assert_in_c(&mut told, &format!("sizeof(((struct {name} *)0)->{field})"), size);
            )*
        )*
        (told, BTreeSet::from([$(stringify!($name).to_string()),*]))
    }};
}

/// An assertion for the compiler of C.
fn assert_in_c(told: &mut String, what: &str, value: impl std::fmt::Display) {
    writeln!(
        told,
        "_Static_assert({what} == {value}, \"{what} is another\");"
    )
    .unwrap();
}

/// The assertions of all structs, and the structs' names.
fn structs() -> (String, BTreeSet<String>) {
    assertions! {
        papr_entry { dword0, dword1, stamp, valid, referenced, changed, marked }
        papr_taken { rc, count, next }
        papr_receipt { dword0, dword1, entry, stamp, bits, answer }
        papr_reply { rc, words, receipts, stale }
        papr_grant { logical, machine, length, is_io }
        papr_grants { grants, count }
        papr_making { index, refusal }
        papr_range { machine, granted, is_io }
        papr_access { ea, vsid, amr, iamr, shift, want, one_tb, key, no_execute }
        papr_walk {
            logical, dword0, dword1, entry, outcome, receipts, base_shift, actual_shift, rights, causes
        }
        papr_page {
            vsid, page, real, base_shift, actual_shift, key, protection, wimg, one_tb, no_execute,
            bolted, secondary, referenced, changed, why
        }
        papr_rehash { rc, first, second, target, stale }
        papr_resize { ready, order, pending }
        papr_slot { esid, vsid, shift, valid, one_tb, ks, kp, no_execute }
        papr_slb { slots }
        papr_device { address, outcome, receipts }
        papr_transfer { index, refusal }
        papr_pass { at, live }
        papr_busy { looked, found, entry, done, hold }
        papr_bytes_end { status, length }
    }
}

/// The folder of the headers.
fn include() -> std::path::PathBuf {
    Path::new(env!("CARGO_MANIFEST_DIR")).join("../../../include")
}

/// The headers without their comments.
fn headers() -> String {
    let mut text = String::new();
    for name in HEADERS {
        let read = std::fs::read_to_string(include().join(name)).unwrap();
        for (at, part) in read.split("/*").enumerate() {
            text += if at == 0 {
                part
            } else {
                part.split_once("*/").unwrap().1
            };
        }
    }
    text
}

/// The names in a text that begin so, each with what follows it.
fn names<'a>(text: &'a str, begin: &'a str) -> impl Iterator<Item = (&'a str, &'a str)> {
    text.match_indices(begin).filter_map(move |(at, _)| {
        let is_inside = |c: char| c.is_ascii_alphanumeric() || c == '_';
        let is_begin = !text[..at].ends_with(is_inside);
        let end = text[at..]
            .find(|c| !is_inside(c))
            .map_or(text.len(), |length| at + length);
        is_begin.then(|| (&text[at..end], &text[end..]))
    })
}

/// The compiler of C finds nothing wrong with a text behind the headers.
fn assert_compiles(name: &str, text: &str) {
    let source = Path::new(env!("CARGO_TARGET_TMPDIR")).join(name);
    let all = HEADERS
        .map(|header| format!("#include <{header}>\n"))
        .concat()
        + text;
    std::fs::write(&source, all).unwrap();
    let compiler = std::env::var("CC").unwrap_or_else(|_| "cc".to_string());
    let mut command = Command::new(compiler);
    command.args(["-std=c11", "-fsyntax-only", "-I"]);
    let told = command
        .arg(include())
        .arg(&source)
        .output()
        .expect("a compiler of C");
    assert!(
        told.status.success(),
        "{}",
        String::from_utf8_lossy(&told.stderr)
    );
}

/// A type of this crate in C.
fn in_c(kind: &str) -> String {
    match kind {
        "u8" | "u32" | "u64" => format!("uint{}_t", &kind[1..]),
        "i64" => "int64_t".to_string(),
        "usize" => "size_t".to_string(),
        "bool" => kind.to_string(),
        _ => match (kind.strip_prefix("*const "), kind.strip_prefix("*mut ")) {
            (Some(of), _) => format!("const {} *", in_c(of)),
            (_, Some(of)) => format!("{} *", in_c(of)),
            _ => format!("struct {kind}"),
        },
    }
}

/// A function of this crate.
struct Function {
    name: String,
    in_c: String,
}

/// The functions of this crate, as C would declare them.
fn functions() -> Vec<Function> {
    let declared = FUNCTIONS
        .iter()
        .flat_map(|text| text.split("pub fn ").skip(1));
    let function = |text: &str| {
        let (name, rest) = text.split_once('(').unwrap();
        let (given, rest) = rest.split_once(')').unwrap();
        let result = rest
            .split_once(';')
            .unwrap()
            .0
            .strip_prefix(" -> ")
            .map_or("void".into(), in_c);
        let types = given.split(',').filter_map(|it| it.split_once(':'));
        let parameters: Vec<_> = types.map(|(_, kind)| in_c(kind.trim())).collect();
        let listed = if parameters.is_empty() {
            "void".into()
        } else {
            parameters.join(", ")
        };
        Function {
            name: name.to_string(),
            in_c: format!("{result} {name}({listed});"),
        }
    };
    declared.map(function).collect()
}

/// The constants of this crate, each with its value as it is written.
fn constants() -> Vec<(String, String)> {
    let declared = CODES
        .iter()
        .flat_map(|text| text.split("pub const ").skip(1));
    let constant = |text: &str| {
        let (name, rest) = text.split_once(':').unwrap();
        let value = rest.split_once('=').unwrap().1.split_once(';').unwrap().0;
        (name.to_string(), value.replace('_', "").trim().to_string())
    };
    declared
        .map(constant)
        .filter(|(name, _)| name != "PAPR_VERSION")
        .collect()
}

#[test]
fn structs_are_laid_out_as_in_c() {
    let (told, listed) = structs();
    assert_compiles("structs.c", &format!("#include <stddef.h>\n{told}"));
    let text = headers();
    let is_defined = |(_, rest): &(&str, &str)| rest.trim_start().starts_with('{');
    let defined = names(&text, "papr_")
        .filter(is_defined)
        .map(|(name, _)| name.to_string());
    let enums: BTreeSet<String> = text.split("enum ").skip(1).map(word).collect();
    assert_eq!(
        defined
            .filter(|name| !enums.contains(name))
            .collect::<BTreeSet<_>>(),
        listed
    );
}

/// The first word of a text.
fn word(text: &str) -> String {
    text.split_whitespace()
        .next()
        .unwrap_or_default()
        .to_string()
}

#[test]
fn functions_have_the_types_of_the_headers() {
    let listed = functions();
    let mut told = String::from("const void *used[] = {\n");
    for function in &listed {
        writeln!(told, "    (const void *)&{},", function.name).unwrap();
    }
    told += "};\n";
    for function in &listed {
        writeln!(told, "{}", function.in_c).unwrap();
    }
    assert_compiles("functions.c", &told);
    let text = headers();
    let is_called = |(_, rest): &(&str, &str)| rest.starts_with('(');
    let declared = names(&text, "papr_")
        .filter(is_called)
        .map(|(name, _)| name);
    let expected: BTreeSet<&str> = declared.filter(|name| !INLINE.contains(name)).collect();
    assert_eq!(
        listed
            .iter()
            .map(|it| it.name.as_str())
            .collect::<BTreeSet<_>>(),
        expected
    );
}

#[test]
fn numbers_are_those_of_the_headers() {
    let listed = constants();
    let mut told = String::new();
    for (name, value) in &listed {
        assert_in_c(&mut told, name, value);
    }
    assert_in_c(&mut told, "PAPR_VERSION", PAPR_VERSION);
    assert_compiles("numbers.c", &told);
    let text = headers();
    let is_number = |(_, rest): &(&str, &str)| {
        let rest = rest.trim_start();
        let value = rest.strip_prefix('=').unwrap_or(rest).trim_start();
        value.starts_with("UINT64_C") || value.starts_with(|c: char| c == '-' || c.is_ascii_digit())
    };
    let defined = names(&text, "PAPR_")
        .filter(is_number)
        .map(|(name, _)| name.to_string());
    let listed: BTreeSet<String> = listed.into_iter().map(|(name, _)| name).collect();
    assert_eq!(defined.collect::<BTreeSet<_>>(), listed);
}
