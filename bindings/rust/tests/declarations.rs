//! The declarations of this crate, and those of the library, are those of the header: their names, their
//! types, their order.

use std::collections::BTreeMap;
use std::fs;
use std::path::Path;

/// The fields of a struct or the arguments of a call, by name and type, and the answer's type.
type Declared = BTreeMap<String, Vec<(String, String)>>;

fn text_of(file: &str) -> String {
    let path = Path::new(env!("CARGO_MANIFEST_DIR")).join(file);
    fs::read_to_string(&path).unwrap_or_else(|error| panic!("{}: {error}", path.display()))
}

/// The header without comments and lines of the preprocessor, each run of spaces being one.
fn header() -> String {
    let mut text = text_of("../c/mysql_session.h").replace("\\\n", " ");
    while let Some(start) = text.find("/*") {
        let end = start + text[start..].find("*/").expect("a comment ends");
        text.replace_range(start..end + 2, " ");
    }
    let lines = text.lines().filter(|line| !line.starts_with('#'));
    lines
        .flat_map(str::split_whitespace)
        .collect::<Vec<_>>()
        .join(" ")
}

/// The library's prefix and its words, as a Rust type is named.
fn type_name(name: &str) -> String {
    match name.strip_prefix("mysql_session_") {
        Some("result") => "ReplyResult".to_string(),
        Some(name) => name
            .split('_')
            .map(|word| word[..1].to_uppercase() + &word[1..])
            .collect(),
        None => panic!("{name} is no type of the library"),
    }
}

/// A type of C in Rust's words.
fn rust_type(words: &str) -> String {
    let base = words.trim_end_matches(['*', ' ']);
    let stars = words.matches('*').count();
    let (constant, base) = match base.strip_prefix("const ") {
        Some(base) => (true, base),
        None => (false, base),
    };
    let mut found = match base {
        "uint8_t" => "u8".to_string(),
        "uint16_t" => "u16".to_string(),
        "uint32_t" => "u32".to_string(),
        "uint64_t" => "u64".to_string(),
        "int64_t" => "i64".to_string(),
        "size_t" => "usize".to_string(),
        "bool" => "bool".to_string(),
        "void" => "c_void".to_string(),
        name => type_name(name),
    };
    for star in 0..stars {
        let pointer = if constant && star == 0 {
            "*const"
        } else {
            "*mut"
        };
        found = format!("{pointer} {found}");
    }
    found
}

/// A field or an argument of C, `type` being a word of Rust's own.
fn rust_field(words: &str) -> (String, String) {
    let words = words.trim();
    let split = words
        .rfind([' ', '*'])
        .expect("a name stands behind a type")
        + 1;
    let (kind, name) = words.split_at(split);
    let (name, kind) = match name.split_once('[') {
        Some((name, count)) => (
            name,
            format!(
                "[{}; {}]",
                rust_type(kind.trim()),
                count.trim_end_matches(']')
            ),
        ),
        None => (name, rust_type(kind.trim())),
    };
    let name = if name == "type" { "kind" } else { name };
    (name.to_string(), kind)
}

/// Pointers to bytes with their lengths behind them, as one field.
fn with_texts(fields: Vec<(String, String)>) -> Vec<(String, String)> {
    let mut folded: Vec<(String, String)> = Vec::new();
    for (name, kind) in fields {
        match folded.last_mut() {
            Some(last) if last.1 == "*const u8" => {
                assert!(
                    name.ends_with("len") && kind == "usize",
                    "{name} is behind {}",
                    last.0
                );
                last.1 = "Text".to_string();
            }
            _ => folded.push((name, kind)),
        }
    }
    folded
}

/// The structs of the header.
fn header_structs() -> Declared {
    let text = header();
    let parts = text.split("typedef struct ").skip(1);
    parts
        .map(|part| {
            let (name, rest) = part.split_once(" { ").expect("a struct has fields");
            let (fields, _) = rest.split_once('}').expect("a struct ends");
            let fields = fields
                .trim()
                .trim_end_matches(';')
                .split(';')
                .map(rust_field)
                .collect();
            (type_name(name), with_texts(fields))
        })
        .collect()
}

/// The calls of the header; the answer is the last field of each, without a name.
fn header_calls() -> Declared {
    let text = header();
    let calls = text
        .split(';')
        .filter_map(|part| part.trim().strip_suffix(')'));
    calls
        .filter_map(|call| {
            let (front, arguments) = call.split_once('(')?;
            let (answer, name) = front.rsplit_once(' ')?;
            let answer = answer.rsplit(' ').next().expect("a split has a part");
            let mut fields: Vec<_> = match arguments {
                "void" => Vec::new(),
                _ => arguments.split(',').map(rust_field).collect(),
            };
            fields.push((String::new(), answer.replace("uint32_t", "u32")));
            Some((name.to_string(), fields))
        })
        .collect()
}

/// Fields as Rust declares them, between commas.
fn fields_of(text: &str) -> Vec<(String, String)> {
    let field = |field: &str| {
        let (name, kind) = field.split_once(": ").expect("a field has a type");
        (
            name.trim().trim_start_matches("pub ").to_string(),
            kind.trim().to_string(),
        )
    };
    text.split(',')
        .filter(|part| !part.trim().is_empty())
        .map(field)
        .collect()
}

/// The structs of this crate, but the one that is a pointer and a length.
fn raw_structs(text: &str) -> Declared {
    let parts = text.split("pub struct ").skip(1);
    parts
        .map(|part| {
            let (name, rest) = part.split_once(" {\n").expect("a struct has fields");
            let (fields, _) = rest.split_once("\n}").expect("a struct ends");
            (name.to_string(), fields_of(fields))
        })
        .filter(|(name, _)| name != "Text")
        .collect()
}

/// The calls that this crate declares.
fn raw_calls(text: &str) -> Declared {
    let (_, text) = text
        .split_once("extern \"C\" {")
        .expect("there are declarations");
    let parts = text.split("pub fn ").skip(1);
    parts
        .map(|part| {
            let (name, rest) = part.split_once('(').expect("a call has arguments");
            let (arguments, rest) = rest.split_once(')').expect("the arguments end");
            let (answer, _) = rest.split_once(';').expect("a declaration ends");
            let answer = answer.trim().strip_prefix("-> ").unwrap_or("void");
            let mut fields = fields_of(arguments);
            fields.push((String::new(), answer.to_string()));
            (name.to_string(), fields)
        })
        .collect()
}

#[test]
fn structs_are_those_of_the_header() {
    let (wanted, found) = (header_structs(), raw_structs(&text_of("src/raw.rs")));
    assert!(wanted.len() >= 11, "{} structs", wanted.len());
    assert_eq!(
        wanted.keys().collect::<Vec<_>>(),
        found.keys().collect::<Vec<_>>()
    );
    for (name, fields) in wanted {
        assert_eq!(found[&name], fields, "{name}");
    }
}

#[test]
fn calls_are_those_of_the_header() {
    let (wanted, found) = (header_calls(), raw_calls(&text_of("src/raw.rs")));
    assert!(wanted.len() >= 60, "{} calls", wanted.len());
    assert_eq!(
        wanted.keys().collect::<Vec<_>>(),
        found.keys().collect::<Vec<_>>()
    );
    for (name, fields) in wanted {
        assert_eq!(found[&name], fields, "{name}");
    }
}

/// The files of the crates whose names begin so, which make the library, one behind the other.
fn library_sources(crates: &str) -> String {
    let folder = Path::new(env!("CARGO_MANIFEST_DIR")).join("../../crates");
    let mut files = Vec::new();
    for entry in fs::read_dir(folder).expect("there are crates") {
        let path = entry.expect("a crate").path();
        let name = path
            .file_name()
            .map(|name| name.to_string_lossy().into_owned());
        if name.is_some_and(|name| name.starts_with(crates)) {
            files.extend(fs::read_dir(path.join("src")).expect("a crate has sources"));
        }
    }
    let text = |file: std::io::Result<fs::DirEntry>| {
        fs::read_to_string(file.expect("a file").path()).unwrap_or_default()
    };
    files.into_iter().map(text).collect()
}

/// How C passes a type: a number's own name, or a pointer; a slice is a pointer and a length.
fn shapes(kind: &str) -> Vec<String> {
    let words = match kind {
        "Global" => vec![],
        _ if kind.starts_with("&[") || kind.starts_with("&mut [") => vec!["*", "usize"],
        _ if kind.starts_with(['&', '*']) => vec!["*"],
        _ => vec![kind],
    };
    words.into_iter().map(str::to_string).collect()
}

/// What the library for Rattle calls a struct of the header.
fn library_name(name: &str) -> String {
    match name {
        "Connection" => "Handle".to_string(),
        "Handle" | "Parameter" => name.to_string(),
        "Known" => "ShownSession".to_string(),
        "ReplyResult" => "ShownResult".to_string(),
        _ => format!("Shown{name}"),
    }
}

/// The fields of each struct that the library hands over to C, but what takes no room.
fn library_structs() -> Declared {
    let text = library_sources("mysql_c_");
    let parts = text.split("#[repr(C)]").skip(1);
    parts
        .map(|part| {
            let (_, rest) = part.split_once("pub struct ").expect("a struct is there");
            let (name, rest) = rest.split_once(" {\n").expect("a struct has fields");
            let (fields, _) = rest.split_once("\n}").expect("a struct ends");
            let lines = fields.lines().filter(|line| {
                let line = line.trim();
                !line.starts_with("///") && !line.contains("ghost ") && line != "alloc: Global,"
            });
            let fields = fields_of(&lines.collect::<String>());
            (name.to_string(), with_texts(fields))
        })
        .collect()
}

#[test]
fn structs_are_those_of_the_library() {
    let (wanted, found) = (header_structs(), library_structs());
    for (name, fields) in wanted {
        let told = |fields: &[(String, String)]| -> Vec<(String, String)> {
            let name = |name: &str| name.replace("_value", "").replace("column_type", "kind");
            let kind = |kind: &str| match kind {
                _ if kind.starts_with("*mut") => "*".to_string(),
                "ShownText" => "Text".to_string(),
                _ => kind.to_string(),
            };
            let fields = fields.iter();
            fields
                .map(|field| (name(&field.0), kind(&field.1)))
                .collect()
        };
        let library = &found[&library_name(&name)];
        assert_eq!(told(library), told(&fields), "{name}");
    }
}

#[test]
fn calls_are_those_of_the_library() {
    let text = library_sources("mysql_c");
    let mut found = BTreeMap::new();
    for part in text.split("pub extern \"C\" fn ").skip(1) {
        let (name, rest) = part.split_once('(').expect("a call has arguments");
        let (arguments, rest) = rest.split_once(')').expect("the arguments end");
        let kinds = fields_of(arguments).into_iter();
        let mut fields: Vec<_> = kinds.flat_map(|(_, kind)| shapes(&kind)).collect();
        let answer = rest.trim_start().strip_prefix("-> ");
        let answer = answer.and_then(|rest| rest.split_whitespace().next());
        fields.push(answer.unwrap_or("void").to_string());
        found.insert(name.to_string(), fields);
    }
    let header = header_calls().into_iter();
    let wanted: BTreeMap<_, _> = header
        .map(|(name, fields)| {
            let kinds = fields.iter();
            (name, kinds.flat_map(|(_, kind)| shapes(kind)).collect())
        })
        .collect();
    assert!(wanted.len() >= 60, "{} calls", wanted.len());
    assert_eq!(wanted, found);
}

/// The names of an enum of the header without the prefix, and their numbers.
fn header_numbers(name: &str) -> BTreeMap<String, String> {
    let text = header();
    let (_, rest) = text
        .split_once(&format!("enum {name} {{"))
        .expect("the header has the enum");
    let (names, _) = rest.split_once('}').expect("the enum ends");
    names
        .split(',')
        .map(|name| {
            name.trim()
                .split_once(" = ")
                .expect("each name has a number")
        })
        .map(|(name, number)| (name.replace("MYSQL_SESSION_", ""), number.to_string()))
        .collect()
}

#[test]
fn flags_and_the_interface_are_those_of_the_header() {
    let mut wanted = header_numbers("mysql_session_flag");
    let text = text_of("../c/mysql_session.h");
    let (_, rest) = text
        .split_once("#define MYSQL_SESSION_ABI ")
        .expect("the interface has a number");
    let number = rest.split_whitespace().next().expect("a number");
    wanted.insert("ABI".to_string(), number.to_string());
    let text = text_of("src/raw.rs");
    let found: BTreeMap<String, String> = text
        .lines()
        .filter_map(|line| line.strip_prefix("pub const ")?.strip_suffix(';'))
        .filter_map(|constant| constant.split_once(": u32 = "))
        .map(|(name, number)| (name.to_string(), number.to_string()))
        .collect();
    assert_eq!(wanted.len(), 5);
    assert_eq!(wanted, found);
}

/// The constants of a file of this crate, and their numbers as the header writes them.
fn constants(file: &str, kind: &str) -> BTreeMap<String, u64> {
    let number = |text: &str| match text.split_once(" << ") {
        Some((one, bits)) => {
            one.parse::<u64>().expect("a number") << bits.parse::<u64>().expect("a number")
        }
        None => text.parse().expect("a number"),
    };
    let text = text_of(file);
    text.lines()
        .filter_map(|line| line.strip_prefix("pub const ")?.strip_suffix(';'))
        .filter_map(|constant| constant.split_once(&format!(": {kind} = ")))
        .map(|(name, text)| (name.to_string(), number(text)))
        .collect()
}

#[test]
fn numbers_of_the_protocol_are_those_of_the_header() {
    let numbers = |name: &str, prefix: &str| -> BTreeMap<String, u64> {
        let found = header_numbers(name);
        let number = |text: &str| match text.strip_prefix("0x") {
            Some(digits) => u64::from_str_radix(digits, 16).expect("a number"),
            None => text.parse().expect("a number"),
        };
        found
            .iter()
            .map(|(name, text)| (name.replacen(prefix, "", 1), number(text)))
            .collect()
    };
    let mut wanted = numbers("mysql_session_capability", "");
    wanted.extend(numbers("mysql_session_mariadb_capability", ""));
    // A name of C has no number above 2^31 - 1.
    wanted.insert("CLIENT_REMEMBER_OPTIONS".to_string(), 1 << 31);
    assert_eq!(wanted.len(), 38);
    assert_eq!(wanted, constants("src/capability.rs", "u32"));
    let enums = [
        ("column_type", "TYPE_", "u8", 34),
        ("status", "", "u16", 15),
        ("column_flag", "", "u16", 16),
        ("cursor", "", "u32", 4),
        ("collation", "COLLATION_", "u16", 9),
    ];
    for (name, prefix, kind, count) in enums {
        let wanted = numbers(&format!("mysql_session_{name}"), prefix);
        assert_eq!(wanted.len(), count, "{name}");
        assert_eq!(wanted, constants(&format!("src/{name}.rs"), kind), "{name}");
    }
    let wanted = numbers("mysql_session_state_type", "");
    assert_eq!(wanted, constants("src/session_state.rs", "u8"));
}

#[test]
fn version_is_that_of_the_header() {
    let text = text_of("../c/mysql_session.h");
    let defined = |name: &str| {
        let (_, rest) = text
            .split_once(&format!("#define MYSQL_SESSION_{name} "))
            .expect("the header has the name");
        rest.split_whitespace().next().expect("a value").to_string()
    };
    let parts = ["MAJOR", "MINOR", "PATCH"].map(|part| defined(&format!("VERSION_{part}")));
    assert_eq!(
        defined("VERSION"),
        format!("\"{}\"", mysql_session::VERSION)
    );
    assert_eq!(parts.join("."), mysql_session::VERSION);
}

#[test]
fn codes_are_those_of_the_header() {
    let mut wanted = header_numbers("mysql_session_code");
    wanted.remove("OK");
    let text = text_of("src/codes.rs");
    let found: BTreeMap<String, String> = text
        .lines()
        .filter_map(|line| line.trim().strip_prefix("pub const "))
        .map(|line| {
            line.split_once(": Code = Code(")
                .expect("each constant is a code")
        })
        .map(|(name, number)| (name.to_string(), number.trim_end_matches(");").to_string()))
        .collect();
    assert!(wanted.len() >= 60, "{} codes", wanted.len());
    assert_eq!(wanted, found);
}
