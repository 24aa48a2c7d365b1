//! The declarations of `src/ffi.rs` and of include/viaductle.h beside the Rattle source, as text: the same functions, names and types of
//! parameters and fields in the same order, the same constants, and each refusal's number with a name.

use std::collections::BTreeMap;
use std::{fs, path::Path};
use viaductle::{LenSource, Place, Refusal, SdConfigurationStringError};

/// Names and types of parameters or fields.
type Items = Vec<(String, String)>;
/// Structs by their names.
type Structs = BTreeMap<String, Items>;
/// What each function takes and gives back, item by item.
type Functions = BTreeMap<String, Vec<String>>;

/// The text between the first `open` and the `close` that matches it, and what follows.
fn between(text: &str, open: char, close: char) -> (&str, &str) {
    let start = text.find(open).unwrap() + 1;
    let mut depth = 1;
    for (at, c) in text[start..].char_indices() {
        depth += i32::from(c == open) - i32::from(c == close);
        if depth == 0 {
            return (&text[start..start + at], &text[start + at + 1..]);
        }
    }
    panic!("no {close} in {text}")
}

/// The items of a list of `name: type`. However many values an answer has, they are called the same here.
fn items(list: &str) -> Items {
    let lines = list.lines().map(|line| line.split("//").next().unwrap());
    let list = lines.collect::<Vec<_>>().join(" ").replace("pub ", "");
    let items = list.split(',').filter(|item| !item.trim().is_empty());
    let pair = |item: &str| {
        let (name, kind) = item.split_once(':').unwrap();
        let kind = kind.trim().replace("; PLACES]", "; VALUES]");
        (name.trim().to_string(), kind)
    };
    items.map(pair).collect()
}

/// Parameters as C has them: a slice is a pointer under its name and a length, whatever that is called.
fn parameters(items: Items, structs: &Structs) -> Vec<String> {
    let mut all = Vec::new();
    let mut after_pointer = false;
    for (name, kind) in items {
        let slice = kind.strip_prefix("&[").map(|element| ("*const", element));
        let slice = slice.or(kind.strip_prefix("&mut [").map(|element| ("*mut", element)));
        match slice {
            Some((pointer, element)) => {
                let element = element.trim_end_matches(']');
                all.extend([format!("{name}: {pointer} {element}"), "usize".to_string()]);
            }
            None if after_pointer => all.push(kind.clone()),
            None => all.extend(fields(&name, &kind, structs)),
        }
        after_pointer = kind.starts_with('*');
    }
    all
}

/// A struct as its fields, those of a struct within it too.
fn fields(name: &str, kind: &str, structs: &Structs) -> Vec<String> {
    match structs.get(kind) {
        Some(items) => {
            let inner = |(name, kind): &(String, String)| fields(name, kind, structs);
            items.iter().flat_map(inner).collect()
        }
        None => vec![format!("{name}: {kind}")],
    }
}

/// The functions named `viaductle_..` after each `marker` in a source.
fn functions(source: &str, marker: &str) -> Functions {
    let mut structs = Structs::new();
    for part in source.split("#[repr(C)]").skip(1) {
        let (_, part) = part.split_once("struct ").unwrap();
        let name = part.split([' ', '{']).next().unwrap();
        structs.insert(name.to_string(), items(between(part, '{', '}').0));
    }
    let mut found = Functions::new();
    for part in source.split(marker).skip(1) {
        let name = part.split('(').next().unwrap();
        if !name.starts_with("viaductle_") {
            continue;
        }
        let (list, rest) = between(part, '(', ')');
        let result = rest.trim_start().strip_prefix("->").unwrap().trim_start();
        let result = result.split([' ', ';', '\n', '{']).next().unwrap();
        let mut all = parameters(items(list), &structs);
        all.extend(fields("result", result, &structs));
        assert!(
            found.insert(name.to_string(), all).is_none(),
            "{name} twice"
        );
    }
    found
}

// ---- C

/// A header without its comments.
fn without_comments(header: &str) -> String {
    let mut parts = header.split("/*");
    let front = parts.next().unwrap().to_string();
    parts.fold(front, |text, part| text + part.split_once("*/").unwrap().1)
}

/// A type of C in Rust's words; the header's own structs have names of their own.
fn rust_type(kind: &str) -> String {
    let (constant, kind) = match kind.strip_prefix("const ") {
        Some(kind) => (true, kind),
        None => (false, kind),
    };
    let plain = match kind.trim_end_matches('*').trim() {
        "uint8_t" => "u8",
        "uint16_t" => "u16",
        "uint32_t" => "u32",
        "uint64_t" => "u64",
        "size_t" => "usize",
        other => other,
    };
    match (kind.ends_with('*'), constant) {
        (true, true) => format!("*const {plain}"),
        (true, false) => format!("*mut {plain}"),
        (false, _) => plain.to_string(),
    }
}

/// `type name`, `type *name` or `type name[VIADUCTLE_VALUES]`. Two names differ: C's `type` is `code`, and its `state` is `words`.
fn c_item(text: &str) -> (String, String) {
    let text = text.trim();
    let (text, array) = match text.strip_suffix("[VIADUCTLE_VALUES]") {
        Some(text) => (text, true),
        None => (text, false),
    };
    let at = text.rfind([' ', '*']).unwrap() + 1;
    let name = match &text[at..] {
        "type" => "code",
        "state" => "words",
        name => name,
    };
    let kind = rust_type(text[..at].trim());
    let kind = if array {
        format!("[{kind}; VALUES]")
    } else {
        kind
    };
    (name.to_string(), kind)
}

/// The functions that a header declares.
fn c_functions(header: &str) -> Functions {
    let text = without_comments(header);
    let mut structs = Structs::new();
    for part in text.split("typedef struct ").skip(1) {
        let (body, rest) = between(part, '{', '}');
        let name = rest.split(';').next().unwrap().trim();
        let mut items = Items::new();
        for line in body.split(';').filter(|line| !line.trim().is_empty()) {
            let (kind, names) = line.trim().split_once(' ').unwrap();
            items.extend(
                names
                    .split(',')
                    .map(|name| c_item(&format!("{kind} {name}"))),
            );
        }
        structs.insert(name.to_string(), items);
    }
    let mut found = Functions::new();
    for line in text.lines().filter(|line| line.starts_with("viaductle_")) {
        let (result, rest) = line.split_once(' ').unwrap();
        let name = rest.split('(').next().unwrap();
        let list = between(rest, '(', ')').0.split(',').map(c_item).collect();
        let mut all = parameters(list, &structs);
        all.extend(fields("result", result, &structs));
        assert!(
            found.insert(name.to_string(), all).is_none(),
            "{name} twice"
        );
    }
    found
}

// ---- constants

fn number(text: &str) -> u64 {
    if text.trim() == "u32::MAX" {
        return u32::MAX.into();
    }
    let text = text.trim().trim_end_matches('u').replace('_', "");
    match text.strip_prefix("0x") {
        Some(digits) => u64::from_str_radix(digits, 16).unwrap(),
        None => text.parse().unwrap_or_else(|_| panic!("{text}")),
    }
}

/// What a constant of Rattle or Rust is said to be.
fn said<'a>(source: &'a str, name: &str) -> &'a str {
    let (_, rest) = source
        .split_once(&format!("const {name}: "))
        .unwrap_or_else(|| panic!("no {name}"));
    between(rest, '=', ';').0.trim()
}

/// A constant of Rattle or Rust that is a number.
fn constant(source: &str, name: &str) -> u64 {
    number(said(source, name))
}

/// What a header defines.
fn defined<'a>(header: &'a str, name: &str) -> &'a str {
    let (_, rest) = header
        .split_once(&format!("#define VIADUCTLE_{name} "))
        .unwrap_or_else(|| panic!("no VIADUCTLE_{name}"));
    rest.split(['\n', '/']).next().unwrap().trim()
}

// ---- the tests

/// A file or all files of a folder of the repository; `None` where the crate stands alone.
fn repository(path: &str) -> Option<String> {
    let path = Path::new(env!("CARGO_MANIFEST_DIR"))
        .join("../..")
        .join(path);
    if path.is_file() {
        return fs::read_to_string(path).ok();
    }
    let Ok(folder) = fs::read_dir(path) else {
        println!("not in the repository: nothing to compare with");
        return None;
    };
    let mut files: Vec<_> = folder.map(|file| file.unwrap().path()).collect();
    files.sort();
    Some(
        files
            .iter()
            .map(|file| fs::read_to_string(file).unwrap())
            .collect(),
    )
}

fn ffi() -> String {
    fs::read_to_string(Path::new(env!("CARGO_MANIFEST_DIR")).join("src/ffi.rs")).unwrap()
}

#[test]
fn declared_as_in_the_source() {
    // hub has the structs, and hub_c exports the functions that take and give them
    let (Some(structs), Some(exports)) =
        (repository("crates/hub/src"), repository("crates/hub_c/src"))
    else {
        return;
    };
    let exported = functions(&(structs + &exports), "pub extern \"C\" fn ");
    assert_eq!(exported.len(), 19, "{exported:#?}");
    assert_eq!(functions(&ffi(), "pub fn "), exported);
}

#[test]
fn the_header_declares_the_same() {
    let Some(header) = repository("include/viaductle.h") else {
        return;
    };
    assert_eq!(c_functions(&header), functions(&ffi(), "pub fn "));
}

#[test]
fn the_constants_are_the_same() {
    let Some(header) = repository("include/viaductle.h") else {
        return;
    };
    let ffi = ffi();
    for (here, in_c, of, there) in [
        ("VALUES", "VALUES", "refusal", "PLACES"),
        ("DISCARD", "DISCARD", "hub", "DISCARD"),
        ("STRICT", "STRICT", "hub", "STRICT"),
        ("MAX_SD_OPTIONS", "SLOTS", "sd_index", "SLOTS"),
        ("MAX_LIMIT", "MAX_LIMIT", "tp_rules", "MAX_LIMIT"),
        ("MAX_RANGES", "MAX_RANGES", "tp_range", "MAX_RANGES"),
        ("LAST_NUMBER", "LAST_NUMBER", "tp_stream", "LAST_NUMBER"),
        ("FRONT_WORDS", "FRONT_WORDS", "tp_words", "FRONT_WORDS"),
        ("RANGE_WORDS", "RANGE_WORDS", "tp_words", "RANGE_WORDS"),
    ] {
        let value = constant(&ffi, here);
        assert_eq!(value, number(defined(&header, in_c)), "{in_c}");
        let source = repository(&format!("crates/{of}/src")).unwrap();
        assert_eq!(value, constant(&source, there), "{there}");
    }
    let words = said(&ffi, "WORDS");
    let source = repository("crates/tp_words/src").unwrap();
    assert_eq!(words, said(&source, "WORDS"));
    let named = ["FRONT_WORDS", "RANGE_WORDS", "MAX_RANGES"];
    let in_c = named.iter().fold(words.to_string(), |text, name| {
        text.replace(name, &format!("VIADUCTLE_{name}"))
    });
    assert_eq!(defined(&header, "WORDS"), format!("({in_c})"));

    let version = env!("CARGO_PKG_VERSION");
    assert_eq!(defined(&header, "VERSION"), format!("\"{version}\""));
    let parts =
        ["MAJOR", "MINOR", "PATCH"].map(|part| defined(&header, &format!("VERSION_{part}")));
    assert_eq!(parts.join("."), version);
}

/// Each number of the header's two lists is named once, and the numbers are those of the Rattle source, in its order.
#[test]
fn every_number_has_a_name() {
    let Some(header) = repository("include/viaductle.h") else {
        return;
    };
    let text = without_comments(&header);
    let listed = |list: &str| -> Vec<(String, u64)> {
        let (_, part) = text.split_once(&format!("enum {list} ")).unwrap();
        let lines = between(part, '{', '}').0.split(',');
        let pair = |line: &str| {
            let (name, value) = line.split_once('=').unwrap();
            (name.trim().to_string(), number(value))
        };
        lines.map(pair).collect()
    };
    for (list, function) in [
        ("viaductle_number", "viaductle_name"),
        ("viaductle_string_error", "viaductle_string_name"),
    ] {
        let (_, part) = text.split_once(&format!("*{function}(")).unwrap();
        let cases = between(part, '{', '}').0.split("case ").skip(1);
        let named: Vec<_> = cases.map(|case| case.split(':').next().unwrap()).collect();
        let names: Vec<_> = listed(list).into_iter().map(|(name, _)| name).collect();
        assert_eq!(named, names);
    }
    let source = repository("crates/refusal/src/values.rt").unwrap();
    let (_, table) = source
        .split_once("impl From<Refusal> for Numbers")
        .unwrap();
    let called = |part: &str| {
        let calls = part.split("Numbers::new(").skip(1);
        let first = |rest: &str| rest.trim_start().split(',').next()?.parse::<u64>().ok();
        calls.filter_map(first).collect::<Vec<_>>()
    };
    let mut numbers: Vec<u64> = listed("viaductle_number")
        .iter()
        .map(|pair| pair.1)
        .collect();
    assert_eq!(numbers.remove(0), 0);
    let mut said = called(table);
    said.insert(8, 9); // which a function of its own tells
    assert_eq!(said, numbers);
}

/// The header's `viaductle_place` looks for the place where it stands: at the last value.
#[test]
fn the_header_finds_the_place() {
    let Some(header) = repository("include/viaductle.h") else {
        return;
    };
    let text = without_comments(&header);
    let (_, part) = text.split_once("int viaductle_place(").unwrap();
    let mut found = BTreeMap::new();
    let mut names = Vec::new();
    for case in between(part, '{', '}').0.split("case VIADUCTLE_").skip(1) {
        names.push(case.split(':').next().unwrap());
        // Its six errors stand inside this one.
        names.retain(|name| *name != "CONFIGURATION_STRING");
        if let Some((_, last)) = case.split_once("last = ") {
            let last = number(last.split(';').next().unwrap());
            found.extend(names.drain(..).map(|name| (name, last)));
        }
    }

    let place = Place::Options(4);
    let length = Refusal::OptionLen {
        required_len: 1,
        len: 2,
        len_source: LenSource::Slice,
        place,
    };
    let unknown = Refusal::UnknownSdOptionType {
        option_type: 3,
        place,
    };
    let protocol = Refusal::TransportProtocolInvalid { protocol: 3, place };
    use SdConfigurationStringError::*;
    let string = |error| Refusal::ConfigurationString { error, place };
    let (item_offset, byte_offset, remaining) = (1, 2, 3);
    let too_long = ItemLengthExceedsRemaining {
        item_offset,
        item_length: 5,
        remaining,
    };
    let trailing = TrailingDataAfterTerminator {
        terminator_offset: 1,
    };
    let key_byte = InvalidKeyByte {
        item_offset,
        byte_offset,
        value: 0,
    };
    let spaces = KeyContainsOnlyWhitespace { item_offset };
    let told = [
        ("OPTION_LENGTH", length),
        ("OPTION_LENGTH_ZERO", Refusal::OptionLengthZero { place }),
        ("UNKNOWN_OPTION", unknown),
        ("WRONG_PROTOCOL", protocol),
        ("MISSING_TERMINATOR", string(MissingTerminator)),
        ("ITEM_LENGTH_EXCEEDS_REMAINING", string(too_long)),
        ("TRAILING_DATA_AFTER_TERMINATOR", string(trailing)),
        ("EMPTY_KEY", string(EmptyKey { item_offset })),
        ("INVALID_KEY_BYTE", string(key_byte)),
        ("KEY_CONTAINS_ONLY_WHITESPACE", string(spaces)),
    ];
    let told = told.map(|(name, refusal)| {
        let values = refusal.values();
        assert_eq!(values.last(), Some(&4));
        (name, values.len() as u64 - 1)
    });
    assert_eq!(found, BTreeMap::from(told));
}

#[test]
fn a_changed_declaration_shows() {
    let source = "#[repr(C)]\npub struct Pair {\n    pub first: u64, // one\n    pub second: [u64; PLACES],\n}\n
        pub extern \"C\" fn viaductle_f(bytes: &[u8], table: &mut [u16], at: usize, on: u32, pair: Pair) -> Pair\n    ensures { x }";
    let exported = functions(source, "pub extern \"C\" fn ");
    let declared = "#[repr(C)]\nstruct Pair {\n    first: u64,\n    second: [u64; VALUES],\n}
        pub fn viaductle_f(bytes: *const u8, len: usize, table: *mut u16, slots: usize, at: usize, on: u32, pair: Pair) -> Pair;";
    assert_eq!(functions(declared, "pub fn "), exported);
    let header = "typedef struct {\n    uint64_t first; /* one */\n    uint64_t second[VIADUCTLE_VALUES];\n} viaductle_pair;
viaductle_pair viaductle_f(const uint8_t *bytes, size_t len, uint16_t *table, size_t slots, size_t at, uint32_t on, viaductle_pair pair);";
    assert_eq!(c_functions(header), exported);
    for (old, new) in [
        ("at: usize, on: u32", "on: u32, at: usize"),
        ("*mut u16", "*const u16"),
        ("at: usize", "next: usize"),
        ("first: u64", "first: u32"),
        (", pair: Pair", ""),
        ("second: [u64; VALUES]", "second: u64"),
        (
            "first: u64,\n    second: [u64; VALUES]",
            "second: [u64; VALUES],\n    first: u64",
        ),
    ] {
        let changed = declared.replace(old, new);
        assert_ne!(functions(&changed, "pub fn "), exported, "{new}");
    }
    for (old, new) in [
        ("size_t at, uint32_t on", "uint32_t on, size_t at"),
        ("uint16_t *table", "const uint16_t *table"),
        ("size_t at", "size_t next"),
        ("uint64_t first", "uint32_t first"),
        ("second[VIADUCTLE_VALUES]", "second"),
    ] {
        let changed = header.replace(old, new);
        assert_ne!(c_functions(&changed), exported, "{new}");
    }
}
