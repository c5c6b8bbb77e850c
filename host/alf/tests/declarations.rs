//! The C interface stands in three texts: the Rattle source, which is proved; the C header; the wrapper's declarations. No compiler
//! compares them, so this does, argument by argument. It also holds the header's numbers, messages, causes and sizes to the wrapper's.
use raspbegonia::{ClipCause, Fault, BANK_FILE_BYTES, BANK_NUMBERS};
use std::fs;
use std::path::Path;

/// The functions that begin with a picture, and the source file of each.
const WITH_PICTURE: [(&str, &str); 6] = [
    ("alf_classes", "classes"),
    ("alf_luma", "luma"),
    ("alf_chroma", "chroma"),
    ("alf_cross_component", "cross_component"),
    ("alf_isolated", "isolated"),
    ("alf_clip_causes", "clip_causes"),
];

/// Those that do not.
const WITHOUT_PICTURE: [(&str, &str); 2] = [("alf_bank_write", "bank_write"), ("alf_bank_read", "bank_read")];

/// An argument as C has it: its name and its type, as "u16", "*const u16" or "usize".
type Argument = (String, String);

fn text(path: &str) -> String {
    let path = Path::new(env!("CARGO_MANIFEST_DIR")).join(path);
    fs::read_to_string(&path).unwrap_or_else(|error| panic!("{}: {error}", path.display()))
}

/// What stands between the first `start` and the next `end`.
fn between<'a>(text: &'a str, start: &str, end: &str) -> &'a str {
    let (_, rest) = text.split_once(start).unwrap_or_else(|| panic!("no {start}"));
    rest.split_once(end).unwrap_or_else(|| panic!("no {end} after {start}")).0
}

fn parts(list: &str) -> impl Iterator<Item = &str> {
    list.split(',').map(str::trim).filter(|part| !part.is_empty())
}

/// `name: kind`, as Rattle and Rust write it; a Rattle slice becomes a pointer and a length.
fn arguments(list: &str) -> Vec<Argument> {
    let mut found = Vec::new();
    for part in parts(list) {
        let (name, kind) = part.split_once(':').unwrap_or_else(|| panic!("no type: {part}"));
        let (name, kind) = (name.trim().to_string(), kind.trim());
        let pointer = kind
            .replace("&mut ", "*mut ")
            .replace("*mut [", "*mut ")
            .replace("&[", "*const ")
            .replace(']', "");
        found.push((name.clone(), pointer));
        if kind.ends_with(']') {
            found.push((format!("{name}_length"), "usize".into()));
        }
    }
    found
}

/// `type name`, as C writes it.
fn c_arguments(list: &str) -> Vec<Argument> {
    parts(list)
        .map(|part| {
            let at = part.rfind([' ', '*']).unwrap_or_else(|| panic!("no type: {part}")) + 1;
            let (kind, name) = (part[..at].trim(), part[at..].to_string());
            let pointer = if kind.starts_with("const ") { "*const " } else { "*mut " };
            let plain = kind.trim_start_matches("const ").trim_end_matches('*').trim();
            let rust = match plain {
                "size_t" => "usize".to_string(),
                "bool" => "bool".to_string(),
                other => other.trim_end_matches("_t").replace("uint", "u").replace("int", "i"),
            };
            (name, if kind.ends_with('*') { format!("{pointer}{rust}") } else { rust })
        })
        .collect()
}

fn of_source(name: &str, file: &str) -> Vec<Argument> {
    let source = text(&format!("../../crates/alf_c/src/{file}.rt"));
    arguments(between(&source, &format!("pub extern \"C\" fn {name}("), ") -> u8"))
}

#[test]
fn the_header_has_the_arguments_of_the_source() {
    let header = text("../../include/alf.h");
    for (name, file) in WITH_PICTURE.into_iter().chain(WITHOUT_PICTURE) {
        let list = between(&header, &format!("uint8_t {name}("), ");");
        assert_eq!(c_arguments(list), of_source(name, file), "{name}");
    }
}

#[test]
fn the_wrapper_declares_the_arguments_of_the_source() {
    let wrapper = text("src/ffi.rs");
    let common = arguments(between(&wrapper, "$(fn $name(", "$($argument: $kind),*"));
    let declared = between(&wrapper, "declare! {", "\n}");
    for (name, file) in WITH_PICTURE {
        let own = arguments(between(declared, &format!("{name}("), ");"));
        assert_eq!([common.clone(), own].concat(), of_source(name, file), "{name}");
    }
    for (name, file) in WITHOUT_PICTURE {
        let list = between(&wrapper, &format!("fn {name}("), ") -> u8;");
        assert_eq!(arguments(list), of_source(name, file), "{name}");
    }
}

/// The strings of a table in the header.
fn strings<'a>(header: &'a str, table: &str) -> Vec<&'a str> {
    between(header, &format!("{table}[] = {{"), "};")
        .lines()
        .filter_map(|line| line.trim().strip_prefix('"')?.strip_suffix("\","))
        .collect()
}

/// A name as the header writes it: PictureSize becomes PICTURE_SIZE.
fn capitals(name: String) -> String {
    let mut found = String::new();
    for c in name.chars() {
        if c.is_uppercase() && !found.is_empty() {
            found.push('_');
        }
        found.push(c.to_ascii_uppercase());
    }
    found
}

/// Whether the header has a line `NAME = number`, with or without a comma and a comment behind it.
fn has_entry(header: &str, name: &str, number: usize) -> bool {
    let entry = format!("{name} = {number}");
    header.lines().any(|line| {
        let rest = line.trim().strip_prefix(&entry);
        rest.is_some_and(|rest| rest.is_empty() || rest.starts_with([',', ' ']))
    })
}

#[test]
fn the_header_has_the_numbers_and_messages_of_the_wrapper() {
    let header = text("../../include/alf.h");
    let messages = strings(&header, "meanings");
    assert_eq!(messages.len(), 1 + Fault::ALL.len());
    for (fault, number) in Fault::ALL.iter().zip(1..) {
        assert_eq!(fault.number(), number);
        assert_eq!(messages[usize::from(number)], fault.meaning());
        let name = format!("ALF_{}", capitals(format!("{fault:?}")));
        assert!(has_entry(&header, &name, number.into()), "{fault:?}");
    }
}

#[test]
fn the_header_has_the_causes_of_the_wrapper() {
    let header = text("../../include/alf.h");
    assert_eq!(strings(&header, "names"), ClipCause::ALL.map(ClipCause::name));
    for (cause, number) in ClipCause::ALL.iter().zip(0..) {
        assert_eq!(cause.number(), number);
        let name = format!("ALF_CLIP_{}", capitals(format!("{cause:?}")));
        assert!(has_entry(&header, &name, number.into()), "{cause:?}");
    }
}

#[test]
fn the_header_has_the_sizes_of_the_wrapper() {
    let header = text("../../include/alf.h");
    assert!(has_entry(&header, "ALF_BANK_NUMBERS", BANK_NUMBERS));
    assert!(has_entry(&header, "ALF_BANK_FILE_BYTES", BANK_FILE_BYTES));
}
