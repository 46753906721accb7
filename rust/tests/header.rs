//! One boundary, declared three times: the library's source, the C header and `kv-sys` say the same.
mod common;

use common::{read, shape, with, FIELDS, FORMATS, REFUSALS, SIDES};
use karonjeenu::{Format, Refusal, Shape};
use std::collections::BTreeMap;
use std::fs;
use std::path::{Path, PathBuf};

const SOURCE: &str = "../crates/host_c/src/lib.rt";
const REPLIES: &str = "../crates/replies/src/lib.rt";
const HEADER: &str = "../include/kv.h";
const DECLARATIONS: &str = "kv-sys/src/lib.rs";

/// A name and a type, of a parameter or a field.
type Named = (String, String);

/// What a declaration says besides its name.
#[derive(Clone, PartialEq, Debug)]
struct Signature {
    parameters: Vec<Named>,
    returns: String,
}

type Signatures = BTreeMap<String, Signature>;

/// A text without what stands between two marks.
fn without(text: &str, from: &str, to: &str) -> String {
    let mut parts = text.split(from);
    let first = parts.next().unwrap_or_default().to_owned();
    parts.fold(first, |kept, part| {
        kept + part.split_once(to).map_or("", |(_, rest)| rest)
    })
}

/// What stands between the first of one mark and the next of another.
fn between<'a>(text: &'a str, from: &str, to: &str) -> &'a str {
    let (_, rest) = text.split_once(from).unwrap_or_else(|| panic!("no {from}"));
    let (inside, _) = rest
        .split_once(to)
        .unwrap_or_else(|| panic!("no {to} after {from}"));
    inside
}

/// The words of a text, with one space between.
fn words(text: &str) -> String {
    text.split_whitespace().collect::<Vec<_>>().join(" ")
}

/// The parts of a list, without a last one that is empty.
fn listed(text: &str, mark: char) -> Vec<String> {
    let parts = text.split(mark).map(words);
    parts.filter(|part| !part.is_empty()).collect()
}

/// `name: type`, in Rattle and in Rust.
fn colon_named(part: &str) -> Named {
    let (name, kind) = part
        .split_once(": ")
        .unwrap_or_else(|| panic!("no type: {part}"));
    (name.to_owned(), kind.to_owned())
}

/// `type name` in C, a star being the type's and an array's length too.
fn c_named(part: &str) -> Named {
    let (part, length) = part.split_at(part.find('[').unwrap_or(part.len()));
    let space = part.rfind([' ', '*']);
    let (kind, name) = part.split_at(space.unwrap_or_else(|| panic!("no type: {part}")) + 1);
    (name.to_owned(), kind.trim().to_owned() + length)
}

/// `name(parameters) -> type`, in Rattle and in Rust.
fn arrow_signature(text: &str) -> (String, Signature) {
    let (name, rest) = text.split_once('(').expect("parameters");
    let (parameters, rest) = rest.split_once(')').expect("an end of the parameters");
    let returns = rest
        .trim_start()
        .strip_prefix("->")
        .expect("a type that is returned");
    let signature = Signature {
        parameters: listed(parameters, ',')
            .iter()
            .map(|part| colon_named(part))
            .collect(),
        returns: words(returns),
    };
    (name.to_owned(), signature)
}

/// What the library's source declares.
fn of_source(text: &str) -> Signatures {
    let parts = text.split("pub extern \"C\" fn ").skip(1);
    parts
        .map(|part| arrow_signature(part.split_once("ensures").expect("a contract").0))
        .collect()
}

/// The declarations of `kv-sys`, each in one line.
fn rust_lines(text: &str) -> Vec<String> {
    let plain = without(text, "//", "\n");
    listed(between(&plain, "unsafe extern \"C\" {", "\n}"), ';')
}

/// What `kv-sys` declares.
fn of_rust(text: &str) -> Signatures {
    let lines = rust_lines(text);
    let parts = lines.iter().filter_map(|line| line.split_once("fn "));
    parts.map(|(_, part)| arrow_signature(part)).collect()
}

/// What the header declares.
fn of_header(text: &str) -> Signatures {
    let plain = without(text, "/*", "*/");
    let parts = plain.split(';').filter_map(|part| part.split_once('('));
    parts
        .map(|(before, rest)| {
            let (name, returns) = c_named(&words(before));
            let parameters = rest.strip_suffix(')').expect("an end of the parameters");
            let parameters = listed(parameters, ',')
                .iter()
                .map(|part| c_named(part))
                .collect();
            (
                name,
                Signature {
                    parameters,
                    returns,
                },
            )
        })
        .collect()
}

/// How a language says what the source says.
struct Language {
    /// The type of a number.
    plain: fn(&str) -> String,
    /// What lends one thing of a type of this language.
    place: fn(kind: &str, written: bool) -> String,
    /// The type of the 134 words.
    record: &'static str,
    /// The first of the two that are a slice.
    slice: fn(name: &str, of: &str, written: bool) -> String,
    /// The type of the second.
    length: &'static str,
}

const C: Language = Language {
    plain: c_type,
    place: c_pointer,
    record: "kv_record",
    // Numbers that pass as words are floats in C; scales are words there too.
    slice: |name, of, written| match (name, of) {
        ("scales", "u32") => c_pointer("uint32_t", written),
        (_, "u32") => c_pointer("float", written),
        _ => c_pointer(&c_type(of), written),
    },
    length: "size_t",
};

const RUST: Language = Language {
    plain: str::to_owned,
    place: rust_pointer,
    record: "Record",
    slice: |_, of, written| rust_pointer(of, written),
    length: "usize",
};

fn c_type(kind: &str) -> String {
    let kind = match kind {
        "u8" => "uint8_t",
        "u16" => "uint16_t",
        "u32" => "uint32_t",
        "u64" => "uint64_t",
        "usize" => "size_t",
        "f32" => "float",
        other => panic!("no type in C for {other}"),
    };
    kind.to_owned()
}

fn c_pointer(kind: &str, written: bool) -> String {
    format!("{}{kind} *", if written { "" } else { "const " })
}

fn rust_pointer(kind: &str, written: bool) -> String {
    format!("{}{kind}", if written { "*mut " } else { "*const " })
}

impl Language {
    /// A parameter of the source, as one or two here.
    fn parameter(&self, (name, kind): &Named) -> Vec<Named> {
        let Some(lent) = kind.strip_prefix('&') else {
            return vec![(name.clone(), (self.plain)(kind))];
        };
        let (lent, written) = lent
            .strip_prefix("mut ")
            .map_or((lent, false), |lent| (lent, true));
        let Some(inside) = lent
            .strip_prefix('[')
            .and_then(|lent| lent.strip_suffix(']'))
        else {
            return vec![(name.clone(), (self.place)(&(self.plain)(lent), written))];
        };
        if inside == "u32; 134" {
            return vec![(name.clone(), (self.place)(self.record, written))];
        }
        let length = (format!("{name}_len"), self.length.to_owned());
        vec![(name.clone(), (self.slice)(name, inside, written)), length]
    }

    /// What this language has to declare.
    fn wanted(&self, source: &Signatures) -> Signatures {
        let signature = |signature: &Signature| Signature {
            parameters: signature
                .parameters
                .iter()
                .flat_map(|named| self.parameter(named))
                .collect(),
            returns: (self.plain)(&signature.returns),
        };
        source
            .iter()
            .map(|(name, said)| (name.clone(), signature(said)))
            .collect()
    }
}

#[test]
fn header_declares_what_the_source_does() {
    let source = of_source(&read(SOURCE));
    assert_eq!(
        source.len(),
        read(SOURCE).matches("#[unsafe(no_mangle)]").count()
    );
    assert_eq!(of_header(&read(HEADER)), C.wanted(&source));
}

#[test]
fn rust_declares_what_the_source_does() {
    let source = of_source(&read(SOURCE));
    assert_eq!(of_rust(&read(DECLARATIONS)), RUST.wanted(&source));
}

#[test]
fn rust_lays_out_and_links_by_the_names_alone() {
    // `derive` and the declarations' own words change neither layout nor symbol; another attribute might.
    let attributes = |text: &str| {
        let plain = without(text, "//", "\n");
        let record = between(&plain, "const MOST_LAYERS", "pub struct Record").to_owned();
        let inside = between(&plain, "unsafe extern \"C\" {", "\n}").matches('#');
        (
            record.matches("#[repr(C)]").count(),
            record.matches("#[").count(),
            inside.count(),
        )
    };
    let text = read(DECLARATIONS);
    let wanted = attributes(&text);
    assert_eq!(wanted, (1, 2, 0));
    for drift in [
        ("#[repr(C)]\n", ""),
        ("#[repr(C)]\n", "#[repr(C)]\n#[repr(packed)]\n"),
        (
            "    pub fn kv_open(",
            "    #[link_name = \"kv_append\"]\n    pub fn kv_open(",
        ),
    ] {
        assert_ne!(attributes(&drifted(&text, drift)), wanted, "{drift:?}");
    }
}

#[test]
fn functions_of_numbers_alone_are_safe() {
    let (safe, others): (Vec<_>, Vec<_>) = rust_lines(&read(DECLARATIONS))
        .into_iter()
        .partition(|line| line.starts_with("pub safe fn "));
    assert!(
        safe.iter().all(|line| !line.contains(['*', '&'])),
        "{safe:?}"
    );
    assert!(others.iter().all(|line| line.contains('*')), "{others:?}");
}

/// Every file under a folder of the project.
fn files(folder: &Path) -> Vec<PathBuf> {
    let entries =
        fs::read_dir(folder).unwrap_or_else(|fault| panic!("{}: {fault}", folder.display()));
    let paths = entries.map(|entry| entry.expect("an entry").path());
    paths
        .flat_map(|path| {
            if path.is_dir() {
                files(&path)
            } else {
                vec![path]
            }
        })
        .collect()
}

#[test]
fn rust_declares_in_one_place() {
    for folder in [
        "src",
        "kv-sys/src",
        "../oracle/src",
        "../kvasm/src",
        "../fuzz/src",
    ] {
        let here = Path::new(env!("CARGO_MANIFEST_DIR"));
        for path in files(&here.join(folder)) {
            let declares = fs::read_to_string(&path)
                .expect("a text")
                .contains("fn kv_");
            assert_eq!(
                declares,
                path == here.join(DECLARATIONS),
                "{}",
                path.display()
            );
        }
    }
}

/// A text with one place changed.
fn drifted(text: &str, (from, to): (&str, &str)) -> String {
    assert!(text.contains(from), "no {from}");
    text.replacen(from, to, 1)
}

#[test]
fn drift_of_the_header_is_seen() {
    for drift in [
        ("uint32_t layer, uint32_t t)", "uint32_t t, uint32_t layer)"),
        ("uint8_t *cells, size_t cells_len,", "uint8_t *cells,"),
        ("const float *query", "float *query"),
        ("uint64_t *count", "uint32_t *count"),
        ("const uint32_t *scales", "const float *scales"),
        ("uint16_t kv_f32_to_bf16", "uint32_t kv_f32_to_bf16"),
        ("kv_sums", "kv_sum"),
    ] {
        let header = of_header(&drifted(&read(HEADER), drift));
        assert_ne!(header, C.wanted(&of_source(&read(SOURCE))), "{drift:?}");
    }
}

#[test]
fn drift_of_the_rust_is_seen() {
    for drift in [
        (
            "keys: *const u32,\n        keys_len: usize,",
            "keys_len: usize,\n        keys: *const u32,",
        ),
        ("t: u32,\n    ) -> u32", "t: u32,\n    ) -> u64"),
        ("query: *const f32", "query: *const u32"),
        ("rec: *const Record", "rec: *mut Record"),
        ("rec: *mut Record,", "rec: &mut Record,"),
        ("cells: *mut usize", "cells: *mut u32"),
        ("code: u8", "code: u32"),
        ("fn kv_advance(rec: *mut Record, count: u32) -> u32;", ";"),
        ("scale: f32,\n        dst: *mut u8,", "dst: *mut u8,"),
    ] {
        let mine = of_rust(&drifted(&read(DECLARATIONS), drift));
        assert_ne!(mine, RUST.wanted(&of_source(&read(SOURCE))), "{drift:?}");
    }
}

#[test]
fn record_has_the_same_fields() {
    let header = without(&read(HEADER), "/*", "*/");
    let header: Vec<Named> = listed(between(&header, "typedef struct kv_record {", "}"), ';')
        .iter()
        .map(|field| c_named(field))
        .collect();
    let text = read(DECLARATIONS);
    let inside = between(&text, "pub struct Record {", "\n}").replace("pub ", "");
    let said: Vec<Named> = listed(&inside, ',')
        .iter()
        .map(|field| colon_named(field))
        .collect();
    let in_c = |(name, kind): &Named| match kind.as_str() {
        "[u32; MOST_LAYERS]" => (name.clone(), c_type("u32") + "[KV_MOST_LAYERS]"),
        plain => (name.clone(), c_type(plain)),
    };
    assert_eq!(header, said.iter().map(in_c).collect::<Vec<_>>());
    let single = header.iter().filter(|(_, kind)| kind == "uint32_t").count();
    let total = single + constant("KV_MOST_LAYERS");
    assert!(read(SOURCE).contains(&format!("rec: &mut [u32; {total}]")));
}

/// A number that the header names.
fn constant(name: &str) -> usize {
    let plain = without(&read(HEADER), "/*", "*/");
    let (_, rest) = plain
        .split_once(&format!("{name} = "))
        .unwrap_or_else(|| panic!("no {name}"));
    let digits = rest.split(|letter: char| !letter.is_ascii_digit()).next();
    digits
        .and_then(|digits| digits.parse().ok())
        .expect("a number")
}

#[test]
fn replies_have_the_same_numbers() {
    let source = without(&read(REPLIES), "//", "\n");
    let names = listed(between(&source, "pub enum Refusal {", "}"), ',');
    let mut wanted = REFUSALS.map(|refusal| format!("{refusal:?}"));
    wanted[0] += " = 1";
    assert_eq!(names, wanted);
    assert!(source.contains("Ok(_) => 0,"));
    assert!(source.contains("        refusal as u32\n"));
    assert_eq!(constant("KV_DONE"), 0);
    for (place, refusal) in REFUSALS.iter().enumerate() {
        let in_c = format!("KV_REPLY_{refusal:?}").to_uppercase();
        assert_eq!(constant(&in_c), place + 1);
        let number = refusal.number().expect("a number");
        assert_eq!(number as usize, place + 1);
    }
    assert_eq!(read(HEADER).matches("KV_REPLY_").count(), REFUSALS.len());
}

#[test]
fn formats_and_sides_have_the_same_numbers() {
    for format in FORMATS {
        let in_c = format!("KV_{format:?}").to_uppercase();
        assert_eq!(constant(&in_c), format as usize);
    }
    for side in SIDES {
        let in_c = format!("KV_{side:?}").to_uppercase();
        assert_eq!(constant(&in_c), side as usize);
    }
}

#[test]
fn limits_are_those_of_the_library() {
    for field in FIELDS {
        let most = constant(&format!("KV_MOST_{}", field.to_uppercase()));
        for format in FORMATS {
            let need = |number| with(shape(format), field, number).need();
            assert!(need(most).is_ok(), "{format:?}: {field}");
            assert_eq!(need(most + 1), Err(Refusal::Shape), "{format:?}: {field}");
            assert_eq!(need(0), Err(Refusal::Shape), "{format:?}: {field}");
        }
    }
}

#[test]
fn cells_are_limited_as_the_header_says() {
    let most = constant("KV_MOST_CELLS");
    for format in FORMATS {
        let widest = Shape {
            format,
            layers: constant("KV_MOST_LAYERS"),
            heads: constant("KV_MOST_HEADS"),
            head_size: constant("KV_MOST_HEAD_SIZE"),
            capacity: 1,
        };
        let cells = |capacity| {
            with(widest, "capacity", capacity)
                .need()
                .map(|need| need.cells)
        };
        let of_a_position = cells(1).expect("inside the limits");
        let positions = most / of_a_position;
        assert!(
            positions < constant("KV_MOST_CAPACITY"),
            "the cells are the limit"
        );
        assert_eq!(cells(positions), Ok(most), "{format:?}");
        assert_eq!(cells(positions + 1), Err(Refusal::Shape), "{format:?}");
    }
}

#[test]
fn int4_wants_whole_groups() {
    for head_size in 1..=constant("KV_MOST_HEAD_SIZE") {
        let shape = with(shape(Format::Int4), "head_size", head_size);
        assert_eq!(shape.need().is_ok(), head_size % 32 == 0, "{head_size}");
    }
}
