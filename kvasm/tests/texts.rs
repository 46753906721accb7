//! Texts and their bytes, and texts that are wrong.
use kvasm::back::back;
use kvasm::text::{assembled, Fault};

fn bytes(text: &str) -> Vec<u8> {
    assembled(text.as_bytes()).expect("a text without fault")
}

/// The fault of the second of two lines.
fn fault(line: &str) -> String {
    let text = format!("report\n{line}\nreport");
    let Fault { line, what } = assembled(text.as_bytes()).expect_err("a wrong text");
    assert_eq!(line, 2, "{what}");
    what
}

#[test]
fn each_record_has_its_bytes() {
    let open = "open int4 layers 258 heads 3 size 4 room 65535";
    assert_eq!(
        bytes(open),
        [0x4B, 0x56, 1, 3, 2, 1, 3, 0, 4, 0, 0xFF, 0xFF]
    );
    assert_eq!(
        bytes("append 1 keys 1 values -0"),
        [0x4B, 0x56, 2, 1, 0, 1, 0, 0, 0, 0x80, 0x3F, 0, 0, 0, 0x80]
    );
    assert_eq!(bytes("append 0 keys values"), [0x4B, 0x56, 2, 0, 0, 0, 0]);
    assert_eq!(bytes("truncate 1 256"), [0x4B, 0x56, 3, 1, 0, 0, 1]);
    assert_eq!(
        bytes("advance 4294967295"),
        [0x4B, 0x56, 4, 255, 255, 255, 255]
    );
    assert_eq!(bytes("report"), [0x4B, 0x56, 5]);
    assert_eq!(bytes("bytes 4B 56 0a fF"), [0x4B, 0x56, 10, 255]);
}

#[test]
fn number_is_a_decimal_an_infinity_or_bits() {
    let words = "inf -inf -0 x7FC00001 1e-45 16777217 .5 5. +2 -2.5E1 1e39";
    let count = words.split(' ').count();
    let keys = [
        0x7F80_0000,
        0xFF80_0000,
        0x8000_0000,
        0x7FC0_0001,
        0x0000_0001,
        0x4B80_0000,
        0x3F00_0000,
        0x40A0_0000,
        0x4000_0000,
        0xC1C8_0000,
        0x7F80_0000_u32,
    ];
    let file = bytes(&format!("append 0 keys {words} values {words}"));
    let wanted: Vec<u8> = keys.iter().flat_map(|bits| bits.to_le_bytes()).collect();
    assert_eq!(file[7..7 + 4 * count], wanted[..]);
    assert_eq!(file[7 + 4 * count..], wanted[..]);
}

#[test]
fn format_is_a_name_or_a_number() {
    let names = ["f32", "bf16", "int8", "int4", "4", "255"];
    for (name, format) in names.iter().zip([0, 1, 2, 3, 4, 255]) {
        let text = format!("open {name} layers 1 heads 1 size 1 room 1\n");
        assert_eq!(bytes(&text)[3], format);
        assert_eq!(back(&bytes(&text)), text);
    }
    assert_eq!(bytes("open 2 layers 1 heads 1 size 1 room 1")[3], 2);
}

#[test]
fn comments_and_blank_lines_hold_no_bytes() {
    assert_eq!(bytes(""), []);
    assert_eq!(bytes("\n  \t\r\n# report\n#> ok\n"), []);
    assert_eq!(bytes("  report # bytes 00\r\n"), [0x4B, 0x56, 5]);
    assert_eq!(assembled(b"# \xFF\nreport"), Ok(vec![0x4B, 0x56, 5]));
}

#[test]
fn fault_names_the_word() {
    let faults = [
        ("reports", "\"reports\" is no record"),
        ("Report", "\"Report\" is no record"),
        ("report 1", "\"1\" where the line should end"),
        (
            "truncate 1",
            "the line ends where a number from 0 to 65535 belongs",
        ),
        ("truncate 1 65536", "\"65536\" is no number from 0 to 65535"),
        ("truncate -1 0", "\"-1\" is no number from 0 to 65535"),
        ("truncate +1 0", "\"+1\" is no number from 0 to 65535"),
        ("truncate 1 2 3", "\"3\" where the line should end"),
        (
            "advance",
            "the line ends where a number from 0 to 4294967295 belongs",
        ),
        (
            "advance 4294967296",
            "\"4294967296\" is no number from 0 to 4294967295",
        ),
        ("advance 1.5", "\"1.5\" is no number from 0 to 4294967295"),
        ("open", "the line ends where a format belongs"),
        ("open 256 layers 1", "\"256\" is no number from 0 to 255"),
        ("open f16 layers 1", "\"f16\" is no number from 0 to 255"),
        ("open f32 heads 1", "\"heads\" where \"layers\" belongs"),
        (
            "open f32 layers 1 heads 1 size 4",
            "the line ends where \"room\" belongs",
        ),
        ("append 0 key 1", "\"key\" where \"keys\" belongs"),
        (
            "append 0 keys 1 2",
            "the line ends where \"values\" belongs",
        ),
        (
            "append 0 keys 1 2 values 3",
            "an append of 2 keys and 1 values",
        ),
        ("append 0 keys 1 values nan", "\"nan\" is no key or value"),
        (
            "append 0 keys infinity values 1",
            "\"infinity\" is no key or value",
        ),
        (
            "append 0 keys x7FC0000 values 1",
            "\"x7FC0000\" is no key or value",
        ),
        (
            "append 0 keys x+FC00001 values 1",
            "\"x+FC00001\" is no key or value",
        ),
        ("append 0 keys 1,5 values 1", "\"1,5\" is no key or value"),
        ("append 0 keys - values 1", "\"-\" is no key or value"),
        ("bytes 4B 5", "\"5\" is no byte in hex"),
        ("bytes +1", "\"+1\" is no byte in hex"),
        ("bytes 4B56", "\"4B56\" is no byte in hex"),
    ];
    for (line, what) in faults {
        assert_eq!(fault(line), what, "{line}");
    }
}

#[test]
fn more_than_512_numbers_a_side_are_a_fault() {
    let append = |count| {
        let numbers = " 1".repeat(count);
        format!("append 0 keys{numbers} values{numbers}")
    };
    assert_eq!(bytes(&append(512)).len(), 7 + 8 * 512);
    assert_eq!(fault(&append(513)), "an append of 513 keys, over 512");
}
