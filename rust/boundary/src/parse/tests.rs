//! What the parser refuses. What it reads is held by the committed header and declarations.

use super::*;

fn said(source: &str) -> String {
    parse("a.rt", source).unwrap_err().to_string()
}

#[test]
fn refused() {
    for (source, wanted) in [
        ("\nstruct { }", "2: `{` where a struct's name should stand"),
        (
            "pub struct A {\n    x u32\n}",
            "2: `u32` where `:` should stand",
        ),
        ("fn f() {\n  {", "2: the file's end where `}` should stand"),
        ("\n\nwhile x", "3: `while` begins no item that is known"),
        ("use a::{b::c};", "1: `::` where `}` should stand"),
        ("use a::*;", "1: `*` where a name should stand"),
        (
            "fn f() ensures 1 { } { }",
            "1: `1` where a clause should stand",
        ),
    ] {
        assert_eq!(said(source), format!("a.rt:{wanted}"));
    }
}

#[test]
fn exports_are_marked_whole() {
    for source in [
        "\npub extern \"C\" fn f() {}",
        "#[unsafe(no_mangle)]\nextern \"C\" fn f() {}",
        "#[unsafe(no_mangle)]\npub extern \"D\" fn f() {}",
        "impl A { #[unsafe(no_mangle)]\npub extern \"C\" fn f() {} }",
    ] {
        assert_eq!(
            said(source),
            "a.rt:2: an exported function is marked `#[unsafe(no_mangle)] pub extern \"C\"` and stands in no impl"
        );
    }
    assert_eq!(
        said("#[unsafe(no_mangle)]\npub fn f() {}"),
        "a.rt:2: `#[unsafe(no_mangle)]` without `extern \"C\"`"
    );
}

/// An enum's numbers are constants; what can't pass at the boundary is passed over.
#[test]
fn numbers_of_an_enum() {
    let source = "
        // Why.
        pub enum Refusal {
            // The first.
            NoGroup = 2,
            Odd(u8),
            Pair { a: u8 },
            // The last.
            Unsound = 0x10,
        }
        impl From<Refusal> for u32 { ghost from_gives = { a }; fn from(r: Refusal) -> u32 { r as u32 } }
        impl<T> Other<T> { fn f() {} }
        trait One { fn f(); }
        type Answer = Result<(), Refusal>;
        struct Unknown(pub u8);
        struct Lent<'a> { area: &'a [u8] }
        struct Held { pub x: u8, ghost small: { x < 3 } }
        fn g() ghost top: { T } requires { a } {}
        pub const LAST: u8 = 3;
    ";
    let file = parse("a.rt", source).unwrap();
    let found: Vec<_> = file
        .constants
        .iter()
        .map(|c| (&c.name[..], &c.of[..], c.value, c.doc.join(" ")))
        .collect();
    assert_eq!(
        found,
        [
            ("Refusal::NoGroup", "Refusal", 2, "The first.".to_string()),
            ("Refusal::Unsound", "Refusal", 16, "The last.".to_string()),
            ("LAST", "u8", 3, String::new()),
        ]
    );
    assert_eq!(file.enums, ["Refusal"]);
}
