//! The samples of this repository, and bad input.

use std::path::Path;
use std::{fs, thread};

use witc::{
    Cause, ClashKind, Code, Encoding, Kinds, compatible, module_strip, module_text, package_text,
    require_compatible,
};

const EMPTY: &[u8] = b"\0asm\x01\0\0\0";

fn sample(name: &str) -> Vec<u8> {
    let data = Path::new(env!("CARGO_MANIFEST_DIR")).join("tests/data");
    fs::read(data.join(name)).unwrap()
}

/// The samples here are those of the repository, where this crate stands in it.
#[test]
fn samples_are_the_same() {
    let examples = Path::new(env!("CARGO_MANIFEST_DIR")).join("../../examples");
    if !examples.exists() {
        return;
    }
    for folder in ["packages", "modules"] {
        for entry in fs::read_dir(examples.join(folder)).unwrap() {
            let path = entry.unwrap().path();
            if path.extension().is_some_and(|it| it != "cases") {
                let name = path.file_name().unwrap().to_str().unwrap();
                assert_eq!(fs::read(&path).unwrap(), sample(name), "{name}");
            }
        }
    }
}

#[test]
fn library_has_this_interface() {
    assert!(witc::is_abi_met());
}

#[test]
fn packages_to_text() {
    for name in ["clock", "files", "services"] {
        let package = sample(&format!("{name}.wasm"));
        let text = sample(&format!("{name}.wit"));
        assert_eq!(package_text(&package).unwrap().as_bytes(), text, "{name}");
        let again = witc::package_bytes(&package, false).unwrap();
        assert_eq!(witc::package_bytes(&again, false).unwrap(), again);
        assert_eq!(package_text(&again).unwrap().as_bytes(), text);
    }
}

#[test]
fn modules_to_text_and_stripped() {
    let module = sample("service.wasm");
    let stripped = sample("service.stripped.wasm");
    assert_eq!(
        module_text(&module).unwrap().as_bytes(),
        sample("service.wit")
    );
    assert_eq!(module_strip(&module).unwrap(), stripped);
    assert_eq!(module_strip(&stripped).unwrap(), stripped);
    assert_eq!(module_strip(EMPTY).unwrap(), EMPTY);
    let root = witc::module_package(&module).unwrap();
    assert!(package_text(&root).unwrap().contains("world root {"));
}

#[test]
fn worlds_compared() {
    let package = sample("services.wasm");
    assert_eq!(compatible(&package, "service", "service-next"), Ok(true));
    assert_eq!(compatible(&package, "service", "service-bytes"), Ok(false));
    assert_eq!(
        require_compatible(&package, "service", "service-next"),
        Ok(())
    );
    let refusal = require_compatible(&package, "service", "service-bytes").unwrap_err();
    assert_eq!(
        (refusal.code, refusal.subject.as_deref(), refusal.is_no()),
        (Code::Differs, Some("handle"), true)
    );
    assert_eq!((refusal.number(), refusal.detail()), (16, 0));
    assert_eq!(refusal.to_string(), refusal.message());
    for (prev, next, missing) in [
        ("nobody", "service", Some("nobody")),
        ("service", "caf\u{e9}", Some("caf\u{e9}")),
        ("", "service", None),
    ] {
        let refusal = require_compatible(&package, prev, next).unwrap_err();
        assert_eq!(
            (refusal.code, refusal.subject.as_deref()),
            (Code::NoSuchWorld, missing)
        );
        assert!(!refusal.is_no());
        assert_eq!(compatible(&package, prev, next), Err(refusal));
    }
    assert!(!witc::same_world(&package, "service", &package, "service-next").unwrap());
}

/// A bound of as many bytes as the text has is enough, and one less isn't.
#[test]
fn texts_with_a_bound() {
    let package = sample("files.wasm");
    let text = String::from_utf8(sample("files.wit")).unwrap();
    let module = sample("service.wasm");
    let bound = String::from_utf8(sample("service.wit")).unwrap();
    let world = witc::embed(&package, "browser", Encoding::Utf8, false).unwrap();
    let alone = witc::world_text(&world).unwrap();
    for (call, bytes, text) in [
        (witc::package_text_within as Within, &package, text),
        (witc::module_text_within, &module, bound),
        (witc::world_text_within, &world, alone),
    ] {
        assert_eq!(call(bytes, text.len()), Ok(text.clone()));
        assert_eq!(call(bytes, usize::MAX), Ok(text.clone()));
        for most in [0, text.len() - 1] {
            let refusal = call(bytes, most).unwrap_err();
            assert_eq!((refusal.code, refusal.offset), (Code::TextTooLong, None));
            assert!(refusal.message().contains(&most.to_string()));
        }
    }
}

type Within = fn(&[u8], usize) -> Result<String, witc::Refusal>;

#[test]
fn sections_of_a_module() {
    let [services, clock] = ["services", "clock"].map(|name| sample(&format!("{name}.wasm")));
    let worlds = [
        witc::embed(&services, "service", Encoding::Utf8, false).unwrap(),
        witc::embed(&clock, "clock", Encoding::Utf16, true).unwrap(),
    ];
    let one = witc::attach(EMPTY, &services, "service", Encoding::Utf8, false).unwrap();
    let both = witc::attach(&one, &clock, "clock", Encoding::Utf16, true).unwrap();
    assert_eq!(witc::module_sections(&both).unwrap(), worlds);
    assert_eq!(witc::module_section(&both, 1).unwrap(), worlds[1]);
    assert!(witc::module_sections(EMPTY).unwrap().is_empty());
    assert_eq!(
        witc::module_sections(&clock).unwrap_err().code,
        Code::NotAModule
    );
    let refusal = witc::attach(&both, &services, "service", Encoding::Utf8, false).unwrap_err();
    assert_eq!(
        (refusal.code, refusal.subject.as_deref()),
        (Code::Clash(ClashKind::Export), Some("handle"))
    );
    assert_eq!((refusal.number(), refusal.detail()), (12, 4));
}

#[test]
fn worlds_embedded_and_attached() {
    let package = sample("services.wasm");
    for encoding in [Encoding::Utf8, Encoding::Utf16, Encoding::Latin1Utf16] {
        let data = witc::embed(&package, "service", encoding, false).unwrap();
        let alone = witc::world_package(&data).unwrap();
        assert_eq!(
            witc::embed(&alone, "service", encoding, false).unwrap(),
            data
        );
        assert!(witc::same_world(&package, "service", &alone, "service").unwrap());
        assert!(witc::world_text(&data).unwrap().contains("world service {"));
        assert!(
            witc::world_json(&data)
                .unwrap()
                .contains(r#""name":"service""#)
        );
        assert!(witc::kinds(&data).unwrap().world && witc::kinds(&alone).unwrap().package);
        let made = witc::attach(EMPTY, &package, "service", encoding, false).unwrap();
        assert_eq!(witc::module_section(&made, 0).unwrap(), data);
        assert_eq!(
            witc::module_section(&made, 1).unwrap_err().code,
            Code::NoSuchSection
        );
        assert_eq!(module_strip(&made).unwrap(), EMPTY);
        let module = Kinds {
            module: true,
            ..Kinds::default()
        };
        assert_eq!(witc::kinds(&made), Some(module));
    }
    let refusal = witc::embed(&package, "nobody", Encoding::Utf8, false).unwrap_err();
    assert_eq!(
        (refusal.code, refusal.subject.as_deref()),
        (Code::NoSuchWorld, Some("nobody"))
    );
}

#[test]
fn bad_bytes_are_refused() {
    let package = sample("clock.wasm");
    for bytes in [
        &[][..],
        &[0],
        EMPTY,
        b"no package",
        &package[..package.len() / 2],
    ] {
        let refusal = package_text(bytes).unwrap_err();
        assert!(
            matches!(refusal.code, Code::NoReading(_)) && refusal.offset.unwrap() <= bytes.len(),
            "{refusal}"
        );
    }
    assert_eq!(
        package_text(EMPTY).unwrap_err().code,
        Code::NoReading(Cause::BadPreamble)
    );
    assert_eq!(module_text(&package).unwrap_err().code, Code::NotAModule);
    assert_eq!(module_strip(&[]).unwrap_err().code, Code::NotAModule);
    assert_eq!(
        module_strip(&[EMPTY, &[1]].concat()).unwrap_err().code,
        Code::BadModule
    );
}

/// The package of a text, and of a text that uses another.
#[test]
fn packages_of_texts() {
    let [clock, files] =
        ["clock.wit", "files.wit"].map(|name| String::from_utf8(sample(name)).unwrap());
    let package = witc::texts_package(&[("clock.wit", &clock)], 1).unwrap();
    assert_eq!(package, sample("clock.wasm"));
    let both = [("files.wit", files.as_str()), ("", &clock)];
    let package = witc::texts_package(&both, 1).unwrap();
    assert_eq!(package_text(&package).unwrap(), files);
    let alone = witc::texts_package(&both[..1], 1).unwrap_err();
    assert_eq!((alone.code, alone.offset), (Code::BadText(0), Some(54)));
    assert_eq!(
        (alone.number(), alone.detail(), &alone.subject),
        (23, 0, &None)
    );
    assert_eq!(
        alone.message(),
        "files.wit: line 4, column 7: no text has this package"
    );
    let two = witc::texts_package(&both, 2).unwrap_err();
    assert_eq!((two.code, two.offset), (Code::TwoPackages(1), None));
    assert_eq!(
        two.message(),
        "files.wit and text 1 begin with two packages"
    );
    for (texts, own) in [(&both[..], 0), (&both, 3), (&[], 0), (&[], 1)] {
        let refusal = witc::texts_package(texts, own).unwrap_err();
        assert_eq!((refusal.code, refusal.number()), (Code::BadCount, 25));
    }
    let empty = witc::texts_package(&[("", "")], 1).unwrap_err();
    assert_eq!((empty.code, empty.offset), (Code::BadText(0), Some(0)));
}

/// Each beginning of a text, and a text with each byte changed: an answer or a refusal at a place.
#[test]
fn damaged_texts() {
    let text = String::from_utf8(sample("clock.wit")).unwrap();
    for at in 0..text.len() {
        let changed = format!("{}~{}", &text[..at], &text[at + 1..]);
        for text in [&text[..at], &changed] {
            match witc::texts_package(&[("it.wit", text)], 1) {
                Ok(package) => assert!(package.starts_with(b"\0asm\x0d\0\x01\0"), "{at}"),
                Err(refusal) => {
                    assert_eq!(refusal.code, Code::BadText(0), "{at}");
                    assert!(refusal.offset.unwrap() <= text.len(), "{at}");
                }
            }
        }
    }
}

/// Each beginning of a package, and a package with each byte changed: an answer or a refusal.
#[test]
fn damaged_bytes() {
    let package = sample("files.wasm");
    for at in 0..package.len() {
        let mut damaged = package.clone();
        damaged[at] ^= 0x81;
        for bytes in [&package[..at], &damaged] {
            let texts = [
                package_text(bytes),
                witc::world_text(bytes),
                witc::package_json(bytes),
                witc::world_json(bytes),
                witc::module_json(bytes),
                module_text(bytes),
            ];
            assert!(texts.iter().flatten().all(|text| !text.is_empty()), "{at}");
            let answers = [
                module_strip(bytes),
                witc::package_bytes(bytes, true),
                witc::world_package(bytes),
            ];
            assert!(
                answers.iter().flatten().all(|bytes| !bytes.is_empty()),
                "{at}"
            );
        }
    }
}

#[test]
fn calls_side_by_side() {
    let module = sample("service.wasm");
    let text = sample("service.wit");
    thread::scope(|scope| {
        for _ in 0..4 {
            scope.spawn(|| {
                (0..20).for_each(|_| assert_eq!(module_text(&module).unwrap().as_bytes(), text))
            });
        }
    });
}
