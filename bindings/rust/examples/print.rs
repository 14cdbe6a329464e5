//! Does what `witc print`, `module`, `strip` and `compat PREV NEW` do, by the library. Behind `./install PREFIX`, with PREFIX/lib/pkgconfig in
//! PKG_CONFIG_PATH:
//!
//!     cargo run --manifest-path bindings/rust/Cargo.toml --example print -- print < package.wasm

use std::env;
use std::io::{self, Read, Write};
use std::process::ExitCode;

use witc::{Code, Refusal};

/// The status that `witc` answers where a call is refused.
fn status_of(refusal: &Refusal) -> u8 {
    match refusal.code {
        Code::NoSuchWorld => 2,
        _ => 1,
    }
}

fn main() -> ExitCode {
    let words: Option<Vec<String>> = env::args_os()
        .skip(1)
        .map(|word| word.into_string().ok())
        .collect();
    let words = words.unwrap_or_default();
    let words: Vec<&str> = words.iter().map(String::as_str).collect();
    if !matches!(words[..], ["print" | "module" | "strip"] | ["compat", _, _]) {
        eprintln!("usage: print print | module | strip | compat PREV NEW");
        return ExitCode::from(2);
    }
    let mut bytes = Vec::new();
    if io::stdin().read_to_end(&mut bytes).is_err() {
        eprintln!("the input can't be read");
        return ExitCode::FAILURE;
    }
    let answer = match words[..] {
        [_, prev, next] => {
            witc::require_compatible(&bytes, prev, next).map(|()| b"compatible\n".to_vec())
        }
        ["module"] => witc::module_text(&bytes).map(String::into_bytes),
        ["strip"] => witc::module_strip(&bytes),
        _ => witc::package_text(&bytes).map(String::into_bytes),
    };
    match answer {
        Ok(answer) if io::stdout().write_all(&answer).is_err() => ExitCode::FAILURE,
        Ok(_) => ExitCode::SUCCESS,
        Err(refusal) => {
            eprintln!("{refusal}");
            ExitCode::from(status_of(&refusal))
        }
    }
}
