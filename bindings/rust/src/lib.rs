//! WIT packages, worlds and core modules of the WebAssembly Component Model, in binary form and as text.
//!
//! ```no_run
//! let module = std::fs::read("plugin.wasm")?;
//! match witc::module_text(&module) {
//!     Ok(text) => print!("{text}"),
//!     Err(refusal) => eprintln!("plugin.wasm: {refusal}"),
//! }
//! # Ok::<(), std::io::Error>(())
//! ```
//!
//! Three kinds of bytes are read. [`kinds`] tells which of them bytes are:
//!
//! - a *package*: a WIT package as a component, as `wasm-tools component wit --wasm` writes it;
//! - a *world*: the data of one `component-type` section, as bindings carry it, which is one world with all that it uses;
//! - a *module*: a core module, with what its `component-type` sections bind together.
//!
//! [`texts_package`] makes a package of WIT texts.
//!
//! Bound the text of bytes from strangers by a call with `within` in its name: a package of 160 bytes can have a text of 46 MB.
//!
//! When out of memory, a call ends the program as `Vec` does (`std::alloc::handle_alloc_error`). The first call panics if the library that is loaded has
//! another interface than this crate (see [`is_abi_met`]).
//!
//! The functions of the library are proved (Rattle). This crate, and that `sys` declares them as they are, is trusted.
#![deny(missing_docs)]

mod refusal;
mod sys;

/// The example of the crate's page compiles.
#[cfg(doctest)]
#[doc = include_str!("../README.md")]
struct Readme;

pub use refusal::{Cause, ClashKind, Code, Refusal};
use std::alloc::{Layout, handle_alloc_error};
use std::sync::Once;
use std::{ptr, slice};

/// How strings are passed.
#[derive(Clone, Copy, Debug, Default, PartialEq, Eq, Hash)]
pub enum Encoding {
    /// UTF-8.
    #[default]
    Utf8 = 0,
    /// UTF-16.
    Utf16 = 1,
    /// Latin-1 or UTF-16, as each string says.
    Latin1Utf16 = 2,
}

/// What a call has put into an answer, freed when it is dropped.
struct Owned(sys::Answer);

impl Owned {
    fn bytes(&self) -> &[u8] {
        if self.0.length == 0 {
            return &[];
        }
        // SAFETY: the library put as many bytes there, which are this value's until it is dropped.
        unsafe { slice::from_raw_parts(self.0.at, self.0.length) }
    }
}

impl Drop for Owned {
    fn drop(&mut self) {
        // SAFETY: the library alone has written the answer, which is freed here and nowhere else.
        unsafe { sys::witc_free(&mut self.0) }
    }
}

static LOOKED: Once = Once::new();

/// Looks at the number of the library's interface, once.
fn look_at_interface() {
    LOOKED.call_once(|| {
        assert!(
            is_abi_met(),
            "libwitc has another interface than the crate witc: install both from one version"
        )
    });
}

fn ask(call: impl FnOnce(*mut sys::Answer, *mut sys::Why) -> u8) -> Result<Vec<u8>, Refusal> {
    look_at_interface();
    let mut answer = Owned(sys::Answer {
        at: ptr::null(),
        length: 0,
        owner: ptr::null_mut(),
    });
    let mut why = sys::Why {
        offset: usize::MAX,
        subject: 0,
        code: 0,
        detail: 0,
    };
    let status = call(&mut answer.0, &mut why);
    let bytes = answer.bytes();
    match status {
        sys::DONE => Ok(bytes.to_vec()),
        sys::NO_MEMORY => handle_alloc_error(Layout::new::<u8>()),
        sys::REFUSED | sys::BAD_ARGUMENT => {
            let offset = (why.offset != usize::MAX).then_some(why.offset);
            Err(Refusal::of(
                (why.code, why.detail),
                offset,
                bytes,
                why.subject,
            ))
        }
        other => unreachable!("the library has no status {other}"),
    }
}

fn plain(call: sys::Plain, bytes: &[u8]) -> Result<Vec<u8>, Refusal> {
    // SAFETY: the pointer and the length are of one slice, which is borrowed for the call; `ask` hands in an answer and its numbers.
    ask(|answer, why| unsafe { call(bytes.as_ptr(), bytes.len(), answer, why) })
}

/// A text of WIT, or a listing. That it is UTF-8 is tested here, not assumed.
fn as_text(bytes: Vec<u8>) -> String {
    String::from_utf8(bytes).expect("text is UTF-8")
}

fn text(call: sys::Plain, bytes: &[u8]) -> Result<String, Refusal> {
    plain(call, bytes).map(as_text)
}

fn text_within(call: sys::Within, bytes: &[u8], most: usize) -> Result<String, Refusal> {
    // SAFETY: as in `plain`.
    ask(|answer, why| unsafe { call(bytes.as_ptr(), bytes.len(), most, answer, why) }).map(as_text)
}

macro_rules! calls {
    ($($(#[$doc:meta])* $name:ident: $kind:ident = $call:ident;)*) => { $($(#[$doc])* pub fn $name(bytes: &[u8]) -> Result<calls!(@ $kind), Refusal> { $kind(sys::$call, bytes) })* };
    (@ text) => { String };
    (@ plain) => { Vec<u8> };
}
calls! {
    /// The WIT text of a package.
    package_text: text = witc_package_text_slice;
    /// A package as JSON: its packages, worlds, interfaces and types, each by its number.
    package_json: text = witc_package_json_slice;
    /// The text of the world that the data of one `component-type` section carries, with the packages that it uses nested in it.
    world_text: text = witc_world_text_slice;
    /// The same world as JSON, with all that it uses.
    world_json: text = witc_world_json_slice;
    /// The package of the same world, as bytes.
    world_package: plain = witc_world_package_slice;
    /// The text of what the sections of a core module bind together.
    module_text: text = witc_module_text_slice;
    /// The same as JSON, with the string encoding of each function.
    module_json: text = witc_module_json_slice;
    /// The same as the bytes of the package `root:root`.
    module_package: plain = witc_module_package_slice;
    /// A core module without the sections that carry worlds, or unchanged if it has none.
    module_strip: plain = witc_module_strip_slice;
}

macro_rules! calls_within {
    ($($(#[$doc:meta])* $name:ident = $call:ident;)*) => { $($(#[$doc])* pub fn $name(bytes: &[u8], most: usize) -> Result<String, Refusal> { text_within(sys::$call, bytes, most) })* };
}
calls_within! {
    /// The text of a package, as [`package_text`] returns it. A text of more than `most` bytes is refused ([`Code::TextTooLong`]).
    package_text_within = witc_package_text_within_slice;
    /// The text of a world, as [`world_text`] returns it, of at most `most` bytes.
    world_text_within = witc_world_text_within_slice;
    /// The text of what a module binds, as [`module_text`] returns it, of at most `most` bytes.
    module_text_within = witc_module_text_within_slice;
}

/// A package encoded again, with canonical names if you ask for them: bytes that mean the same.
pub fn package_bytes(package: &[u8], canonical: bool) -> Result<Vec<u8>, Refusal> {
    // SAFETY: as in `plain`; so below, for each slice.
    ask(|answer, why| unsafe {
        sys::witc_package_bytes_slice(
            package.as_ptr(),
            package.len(),
            canonical as u32,
            answer,
            why,
        )
    })
}

/// The package with which the first `own` of these WIT texts begin, as bytes. Each text has in front of it the name by which messages call it, as a path.
///
/// The other texts are of packages that the own ones use. All packages that are used stand among the texts, in any order, each as a text's own or nested in one.
/// A text that is refused has [`Code::BadText`] with its number, from 0: the refusal's offset is in that text, and its message names the text, the line and the
/// column.
///
/// ```no_run
/// let log = "package a:log; interface log { write: func(line: string); }";
/// let app = "package a:app; world app { import a:log/log; }";
/// let package: Vec<u8> = witc::texts_package(&[("app.wit", app), ("log.wit", log)], 1)?;
/// # Ok::<(), witc::Refusal>(())
/// ```
pub fn texts_package(texts: &[(&str, &str)], own: usize) -> Result<Vec<u8>, Refusal> {
    let raw: Vec<sys::Text> = texts
        .iter()
        .map(|(name, text)| raw_text(name, text))
        .collect();
    // SAFETY: each pointer and its length are of one text, which is borrowed for the call, and so is the list of them.
    ask(|answer, why| unsafe {
        sys::witc_texts_package_slice(raw.as_ptr(), raw.len(), own, answer, why)
    })
}

fn raw_text(name: &str, text: &str) -> sys::Text {
    sys::Text {
        at: text.as_ptr(),
        length: text.len(),
        name: name.as_ptr(),
        name_length: name.len(),
    }
}

/// The data of the section of this number, from 0, among those of a core module that carry worlds. To take all of them, [`module_sections`] is better, since
/// each call walks the module anew.
pub fn module_section(module: &[u8], number: usize) -> Result<Vec<u8>, Refusal> {
    ask(|answer, why| unsafe {
        sys::witc_module_section_slice(module.as_ptr(), module.len(), number, answer, why)
    })
}

/// The data of each section of a core module that carries a world, in order.
pub fn module_sections(module: &[u8]) -> Result<Vec<Vec<u8>>, Refusal> {
    let joined = plain(sys::witc_module_sections_slice, module)?;
    let (mut found, mut rest) = (Vec::new(), joined.as_slice());
    while let Some((length, behind)) = rest.split_first_chunk() {
        let (data, others) = behind.split_at(u32::from_le_bytes(*length) as usize);
        found.push(data.to_vec());
        rest = others;
    }
    Ok(found)
}

/// The data of a section that carries the package's world of this name.
pub fn embed(
    package: &[u8],
    world: &str,
    encoding: Encoding,
    canonical: bool,
) -> Result<Vec<u8>, Refusal> {
    ask(|answer, why| unsafe {
        sys::witc_embed_slices(
            package.as_ptr(),
            package.len(),
            world.as_ptr(),
            world.len(),
            encoding as u32,
            canonical as u32,
            answer,
            why,
        )
    })
}

/// A core module with one more section, at its end, which carries that world.
pub fn attach(
    module: &[u8],
    package: &[u8],
    world: &str,
    encoding: Encoding,
    canonical: bool,
) -> Result<Vec<u8>, Refusal> {
    ask(|answer, why| unsafe {
        sys::witc_attach_slices(
            module.as_ptr(),
            module.len(),
            package.as_ptr(),
            package.len(),
            world.as_ptr(),
            world.len(),
            encoding as u32,
            canonical as u32,
            answer,
            why,
        )
    })
}

/// An error if the package's world `next` can't replace its world `prev`. Then [`Refusal::is_no`] holds of it, and its subject is the first item in the way.
pub fn require_compatible(package: &[u8], prev: &str, next: &str) -> Result<(), Refusal> {
    ask(|answer, why| unsafe {
        sys::witc_compat_slices(
            package.as_ptr(),
            package.len(),
            prev.as_ptr(),
            prev.len(),
            next.as_ptr(),
            next.len(),
            answer,
            why,
        )
    })
    .map(drop)
}

/// Whether the package's world `next` can replace its world `prev`. An error if the bytes are bad, or a world doesn't exist.
pub fn compatible(package: &[u8], prev: &str, next: &str) -> Result<bool, Refusal> {
    match require_compatible(package, prev, next) {
        Ok(()) => Ok(true),
        Err(refusal) if refusal.is_no() => Ok(false),
        Err(refusal) => Err(refusal),
    }
}

/// Whether a world of one package means exactly what a world of another package does.
pub fn same_world(
    package: &[u8],
    world: &str,
    other: &[u8],
    other_world: &str,
) -> Result<bool, Refusal> {
    let said = ask(|answer, why| unsafe {
        sys::witc_same_world_slices(
            package.as_ptr(),
            package.len(),
            world.as_ptr(),
            world.len(),
            other.as_ptr(),
            other.len(),
            other_world.as_ptr(),
            other_world.len(),
            answer,
            why,
        )
    });
    match said {
        Ok(_) => Ok(true),
        Err(refusal) if refusal.code == Code::Differs => Ok(false),
        Err(refusal) => Err(refusal),
    }
}

/// What bytes are: none of the three, or one or more of them.
#[derive(Clone, Copy, Debug, Default, PartialEq, Eq, Hash)]
pub struct Kinds {
    /// A WIT package in binary form.
    pub package: bool,
    /// The data of one `component-type` section.
    pub world: bool,
    /// A core module whose bindings can be merged.
    pub module: bool,
}

/// What `witc_kinds` returns if it isn't known.
const KIND_UNKNOWN: u8 = 128;

/// What bytes are. `None` if it isn't known: when out of memory, or if a list of bindings would get too long.
pub fn kinds(bytes: &[u8]) -> Option<Kinds> {
    look_at_interface();
    // SAFETY: the pointer and the length are of one slice, which is borrowed for the call.
    let sum = unsafe { sys::witc_kinds_slice(bytes.as_ptr(), bytes.len()) };
    (sum != KIND_UNKNOWN).then_some(Kinds {
        package: sum & 1 != 0,
        world: sum & 2 != 0,
        module: sum & 4 != 0,
    })
}

/// Whether the library that is loaded has the interface that this crate was written for. The first call looks at it too, and panics if it hasn't.
pub fn is_abi_met() -> bool {
    // SAFETY: the function takes nothing.
    unsafe { sys::witc_abi() == sys::ABI }
}
