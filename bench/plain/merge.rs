//! Bindings of modules: decoded section by section and merged, what is new moved over.

use crate::bound::{Gain, Numbers, re_function, re_kind};
use crate::decode;
use crate::forms::Input;
use crate::model::*;
use crate::senses::{Same, key_text};
use std::collections::HashMap;

type PackageKey = (String, String, Option<String>);

pub struct Bindgen {
    pub r: Resolve,
    pub world: u32,
    imports: HashMap<String, u8>,
    exports: HashMap<String, u8>,
    packages: HashMap<PackageKey, u32>,
}

/// What of another `Resolve` is here under its name, and which of its worlds are `root:root/root`.
pub struct Known {
    pub packages: Vec<Option<u32>>,
    pub interfaces: Vec<Option<u32>>,
    pub worlds: Vec<Option<u32>>,
    pub roots: Vec<bool>,
}

fn key_of(p: &Package) -> PackageKey {
    (p.namespace.clone(), p.name.clone(), p.version.clone())
}

fn is_root(r: &Resolve, w: &World) -> bool {
    let p = &r.packages[w.package as usize];
    w.name == "root" && p.namespace == "root" && p.name == "root" && p.version.is_none()
}

/// The compatible part of a version.
fn canonical(version: &str) -> &str {
    let bare = version.split('+').next().expect("a part");
    if version.contains('-') {
        return bare;
    }
    let mut dots = bare.match_indices('.').map(|x| x.0);
    let (a, b) = (dots.next().unwrap_or(bare.len()), dots.next().unwrap_or(bare.len()));
    match (&bare[..a], &bare[a + 1..b]) {
        ("0", "0") => bare,
        ("0", _) => &bare[..b],
        _ => &bare[..a],
    }
}

/// The text in front of the functions of an item in the keys of encodings.
fn head_of(r: &Resolve, key: &Key) -> String {
    let id = match key {
        Key::Name(text) => return text.clone(),
        Key::Interface(id) => *id,
    };
    let i = &r.interfaces[id as usize];
    let p = &r.packages[i.package as usize];
    let name = i.name.as_deref().expect("a name");
    match &p.version {
        None => format!("{}:{}/{name}", p.namespace, p.name),
        Some(v) => format!("{}:{}/{name}@{}", p.namespace, p.name, canonical(v)),
    }
}

fn encodings(r: &Resolve, items: &Map<Key, Item>, encoding: u8) -> HashMap<String, u8> {
    let mut out = HashMap::new();
    for (key, item) in items {
        match item {
            Item::Function(f) => {
                out.insert(format!("{}/{}", head_of(r, key), f.name), encoding);
            }
            Item::Interface { id, .. } => {
                let head = head_of(r, key);
                for name in r.interfaces[*id as usize].functions.keys() {
                    let mut key = String::with_capacity(head.len() + 1 + name.len());
                    key.push_str(&head);
                    key.push('/');
                    key.push_str(name);
                    out.insert(key, encoding);
                }
            }
            Item::Type(_) => {}
        }
    }
    out
}

impl Known {
    fn of(bound: &Bindgen, b: &Resolve) -> Known {
        let own = &bound.r.packages;
        let packages: Vec<Option<u32>> = b.packages.iter().map(|p| bound.packages.get(&key_of(p)).copied()).collect();
        let interfaces = b.interfaces.iter().map(|i| {
            let p = packages[i.package as usize]?;
            own[p as usize].interfaces.get(i.name.as_ref()?).copied()
        });
        let worlds = b.worlds.iter().map(|w| {
            let p = packages[w.package as usize]?;
            own[p as usize].worlds.get(&w.name).copied()
        });
        let (interfaces, worlds) = (interfaces.collect(), worlds.collect());
        let roots = b.worlds.iter().map(|w| is_root(b, w)).collect();
        Known { packages, interfaces, worlds, roots }
    }
    /// Refuses interfaces and worlds of one name that differ, and a name that is both.
    fn agree(&self, a: &Resolve, b: &Resolve) -> Result<(), String> {
        let mut same = Same::new(a, b);
        for (j, i) in self.interfaces.iter().enumerate() {
            if i.map_or(false, |i| !same.interface(i, j as u32)) {
                return Err(format!("clash {}", b.path_of(j as u32).expect("a path")));
            }
        }
        for (j, w) in b.worlds.iter().enumerate().filter(|(j, _)| !self.roots[*j]) {
            let is_interface = |p: u32| a.packages[p as usize].interfaces.contains_key(&w.name);
            let differs = self.worlds[j].map_or(false, |v| !same.world(v, j as u32));
            if differs || self.packages[w.package as usize].map_or(false, is_interface) {
                return Err(format!("clash {}", w.name));
            }
        }
        for (p, own) in b.packages.iter().zip(&self.packages) {
            let is_world = |own: u32| p.interfaces.keys().any(|n| a.packages[own as usize].worlds.contains_key(n));
            if own.map_or(false, is_world) {
                return Err("clash of a world".to_string());
            }
        }
        Ok(())
    }
    /// The key in the bound world.
    fn here(&self, key: &Key) -> Option<Key> {
        match key {
            Key::Name(text) => Some(Key::Name(text.clone())),
            Key::Interface(i) => self.interfaces[*i as usize].map(Key::Interface),
        }
    }
}

impl Bindgen {
    pub fn root() -> Bindgen {
        let worlds = [("root".to_string(), 0)].into_iter().collect();
        let p = Package { namespace: "root".to_string(), name: "root".to_string(), worlds, ..Package::default() };
        let packages = HashMap::from([(key_of(&p), 0)]);
        let r = Resolve { packages: vec![p], worlds: vec![World::new("root", 0)], ..Resolve::default() };
        Bindgen { r, world: 0, imports: HashMap::new(), exports: HashMap::new(), packages }
    }

    pub fn section(bytes: &[u8]) -> Result<Bindgen, &'static str> {
        if bytes.first() == Some(&3) {
            return Err("historical");
        }
        let (r, world) = decode::decode_world(bytes)?;
        let encoding = decode::encoding(bytes)?;
        let w = &r.worlds[world as usize];
        let (imports, exports) = (encodings(&r, &w.imports, encoding), encodings(&r, &w.exports, encoding));
        Ok(Bindgen { r, world, imports, exports, packages: HashMap::new() })
    }

    /// Which imports of the other's world are here, or the first clash.
    fn known_imports(&self, other: &Bindgen, known: &Known) -> Result<Vec<bool>, String> {
        let (own, theirs) = (&self.r.worlds[self.world as usize], &other.r.worlds[other.world as usize]);
        let mut same = Same::new(&self.r, &other.r);
        let mut out = Vec::with_capacity(theirs.imports.len());
        for (key, item) in &theirs.imports {
            let found = known.here(key).and_then(|k| own.imports.get(&k));
            if found.map_or(false, |own| !same.item(own, item)) {
                return Err(format!("clash of import {}", key_text(&other.r, key)));
            }
            out.push(found.is_some());
        }
        for key in theirs.exports.keys() {
            if known.here(key).map_or(false, |k| own.exports.contains_key(&k)) {
                return Err(format!("clash of export {}", key_text(&other.r, key)));
            }
        }
        for (own, others) in [(&self.imports, &other.imports), (&self.exports, &other.exports)] {
            for (k, e) in others {
                if own.get(k).map_or(false, |x| x != e) {
                    return Err(format!("clash of encoding {k}"));
                }
            }
        }
        Ok(out)
    }

    /// Merges, or refuses and leaves this as it was. Not inlined, so that its instructions can be counted alone.
    #[inline(never)]
    pub fn merge(&mut self, other: Bindgen) -> Result<(), String> {
        let known = Known::of(self, &other.r);
        known.agree(&self.r, &other.r)?;
        let imports_known = self.known_imports(&other, &known)?;
        let numbers = Numbers::of(&self.r, &other.r, &known);
        let gain = Gain::of((&self.r, self.world), (&other.r, other.world), &numbers, &imports_known);
        self.move_over(other.r, &known, &numbers);
        let r = &mut self.r;
        r.types.extend(gain.types);
        r.interfaces.extend(gain.inline);
        let w = &mut r.worlds[self.world as usize];
        w.imports.extend(gain.imports);
        w.exports.extend(gain.exports);
        self.imports.extend(other.imports);
        self.exports.extend(other.exports);
        Ok(())
    }

    fn move_over(&mut self, b: Resolve, known: &Known, numbers: &Numbers) {
        let r = &mut self.r;
        for (n, p) in b.packages.into_iter().enumerate() {
            let p = numbers.package(p);
            match known.packages[n] {
                Some(own) => {
                    let own = &mut r.packages[own as usize];
                    p.interfaces.into_iter().for_each(|(text, i)| own.interfaces.add(text, i));
                    p.worlds.into_iter().for_each(|(text, w)| own.worlds.add(text, w));
                }
                None => {
                    self.packages.insert(key_of(&p), numbers.packages[n]);
                    r.packages.push(p);
                }
            }
        }
        for (k, mut t) in b.types.into_iter().enumerate().filter(|(k, _)| numbers.moved[*k]) {
            re_kind(&numbers.types, &mut t.kind);
            t.owner = numbers.owner(t.owner);
            debug_assert_eq!(numbers.types[k] as usize, r.types.len());
            r.types.push(t);
        }
        for (_, mut i) in b.interfaces.into_iter().enumerate().filter(|(n, _)| known.interfaces[*n].is_none()) {
            i.package = numbers.packages[i.package as usize];
            i.types.values_mut().for_each(|t| *t = numbers.types[*t as usize]);
            i.functions.values_mut().for_each(|f| re_function(&numbers.types, f));
            r.interfaces.push(i);
        }
        for (_, w) in b.worlds.into_iter().enumerate().filter(|(n, _)| known.worlds[*n].is_none() && !known.roots[*n]) {
            r.worlds.push(numbers.world(w));
        }
    }
}

/// The bindings of a core module, and the module without the sections that carry worlds.
pub fn decode(bytes: &[u8]) -> Result<(Option<Vec<u8>>, Bindgen), String> {
    if bytes.get(..8) != Some(&[0, 0x61, 0x73, 0x6d, 1, 0, 0, 0]) {
        return Err("no module".to_string());
    }
    let mut bound = Bindgen::root();
    let mut kept = bytes[..8].to_vec();
    let mut found = false;
    let mut input = Input { bytes, at: 8 };
    while input.at < bytes.len() {
        let id = input.byte()?;
        let length = input.u32()? as usize;
        let contents = input.take(length)?;
        if id == 0 {
            let mut inner = Input { bytes: contents, at: 0 };
            if inner.name()?.starts_with("component-type") {
                bound.merge(Bindgen::section(&contents[inner.at..])?)?;
                found = true;
                continue;
            }
        }
        kept.push(id);
        crate::encode::leb(&mut kept, length as u32);
        kept.extend_from_slice(contents);
    }
    Ok((found.then_some(kept), bound))
}
