//! Whether two places have the same sense: named types are compared by name, unnamed ones are opened.

use crate::model::*;
use std::collections::{HashMap, HashSet};

pub fn key_text(r: &Resolve, key: &Key) -> String {
    match key {
        Key::Name(text) => text.clone(),
        Key::Interface(id) => r.path_of(*id).expect("a path"),
    }
}

pub struct Same<'a> {
    a: &'a Resolve,
    b: &'a Resolve,
    pairs: HashSet<(u32, u32)>,
}

impl<'a> Same<'a> {
    pub fn new(a: &'a Resolve, b: &'a Resolve) -> Self {
        Same { a, b, pairs: HashSet::new() }
    }
    fn package(&self, p: u32, q: u32) -> bool {
        let (p, q) = (&self.a.packages[p as usize], &self.b.packages[q as usize]);
        p.name == q.name && p.namespace == q.namespace && p.version == q.version
    }
    fn place(&self, x: Owner, y: Owner) -> bool {
        match (x, y) {
            (Owner::Interface(i), Owner::Interface(j)) => {
                let (i, j) = (&self.a.interfaces[i as usize], &self.b.interfaces[j as usize]);
                i.name == j.name && (i.name.is_none() || self.package(i.package, j.package))
            }
            (Owner::World(_), Owner::World(_)) => true,
            _ => false,
        }
    }
    fn ty(&mut self, x: Type, y: Type) -> bool {
        match (x, y) {
            (Type::Prim(p), Type::Prim(q)) => p == q,
            (Type::Id(x), Type::Id(y)) => {
                let (s, t) = (&self.a.types[x as usize], &self.b.types[y as usize]);
                match (&s.name, &t.name) {
                    (Some(p), Some(q)) => p == q && self.place(s.owner, t.owner),
                    (None, None) => !self.pairs.insert((x, y)) || self.kind(&s.kind, &t.kind),
                    _ => false,
                }
            }
            _ => false,
        }
    }
    fn opt(&mut self, x: Option<Type>, y: Option<Type>) -> bool {
        match (x, y) {
            (None, None) => true,
            (Some(x), Some(y)) => self.ty(x, y),
            _ => false,
        }
    }
    fn kind(&mut self, x: &Kind, y: &Kind) -> bool {
        match (x, y) {
            (Kind::Record(a), Kind::Record(b)) => a.len() == b.len() && a.iter().zip(b).all(|(a, b)| a.0 == b.0 && self.ty(a.1, b.1)),
            (Kind::Variant(a), Kind::Variant(b)) => a.len() == b.len() && a.iter().zip(b).all(|(a, b)| a.0 == b.0 && self.opt(a.1, b.1)),
            (Kind::Flags(a), Kind::Flags(b)) | (Kind::Enum(a), Kind::Enum(b)) => a.len() == b.len() && a.iter().zip(b).all(|(a, b)| a.0 == b.0),
            (Kind::Tuple(a), Kind::Tuple(b)) => a.len() == b.len() && a.iter().zip(b).all(|(a, b)| self.ty(*a, *b)),
            (Kind::Resource, Kind::Resource) => true,
            (Kind::Own(a), Kind::Own(b)) | (Kind::Borrow(a), Kind::Borrow(b)) => self.ty(Type::Id(*a), Type::Id(*b)),
            (Kind::Option(a), Kind::Option(b)) | (Kind::List(a), Kind::List(b)) | (Kind::Alias(a), Kind::Alias(b)) => self.ty(*a, *b),
            (Kind::Fixed(a, n), Kind::Fixed(b, k)) => n == k && self.ty(*a, *b),
            (Kind::Map(a, c), Kind::Map(b, d)) => self.ty(*a, *b) && self.ty(*c, *d),
            (Kind::Result(a, c), Kind::Result(b, d)) => self.opt(*a, *b) && self.opt(*c, *d),
            (Kind::Future(a), Kind::Future(b)) | (Kind::Stream(a), Kind::Stream(b)) => self.opt(*a, *b),
            _ => false,
        }
    }
    fn declared(&mut self, x: u32, y: u32) -> bool {
        let (s, t) = (&self.a.types[x as usize], &self.b.types[y as usize]);
        s.external_id == t.external_id && self.kind(&s.kind, &t.kind)
    }
    fn function(&mut self, f: &Function, g: &Function) -> bool {
        f.is_async == g.is_async
            && f.external_id == g.external_id
            && f.params.len() == g.params.len()
            && f.params.iter().zip(&g.params).all(|(p, q)| p.0 == q.0 && self.ty(p.1, q.1))
            && self.opt(f.result, g.result)
    }
    pub fn interface(&mut self, i: u32, j: u32) -> bool {
        let (i, j) = (&self.a.interfaces[i as usize], &self.b.interfaces[j as usize]);
        i.types.len() == j.types.len()
            && i.functions.len() == j.functions.len()
            && i.types.iter().all(|(text, t)| j.types.get(text).map_or(false, |u| self.declared(*t, *u)))
            && i.functions.iter().all(|(text, f)| j.functions.get(text).map_or(false, |g| self.function(f, g)))
    }
    pub fn item(&mut self, x: &Item, y: &Item) -> bool {
        match (x, y) {
            (Item::Function(f), Item::Function(g)) => self.function(f, g),
            (Item::Type(t), Item::Type(u)) => self.declared(*t, *u),
            (Item::Interface { id: i, external_id: a, .. }, Item::Interface { id: j, external_id: b, .. }) => {
                let (s, t) = (&self.a.interfaces[*i as usize], &self.b.interfaces[*j as usize]);
                a == b
                    && match (&s.name, &t.name) {
                        (Some(p), Some(q)) => p == q && self.package(s.package, t.package),
                        (None, None) => self.interface(*i, *j),
                        _ => false,
                    }
            }
            _ => false,
        }
    }
    pub fn world(&mut self, v: u32, w: u32) -> bool {
        let (v, w) = (&self.a.worlds[v as usize], &self.b.worlds[w as usize]);
        for (x, y) in [(&v.imports, &w.imports), (&v.exports, &w.exports)] {
            if x.len() != y.len() {
                return false;
            }
            let others: HashMap<String, &Item> = y.iter().map(|(k, i)| (key_text(self.b, k), i)).collect();
            for (k, i) in x {
                match others.get(&key_text(self.a, k)) {
                    Some(j) if self.item(i, j) => {}
                    _ => return false,
                }
            }
        }
        true
    }
}

fn import_of(r: &Resolve, world: u32, at: u32) -> &Item {
    r.worlds[world as usize].imports.get_index(at as usize).expect("an import").1
}

/// Whether two places have the same sense.
pub fn same_sense(a: &Resolve, at: Place, b: &Resolve, there: Place) -> bool {
    let mut same = Same::new(a, b);
    match (at, there) {
        (Place::Interface(i), Place::Interface(j)) => same.interface(i, j),
        (Place::World(v), Place::World(w)) => same.world(v, w),
        (Place::Import(v, m), Place::Import(w, n)) => same.item(import_of(a, v, m), import_of(b, w, n)),
        _ => false,
    }
}
