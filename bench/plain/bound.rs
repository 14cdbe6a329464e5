//! What merged bindings gain: new numbers for all that is moved over, and what the bound world takes from the other one, which is copied.

use crate::merge::Known;
use crate::model::*;
use std::collections::HashMap;

const NONE: u32 = u32::MAX;

fn re(map: &[u32], t: Type) -> Type {
    match t {
        Type::Prim(_) => t,
        Type::Id(i) => Type::Id(map[i as usize]),
    }
}

/// Each type that a kind uses is replaced.
fn replace(kind: &mut Kind, new: impl Fn(u32) -> u32) {
    let one = |t: &mut Type| {
        if let Type::Id(i) = t {
            *i = new(*i)
        }
    };
    let opt = |t: &mut Option<Type>| t.iter_mut().for_each(one);
    match kind {
        Kind::Record(f) => f.iter_mut().for_each(|f| one(&mut f.1)),
        Kind::Variant(c) => c.iter_mut().for_each(|c| opt(&mut c.1)),
        Kind::Tuple(t) => t.iter_mut().for_each(one),
        Kind::Resource | Kind::Flags(_) | Kind::Enum(_) => {}
        Kind::Own(i) | Kind::Borrow(i) => *i = new(*i),
        Kind::Option(t) | Kind::List(t) | Kind::Fixed(t, _) | Kind::Alias(t) => one(t),
        Kind::Map(k, v) => {
            one(k);
            one(v);
        }
        Kind::Result(a, b) => {
            opt(a);
            opt(b);
        }
        Kind::Future(t) | Kind::Stream(t) => opt(t),
    }
}

/// Whether a kind uses a type of which something holds.
fn uses(kind: &Kind, holds: impl Fn(u32) -> bool) -> bool {
    let ty = |t: &Type| matches!(t, Type::Id(i) if holds(*i));
    let opt = |t: &Option<Type>| t.iter().any(ty);
    match kind {
        Kind::Record(f) => f.iter().any(|f| ty(&f.1)),
        Kind::Variant(c) => c.iter().any(|c| opt(&c.1)),
        Kind::Tuple(t) => t.iter().any(ty),
        Kind::Resource | Kind::Flags(_) | Kind::Enum(_) => false,
        Kind::Own(i) | Kind::Borrow(i) => holds(*i),
        Kind::Option(t) | Kind::List(t) | Kind::Fixed(t, _) | Kind::Alias(t) => ty(t),
        Kind::Map(k, v) => ty(k) || ty(v),
        Kind::Result(a, b) => opt(a) || opt(b),
        Kind::Future(t) | Kind::Stream(t) => opt(t),
    }
}

pub fn re_kind(map: &[u32], kind: &mut Kind) {
    replace(kind, |t| map[t as usize]);
}

pub fn re_function(map: &[u32], f: &mut Function) {
    f.resource = f.resource.map(|t| map[t as usize]);
    f.params.iter_mut().for_each(|p| p.1 = re(map, p.1));
    f.result = f.result.map(|t| re(map, t));
}

/// What each number of the other `Resolve` becomes.
pub struct Numbers {
    pub packages: Vec<u32>,
    pub interfaces: Vec<u32>,
    pub worlds: Vec<u32>,
    pub types: Vec<u32>,
    pub moved: Vec<bool>,
    next_type: u32,
    next_interface: u32,
}

/// Known ones keep their number, and each other one gets the next.
fn numbered(known: &[Option<u32>], next: &mut u32) -> Vec<u32> {
    let new = |k: &Option<u32>| k.unwrap_or_else(|| {
        *next += 1;
        *next - 1
    });
    known.iter().map(new).collect()
}

impl Numbers {
    pub fn of(a: &Resolve, b: &Resolve, known: &Known) -> Numbers {
        let mut next_interface = a.interfaces.len() as u32;
        let mut next = a.worlds.len() as u32;
        let roots: Vec<Option<u32>> = known.worlds.iter().zip(&known.roots).map(|(w, root)| w.or(if *root { Some(0) } else { None })).collect();
        let mut numbers = Numbers {
            packages: numbered(&known.packages, &mut { a.packages.len() as u32 }),
            interfaces: numbered(&known.interfaces, &mut next_interface),
            worlds: numbered(&roots, &mut next),
            types: vec![NONE; b.types.len()],
            moved: vec![false; b.types.len()],
            next_type: a.types.len() as u32,
            next_interface,
        };
        numbers.number_types(a, b, known);
        numbers
    }
    /// Types of worlds that are known, or root, stay behind.
    fn number_types(&mut self, a: &Resolve, b: &Resolve, known: &Known) {
        for (j, i) in known.interfaces.iter().enumerate() {
            if let Some(i) = i {
                let own = &a.interfaces[*i as usize].types;
                for (text, t) in &b.interfaces[j].types {
                    self.types[*t as usize] = own[text];
                }
            }
        }
        for (k, t) in b.types.iter().enumerate() {
            let stays = match t.owner {
                Owner::World(w) => known.worlds[w as usize].is_some() || known.roots[w as usize],
                _ => false,
            };
            if self.types[k] == NONE && !stays {
                self.types[k] = self.next_type;
                self.moved[k] = true;
                self.next_type += 1;
            }
        }
    }
    pub fn owner(&self, owner: Owner) -> Owner {
        match owner {
            Owner::None => Owner::None,
            Owner::Interface(i) => Owner::Interface(self.interfaces[i as usize]),
            Owner::World(w) => Owner::World(self.worlds[w as usize]),
        }
    }
    fn key(&self, key: Key) -> Key {
        match key {
            Key::Name(text) => Key::Name(text),
            Key::Interface(i) => Key::Interface(self.interfaces[i as usize]),
        }
    }
    pub fn package(&self, mut p: Package) -> Package {
        p.interfaces.values_mut().for_each(|i| *i = self.interfaces[*i as usize]);
        p.worlds.values_mut().for_each(|w| *w = self.worlds[*w as usize]);
        p
    }
    pub fn world(&self, w: World) -> World {
        let side = |items: Map<Key, Item>| -> Map<Key, Item> {
            items.into_iter().map(|(key, mut item)| {
                match &mut item {
                    Item::Function(f) => re_function(&self.types, f),
                    Item::Type(t) => *t = self.types[*t as usize],
                    Item::Interface { id, .. } => *id = self.interfaces[*id as usize],
                }
                (self.key(key), item)
            }).collect()
        };
        World { package: self.packages[w.package as usize], imports: side(w.imports), exports: side(w.exports), ..w }
    }
}

fn copy_of(t: &TypeDef, owner: Owner, kind: Kind) -> TypeDef {
    TypeDef {
        name: t.name.clone(),
        owner,
        docs: t.docs.clone(),
        stability: t.stability.clone(),
        external_id: t.external_id.clone(),
        kind,
    }
}

/// What the bound world gains.
#[derive(Default)]
pub struct Gained {
    pub types: Vec<TypeDef>,
    pub inline: Vec<Interface>,
    pub imports: Vec<(Key, Item)>,
    pub exports: Vec<(Key, Item)>,
}

/// What makes it.
pub struct Gain<'a> {
    gained: Gained,
    /// The number of each type as the bound world sees it.
    bound: Vec<u32>,
    next_type: u32,
    numbers: &'a Numbers,
    other: &'a Resolve,
    home: u32,
}

impl<'a> Gain<'a> {
    pub fn of(own: (&Resolve, u32), other: (&'a Resolve, u32), numbers: &'a Numbers, known: &[bool]) -> Gained {
        let world = &own.0.worlds[own.1 as usize];
        let mut gain = Gain {
            gained: Gained::default(),
            bound: numbers.types.clone(),
            next_type: numbers.next_type,
            numbers,
            other: other.0,
            home: world.package,
        };
        gain.types_of(own.1, world, other.1);
        let theirs = &other.0.worlds[other.1 as usize];
        let new = theirs.imports.iter().zip(known).filter(|x| !x.1).map(|x| x.0);
        let imports = new.map(|(key, item)| gain.item(key, item)).collect();
        let exports = theirs.exports.iter().map(|(key, item)| gain.item(key, item)).collect();
        Gained { imports, exports, ..gain.gained }
    }
    /// Types of the other world, and unnamed ones that use them, once more.
    fn types_of(&mut self, world: u32, own: &World, other_world: u32) {
        for (k, t) in self.other.types.iter().enumerate() {
            let owner = match t.owner {
                Owner::World(w) if w == other_world => {
                    let text = t.name.as_ref().expect("a name");
                    if let Some(Item::Type(id)) = own.imports.get(&Key::Name(text.clone())) {
                        self.bound[k] = *id;
                        continue;
                    }
                    Owner::World(world)
                }
                Owner::None if uses(&t.kind, |u| self.bound[u as usize] != self.numbers.types[u as usize]) => Owner::None,
                _ => continue,
            };
            let mut kind = t.kind.clone();
            re_kind(&self.bound, &mut kind);
            self.bound[k] = self.next_type;
            self.next_type += 1;
            self.gained.types.push(copy_of(t, owner, kind));
        }
    }
    fn item(&mut self, key: &Key, item: &Item) -> (Key, Item) {
        let mut item = item.clone();
        match &mut item {
            Item::Function(f) => re_function(&self.bound, f),
            Item::Type(t) => *t = self.bound[*t as usize],
            Item::Interface { id, .. } if self.other.interfaces[*id as usize].name.is_none() => *id = self.inline(*id),
            Item::Interface { id, .. } => *id = self.numbers.interfaces[*id as usize],
        }
        (self.numbers.key(key.clone()), item)
    }
    /// An inline interface once more, with types of its own.
    fn inline(&mut self, id: u32) -> u32 {
        let i = &self.other.interfaces[id as usize];
        let number = self.numbers.next_interface + self.gained.inline.len() as u32;
        let mut own: HashMap<u32, u32> = HashMap::new();
        for t in i.types.values() {
            let old = &self.other.types[*t as usize];
            let mut kind = old.kind.clone();
            replace(&mut kind, |t| own.get(&t).copied().unwrap_or(self.bound[t as usize]));
            own.insert(*t, self.next_type);
            self.next_type += 1;
            self.gained.types.push(copy_of(old, Owner::Interface(number), kind));
        }
        let new = |t: u32| own.get(&t).copied().unwrap_or(self.bound[t as usize]);
        let ty = |t: Type| match t {
            Type::Prim(_) => t,
            Type::Id(i) => Type::Id(new(i)),
        };
        let mut functions = i.functions.clone();
        for f in functions.values_mut() {
            f.resource = f.resource.map(new);
            f.params.iter_mut().for_each(|p| p.1 = ty(p.1));
            f.result = f.result.map(ty);
        }
        let types = i.types.iter().map(|(x, t)| (x.clone(), new(*t))).collect();
        let (docs, stability) = (i.docs.clone(), i.stability.clone());
        self.gained.inline.push(Interface { name: None, package: self.home, docs, stability, types, functions });
        number
    }
}
