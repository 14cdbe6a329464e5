//! A package from bytes. It checks frames, forms, indexes, labels, names that stand twice and that the views of an interface agree; of the other
//! rules (levels, whether each import is used, what is reached, keys of maps) it checks nothing.

use crate::forms::*;
use crate::model::*;
use std::collections::HashMap;

/// What a type index stands for.
#[derive(Clone)]
enum Slot<'b, 'a> {
    Type(Type),
    /// A definition, not yet used or named.
    Def(Kind, Option<u32>),
    Func(&'b Func<'a>),
    Instance(&'b [Decl<'a>]),
    Component,
}

/// Imports and exports.
type Sides = (Map<Key, Item>, Map<Key, Item>);

/// What stands in a component type so far.
struct Scope<'b, 'a> {
    slots: Vec<Slot<'b, 'a>>,
    instances: Vec<u32>,
    names: HashMap<String, u32>,
}

#[derive(Default)]
struct Build {
    r: Resolve,
    packages: HashMap<(String, String, Option<String>), u32>,
    interfaces: HashMap<String, u32>,
    kinds: HashMap<Kind, u32>,
}

fn split(path: &str) -> Result<(&str, &str, &str, Option<&str>), Fail> {
    let (front, version) = match path.split_once('@') {
        Some((f, v)) => (f, Some(v)),
        None => (path, None),
    };
    let (namespace, rest) = front.split_once(':').ok_or("path")?;
    let (package, name) = rest.split_once('/').ok_or("path")?;
    Ok((namespace, package, name, version))
}

/// What a function's name says: the letter of its kind, and the name of its resource.
fn sort_of(text: &str) -> Result<(u8, Option<&str>), Fail> {
    for (word, sort) in [("[method]", b'm'), ("[static]", b's')] {
        if let Some(rest) = text.strip_prefix(word) {
            let (resource, own) = rest.split_once('.').ok_or("name")?;
            return if is_label(resource) && is_label(own) { Ok((sort, Some(resource))) } else { Err("name") };
        }
    }
    match text.strip_prefix("[constructor]") {
        Some(rest) => Ok((b'c', Some(rest))),
        None if is_label(text) => Ok((b'f', None)),
        None => Err("name"),
    }
}

impl Build {
    fn package(&mut self, namespace: &str, name: &str, version: Option<&str>) -> u32 {
        let key = (namespace.to_string(), name.to_string(), version.map(str::to_string));
        if let Some(p) = self.packages.get(&key) {
            return *p;
        }
        let p = self.r.packages.len() as u32;
        self.r.packages.push(Package { namespace: key.0.clone(), name: key.1.clone(), version: key.2.clone(), ..Package::default() });
        self.packages.insert(key, p);
        p
    }
    fn unnamed(&mut self, kind: &Kind) -> u32 {
        if let Some(i) = self.kinds.get(kind) {
            return *i;
        }
        let i = self.r.types.len() as u32;
        self.r.types.push(TypeDef {
            name: None,
            owner: Owner::None,
            docs: None,
            stability: Stability::Unknown,
            external_id: None,
            kind: kind.clone(),
        });
        self.kinds.insert(kind.clone(), i);
        i
    }
    fn val<'b, 'a>(&mut self, slots: &mut [Slot<'b, 'a>], v: Val) -> Result<Type, Fail> {
        let index = match v {
            Val::Prim(p) => return Ok(Type::Prim(p)),
            Val::Index(i) => i,
        };
        match slots.get_mut(index as usize).ok_or("scope")? {
            Slot::Type(t) => Ok(*t),
            Slot::Def(_, Some(id)) => Ok(Type::Id(*id)),
            Slot::Def(kind, known) => {
                if matches!(kind, Kind::Record(_) | Kind::Variant(_) | Kind::Flags(_) | Kind::Enum(_)) {
                    return Err("not named");
                }
                let id = self.unnamed(kind);
                *known = Some(id);
                Ok(Type::Id(id))
            }
            _ => Err("sort"),
        }
    }
    fn opt<'b, 'a>(&mut self, slots: &mut [Slot<'b, 'a>], v: Option<Val>) -> Result<Option<Type>, Fail> {
        v.map(|v| self.val(slots, v)).transpose()
    }
    fn id<'b, 'a>(&mut self, slots: &mut [Slot<'b, 'a>], index: u32) -> Result<u32, Fail> {
        match self.val(slots, Val::Index(index))? {
            Type::Id(id) => Ok(id),
            Type::Prim(_) => Err("sort"),
        }
    }
    fn def<'b, 'a>(&mut self, slots: &mut [Slot<'b, 'a>], def: &Def<'a>) -> Result<Slot<'b, 'a>, Fail> {
        let kind = match def {
            Def::Prim(p) => return Ok(Slot::Type(Type::Prim(*p))),
            Def::Record(fields) => {
                if fields.is_empty() {
                    return Err("empty");
                }
                labels(fields.iter().map(|f| f.0))?;
                let fields: Result<_, Fail> = fields.iter().map(|f| Ok((f.0.to_string(), self.val(slots, f.1)?, None))).collect();
                Kind::Record(fields?)
            }
            Def::Variant(cases) => {
                if cases.is_empty() {
                    return Err("empty");
                }
                labels(cases.iter().map(|f| f.0))?;
                let cases: Result<_, Fail> = cases.iter().map(|c| Ok((c.0.to_string(), self.opt(slots, c.1)?, None))).collect();
                Kind::Variant(cases?)
            }
            Def::List(v) => Kind::List(self.val(slots, *v)?),
            Def::Fixed(v, n) => Kind::Fixed(self.val(slots, *v)?, *n),
            Def::Tuple(vals) => {
                if vals.is_empty() {
                    return Err("empty");
                }
                let types: Result<_, Fail> = vals.iter().map(|v| self.val(slots, *v)).collect();
                Kind::Tuple(types?)
            }
            Def::Flags(names) | Def::Enum(names) if names.is_empty() => return Err("empty"),
            Def::Flags(names) | Def::Enum(names) if labels(names.iter().copied()).is_err() => return Err("label"),
            Def::Flags(names) => Kind::Flags(names.iter().map(|n| (n.to_string(), None)).collect()),
            Def::Enum(names) => Kind::Enum(names.iter().map(|n| (n.to_string(), None)).collect()),
            Def::Option(v) => Kind::Option(self.val(slots, *v)?),
            Def::Result(a, b) => Kind::Result(self.opt(slots, *a)?, self.opt(slots, *b)?),
            Def::Own(i) => Kind::Own(self.id(slots, *i)?),
            Def::Borrow(i) => Kind::Borrow(self.id(slots, *i)?),
            Def::Stream(v) => Kind::Stream(self.opt(slots, *v)?),
            Def::Future(v) => Kind::Future(self.opt(slots, *v)?),
            Def::Map(k, v) => Kind::Map(self.val(slots, *k)?, self.val(slots, *v)?),
        };
        Ok(Slot::Def(kind, None))
    }
    /// The kind that a name declares which is equal to this index.
    fn declared<'b, 'a>(&mut self, slots: &[Slot<'b, 'a>], desc: Desc) -> Result<Kind, Fail> {
        match desc {
            Desc::Resource => Ok(Kind::Resource),
            Desc::Eq(i) => match slots.get(i as usize).ok_or("scope")? {
                Slot::Type(t) => Ok(Kind::Alias(*t)),
                Slot::Def(kind, _) => Ok(kind.clone()),
                _ => Err("sort"),
            },
            _ => Err("sort"),
        }
    }
    fn new_type(&mut self, text: &str, owner: Owner, external_id: Option<&str>, kind: Kind) -> u32 {
        let id = self.r.types.len() as u32;
        self.r.types.push(TypeDef {
            name: Some(text.to_string()),
            owner,
            docs: None,
            stability: Stability::Unknown,
            external_id: external_id.map(str::to_string),
            kind,
        });
        id
    }
    fn function<'b, 'a>(
        &mut self,
        slots: &mut [Slot<'b, 'a>],
        name: &Name<'a>,
        index: u32,
        resource: impl Fn(&Self, &str) -> Option<u32>,
    ) -> Result<Function, Fail> {
        let f = match slots.get(index as usize).ok_or("scope")? {
            Slot::Func(f) => *f,
            _ => return Err("sort"),
        };
        let (sort, of) = sort_of(name.text)?;
        let resource = match of {
            Some(text) => Some(resource(self, text).ok_or("no resource")?),
            None => None,
        };
        labels(f.params.iter().map(|p| p.0))?;
        let params: Result<_, Fail> = f.params.iter().map(|p| Ok((p.0.to_string(), self.val(slots, p.1)?))).collect();
        Ok(Function {
            name: name.text.to_string(),
            sort,
            is_async: f.is_async,
            resource,
            params: params?,
            result: self.opt(slots, f.result)?,
            docs: None,
            stability: Stability::Unknown,
            external_id: name.external_id.map(str::to_string),
        })
    }

    /// The interface of a path, or a new one, and whether it was known.
    fn interface_at(&mut self, path: Option<&str>, home: u32) -> Result<(u32, bool), Fail> {
        if let Some(id) = path.and_then(|p| self.interfaces.get(p)) {
            return Ok((*id, true));
        }
        let id = self.r.interfaces.len() as u32;
        let (name, package) = match path {
            Some(p) => {
                let (namespace, package, name, version) = split(p)?;
                let package = self.package(namespace, package, version);
                self.r.packages[package as usize].interfaces.insert(name.to_string(), id);
                self.interfaces.insert(p.to_string(), id);
                (Some(name.to_string()), package)
            }
            None => (None, home),
        };
        self.r.interfaces.push(Interface { name, package, ..Interface::default() });
        Ok((id, false))
    }
    /// A type that a known interface has at this place.
    fn known_type(&self, id: u32, at: usize, name: &Name, kind: &Kind) -> Result<u32, Fail> {
        let (text, t) = self.r.interfaces[id as usize].types.get_index(at).ok_or("disagree")?;
        let def = &self.r.types[*t as usize];
        if text != name.text || def.kind != *kind || def.external_id.as_deref() != name.external_id {
            return Err("disagree");
        }
        Ok(*t)
    }
    fn own_type(&mut self, id: u32, name: &Name, kind: Kind) -> Result<u32, Fail> {
        let t = self.new_type(name.text, Owner::Interface(id), name.external_id, kind);
        if !is_label(name.text) {
            return Err("label");
        }
        match self.r.interfaces[id as usize].types.insert(name.text.to_string(), t) {
            Some(_) => Err("twice"),
            None => Ok(t),
        }
    }
    /// The functions of a view: the interface gets them, or has the same.
    fn agree(&mut self, id: u32, functions: Map<String, Function>) -> Result<(), Fail> {
        let own = &mut self.r.interfaces[id as usize].functions;
        if own.is_empty() {
            *own = functions;
            return Ok(());
        }
        if functions.is_empty() {
            return Ok(());
        }
        if own.len() != functions.len() {
            return Err("disagree");
        }
        for (text, f) in &functions {
            let g = own.get(text.as_str()).ok_or("disagree")?;
            if g.params != f.params || g.result != f.result || g.is_async != f.is_async || g.external_id != f.external_id {
                return Err("disagree");
            }
        }
        Ok(())
    }

    /// An instance under a path, or inline: its number.
    fn instance<'b, 'a>(&mut self, decls: &'b [Decl<'a>], path: Option<&str>, home: u32, outer: &[Slot<'b, 'a>]) -> Result<u32, Fail> {
        let (id, is_known) = self.interface_at(path, home)?;
        let mut slots: Vec<Slot<'b, 'a>> = Vec::new();
        let mut count = 0;
        let mut functions = Map::new();
        for d in decls {
            match d {
                Decl::Type(Raw::Def(def)) => {
                    let slot = self.def(&mut slots, def)?;
                    slots.push(slot);
                }
                Decl::Type(Raw::Func(f)) => slots.push(Slot::Func(f)),
                Decl::Outer(i) => match outer.get(*i as usize).ok_or("scope")? {
                    Slot::Type(t @ Type::Id(_)) => slots.push(Slot::Type(*t)),
                    _ => return Err("sort"),
                },
                Decl::Export(name, Desc::Func(i)) => {
                    let f = self.function(&mut slots, name, *i, |b, text| b.r.interfaces[id as usize].types.get(text).copied())?;
                    if functions.insert(name.text.to_string(), f).is_some() {
                        return Err("twice");
                    }
                }
                Decl::Export(name, desc) => {
                    let kind = self.declared(&slots, *desc)?;
                    let t = if is_known { self.known_type(id, count, name, &kind)? } else { self.own_type(id, name, kind)? };
                    count += 1;
                    slots.push(Slot::Type(Type::Id(t)));
                }
                _ => return Err("form"),
            }
        }
        if count != self.r.interfaces[id as usize].types.len() {
            return Err("disagree");
        }
        self.agree(id, functions)?;
        Ok(id)
    }

    /// The slot of a declaration that declares no import or export.
    fn slot<'b, 'a>(&mut self, scope: &mut Scope<'b, 'a>, d: &'b Decl<'a>) -> Result<Slot<'b, 'a>, Fail> {
        Ok(match d {
            Decl::Type(Raw::Def(def)) => self.def(&mut scope.slots, def)?,
            Decl::Type(Raw::Func(f)) => Slot::Func(f),
            Decl::Type(Raw::Instance(x)) => Slot::Instance(x),
            Decl::Type(Raw::Component(_)) => Slot::Component,
            Decl::Alias(i, text) => {
                let id = *scope.instances.get(*i as usize).ok_or("scope")?;
                Slot::Type(Type::Id(*self.r.interfaces[id as usize].types.get(*text).ok_or("no such name")?))
            }
            _ => return Err("form"),
        })
    }
    /// An import or export, as an item of a world.
    fn item<'b, 'a>(&mut self, scope: &mut Scope<'b, 'a>, name: &Name<'a>, desc: Desc, world: u32, home: u32) -> Result<(Key, Item), Fail> {
        let own = || Key::Name(name.text.to_string());
        match desc {
            Desc::Func(i) => {
                let names = &scope.names;
                let f = self.function(&mut scope.slots, name, i, |_, text| names.get(text).copied())?;
                Ok((own(), Item::Function(f)))
            }
            Desc::Instance(i) => {
                let x = match scope.slots.get(i as usize).ok_or("scope")? {
                    Slot::Instance(x) => *x,
                    _ => return Err("sort"),
                };
                let is_path = name.text.contains(':');
                let path = if is_path { Some(name.text) } else { name.implements.as_deref() };
                let id = self.instance(x, path, home, &scope.slots)?;
                scope.instances.push(id);
                let key = if is_path { Key::Interface(id) } else { own() };
                let external_id = name.external_id.map(str::to_string);
                Ok((key, Item::Interface { id, stability: Stability::Unknown, docs: None, external_id }))
            }
            Desc::Component(_) => Err("sort"),
            desc => {
                let kind = self.declared(&scope.slots, desc)?;
                let t = self.new_type(name.text, Owner::World(world), name.external_id, kind);
                scope.names.insert(name.text.to_string(), t);
                scope.slots.push(Slot::Type(Type::Id(t)));
                Ok((own(), Item::Type(t)))
            }
        }
    }

    /// The imports and exports of a component type; of an interface they are instances.
    fn component<'b, 'a>(&mut self, decls: &'b [Decl<'a>], world: u32, home: u32) -> Result<Sides, Fail> {
        let mut scope = Scope { slots: Vec::new(), instances: Vec::new(), names: HashMap::new() };
        let (mut imports, mut exports) = (Map::new(), Map::new());
        for d in decls {
            let (items, name, desc) = match d {
                Decl::Import(name, desc) => (&mut imports, name, desc),
                Decl::Export(name, desc) => (&mut exports, name, desc),
                other => {
                    let slot = self.slot(&mut scope, other)?;
                    scope.slots.push(slot);
                    continue;
                }
            };
            let (key, item) = self.item(&mut scope, name, *desc, world, home)?;
            if items.insert(key, item).is_some() {
                return Err("twice");
            }
        }
        Ok((imports, exports))
    }

    /// A type at the top: an interface, or the wrapper of a world.
    fn top(&mut self, decls: &[Decl<'_>]) -> Result<(u32, Option<u32>), Fail> {
        if let [Decl::Type(Raw::Component(inner)), Decl::Export(name, Desc::Component(0))] = decls {
            let (namespace, package, short, version) = split(name.text)?;
            let home = self.package(namespace, package, version);
            let id = self.r.worlds.len() as u32;
            self.r.packages[home as usize].worlds.insert(short.to_string(), id);
            self.r.worlds.push(World::new(short, home));
            let (imports, exports) = self.component(inner, id, home)?;
            let w = &mut self.r.worlds[id as usize];
            (w.imports, w.exports) = (imports, exports);
            return Ok((home, None));
        }
        let (_, exports) = self.component(decls, u32::MAX, 0)?;
        match exports.get_index(0) {
            Some((Key::Interface(id), _)) if exports.len() == 1 => Ok((self.r.interfaces[*id as usize].package, Some(*id))),
            _ => Err("no interface"),
        }
    }
}

/// One world by itself.
pub fn decode_world(bytes: &[u8]) -> Result<(Resolve, u32), Fail> {
    let (r, _) = read(bytes, true)?;
    Ok((r, 0))
}

pub fn decode(bytes: &[u8]) -> Result<(Resolve, u32), Fail> {
    read(bytes, false)
}

/// What the sections of a component have given so far.
#[derive(Default)]
struct Sections {
    build: Build,
    own: Option<u32>,
    listed: Map<String, u32>,
    slots: u32,
    exported: u32,
}

impl Sections {
    fn types(&mut self, inner: &mut Input) -> Result<(), Fail> {
        for _ in 0..inner.u32()? {
            let decls = match inner.raw()? {
                Raw::Component(decls) => decls,
                _ => return Err("no component"),
            };
            let (home, interface) = self.build.top(&decls)?;
            if let Some(id) = interface {
                self.listed.insert(self.build.r.interfaces[id as usize].name.clone().expect("a name"), id);
            }
            if *self.own.get_or_insert(home) != home {
                return Err("two packages");
            }
            self.slots += 1;
        }
        Ok(())
    }
    fn exports(&mut self, inner: &mut Input) -> Result<(), Fail> {
        for _ in 0..inner.u32()? {
            inner.extern_name()?;
            if inner.byte()? != 3 || inner.u32()? >= self.slots || inner.byte()? != 0 {
                return Err("export");
            }
            self.slots += 1;
            self.exported += 1;
        }
        Ok(())
    }
}

fn read(bytes: &[u8], is_world: bool) -> Result<(Resolve, u32), Fail> {
    let mut input = Input { bytes, at: 0 };
    if input.take(8)? != [0, 0x61, 0x73, 0x6d, 0x0d, 0, 1, 0] {
        return Err("preamble");
    }
    let mut found = Sections::default();
    while input.at < bytes.len() {
        let id = input.byte()?;
        let length = input.u32()? as usize;
        let mut inner = Input { bytes: input.take(length)?, at: 0 };
        match id {
            0 => continue,
            7 => found.types(&mut inner)?,
            11 => found.exports(&mut inner)?,
            _ => return Err("section"),
        }
        if inner.at != length {
            return Err("trailing");
        }
    }
    let mut r = found.build.r;
    match found.own {
        Some(own) if is_world && found.slots == 2 && found.exported == 1 && r.worlds.len() == 1 => Ok((r, own)),
        Some(_) if is_world => Err("no world"),
        Some(own) if found.exported > 0 => {
            // A package lists its interfaces in the order in which they stand at the top.
            r.packages[own as usize].interfaces = found.listed;
            Ok((r, own))
        }
        _ => Err("no package"),
    }
}

/// The encoding that a component says.
pub fn encoding(bytes: &[u8]) -> Result<u8, Fail> {
    let mut input = Input { bytes, at: 8 };
    let mut found = None;
    while input.at < bytes.len() {
        let id = input.byte()?;
        let length = input.u32()? as usize;
        let contents = input.take(length)?;
        if id == 0 {
            let mut inner = Input { bytes: contents, at: 0 };
            if inner.name()? == "wit-component-encoding" {
                found = Some(&contents[inner.at..]);
            }
        }
    }
    match found {
        Some([4, e @ 0..=2]) => Ok(*e),
        _ => Err("encoding"),
    }
}
