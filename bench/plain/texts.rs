//! WIT texts to a `Resolve`. It reads what the library reads, but for documentation, which neither keeps, and tests no rule of validity but that names are
//! there, stand once and need no cycle, and that handles are of resources.

use crate::model::{Function, Interface, Item as Entry, Key, Kind, Map, Owner, Package as Made, Resolve, Stability, Type, TypeDef, World};
use crate::trees::{packages, Declared, Extern, Front, Head, Item, Member, Package, Path, Signature, Tree, WorldMember};
use std::collections::{HashMap, HashSet};

type Told<T> = Result<T, String>;

fn refused<T>(name: &str, why: &str) -> Told<T> {
    Err(format!("`{name}`: {why}"))
}

#[derive(Clone, Copy)]
enum Named {
    Interface(u32),
    World,
}

struct InterfaceSource<'a> {
    package: u32,
    front: &'a Front,
    name: &'a str,
    members: &'a [Member<'a>],
}

struct WorldSource<'a> {
    package: u32,
    front: &'a Front,
    name: &'a str,
    members: &'a [WorldMember<'a>],
}

#[derive(Default)]
struct Sources<'a> {
    heads: Vec<Head<'a>>,
    numbers: HashMap<Head<'a>, u32>,
    names: HashMap<(u32, &'a str), Named>,
    interfaces: Vec<InterfaceSource<'a>>,
    worlds: Vec<WorldSource<'a>>,
}

impl<'a> Sources<'a> {
    fn number_of(&mut self, head: Head<'a>) -> u32 {
        let next = self.heads.len() as u32;
        let number = *self.numbers.entry(head).or_insert(next);
        if number == next {
            self.heads.push(head);
        }
        number
    }
    fn add(&mut self, package: &'a Package<'a>) -> Told<u32> {
        let home = self.number_of(package.head);
        for item in &package.items {
            let (name, named) = match item {
                Item::Interface(front, name, members) => {
                    self.interfaces.push(InterfaceSource { package: home, front, name, members });
                    (*name, Named::Interface(self.interfaces.len() as u32 - 1))
                }
                Item::World(front, name, members) => {
                    self.worlds.push(WorldSource { package: home, front, name, members });
                    (*name, Named::World)
                }
            };
            if self.names.insert((home, name), named).is_some() {
                return refused(name, "stands twice");
            }
        }
        Ok(home)
    }
    fn interface_of(&self, own: u32, path: &Path<'a>) -> Told<u32> {
        let home = match path.home {
            None => own,
            Some(head) => match self.numbers.get(&head) {
                Some(number) => *number,
                None => return refused(head.name, "no such package"),
            },
        };
        match self.names.get(&(home, path.interface)) {
            Some(Named::Interface(number)) => Ok(*number),
            _ => refused(path.interface, "no such interface"),
        }
    }
    fn needs_of(&self, own: u32, members: &'a [Member<'a>]) -> Told<Vec<u32>> {
        members.iter().filter_map(|m| if let Member::Use(_, path, _) = m { Some(self.interface_of(own, path)) } else { None }).collect()
    }
}

/// All numbers, each behind those that it needs.
fn ordered(needs: &[Vec<u32>]) -> Told<Vec<u32>> {
    let mut state = vec![0u8; needs.len()];
    let mut order = Vec::with_capacity(needs.len());
    for first in 0..needs.len() as u32 {
        let mut path = if state[first as usize] == 0 { vec![(first, 0)] } else { vec![] };
        while let Some((n, at)) = path.pop() {
            state[n as usize] = 1;
            match needs[n as usize].get(at) {
                None => {
                    state[n as usize] = 2;
                    order.push(n);
                }
                Some(&m) => {
                    path.push((n, at + 1));
                    match state[m as usize] {
                        0 => path.push((m, 0)),
                        1 => return Err("something needs itself".to_string()),
                        _ => {}
                    }
                }
            }
        }
    }
    Ok(order)
}

#[derive(Clone, Copy)]
enum Own<'a> {
    Used(&'a Front, &'a Path<'a>, &'a str, &'a str),
    Declared(&'a Front, &'a str, &'a Declared<'a>),
}

/// The types of an interface or a world by name, which get numbers as they are made.
struct Scope<'a> {
    package: u32,
    owner: Owner,
    types: Vec<Own<'a>>,
    places: HashMap<&'a str, u32>,
    made: Vec<Option<u32>>,
}

impl<'a> Scope<'a> {
    fn new(package: u32, owner: Owner) -> Self {
        Scope { package, owner, types: Vec::new(), places: HashMap::new(), made: Vec::new() }
    }
    fn add(&mut self, name: &'a str, own: Own<'a>) -> Told<()> {
        if self.places.insert(name, self.types.len() as u32).is_some() {
            return refused(name, "stands twice");
        }
        self.types.push(own);
        self.made.push(None);
        Ok(())
    }
    fn add_member(&mut self, member: &'a Member<'a>) -> Told<()> {
        match member {
            Member::Use(front, path, names) => names.iter().try_for_each(|(other, own)| self.add(own, Own::Used(front, path, other, own))),
            Member::Type(front, name, declared) => self.add(name, Own::Declared(front, name, declared)),
            Member::Function(..) => Ok(()),
        }
    }
    fn place(&self, name: &str) -> Told<u32> {
        self.places.get(name).copied().ok_or_else(|| format!("`{name}`: no such type"))
    }
    fn id(&self, name: &str) -> Told<u32> {
        self.made[self.place(name)? as usize].ok_or_else(|| format!("`{name}`: no such type"))
    }
    fn needs(&self, ty: &Tree<'a>, out: &mut Vec<u32>) -> Told<()> {
        match ty {
            Tree::Prim(_) => {}
            Tree::Name(name) | Tree::Own(name) | Tree::Borrow(name) => out.push(self.place(name)?),
            Tree::Tuple(types) => types.iter().try_for_each(|t| self.needs(t, out))?,
            Tree::Option(t) | Tree::List(t, _) => self.needs(t, out)?,
            Tree::Map(k, v) => {
                self.needs(k, out)?;
                self.needs(v, out)?;
            }
            Tree::Result(a, b) => a.iter().chain(b).try_for_each(|t| self.needs(t, out))?,
            Tree::Future(t) | Tree::Stream(t) => t.iter().try_for_each(|t| self.needs(t, out))?,
        }
        Ok(())
    }
    fn needs_of(&self, own: &Own<'a>) -> Told<Vec<u32>> {
        let mut out = Vec::new();
        if let Own::Declared(_, _, declared) = own {
            match declared {
                Declared::Record(fields) => fields.iter().try_for_each(|f| self.needs(&f.1, &mut out))?,
                Declared::Variant(cases) => cases.iter().filter_map(|c| c.1.as_ref()).try_for_each(|t| self.needs(t, &mut out))?,
                Declared::Alias(ty) => self.needs(ty, &mut out)?,
                _ => {}
            }
        }
        Ok(out)
    }
}

fn apart<'a>(labels: impl Iterator<Item = &'a str>) -> Told<()> {
    let mut seen = HashSet::new();
    for label in labels {
        if !seen.insert(label) {
            return refused(label, "stands twice");
        }
    }
    Ok(())
}

/// What is made.
#[derive(Default)]
struct Maker {
    types: Vec<TypeDef>,
    is_resource: Vec<bool>,
    interfaces: Vec<Interface>,
    numbers: Vec<u32>,
}

impl Maker {
    fn push(&mut self, def: TypeDef) -> u32 {
        let is = match def.kind {
            Kind::Resource => true,
            Kind::Alias(Type::Id(id)) => self.is_resource[id as usize],
            _ => false,
        };
        self.types.push(def);
        self.is_resource.push(is);
        self.types.len() as u32 - 1
    }
    fn unnamed(&mut self, kind: Kind) -> Type {
        Type::Id(self.push(TypeDef { name: None, owner: Owner::None, docs: None, stability: Stability::Unknown, external_id: None, kind }))
    }
    fn named(&mut self, scope: &Scope, front: &Front, name: &str, kind: Kind) -> u32 {
        self.push(TypeDef {
            name: Some(name.to_string()),
            owner: scope.owner,
            docs: None,
            stability: front.stability.clone(),
            external_id: front.external_id.clone(),
            kind,
        })
    }
    fn resource(&self, scope: &Scope, name: &str) -> Told<u32> {
        let id = scope.id(name)?;
        if self.is_resource[id as usize] { Ok(id) } else { refused(name, "is no resource") }
    }
    fn optional(&mut self, scope: &Scope, ty: &Option<Box<Tree>>) -> Told<Option<Type>> {
        ty.as_ref().map(|t| self.lower(scope, t)).transpose()
    }
    /// A kind of a type that is no name and no primitive.
    fn kind(&mut self, scope: &Scope, ty: &Tree) -> Told<Kind> {
        Ok(match ty {
            Tree::Prim(_) | Tree::Name(_) => Kind::Alias(self.lower(scope, ty)?),
            Tree::Own(name) => Kind::Own(self.resource(scope, name)?),
            Tree::Borrow(name) => Kind::Borrow(self.resource(scope, name)?),
            Tree::Tuple(types) => Kind::Tuple(types.iter().map(|t| self.lower(scope, t)).collect::<Told<_>>()?),
            Tree::Option(t) => Kind::Option(self.lower(scope, t)?),
            Tree::List(t, None) => Kind::List(self.lower(scope, t)?),
            Tree::List(t, Some(length)) => Kind::Fixed(self.lower(scope, t)?, *length),
            Tree::Map(k, v) => Kind::Map(self.lower(scope, k)?, self.lower(scope, v)?),
            Tree::Result(a, b) => Kind::Result(self.optional(scope, a)?, self.optional(scope, b)?),
            Tree::Future(t) => Kind::Future(self.optional(scope, t)?),
            Tree::Stream(t) => Kind::Stream(self.optional(scope, t)?),
        })
    }
    fn lower(&mut self, scope: &Scope, ty: &Tree) -> Told<Type> {
        match ty {
            Tree::Prim(byte) => Ok(Type::Prim(*byte)),
            Tree::Name(name) => {
                let id = scope.id(name)?;
                Ok(if self.is_resource[id as usize] { self.unnamed(Kind::Own(id)) } else { Type::Id(id) })
            }
            _ => {
                let kind = self.kind(scope, ty)?;
                Ok(self.unnamed(kind))
            }
        }
    }
    fn declared(&mut self, scope: &Scope, declared: &Declared) -> Told<Kind> {
        Ok(match declared {
            Declared::Record(fields) => {
                apart(fields.iter().map(|f| f.0))?;
                Kind::Record(fields.iter().map(|f| Ok((f.0.to_string(), self.lower(scope, &f.1)?, None))).collect::<Told<_>>()?)
            }
            Declared::Variant(cases) => {
                apart(cases.iter().map(|c| c.0))?;
                let one = |m: &mut Self, t: &Option<Tree>| t.as_ref().map(|t| m.lower(scope, t)).transpose();
                Kind::Variant(cases.iter().map(|c| Ok((c.0.to_string(), one(self, &c.1)?, None))).collect::<Told<_>>()?)
            }
            Declared::Flags(flags) => {
                apart(flags.iter().copied())?;
                Kind::Flags(flags.iter().map(|f| (f.to_string(), None)).collect())
            }
            Declared::Enum(cases) => {
                apart(cases.iter().copied())?;
                Kind::Enum(cases.iter().map(|c| (c.to_string(), None)).collect())
            }
            Declared::Alias(Tree::Name(name)) => Kind::Alias(Type::Id(scope.id(name)?)),
            Declared::Alias(ty) => self.kind(scope, ty)?,
            Declared::Resource(_) => Kind::Resource,
        })
    }
    fn target(&self, sources: &Sources, scope: &Scope, path: &Path, name: &str) -> Told<u32> {
        let interface = sources.interface_of(scope.package, path)?;
        let made = self.numbers[interface as usize] as usize;
        self.interfaces[made].types.get(name).copied().ok_or_else(|| format!("`{name}`: no such type"))
    }
    /// All types of a scope, in the order in which they are made.
    fn make_all(&mut self, sources: &Sources, scope: &mut Scope) -> Told<Map<String, u32>> {
        let needs = scope.types.iter().map(|own| scope.needs_of(own)).collect::<Told<Vec<_>>>()?;
        let mut all = Map::new();
        for place in ordered(&needs)? {
            let (front, name, kind) = match scope.types[place as usize] {
                Own::Used(front, path, other, own) => (front, own, Kind::Alias(Type::Id(self.target(sources, scope, path, other)?))),
                Own::Declared(front, name, declared) => (front, name, self.declared(scope, declared)?),
            };
            let id = self.named(scope, front, name, kind);
            scope.made[place as usize] = Some(id);
            all.insert(name.to_string(), id);
        }
        Ok(all)
    }

    // ---- functions

    fn function(&mut self, scope: &Scope, front: &Front, sort: u8, own: Option<(&str, u32)>, name: &str, signature: &Signature) -> Told<Function> {
        apart(signature.params.iter().map(|p| p.0).chain((sort == b'm').then_some("self")))?;
        let mut params = Vec::with_capacity(signature.params.len() + 1);
        if let (b'm', Some((_, id))) = (sort, own) {
            params.push(("self".to_string(), self.unnamed(Kind::Borrow(id))));
        }
        for (name, ty) in &signature.params {
            params.push((name.to_string(), self.lower(scope, ty)?));
        }
        let result = match (sort, own, &signature.result) {
            (b'c', Some((_, id)), None) => Some(self.unnamed(Kind::Own(id))),
            (_, _, result) => result.as_ref().map(|t| self.lower(scope, t)).transpose()?,
        };
        let name = match (sort, own) {
            (b'c', Some((resource, _))) => format!("[constructor]{resource}"),
            (b'm', Some((resource, _))) => format!("[method]{resource}.{name}"),
            (b's', Some((resource, _))) => format!("[static]{resource}.{name}"),
            _ => name.to_string(),
        };
        Ok(Function {
            name,
            sort,
            is_async: signature.is_async,
            resource: own.map(|o| o.1),
            params,
            result,
            docs: None,
            stability: front.stability.clone(),
            external_id: front.external_id.clone(),
        })
    }
    fn functions_of(&mut self, scope: &Scope, member: &Member, mut add: impl FnMut(Function) -> Told<()>) -> Told<()> {
        match member {
            Member::Type(_, name, Declared::Resource(inner)) => {
                let id = scope.id(name)?;
                for (front, sort, own, signature) in inner {
                    add(self.function(scope, front, *sort, Some((name, id)), own, signature)?)?;
                }
            }
            Member::Function(front, name, signature) => {
                if scope.places.contains_key(name) {
                    return refused(name, "stands twice");
                }
                add(self.function(scope, front, b'f', None, name, signature)?)?;
            }
            _ => {}
        }
        Ok(())
    }

    // ---- interfaces

    fn interface<'a>(&mut self, sources: &Sources<'a>, package: u32, name: Option<&str>, front: &Front, members: &'a [Member<'a>]) -> Told<u32> {
        let number = self.interfaces.len() as u32;
        let mut scope = Scope::new(package, Owner::Interface(number));
        members.iter().try_for_each(|m| scope.add_member(m))?;
        let types = self.make_all(sources, &mut scope)?;
        let mut functions = Map::new();
        for member in members {
            self.functions_of(&scope, member, |f| {
                let name = f.name.clone();
                if functions.insert(name.clone(), f).is_some() { refused(&name, "stands twice") } else { Ok(()) }
            })?;
        }
        self.interfaces.push(Interface { name: name.map(str::to_string), package, docs: None, stability: front.stability.clone(), types, functions });
        Ok(number)
    }
}

// ---- worlds

/// A world that is made: what it states by path, and which interfaces stand under a label.
struct WorldMaker<'m, 'a> {
    maker: &'m mut Maker,
    sources: &'m Sources<'a>,
    needs: &'m [Vec<u32>],
    world: &'m WorldSource<'a>,
    imports: HashMap<u32, &'a Front>,
    exports: HashMap<u32, &'a Front>,
    labelled: HashSet<u32>,
    /// For each, how many exports by path stand before it.
    labelled_exports: HashMap<u32, usize>,
}

fn item(number: u32, front: &Front) -> Entry {
    Entry::Interface { id: number, stability: front.stability.clone(), docs: None, external_id: front.external_id.clone() }
}

fn add_new(entries: &mut Map<Key, Entry>, name: &str, entry: Entry) -> Told<()> {
    if entries.insert(Key::Name(name.to_string()), entry).is_some() { refused(name, "stands twice") } else { Ok(()) }
}

impl<'a> WorldMaker<'_, 'a> {
    fn state(&mut self) -> Told<()> {
        for member in self.world.members {
            let (front, path, is_import) = match member {
                WorldMember::Import(front, Extern::Path(path)) => (front, path, true),
                WorldMember::Export(front, Extern::Path(path)) => (front, path, false),
                _ => continue,
            };
            let number = self.sources.interface_of(self.world.package, path)?;
            let stated = if is_import { &mut self.imports } else { &mut self.exports };
            if stated.insert(number, front).is_some() {
                return refused(path.interface, "stands twice");
            }
        }
        Ok(())
    }
    /// Puts an interface behind those that it needs.
    fn put(&self, entries: &mut Map<Key, Entry>, first: u32, is_import: bool) {
        let bare = Front::default();
        let mut path = vec![(first, 0)];
        while let Some((n, at)) = path.pop() {
            let number = self.maker.numbers[n as usize];
            if entries.contains_key(&Key::Interface(number)) {
                continue;
            }
            let stated = if is_import { &self.imports } else { &self.exports };
            match self.needs[n as usize].get(at) {
                None => {
                    entries.insert(Key::Interface(number), item(number, stated.get(&n).copied().unwrap_or(&bare)));
                }
                Some(&m) => {
                    path.push((n, at + 1));
                    if if is_import { !self.labelled.contains(&m) } else { stated.contains_key(&m) } {
                        path.push((m, 0));
                    }
                }
            }
        }
    }
    fn put_needs(&self, entries: &mut Map<Key, Entry>, needs: &[u32], is_import: bool) {
        for &n in needs {
            if if is_import { !self.labelled.contains(&n) } else { self.exports.contains_key(&n) } {
                self.put(entries, n, is_import);
            }
        }
    }
    fn external(&mut self, entries: &mut Map<Key, Entry>, front: &Front, external: &'a Extern<'a>, is_import: bool) -> Told<()> {
        let home = self.world.package;
        match external {
            Extern::Path(path) => {
                let id = self.sources.interface_of(home, path)?;
                self.put(entries, id, is_import);
                Ok(())
            }
            Extern::Named(name, path) => {
                let id = self.sources.interface_of(home, path)?;
                self.put_needs(entries, &self.needs[id as usize], is_import);
                if is_import {
                    self.labelled.insert(id);
                }
                add_new(entries, name, item(self.maker.numbers[id as usize], front))
            }
            Extern::Inline(name, members) => {
                let needs = self.sources.needs_of(home, members)?;
                self.put_needs(entries, &needs, is_import);
                let number = self.maker.interface(self.sources, home, None, &Front::default(), members)?;
                add_new(entries, name, item(number, front))
            }
            Extern::Function(..) => Ok(()),
        }
    }
    /// Imports what uses and exports need. An export under a label serves those that stand behind it.
    fn put_needed(&mut self, entries: &mut Map<Key, Entry>) -> Told<()> {
        let home = self.world.package;
        let mut pulled = Map::new();
        for member in self.world.members {
            let (needs, place) = match member {
                WorldMember::Own(Member::Use(_, path, _)) => {
                    let id = self.sources.interface_of(home, path)?;
                    if !self.labelled.contains(&id) {
                        self.put(entries, id, true);
                    }
                    continue;
                }
                WorldMember::Export(_, Extern::Path(path)) => {
                    let id = self.sources.interface_of(home, path)?;
                    self.put(&mut pulled, id, false);
                    let own = Key::Interface(self.maker.numbers[id as usize]);
                    (self.needs[id as usize].clone(), pulled.index_of(&own).unwrap_or(pulled.len()))
                }
                WorldMember::Export(_, Extern::Named(_, path)) => {
                    let id = self.sources.interface_of(home, path)?;
                    self.put_needs(&mut pulled, &self.needs[id as usize], false);
                    (self.needs[id as usize].clone(), pulled.len())
                }
                WorldMember::Export(_, Extern::Inline(_, members)) => {
                    let needs = self.sources.needs_of(home, members)?;
                    self.put_needs(&mut pulled, &needs, false);
                    (needs, pulled.len())
                }
                _ => continue,
            };
            for n in needs {
                let is_served = self.labelled_exports.get(&n).is_some_and(|before| *before <= place);
                if !self.exports.contains_key(&n) && !self.labelled.contains(&n) && !is_served {
                    self.put(entries, n, true);
                }
            }
            if let WorldMember::Export(_, Extern::Named(_, path)) = member {
                let id = self.sources.interface_of(home, path)?;
                self.labelled_exports.entry(id).or_insert(place);
            }
        }
        Ok(())
    }
    fn make(mut self, number: u32) -> Told<World> {
        self.state()?;
        let mut world = World::new(self.world.name, self.world.package);
        world.stability = self.world.front.stability.clone();
        for member in self.world.members {
            if let WorldMember::Import(front, external) = member {
                self.external(&mut world.imports, front, external, true)?;
            }
        }
        self.put_needed(&mut world.imports)?;
        let mut scope = Scope::new(self.world.package, Owner::World(number));
        for member in self.world.members {
            if let WorldMember::Own(own) = member {
                scope.add_member(own)?;
            }
        }
        for (name, id) in self.maker.make_all(self.sources, &mut scope)? {
            add_new(&mut world.imports, &name, Entry::Type(id))?;
        }
        for member in self.world.members {
            match member {
                WorldMember::Own(own) => self.maker.functions_of(&scope, own, |f| add_new(&mut world.imports, &f.name.clone(), Entry::Function(f)))?,
                WorldMember::Import(front, Extern::Function(name, signature)) => {
                    let f = self.maker.function(&scope, front, b'f', None, name, signature)?;
                    add_new(&mut world.imports, name, Entry::Function(f))?;
                }
                _ => {}
            }
        }
        for member in self.world.members {
            match member {
                WorldMember::Export(front, Extern::Function(name, signature)) => {
                    let f = self.maker.function(&scope, front, b'f', None, name, signature)?;
                    add_new(&mut world.exports, name, Entry::Function(f))?;
                }
                WorldMember::Export(front, external) => self.external(&mut world.exports, front, external, false)?,
                _ => {}
            }
        }
        Ok(world)
    }
}

// ---- all texts

fn made_packages(sources: &Sources, maker: &Maker) -> Vec<Made> {
    let mut made: Vec<Made> = sources
        .heads
        .iter()
        .map(|h| Made { namespace: h.namespace.to_string(), name: h.name.to_string(), version: h.version.map(str::to_string), ..Made::default() })
        .collect();
    for (own, source) in sources.interfaces.iter().enumerate() {
        made[source.package as usize].interfaces.insert(source.name.to_string(), maker.numbers[own]);
    }
    for (own, source) in sources.worlds.iter().enumerate() {
        made[source.package as usize].worlds.insert(source.name.to_string(), own as u32);
    }
    made
}

/// The packages of texts, and the number of the one that each begins with.
pub fn read(texts: &[String]) -> Told<(Resolve, Vec<u32>)> {
    let mut trees = Vec::with_capacity(texts.len());
    for (number, text) in texts.iter().enumerate() {
        trees.push(packages(text).map_err(|at| format!("text {number}, byte {at}"))?);
    }
    let mut sources = Sources::default();
    let mut mains = Vec::with_capacity(trees.len());
    for file in &trees {
        mains.push(sources.add(&file[0])?);
        file[1..].iter().try_for_each(|p| sources.add(p).map(|_| ()))?;
    }
    let needs = sources.interfaces.iter().map(|s| sources.needs_of(s.package, s.members)).collect::<Told<Vec<_>>>()?;
    let mut maker = Maker { numbers: vec![0; needs.len()], ..Maker::default() };
    for own in ordered(&needs)? {
        let source = &sources.interfaces[own as usize];
        maker.numbers[own as usize] = maker.interface(&sources, source.package, Some(source.name), source.front, source.members)?;
    }
    let mut worlds = Vec::with_capacity(sources.worlds.len());
    for (number, world) in sources.worlds.iter().enumerate() {
        let made = WorldMaker {
            maker: &mut maker,
            sources: &sources,
            needs: &needs,
            world,
            imports: HashMap::new(),
            exports: HashMap::new(),
            labelled: HashSet::new(),
            labelled_exports: HashMap::new(),
        };
        worlds.push(made.make(number as u32)?);
    }
    let packages = made_packages(&sources, &maker);
    Ok((Resolve { packages, interfaces: maker.interfaces, worlds, types: maker.types }, mains))
}
