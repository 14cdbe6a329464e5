//! Packages and worlds as bytes, without canonical names.

use crate::model::*;
use std::collections::HashMap;

pub fn leb(out: &mut Vec<u8>, mut n: u32) {
    while n >= 0x80 {
        out.push(n as u8 | 0x80);
        n >>= 7;
    }
    out.push(n as u8);
}

fn index(out: &mut Vec<u8>, mut n: u32) {
    while n >= 0x40 {
        out.push(n as u8 | 0x80);
        n >>= 7;
    }
    out.push(n as u8);
}

fn name(out: &mut Vec<u8>, text: &str) {
    leb(out, text.len() as u32);
    out.extend_from_slice(text.as_bytes());
}

fn extern_name(out: &mut Vec<u8>, text: &str, external_id: Option<&str>) {
    full_name(out, text, None, external_id);
}

fn full_name(out: &mut Vec<u8>, text: &str, implements: Option<&str>, external_id: Option<&str>) {
    let count = implements.is_some() as u8 + external_id.is_some() as u8;
    out.push(if count > 0 { 2 } else { 0 });
    name(out, text);
    if count > 0 {
        out.push(count);
    }
    if let Some(path) = implements {
        out.push(0);
        name(out, path);
    }
    if let Some(id) = external_id {
        out.push(2);
        name(out, id);
    }
}

/// A value type that has been encoded.
#[derive(Clone, Copy)]
enum Val {
    Prim(u8),
    Index(u32),
}

fn val(out: &mut Vec<u8>, v: Val) {
    match v {
        Val::Prim(p) => out.push(p),
        Val::Index(i) => index(out, i),
    }
}

fn opt(out: &mut Vec<u8>, v: Option<Val>) {
    match v {
        None => out.push(0),
        Some(v) => {
            out.push(1);
            val(out, v);
        }
    }
}

#[derive(PartialEq, Eq, Hash)]
struct FunctionKey<'a> {
    is_async: bool,
    params: &'a [(String, Type)],
    result: Option<Type>,
}

/// The declarations of one component or instance type.
#[derive(Default)]
struct Scope<'a> {
    bytes: Vec<u8>,
    count: u32,
    slots: u32,
    ids: HashMap<u32, u32>,
    kinds: HashMap<&'a Kind, u32>,
    functions: HashMap<FunctionKey<'a>, u32>,
    /// The interface whose instance type this is.
    own: Option<u32>,
}

/// The instances of a component type, and its aliases of their types.
#[derive(Default)]
struct Foreign {
    instances: u32,
    stands: HashMap<u32, u32>,
    aliases: HashMap<u32, u32>,
}

/// Where types are written: an instance type inside a component type, or the component type itself.
struct Place<'a, 'b> {
    r: &'a Resolve,
    here: Scope<'a>,
    outer: Option<&'b mut Scope<'a>>,
    foreign: &'b mut Foreign,
    imports: bool,
}

impl Scope<'_> {
    fn slot(&mut self) -> u32 {
        self.count += 1;
        self.slots += 1;
        self.slots - 1
    }

    fn alias(&mut self, instance: u32, text: &str) -> u32 {
        self.bytes.extend_from_slice(&[2, 3, 0]);
        leb(&mut self.bytes, instance);
        name(&mut self.bytes, text);
        self.slot()
    }

    fn item(&mut self, byte: u8, text: &str, implements: Option<&str>, external_id: Option<&str>, sort: u8, index: u32) {
        self.bytes.push(byte);
        full_name(&mut self.bytes, text, implements, external_id);
        self.bytes.push(sort);
        leb(&mut self.bytes, index);
        self.count += 1;
    }

    fn finish(self, byte: u8, out: &mut Vec<u8>) {
        out.push(byte);
        leb(out, self.count);
        out.extend_from_slice(&self.bytes);
    }
}

impl<'a> Place<'a, '_> {
    fn vals(&mut self, types: &[Type]) -> Vec<Val> {
        types.iter().map(|t| self.valtype(*t)).collect()
    }

    fn optional(&mut self, ty: Option<Type>) -> Option<Val> {
        ty.map(|t| self.valtype(t))
    }

    fn valtype(&mut self, ty: Type) -> Val {
        let id = match ty {
            Type::Prim(p) => return Val::Prim(p),
            Type::Id(id) => id,
        };
        if let Some(i) = self.here.ids.get(&id) {
            return Val::Index(*i);
        }
        let def = &self.r.types[id as usize];
        if def.name.is_none() {
            if let Some(i) = self.here.kinds.get(&def.kind) {
                return Val::Index(*i);
            }
        }
        let index = self.new_type(id, def);
        self.here.ids.insert(id, index);
        if def.name.is_none() {
            self.here.kinds.insert(&def.kind, index);
        }
        Val::Index(index)
    }
    /// A type that this scope doesn't have yet.
    fn new_type(&mut self, id: u32, def: &'a TypeDef) -> u32 {
        let text = match &def.name {
            None => return self.kind(&def.kind),
            Some(text) => text,
        };
        if let Some(o) = def.owner.interface().filter(|o| self.here.own != Some(*o)) {
            return self.foreign(o, id, text);
        }
        let equal = if def.kind == Kind::Resource { None } else { Some(self.kind(&def.kind)) };
        self.here.bytes.push(if self.imports { 3 } else { 4 });
        extern_name(&mut self.here.bytes, text, def.external_id.as_deref());
        match equal {
            None => self.here.bytes.extend_from_slice(&[3, 1]),
            Some(i) => {
                self.here.bytes.extend_from_slice(&[3, 0]);
                leb(&mut self.here.bytes, i);
            }
        }
        self.here.slot()
    }

    /// A type of an interface whose instance stands around.
    fn foreign(&mut self, owner: u32, id: u32, text: &str) -> u32 {
        let known = self.foreign.aliases.get(&id).copied();
        let instance = self.foreign.stands[&owner];
        match &mut self.outer {
            None => {
                let i = known.unwrap_or_else(|| self.here.alias(instance, text));
                self.foreign.aliases.insert(id, i);
                i
            }
            Some(outer) => {
                let i = known.unwrap_or_else(|| outer.alias(instance, text));
                self.foreign.aliases.insert(id, i);
                self.here.bytes.extend_from_slice(&[2, 3, 2, 1]);
                leb(&mut self.here.bytes, i);
                self.here.slot()
            }
        }
    }

    fn handle(&mut self, id: u32) -> u32 {
        match self.valtype(Type::Id(id)) {
            Val::Index(i) => i,
            Val::Prim(_) => unreachable!(),
        }
    }

    /// A record, a variant, flags or an enum.
    fn members(&mut self, kind: &'a Kind, out: &mut Vec<u8>) {
        match kind {
            Kind::Record(fields) => {
                let vals: Vec<Val> = fields.iter().map(|f| self.valtype(f.1)).collect();
                out.push(0x72);
                leb(out, fields.len() as u32);
                for (f, v) in fields.iter().zip(vals) {
                    name(out, &f.0);
                    val(out, v);
                }
            }
            Kind::Variant(cases) => {
                let vals: Vec<Option<Val>> = cases.iter().map(|c| self.optional(c.1)).collect();
                out.push(0x71);
                leb(out, cases.len() as u32);
                for (c, v) in cases.iter().zip(vals) {
                    name(out, &c.0);
                    opt(out, v);
                    out.push(0);
                }
            }
            Kind::Flags(names) | Kind::Enum(names) => {
                out.push(if matches!(kind, Kind::Flags(_)) { 0x6e } else { 0x6d });
                leb(out, names.len() as u32);
                names.iter().for_each(|n| name(out, &n.0));
            }
            _ => unreachable!(),
        }
    }
    /// A byte and the value types behind it.
    fn form(&mut self, out: &mut Vec<u8>, byte: u8, types: &[Type]) {
        let vals = self.vals(types);
        out.push(byte);
        vals.into_iter().for_each(|v| val(out, v));
    }

    fn kind(&mut self, kind: &'a Kind) -> u32 {
        let mut out = Vec::new();
        match kind {
            Kind::Resource => unreachable!(),
            Kind::Record(_) | Kind::Variant(_) | Kind::Flags(_) | Kind::Enum(_) => self.members(kind, &mut out),
            Kind::Tuple(types) => {
                let vals = self.vals(types);
                out.push(0x6f);
                leb(&mut out, types.len() as u32);
                vals.into_iter().for_each(|v| val(&mut out, v));
            }
            Kind::List(ty) => self.form(&mut out, 0x70, &[*ty]),
            Kind::Option(ty) => self.form(&mut out, 0x6b, &[*ty]),
            Kind::Fixed(ty, n) => {
                self.form(&mut out, 0x67, &[*ty]);
                leb(&mut out, *n);
            }
            Kind::Map(k, v) => self.form(&mut out, 0x63, &[*k, *v]),
            Kind::Result(ok, err) => {
                let (ok, err) = (self.optional(*ok), self.optional(*err));
                out.push(0x6a);
                opt(&mut out, ok);
                opt(&mut out, err);
            }
            Kind::Own(id) | Kind::Borrow(id) => {
                let i = self.handle(*id);
                out.push(if matches!(kind, Kind::Own(_)) { 0x69 } else { 0x68 });
                leb(&mut out, i);
            }
            Kind::Future(ty) | Kind::Stream(ty) => {
                let v = self.optional(*ty);
                out.push(if matches!(kind, Kind::Future(_)) { 0x65 } else { 0x66 });
                opt(&mut out, v);
            }
            Kind::Alias(ty) => match self.valtype(*ty) {
                Val::Index(i) => return i,
                Val::Prim(p) => out.push(p),
            },
        }
        self.here.bytes.push(1);
        self.here.bytes.extend_from_slice(&out);
        self.here.slot()
    }

    fn function(&mut self, f: &'a Function) -> u32 {
        let key = FunctionKey { is_async: f.is_async, params: &f.params, result: f.result };
        if let Some(i) = self.here.functions.get(&key) {
            return *i;
        }
        let vals: Vec<Val> = f.params.iter().map(|p| self.valtype(p.1)).collect();
        let result = self.optional(f.result);
        self.here.bytes.extend_from_slice(&[1, if f.is_async { 0x43 } else { 0x40 }]);
        leb(&mut self.here.bytes, vals.len() as u32);
        for (p, v) in f.params.iter().zip(vals) {
            name(&mut self.here.bytes, &p.0);
            val(&mut self.here.bytes, v);
        }
        match result {
            Some(v) => {
                self.here.bytes.push(0);
                val(&mut self.here.bytes, v);
            }
            None => self.here.bytes.extend_from_slice(&[1, 0]),
        }
        let i = self.here.slot();
        self.here.functions.insert(key, i);
        i
    }
}

/// Adds an instance type to the scope, and answers its slot.
fn instance<'a>(r: &'a Resolve, id: u32, whole: bool, outer: &mut Scope<'a>, foreign: &mut Foreign) -> u32 {
    let i = &r.interfaces[id as usize];
    let here = Scope { own: Some(id), ..Scope::default() };
    let mut place = Place { r, here, outer: Some(&mut *outer), foreign, imports: false };
    for t in &i.types {
        place.valtype(Type::Id(*t.1));
    }
    if whole {
        let order: HashMap<u32, usize> = i.types.iter().enumerate().map(|(k, t)| (*t.1, k)).collect();
        let mut functions: Vec<(&String, &Function)> = i.functions.iter().collect();
        functions.sort_by_key(|f| f.1.resource.and_then(|t| order.get(&t).copied()).unwrap_or(usize::MAX));
        for (text, f) in functions {
            let index = place.function(f);
            place.here.item(4, text, None, f.external_id.as_deref(), 1, index);
        }
    }
    let mut item = vec![1];
    place.here.finish(0x42, &mut item);
    outer.bytes.extend_from_slice(&item);
    outer.slot()
}

fn place_instance(foreign: &mut Foreign, id: u32) {
    foreign.stands.insert(id, foreign.instances);
    foreign.instances += 1;
}

fn world<'a>(r: &'a Resolve, w: &'a World, out: &mut Vec<u8>) {
    let mut foreign = Foreign::default();
    let mut scope = Scope::default();
    for (byte, items) in [(3, &w.imports), (4, &w.exports)] {
        for (key, item) in items {
            match item {
                Item::Interface { id, external_id, .. } => {
                    let slot = instance(r, *id, true, &mut scope, &mut foreign);
                    let path = r.path_of(*id);
                    let (text, implements) = match key {
                        Key::Name(text) => (text.as_str(), path.as_deref()),
                        Key::Interface(_) => (path.as_deref().expect("a path"), None),
                    };
                    scope.item(byte, text, implements, external_id.as_deref(), 5, slot);
                    place_instance(&mut foreign, *id);
                }
                Item::Function(f) => {
                    let mut place = Place { r, here: scope, outer: None, foreign: &mut foreign, imports: true };
                    let index = place.function(f);
                    place.here.item(byte, &f.name, None, f.external_id.as_deref(), 1, index);
                    scope = place.here;
                }
                Item::Type(id) => {
                    let mut place = Place { r, here: scope, outer: None, foreign: &mut foreign, imports: true };
                    place.valtype(Type::Id(*id));
                    scope = place.here;
                }
            }
        }
    }
    scope.finish(0x41, out);
}

/// The interfaces that an interface uses, each once, in the order of its types.
fn uses(r: &Resolve, id: u32) -> Vec<u32> {
    let mut seen = std::collections::HashSet::new();
    let mut out = Vec::new();
    for t in &r.interfaces[id as usize].types {
        if let Kind::Alias(Type::Id(target)) = r.types[*t.1 as usize].kind {
            if let Owner::Interface(o) = r.types[target as usize].owner {
                if o != id && seen.insert(o) {
                    out.push(o);
                }
            }
        }
    }
    out
}

fn interface(r: &Resolve, id: u32, out: &mut Vec<u8>) {
    let mut seen = std::collections::HashSet::from([id]);
    let mut order = Vec::new();
    let mut stack = vec![(id, uses(r, id), 0)];
    while let Some((i, deps, next)) = stack.last_mut() {
        if let Some(d) = deps.get(*next).copied() {
            *next += 1;
            if seen.insert(d) {
                stack.push((d, uses(r, d), 0));
            }
        } else {
            order.push(*i);
            stack.pop();
        }
    }
    let mut foreign = Foreign::default();
    let mut scope = Scope::default();
    for i in order {
        let slot = instance(r, i, i == id, &mut scope, &mut foreign);
        scope.item(if i == id { 4 } else { 3 }, &r.path_of(i).expect("a path"), None, None, 5, slot);
        place_instance(&mut foreign, i);
    }
    scope.finish(0x41, out);
}

fn wrapper(r: &Resolve, w: &World, out: &mut Vec<u8>) {
    out.extend_from_slice(&[0x41, 2, 1]);
    world(r, w, out);
    out.push(4);
    extern_name(out, &r.packages[w.package as usize].path(&w.name), None);
    out.extend_from_slice(&[4, 0]);
}

/// Contents of the component, one part after the other; neighbours of one kind share a section.
#[derive(Default)]
struct Builder {
    out: Vec<u8>,
    open: u8,
    count: u32,
    items: Vec<u8>,
    slots: u32,
}

impl Builder {
    fn close(&mut self) {
        if self.count > 0 {
            let mut count = Vec::new();
            leb(&mut count, self.count);
            self.out.push(self.open);
            leb(&mut self.out, (count.len() + self.items.len()) as u32);
            self.out.extend_from_slice(&count);
            self.out.append(&mut self.items);
        }
        self.count = 0;
    }
    fn begin(&mut self, section: u8) -> &mut Vec<u8> {
        if self.open != section {
            self.close();
            self.open = section;
        }
        self.count += 1;
        self.slots += 1;
        &mut self.items
    }
    /// An export of the type before.
    fn export(&mut self, short: &str) {
        let slot = self.slots - 1;
        let items = self.begin(11);
        extern_name(items, short, None);
        items.push(3);
        leb(items, slot);
        items.push(0);
    }
    fn finish(mut self) -> Vec<u8> {
        self.close();
        let mut bytes = vec![0, 0x61, 0x73, 0x6d, 0x0d, 0, 1, 0];
        bytes.append(&mut self.out);
        bytes
    }
}

pub fn encode(r: &Resolve, package: u32) -> Vec<u8> {
    let p = &r.packages[package as usize];
    let mut b = Builder::default();
    for (short, id) in &p.interfaces {
        interface(r, *id, b.begin(7));
        b.export(short);
    }
    for (short, id) in &p.worlds {
        wrapper(r, &r.worlds[*id as usize], b.begin(7));
        b.export(short);
    }
    b.finish()
}

/// What a module carries of a world, strings in UTF-8.
pub fn metadata(r: &Resolve, w: u32) -> Vec<u8> {
    let w = &r.worlds[w as usize];
    let mut b = Builder::default();
    let mut section = Vec::new();
    name(&mut section, "wit-component-encoding");
    section.extend_from_slice(&[4, 0]);
    b.out.push(0);
    leb(&mut b.out, section.len() as u32);
    b.out.append(&mut section);
    wrapper(r, w, b.begin(7));
    b.export(&w.name);
    b.finish()
}
