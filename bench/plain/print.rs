//! Packages as text.

use crate::model::*;
use std::collections::{HashMap, HashSet};
use std::fmt::Write as _;

const KEYWORDS: &str = "use type func u8 u16 u32 u64 s8 s16 s32 s64 f32 f64 float32 float64 char resource record flags variant enum \
bool string option result future stream list own borrow _ as from static interface tuple world import export package with include \
constructor error-context async map";

/// Names of one interface that are used: its number, the first type, and each name with the one that it has there.
type Group<'a> = (u32, &'a TypeDef, Vec<(&'a str, &'a str)>);

struct Printer<'a> {
    r: &'a Resolve,
    keywords: HashSet<&'static str>,
    out: String,
    level: usize,
    emit_docs: bool,
    /// Whether the block has printed something.
    any: bool,
}

impl<'a> Printer<'a> {
    fn begin(&mut self) {
        for _ in 0..self.level {
            self.out.push_str("  ");
        }
    }
    fn item(&mut self) {
        if self.any {
            self.out.push('\n');
        }
        self.any = true;
    }
    fn open(&mut self) {
        self.out.push_str(" {\n");
        self.level += 1;
    }
    fn close(&mut self) {
        self.level -= 1;
        self.begin();
        self.out.push_str("}\n");
    }
    fn id(&mut self, text: &str) {
        if self.keywords.contains(text) {
            self.out.push('%');
        }
        self.out.push_str(text);
    }
    fn docs(&mut self, docs: &Option<String>) {
        if !self.emit_docs {
            return;
        }
        for line in docs.as_deref().unwrap_or("").lines() {
            self.begin();
            self.out.push_str("///");
            if !line.is_empty() {
                self.out.push(' ');
                self.out.push_str(line);
            }
            self.out.push('\n');
        }
    }
    fn gate(&mut self, stability: &Stability) {
        let deprecated = match stability {
            Stability::Unknown => return,
            Stability::Stable(since, deprecated) => {
                self.begin();
                let _ = writeln!(self.out, "@since(version = {since})");
                deprecated
            }
            Stability::Unstable(feature, deprecated) => {
                self.begin();
                self.out.push_str("@unstable(feature = ");
                self.id(feature);
                self.out.push_str(")\n");
                deprecated
            }
        };
        if let Some(version) = deprecated {
            self.begin();
            let _ = writeln!(self.out, "@deprecated(version = {version})");
        }
    }
    fn external_id(&mut self, id: &Option<String>) {
        let id = match id {
            Some(id) => id,
            None => return,
        };
        self.begin();
        self.out.push_str("@external-id(\"");
        for c in id.chars() {
            match c {
                'a'..='z' | 'A'..='Z' | '0'..='9' | '-' | '_' | '.' | '/' | ':' | ' ' => self.out.push(c),
                '\\' => self.out.push_str("\\\\"),
                '"' => self.out.push_str("\\\""),
                '\n' => self.out.push_str("\\n"),
                '\r' => self.out.push_str("\\r"),
                '\t' => self.out.push_str("\\t"),
                _ => {
                    let _ = write!(self.out, "\\u{{{:x}}}", c as u32);
                }
            }
        }
        self.out.push_str("\")\n");
    }
    fn path(&mut self, id: u32, package: u32) {
        let r = self.r;
        let i = &r.interfaces[id as usize];
        let text = i.name.as_deref().expect("a name");
        if i.package == package {
            return self.id(text);
        }
        let p = &r.packages[i.package as usize];
        self.id(&p.namespace);
        self.out.push(':');
        self.id(&p.name);
        self.out.push('/');
        self.id(text);
        if let Some(v) = &p.version {
            let _ = write!(self.out, "@{v}");
        }
    }

    // ---- types

    fn named(&mut self, id: u32) {
        let r = self.r;
        self.id(r.types[id as usize].name.as_deref().expect("a name"));
    }
    fn parts(&mut self, word: &str, types: &[Type]) {
        self.out.push_str(word);
        self.out.push('<');
        for (k, t) in types.iter().enumerate() {
            if k > 0 {
                self.out.push_str(", ");
            }
            self.ty(*t);
        }
        self.out.push('>');
    }
    fn ty(&mut self, ty: Type) {
        let r = self.r;
        match ty {
            Type::Prim(p) => self.out.push_str(prim_name(p)),
            Type::Id(id) => match &r.types[id as usize].name {
                Some(text) => self.id(text),
                None => self.kind(&r.types[id as usize].kind),
            },
        }
    }
    fn kind(&mut self, kind: &Kind) {
        match kind {
            Kind::Own(id) => self.named(*id),
            Kind::Borrow(id) => {
                self.out.push_str("borrow<");
                self.named(*id);
                self.out.push('>');
            }
            Kind::Tuple(types) => self.parts("tuple", types),
            Kind::Option(t) => self.parts("option", &[*t]),
            Kind::List(t) => self.parts("list", &[*t]),
            Kind::Map(k, v) => self.parts("map", &[*k, *v]),
            Kind::Result(None, None) => self.out.push_str("result"),
            Kind::Result(Some(ok), None) => self.parts("result", &[*ok]),
            Kind::Result(Some(ok), Some(err)) => self.parts("result", &[*ok, *err]),
            Kind::Result(None, Some(err)) => {
                self.out.push_str("result<_, ");
                self.ty(*err);
                self.out.push('>');
            }
            Kind::Fixed(t, n) => {
                self.out.push_str("list<");
                self.ty(*t);
                let _ = write!(self.out, ", {n}>");
            }
            Kind::Future(None) => self.out.push_str("future"),
            Kind::Stream(None) => self.out.push_str("stream"),
            Kind::Future(Some(t)) => self.parts("future", &[*t]),
            Kind::Stream(Some(t)) => self.parts("stream", &[*t]),
            Kind::Alias(t) => self.ty(*t),
            Kind::Record(_) | Kind::Resource | Kind::Flags(_) | Kind::Variant(_) | Kind::Enum(_) => unreachable!(),
        }
    }
    fn case(&mut self, docs: &Option<String>, text: &str) {
        self.docs(docs);
        self.begin();
        self.id(text);
    }
    fn declare(&mut self, def: &TypeDef) {
        let text = def.name.as_deref().expect("a name");
        let word = match &def.kind {
            Kind::Record(_) => "record ",
            Kind::Variant(_) => "variant ",
            Kind::Flags(_) => "flags ",
            Kind::Enum(_) => "enum ",
            _ => "type ",
        };
        self.begin();
        self.out.push_str(word);
        self.id(text);
        match &def.kind {
            Kind::Record(_) | Kind::Variant(_) | Kind::Flags(_) | Kind::Enum(_) => {
                self.open();
                self.members(&def.kind);
                self.close();
            }
            Kind::Own(id) => {
                self.out.push_str(" = own<");
                self.named(*id);
                self.out.push_str(">;\n");
            }
            kind => {
                self.out.push_str(" = ");
                self.kind(kind);
                self.out.push_str(";\n");
            }
        }
    }
    fn members(&mut self, kind: &Kind) {
        match kind {
            Kind::Record(fields) => {
                for (text, ty, docs) in fields {
                    self.case(docs, text);
                    self.out.push_str(": ");
                    self.ty(*ty);
                    self.out.push_str(",\n");
                }
            }
            Kind::Variant(cases) => {
                for (text, ty, docs) in cases {
                    self.case(docs, text);
                    if let Some(ty) = ty {
                        self.out.push('(');
                        self.ty(*ty);
                        self.out.push(')');
                    }
                    self.out.push_str(",\n");
                }
            }
            Kind::Flags(names) | Kind::Enum(names) => {
                for (text, docs) in names {
                    self.case(docs, text);
                    self.out.push_str(",\n");
                }
            }
            _ => unreachable!(),
        }
    }
    fn resource(&mut self, def: &TypeDef, functions: &[&'a Function]) {
        self.begin();
        self.out.push_str("resource ");
        self.id(def.name.as_deref().expect("a name"));
        if functions.is_empty() {
            self.out.push_str(";\n");
            return;
        }
        self.open();
        for f in functions {
            self.docs(&f.docs);
            self.gate(&f.stability);
            self.external_id(&f.external_id);
            self.begin();
            if f.sort != b'c' {
                self.id(f.item_name());
                self.out.push_str(if f.sort == b's' { ": static " } else { ": " });
            }
            self.function(f);
            self.out.push_str(";\n");
        }
        self.close();
    }
    /// A `use` of names of one interface, each with the name that it has there.
    fn group(&mut self, interface: u32, package: u32, first: &TypeDef, names: &[(&str, &str)]) {
        self.any = true;
        self.gate(&first.stability);
        self.external_id(&first.external_id);
        self.begin();
        self.out.push_str("use ");
        self.path(interface, package);
        self.out.push_str(".{");
        for (k, (own, other)) in names.iter().enumerate() {
            if k > 0 {
                self.out.push_str(", ");
            }
            self.id(other);
            if own != other {
                self.out.push_str(" as ");
                self.id(own);
            }
        }
        self.out.push_str("};\n");
    }
    fn types(&mut self, owner: Owner, package: u32, types: &[(&'a str, u32)], functions: &HashMap<u32, Vec<&'a Function>>) {
        let r = self.r;
        let mut groups: Vec<Group> = Vec::new();
        let mut others = Vec::new();
        for (text, id) in types {
            let def = &r.types[*id as usize];
            let target = match def.kind {
                Kind::Alias(Type::Id(t)) => Some(&r.types[t as usize]),
                _ => None,
            };
            match target {
                Some(TypeDef { owner: Owner::Interface(o), name: Some(other), .. }) if Owner::Interface(*o) != owner => {
                    match groups.last_mut() {
                        Some(g) if g.0 == *o && g.1.stability == def.stability && g.1.external_id == def.external_id => {
                            g.2.push((text, other));
                        }
                        _ => groups.push((*o, def, vec![(text, other)])),
                    }
                }
                _ => others.push(*id),
            }
        }
        for (interface, first, names) in groups {
            self.group(interface, package, first, &names);
        }
        for id in others {
            let def = &r.types[id as usize];
            self.item();
            self.docs(&def.docs);
            self.gate(&def.stability);
            self.external_id(&def.external_id);
            if def.kind == Kind::Resource {
                self.resource(def, functions.get(&id).map_or(&[], |f| f));
            } else {
                self.declare(def);
            }
        }
    }
    fn function(&mut self, f: &Function) {
        if f.is_async {
            self.out.push_str("async ");
        }
        self.out.push_str(if f.sort == b'c' { "constructor(" } else { "func(" });
        for (k, (text, ty)) in f.params.iter().skip((f.sort == b'm') as usize).enumerate() {
            if k > 0 {
                self.out.push_str(", ");
            }
            self.id(text);
            self.out.push_str(": ");
            self.ty(*ty);
        }
        self.out.push(')');
        if let Some(ty) = f.result {
            if !self.r.is_shorthand(f) {
                self.out.push_str(" -> ");
                self.ty(ty);
            }
        }
    }

    // ---- interfaces, worlds, packages

    fn interface(&mut self, id: u32) {
        let r = self.r;
        let i = &r.interfaces[id as usize];
        let before = std::mem::replace(&mut self.any, false);
        let mut functions: HashMap<u32, Vec<&Function>> = HashMap::new();
        for (_, f) in &i.functions {
            if let Some(resource) = f.resource {
                functions.entry(resource).or_default().push(f);
            }
        }
        let types: Vec<(&str, u32)> = i.types.iter().map(|t| (t.0.as_str(), *t.1)).collect();
        self.types(Owner::Interface(id), i.package, &types, &functions);
        for (_, f) in &i.functions {
            if f.resource.is_none() {
                self.item();
                self.docs(&f.docs);
                self.gate(&f.stability);
                self.external_id(&f.external_id);
                self.begin();
                self.id(&f.name);
                self.out.push_str(": ");
                self.function(f);
                self.out.push_str(";\n");
            }
        }
        self.any = before;
    }
    fn world_item(&mut self, package: u32, key: &'a Key, item: &'a Item, word: &str) {
        let r = self.r;
        match item {
            Item::Interface { id, stability, docs, external_id } => {
                let own = &r.interfaces[*id as usize];
                let is_named = matches!(key, Key::Name(_));
                self.docs(if docs.is_none() && is_named { &own.docs } else { docs });
                self.gate(stability);
                self.external_id(external_id);
                self.begin();
                self.out.push_str(word);
                if let Key::Name(text) = key {
                    self.id(text);
                    self.out.push_str(": ");
                }
                if own.name.is_some() {
                    self.path(*id, package);
                    self.out.push_str(";\n");
                } else {
                    self.out.push_str("interface");
                    self.open();
                    self.interface(*id);
                    self.close();
                }
            }
            Item::Function(f) => {
                self.docs(&f.docs);
                self.gate(&f.stability);
                self.external_id(&f.external_id);
                self.begin();
                self.out.push_str(word);
                self.id(&f.name);
                self.out.push_str(": ");
                self.function(f);
                self.out.push_str(";\n");
            }
            Item::Type(_) => unreachable!(),
        }
    }
    fn world(&mut self, id: u32) {
        let r = self.r;
        let w = &r.worlds[id as usize];
        let before = std::mem::replace(&mut self.any, false);
        let mut types = Vec::new();
        let mut functions: HashMap<u32, Vec<&Function>> = HashMap::new();
        for (key, item) in &w.imports {
            match (key, item) {
                (Key::Name(text), Item::Type(id)) => types.push((text.as_str(), *id)),
                (_, Item::Function(f)) => {
                    if let Some(resource) = f.resource {
                        functions.entry(resource).or_default().push(f);
                    }
                }
                _ => {
                    self.world_item(w.package, key, item, "import ");
                    self.any = true;
                }
            }
        }
        self.types(Owner::World(id), w.package, &types, &functions);
        for (key, item) in &w.imports {
            if matches!(item, Item::Function(f) if f.resource.is_none()) {
                self.world_item(w.package, key, item, "import ");
                self.any = true;
            }
        }
        if !w.exports.is_empty() {
            self.item();
        }
        for (key, item) in &w.exports {
            self.world_item(w.package, key, item, "export ");
        }
        self.any = before;
    }
}

/// The text of one package, with its documentation if that is asked for.
pub fn print(r: &Resolve, package: u32, emit_docs: bool) -> String {
    let keywords = KEYWORDS.split(' ').collect();
    let mut p = Printer { r, keywords, out: String::new(), level: 0, emit_docs, any: false };
    let own = &r.packages[package as usize];
    p.docs(&own.docs);
    p.out.push_str("package ");
    p.id(&own.namespace);
    p.out.push(':');
    p.id(&own.name);
    if let Some(v) = &own.version {
        let _ = write!(p.out, "@{v}");
    }
    p.out.push_str(";\n\n");
    for (text, id) in &own.interfaces {
        p.docs(&r.interfaces[*id as usize].docs);
        p.gate(&r.interfaces[*id as usize].stability);
        p.out.push_str("interface ");
        p.id(text);
        p.open();
        p.interface(*id);
        p.close();
        p.out.push('\n');
    }
    for (text, id) in &own.worlds {
        p.docs(&r.worlds[*id as usize].docs);
        p.gate(&r.worlds[*id as usize].stability);
        p.out.push_str("world ");
        p.id(text);
        p.open();
        p.world(*id);
        p.close();
    }
    p.out
}
