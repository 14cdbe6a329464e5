//! Lines of words, and the data that they hold (docs/CASES.md).

use crate::model::*;

pub struct Tokens<'a>(std::str::Split<'a, char>);

pub fn unhex(word: &str) -> Vec<u8> {
    let digits = word.strip_prefix('.').expect("a point").as_bytes();
    let digit = |b: u8| (b as char).to_digit(16).expect("a digit") as u8;
    digits.chunks(2).map(|p| digit(p[0]) * 16 + digit(p[1])).collect()
}

impl<'a> Tokens<'a> {
    pub fn new(line: &'a str) -> Self {
        Tokens(line.split(' '))
    }
    pub fn next(&mut self) -> Option<&'a str> {
        self.0.next()
    }
    /// `i` and an interface, `w` and a world, or `m`, a world and the index of an import.
    pub fn place(&mut self) -> Place {
        match self.word() {
            "i" => Place::Interface(self.number()),
            "w" => Place::World(self.number()),
            _ => Place::Import(self.number(), self.number()),
        }
    }
    pub fn word(&mut self) -> &'a str {
        self.0.next().expect("a word")
    }
    pub fn number(&mut self) -> u32 {
        self.word().parse().expect("a number")
    }
    pub fn text(&mut self) -> String {
        String::from_utf8(unhex(self.word())).expect("UTF-8")
    }
    fn optional_text(&mut self) -> Option<String> {
        let word = self.word();
        (word != "-").then(|| String::from_utf8(unhex(word)).expect("UTF-8"))
    }
    fn type_of(word: &str) -> Type {
        match PRIMS.iter().find(|p| p.0 == word) {
            Some(p) => Type::Prim(p.1),
            None => Type::Id(word.parse().expect("a type")),
        }
    }
    fn ty(&mut self) -> Type {
        Self::type_of(self.word())
    }
    fn optional_type(&mut self) -> Option<Type> {
        let word = self.word();
        (word != "-").then(|| Self::type_of(word))
    }
    pub fn map<K: std::hash::Hash + Eq, T>(&mut self, mut one: impl FnMut(&mut Self) -> (K, T)) -> Map<K, T> {
        (0..self.number()).map(|_| one(self)).collect()
    }
    pub fn list<T>(&mut self, mut one: impl FnMut(&mut Self) -> T) -> Vec<T> {
        (0..self.number()).map(|_| one(self)).collect()
    }
    fn stability(&mut self) -> Stability {
        match self.word() {
            "s" => Stability::Stable(self.text(), self.optional_text()),
            "u" => Stability::Unstable(self.text(), self.optional_text()),
            _ => Stability::Unknown,
        }
    }
    fn kind(&mut self) -> Kind {
        match self.word() {
            "record" => Kind::Record(self.list(|t| (t.text(), t.ty(), t.optional_text()))),
            "resource" => Kind::Resource,
            "own" => Kind::Own(self.number()),
            "borrow" => Kind::Borrow(self.number()),
            "flags" => Kind::Flags(self.list(|t| (t.text(), t.optional_text()))),
            "tuple" => Kind::Tuple(self.list(Self::ty)),
            "variant" => Kind::Variant(self.list(|t| (t.text(), t.optional_type(), t.optional_text()))),
            "enum" => Kind::Enum(self.list(|t| (t.text(), t.optional_text()))),
            "option" => Kind::Option(self.ty()),
            "result" => Kind::Result(self.optional_type(), self.optional_type()),
            "list" => Kind::List(self.ty()),
            "map" => Kind::Map(self.ty(), self.ty()),
            "fixed" => Kind::Fixed(self.ty(), self.number()),
            "future" => Kind::Future(self.optional_type()),
            "stream" => Kind::Stream(self.optional_type()),
            _ => Kind::Alias(self.ty()),
        }
    }
    fn type_def(&mut self) -> TypeDef {
        let name = self.optional_text();
        let owner = match self.word() {
            "i" => Owner::Interface(self.number()),
            "w" => Owner::World(self.number()),
            _ => Owner::None,
        };
        let (docs, stability, external_id) = (self.optional_text(), self.stability(), self.optional_text());
        TypeDef { name, owner, docs, stability, external_id, kind: self.kind() }
    }
    fn function(&mut self) -> Function {
        let name = self.text();
        let sort = self.word().as_bytes();
        let resource = (sort[0] != b'f').then(|| self.number());
        Function {
            name,
            sort: sort[0],
            is_async: sort.len() > 1,
            resource,
            params: self.list(|t| (t.text(), t.ty())),
            result: self.optional_type(),
            docs: self.optional_text(),
            stability: self.stability(),
            external_id: self.optional_text(),
        }
    }
    fn items(&mut self) -> Map<Key, Item> {
        self.map(|t| {
            let key = if t.word() == "n" { Key::Name(t.text()) } else { Key::Interface(t.number()) };
            let item = match t.word() {
                "i" => Item::Interface {
                    id: t.number(),
                    stability: t.stability(),
                    docs: t.optional_text(),
                    external_id: t.optional_text(),
                },
                "f" => Item::Function(t.function()),
                _ => Item::Type(t.number()),
            };
            (key, item)
        })
    }
    fn package(&mut self) -> Package {
        Package {
            namespace: self.text(),
            name: self.text(),
            version: self.optional_text(),
            docs: self.optional_text(),
            interfaces: self.map(|t| (t.text(), t.number())),
            worlds: self.map(|t| (t.text(), t.number())),
        }
    }
    fn interface(&mut self) -> Interface {
        let (name, docs, stability, package) = (self.optional_text(), self.optional_text(), self.stability(), self.number());
        let types = self.map(|t| (t.text(), t.number()));
        let functions = self.map(|t| (t.text(), t.function()));
        Interface { name, package, docs, stability, types, functions }
    }
    fn world(&mut self) -> World {
        let (name, docs, stability, package) = (self.text(), self.optional_text(), self.stability(), self.number());
        World { name, package, docs, stability, imports: self.items(), exports: self.items() }
    }
    pub fn resolve(&mut self) -> Resolve {
        Resolve {
            packages: self.list(Self::package),
            interfaces: self.list(Self::interface),
            worlds: self.list(Self::world),
            types: self.list(Self::type_def),
        }
    }
}
