//! The data.
pub use crate::map::Map;

#[derive(Clone, Copy, PartialEq, Eq, Hash, Debug)]
pub enum Type {
    Prim(u8),
    Id(u32),
}

pub const PRIMS: [(&str, u8); 14] = [
    ("bool", 0x7f), ("s8", 0x7e), ("u8", 0x7d), ("s16", 0x7c), ("u16", 0x7b), ("s32", 0x7a), ("u32", 0x79), ("s64", 0x78),
    ("u64", 0x77), ("f32", 0x76), ("f64", 0x75), ("char", 0x74), ("string", 0x73), ("error-context", 0x64),
];

pub fn prim_name(byte: u8) -> &'static str {
    match byte {
        0x6e..=0x7f => PRIMS[..13].iter().find(|p| p.1 == byte).expect("a primitive").0,
        _ => "error-context",
    }
}

/// Names of fields and cases stand with their documentation.
#[derive(Clone, PartialEq, Eq, Hash)]
pub enum Kind {
    Record(Vec<(String, Type, Option<String>)>),
    Resource,
    Own(u32),
    Borrow(u32),
    Flags(Vec<(String, Option<String>)>),
    Tuple(Vec<Type>),
    Variant(Vec<(String, Option<Type>, Option<String>)>),
    Enum(Vec<(String, Option<String>)>),
    Option(Type),
    Result(Option<Type>, Option<Type>),
    List(Type),
    Map(Type, Type),
    Fixed(Type, u32),
    Future(Option<Type>),
    Stream(Option<Type>),
    Alias(Type),
}

#[derive(Clone, PartialEq, Eq, Default)]
pub enum Stability {
    #[default]
    Unknown,
    Stable(String, Option<String>),
    Unstable(String, Option<String>),
}

#[derive(Clone, Copy, PartialEq, Eq)]
pub enum Owner {
    None,
    Interface(u32),
    World(u32),
}

impl Owner {
    pub fn interface(self) -> Option<u32> {
        match self {
            Owner::Interface(i) => Some(i),
            _ => None,
        }
    }
}

pub struct TypeDef {
    pub name: Option<String>,
    pub owner: Owner,
    pub docs: Option<String>,
    pub stability: Stability,
    pub external_id: Option<String>,
    pub kind: Kind,
}

#[derive(Clone)]
pub struct Function {
    pub name: String,
    /// f, m, s or c.
    pub sort: u8,
    pub is_async: bool,
    pub resource: Option<u32>,
    pub params: Vec<(String, Type)>,
    pub result: Option<Type>,
    pub docs: Option<String>,
    pub stability: Stability,
    pub external_id: Option<String>,
}

impl Function {
    pub fn item_name(&self) -> &str {
        match self.sort {
            b'm' | b's' => self.name.split_once('.').expect("a point").1,
            _ => &self.name,
        }
    }
}

#[derive(Default)]
pub struct Interface {
    pub name: Option<String>,
    pub package: u32,
    pub docs: Option<String>,
    pub stability: Stability,
    pub types: Map<String, u32>,
    pub functions: Map<String, Function>,
}

#[derive(Clone, PartialEq, Eq, Hash)]
pub enum Key {
    Name(String),
    Interface(u32),
}

#[derive(Clone)]
pub enum Item {
    Interface { id: u32, stability: Stability, docs: Option<String>, external_id: Option<String> },
    Function(Function),
    Type(u32),
}

pub struct World {
    pub name: String,
    pub package: u32,
    pub docs: Option<String>,
    pub stability: Stability,
    pub imports: Map<Key, Item>,
    pub exports: Map<Key, Item>,
}

impl World {
    pub fn new(name: &str, package: u32) -> World {
        World {
            name: name.to_string(),
            package,
            docs: None,
            stability: Stability::Unknown,
            imports: Map::new(),
            exports: Map::new(),
        }
    }
}

/// What may have a sense: an import by its world and its index.
#[derive(Clone, Copy)]
pub enum Place {
    Interface(u32),
    World(u32),
    Import(u32, u32),
}

#[derive(Default)]
pub struct Package {
    pub namespace: String,
    pub name: String,
    pub version: Option<String>,
    pub docs: Option<String>,
    pub interfaces: Map<String, u32>,
    pub worlds: Map<String, u32>,
}

impl Package {
    pub fn path(&self, text: &str) -> String {
        match &self.version {
            None => format!("{}:{}/{text}", self.namespace, self.name),
            Some(v) => format!("{}:{}/{text}@{v}", self.namespace, self.name),
        }
    }
}

#[derive(Default)]
pub struct Resolve {
    pub packages: Vec<Package>,
    pub interfaces: Vec<Interface>,
    pub worlds: Vec<World>,
    pub types: Vec<TypeDef>,
}

impl Resolve {
    /// The path of a named interface.
    pub fn path_of(&self, id: u32) -> Option<String> {
        let i = &self.interfaces[id as usize];
        i.name.as_ref().map(|n| self.packages[i.package as usize].path(n))
    }
    pub fn is_shorthand(&self, f: &Function) -> bool {
        let id = match f.result {
            Some(Type::Id(id)) => id,
            _ => return false,
        };
        let def = &self.types[id as usize];
        f.sort == b'c' && def.name.is_none() && def.kind == Kind::Own(f.resource.expect("a resource"))
    }
}
