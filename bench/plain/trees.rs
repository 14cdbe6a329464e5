//! Trees of WIT text, by recursive descent.

use crate::lexer::{tokens, Placed, Token};
use crate::model::{Stability, PRIMS};

pub enum Tree<'a> {
    Prim(u8),
    Name(&'a str),
    Own(&'a str),
    Borrow(&'a str),
    Tuple(Vec<Tree<'a>>),
    Option(Box<Tree<'a>>),
    List(Box<Tree<'a>>, Option<u32>),
    Map(Box<Tree<'a>>, Box<Tree<'a>>),
    Result(Option<Box<Tree<'a>>>, Option<Box<Tree<'a>>>),
    Future(Option<Box<Tree<'a>>>),
    Stream(Option<Box<Tree<'a>>>),
}

#[derive(Clone, Default)]
pub struct Front {
    pub stability: Stability,
    pub external_id: Option<String>,
}

#[derive(Clone, Copy, PartialEq, Eq, Hash)]
pub struct Head<'a> {
    pub namespace: &'a str,
    pub name: &'a str,
    pub version: Option<&'a str>,
}

#[derive(Clone, Copy)]
pub struct Path<'a> {
    pub home: Option<Head<'a>>,
    pub interface: &'a str,
}

pub struct Signature<'a> {
    pub is_async: bool,
    pub params: Vec<(&'a str, Tree<'a>)>,
    pub result: Option<Tree<'a>>,
}

pub enum Declared<'a> {
    Record(Vec<(&'a str, Tree<'a>)>),
    Variant(Vec<(&'a str, Option<Tree<'a>>)>),
    Flags(Vec<&'a str>),
    Enum(Vec<&'a str>),
    Alias(Tree<'a>),
    /// The sort of each function, `c`, `m` or `s`, with its name.
    Resource(Vec<(Front, u8, &'a str, Signature<'a>)>),
}

pub enum Member<'a> {
    Use(Front, Path<'a>, Vec<(&'a str, &'a str)>),
    Type(Front, &'a str, Declared<'a>),
    Function(Front, &'a str, Signature<'a>),
}

pub enum Extern<'a> {
    Path(Path<'a>),
    Named(&'a str, Path<'a>),
    Inline(&'a str, Vec<Member<'a>>),
    Function(&'a str, Signature<'a>),
}

pub enum WorldMember<'a> {
    Own(Member<'a>),
    Import(Front, Extern<'a>),
    Export(Front, Extern<'a>),
}

pub enum Item<'a> {
    Interface(Front, &'a str, Vec<Member<'a>>),
    World(Front, &'a str, Vec<WorldMember<'a>>),
}

pub struct Package<'a> {
    pub head: Head<'a>,
    pub items: Vec<Item<'a>>,
}

/// What is read, or the byte at which something else is wanted.
type Read<T> = Result<T, usize>;

struct Reader<'a> {
    tokens: Vec<Placed<'a>>,
    at: usize,
    end: usize,
}

impl<'a> Reader<'a> {
    fn peek(&self) -> Option<Token<'a>> {
        self.tokens.get(self.at).map(|t| t.0)
    }
    fn fail<T>(&self) -> Read<T> {
        Err(self.tokens.get(self.at).map_or(self.end, |t| t.1))
    }
    fn passes(&mut self, token: Token) -> bool {
        let is = self.peek() == Some(token);
        self.at += usize::from(is);
        is
    }
    fn mark(&mut self, mark: u8) -> Read<()> {
        if self.passes(Token::Mark(mark)) { Ok(()) } else { self.fail() }
    }
    fn key(&mut self, word: &str) -> bool {
        self.passes(Token::Word(word, false))
    }
    fn wants(&mut self, word: &str) -> Read<()> {
        if self.key(word) { Ok(()) } else { self.fail() }
    }
    fn id(&mut self) -> Read<&'a str> {
        match self.peek() {
            Some(Token::Word(word, is_escaped)) if is_escaped || !is_keyword(word) => {
                self.at += 1;
                Ok(word)
            }
            _ => self.fail(),
        }
    }
    fn number(&mut self) -> Read<&'a str> {
        match self.peek() {
            Some(Token::Number(text)) => {
                self.at += 1;
                Ok(text)
            }
            _ => self.fail(),
        }
    }
    fn listed<T>(&mut self, close: u8, mut one: impl FnMut(&mut Self) -> Read<T>) -> Read<Vec<T>> {
        let mut all = Vec::new();
        while !self.passes(Token::Mark(close)) {
            all.push(one(self)?);
            if !self.passes(Token::Mark(b',')) {
                self.mark(close)?;
                break;
            }
        }
        Ok(all)
    }
    fn repeated<T>(&mut self, mut one: impl FnMut(&mut Self) -> Read<T>) -> Read<Vec<T>> {
        let mut all = Vec::new();
        while !self.passes(Token::Mark(b'}')) {
            all.push(one(self)?);
        }
        Ok(all)
    }

    // ---- in front of items

    fn version(&mut self) -> Read<String> {
        self.wants("version")?;
        self.mark(b'=')?;
        let version = self.number()?;
        self.mark(b')')?;
        Ok(version.to_string())
    }
    fn deprecated(&mut self) -> Read<Option<String>> {
        let start = self.at;
        if self.passes(Token::Mark(b'@')) && self.key("deprecated") {
            self.mark(b'(')?;
            return self.version().map(Some);
        }
        self.at = start;
        Ok(None)
    }
    fn front(&mut self) -> Read<Front> {
        let mut front = Front::default();
        while self.passes(Token::Mark(b'@')) {
            let word = self.id()?;
            self.mark(b'(')?;
            match (word, self.peek()) {
                ("since", _) => front.stability = Stability::Stable(self.version()?, self.deprecated()?),
                ("unstable", _) => {
                    self.wants("feature")?;
                    self.mark(b'=')?;
                    let feature = self.id()?.to_string();
                    self.mark(b')')?;
                    front.stability = Stability::Unstable(feature, self.deprecated()?);
                }
                ("external-id", Some(Token::Quoted(text))) => {
                    self.at += 1;
                    self.mark(b')')?;
                    front.external_id = Some(unescaped(text));
                }
                _ => return self.fail(),
            }
        }
        Ok(front)
    }

    // ---- types

    fn inner(&mut self, depth: u32) -> Read<Box<Tree<'a>>> {
        self.mark(b'<')?;
        let ty = self.ty(depth + 1)?;
        self.mark(b'>')?;
        Ok(Box::new(ty))
    }
    fn optional_inner(&mut self, depth: u32) -> Read<Option<Box<Tree<'a>>>> {
        if self.peek() == Some(Token::Mark(b'<')) { self.inner(depth).map(Some) } else { Ok(None) }
    }
    fn handle(&mut self) -> Read<&'a str> {
        self.mark(b'<')?;
        let name = self.id()?;
        self.mark(b'>')?;
        Ok(name)
    }
    fn list(&mut self, depth: u32) -> Read<Tree<'a>> {
        self.mark(b'<')?;
        let ty = Box::new(self.ty(depth + 1)?);
        let mut length = None;
        if self.passes(Token::Mark(b',')) {
            let text = self.number()?;
            length = Some(text.parse().or_else(|_| self.fail())?);
        }
        self.mark(b'>')?;
        Ok(Tree::List(ty, length))
    }
    fn result(&mut self, depth: u32) -> Read<Tree<'a>> {
        if !self.passes(Token::Mark(b'<')) {
            return Ok(Tree::Result(None, None));
        }
        let ok = if self.passes(Token::Mark(b'_')) { None } else { Some(Box::new(self.ty(depth + 1)?)) };
        let err = if self.passes(Token::Mark(b',')) { Some(Box::new(self.ty(depth + 1)?)) } else { None };
        self.mark(b'>')?;
        Ok(Tree::Result(ok, err))
    }
    fn ty(&mut self, depth: u32) -> Read<Tree<'a>> {
        let (word, is_escaped) = match self.peek() {
            Some(Token::Word(word, is_escaped)) if depth <= 101 => (word, is_escaped),
            _ => return self.fail(),
        };
        if is_escaped || !is_keyword(word) {
            return Ok(Tree::Name(self.id()?));
        }
        self.at += 1;
        Ok(match word {
            "own" => Tree::Own(self.handle()?),
            "borrow" => Tree::Borrow(self.handle()?),
            "option" => Tree::Option(self.inner(depth)?),
            "list" => self.list(depth)?,
            "result" => self.result(depth)?,
            "future" => Tree::Future(self.optional_inner(depth)?),
            "stream" => Tree::Stream(self.optional_inner(depth)?),
            "tuple" => {
                self.mark(b'<')?;
                Tree::Tuple(self.listed(b'>', |r| r.ty(depth + 1))?)
            }
            "map" => {
                self.mark(b'<')?;
                let key = Box::new(self.ty(depth + 1)?);
                self.mark(b',')?;
                let value = Box::new(self.ty(depth + 1)?);
                self.mark(b'>')?;
                Tree::Map(key, value)
            }
            _ => match PRIMS.iter().find(|p| p.0 == word) {
                Some(p) => Tree::Prim(p.1),
                None => {
                    self.at -= 1;
                    return self.fail();
                }
            },
        })
    }

    // ---- members

    fn named(&mut self) -> Read<(&'a str, Tree<'a>)> {
        let name = self.id()?;
        self.mark(b':')?;
        Ok((name, self.ty(1)?))
    }
    fn returned(&mut self) -> Read<Option<Tree<'a>>> {
        let result = if self.passes(Token::Arrow) { Some(self.ty(1)?) } else { None };
        self.mark(b';')?;
        Ok(result)
    }
    fn signature(&mut self) -> Read<Signature<'a>> {
        let is_async = self.key("async");
        self.wants("func")?;
        self.mark(b'(')?;
        let params = self.listed(b')', Self::named)?;
        Ok(Signature { is_async, params, result: self.returned()? })
    }
    fn resource_member(&mut self) -> Read<(Front, u8, &'a str, Signature<'a>)> {
        let front = self.front()?;
        if self.key("constructor") {
            self.mark(b'(')?;
            let params = self.listed(b')', Self::named)?;
            return Ok((front, b'c', "", Signature { is_async: false, params, result: self.returned()? }));
        }
        let name = self.id()?;
        self.mark(b':')?;
        let sort = if self.key("static") { b's' } else { b'm' };
        Ok((front, sort, name, self.signature()?))
    }
    fn path(&mut self) -> Read<Path<'a>> {
        let first = self.id()?;
        if !self.passes(Token::Mark(b':')) {
            return Ok(Path { home: None, interface: first });
        }
        let name = self.id()?;
        self.mark(b'/')?;
        let interface = self.id()?;
        let version = if self.passes(Token::Mark(b'@')) { Some(self.number()?) } else { None };
        Ok(Path { home: Some(Head { namespace: first, name, version }), interface })
    }
    fn used(&mut self) -> Read<(&'a str, &'a str)> {
        let other = self.id()?;
        Ok((other, if self.key("as") { self.id()? } else { other }))
    }
    /// A use or a declared type, if one begins here.
    fn own_member(&mut self, front: &Front) -> Read<Option<Member<'a>>> {
        let word = match self.peek() {
            Some(Token::Word(word, false)) => word,
            _ => return Ok(None),
        };
        if !matches!(word, "use" | "type" | "record" | "variant" | "flags" | "enum" | "resource") {
            return Ok(None);
        }
        self.at += 1;
        if word == "use" {
            let path = self.path()?;
            self.mark(b'.')?;
            self.mark(b'{')?;
            let names = self.listed(b'}', Self::used)?;
            self.mark(b';')?;
            return Ok(Some(Member::Use(front.clone(), path, names)));
        }
        let name = self.id()?;
        let declared = self.declared(word)?;
        Ok(Some(Member::Type(front.clone(), name, declared)))
    }
    fn declared(&mut self, word: &str) -> Read<Declared<'a>> {
        if word == "type" {
            self.mark(b'=')?;
            let ty = self.ty(0)?;
            self.mark(b';')?;
            return Ok(Declared::Alias(ty));
        }
        if word == "resource" && self.passes(Token::Mark(b';')) {
            return Ok(Declared::Resource(Vec::new()));
        }
        self.mark(b'{')?;
        Ok(match word {
            "record" => Declared::Record(self.listed(b'}', Self::named)?),
            "flags" => Declared::Flags(self.listed(b'}', Self::id)?),
            "enum" => Declared::Enum(self.listed(b'}', Self::id)?),
            "resource" => Declared::Resource(self.repeated(Self::resource_member)?),
            _ => Declared::Variant(self.listed(b'}', |r| {
                let name = r.id()?;
                if !r.passes(Token::Mark(b'(')) {
                    return Ok((name, None));
                }
                let ty = r.ty(1)?;
                r.mark(b')')?;
                Ok((name, Some(ty)))
            })?),
        })
    }
    fn member(&mut self) -> Read<Member<'a>> {
        let front = self.front()?;
        if let Some(member) = self.own_member(&front)? {
            return Ok(member);
        }
        let name = self.id()?;
        self.mark(b':')?;
        Ok(Member::Function(front, name, self.signature()?))
    }

    // ---- worlds and packages

    fn external(&mut self) -> Read<Extern<'a>> {
        let start = self.at;
        let name = self.id()?;
        if self.passes(Token::Mark(b':')) {
            match self.peek() {
                Some(Token::Word("func" | "async", false)) => return Ok(Extern::Function(name, self.signature()?)),
                Some(Token::Word("interface", false)) => {
                    self.at += 1;
                    self.mark(b'{')?;
                    return Ok(Extern::Inline(name, self.repeated(Self::member)?));
                }
                _ => {}
            }
            let path = self.path()?;
            if self.peek() != Some(Token::Mark(b'/')) {
                self.mark(b';')?;
                return Ok(Extern::Named(name, path));
            }
        }
        self.at = start;
        let path = self.path()?;
        self.mark(b';')?;
        Ok(Extern::Path(path))
    }
    fn world_member(&mut self) -> Read<WorldMember<'a>> {
        let front = self.front()?;
        if self.key("import") {
            return Ok(WorldMember::Import(front, self.external()?));
        }
        if self.key("export") {
            return Ok(WorldMember::Export(front, self.external()?));
        }
        match self.own_member(&front)? {
            Some(member) => Ok(WorldMember::Own(member)),
            None => self.fail(),
        }
    }
    fn item(&mut self, front: Front) -> Read<Item<'a>> {
        let is_world = self.key("world");
        if !is_world {
            self.wants("interface")?;
        }
        let name = self.id()?;
        self.mark(b'{')?;
        if is_world {
            Ok(Item::World(front, name, self.repeated(Self::world_member)?))
        } else {
            Ok(Item::Interface(front, name, self.repeated(Self::member)?))
        }
    }
    fn head(&mut self) -> Read<Head<'a>> {
        let namespace = self.id()?;
        self.mark(b':')?;
        let name = self.id()?;
        let version = if self.passes(Token::Mark(b'@')) { Some(self.number()?) } else { None };
        Ok(Head { namespace, name, version })
    }
    fn file(&mut self) -> Read<Vec<Package<'a>>> {
        self.wants("package")?;
        let head = self.head()?;
        self.mark(b';')?;
        let mut packages = vec![Package { head, items: Vec::new() }];
        while self.peek().is_some() {
            let front = self.front()?;
            if self.key("package") {
                let head = self.head()?;
                self.mark(b'{')?;
                let items = self.repeated(|r| {
                    let front = r.front()?;
                    r.item(front)
                })?;
                packages.push(Package { head, items });
            } else {
                let item = self.item(front)?;
                packages[0].items.push(item);
            }
        }
        Ok(packages)
    }
}

/// The characters of a string, without its escapes.
fn unescaped(text: &str) -> String {
    let mut out = String::with_capacity(text.len());
    let mut rest = text;
    while let Some((plain, behind)) = rest.split_once('\\') {
        out.push_str(plain);
        let code = behind.strip_prefix("u{").and_then(|b| b.split_once('}'));
        match (code, behind.chars().next()) {
            (Some((digits, after)), _) => {
                out.extend(u32::from_str_radix(digits, 16).ok().and_then(char::from_u32));
                rest = after;
                continue;
            }
            (None, Some('n')) => out.push('\n'),
            (None, Some('r')) => out.push('\r'),
            (None, Some('t')) => out.push('\t'),
            (None, Some(c)) => out.push(c),
            (None, None) => {}
        }
        rest = behind.get(1..).unwrap_or("");
    }
    out.push_str(rest);
    out
}

fn is_keyword(word: &str) -> bool {
    matches!(
        word,
        "use" | "type" | "func" | "u8" | "u16" | "u32" | "u64" | "s8" | "s16" | "s32" | "s64" | "float32" | "float64" | "f32" | "f64" | "char" | "resource" | "own"
            | "borrow" | "record" | "flags" | "variant" | "enum" | "bool" | "string" | "option" | "result" | "future" | "stream" | "error-context" | "list" | "as"
            | "from" | "static" | "interface" | "tuple" | "world" | "import" | "export" | "package" | "constructor" | "include" | "with" | "async" | "map"
    )
}

/// The packages of a text, the first of which is its own; or the byte at which something else is wanted.
pub fn packages(text: &str) -> Read<Vec<Package<'_>>> {
    let mut reader = Reader { tokens: tokens(text)?, at: 0, end: text.len() };
    reader.file()
}
