//! The forms of component bytes, read into a tree of declarations, and labels.

pub type Fail = &'static str;

#[derive(Clone, Copy)]
pub enum Val {
    Prim(u8),
    Index(u32),
}

pub enum Def<'a> {
    Prim(u8),
    Record(Vec<(&'a str, Val)>),
    Variant(Vec<(&'a str, Option<Val>)>),
    List(Val),
    Fixed(Val, u32),
    Tuple(Vec<Val>),
    Flags(Vec<&'a str>),
    Enum(Vec<&'a str>),
    Option(Val),
    Result(Option<Val>, Option<Val>),
    Own(u32),
    Borrow(u32),
    Stream(Option<Val>),
    Future(Option<Val>),
    Map(Val, Val),
}

pub struct Func<'a> {
    pub is_async: bool,
    pub params: Vec<(&'a str, Val)>,
    pub result: Option<Val>,
}

pub enum Raw<'a> {
    Def(Def<'a>),
    Func(Func<'a>),
    Instance(Vec<Decl<'a>>),
    Component(Vec<Decl<'a>>),
}

pub struct Name<'a> {
    pub text: &'a str,
    pub implements: Option<String>,
    pub external_id: Option<&'a str>,
}

#[derive(Clone, Copy)]
pub enum Desc {
    Func(u32),
    Eq(u32),
    Resource,
    Component(u32),
    Instance(u32),
}

pub enum Decl<'a> {
    Type(Raw<'a>),
    Alias(u32, &'a str),
    Outer(u32),
    Import(Name<'a>, Desc),
    Export(Name<'a>, Desc),
}

pub struct Input<'a> {
    pub bytes: &'a [u8],
    pub at: usize,
}

impl<'a> Input<'a> {
    pub fn byte(&mut self) -> Result<u8, Fail> {
        let b = *self.bytes.get(self.at).ok_or("truncated")?;
        self.at += 1;
        Ok(b)
    }
    pub fn u32(&mut self) -> Result<u32, Fail> {
        let mut n = 0u32;
        for k in 0..5 {
            let b = self.byte()?;
            if k == 4 && b > 0x0f {
                return Err("number");
            }
            n |= ((b & 0x7f) as u32) << (7 * k);
            if b & 0x80 == 0 {
                return Ok(n);
            }
        }
        Err("number")
    }
    pub fn take(&mut self, n: usize) -> Result<&'a [u8], Fail> {
        let end = self.at.checked_add(n).filter(|e| *e <= self.bytes.len()).ok_or("truncated")?;
        let out = &self.bytes[self.at..end];
        self.at = end;
        Ok(out)
    }
    pub fn name(&mut self) -> Result<&'a str, Fail> {
        let n = self.u32()? as usize;
        std::str::from_utf8(self.take(n)?).map_err(|_| "utf-8")
    }
    pub fn list<T>(&mut self, mut one: impl FnMut(&mut Self) -> Result<T, Fail>) -> Result<Vec<T>, Fail> {
        let n = self.u32()?;
        let mut out = Vec::new();
        for _ in 0..n {
            out.push(one(self)?);
        }
        Ok(out)
    }
    pub fn val(&mut self) -> Result<Val, Fail> {
        let b = *self.bytes.get(self.at).ok_or("truncated")?;
        if (0x40..0x80).contains(&b) {
            self.at += 1;
            return if matches!(b, 0x64 | 0x73..=0x7f) { Ok(Val::Prim(b)) } else { Err("form") };
        }
        Ok(Val::Index(self.u32()?))
    }
    pub fn opt(&mut self) -> Result<Option<Val>, Fail> {
        match self.byte()? {
            0 => Ok(None),
            1 => Ok(Some(self.val()?)),
            _ => Err("form"),
        }
    }
    fn case(&mut self) -> Result<(&'a str, Option<Val>), Fail> {
        let case = (self.name()?, self.opt()?);
        match self.byte()? {
            0 => Ok(case),
            _ => Err("form"),
        }
    }
    fn func(&mut self, is_async: bool) -> Result<Func<'a>, Fail> {
        let params = self.list(|i| Ok((i.name()?, i.val()?)))?;
        let result = match self.byte()? {
            0 => Some(self.val()?),
            _ if self.byte()? != 0 => return Err("form"),
            _ => None,
        };
        Ok(Func { is_async, params, result })
    }
    pub fn raw(&mut self) -> Result<Raw<'a>, Fail> {
        let def = match self.byte()? {
            0x72 => Def::Record(self.list(|i| Ok((i.name()?, i.val()?)))?),
            0x71 => Def::Variant(self.list(Self::case)?),
            0x70 => Def::List(self.val()?),
            0x67 => Def::Fixed(self.val()?, self.u32()?),
            0x6f => Def::Tuple(self.list(Self::val)?),
            0x6e => Def::Flags(self.list(Self::name)?),
            0x6d => Def::Enum(self.list(Self::name)?),
            0x6b => Def::Option(self.val()?),
            0x6a => Def::Result(self.opt()?, self.opt()?),
            0x69 => Def::Own(self.u32()?),
            0x68 => Def::Borrow(self.u32()?),
            0x66 => Def::Stream(self.opt()?),
            0x65 => Def::Future(self.opt()?),
            0x63 => Def::Map(self.val()?, self.val()?),
            b @ (0x40 | 0x43) => return Ok(Raw::Func(self.func(b == 0x43)?)),
            0x41 => return Ok(Raw::Component(self.list(Self::decl)?)),
            0x42 => return Ok(Raw::Instance(self.list(Self::decl)?)),
            b if matches!(b, 0x64 | 0x73..=0x7f) => Def::Prim(b),
            _ => return Err("form"),
        };
        Ok(Raw::Def(def))
    }
    pub fn extern_name(&mut self) -> Result<Name<'a>, Fail> {
        let form = self.byte()?;
        let text = self.name()?;
        let mut out = Name { text, implements: None, external_id: None };
        match form {
            0 | 1 => {}
            2 => {
                for _ in 0..self.u32()? {
                    match self.byte()? {
                        0 => out.implements = Some(self.name()?.to_string()),
                        2 => out.external_id = Some(self.name()?),
                        _ => return Err("suffixes aren't read"),
                    }
                }
            }
            _ => return Err("form"),
        }
        Ok(out)
    }
    pub fn desc(&mut self) -> Result<Desc, Fail> {
        Ok(match self.byte()? {
            1 => Desc::Func(self.u32()?),
            3 => match self.byte()? {
                0 => Desc::Eq(self.u32()?),
                1 => Desc::Resource,
                _ => return Err("form"),
            },
            4 => Desc::Component(self.u32()?),
            5 => Desc::Instance(self.u32()?),
            _ => return Err("form"),
        })
    }
    pub fn decl(&mut self) -> Result<Decl<'a>, Fail> {
        Ok(match self.byte()? {
            1 => Decl::Type(self.raw()?),
            2 => match (self.byte()?, self.byte()?) {
                (3, 0) => Decl::Alias(self.u32()?, self.name()?),
                (3, 2) => {
                    if self.u32()? != 1 {
                        return Err("count");
                    }
                    Decl::Outer(self.u32()?)
                }
                _ => return Err("form"),
            },
            3 => Decl::Import(self.extern_name()?, self.desc()?),
            4 => Decl::Export(self.extern_name()?, self.desc()?),
            _ => return Err("form"),
        })
    }
}

/// Words of lower-case (or upper-case) letters and digits with hyphens between, each beginning with a letter.
pub fn is_label(text: &str) -> bool {
    let mut first = true;
    let mut fresh = true;
    let mut upper = false;
    let mut lower = false;
    for b in text.bytes() {
        match b {
            b'a'..=b'z' => {
                if upper {
                    return false;
                }
                lower = true;
                fresh = false;
            }
            b'A'..=b'Z' => {
                if lower {
                    return false;
                }
                upper = true;
                fresh = false;
            }
            b'0'..=b'9' if !fresh || !first => fresh = false,
            b'-' if !fresh => {
                first = false;
                fresh = true;
                upper = false;
                lower = false;
            }
            _ => return false,
        }
    }
    !fresh
}

/// Labels, each once.
pub fn labels<'a>(names: impl ExactSizeIterator<Item = &'a str> + Clone) -> Result<(), Fail> {
    if names.len() <= 8 {
        let mut rest = names.clone();
        while let Some(x) = rest.next() {
            if !is_label(x) || rest.clone().any(|y| x == y) {
                return Err("label");
            }
        }
        return Ok(());
    }
    let mut seen = std::collections::HashSet::with_capacity(names.len());
    for x in names {
        if !is_label(x) || !seen.insert(x) {
            return Err("label");
        }
    }
    Ok(())
}
