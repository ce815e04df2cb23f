//! A plain decoder of WebAssembly modules, for the programs beside `wasmi_link`: sections 1 to 7.

use std::str;

#[derive(Clone, Copy, Debug, PartialEq, Eq, PartialOrd, Ord, Hash)]
pub enum ValType {
    I32,
    I64,
    F32,
    F64,
    V128,
    FuncRef,
    ExternRef,
}

#[derive(Clone, Debug, PartialEq, Eq, PartialOrd, Ord, Hash)]
pub struct FuncType {
    pub params: Vec<ValType>,
    pub results: Vec<ValType>,
}

#[derive(Clone, Copy, Debug, PartialEq, Eq)]
pub struct Limits {
    pub min: u32,
    pub max: Option<u32>,
}

impl Limits {
    /// Whether what has the limits `given` is what is asked for by these.
    pub fn admits(&self, given: &Limits) -> bool {
        self.min <= given.min
            && self
                .max
                .is_none_or(|most| given.max.is_some_and(|max| max <= most))
    }
}

/// The type of an item. Of a function the index of the type.
#[derive(Clone, Copy, Debug, PartialEq, Eq)]
pub enum Item {
    Func(u32),
    Table(ValType, Limits),
    Memory(Limits),
    Global(ValType, bool),
}

pub struct Import<'a> {
    pub module: &'a str,
    pub field: &'a str,
    pub item: Item,
}

pub struct Export<'a> {
    pub name: &'a str,
    pub item: Item,
}

/// What a module says of itself up to its exports.
#[derive(Default)]
pub struct Module<'a> {
    pub types: Vec<FuncType>,
    pub imports: Vec<Import<'a>>,
    pub exports: Vec<Export<'a>>,
}

/// The module that the bytes are, or `None`.
pub fn decode(bytes: &[u8]) -> Option<Module<'_>> {
    let mut reader = Reader(bytes.strip_prefix(b"\0asm\x01\0\0\0")?);
    let mut module = Module::default();
    // All functions, tables, memories and globals.
    let mut items: [Vec<Item>; 4] = Default::default();
    let mut last = 0;
    while !reader.0.is_empty() {
        let number = reader.byte()?;
        let length = reader.u32()?;
        let mut part = Reader(reader.bytes(length as usize)?);
        if number == 0 {
            continue;
        }
        let place = [1, 2, 3, 4, 5, 6, 7, 8, 9, 12, 10, 11]
            .iter()
            .position(|&section| section == number)?;
        if place + 1 <= last {
            return None;
        }
        last = place + 1;
        if number > 7 {
            continue;
        }
        for _ in 0..part.u32()? {
            match number {
                1 => module.types.push(part.func_type()?),
                2 => {
                    let import = part.import()?;
                    within(import.item, &module)?;
                    items[kind(import.item)].push(import.item);
                    module.imports.push(import);
                }
                3 => {
                    let item = Item::Func(part.u32()?);
                    within(item, &module)?;
                    items[0].push(item);
                }
                4 => items[1].push(part.table()?),
                5 => items[2].push(Item::Memory(part.pages()?)),
                6 => {
                    items[3].push(part.global()?);
                    part.init()?;
                }
                _ => {
                    let name = part.name()?;
                    let kind = part.byte()? as usize;
                    let index = part.u32()? as usize;
                    let item = *items.get(kind)?.get(index)?;
                    module.exports.push(Export { name, item });
                }
            }
        }
        if !part.0.is_empty() {
            return None;
        }
    }
    Some(module)
}

fn kind(item: Item) -> usize {
    match item {
        Item::Func(_) => 0,
        Item::Table(..) => 1,
        Item::Memory(_) => 2,
        Item::Global(..) => 3,
    }
}

fn within(item: Item, module: &Module<'_>) -> Option<()> {
    match item {
        Item::Func(index) if index as usize >= module.types.len() => None,
        _ => Some(()),
    }
}

struct Reader<'a>(&'a [u8]);

impl<'a> Reader<'a> {
    fn byte(&mut self) -> Option<u8> {
        let (&byte, rest) = self.0.split_first()?;
        self.0 = rest;
        Some(byte)
    }

    fn bytes(&mut self, length: usize) -> Option<&'a [u8]> {
        let (front, rest) = self.0.split_at_checked(length)?;
        self.0 = rest;
        Some(front)
    }

    fn u32(&mut self) -> Option<u32> {
        let mut number = 0;
        for group in 0..5 {
            let byte = self.byte()?;
            number |= u64::from(byte & 0x7f) << (7 * group);
            if byte < 0x80 {
                return u32::try_from(number).ok();
            }
        }
        None
    }

    // Steps over a number of so many bytes at most.
    fn skip_number(&mut self, most: usize) -> Option<()> {
        for _ in 0..most {
            if self.byte()? < 0x80 {
                return Some(());
            }
        }
        None
    }

    fn name(&mut self) -> Option<&'a str> {
        let length = self.u32()?;
        str::from_utf8(self.bytes(length as usize)?).ok()
    }

    fn val_type(&mut self) -> Option<ValType> {
        Some(match self.byte()? {
            0x7f => ValType::I32,
            0x7e => ValType::I64,
            0x7d => ValType::F32,
            0x7c => ValType::F64,
            0x7b => ValType::V128,
            0x70 => ValType::FuncRef,
            0x6f => ValType::ExternRef,
            _ => return None,
        })
    }

    fn val_types(&mut self) -> Option<Vec<ValType>> {
        let mut types = Vec::new();
        for _ in 0..self.u32()? {
            types.push(self.val_type()?);
        }
        Some(types)
    }

    fn func_type(&mut self) -> Option<FuncType> {
        if self.byte()? != 0x60 {
            return None;
        }
        let params = self.val_types()?;
        let results = self.val_types()?;
        Some(FuncType { params, results })
    }

    fn limits(&mut self) -> Option<Limits> {
        let has_max = match self.byte()? {
            0 => false,
            1 => true,
            _ => return None,
        };
        let min = self.u32()?;
        let max = if has_max { Some(self.u32()?) } else { None };
        if max.is_some_and(|max| max < min) {
            return None;
        }
        Some(Limits { min, max })
    }

    fn pages(&mut self) -> Option<Limits> {
        self.limits()
            .filter(|limits| limits.max.unwrap_or(limits.min) <= 65536)
    }

    fn ref_type(&mut self) -> Option<ValType> {
        self.val_type()
            .filter(|ty| matches!(ty, ValType::FuncRef | ValType::ExternRef))
    }

    fn table(&mut self) -> Option<Item> {
        let element = self.ref_type()?;
        Some(Item::Table(element, self.limits()?))
    }

    fn global(&mut self) -> Option<Item> {
        let value = self.val_type()?;
        match self.byte()? {
            0 => Some(Item::Global(value, false)),
            1 => Some(Item::Global(value, true)),
            _ => None,
        }
    }

    // Steps over the first value of a global.
    fn init(&mut self) -> Option<()> {
        match self.byte()? {
            0x41 => self.skip_number(5)?,
            0x42 => self.skip_number(10)?,
            0x43 => drop(self.bytes(4)?),
            0x44 => drop(self.bytes(8)?),
            0xfd => {
                self.u32().filter(|&code| code == 12)?;
                self.bytes(16)?;
            }
            0xd0 => drop(self.ref_type()?),
            0xd2 | 0x23 => drop(self.u32()?),
            _ => return None,
        }
        self.byte().filter(|&byte| byte == 0x0b).map(drop)
    }

    fn import(&mut self) -> Option<Import<'a>> {
        let module = self.name()?;
        let field = self.name()?;
        let item = match self.byte()? {
            0 => Item::Func(self.u32()?),
            1 => self.table()?,
            2 => Item::Memory(self.pages()?),
            3 => self.global()?,
            _ => return None,
        };
        Some(Import {
            module,
            field,
            item,
        })
    }
}
