//! The program `wasmi_link` on other containers: the same report on the same files.

use crate::module::{decode, FuncType, Item, Limits, Module, ValType};
use std::collections::HashMap;
use std::fmt::Write;
use wasmi_collections::arena::DedupArena;
use wasmi_collections::{Map, StringInterner};

/// What linking looks up.
pub trait Tables<'a> {
    fn new() -> Self;

    /// The number of a name.
    fn name(&mut self, name: &'a str) -> u32;
    fn names(&self) -> usize;

    /// The number of a type.
    fn ty(&mut self, ty: &'a FuncType) -> u32;
    fn types(&self) -> usize;

    /// The first module of a name.
    fn add_module(&mut self, name: u32, module: u32);
    fn module(&self, name: u32) -> Option<u32>;

    /// A module's export of a name.
    fn add_export(&mut self, module: u32, name: u32, place: u32);
    fn export(&self, module: u32, name: u32) -> Option<u32>;
}

// What both do with their maps by numbers, which have the same methods.
macro_rules! numbers {
    () => {
        fn module(&self, name: u32) -> Option<u32> {
            self.modules.get(&name).copied()
        }

        fn add_export(&mut self, module: u32, name: u32, place: u32) {
            self.exports.insert((module, name), place);
        }

        fn export(&self, module: u32, name: u32) -> Option<u32> {
            self.exports.get(&(module, name)).copied()
        }
    };
}

/// The containers of the Rust crate.
pub struct Theirs {
    names: StringInterner,
    types: DedupArena<usize, FuncType>,
    modules: Map<u32, u32>,
    exports: Map<(u32, u32), u32>,
}

impl<'a> Tables<'a> for Theirs {
    fn new() -> Self {
        Theirs {
            names: StringInterner::new(),
            types: DedupArena::new(),
            modules: Map::new(),
            exports: Map::new(),
        }
    }

    fn name(&mut self, name: &'a str) -> u32 {
        self.names.get_or_intern(name).into_u32()
    }

    fn names(&self) -> usize {
        self.names.len()
    }

    fn ty(&mut self, ty: &'a FuncType) -> u32 {
        // There are fewer types than keys.
        self.types.alloc(ty.clone()).unwrap_or_default() as u32
    }

    fn types(&self) -> usize {
        self.types.len()
    }

    fn add_module(&mut self, name: u32, module: u32) {
        if self.modules.get(&name).is_none() {
            self.modules.insert(name, module);
        }
    }

    numbers!();
}

/// Rust's own maps.
#[derive(Default)]
pub struct Plain<'a> {
    names: HashMap<&'a str, u32>,
    types: HashMap<&'a FuncType, u32>,
    modules: HashMap<u32, u32>,
    exports: HashMap<(u32, u32), u32>,
}

impl<'a> Tables<'a> for Plain<'a> {
    fn new() -> Self {
        Plain::default()
    }

    fn name(&mut self, name: &'a str) -> u32 {
        let next = self.names.len() as u32;
        *self.names.entry(name).or_insert(next)
    }

    fn names(&self) -> usize {
        self.names.len()
    }

    fn ty(&mut self, ty: &'a FuncType) -> u32 {
        let next = self.types.len() as u32;
        *self.types.entry(ty).or_insert(next)
    }

    fn types(&self) -> usize {
        self.types.len()
    }

    fn add_module(&mut self, name: u32, module: u32) {
        self.modules.entry(name).or_insert(module);
    }

    numbers!();
}

/// The report on modules of these names, and whether all imports are found.
pub fn link<'a, T: Tables<'a>>(
    tables: &mut T,
    names: &[&'a str],
    modules: &'a [Module<'a>],
) -> (String, bool) {
    let mut types: Vec<Vec<u32>> = Vec::new();
    for (number, (name, module)) in names.iter().zip(modules).enumerate() {
        let symbol = tables.name(name);
        tables.add_module(symbol, number as u32);
        types.push(module.types.iter().map(|ty| tables.ty(ty)).collect());
        for (place, export) in module.exports.iter().enumerate() {
            let symbol = tables.name(export.name);
            tables.add_export(number as u32, symbol, place as u32);
        }
    }
    let (mut text, mut found, mut missing, mut differs) = (String::new(), 0, 0, 0);
    for (number, (name, module)) in names.iter().zip(modules).enumerate() {
        for import in &module.imports {
            let (asked, field) = (tables.name(import.module), tables.name(import.field));
            write_name(&mut text, name);
            text.push_str(": ");
            text.push_str(kind(import.item));
            text.push(' ');
            write_name(&mut text, import.module);
            text.push('.');
            write_name(&mut text, import.field);
            text.push(' ');
            write_type(&mut text, import.item, module);
            text.push_str(": ");
            let there = tables
                .module(asked)
                .and_then(|other| Some((other as usize, tables.export(other, field)?)));
            match there {
                None => {
                    missing += 1;
                    text.push_str("missing");
                }
                Some((other, place)) => {
                    let given = modules[other].exports[place as usize].item;
                    write_name(&mut text, import.module);
                    let ids = (&types[number][..], &types[other][..]);
                    if matches(import.item, given, ids) {
                        found += 1;
                    } else {
                        differs += 1;
                        text.push_str(" has ");
                        if kind(given) != kind(import.item) {
                            text.push_str(kind(given));
                            text.push(' ');
                        }
                        write_type(&mut text, given, &modules[other]);
                    }
                }
            }
            text.push('\n');
        }
    }
    let (all, imports) = (
        types.iter().map(Vec::len).sum::<usize>(),
        found + missing + differs,
    );
    // A `String` takes whatever is written.
    let _ = writeln!(
        text,
        "{} modules, {} types of {all}, {} names, {imports} imports: {found} found, {missing} missing, {differs} differs",
        modules.len(),
        tables.types(),
        tables.names(),
    );
    (text, found == imports)
}

/// The modules in files. `None` if one is none.
pub fn decode_all(files: &[Vec<u8>]) -> Option<Vec<Module<'_>>> {
    files.iter().map(|bytes| decode(bytes)).collect()
}

/// The name of the module in a file.
pub fn module_name(path: &str) -> &str {
    let file = path.rsplit('/').next().unwrap_or(path);
    file.strip_suffix(".wasm").unwrap_or(file)
}

// The types of functions are told by their numbers.
fn matches(asked: Item, given: Item, (asker, giver): (&[u32], &[u32])) -> bool {
    match (asked, given) {
        (Item::Func(one), Item::Func(other)) => asker[one as usize] == giver[other as usize],
        (Item::Table(element, asked), Item::Table(other, given)) => {
            element == other && asked.admits(&given)
        }
        (Item::Memory(asked), Item::Memory(given)) => asked.admits(&given),
        (Item::Global(value, mutable), Item::Global(other, written)) => {
            value == other && mutable == written
        }
        _ => false,
    }
}

// ---- texts ----

fn kind(item: Item) -> &'static str {
    match item {
        Item::Func(_) => "func",
        Item::Table(..) => "table",
        Item::Memory(_) => "memory",
        Item::Global(..) => "global",
    }
}

fn write_name(text: &mut String, name: &str) {
    if name.bytes().all(|b| (0x20..0x7f).contains(&b)) {
        return text.push_str(name);
    }
    for c in name.chars() {
        if c.is_control() {
            let _ = write!(text, "\\u{{{:x}}}", u32::from(c));
        } else {
            text.push(c);
        }
    }
}

fn write_type(text: &mut String, item: Item, module: &Module<'_>) {
    match item {
        Item::Func(index) => {
            let ty = &module.types[index as usize];
            write_tuple(text, &ty.params);
            text.push_str(" -> ");
            match ty.results.as_slice() {
                [result] => text.push_str(val_type(*result)),
                results => write_tuple(text, results),
            }
        }
        Item::Table(element, limits) => {
            text.push_str(val_type(element));
            text.push(' ');
            write_limits(text, limits);
        }
        Item::Memory(limits) => write_limits(text, limits),
        Item::Global(value, mutable) => {
            text.push_str(if mutable { "mut " } else { "" });
            text.push_str(val_type(value));
        }
    }
}

fn write_tuple(text: &mut String, types: &[ValType]) {
    text.push('(');
    for (place, ty) in types.iter().enumerate() {
        text.push_str(if place > 0 { " " } else { "" });
        text.push_str(val_type(*ty));
    }
    text.push(')');
}

fn write_limits(text: &mut String, limits: Limits) {
    let _ = write!(text, "{}..", limits.min);
    if let Some(max) = limits.max {
        let _ = write!(text, "{max}");
    }
}

fn val_type(ty: ValType) -> &'static str {
    match ty {
        ValType::I32 => "i32",
        ValType::I64 => "i64",
        ValType::F32 => "f32",
        ValType::F64 => "f64",
        ValType::V128 => "v128",
        ValType::FuncRef => "funcref",
        ValType::ExternRef => "externref",
    }
}
