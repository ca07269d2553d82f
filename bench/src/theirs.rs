//! The Rust crate.

use crate::cases::Case;
use crate::Task;
use sfv::visitor::{
    DictionaryVisitor, EntryVisitor, Ignored, InnerListVisitor, ItemVisitor, ListVisitor, ParameterVisitor,
};
use sfv::{
    BareItemFromInput, DictSerializer, Dictionary, FieldType, InnerListSerializer, Item, ItemSerializer, KeyRef, List,
    ListSerializer, ParameterSerializer, Parser,
};
use sfv_c::{ITEM, LIST};
use std::borrow::BorrowMut;
use std::convert::Infallible;
use std::hint::black_box;
use std::slice::Iter;

/// A part of a field that the visitor receives.
enum Part<'de> {
    Entry,
    KeyedEntry(&'de KeyRef),
    Item,
    InnerList,
    BareItem(BareItemFromInput<'de>),
    Parameter(&'de KeyRef, BareItemFromInput<'de>),
    ParametersEnd,
    InnerListEnd,
}

/// A visitor that pushes parts.
struct Push<'p, 'de>(&'p mut Vec<Part<'de>>);

impl<'p, 'de> ParameterVisitor<'de> for Push<'p, 'de> {
    type Out = ();
    type Error = Infallible;

    fn parameter(&mut self, key: &'de KeyRef, value: BareItemFromInput<'de>) -> Result<(), Infallible> {
        self.0.push(Part::Parameter(key, value));
        Ok(())
    }

    fn finish(self) -> Result<(), Infallible> {
        self.0.push(Part::ParametersEnd);
        Ok(())
    }
}

impl<'p, 'de> ItemVisitor<'de> for Push<'p, 'de> {
    type Out = ();
    type Error = Infallible;

    fn bare_item(
        self,
        value: BareItemFromInput<'de>,
    ) -> Result<impl ParameterVisitor<'de, Out = ()>, Infallible> {
        self.0.push(Part::BareItem(value));
        Ok(self)
    }
}

impl<'p, 'de> InnerListVisitor<'de> for Push<'p, 'de> {
    type Error = Infallible;

    fn item(&mut self) -> Result<impl ItemVisitor<'de>, Infallible> {
        self.0.push(Part::Item);
        Ok(Push(self.0))
    }

    fn finish(self) -> Result<impl ParameterVisitor<'de>, Infallible> {
        self.0.push(Part::InnerListEnd);
        Ok(self)
    }
}

impl<'p, 'de> EntryVisitor<'de> for Push<'p, 'de> {
    type Error = Infallible;

    fn item(self) -> Result<impl ItemVisitor<'de>, Infallible> {
        self.0.push(Part::Item);
        Ok(self)
    }

    fn inner_list(self) -> Result<impl InnerListVisitor<'de>, Infallible> {
        self.0.push(Part::InnerList);
        Ok(self)
    }
}

impl<'p, 'de> ListVisitor<'de> for Push<'p, 'de> {
    type Out = ();
    type Error = Infallible;

    fn entry(&mut self) -> Result<impl EntryVisitor<'de>, Infallible> {
        self.0.push(Part::Entry);
        Ok(Push(self.0))
    }

    fn finish(self) -> Result<(), Infallible> {
        Ok(())
    }
}

impl<'p, 'de> DictionaryVisitor<'de> for Push<'p, 'de> {
    type Out = ();
    type Error = Infallible;

    fn entry(&mut self, key: &'de KeyRef) -> Result<impl EntryVisitor<'de>, Infallible> {
        self.0.push(Part::KeyedEntry(key));
        Ok(Push(self.0))
    }

    fn finish(self) -> Result<(), Infallible> {
        Ok(())
    }
}

fn canonical(kind: u32, parser: Parser<'_>) -> Option<String> {
    match kind {
        ITEM => parser.parse::<Item>().ok().map(|item| item.serialize()),
        LIST => parser.parse::<List>().ok()?.serialize(),
        _ => parser.parse::<Dictionary>().ok()?.serialize(),
    }
}

fn check(kind: u32, parser: Parser<'_>) -> bool {
    match kind {
        ITEM => parser.parse_item_with_visitor(Ignored).is_ok(),
        LIST => parser.parse_list_with_visitor(Ignored).is_ok(),
        _ => parser.parse_dictionary_with_visitor(Ignored).is_ok(),
    }
}

fn events<'de>(kind: u32, parser: Parser<'de>, parts: &mut Vec<Part<'de>>) -> bool {
    match kind {
        ITEM => parser.parse_item_with_visitor(Push(parts)).is_ok(),
        LIST => parser.parse_list_with_visitor(Push(parts)).is_ok(),
        _ => parser.parse_dictionary_with_visitor(Push(parts)).is_ok(),
    }
}

/// The next bare item.
fn bare_item<'p, 'de>(parts: &mut Iter<'p, Part<'de>>) -> &'p BareItemFromInput<'de> {
    match parts.next() {
        Some(Part::BareItem(value)) => value,
        _ => unreachable!("the parts are those of a field"),
    }
}

fn write_parameters<W: BorrowMut<String>>(mut serializer: ParameterSerializer<W>, parts: &mut Iter<'_, Part<'_>>) -> W {
    while let Some(Part::Parameter(key, value)) = parts.next() {
        serializer = serializer.parameter(key, value);
    }
    serializer.finish()
}

fn write_inner_list(mut list: InnerListSerializer<'_>, parts: &mut Iter<'_, Part<'_>>) {
    while let Some(Part::Item) = parts.next() {
        write_parameters(list.bare_item(bare_item(parts)), parts);
    }
    write_parameters(list.finish(), parts);
}

fn write_list(parts: &mut Iter<'_, Part<'_>>) -> Option<String> {
    let mut list = ListSerializer::new();
    while let Some(Part::Entry) = parts.next() {
        match parts.next() {
            Some(Part::InnerList) => write_inner_list(list.inner_list(), parts),
            _ => {
                write_parameters(list.bare_item(bare_item(parts)), parts);
            }
        }
    }
    list.finish()
}

fn write_dictionary(parts: &mut Iter<'_, Part<'_>>) -> Option<String> {
    let mut dictionary = DictSerializer::new();
    while let Some(Part::KeyedEntry(key)) = parts.next() {
        match parts.next() {
            Some(Part::InnerList) => write_inner_list(dictionary.inner_list(key), parts),
            _ => {
                write_parameters(dictionary.bare_item(key, bare_item(parts)), parts);
            }
        }
    }
    dictionary.finish()
}

fn write(kind: u32, parts: &[Part<'_>]) -> Option<String> {
    let parts = &mut parts.iter();
    match kind {
        ITEM => Some(write_parameters(ItemSerializer::new().bare_item(bare_item(parts)), parts)),
        LIST => write_list(parts),
        _ => write_dictionary(parts),
    }
}

/// The Rust crate's side, with room for as many parts as the library has.
pub struct Theirs<'de> {
    parts: Vec<Part<'de>>,
}

impl<'de> Theirs<'de> {
    /// Without room for parts.
    pub fn parsing() -> Theirs<'de> {
        Theirs { parts: Vec::new() }
    }

    pub fn new(case: &'de Case) -> Theirs<'de> {
        let mut parts = Vec::with_capacity(2 * case.field.len() + 2);
        events(case.kind, Parser::new(&case.field), &mut parts);
        Theirs { parts }
    }

    pub fn run(&mut self, case: &'de Case, task: Task) {
        let parser = Parser::new(black_box(&case.field[..]));
        match task {
            Task::Canonical => drop(black_box(canonical(case.kind, parser))),
            Task::Check => {
                black_box(check(case.kind, parser));
            }
            Task::Parse => {
                self.parts.clear();
                black_box(events(case.kind, parser, &mut self.parts));
                black_box(&self.parts);
            }
            Task::Write => drop(black_box(write(case.kind, black_box(&self.parts)))),
        }
    }
}
