//! What the printed Rust builds of a record's stream (binxml/ir.rs), as far as it tells how it takes the streams in values of type 21
//! (document 02, P9), and which value it hangs on which element and attribute (docs/EVENT.md).

use crate::binxml::compiled::Budget;
use crate::binxml::ir::{
    IrTemplateCache, RecordContent, TemplateContent, ValidatedInstance, ValidatedValue,
    build_record_content,
};
use crate::binxml::value_variant::BinXmlValue;
use crate::evtx_chunk::{EvtxChunk, raw_walk};
use crate::model::ir::{ElementId, IrTree, Node, Text};
use crate::oracle::{hex, values};

/// What it makes of a value.
#[derive(Debug, Clone, PartialEq, Eq)]
pub enum Built {
    /// It is taken for a value that is not there.
    Nothing,
    /// A value that holds no stream.
    Plain,
    /// A stream that is one instance, and its values.
    Instance(Vec<Built>),
    /// A stream of so many elements.
    Elements(usize),
}

/// What is built of the record's stream there: the values of its one instance, or where it is something else a tree of so many elements; or what
/// the Rust says against it.
pub fn of_record(chunk: &[u8], start: usize, length: usize) -> Result<Built, String> {
    Ok(match Opened::new(chunk).content(start, length)? {
        RecordContent::Template(content) => of_instance(&content, &content.root),
        RecordContent::Tree(tree) => Built::Elements(tree.arena().count()),
    })
}

/// A chunk that the printed Rust builds of. Never freed: what is built borrows all of it.
pub struct Opened(&'static EvtxChunk<'static>);

impl Opened {
    pub fn new(chunk: &[u8]) -> Self {
        let header = Box::leak(Box::new(raw_walk::blank_header()));
        let data: &'static [u8] = chunk.to_vec().leak();
        Opened(Box::leak(Box::new(raw_walk::bare_chunk(
            data, header, false,
        ))))
    }

    fn content(&self, start: usize, length: usize) -> Result<RecordContent<'static>, String> {
        let Opened(chunk) = self;
        let mut cache = IrTemplateCache::with_capacity(0, &chunk.arena);
        let bytes = chunk.data.get(start..start + length);
        let bytes = bytes.ok_or("outside the chunk")?;
        build_record_content(bytes, chunk, &mut cache, &Budget).map_err(|err| err.to_string())
    }

    /// What hangs on what in the record's tree, in its order, or what the Rust says against it.
    pub fn hung(&self, start: usize, length: usize) -> Result<Vec<Hung>, String> {
        let tree = match self.content(start, length)? {
            RecordContent::Tree(tree) => tree,
            RecordContent::Template(content) => content
                .materialize(&self.0.arena, &Budget)
                .map_err(|err| err.to_string())?,
        };
        let mut hanging = Hanging {
            tree: &tree,
            elements: 0,
            hung: Vec::new(),
        };
        hanging.element(tree.root());
        Ok(hanging.hung)
    }
}

/// Something that hangs on an element, or on one of its attributes.
#[derive(Debug, Clone, PartialEq, Eq)]
pub struct Hung {
    /// How many elements begin before this one.
    pub element: usize,
    pub name: String,
    pub attribute: Option<String>,
    /// A text's bytes or a value as mode T has them, ANSI text as it is decoded, or a reference.
    pub what: String,
}

/// A tree on its way from element to element.
struct Hanging<'a> {
    tree: &'a IrTree<'static>,
    elements: usize,
    hung: Vec<Hung>,
}

impl Hanging<'_> {
    fn element(&mut self, id: ElementId) {
        let element = self.tree.element(id);
        let number = self.elements;
        self.elements += 1;
        for attribute in &element.attrs {
            for node in &attribute.value {
                self.node(
                    number,
                    element.name.as_str(),
                    Some(attribute.name.as_str()),
                    node,
                );
            }
        }
        for node in &element.children {
            self.node(number, element.name.as_str(), None, node);
        }
    }

    fn node(&mut self, element: usize, name: &str, attribute: Option<&str>, node: &Node<'_>) {
        let what = match node {
            Node::Element(id) => return self.element(*id),
            // Instructions are no items.
            Node::PITarget(_) | Node::PIData(_) => return,
            Node::Text(Text::Utf16(text)) => format!("t{}", hex(text.as_bytes())),
            Node::Text(Text::Utf8(text)) => format!("a{text}"),
            Node::CData(Text::Utf16(text)) => format!("d{}", hex(text.as_bytes())),
            Node::CData(Text::Utf8(text)) => format!("d{text}"),
            Node::Value(BinXmlValue::AnsiStringArrayType(_)) => "ansi".to_owned(),
            Node::Value(value) => values::content(0, value, &[]),
            Node::EntityRef(name) => format!("e{}", name.as_str()),
            Node::CharRef(number) => format!("c{number}"),
            Node::Placeholder(_) => "placeholder".to_owned(),
        };
        self.hung.push(Hung {
            element,
            name: name.to_owned(),
            attribute: attribute.map(str::to_owned),
            what,
        });
    }
}

fn of_instance(content: &TemplateContent<'_>, instance: &ValidatedInstance<'_>) -> Built {
    let values = instance.values.iter().map(|value| match value {
        ValidatedValue::Scalar(BinXmlValue::NullType) => Built::Nothing,
        ValidatedValue::Scalar(_) => Built::Plain,
        ValidatedValue::Template(id) => of_instance(content, content.instance(*id)),
        ValidatedValue::Fragment(roots) => Built::Elements(roots.len()),
    });
    Built::Instance(values.collect())
}
