//! The tree of a CommonMark text as values, over the crate `cmk`.
//!
//! ```
//! use cmk_tree::{Node, parse};
//!
//! let tree = parse("# a\n\n- *b*", &cmk::Options::default()).unwrap();
//! let [Node::Heading { depth, lines, .. }, Node::List { marker: '-', .. }] = tree.children() else { panic!() };
//! assert_eq!((*depth, *lines), (1, (1, 1)));
//! ```
//!
//! The tree is what `cmk::json` writes, with the members of `data` among the others. It may nest as deep as the limits
//! allow: it is read in a thread with a stack that suffices.
//!
//! ```
//! let options = cmk::Options { blocks: 500, inlines: 500, ..cmk::Options::default() };
//! let text = format!("{}{}a{}", "- ".repeat(500), "*b **c ".repeat(250), "** d*".repeat(250));
//! let tree = cmk_tree::parse(text, &options).unwrap();
//! let (mut nodes, mut left) = (0, vec![&tree]);
//! while let Some(node) = left.pop() {
//!     nodes += 1;
//!     left.extend(node.children());
//! }
//! assert_eq!(nodes, 1 + 2 * 500 + 1 + 500 + 3 * 250);
//!
//! let images = format!("{}{}*a*{}", "- ".repeat(500), "![".repeat(499), "](b)".repeat(499));
//! assert!(cmk_tree::parse(images, &options).is_ok());
//! ```

use serde::Deserialize;
use std::thread;

/// The stack of the thread, in bytes. The deepest trees take less than 24 MiB without optimisation.
const STACK: usize = 64 << 20;

/// The first and the last line of a leaf, counted from 1.
pub type Lines = (usize, usize);

/// A node of a tree, and all inside it. An empty title, language or rest of an info string is `None`.
#[derive(Clone, Debug, PartialEq, Eq, Deserialize)]
#[serde(try_from = "Members")]
pub enum Node {
    /// The document. `lines` is `(1, n)` for n lines, and `markers` has the lines that have only markers.
    Root {
        lines: Lines,
        markers: Vec<usize>,
        children: Vec<Node>,
    },
    Paragraph {
        lines: Lines,
        children: Vec<Node>,
    },
    Heading {
        lines: Lines,
        depth: u8,
        children: Vec<Node>,
    },
    /// A code block. `info` is there if it is neither `lang` nor `lang`, a space and `meta`. `value` has all line feeds.
    Code {
        lines: Lines,
        lang: Option<String>,
        meta: Option<String>,
        info: Option<String>,
        value: String,
    },
    /// An HTML block, with all line feeds.
    HtmlBlock {
        lines: Lines,
        value: String,
    },
    ThematicBreak {
        lines: Lines,
    },
    /// A link reference definition. `identifier` is its label as labels are compared. `source_label` is there if escapes and references
    /// make `label` another text.
    Definition {
        lines: Lines,
        identifier: String,
        label: String,
        source_label: Option<String>,
        url: String,
        title: Option<String>,
    },
    Blockquote {
        children: Vec<Node>,
    },
    /// A list. `marker` is `-`, `+` or `*`, or follows the numbers of a list that has a `start`.
    List {
        marker: char,
        start: Option<u32>,
        spread: bool,
        children: Vec<Node>,
    },
    ListItem {
        spread: bool,
        children: Vec<Node>,
    },
    /// A text. Each line feed in it is a soft line break, unless `character_reference` says that a reference makes it.
    Text {
        value: String,
        character_reference: bool,
    },
    Break,
    Emphasis {
        children: Vec<Node>,
    },
    Strong {
        children: Vec<Node>,
    },
    Delete {
        children: Vec<Node>,
    },
    InlineCode {
        value: String,
    },
    /// Raw HTML among inlines.
    Html {
        value: String,
    },
    Link {
        url: String,
        title: Option<String>,
        children: Vec<Node>,
    },
    /// An image. `children` is its description; `alt` is `None` only in the description of another.
    Image {
        url: String,
        title: Option<String>,
        alt: Option<String>,
        children: Vec<Node>,
    },
}

impl Node {
    /// The nodes that are directly inside this one, for an image those of its description.
    pub fn children(&self) -> &[Node] {
        match self {
            Node::Root { children, .. }
            | Node::Paragraph { children, .. }
            | Node::Heading { children, .. }
            | Node::Blockquote { children }
            | Node::List { children, .. }
            | Node::ListItem { children, .. }
            | Node::Emphasis { children }
            | Node::Strong { children }
            | Node::Delete { children }
            | Node::Link { children, .. }
            | Node::Image { children, .. } => children,
            _ => &[],
        }
    }
}

/// The members of any node in JSON.
#[derive(Default, Deserialize)]
#[serde(default)]
struct Members {
    r#type: String,
    data: Data,
    children: Vec<Node>,
    depth: u8,
    lang: Option<String>,
    meta: Option<String>,
    value: String,
    identifier: String,
    label: String,
    url: String,
    title: Option<String>,
    start: Option<u32>,
    spread: bool,
    alt: Option<String>,
}

#[derive(Default, Deserialize)]
#[serde(default, rename_all = "camelCase")]
struct Data {
    lines: Option<Lines>,
    markers: Vec<usize>,
    info: Option<String>,
    final_newline: Option<bool>,
    marker: char,
    label: Option<String>,
    character_reference: bool,
    children: Option<Vec<Node>>,
}

impl TryFrom<Members> for Node {
    type Error = String;

    fn try_from(members: Members) -> Result<Node, String> {
        let Members {
            r#type,
            data,
            children,
            depth,
            lang,
            meta,
            mut value,
            identifier,
            label,
            url,
            title,
            start,
            spread,
            alt,
        } = members;
        let lines = data.lines.unwrap_or_default();
        if matches!((&*r#type, data.lines), ("code" | "html", Some(_))) && data.final_newline != Some(false) {
            value.push('\n');
        }
        Ok(match &*r#type {
            "root" => Node::Root { lines, markers: data.markers, children },
            "paragraph" => Node::Paragraph { lines, children },
            "heading" => Node::Heading { lines, depth, children },
            "code" => Node::Code { lines, lang, meta, info: data.info, value },
            "html" if data.lines.is_some() => Node::HtmlBlock { lines, value },
            "thematicBreak" => Node::ThematicBreak { lines },
            "definition" => Node::Definition { lines, identifier, label, source_label: data.label, url, title },
            "blockquote" => Node::Blockquote { children },
            "list" => Node::List { marker: data.marker, start, spread, children },
            "listItem" => Node::ListItem { spread, children },
            "text" => Node::Text { value, character_reference: data.character_reference },
            "break" => Node::Break,
            "emphasis" => Node::Emphasis { children },
            "strong" => Node::Strong { children },
            "delete" => Node::Delete { children },
            "inlineCode" => Node::InlineCode { value },
            "html" => Node::Html { value },
            "link" => Node::Link { url, title, children },
            "image" => {
                let text = alt.iter().filter(|alt| !alt.is_empty()).map(|alt| Node::Text { value: alt.clone(), character_reference: alt.contains('\n') });
                let children = data.children.unwrap_or_else(|| text.collect());
                Node::Image { url, title, alt, children }
            }
            _ => return Err(format!("there is no node {}", r#type)),
        })
    }
}

fn read(json: &str) -> Node {
    let mut reader = serde_json::Deserializer::from_str(json);
    reader.disable_recursion_limit();
    Node::deserialize(&mut reader).expect("the library writes nodes")
}

/// The tree of a text.
///
/// Fails as `cmk::json` does. Panics if no thread can be started.
pub fn parse(text: impl AsRef<[u8]>, options: &cmk::Options) -> Result<Node, cmk::Error> {
    let json = cmk::json(text, options)?;
    let tree = thread::scope(|scope| {
        let started = thread::Builder::new().stack_size(STACK).spawn_scoped(scope, || read(&json));
        started.expect("a thread").join().expect("a tree")
    });
    Ok(tree)
}
