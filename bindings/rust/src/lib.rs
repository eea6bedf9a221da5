//! CommonMark 0.31.2 to HTML, to its tree, as a listing or in JSON, or to plain source, by the proved library libcmk.
//!
//! ```
//! use cmk::Options;
//!
//! let html = cmk::html("a & *b* ~~c~~", &Options { strike: true, ..Options::default() }).unwrap();
//! assert_eq!(&*html, "<p>a &amp; <em>b</em> <del>c</del></p>\n");
//!
//! let error = cmk::html(b"ab\xff", &Options::default()).unwrap_err();
//! assert_eq!((error.fault(), error.place), (Some(cmk::Fault::NotUtf8), 2));
//! assert_eq!(error.to_string(), "cmk: F1 not UTF-8 at byte 2");
//! ```
//!
//! Any number of threads may call at once. By default raw HTML in a text is written unchanged, and `javascript:`
//! links stay. For untrusted text there is [`Options::SAFE`].
//!
//! ```
//! let html = cmk::html("<b>a</b> [b](javascript:c)", &cmk::Options::SAFE).unwrap();
//! assert_eq!(&*html, "<p>&lt;b&gt;a&lt;/b&gt; [b](javascript:c)</p>\n");
//! ```

#![warn(missing_docs)]

use std::fmt;
use std::ops::Deref;

/// What is asked of a reading. The default, all zero, has the standard limits and rules.
///
/// ```
/// let options = cmk::Options { blocks: 1, ..cmk::Options::default() };
/// assert_eq!(cmk::html("> > a", &options).unwrap_err().to_string(), "cmk: F3 blocks too deep on line 1");
/// ```
#[repr(C)]
#[derive(Clone, Copy, Debug, Default, PartialEq, Eq)]
pub struct Options {
    /// The greatest number of bytes of a text, 1 to 2^30; 0 means 2^28.
    pub bytes: usize,
    /// How many quotes and list items may enclose a line, 1 to 500; 0 means 100.
    pub blocks: usize,
    /// How deep emphasis, links and images may nest, 1 to 500; 0 means 100.
    pub inlines: usize,
    /// Whether the older rules hold, as by `cmk --older`.
    pub older: bool,
    /// Whether text between two tildes is struck through.
    pub strike: bool,
    /// Whether raw HTML is text.
    pub no_html: bool,
    /// Whether links that don't lead to the web are text, as with `cmk --web-links`.
    pub web_links: bool,
}

impl Options {
    /// For untrusted text, as with `cmk --safe`.
    pub const SAFE: Options =
        Options { bytes: 0, blocks: 0, inlines: 0, older: false, strike: false, no_html: true, web_links: true };
}

/// What the library gives back.
#[repr(C)]
struct Output {
    bytes: *const u8,
    size: usize,
    length: usize,
    place: usize,
}

/// What a call of the library that fills a caller's buffer returns.
#[repr(C)]
struct Filled {
    length: usize,
    place: usize,
}

type Call = unsafe extern "C" fn(*const u8, usize, *const Options, *mut Output) -> u32;

extern "C" {
    fn cmk_html(text: *const u8, length: usize, options: *const Options, output: *mut Output) -> u32;
    fn cmk_tree(text: *const u8, length: usize, options: *const Options, output: *mut Output) -> u32;
    fn cmk_json(text: *const u8, length: usize, options: *const Options, output: *mut Output) -> u32;
    fn cmk_rewrite(text: *const u8, length: usize, options: *const Options, output: *mut Output) -> u32;
    fn cmk_fault_text(number: u32, place: usize, room: *mut u8, size: usize, filled: *mut Filled) -> u32;
    fn cmk_version() -> u32;
    fn free(block: *mut u8);
}

/// Room for each line that `cmk_fault_text` puts.
const LINE_ROOM: usize = 127;

/// What the library returns if there is no output, by the numbers of include/cmk.h.
#[derive(Clone, Copy, Debug, PartialEq, Eq, Hash)]
#[non_exhaustive]
#[repr(u32)]
pub enum Fault {
    /// The bytes aren't UTF-8. The place is the first byte that isn't part of a character.
    NotUtf8 = 1,
    /// The text is too long. The place is the limit of bytes.
    TooLong = 2,
    /// More quotes and list items than the limit enclose a line. The place is the line, counted from 1.
    BlocksTooDeep = 3,
    /// The inlines of a leaf nest deeper than the limit. The place is the leaf, counted from 1.
    InlinesTooDeep = 4,
    /// A refused allocation left no result.
    NoMemory = 5,
    /// The tree can't be written as source. The place is a [`Reason`].
    CannotSpell = 8,
    /// An option is out of its range.
    OutOfRange = 11,
    /// The caller's room is too small, which no call of this crate returns.
    NoRoom = 12,
}

impl Fault {
    /// Every fault.
    pub const ALL: [Fault; 8] = [
        Fault::NotUtf8,
        Fault::TooLong,
        Fault::BlocksTooDeep,
        Fault::InlinesTooDeep,
        Fault::NoMemory,
        Fault::CannotSpell,
        Fault::OutOfRange,
        Fault::NoRoom,
    ];
}

/// Why a tree can't be written as source: the place of [`Fault::CannotSpell`]. docs/cmk.md describes the reasons.
#[derive(Clone, Copy, Debug, PartialEq, Eq, Hash)]
#[non_exhaustive]
#[repr(usize)]
pub enum Reason {
    /// A definition.
    Definition = 1,
    /// U+0000.
    Nul = 2,
    /// A malformed node.
    Shape = 3,
    /// An empty or divided text.
    Text = 4,
    /// Emphasis in emphasis.
    EmphasisNested = 5,
    /// Emphasis beside emphasis.
    EmphasisTouching = 6,
    /// An edge of emphasis.
    EmphasisEdge = 7,
    /// A code span.
    CodeSpan = 8,
    /// Raw HTML.
    RawHtml = 9,
    /// A link in a link.
    LinkInLink = 10,
    /// A line break.
    LineBreak = 11,
    /// The text of a code block.
    CodeText = 12,
    /// An HTML block.
    HtmlBlock = 13,
    /// Two lists of one type side by side.
    AdjacentLists = 14,
    /// An item that begins with a list.
    ItemBeginsWithList = 15,
    /// A loose or tight list.
    Looseness = 16,
    /// Strikethrough while it is off.
    StrikeOff = 17,
    /// An address that isn't followed.
    AddressOff = 18,
    /// An info of several lines while raw HTML is off.
    InfoOff = 19,
}

impl Reason {
    /// Every reason.
    pub const ALL: [Reason; 19] = [
        Reason::Definition,
        Reason::Nul,
        Reason::Shape,
        Reason::Text,
        Reason::EmphasisNested,
        Reason::EmphasisTouching,
        Reason::EmphasisEdge,
        Reason::CodeSpan,
        Reason::RawHtml,
        Reason::LinkInLink,
        Reason::LineBreak,
        Reason::CodeText,
        Reason::HtmlBlock,
        Reason::AdjacentLists,
        Reason::ItemBeginsWithList,
        Reason::Looseness,
        Reason::StrikeOff,
        Reason::AddressOff,
        Reason::InfoOff,
    ];
}

/// Why there is no output. Its `Display` is the line that the program prints.
#[derive(Clone, Copy, Debug, PartialEq, Eq)]
pub struct Error {
    /// What the library returned, as [`Error::fault`] names it.
    pub number: u32,
    /// The byte, the line or the leaf of the fault, or the number of a [`Reason`].
    pub place: usize,
}

impl Error {
    /// The fault with this number, or `None` if a newer library has returned one that isn't in this crate.
    ///
    /// ```
    /// let error = cmk::rewrite("*a **b***", &cmk::Options::default()).unwrap_err();
    /// assert_eq!(error.fault(), Some(cmk::Fault::CannotSpell));
    /// ```
    pub fn fault(&self) -> Option<Fault> {
        Fault::ALL.into_iter().find(|it| *it as u32 == self.number)
    }

    /// The reason why a tree can't be written as source, if that is the fault, and the reason is in this crate.
    ///
    /// ```
    /// let error = cmk::rewrite("*a **b***", &cmk::Options::default()).unwrap_err();
    /// assert_eq!(error.reason(), Some(cmk::Reason::EmphasisNested));
    /// ```
    pub fn reason(&self) -> Option<Reason> {
        let is_place = |it: &Reason| self.fault() == Some(Fault::CannotSpell) && *it as usize == self.place;
        Reason::ALL.into_iter().find(is_place)
    }
}

impl fmt::Display for Error {
    fn fmt(&self, f: &mut fmt::Formatter<'_>) -> fmt::Result {
        let (mut room, mut filled) = ([0; LINE_ROOM], Filled { length: 0, place: 0 });
        // SAFETY: the room has that many bytes, and nothing else refers to it.
        let answer = unsafe { cmk_fault_text(self.number, self.place, room.as_mut_ptr(), room.len(), &mut filled) };
        match std::str::from_utf8(&room[..filled.length.min(LINE_ROOM)]) {
            Ok(line) if answer == 0 => f.write_str(line.trim_end()),
            _ => write!(f, "cmk: answer {} at {}", self.number, self.place),
        }
    }
}

impl std::error::Error for Error {}

/// An output of the library, seen as a string. Its memory is freed when it is dropped.
///
/// ```
/// let html = cmk::html("a", &cmk::Options::default()).unwrap();
/// assert!(html.starts_with("<p>") && html.to_string() == *html);
/// ```
pub struct Text(Output);

// SAFETY: an output is a block of memory of its own, which nothing writes.
unsafe impl Send for Text {}
// SAFETY: the same.
unsafe impl Sync for Text {}

impl Text {
    fn bytes(&self) -> &[u8] {
        // SAFETY: the library returned this number of bytes, which stay until `self` is dropped.
        unsafe { std::slice::from_raw_parts(self.0.bytes, self.0.length) }
    }
}

impl Deref for Text {
    type Target = str;

    fn deref(&self) -> &str {
        // SAFETY: `called` has looked.
        unsafe { std::str::from_utf8_unchecked(self.bytes()) }
    }
}

impl fmt::Debug for Text {
    fn fmt(&self, f: &mut fmt::Formatter<'_>) -> fmt::Result {
        fmt::Debug::fmt(&**self, f)
    }
}

impl fmt::Display for Text {
    fn fmt(&self, f: &mut fmt::Formatter<'_>) -> fmt::Result {
        f.write_str(self)
    }
}

impl Drop for Text {
    fn drop(&mut self) {
        // SAFETY: the bytes are a block of malloc, and nothing refers to them any more.
        unsafe { free(self.0.bytes as *mut u8) }
    }
}

/// What a call gives for a text.
fn called(call: Call, text: &[u8], options: &Options) -> Result<Text, Error> {
    let mut output = Output { bytes: std::ptr::null(), size: 0, length: 0, place: 0 };
    // SAFETY: the text has that many bytes, and nothing else refers to the output.
    match unsafe { call(text.as_ptr(), text.len(), options, &mut output) } {
        0 => {
            let text = Text(output);
            std::str::from_utf8(text.bytes()).expect("an output is UTF-8");
            Ok(text)
        }
        number => Err(Error { number, place: output.place }),
    }
}

/// The HTML of a text, as `cmk render` writes it.
///
/// ```
/// assert_eq!(&*cmk::html("a & *b*", &cmk::Options::default()).unwrap(), "<p>a &amp; <em>b</em></p>\n");
/// ```
pub fn html(text: impl AsRef<[u8]>, options: &Options) -> Result<Text, Error> {
    called(cmk_html, text.as_ref(), options)
}

/// The listing of the tree of a text and of the owners of its lines, as `cmk tree` writes it.
///
/// ```
/// let listing = cmk::tree("# a", &cmk::Options::default()).unwrap();
/// assert_eq!(&*listing, "heading 1\n  text \"a\"\nowner 1 leaf 1\n");
/// ```
pub fn tree(text: impl AsRef<[u8]>, options: &Options) -> Result<Text, Error> {
    called(cmk_tree, text.as_ref(), options)
}

/// The tree of a text in JSON, as `cmk tree --json` writes it, without the line feed at its end.
///
/// ```
/// let json = cmk::json("---", &cmk::Options::default()).unwrap();
/// assert_eq!(
///     &*json,
///     r#"{"type":"root","data":{"lines":[1,1]},"children":[{"type":"thematicBreak","data":{"lines":[1,1]}}]}"#
/// );
/// ```
pub fn json(text: impl AsRef<[u8]>, options: &Options) -> Result<Text, Error> {
    called(cmk_json, text.as_ref(), options)
}

/// Plain source of the tree of a text without its definitions, as `cmk rewrite` writes it. A tree that can't be spelled
/// is the error [`Fault::CannotSpell`].
///
/// ```
/// assert_eq!(&*cmk::rewrite("a\n===\n", &cmk::Options::default()).unwrap(), "# a\n");
/// ```
pub fn rewrite(text: impl AsRef<[u8]>, options: &Options) -> Result<Text, Error> {
    called(cmk_rewrite, text.as_ref(), options)
}

/// The three numbers of the version of the library that is linked.
///
/// ```
/// assert_eq!(cmk::version().0, env!("CARGO_PKG_VERSION_MAJOR").parse().unwrap());
/// ```
pub fn version() -> (u32, u32, u32) {
    // SAFETY: the call asks for nothing.
    let number = unsafe { cmk_version() };
    (number >> 16, number >> 8 & 255, number & 255)
}
