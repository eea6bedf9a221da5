"""CommonMark 0.31.2 to HTML, to its tree, or to plain source, by the proved library libcmk.

    >>> import cmk
    >>> cmk.html("a & *b*")
    '<p>a &amp; <em>b</em></p>\\n'
    >>> [node["type"] for node in cmk.walk(cmk.parse("a & *b*"))]
    ['root', 'paragraph', 'text', 'emphasis', 'text']

Each call takes a `str`, or the bytes of a text; threads may call at once. A text that is refused raises `CmkError`,
which has a `Fault`. The tree is mdast, and has a type for each node; docs/cmk.md describes their members.

The library is the first of these that exists: the file that the variable CMK_LIBRARY names, libcmk.so.0 beside this
file, where a wheel has it, the one in the folder that `pkg-config --variable=libdir cmk` reports, and the libcmk.so.0
that the system finds. If there is none, or it is another library, importing this package fails with an `ImportError`
that says so.
"""

import ctypes
import enum
import inspect
import os
import subprocess
from collections.abc import Callable, Iterator
from json import JSONDecoder as _JSONDecoder
from typing import TYPE_CHECKING, Any, Literal, Optional, TypedDict, TypeVar, Union

if TYPE_CHECKING:
    from typing_extensions import Unpack

# fmt: off
__all__ = [
    "Block", "Blockquote", "Break", "CmkError", "Code", "Definition", "Delete", "Emphasis", "Fault", "Heading", "Html",
    "Image", "Inline", "InlineCode", "Link", "List", "ListItem", "Node", "Options", "Paragraph", "Reason", "Root",
    "Source", "Strong", "Text", "ThematicBreak", "html", "json", "parse", "rewrite", "tree", "version", "walk",
]
# fmt: on

_NAME = "libcmk.so.0"
_LINE_ROOM = 127
_decoder = _JSONDecoder()


class _Options(ctypes.Structure):
    _fields_ = [
        ("bytes", ctypes.c_size_t),
        ("blocks", ctypes.c_size_t),
        ("inlines", ctypes.c_size_t),
        ("older", ctypes.c_bool),
        ("strike", ctypes.c_bool),
        ("no_html", ctypes.c_bool),
        ("web_links", ctypes.c_bool),
    ]


class _Output(ctypes.Structure):
    _fields_ = [
        ("bytes", ctypes.c_void_p),
        ("size", ctypes.c_size_t),
        ("length", ctypes.c_size_t),
        ("place", ctypes.c_size_t),
    ]


class _Filled(ctypes.Structure):
    _fields_ = [("length", ctypes.c_size_t), ("place", ctypes.c_size_t)]


def _folder() -> Optional[str]:
    """Returns the folder of the library: this one, or the one that pkg-config reports, or None."""
    own = os.path.dirname(os.path.abspath(__file__))
    if os.path.exists(os.path.join(own, _NAME)):
        return own
    try:
        words = ["pkg-config", "--variable=libdir", "cmk"]
        told = subprocess.run(words, stdout=subprocess.PIPE, stderr=subprocess.DEVNULL, text=True, check=False)
    except OSError:
        return None
    return told.stdout.strip() if told.returncode == 0 else None


def _loaded() -> ctypes.CDLL:
    """Returns the library, with the types of its calls."""
    named = os.environ.get("CMK_LIBRARY")
    if not named:
        folder = _folder()
        named = os.path.join(folder, _NAME) if folder else _NAME
    try:
        library = ctypes.CDLL(named)
        _declare(library)
    except OSError as why:
        raise ImportError(f"{why}: install libcmk, or let the variable CMK_LIBRARY name {_NAME}") from why
    except AttributeError as why:
        raise ImportError(f"{named} isn't {_NAME}, or has another version: {why}") from why
    return library


def _declare(library: ctypes.CDLL) -> None:
    """Gives the calls of the library their types. One that isn't there is an `AttributeError`."""
    for call in (library.cmk_html, library.cmk_tree, library.cmk_json, library.cmk_rewrite):
        call.argtypes = [ctypes.c_char_p, ctypes.c_size_t, ctypes.POINTER(_Options), ctypes.POINTER(_Output)]
        call.restype = ctypes.c_uint32
    room: list[Any] = [ctypes.c_char_p, ctypes.c_size_t, ctypes.POINTER(_Filled)]
    library.cmk_fault_text.argtypes = [ctypes.c_uint32, ctypes.c_size_t, *room]
    library.cmk_fault_text.restype = ctypes.c_uint32
    library.cmk_version.argtypes, library.cmk_version.restype = [], ctypes.c_uint32


_library = _loaded()
_free = ctypes.CDLL(None).free
_free.argtypes, _free.restype = [ctypes.c_void_p], None


class Lines(TypedDict):
    """The `data` of a leaf: its first and its last line, counted from 1."""

    lines: list[int]


class HtmlData(Lines, total=False):
    finalNewline: bool


class CodeData(HtmlData, total=False):
    info: str


class RootData(Lines, total=False):
    """The `data` of the document: `[1, n]` for n lines, and the lines that have only markers, if there are any."""

    markers: list[int]


class DefinitionData(Lines, total=False):
    """The `data` of a definition: its lines, and its label as the text has it, unless it is `label`."""

    label: str


class ListData(TypedDict):
    marker: str


class TextData(TypedDict):
    characterReference: bool


class ImageData(TypedDict):
    """The `data` of an image: its description, unless it is empty or one text that isn't."""

    children: list["Inline"]


class Root(TypedDict):
    type: Literal["root"]
    data: RootData
    children: list["Block"]


class Paragraph(TypedDict):
    type: Literal["paragraph"]
    data: Lines
    children: list["Inline"]


class Heading(TypedDict):
    type: Literal["heading"]
    data: Lines
    depth: int
    children: list["Inline"]


class Code(TypedDict):
    type: Literal["code"]
    data: CodeData
    lang: Optional[str]
    meta: Optional[str]
    value: str


class ThematicBreak(TypedDict):
    type: Literal["thematicBreak"]
    data: Lines


class Definition(TypedDict):
    type: Literal["definition"]
    data: DefinitionData
    identifier: str
    label: str
    url: str
    title: Optional[str]


class Blockquote(TypedDict):
    type: Literal["blockquote"]
    children: list["Block"]


class List(TypedDict):
    type: Literal["list"]
    data: ListData
    ordered: bool
    start: Optional[int]
    spread: bool
    children: list["ListItem"]


class ListItem(TypedDict):
    type: Literal["listItem"]
    spread: bool
    children: list["Block"]


class _Html(TypedDict):
    type: Literal["html"]
    value: str


class Html(_Html, total=False):
    """An HTML block, or raw HTML among inlines, which has no `data`."""

    data: HtmlData


class _Text(TypedDict):
    type: Literal["text"]
    value: str


class Text(_Text, total=False):
    """Text with the soft line breaks in it, a line feed for each. `data` is there if a character reference makes a line feed."""

    data: TextData


class Break(TypedDict):
    type: Literal["break"]


class Emphasis(TypedDict):
    type: Literal["emphasis"]
    children: list["Inline"]


class Strong(TypedDict):
    type: Literal["strong"]
    children: list["Inline"]


class Delete(TypedDict):
    type: Literal["delete"]
    children: list["Inline"]


class InlineCode(TypedDict):
    type: Literal["inlineCode"]
    value: str


class Link(TypedDict):
    type: Literal["link"]
    url: str
    title: Optional[str]
    children: list["Inline"]


class _Image(TypedDict):
    type: Literal["image"]
    url: str
    title: Optional[str]
    alt: Optional[str]


class Image(_Image, total=False):
    """An image. `alt` is None only in the description of another."""

    data: ImageData


Block = Union[Paragraph, Heading, Code, Html, ThematicBreak, Definition, Blockquote, List]
Inline = Union[Text, Break, Emphasis, Strong, Delete, InlineCode, Html, Link, Image]
Node = Union[Root, Block, ListItem, Inline]

Source = Union[str, bytes, bytearray, memoryview]


class Options(TypedDict, total=False):
    """The options of a call.

    `bytes` is the greatest length of the text in UTF-8, 1 to 2^30; 2^28 if it is left out. `blocks` is how many quotes
    and list items may enclose a line, and `inlines` how deep emphasis, links and images may nest, each 1 to 500; 100 if
    it is left out. `older` selects the older rules, and `strike` reads text between two tildes as struck through.
    `no_html` reads raw HTML as text, `web_links` links that don't lead to the web, and `safe` both.

    >>> html("~~a~~ <b>", strike=True, safe=True)
    '<p><del>a</del> &lt;b&gt;</p>\\n'
    """

    bytes: int
    blocks: int
    inlines: int
    older: bool
    strike: bool
    no_html: bool
    web_links: bool
    safe: bool


class Fault(enum.IntEnum):
    """What the library returns if there is no output. include/cmk.h says what the place of each is."""

    NOT_UTF8 = 1
    TOO_LONG = 2
    BLOCKS_TOO_DEEP = 3
    INLINES_TOO_DEEP = 4
    NO_MEMORY = 5
    CANNOT_SPELL = 8
    OUT_OF_RANGE = 11
    NO_ROOM = 12

    # Python 3.9 and 3.10 would write the name.
    __str__ = int.__repr__


class Reason(enum.IntEnum):
    """Why a tree can't be written as source: the place of `Fault.CANNOT_SPELL`. docs/cmk.md describes the reasons."""

    DEFINITION = 1
    NUL = 2
    SHAPE = 3
    TEXT = 4
    EMPHASIS_NESTED = 5
    EMPHASIS_TOUCHING = 6
    EMPHASIS_EDGE = 7
    CODE_SPAN = 8
    RAW_HTML = 9
    LINK_IN_LINK = 10
    LINE_BREAK = 11
    CODE_TEXT = 12
    HTML_BLOCK = 13
    ADJACENT_LISTS = 14
    ITEM_BEGINS_WITH_LIST = 15
    LOOSENESS = 16
    STRIKE_OFF = 17
    ADDRESS_OFF = 18
    INFO_OFF = 19

    __str__ = int.__repr__


class CmkError(Exception):
    """Why there is no output.

    `number` is a `Fault`, or an int if a newer library returns one that isn't there. `place` is the byte, the line or
    the leaf, or a `Reason`. `line` is the line that the program prints.

    >>> try:
    ...     html(bytes([97, 98, 255]))
    ... except CmkError as error:
    ...     print(error.number == Fault.NOT_UTF8, error.number, error.place, error.line)
    True 1 2 cmk: F1 not UTF-8 at byte 2
    """

    def __init__(self, number: int, place: int) -> None:
        self.number: int = Fault(number) if number in Fault.__members__.values() else number
        is_reason = number == Fault.CANNOT_SPELL and place in Reason.__members__.values()
        self.place: int = Reason(place) if is_reason else place
        self.line = _line(number, place)
        super().__init__(self.line)

    def __reduce__(self) -> tuple[type["CmkError"], tuple[int, int]]:
        return (CmkError, (self.number, self.place))


def _line(number: int, place: int) -> str:
    """Returns the line for a returned number, without its line feed."""
    room, filled = ctypes.create_string_buffer(_LINE_ROOM), _Filled()
    if _library.cmk_fault_text(number, place, room, _LINE_ROOM, ctypes.byref(filled)):
        return f"cmk: answer {number} at {place}"
    return room.raw[: filled.length].decode().rstrip("\n")


def _encoded(text: Source) -> bytes:
    """Returns the bytes of a text. The library refuses those of a lone surrogate, since they aren't UTF-8.

    A subclass may have another `encode` or `__len__`, so only the types themselves are asked.
    """
    if isinstance(text, str):
        return str.encode(text, errors="surrogatepass")
    return text if type(text) is bytes else bytes(memoryview(text))


def _asked(
    bytes: int = 1 << 28,
    blocks: int = 100,
    inlines: int = 100,
    older: bool = False,
    strike: bool = False,
    no_html: bool = False,
    web_links: bool = False,
    safe: bool = False,
) -> _Options:
    """Returns the options as the library takes them."""
    # It takes 0 for the default, and ctypes cuts a wide number.
    if not (1 <= bytes <= 1 << 30 and 1 <= blocks <= 500 and 1 <= inlines <= 500):
        raise CmkError(Fault.OUT_OF_RANGE, 0)
    return _Options(bytes, blocks, inlines, older, strike, no_html or safe, web_links or safe)


def _called(call: Callable[..., int], text: Source, options: Options) -> str:
    """Returns the output of a call for a text."""
    unknown = sorted(options.keys() - Options.__annotations__.keys())
    if unknown:
        raise TypeError(f"cmk has no option {unknown[0]!r}; its options are {', '.join(Options.__annotations__)}")
    asked, given, output = _asked(**options), _encoded(text), _Output()
    number = call(given, len(given), ctypes.byref(asked), ctypes.byref(output))
    if number:
        raise CmkError(number, output.place)
    try:
        return ctypes.string_at(output.bytes, output.length).decode()
    finally:
        _free(output.bytes)


_Call = TypeVar("_Call", bound=Callable[..., Any])


def _with_options(call: _Call) -> _Call:
    """Puts each option into the signature of a call, where `help` and editors look for them."""
    signature = inspect.signature(call)
    text = signature.parameters["text"]
    options = [it.replace(kind=it.KEYWORD_ONLY) for it in inspect.signature(_asked).parameters.values()]
    setattr(call, "__signature__", signature.replace(parameters=[text, *options]))
    return call


@_with_options
def html(text: Source, **options: "Unpack[Options]") -> str:
    """Returns the HTML of a text, as `cmk render` writes it.

    >>> html("<b>a</b> [b](javascript:c)", safe=True)
    '<p>&lt;b&gt;a&lt;/b&gt; [b](javascript:c)</p>\\n'

    `Options` describes the options. Raises `CmkError` if the text has a fault, memory runs out, or a number is out of
    range. A `str` with a lone surrogate isn't UTF-8.

    Without `safe`, raw HTML in the text is written unchanged, and `javascript:` links stay.
    """
    return _called(_library.cmk_html, text, options)


@_with_options
def tree(text: Source, **options: "Unpack[Options]") -> str:
    """Returns the listing of a text's tree and of the owners of its lines, as `cmk tree` writes it. Else as `html`.

    >>> print(tree("# *a*"), end="")
    heading 1
      emph
        text "a"
    owner 1 leaf 1
    """
    return _called(_library.cmk_tree, text, options)


@_with_options
def json(text: Source, **options: "Unpack[Options]") -> str:
    """Returns the tree of a text in JSON, as `cmk tree --json` writes it, without its last line feed. Else as `html`.

    >>> json("---")
    '{"type":"root","data":{"lines":[1,1]},"children":[{"type":"thematicBreak","data":{"lines":[1,1]}}]}'
    """
    return _called(_library.cmk_json, text, options)


@_with_options
def parse(text: Source, **options: "Unpack[Options]") -> Root:
    """Returns the tree of a text as dictionaries and lists: the values of `json`, at every depth. Else as `html`.

    >>> parse("# a")["children"][0]["depth"]
    1
    """
    tree = json(text, **options)
    root: Root
    try:
        root = _decoder.decode(tree)
    except RecursionError:
        root = _read(tree)
    return root


def _read(text: str) -> Any:
    """Returns the value of a JSON text that nests too deep for Python's reader, which recurses.

    Python's reader reads its strings and numbers.
    """
    whole: list[Any] = []
    around: list[Any] = [whole]
    value: Any
    key, at = None, 0
    while at < len(text):
        sign, inside = text[at], around[-1]
        if sign in "]}":
            around.pop()
        if sign in "]},:":
            at += 1
            continue
        if sign in "[{":
            value, at = [] if sign == "[" else {}, at + 1
            around.append(value)
        else:
            value, at = _decoder.raw_decode(text, at)
        if isinstance(inside, list):
            inside.append(value)
        elif key is None:
            key = value
        else:
            inside[key], key = value, None
    return whole[0]


def walk(tree: Node) -> Iterator[Node]:
    """Iterates over a node and all nodes inside it, in the order of the text and however deep they nest.

    The description of an image is passed over: HTML has only its text, which is in `alt`.

    >>> [node["url"] for node in walk(parse("[a](/b) *![c](/d)*")) if node["type"] in ("link", "image")]
    ['/b', '/d']
    """
    left = [tree]
    while left:
        node: Any = left.pop()
        yield node
        left.extend(reversed(node.get("children", ())))


@_with_options
def rewrite(text: Source, **options: "Unpack[Options]") -> str:
    """Returns plain source of the tree of a text without its definitions, as `cmk rewrite` writes it.

    Raises `CmkError` as `html` does, and with `Fault.CANNOT_SPELL` if the tree can't be spelled. Else as `html`.

    >>> rewrite("a\\n===\\n")
    '# a\\n'
    """
    return _called(_library.cmk_rewrite, text, options)


def version() -> str:
    """Returns the version of the library that is loaded, three numbers. `__version__` is the same.

    >>> len(version().split("."))
    3
    """
    number: int = _library.cmk_version()
    return f"{number >> 16}.{number >> 8 & 255}.{number & 255}"


__version__ = version()
