"""CommonMark in Sphinx by libcmk. In conf.py:

  sys.path.append("/PATH/examples/sphinx")
  extensions = ["cmk_sphinx"]
  cmk_options = {"strike": True}

A link to another page of the project, or to a heading, becomes a reference that Sphinx checks, and a link to another
file one that is downloaded. Headings have ids, and tables are, as on GitHub. A code block whose info is `{NAME} WORDS`
is the directive NAME with these arguments, and its lines are reStructuredText: `{toctree}`, `{note}`, `{automodule} cmk`.
Warnings have their line, and a text that the library refuses is an error. `cmk_options` are those of `cmk.parse`.
"""

import pathlib
import sys
import urllib.parse

import docutils.utils
import sphinx.parsers
from docutils import nodes
from docutils.statemachine import StringList
from pygments.lexers import find_lexer_class_by_name
from pygments.util import ClassNotFound
from sphinx import addnodes

sys.path.append(str(pathlib.Path(__file__).resolve().parents[2] / "bindings/python"))
import cmk  # noqa: E402
from cmk import pages  # noqa: E402

# The nodes that only have what is inside.
GROUPS = {
    "blockquote": nodes.block_quote,
    "emphasis": nodes.emphasis,
    "heading": nodes.rubric,
    "listItem": nodes.list_item,
    "paragraph": nodes.paragraph,
    "strong": nodes.strong,
}


def filled(node, inside):
    node.extend(inside)
    return node


def raw(**texts):
    """Returns nodes that write a text in each of some formats, and nothing in others."""
    return [nodes.raw("", text, format=name) for name, text in texts.items()]


def text_of(node):
    """Returns the text of a heading, from which its id is made."""
    return "".join("\n" if it["type"] == "break" else it.get("value", "") for it in cmk.walk(node))


def language_of(word):
    """Returns the language of a code block, as Sphinx takes it: `rust` for `rust,ignore`, and `none` if it isn't known."""
    try:
        find_lexer_class_by_name(name := word.partition(",")[0])
    except ClassNotFound:
        return "none"
    return name


class CmkParser(sphinx.parsers.Parser):
    """Makes the nodes of a text. The methods with the names of nodes of mdast return what becomes of these."""

    supported = ("markdown", "md")

    def parse(self, inputstring, document):
        """Fills the document."""
        self.setup_parse(inputstring, document)
        try:
            tree = pages.parse(inputstring, tables=True, **self.config.cmk_options)
        except cmk.CmkError as error:
            line = error.place if error.number == cmk.Fault.BLOCKS_TOO_DEEP else None
            document.append(document.reporter.error(error.line, source=document["source"], line=line))
        else:
            self.fill(tree)
        self.finish_parse()

    def fill(self, tree):
        """Makes sections of the headings outside of quotes and items."""
        headings = [it for it in cmk.walk(tree) if it["type"] == "heading"]
        for it, name in zip(headings, pages.heading_ids(map(text_of, headings))):
            it["id"] = name
        sections = [(0, self.document)]
        for block in tree["children"]:
            if block["type"] == "heading":
                while sections[-1][0] >= block["depth"]:
                    sections.pop()
                section = self.section(block)
                sections[-1][1].append(section)
                sections.append((block["depth"], section))
            else:
                sections[-1][1].extend(self.made([block]))

    def section(self, heading):
        title = filled(nodes.title(), self.made(heading["children"]))
        section = nodes.section("", title, names=[nodes.fully_normalize_name(title.astext())], ids=[heading["id"]])
        for node in (section, title):
            node.source, node.line = self.document["source"], heading["data"]["lines"][0]
        self.document.note_implicit_target(section, section)
        page = self.env.docname
        self.env.get_domain("std").note_hyperlink_target(f"{page}#{heading['id']}", page, heading["id"], title.astext())
        return section

    def made(self, children):
        """Returns the nodes of blocks or inlines, with their lines."""
        found = []
        for child in children:
            kind, inside = child["type"], self.made(child.get("children", ()))
            new = filled(GROUPS[kind](), inside) if kind in GROUPS else getattr(self, kind)(child, inside)
            for node in new if isinstance(new, list) else [new]:
                if "lines" in child.get("data", {}) and not node.line:
                    node.source, node.line = self.document["source"], child["data"]["lines"][0]
                found.append(node)
        return found

    def definition(self, child, inside):
        return []

    def thematicBreak(self, child, inside):
        return raw(html="<hr />\n", latex="\n\\noindent\\hrulefill\n")

    def list(self, child, inside):
        mark = child["data"]["marker"]
        if child["ordered"]:
            kind = nodes.enumerated_list(enumtype="arabic", prefix="", suffix=mark, start=child["start"])
        else:
            kind = nodes.bullet_list(bullet=mark)
        return filled(kind, inside)

    def code(self, child, inside):
        name, value = child["lang"] or "", child["value"]
        if name[:1] + name[-1:] == "{}":
            return self.directive(name[1:-1], child)
        return nodes.literal_block(value, value, language=language_of(name))

    def directive(self, name, child):
        """Has Sphinx read a directive of reStructuredText, and returns its nodes."""
        lines = [f".. {name}:: {child['meta'] or ''}", *(f"   {it}" for it in child["value"].split("\n"))]
        source, first = self.document["source"], child["data"]["lines"][0] - 1
        document = docutils.utils.new_document(source, self.document.settings)
        document.reporter = self.document.reporter
        # What the directive before has left there knows the lines of that one.
        vars(document.reporter).pop("get_source_and_line", None)
        parser = sphinx.parsers.RSTParser()
        parser.set_application(self._app)
        parser.parse(StringList(lines, items=[(source, first + number) for number in range(len(lines))]), document)
        return document.children

    def html(self, child, inside):
        return raw(html=child["value"])

    def table(self, child, inside):
        group = nodes.tgroup(cols=len(child["align"]))
        group += [nodes.colspec(colwidth=100 // len(child["align"])) for _ in child["align"]]
        for row in inside:
            for entry, side in zip(row, child["align"]):
                entry["classes"] += [f"text-{side}"] if side else []
        group += filled(nodes.thead(), inside[:1])
        group += filled(nodes.tbody(), inside[1:])
        return nodes.table("", group, classes=["colwidths-auto"])

    def tableRow(self, child, inside):
        return filled(nodes.row(), inside)

    def tableCell(self, child, inside):
        return nodes.entry("", filled(nodes.paragraph(), inside))

    def text(self, child, inside):
        return nodes.Text(child["value"])

    def line_break(self, child, inside):
        return raw(html="<br />\n", latex="\\\\\n")

    def delete(self, child, inside):
        return [*raw(html="<del>"), *inside, *raw(html="</del>")]

    def inlineCode(self, child, inside):
        return nodes.literal("", child["value"])

    def link(self, child, inside):
        path, sign, heading = child["url"].partition("#")
        if ":" in path or path.startswith("//"):
            title = {"reftitle": child["title"]} if child["title"] else {}
            return filled(nodes.reference(refuri=child["url"], **title), inside)
        page = self.env.docname
        if path:
            path = urllib.parse.unquote(path)
            page = self.env.path2doc(self.env.relfn2path(path)[1])
        if not page:
            new = addnodes.download_reference(reftype="download", refdomain="", reftarget=path, refdoc=self.env.docname)
            return filled(new, inside)
        kind, target = ("ref", f"{page}#{heading}") if sign else ("doc", f"/{page}")
        new = addnodes.pending_xref(
            refdomain="std", reftype=kind, reftarget=target, refdoc=self.env.docname, refexplicit=True, refwarn=True
        )
        return filled(new, [filled(nodes.inline(), inside)])

    def image(self, child, inside):
        return nodes.image(uri=child["url"], alt=child["alt"] or "")


setattr(CmkParser, "break", CmkParser.line_break)


def setup(app):
    app.add_config_value("cmk_options", {"strike": True}, "env")
    app.add_source_suffix(".md", "markdown")
    app.add_source_parser(CmkParser)
    return {"version": cmk.__version__, "parallel_read_safe": True, "parallel_write_safe": True}
