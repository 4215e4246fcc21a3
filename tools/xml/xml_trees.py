"""XML texts and the element trees of scripts and replies, for tools/xml/xml-script and tools/xml/xml-replies.

usage: no program; `tree_of(text)` is the element of an XML text, and `text_of(element)` the XML text of an element

A tree has the form of docs/SCRIPTS.md: name, prefix, namespace, attributes, children. Reading is Python's expat; what is kept of a text is
what the live server's reader keeps: texts are joined over comments and CDATA sections, and of the declarations those stay that the
prefix of an attribute needs, unless it is that of its element.
"""
import re
from xml.parsers import expat

BETWEEN = "\x01"  # stands in no XML text
LEVELS = 64
MOST_BYTES = 1 << 20
MOST_ATTRIBUTES = 256
XML = "http://www.w3.org/XML/1998/namespace"
# The namespaces of prefixes that stand in the server's trees without one.
KNOWN = {
    "D": "DAV:", "A": "http://apache.org/dav/props/", "Z": "urn:schemas-microsoft-com:",
    "nc": "http://nextcloud.org/ns", "oc": "http://owncloud.org/ns",
}


class Malformed(Exception):
    """Why a text isn't XML, or is none that the server reads."""


def parts_of(name):
    """The namespace, the local name and the prefix of a name as expat hands it out; None where there is none."""
    parts = name.split(BETWEEN)
    if len(parts) == 1:
        return None, parts[0], None
    return parts[0], parts[1], parts[2] if len(parts) > 2 else None


class Reader:
    """Builds the tree while expat reads."""

    def __init__(self):
        self.root = None
        self.open = []

    def declaration(self, version, encoding, standalone):
        if encoding is not None and encoding.lower() not in ("utf-8", "us-ascii"):
            raise Malformed(f"its encoding is {encoding}")
        if not re.fullmatch(r"1\.[0-9]+", version):
            raise Malformed(f"its version is {version}")

    def doctype(self, *_):
        raise Malformed("it has a document type")

    def begin(self, name, values):
        namespace, local, prefix = parts_of(name)
        if len(self.open) >= LEVELS:
            raise Malformed(f"it has more than {LEVELS} levels")
        if len(values) > 2 * MOST_ATTRIBUTES:
            raise Malformed(f"an element has more than {MOST_ATTRIBUTES} attributes")
        element = {"name": local, "prefix": prefix, "namespace": namespace, "attributes": [], "children": []}
        kept = element["attributes"]
        for attribute, value in zip(values[::2], values[1::2]):
            uri, its_local, its_prefix = parts_of(attribute)
            kept.append([f"{its_prefix}:{its_local}" if its_prefix else its_local, value])
            if its_prefix and its_prefix not in ("xml", prefix) and f"xmlns:{its_prefix}" not in [pair[0] for pair in kept]:
                kept.append([f"xmlns:{its_prefix}", uri])
        if self.open:
            self.open[-1]["children"].append(element)
        else:
            self.root = element
        self.open.append(element)

    def end(self, _):
        self.open.pop()

    def text(self, data):
        children = self.open[-1]["children"]
        if children and isinstance(children[-1], str):
            children[-1] += data
        else:
            children.append(data)


def tree_of(text):
    """The element of an XML text; `Malformed` where it has none."""
    data = text.encode()
    if len(data) > MOST_BYTES:
        raise Malformed(f"it has more than {MOST_BYTES} bytes")
    reader = Reader()
    parser = expat.ParserCreate("utf-8", BETWEEN)
    parser.namespace_prefixes = parser.ordered_attributes = parser.buffer_text = True
    parser.XmlDeclHandler, parser.StartDoctypeDeclHandler = reader.declaration, reader.doctype
    parser.StartElementHandler, parser.EndElementHandler, parser.CharacterDataHandler = reader.begin, reader.end, reader.text
    try:
        parser.Parse(data, True)
    except expat.ExpatError as error:
        raise Malformed(str(error)) from None
    return reader.root


# Writing


def escaped(text, is_attribute=False):
    for sign, written in [("&", "&amp;"), ("<", "&lt;"), (">", "&gt;"), ('"', "&quot;"), ("\r", "&#13;")]:
        text = text.replace(sign, written)
    return text.replace("\n", "&#10;").replace("\t", "&#9;") if is_attribute else text


def declared_prefix(name):
    """The prefix that an attribute of this name declares; None where it declares none."""
    if name == "xmlns":
        return ""
    return name[6:] if name.startswith("xmlns:") else None


def placed(element, scope):
    """The name of an element, its attributes and what is declared within it; its own prefix is declared where it has another namespace."""
    prefix = element.get("prefix") or ""
    attributes = [tuple(pair) for pair in element.get("attributes", [])]
    scope = dict(scope, **{declared_prefix(name): value for name, value in attributes if declared_prefix(name) is not None})
    wanted = element.get("namespace")
    if wanted is None:
        wanted = scope.get(prefix) or KNOWN.get(prefix, "urn:unknown") if prefix else ""
    if scope.get(prefix, "") != wanted and prefix != "xml":
        attributes = [(name, value) for name, value in attributes if declared_prefix(name) != prefix]
        attributes.append((f"xmlns:{prefix}" if prefix else "xmlns", wanted))
        scope = dict(scope, **{prefix: wanted})
    return (f"{prefix}:" if prefix else "") + element["name"], attributes, scope


def text_of(element, indent=None, scope=None, level=0):
    """The XML text of an element; with `indent` each element without texts beside it begins a line."""
    name, attributes, scope = placed(element, scope or {})
    begun = "<" + name + "".join(f' {key}="{escaped(value, True)}"' for key, value in attributes)
    children = element.get("children", [])
    if not children:
        return begun + "/>"
    plain = indent is None or any(isinstance(child, str) for child in children)
    inner = [
        escaped(child) if isinstance(child, str) else text_of(child, None if plain else indent, scope, level + 1) for child in children
    ]
    if plain:
        return f"{begun}>{''.join(inner)}</{name}>"
    line = "\n" + indent * (level + 1)
    return f"{begun}>{line}{line.join(inner)}\n{indent * level}</{name}>"
