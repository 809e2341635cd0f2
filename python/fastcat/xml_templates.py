"""Converts FAST 1.1 templates in XML into the JSON that fastcat reads.

usage: tools/xml-templates [--drop NAME].. FILE.xml > templates.json

What JSON cannot say is refused, what changes no message is dropped, and what a user must know is a warning.
docs/FORMAT.md, "Templates in XML", has the mapping. The status is 0 where the file is converted; 2 where it or the
command line is refused, with one line on standard error and nothing on standard output; 3 where the file cannot be
read or the JSON cannot be written. Python 3.10 or later; the work has three steps: XML to a tree of FAST's elements
(`read_tree`), the tree to the objects of JSON (`Conversion`), and these to a text (`json_text`).
"""
from __future__ import annotations

import argparse
import codecs
import contextlib
import json
import os
import re
import sys
from dataclasses import dataclass, field
from xml.parsers import expat

Json = dict[str, object]

FAST_NAMESPACE = "http://www.fixprotocol.org/ns/fast/td/1.1"
# FAST's elements have the namespace of the standard, or that of sample files.
FAST_NAMESPACES = frozenset((FAST_NAMESPACE, "http://www.fixprotocol.org/ns/template-definition"))
NO_NAMESPACE = ""
# That of FAST 1.2, whose templates say more than fastcat reads.
NEXT_NAMESPACE = "http://www.fixprotocol.org/ns/fast/td/1.2"

# The same limit as that of a template text in JSON.
MOST_BYTES = 16_777_216
# Limits on what lets a small file keep the parser busy for hours: long names of namespaces, which it repeats for each
# name, and defaults of attributes, which it repeats for each element.
MOST_NAMESPACE = 255
MOST_DEFAULTS = 1_000
MOST_TOLD = 16 * MOST_BYTES
# As much as the parser is given before it is asked for a refusal.
CHUNK = 65_536
# Earlier versions of the parser expand entities without bounds.
EARLIEST_EXPAT = (2, 4, 1)

# Space, tab, CR and LF.
BLANKS = " \t\r\n"
# As much of a value as a refusal shows.
MOST_QUOTED = 300

MOST_LEVELS = 8
MOST_UNITS = 65_535

OPERATORS = ("constant", "default", "copy", "increment", "delta", "tail")
# The operators that keep a previous value, each in the entry of its key.
KEEPERS = frozenset(("copy", "increment", "delta", "tail"))
INTEGERS = ("int32", "uInt32", "int64", "uInt64")
INSTRUCTIONS = (*INTEGERS, "decimal", "string", "byteVector", "group", "sequence", "templateRef")

UINT32 = (0, 2**32 - 1)
INT64 = (-(2**63), 2**63 - 1)
EXPONENT = (-63, 63)
BOUNDS = {
    "int32": (-(2**31), 2**31 - 1),
    "uInt32": UINT32,
    "int64": INT64,
    "uInt64": (0, 2**64 - 1),
    "exponent": EXPONENT,
    "mantissa": INT64,
    "length": UINT32,
}

FIELD_ATTRIBUTES = ("name", "id", "ns", "presence")
SEGMENT_ATTRIBUTES = (*FIELD_ATTRIBUTES, "dictionary")
# The attributes without a prefix that an element may have. Each of FAST's elements is a key.
ATTRIBUTES = {
    "templates": ("ns", "templateNs", "dictionary"),
    "template": ("name", "id", "ns", "templateNs", "dictionary", "reset"),
    "typeRef": ("name", "id", "ns"),
    **dict.fromkeys((*INTEGERS, "decimal", "byteVector"), FIELD_ATTRIBUTES),
    "string": (*FIELD_ATTRIBUTES, "charset"),
    "exponent": ("ns",),
    "mantissa": ("ns",),
    "length": ("name", "id", "ns"),
    "group": SEGMENT_ATTRIBUTES,
    "sequence": SEGMENT_ATTRIBUTES,
    "templateRef": ("name", "id", "ns", "templateNs"),
    **dict.fromkeys(OPERATORS, ("value", "key", "dictionary", "ns")),
}
OWN_ATTRIBUTES = frozenset(name for names in ATTRIBUTES.values() for name in names)
# What a template is called, or refers to, that asks for a reset, in small letters and without signs.
RESETS = re.compile("(fast|scp)?reset(message)?")
# What an element is to the one that it stands in: what its own word says, but for these.
ROLES = {**dict.fromkeys(OPERATORS, "operator"), **dict.fromkeys(INSTRUCTIONS, "instruction")}
# The roles that any number of children may have; of the others there is one at most.
REPEATED = frozenset(("template", "instruction"))


class Refusal(Exception):
    """What cannot be converted: the line, what is wrong and what to do about it."""

    def __init__(self, line: int, words: str) -> None:
        super().__init__(words)
        self.line = line
        self.words = words


@dataclass(frozen=True, slots=True)
class Attribute:
    """An attribute of a start tag. `written` is its name with its prefix."""

    namespace: str
    name: str
    written: str
    value: str

    def __str__(self) -> str:
        return f'{self.written}="{quoted(self.value)}"'


@dataclass(slots=True)
class Element:
    """One of FAST's elements, or (`stray`) one of no namespace that only looks like one.

    `written` is its word with its prefix, `text` the first text in it that is not blank.
    """

    namespace: str
    word: str
    written: str
    line: int
    stray: bool
    attributes: list[Attribute]
    text: str = ""
    children: list[Element] = field(default_factory=list)

    def attribute(self, name: str) -> Attribute | None:
        """The attribute of that name that has no prefix."""
        return next((one for one in self.attributes if (one.namespace, one.name) == (NO_NAMESPACE, name)), None)

    def raw(self, name: str) -> str | None:
        """The attribute's value as it stands."""
        attribute = self.attribute(name)
        return None if attribute is None else attribute.value

    def token(self, name: str) -> str | None:
        """The attribute's value without the blanks around it."""
        attribute = self.attribute(name)
        return None if attribute is None else attribute.value.strip(BLANKS)

    def tag(self) -> str:
        """The element as faults and warnings name it."""
        name = self.attribute("name")
        return f"<{self.written}>" if name is None else f"<{self.written} {name}>"

    def refusal(self, wrong: str, remedy: str) -> Refusal:
        """The refusal of this element."""
        return Refusal(self.line, f"{self.tag()}: {wrong}; {remedy}")


def quoted(text: str) -> str:
    """A value as it could be written in an attribute, in one line, cut where it is long."""
    cut = text if len(text) <= MOST_QUOTED else text[:MOST_QUOTED] + "..."
    escaped = cut.replace("&", "&amp;").replace("<", "&lt;").replace('"', "&quot;")
    return "".join(one if one.isprintable() else f"&#{ord(one)};" for one in escaped)


# The first step: XML to a tree

# How a text begins whose encoding is not the one that it declares, or that declares none.
MARKS = (
    (codecs.BOM_UTF8, "utf-8"),
    (codecs.BOM_UTF16_LE, "utf-16"),
    (codecs.BOM_UTF16_BE, "utf-16"),
    (b"<\0", "utf-16-le"),
    (b"\0<", "utf-16-be"),
)
# Python's codecs for texts that are no encodings of files. One of them takes time by the square of the text.
NO_ENCODINGS = frozenset(("idna", "punycode", "raw-unicode-escape", "undefined", "unicode-escape"))
SAVE_IN_UTF_8 = "save the file in UTF-8"
# Between the parts of a name that the parser tells; it stands in no XML.
SEPARATOR = "\x01"


def declared_encoding(data: bytes) -> str | None:
    """The encoding that the XML declaration names, as the parser reads it."""
    declared: list[str | None] = []
    # A parser that is given an encoding tells the declared one, and does not look for it.
    parser = expat.ParserCreate("utf-8")
    parser.XmlDeclHandler = lambda version, encoding, standalone: declared.append(encoding)
    with contextlib.suppress(expat.ExpatError):
        parser.Parse(data[: data.find(b">", 0, CHUNK) + 1], False)
    return declared[0] if declared else None


def utf_8(data: bytes) -> bytes:
    """The file in UTF-8. The parser alone reads no encoding of several bytes but UTF-8 and UTF-16."""
    marked = next((encoding for mark, encoding in MARKS if data.startswith(mark)), None)
    declared = None if marked else declared_encoding(data)
    encoding = marked or declared or "utf-8"
    try:
        if codecs.lookup(encoding).name in NO_ENCODINGS:
            raise LookupError(encoding)
        text = data.decode(encoding)
        converted = text.encode("utf-8")
    except LookupError as fault:
        wrong = f'encoding="{encoding}" is no encoding that is known here'
        raise Refusal(1, f"{wrong}; {SAVE_IN_UTF_8}") from fault
    except UnicodeError as fault:
        before = data[: getattr(fault, "start", 0)].decode(encoding, "replace")
        wrong = f"the bytes are not of the encoding {encoding}"
        raise Refusal(before.count("\n") + 1, f"{wrong}; {SAVE_IN_UTF_8}") from fault
    if declared and not text.startswith("<?xml"):
        raise Refusal(1, f'encoding="{declared}" is not the encoding of the file; {SAVE_IN_UTF_8}')
    return converted


class Guard:
    """Refuses a document that is not well-formed, that other files or entities belong to, or that would keep the
    parser busy for hours. It knows nothing of namespaces, so that no name in it is longer than it is written."""

    def __init__(self) -> None:
        self.defaults = 0
        self.told = 0
        self.parser = expat.ParserCreate("utf-8")
        # So that an undeclared parameter entity is told of: what comes behind it would be dropped without a word.
        self.parser.SetParamEntityParsing(expat.XML_PARAM_ENTITY_PARSING_ALWAYS)
        self.parser.StartDoctypeDeclHandler = self.doctype
        self.parser.EntityDeclHandler = self.entity
        self.parser.SkippedEntityHandler = self.skipped
        self.parser.AttlistDeclHandler = self.default
        self.parser.StartElementHandler = self.start

    def refusal(self, words: str) -> Refusal:
        return Refusal(self.parser.CurrentLineNumber, words)

    def look_at(self, document: bytes) -> None:
        """A refusal is raised at the end of a chunk."""
        for begin in range(0, len(document), CHUNK):
            self.parser.Parse(document[begin : begin + CHUNK], False)
        self.parser.Parse(b"", True)

    def doctype(self, name: str, system: str | None, public: str | None, internal: bool) -> None:
        if system is not None or public is not None:
            raise self.refusal(
                f'<!DOCTYPE {quoted(name)}>: names the external DTD "{quoted(system or "")}", which is not read; '
                "remove it, and write what it declares where it is used"
            )

    def entity(self, name: str, *_: object) -> None:
        raise self.refusal(
            f"<!ENTITY {quoted(name)}>: declares an entity, and none is expanded; "
            "remove it, and write its text where it is used"
        )

    def skipped(self, name: str, parameter: bool) -> None:
        raise self.refusal(f"%{quoted(name)}; is an entity that nothing declares; remove it")

    def default(self, *_: object) -> None:
        self.defaults += 1
        if self.defaults > MOST_DEFAULTS:
            raise self.refusal(
                f"<!ATTLIST>: declares more than {MOST_DEFAULTS:,} attributes; write them where they are used"
            )

    def start(self, name: str, attributes: dict[str, str]) -> None:
        self.told += sum(len(one) + len(value) for one, value in attributes.items())
        if self.told > MOST_TOLD:
            raise self.refusal(
                f"<{quoted(name)}>: with defaults, attributes have more than {MOST_TOLD:,} characters up to here; "
                "shorten the defaults in the DOCTYPE"
            )
        for one, value in attributes.items():
            if (one == "xmlns" or one.startswith("xmlns:")) and len(value) > MOST_NAMESPACE:
                raise self.refusal(
                    f"<{quoted(name)}>: {quoted(one)} has more than {MOST_NAMESPACE} characters; shorten the namespace"
                )


def split(told: str) -> tuple[str, str, str]:
    """Namespace, local name and the name as written, of a name that the parser tells."""
    parts = told.split(SEPARATOR)
    if len(parts) == 1:
        return NO_NAMESPACE, told, told
    namespace, local, *prefix = parts
    return namespace, local, ":".join((*prefix, local))


class TreeBuilder:
    """Receives what the parser tells, and keeps FAST's elements. Foreign ones go, with all that is in them, and so do the
    attributes that are dropped."""

    def __init__(self, dropped: frozenset[str]) -> None:
        self.dropped = dropped
        self.root: Element | None = None
        self.open: list[Element] = []
        self.foreign_levels = 0
        self.namespaces = FAST_NAMESPACES
        self.parser = expat.ParserCreate("utf-8", SEPARATOR)
        self.parser.namespace_prefixes = True
        self.parser.ordered_attributes = True
        self.parser.buffer_text = True
        self.parser.StartElementHandler = self.start
        self.parser.EndElementHandler = self.end
        self.parser.CharacterDataHandler = self.characters

    def start(self, told: str, attributes: list[str]) -> None:
        if self.foreign_levels:
            self.foreign_levels += 1
            return
        namespace, word, written = split(told)
        if self.root is None and namespace == NO_NAMESPACE:
            self.namespaces = FAST_NAMESPACES | {NO_NAMESPACE}
        stray = namespace not in self.namespaces
        is_lost = namespace == NEXT_NAMESPACE or namespace == NO_NAMESPACE and word in ATTRIBUTES
        if self.root is not None and stray and not is_lost:
            self.foreign_levels = 1
            return
        pairs = zip(attributes[::2], attributes[1::2])
        told = [Attribute(*split(name), value) for name, value in pairs]
        element = Element(
            namespace, word, written, self.parser.CurrentLineNumber, stray,
            [attribute for attribute in told if attribute.written not in self.dropped],
        )
        if self.root is None:
            self.root = element
        else:
            self.open[-1].children.append(element)
        self.open.append(element)

    def end(self, told: str) -> None:
        if self.foreign_levels:
            self.foreign_levels -= 1
        else:
            self.open.pop()

    def characters(self, text: str) -> None:
        if not self.foreign_levels:
            self.open[-1].text = self.open[-1].text or text.strip(BLANKS)


def read_tree(data: bytes, dropped: frozenset[str] = frozenset()) -> Element:
    """The root of a file of templates, without attributes of the names that are dropped."""
    if len(data) > MOST_BYTES:
        raise Refusal(1, f"the file has more than {MOST_BYTES:,} bytes; split it")
    document = utf_8(data)
    builder = TreeBuilder(dropped)
    try:
        Guard().look_at(document)
        builder.parser.Parse(document, True)
    except expat.ExpatError as fault:
        message = expat.ErrorString(fault.code)
        raise Refusal(fault.lineno, f"this is no well-formed XML: {message}; mend it") from fault
    assert builder.root is not None, "a well-formed document has a root"
    return builder.root


# The second step: the tree to the objects of JSON


@dataclass(frozen=True, slots=True)
class Scope:
    """The namespaces that hold: of names, typeRefs and keys, and of templates' names."""

    names: str = ""
    templates: str = ""

    def inside(self, element: Element) -> Scope:
        """The scope of an element's own name and of all in it."""
        names = element.raw("ns")
        templates = element.raw("templateNs")
        return Scope(
            self.names if names is None else names,
            self.templates if templates is None else templates,
        )


class LocalNames:
    """The local names of one sort, each with the namespace and the line of the first. JSON has no namespaces, so one
    local name of two would become one name."""

    def __init__(self, sort: str, remedy: str) -> None:
        self.sort = sort
        self.remedy = remedy
        self.firsts: dict[str, tuple[str, int]] = {}

    def enter(self, element: Element, name: str, namespace: str) -> None:
        first, line = self.firsts.setdefault(name, (namespace, element.line))
        if first != namespace:
            raise element.refusal(
                f'the {self.sort} "{name}" is of the namespace "{quoted(namespace)}" here and of "{quoted(first)}" '
                f"in line {line}, and JSON has no namespaces",
                self.remedy,
            )


@dataclass(frozen=True, slots=True)
class Holder:
    """What an operator stands in: the type of its value, and the entry that it keeps where it has no key, a name of
    the sort `part` (`whole` or that of which it is the exponent, mantissa or length)."""

    kind: str
    part: str
    name: str
    namespace: str


def judged(element: Element, *roles: str) -> dict[str, list[Element]]:
    """An element's children by their roles, once its attributes, its text and the places of its children are good."""
    judge_attributes(element)
    if element.text:
        raise element.refusal(f'has the text "{quoted(element.text)}"', "write a value as an attribute, or remove it")
    found: dict[str, list[Element]] = {role: [] for role in roles}
    for child in element.children:
        if child.namespace == NEXT_NAMESPACE:
            raise of_the_next(child)
        if child.stray:
            raise child.refusal("has no namespace and stands among FAST's elements", "put it into FAST's namespace")
        if child.word not in ATTRIBUTES:
            raise child.refusal("is no element of FAST 1.1", "mend its name or remove it")
        role = ROLES.get(child.word, child.word)
        if role not in found:
            raise child.refusal(f"may not stand in {element.tag()}", "move or remove it")
        if found[role] and role not in REPEATED:
            first = found[role][0]
            raise child.refusal(f"is one too many beside {first.tag()} of line {first.line}", "remove one")
        found[role].append(child)
    return found


def of_the_next(element: Element) -> Refusal:
    return element.refusal("is of FAST 1.2, which fastcat does not read", "ask for the templates of FAST 1.1")


def judge_attributes(element: Element) -> None:
    """Attributes with a prefix are foreign, and drop out; all others change what is on the wire."""
    for attribute in element.attributes:
        if attribute.namespace in FAST_NAMESPACES:
            raise element.refusal(f"{attribute} has FAST's namespace", "write it without a prefix")
        if attribute.namespace == NO_NAMESPACE and attribute.name not in ATTRIBUTES[element.word]:
            those = ", ".join(ATTRIBUTES[element.word])
            raise element.refusal(f"{attribute} is no attribute of {element.word}, which has {those}",
                                  "mend or remove it")


def is_reset(element: Element) -> bool:
    """Whether the name of a template, or of what it refers to, is that of a reset message."""
    return RESETS.fullmatch(re.sub("[^a-z]", "", (element.token("name") or "").lower())) is not None


def only(children: list[Element]) -> Element | None:
    """The child of a role that one child at most has."""
    return children[0] if children else None


def name_of(element: Element, attribute_name: str = "name") -> str | None:
    """A name that goes into JSON, or none where the attribute is left out."""
    attribute = element.attribute(attribute_name)
    if attribute is None:
        return None
    name = attribute.value.strip(BLANKS)
    if not re.fullmatch("[!-~]{1,255}", name):
        raise element.refusal(f"{attribute} is not of 1 to 255 characters from ! to ~", "rename it in the file")
    return name


def required_name(element: Element) -> str:
    """The name of an element that has to have one."""
    name = name_of(element)
    if name is None:
        raise element.refusal("has no name", "give it one")
    return name


def choice(element: Element, attribute_name: str, usual: str, other: str) -> Json:
    """An attribute of two words, as a member of JSON where it is not the usual one."""
    word = element.token(attribute_name)
    if word not in (None, usual, other):
        wrong = f"{element.attribute(attribute_name)} is neither {usual} nor {other}"
        raise element.refusal(wrong, "write one of them")
    return {attribute_name: other} if word == other else {}


def named(element: Element, *attribute_names: str) -> Json:
    """Names as members of JSON, those that are there."""
    names = ((attribute_name, name_of(element, attribute_name)) for attribute_name in attribute_names)
    return {key: name for key, name in names if name is not None}


class Conversion:
    """Converts a tree, in the order of writing."""

    def __init__(self) -> None:
        self.warnings: list[tuple[int, str]] = []
        self.templates_by_name: dict[str, Element] = {}
        self.templates_by_id: dict[int, Element] = {}
        self.references: dict[str, Element] = {}
        self.template_names = LocalNames("template", "rename one")
        self.type_names = LocalNames("typeRef", "rename one")
        sorts = {"whole": "entry", "exponent": "exponent of", "mantissa": "mantissa of", "length": "length of"}
        self.entries = {part: LocalNames(sort, "give one a key of its own") for part, sort in sorts.items()}

    def text(self, root: Element) -> Json:
        """The outermost object of JSON."""
        if root.namespace == NEXT_NAMESPACE:
            raise of_the_next(root)
        if root.stray:
            raise root.refusal(f'is of the namespace "{quoted(root.namespace)}"',
                               f"FAST's is \"{FAST_NAMESPACE}\"")
        if root.word == "template":
            members: Json = {"templates": [self.template(root, Scope())]}
        elif root.word == "templates":
            scope = Scope().inside(root)
            children = judged(root, "template")["template"]
            members = {**named(root, "dictionary"), "templates": [self.template(child, scope) for child in children]}
        else:
            raise root.refusal("is no root of FAST's templates", "put templates or template there")
        self.judge_references()
        return members

    def judge_references(self) -> None:
        """What can be said of references and templates only when all have been read."""
        for name, reference in self.references.items():
            if name not in self.templates_by_name:
                raise reference.refusal("names no template of this file", "add the template, or mend the name")
        for name, element in self.templates_by_name.items():
            if element.attribute("id") is None and name not in self.references:
                self.warn(element, "has no id and no templateRef names it", "no message can use it")

    def warn(self, element: Element, what: str, then: str) -> None:
        self.warnings.append((element.line, f"warning: {element.tag()}: {what}; {then}"))

    def template(self, element: Element, scope: Scope) -> Json:
        scope = scope.inside(element)
        inside = judged(element, "typeRef", "instruction")
        name = required_name(element)
        self.template_names.enter(element, name, scope.templates)
        first = self.templates_by_name.setdefault(name, element)
        if first is not element:
            raise element.refusal(f"is the second template of this name after line {first.line}", "rename one")
        self.warn_of_reset(element, inside)
        return {
            "name": name,
            **self.template_id(element),
            **self.type_reference(inside, scope),
            **named(element, "dictionary"),
            "instructions": [self.instruction(child, scope, 1) for child in inside["instruction"]],
        }

    def warn_of_reset(self, element: Element, inside: dict[str, list[Element]]) -> None:
        """A message of such a template asks its reader to forget all entries."""
        attribute = next((one for one in element.attributes if one.name == "reset"), None)
        if attribute is not None and attribute.value.strip(BLANKS).lower() != "no":
            what = f"{attribute} cannot be said in JSON"
        elif is_reset(element):
            what = "is a reset message by its name"
        else:
            references = (one for one in (*inside["typeRef"], *inside["instruction"]) if one.word.endswith("Ref"))
            reference = next((one for one in references if is_reset(one)), None)
            if reference is None:
                return
            what = f"is a reset message by {reference.tag()} of line {reference.line}"
        self.warn(element, f"{what}, and fastcat keeps its entries across the template's messages",
                  "read datagrams with --packets")

    def template_id(self, element: Element) -> Json:
        attribute = element.attribute("id")
        if attribute is None:
            return {}
        number = integer(attribute.value.strip(BLANKS))
        if number is None or "-" in attribute.value or number > UINT32[1]:
            raise element.refusal(f"{attribute} is no number from 0 to {UINT32[1]} in digits", "change it")
        first = self.templates_by_id.setdefault(number, element)
        if first is not element:
            raise element.refusal(f"{attribute} is also the id of {first.tag()} of line {first.line}", "change one")
        return {"id": number}

    def type_reference(self, inside: dict[str, list[Element]], scope: Scope) -> Json:
        element = only(inside["typeRef"])
        if element is None:
            return {}
        scope = scope.inside(element)
        judged(element)
        name = required_name(element)
        self.type_names.enter(element, name, scope.names)
        return {"typeRef": name}

    def instruction(self, element: Element, scope: Scope, level: int) -> Json:
        """`level` is that of a group or sequence that stands here."""
        if element.word == "templateRef":
            return self.reference(element, scope)
        if element.word in ("group", "sequence"):
            return self.segment(element, scope, level)
        return self.field(element, scope)

    def reference(self, element: Element, scope: Scope) -> Json:
        judged(element)
        name = name_of(element)
        if name is None:
            raise element.refusal("has no name, and templates that the stream names are not read", "name a template")
        self.template_names.enter(element, name, scope.inside(element).templates)
        self.references.setdefault(name, element)
        return {"kind": "templateRef", "name": name}

    def segment(self, element: Element, scope: Scope, level: int) -> Json:
        """A group or a sequence."""
        if level > MOST_LEVELS:
            raise element.refusal(f"is inside of {MOST_LEVELS} groups and sequences, the most that fastcat reads",
                                  "nest them less")
        scope = scope.inside(element)
        lengths = ("length",) if element.word == "sequence" else ()
        inside = judged(element, "typeRef", *lengths, "instruction")
        name = required_name(element)
        return {
            "kind": element.word,
            "name": name,
            **choice(element, "presence", "mandatory", "optional"),
            **self.type_reference(inside, scope),
            **named(element, "dictionary"),
            **self.length(inside, name, scope),
            "instructions": [self.instruction(child, scope, level + 1) for child in inside["instruction"]],
        }

    def length(self, inside: dict[str, list[Element]], sequence: str, scope: Scope) -> Json:
        """The length of a sequence: without a name it keeps an entry of its own by the sequence's name."""
        element = only(inside.get("length", []))
        if element is None:
            return {}
        own = scope.inside(element)
        operator = only(judged(element, "operator")["operator"])
        name = name_of(element)
        if name is None:
            members = self.operator(operator, Holder("length", "length", sequence, scope.names), own)
        else:
            members = {"name": name, **self.operator(operator, Holder("length", "whole", name, own.names), own)}
        return {"length": members} if members else {}

    def field(self, element: Element, scope: Scope) -> Json:
        scope = scope.inside(element)
        kind = element.word
        roles = {"decimal": ("exponent", "mantissa"), "string": ("length",), "byteVector": ("length",)}
        inside = judged(element, "operator", *roles.get(kind, ()))
        name = required_name(element)
        charset = choice(element, "charset", "ascii", "unicode") if kind == "string" else {}
        presence = choice(element, "presence", "mandatory", "optional")
        members = {"kind": kind, **charset, "name": name, **presence}
        self.judge_handle(inside, kind, charset)
        if inside.get("exponent") or inside.get("mantissa"):
            return {**members, **self.parts(element, inside, name, scope)}
        holder = Holder("unicode" if charset else kind, "whole", name, scope.names)
        return {**members, **self.operator(only(inside["operator"]), holder, scope)}

    def judge_handle(self, inside: dict[str, list[Element]], kind: str, charset: Json) -> None:
        """The length of a Unicode string or a byte vector is a name for programs: nothing on the wire, nor in JSON."""
        handle = only(inside.get("length", []))
        if handle is None:
            return
        if kind == "string" and not charset:
            raise handle.refusal("stands in a string whose charset is not unicode", "remove it")
        judged(handle)

    def parts(self, element: Element, inside: dict[str, list[Element]], decimal: str, scope: Scope) -> Json:
        """An exponent and a mantissa, each with an operator of its own."""
        if inside["operator"]:
            first, second = element.children[:2]
            if (first.word in OPERATORS) == (second.word in OPERATORS):
                second = element.children[2]
            raise second.refusal(f"stands beside {first.tag()} of line {first.line}, and a decimal has an operator or "
                                 "parts", "remove one")
        return {part: self.part(only(inside[part]), part, decimal, scope) for part in ("exponent", "mantissa")}

    def part(self, element: Element | None, part: str, decimal: str, scope: Scope) -> Json:
        if element is None:
            return {}
        operator = only(judged(element, "operator")["operator"])
        return self.operator(operator, Holder(part, part, decimal, scope.names), scope.inside(element))

    def operator(self, element: Element | None, holder: Holder, scope: Scope) -> Json:
        """An operator's members of JSON: those of what it stands in."""
        if element is None:
            return {}
        scope = scope.inside(element)
        judged(element)
        value = element.attribute("value")
        if value is None and element.word == "constant":
            raise element.refusal("has no value", "give it one")
        members: Json = {"operator": element.word}
        if value is not None:
            members["value"] = value_text(element, value, holder.kind)
            if element.word == "delta" and holder.kind == "decimal":
                self.warn_of_exponent(element, value, str(members["value"]))
        members |= named(element, "dictionary", "key")
        if element.word in KEEPERS:
            key = members.get("key")
            if key is None:
                self.entries[holder.part].enter(element, holder.name, holder.namespace)
            else:
                self.entries["whole"].enter(element, str(key), scope.names)
        return members


    def warn_of_exponent(self, element: Element, value: Attribute, text: str) -> None:
        """A delta is added to the exponent that the sender has for its base."""
        written = as_written(value)
        if written != text:
            self.warn(element, f"{value} becomes {text}, and a delta is added to its exponent",
                      f"where the feed is of {written}, write that in the JSON")


# Initial values

# More significant digits than any number within bounds has.
MOST_DIGITS = 30


def integer(text: str) -> int | None:
    """The number that a text spells, or none. One of more digits is cut short, which leaves it out of all bounds: to
    make it whole would take time by the square of its digits."""
    match = re.fullmatch("(-?)0*([0-9]+)", text)
    return None if match is None else int(match[1] + match[2][:MOST_DIGITS])


def value_text(operator: Element, value: Attribute, kind: str) -> str:
    """An initial value as JSON has it, for the type `kind`: the element's word, `unicode` or a part."""
    if kind in BOUNDS:
        return integer_text(operator, value, kind)
    if kind == "decimal":
        return decimal_text(operator, value)
    if kind == "byteVector":
        return bytes_text(operator, value)
    return string_text(operator, value, kind)


def integer_text(operator: Element, value: Attribute, kind: str) -> str:
    number = integer(value.value.strip(BLANKS))
    if number is None:
        raise operator.refusal(f"{value} is no integer", "write digits, perhaps with a - in front")
    least, greatest = BOUNDS[kind]
    if not least <= number <= greatest:
        raise operator.refusal(f"{value} is out of the bounds of {kind}", f"write a number from {least} to {greatest}")
    return str(number)


def decimal_text(operator: Element, value: Attribute) -> str:
    """The mantissa has no zero at its end, so that one number has one text, however it was written."""
    match = re.fullmatch(r"(-?)([0-9]*)(?:\.([0-9]*))?", value.value.strip(BLANKS))
    sign, whole, fraction = match.groups("") if match else ("", "", "")
    if not whole + fraction:
        raise operator.refusal(f"{value} is no decimal number",
                               "write digits, perhaps with a - in front and a point between them")
    digits = (whole + fraction).lstrip("0")
    significant = digits.rstrip("0")
    if not significant:
        return "0e0"
    mantissa = integer(sign + significant)
    exponent = len(digits) - len(significant) - len(fraction)
    if mantissa is None or not INT64[0] <= mantissa <= INT64[1]:
        raise operator.refusal(f"{value} needs a mantissa beyond int64", "write fewer digits")
    if not EXPONENT[0] <= exponent <= EXPONENT[1]:
        raise operator.refusal(f"{value} needs the exponent {exponent}", "write a number whose exponent is -63 to 63")
    return f"{mantissa}e{exponent}"


def as_written(value: Attribute) -> str:
    """A decimal with all of its digits."""
    whole, _, fraction = value.value.strip(BLANKS).partition(".")
    sign = "-" if whole.startswith("-") else ""
    return f"{sign}{(whole.removeprefix('-') + fraction).lstrip('0') or '0'}e{-len(fraction)}"


def bytes_text(operator: Element, value: Attribute) -> str:
    digits = value.value.translate(dict.fromkeys(map(ord, BLANKS)))
    if len(digits) % 2 != 0 or not re.fullmatch("[0-9A-Fa-f]*", digits):
        raise operator.refusal(f"{value} is no hex", "write two hex digits for each byte")
    judge_size(operator, value, len(digits) // 2, "bytes")
    return digits.lower()


def string_text(operator: Element, value: Attribute, kind: str) -> str:
    if kind == "unicode":
        judge_size(operator, value, len(value.value.encode("utf-8")), "bytes")
    elif value.value.isascii():
        judge_size(operator, value, len(value.value), "characters")
    else:
        other = next(one for one in value.value if not one.isascii())
        raise operator.refusal(f'{value} has "{quoted(other)}", which is not ASCII',
                               'write another value, or charset="unicode" if the feed has it')
    return value.value


def judge_size(operator: Element, value: Attribute, size: int, units: str) -> None:
    if size > MOST_UNITS:
        raise operator.refusal(f"{value} has more than {MOST_UNITS:,} {units}", "shorten it")


# The third step: the objects of JSON to a text


def json_text(members: Json, level: int = -1) -> str:
    """An object in ASCII. A template and an instruction begin a line, with a blank for each level that they are
    inside of, and so do the parts of a decimal, one level further in than the decimal."""
    return "{" + ",".join(member_text(key, value, level) for key, value in members.items()) + "}"


def member_text(key: str, value: object, level: int) -> str:
    begin = "\n" + " " * (level + 1)
    if isinstance(value, list):
        text = "[" + ",".join(begin + json_text(one, level + 1) for one in value) + "]"
    elif isinstance(value, dict):
        text = json_text(value, level + 1)
    else:
        text = json.dumps(value)
    return f'{begin if key == "exponent" else ""}"{key}":{text}'


# The program


def tell(line: str) -> None:
    """Writes a line to standard error. That it fails changes no status."""
    with contextlib.suppress(OSError):
        os.write(2, f"{line}\n".encode("utf-8", "surrogateescape"))


def converted(data: bytes, dropped: frozenset[str] = frozenset()) -> tuple[str, list[tuple[int, str]]]:
    """The JSON of a file's bytes, without attributes of the names that are dropped, and its warnings by their lines.

    Raises `Refusal`.
    """
    conversion = Conversion()
    text = json_text(conversion.text(read_tree(data, dropped)))
    return f"{text}\n", sorted(conversion.warnings)


def convert(file: str, dropped: frozenset[str] = frozenset()) -> int:
    """Converts a file without attributes of the names that are dropped, and answers the status."""
    try:
        # No more than tells that it is too long.
        with open(file, "rb") as source:
            data = source.read(MOST_BYTES + 1)
    except OSError as fault:
        tell(f"{file}: cannot be read: {fault.strerror}")
        return 3
    try:
        text, warnings = converted(data, dropped)
    except Refusal as refusal:
        tell(f"{file}:{refusal.line}: {refusal.words}")
        return 2
    for line, words in warnings:
        tell(f"{file}:{line}: {words}")
    try:
        with open(1, "wb", closefd=False) as output:
            output.write(text.encode("ascii"))
    except OSError as fault:
        tell(f"standard output: cannot be written: {fault.strerror}")
        return 3
    return 0


def is_able() -> bool:
    """Whether Python's parser is late enough."""
    return expat.version_info >= EARLIEST_EXPAT


def foreign_attribute(name: str) -> str:
    if name in OWN_ATTRIBUTES:
        raise argparse.ArgumentTypeError(f"{name} is FAST's own, and what it says would be lost")
    return name


def main() -> int:
    parser = argparse.ArgumentParser(
        prog="xml-templates", description="Converts FAST 1.1 templates in XML into the JSON that fastcat reads.",
        epilog="docs/FORMAT.md, Templates in XML, has the mapping.")
    parser.add_argument("file", metavar="FILE.xml", help="the templates; JSON goes to standard output")
    parser.add_argument("--drop", metavar="NAME", type=foreign_attribute, action="append", default=[],
                        help="leave out attributes of this name, none of FAST's own; may stand several times")
    words = parser.parse_args()
    if not is_able():
        parser.error("Python's expat has to be 2.4.1 or later")
    return convert(words.file, frozenset(words.drop))


if __name__ == "__main__":
    sys.exit(main())
