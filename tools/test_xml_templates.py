#!/usr/bin/env python3
"""Tests of tools/xml-templates, which is python/fastcat/xml_templates.py.

usage: tools/test_xml_templates.py, or python3 -m unittest discover -s tools -p 'test_*.py'
"""
import contextlib
import importlib.machinery
import importlib.util
import json
import os
import subprocess
import sys
import tempfile
import unittest
from dataclasses import dataclass
from pathlib import Path
from unittest import mock

TOP = Path(__file__).resolve().parent.parent
PROGRAM = TOP / "tools" / "xml-templates"
MODULE = TOP / "python" / "fastcat" / "xml_templates.py"
STANDARD = "http://www.fixprotocol.org/ns/fast/td/1.1"
SAMPLES = "http://www.fixprotocol.org/ns/template-definition"
MOST_BYTES = 16_777_216


def load():
    """The program as a module."""
    sys.dont_write_bytecode = True
    loader = importlib.machinery.SourceFileLoader("xml_templates", str(MODULE))
    module = importlib.util.module_from_spec(importlib.util.spec_from_loader(loader.name, loader))
    sys.modules[loader.name] = module
    loader.exec_module(module)
    return module


program = load()


@dataclass
class Answer:
    status: int
    output: bytes
    errors: str


@contextlib.contextmanager
def redirected(descriptor, file):
    kept = os.dup(descriptor)
    os.dup2(file.fileno(), descriptor)
    try:
        yield
    finally:
        os.dup2(kept, descriptor)
        os.close(kept)


def convert(text):
    """What the program does with a file T.xml that has this text."""
    with tempfile.TemporaryDirectory() as folder, tempfile.TemporaryFile() as output, tempfile.TemporaryFile() as errors:
        Path(folder, "T.xml").write_bytes(text if isinstance(text, bytes) else text.encode())
        here = os.getcwd()
        os.chdir(folder)
        try:
            with redirected(1, output), redirected(2, errors):
                status = program.convert("T.xml")
        finally:
            os.chdir(here)
        output.seek(0)
        errors.seek(0)
        return Answer(status, output.read(), errors.read().decode())


def call(*words, **more):
    """Runs the program as a process."""
    return subprocess.run([str(PROGRAM), *map(str, words)], capture_output=True, timeout=60, check=False, **more)


def templates(inside, attributes=""):
    """A file: its root in line 1, what is inside from line 2 on."""
    return f'<templates xmlns="{STANDARD}"{attributes}>\n{inside}\n</templates>'


def template(inside="", attributes=' name="T" id="1"'):
    """A file of one template, which begins in line 2; what is inside it from line 3 on."""
    return templates(f"<template{attributes}>\n{inside}\n</template>")


def of_template(*instructions, **more):
    """The JSON of such a file."""
    return {"templates": [{"name": "T", "id": 1, **more, "instructions": list(instructions)}]}


def operated(kind, operator, more=""):
    """A file with one field F that has an operator, in line 4."""
    return template(f'<{kind} name="F"{more}>\n{operator}\n</{kind}>')


def nested(levels, word="group"):
    """Groups in groups, one in each line from line 3 on."""
    return template("\n".join(f'<{word} name="G{n}">' for n in range(1, levels + 1)) + f"</{word}>" * levels)


class TestCase(unittest.TestCase):
    maxDiff = None

    def gives(self, text, expected, *warnings):
        """The file is converted to this JSON, with these warnings."""
        answer = convert(text)
        self.assertEqual(answer.errors, "".join(f"T.xml:{warning}\n" for warning in warnings))
        self.assertEqual(answer.status, 0)
        self.assertEqual(json.loads(answer.output), expected)

    def holds(self, inside, *instructions):
        """A template with this inside has these instructions in JSON."""
        self.gives(template(inside), of_template(*instructions))

    def field(self, text, **expected):
        """A file of one field F has this in JSON beside its kind and name."""
        answer = convert(text)
        self.assertEqual((answer.status, answer.errors), (0, ""))
        (found,) = json.loads(answer.output)["templates"][0]["instructions"]
        self.assertEqual(found, {"kind": found["kind"], "name": "F", **expected})

    def value(self, kind, written, expected, more="", **others):
        """An initial value, as written in XML, is this in JSON."""
        self.field(operated(kind, f'<default value="{written}"/>', more), operator="default", value=expected, **others)

    def refused(self, text, words):
        """The file is refused with these words behind its name."""
        answer = convert(text)
        self.assertEqual(answer.errors, f"T.xml:{words}\n")
        self.assertEqual((answer.status, answer.output), (2, b""))

    def value_refused(self, kind, written, words, more=""):
        """An initial value is refused; the words are those behind the value as written."""
        self.refused(operated(kind, f'<default value="{written}"/>', more), f'4: <default>: value="{written}" {words}')


class Elements(TestCase):
    """The rows of the table."""

    def test_templates(self):
        self.gives(templates(""), {"templates": []})
        self.gives(templates("", ' dictionary="D" ns="x" templateNs="y"'), {"dictionary": "D", "templates": []})
        self.refused(templates("", ' name="x"'),
                     '1: <templates name="x">: name="x" is no attribute of templates, which has ns, templateNs, '
                     "dictionary; mend or remove it")
        self.refused(templates('<uInt32 name="F"/>'),
                     '2: <uInt32 name="F">: may not stand in <templates>; move or remove it')

    def test_template(self):
        self.gives(template('<typeRef name="M"/>', ' name="T" id="1" ns="x" templateNs="y" dictionary="type"'),
                   of_template(typeRef="M", dictionary="type"))
        self.refused(template("", ' id="1"'), "2: <template>: has no name; give it one")
        self.refused(template('<template name="U"/>'),
                     '3: <template name="U">: may not stand in <template name="T">; move or remove it')
        self.refused(template("<copy/>"), '3: <copy>: may not stand in <template name="T">; move or remove it')

    def test_instructions_keep_their_order(self):
        self.holds('<string name="B"/><group name="A"/><uInt32 name="C"/><sequence name="A"/><templateRef name="T"/>'
                   '<int64 name="A"/>',
                   {"kind": "string", "name": "B"}, {"kind": "group", "name": "A", "instructions": []},
                   {"kind": "uInt32", "name": "C"}, {"kind": "sequence", "name": "A", "instructions": []},
                   {"kind": "templateRef", "name": "T"}, {"kind": "int64", "name": "A"})

    def test_typeref(self):
        inside = '<uInt32 name="F"/>\n<typeRef name="M" id="7" ns="x"/>'
        field = {"kind": "uInt32", "name": "F"}
        self.gives(template(inside), of_template(field, typeRef="M"))
        for word in ("group", "sequence"):
            self.holds(f'<{word} name="G">{inside}</{word}>',
                       {"kind": word, "name": "G", "typeRef": "M", "instructions": [field]})
        self.refused(template("<typeRef/>"), "3: <typeRef>: has no name; give it one")
        self.refused(template('<typeRef name="A"/>\n<typeRef name="B"/>'),
                     '4: <typeRef name="B">: is one too many beside <typeRef name="A"> of line 3; remove one')
        self.refused(template('<uInt32 name="F"><typeRef name="M"/></uInt32>'),
                     '3: <typeRef name="M">: may not stand in <uInt32 name="F">; move or remove it')
        self.refused(template('<typeRef name="M">\n<copy/></typeRef>'),
                     '4: <copy>: may not stand in <typeRef name="M">; move or remove it')

    def test_integers(self):
        for kind in ("int32", "uInt32", "int64", "uInt64"):
            self.holds(f'<{kind} name="F" id="x y" ns="n" presence="optional"/>',
                       {"kind": kind, "name": "F", "presence": "optional"})
            self.field(operated(kind, "<copy/>"), operator="copy")
            self.refused(template(f'<{kind} id="1"/>'), f"3: <{kind}>: has no name; give it one")
            self.refused(operated(kind, "<copy/>\n<delta/>"),
                         "5: <delta>: is one too many beside <copy> of line 4; remove one")
            self.refused(operated(kind, "<length/>"),
                         f'4: <length>: may not stand in <{kind} name="F">; move or remove it')

    def test_presence(self):
        self.field(template('<int32 name="F" presence="mandatory"/>'))
        self.refused(template('<int32 name="F" presence="Optional"/>'),
                     '3: <int32 name="F">: presence="Optional" is neither mandatory nor optional; write one of them')
        self.refused(template('<int32 name="F" presence=""/>'),
                     '3: <int32 name="F">: presence="" is neither mandatory nor optional; write one of them')

    def test_decimal(self):
        self.field(template('<decimal name="F" presence="optional"/>'), presence="optional")
        self.field(operated("decimal", '<copy value="1"/>'), operator="copy", value="1e0")
        self.refused(template("<decimal/>"), "3: <decimal>: has no name; give it one")

    def test_decimal_in_parts(self):
        exponent, mantissa = '<exponent ns="x"><default value=" 2"/></exponent>', "<mantissa><delta/></mantissa>"
        parts = {"exponent": {"operator": "default", "value": "2"}, "mantissa": {"operator": "delta"}}
        self.field(operated("decimal", exponent + mantissa), **parts)
        self.field(operated("decimal", mantissa + exponent), **parts)
        self.field(operated("decimal", exponent), **{**parts, "mantissa": {}})
        self.field(operated("decimal", mantissa), **{**parts, "exponent": {}})
        self.field(operated("decimal", '<mantissa ns="x"/>'), exponent={}, mantissa={})

    def test_decimal_with_an_operator_and_parts(self):
        words = "and a decimal has an operator or parts; remove one"
        self.refused(operated("decimal", "<copy/>\n<exponent/>\n<mantissa/>"),
                     f"5: <exponent>: stands beside <copy> of line 4, {words}")
        self.refused(operated("decimal", "<mantissa/><copy/>"),
                     f"4: <copy>: stands beside <mantissa> of line 4, {words}")
        self.refused(operated("decimal", "<mantissa/>\n<exponent/>\n<copy/>"),
                     f"6: <copy>: stands beside <mantissa> of line 4, {words}")

    def test_parts_of_a_decimal(self):
        for part in ("exponent", "mantissa"):
            self.refused(operated("decimal", f'<{part} presence="optional"/>'),
                         f'4: <{part}>: presence="optional" is no attribute of {part}, which has ns; mend or remove it')
            self.refused(operated("decimal", f"<{part}/>\n<{part}/>"),
                         f"5: <{part}>: is one too many beside <{part}> of line 4; remove one")
            self.refused(operated("decimal", f"<{part}>\n<copy/>\n<copy/></{part}>"),
                         "6: <copy>: is one too many beside <copy> of line 5; remove one")
            self.refused(operated("decimal", f"<{part}><uInt32 name='A'/></{part}>"),
                         f'4: <uInt32 name="A">: may not stand in <{part}>; move or remove it')
            self.refused(operated("uInt32", f"<{part}/>"),
                         f'4: <{part}>: may not stand in <uInt32 name="F">; move or remove it')

    def test_string(self):
        self.field(template('<string name="F" id="1" ns="x" presence="optional"/>'), presence="optional")
        self.field(template('<string name="F" charset="ascii"/>'))
        self.field(template('<string name="F" charset="unicode"/>'), charset="unicode")
        self.field(operated("string", "<tail/>"), operator="tail")
        self.refused(template('<string name="F" charset="utf-8"/>'),
                     '3: <string name="F">: charset="utf-8" is neither ascii nor unicode; write one of them')
        self.refused(template('<uInt32 name="F" charset="ascii"/>'),
                     '3: <uInt32 name="F">: charset="ascii" is no attribute of uInt32, which has name, id, ns, presence; '
                     "mend or remove it")

    def test_length_of_a_string(self):
        length = '<length name="two words" id="1" ns="x"/>'
        self.field(operated("string", length + "<copy/>", ' charset="unicode"'), charset="unicode", operator="copy")
        self.refused(operated("string", "<length/>"),
                     "4: <length>: stands in a string whose charset is not unicode; remove it")
        self.refused(operated("string", '<length name="L"><copy/></length>', ' charset="unicode"'),
                     '4: <copy>: may not stand in <length name="L">; move or remove it')
        self.refused(operated("string", "<length/>\n<length/>", ' charset="unicode"'),
                     "5: <length>: is one too many beside <length> of line 4; remove one")

    def test_byte_vector(self):
        self.field(template('<byteVector name="F" id="1" ns="x" presence="optional"/>'), presence="optional")
        self.field(operated("byteVector", '<delta/><length name="L"/>'), operator="delta")
        self.refused(operated("byteVector", '<length presence="optional"/>'),
                     '4: <length>: presence="optional" is no attribute of length, which has name, id, ns; '
                     "mend or remove it")
        self.refused(template('<byteVector name="F" charset="unicode"/>'),
                     '3: <byteVector name="F">: charset="unicode" is no attribute of byteVector, which has name, id, ns, '
                     "presence; mend or remove it")

    def test_group(self):
        self.holds('<group name="G" id="1" ns="x" presence="optional" dictionary="D"><uInt32 name="F"/></group>',
                   {"kind": "group", "name": "G", "presence": "optional", "dictionary": "D",
                    "instructions": [{"kind": "uInt32", "name": "F"}]})
        self.refused(template("<group/>"), "3: <group>: has no name; give it one")
        self.refused(template('<group name="G"><length/></group>'),
                     '3: <length>: may not stand in <group name="G">; move or remove it')

    def test_sequence(self):
        self.holds('<sequence name="S" id="1" ns="x" presence="optional" dictionary="D"><uInt32 name="F"/></sequence>',
                   {"kind": "sequence", "name": "S", "presence": "optional", "dictionary": "D",
                    "instructions": [{"kind": "uInt32", "name": "F"}]})
        self.refused(template("<sequence/>"), "3: <sequence>: has no name; give it one")

    def test_length_of_a_sequence(self):
        def length(written, **expected):
            self.holds(f'<sequence name="S">{written}</sequence>',
                       {"kind": "sequence", "name": "S", **expected, "instructions": []})

        length("<length/>")
        length('<length id="1" ns="x"/>')
        length('<length name="N"/>', length={"name": "N"})
        length('<length><copy key="K"/></length>', length={"operator": "copy", "key": "K"})
        length('<length name="N"><constant value="02"/></length>',
               length={"name": "N", "operator": "constant", "value": "2"})
        self.refused(template('<sequence name="S"><length/>\n<length name="N"/></sequence>'),
                     '4: <length name="N">: is one too many beside <length> of line 3; remove one')
        self.refused(template('<sequence name="S"><length>\n<copy/>\n<copy/></length></sequence>'),
                     "5: <copy>: is one too many beside <copy> of line 4; remove one")
        self.refused(template('<sequence name="S"><length dictionary="D"/></sequence>'),
                     '3: <length>: dictionary="D" is no attribute of length, which has name, id, ns; mend or remove it')

    def test_template_reference(self):
        self.holds('<templateRef name="T" id="1" ns="x"/>', {"kind": "templateRef", "name": "T"})
        self.refused(template("<templateRef/>"),
                     "3: <templateRef>: has no name, and templates that the stream names are not read; "
                     "name a template")
        self.refused(template('<templateRef name="T" presence="optional"/>'),
                     '3: <templateRef name="T">: presence="optional" is no attribute of templateRef, which has name, id, '
                     "ns, templateNs; mend or remove it")
        self.refused(template('<templateRef name="T">\n<copy/></templateRef>'),
                     '4: <copy>: may not stand in <templateRef name="T">; move or remove it')

    def test_operators(self):
        for operator in ("constant", "default", "copy", "increment", "delta", "tail"):
            self.field(operated("uInt32", f'<{operator} value="07" key="K" dictionary="D" ns="x"/>'),
                       operator=operator, value="7", dictionary="D", key="K")
            self.refused(operated("uInt32", f'<{operator} value="7" name="N"/>'),
                         f'4: <{operator} name="N">: name="N" is no attribute of {operator}, which has value, key, '
                         "dictionary, ns; mend or remove it")
            self.refused(operated("uInt32", f'<{operator} value="7">\n<copy/></{operator}>'),
                         f"5: <copy>: may not stand in <{operator}>; move or remove it")

    def test_operators_without_a_value(self):
        for operator in ("default", "copy", "increment", "delta", "tail"):
            self.field(operated("uInt32", f"<{operator}/>"), operator=operator)
        self.refused(operated("uInt32", '<constant key="K"/>'), "4: <constant>: has no value; give it one")

    def test_roots(self):
        self.gives(f'<template xmlns="{STANDARD}" name="T" id="1" dictionary="D"/>', of_template(dictionary="D"))
        self.refused(f'<group xmlns="{STANDARD}" name="G"/>',
                     '1: <group name="G">: is no root of FAST\'s templates; put templates or template there')

    def test_unknown_elements_and_attributes(self):
        self.refused(template('<uint32 name="F"/>'),
                     '3: <uint32 name="F">: is no element of FAST 1.1; mend its name or remove it')
        self.refused(template('<int32 name="F"\npresense="optional"/>'),
                     '3: <int32 name="F">: presense="optional" is no attribute of int32, which has name, id, ns, presence; '
                     "mend or remove it")

    def test_text(self):
        self.refused(operated("uInt32", "<default>\n 8 </default>"),
                     '4: <default>: has the text "8"; write a value as an attribute, or remove it')
        self.refused(template("a<!-- -->b"),
                     '2: <template name="T">: has the text "ab"; write a value as an attribute, or remove it')
        self.refused(template("<![CDATA[a]]>"),
                     '2: <template name="T">: has the text "a"; write a value as an attribute, or remove it')
        self.refused(template("\u00a0"),
                     '2: <template name="T">: has the text "&#160;"; write a value as an attribute, or remove it')
        self.gives(template(" \t<![CDATA[ \n]]>&#13;"), of_template())

    def test_left_to_fastcat(self):
        self.field(operated("uInt32", "<tail/>"), operator="tail")
        self.field(operated("uInt32", "<default/>"), operator="default")
        self.holds('<templateRef name="T"/>', {"kind": "templateRef", "name": "T"})


class Namespaces(TestCase):
    """Rules 1 to 4."""

    def test_both_namespaces_under_any_prefix(self):
        field = {"kind": "uInt32", "name": "F"}
        for namespace in (STANDARD, SAMPLES):
            self.gives(f'<templates xmlns="{namespace}"><template name="T" id="1"><uInt32 name="F"/></template>'
                       "</templates>", of_template(field))
            self.gives(f'<f:templates xmlns:f="{namespace}"><f:template name="T" id="1"><f:uInt32 name="F"/></f:template>'
                       "</f:templates>", of_template(field))
        self.gives(f'<f:templates xmlns:f="{STANDARD}"><template xmlns="{SAMPLES}" name="T" id="1">'
                   '<f:uInt32 name="F"/></template></f:templates>', of_template(field))

    def test_no_namespace(self):
        field = {"kind": "uInt32", "name": "F"}
        self.gives('<templates><template name="T" id="1"><uInt32 name="F"/></template></templates>', of_template(field))
        self.gives(f'<templates><f:template xmlns:f="{STANDARD}" name="T" id="1"><uInt32 name="F"/></f:template>'
                   "</templates>", of_template(field))
        self.refused('<templates><uint32 name="F"/></templates>',
                     '1: <uint32 name="F">: is no element of FAST 1.1; mend its name or remove it')
        self.refused("<html/>", "1: <html>: is no root of FAST's templates; put templates or template there")

    def test_other_root(self):
        words = f'FAST\'s is "{STANDARD}"'
        self.refused('<x:templates xmlns:x="urn:x&amp;y"/>',
                     f'1: <x:templates>: is of the namespace "urn:x&amp;y"; {words}')
        self.refused('\n<html xmlns="urn:x"><body/></html>', f'2: <html>: is of the namespace "urn:x"; {words}')

    def test_foreign_elements(self):
        foreign = f'<x:note xmlns:x="urn:x" name="N">text<uInt32 name="F" wrong="">text</uInt32><x:note/>' \
                  f'<template xmlns="{STANDARD}"/></x:note>'
        self.gives(templates(f'{foreign}<template name="T" id="1">{foreign}<uInt32 name="F">{foreign}'
                             f"<copy>{foreign}</copy></uInt32></template>"),
                   of_template({"kind": "uInt32", "name": "F", "operator": "copy"}))
        self.gives(template('<note xmlns="">text<uInt32/></note>'), of_template())
        self.refused(template('<x:note xmlns:x="urn:x"/>text'),
                     '2: <template name="T">: has the text "text"; write a value as an attribute, or remove it')

    def test_elements_that_lost_their_namespace(self):
        words = "has no namespace and stands among FAST's elements; put it into FAST's namespace"
        self.refused(f'<f:templates xmlns:f="{STANDARD}">\n<template name="T"/></f:templates>',
                     f'2: <template name="T">: {words}')
        self.refused(operated("uInt32", '<copy xmlns=""/>'), f"4: <copy>: {words}")

    def test_attributes_with_a_prefix(self):
        self.holds('<uInt32 xmlns:x="urn:x" name="F" x:name="G" x:presence="never" xml:lang="en" xml:space="preserve"/>',
                   {"kind": "uInt32", "name": "F"})
        for namespace in (STANDARD, SAMPLES):
            self.refused(template(f'<uInt32 xmlns:f="{namespace}" name="F" f:presence="optional"/>'),
                         '3: <uInt32 name="F">: f:presence="optional" has FAST\'s namespace; write it without a prefix')

    def test_reset(self):
        told = "and fastcat keeps its entries across the template's messages; read datagrams with --packets"
        for word in ("yes", "true", "1", "YES", "True", " yes ", "Y", "T", "false", "0", ""):
            warning = f'2: warning: <template name="T">: {{}}reset="{word}" cannot be said in JSON, {told}'
            self.gives(template("", f' xmlns:scp="urn:scp" name="T" id="1" scp:reset="{word}"'), of_template(),
                       warning.format("scp:"))
            self.gives(template("", f' name="T" id="1" reset="{word}"'), of_template(), warning.format(""))
        for word in ("no", "NO", " no "):
            self.gives(template("", f' xmlns:scp="urn:scp" name="T" id="1" scp:reset="{word}"'), of_template())
            self.gives(template("", f' name="T" id="1" reset="{word}"'), of_template())
        self.gives(template('<uInt32 xmlns:scp="urn:scp" name="F" scp:reset="yes"/>'),
                   of_template({"kind": "uInt32", "name": "F"}))
        self.refused(template('<uInt32 name="F" reset="yes"/>'),
                     '3: <uInt32 name="F">: reset="yes" is no attribute of uInt32, which has name, id, ns, presence; '
                     "mend or remove it")
        self.refused(template("", f' xmlns:f="{STANDARD}" name="T" f:reset="yes"'),
                     '2: <template name="T">: f:reset="yes" has FAST\'s namespace; write it without a prefix')

    def test_reset_messages(self):
        told = "and fastcat keeps its entries across the template's messages; read datagrams with --packets"
        for name in ("Reset", "FASTReset", "FAST_Reset", "scp:Reset", "RESET-MESSAGE"):
            self.gives(template("", f' name="{name}" id="120"'), {"templates": [{"name": name, "id": 120, "instructions": []}]},
                       f'2: warning: <template name="{name}">: is a reset message by its name, {told}')
        self.gives(template('<typeRef name="Reset" ns="urn:scp"/>'), of_template(typeRef="Reset"),
                   '2: warning: <template name="T">: is a reset message by <typeRef name="Reset"> of line 3, ' + told)
        self.gives(templates('<template name="Reset"/><template name="T" id="1">\n<templateRef name="Reset"/></template>'),
                   {"templates": [{"name": "Reset", "instructions": []}, *of_template(
                       {"kind": "templateRef", "name": "Reset"})["templates"]]},
                   f'2: warning: <template name="Reset">: is a reset message by its name, {told}',
                   f'2: warning: <template name="T">: is a reset message by <templateRef name="Reset"> of line 3, {told}')
        for name in ("SequenceReset", "Resets", "ResetTime", "BookReset"):
            self.gives(template("", f' name="{name}" id="1"'), {"templates": [{"name": name, "id": 1, "instructions": []}]})
        # (one warning is enough)
        self.gives(template("", ' name="Reset" id="1" reset="Y"'), {"templates": [{"name": "Reset", "id": 1, "instructions": []}]},
                   f'2: warning: <template name="Reset">: reset="Y" cannot be said in JSON, {told}')

    def test_next_version(self):
        following = "http://www.fixprotocol.org/ns/fast/td/1.2"
        told = "is of FAST 1.2, which fastcat does not read; ask for the templates of FAST 1.1"
        self.refused(f'<templates xmlns="{following}"><template name="T"/></templates>', f"1: <templates>: {told}")
        self.refused(f'<x:template xmlns:x="{following}" name="T"/>', f'1: <x:template name="T">: {told}')
        self.refused(template(f'<enum xmlns="{following}" name="F"/>'), f'3: <enum name="F">: {told}')

    def test_dropped_attributes(self):
        file = templates('<template name="T" id="1"><uInt32 name="F" description="a price" xmlns:x="urn:x" x:y="1"/></template>',
                         ' version="1.6"')
        self.refused(file, '1: <templates>: version="1.6" is no attribute of templates, which has ns, templateNs, dictionary; '
                     "mend or remove it")
        with tempfile.TemporaryDirectory() as folder:
            Path(folder, "T.xml").write_text(file)
            answer = call("--drop", "version", "--drop", "description", "T.xml", cwd=folder)
            self.assertEqual((answer.returncode, answer.stderr), (0, b""))
            self.assertEqual(json.loads(answer.stdout), of_template({"kind": "uInt32", "name": "F"}))
            answer = call("T.xml", "--drop", "version", cwd=folder)
            self.assertEqual((answer.returncode, answer.stdout), (2, b""))
            self.assertIn(b'description="a price" is no attribute of uInt32', answer.stderr)
            Path(folder, "U.xml").write_text(template("", f' name="T" xmlns:f="{STANDARD}" f:version="1"'))
            answer = call("U.xml", "--drop", "version", cwd=folder)
            self.assertEqual((answer.returncode, answer.stdout), (2, b""))
            self.assertIn(b"f:version=\"1\" has FAST's namespace", answer.stderr)
            for name in ("presence", "name", "id", "value", "key", "dictionary", "reset", "charset", "ns", "templateNs"):
                answer = call("--drop", name, "T.xml", cwd=folder)
                self.assertEqual((answer.returncode, answer.stdout), (2, b""))
                self.assertIn(f"{name} is FAST's own, and what it says would be lost".encode(), answer.stderr)


class Names(TestCase):
    """Rules 5 to 9."""

    def test_tokens(self):
        self.gives(f'<templates xmlns="{STANDARD}" dictionary=" D&#9;"><template name="&#10;T " id=" 1&#13;" '
                   'dictionary=" E "><typeRef name=" M "/><string name=" F " presence=" optional " charset=" unicode ">'
                   '<copy key=" K " dictionary=" D "/></string><templateRef name=" T "/></template></templates>',
                   {"dictionary": "D", "templates": [{"name": "T", "id": 1, "dictionary": "E", "typeRef": "M",
                    "instructions": [{"kind": "string", "charset": "unicode", "name": "F", "presence": "optional",
                                      "operator": "copy", "dictionary": "D", "key": "K"},
                                     {"kind": "templateRef", "name": "T"}]}]})
        self.refused(template('<uInt32 name="F\u00a0"/>'),
                     '3: <uInt32 name="F&#160;">: name="F&#160;" is not of 1 to 255 characters from ! to ~; '
                     "rename it in the file")

    def test_names(self):
        longest = "!" + "a" * 253 + "~"
        self.holds(f'<uInt32 name="{longest}"/>', {"kind": "uInt32", "name": longest})
        words = "is not of 1 to 255 characters from ! to ~; rename it in the file"
        for name in ("", " ", "a b", "é", longest + "a", "名"):
            self.refused(template("", f' name="{name}"'), f'2: <template name="{name}">: name="{name}" {words}')
            self.refused(template(f'<group name="{name}"/>'), f'3: <group name="{name}">: name="{name}" {words}')
            self.refused(template(f'<templateRef name="{name}"/>'),
                         f'3: <templateRef name="{name}">: name="{name}" {words}')
            self.refused(template(f'<typeRef name="{name}"/>'), f'3: <typeRef name="{name}">: name="{name}" {words}')
            self.refused(template("", f' name="T" dictionary="{name}"'),
                         f'2: <template name="T">: dictionary="{name}" {words}')
            self.refused(templates("", f' dictionary="{name}"'), f'1: <templates>: dictionary="{name}" {words}')
            self.refused(template(f'<group name="G" dictionary="{name}"/>'),
                         f'3: <group name="G">: dictionary="{name}" {words}')
            self.refused(template(f'<sequence name="G"><length name="{name}"/></sequence>'),
                         f'3: <length name="{name}">: name="{name}" {words}')
            self.refused(operated("uInt32", f'<constant value="1" key="{name}"/>'), f'4: <constant>: key="{name}" {words}')
            self.refused(operated("uInt32", f'<copy dictionary="{name}"/>'), f'4: <copy>: dictionary="{name}" {words}')

    def test_values_are_told_in_one_line(self):
        self.refused(template("", ' name="&#10;&lt;&quot;&amp;&#x85;"'),
                     '2: <template name="&#10;&lt;&quot;&amp;&#133;">: name="&#10;&lt;&quot;&amp;&#133;" is not of 1 to '
                     "255 characters from ! to ~; rename it in the file")
        cut = "a" * 300 + "..."
        self.refused(template("", f' name="{"a" * 301}"'),
                     f'2: <template name="{cut}">: name="{cut}" is not of 1 to 255 characters from ! to ~; '
                     "rename it in the file")

    def test_namespaces_of_templates(self):
        self.refused(templates('<template name="A" id="1" templateNs="x"/>\n<template name="A" id="2" templateNs="y"/>'),
                     '3: <template name="A">: the template "A" is of the namespace "y" here and of "x" in line 2, and '
                     "JSON has no namespaces; rename one")
        self.refused(templates('<template name="A" id="1">\n<templateRef name="B" templateNs="y"/></template>\n'
                               '<template name="B" id="2"/>'),
                     '4: <template name="B">: the template "B" is of the namespace "" here and of "y" in line 3, and '
                     "JSON has no namespaces; rename one")
        # templateNs holds inside, ns is for other names
        self.gives(templates('<template name="T" templateNs="x" ns="z" id="1"><group name="G" ns="w"><templateRef name="T"/>'
                             "</group></template>", ' templateNs="y"'),
                   of_template({"kind": "group", "name": "G", "instructions": [{"kind": "templateRef", "name": "T"}]}))
        self.refused(templates('<template name="T" templateNs="x" id="1">\n<templateRef name="T" templateNs=""/></template>',
                               ' templateNs="y"'),
                     '3: <templateRef name="T">: the template "T" is of the namespace "" here and of "x" in line 2, and '
                     "JSON has no namespaces; rename one")

    def test_namespaces_of_typerefs(self):
        self.refused(template('<typeRef name="M" ns="x"/>\n<group name="G" ns="y"><typeRef name="M"/></group>'),
                     '4: <typeRef name="M">: the typeRef "M" is of the namespace "y" here and of "x" in line 3, and '
                     "JSON has no namespaces; rename one")
        self.gives(template('<typeRef name="M" ns="x"/><group name="G" ns="x"><typeRef name="M"/></group>'),
                   of_template({"kind": "group", "name": "G", "typeRef": "M", "instructions": []}, typeRef="M"))

    def test_namespaces_of_entries(self):
        words = 'is of the namespace "y" here and of "x" in line 3, and JSON has no namespaces; give one a key of its own'
        for operator in ("copy", "increment", "delta", "tail"):
            self.refused(template(f'<uInt32 name="A" ns="x"><{operator}/></uInt32>\n'
                                  f'<uInt32 name="A" ns="y"><{operator}/></uInt32>'),
                         f'4: <{operator}>: the entry "A" {words}')
        # a key has the namespace that holds in its operator; a field's own name has the field's
        self.refused(template('<uInt32 name="A" ns="x"><copy/></uInt32>\n'
                              '<uInt32 name="B" ns="x">\n<copy key="A" ns="y"/></uInt32>'),
                     f'5: <copy>: the entry "A" {words}')
        # the words have the namespace of the first, which stands in line 3
        self.refused(template('<group name="G" ns="x"><uInt32 name="A"><copy ns="z"/></uInt32></group>\n'
                              '<group name="G" ns="y"><uInt32 name="A"><copy/></uInt32></group>'),
                     f'4: <copy>: the entry "A" {words}')
        # a length with a name is as a field
        self.refused(template('<uInt32 name="A" ns="x"><copy/></uInt32>\n'
                              '<sequence name="S"><length name="A" ns="y">\n<delta/></length></sequence>'),
                     f'5: <delta>: the entry "A" {words}')
        # an exponent that has a key is as a field
        self.refused(template('<uInt32 name="A" ns="x"><copy/></uInt32>\n'
                              '<decimal name="D"><exponent ns="y"><delta key="A"/></exponent></decimal>'),
                     f'4: <delta>: the entry "A" {words}')

    def test_namespaces_of_entries_of_parts(self):
        words = 'is of the namespace "y" here and of "x" in line 3, and JSON has no namespaces; give one a key of its own'
        for part in ("exponent", "mantissa"):
            self.refused(template(f'<decimal name="A" ns="x"><{part}><copy/></{part}></decimal>\n'
                                  f'<decimal name="A" ns="y"><{part}>\n<copy/></{part}></decimal>'),
                         f'5: <copy>: the {part} of "A" {words}')
        self.refused(template('<sequence name="A" ns="x"><length><copy/></length></sequence>\n'
                              '<sequence name="A" ns="y">\n<length ns="x"><copy/></length></sequence>'),
                     f'5: <copy>: the length of "A" {words}')
        # each among themselves
        file = template('<decimal name="A" ns="x"><exponent><copy/></exponent></decimal>'
                        '<decimal name="A" ns="y"><mantissa><copy/></mantissa></decimal>'
                        '<uInt32 name="A" ns="z"><copy/></uInt32>'
                        '<sequence name="A"><length><copy/></length></sequence>')
        self.assertEqual(convert(file).status, 0)

    def test_other_names_may_fall_together(self):
        field = {"kind": "uInt32", "name": "A"}
        self.holds('<uInt32 name="A" ns="x"/><uInt32 name="A" ns="y"/><group name="A" ns="z"><uInt32 name="A" ns="x">'
                   '<copy/></uInt32></group><uInt32 name="A" ns="w"><constant value="1"/></uInt32>'
                   '<uInt32 name="A" ns="v"><default/></uInt32><uInt32 name="A" ns="v"><copy key="B"/></uInt32>',
                   field, field, {"kind": "group", "name": "A", "instructions": [{**field, "operator": "copy"}]},
                   {**field, "operator": "constant", "value": "1"}, {**field, "operator": "default"},
                   {**field, "operator": "copy", "key": "B"})

    def test_template_that_stands_twice(self):
        self.refused(templates('<template name="T" id="1"/>\n<template name="T" id="2"/>'),
                     '3: <template name="T">: is the second template of this name after line 2; rename one')
        self.refused(templates('<template name="T" id="1"/>\n<template name="U" id=" 01"/>'),
                     '3: <template name="U">: id=" 01" is also the id of <template name="T"> of line 2; change one')

    def test_reference_to_no_template(self):
        self.refused(template('<templateRef name="U"/>'),
                     '3: <templateRef name="U">: names no template of this file; add the template, or mend the name')
        self.gives(templates('<template name="T" id="1"><templateRef name="U"/></template><template name="U"/>'),
                   {"templates": [{"name": "T", "id": 1, "instructions": [{"kind": "templateRef", "name": "U"}]},
                                  {"name": "U", "instructions": []}]})

    def test_identifiers(self):
        for written, number in (("0", 0), ("007", 7), ("0" * 5000 + "4294967295", 4294967295)):
            self.gives(template("", f' name="T" id="{written}"'), {"templates": [
                {"name": "T", "id": number, "instructions": []}]})
        for written in ("4294967296", "-1", "-0", "+1", "1.0", "0x1", "1_0", "", "A", "1 2", "१"):
            self.refused(template("", f' name="T" id="{written}"'),
                         f'2: <template name="T">: id="{written}" is no number from 0 to 4294967295 in digits; change it')

    def test_template_that_nothing_can_use(self):
        self.gives(templates('<template name="T"/>\n<template name="U" id="2"/>\n<template name="V"/>\n'
                             '<template name="W" id="3"><templateRef name="V"/></template>'),
                   {"templates": [{"name": "T", "instructions": []}, {"name": "U", "id": 2, "instructions": []},
                                  {"name": "V", "instructions": []},
                                  {"name": "W", "id": 3, "instructions": [{"kind": "templateRef", "name": "V"}]}]},
                   '2: warning: <template name="T">: has no id and no templateRef names it; no message can use it')

    def test_warnings_stand_in_the_order_of_lines(self):
        self.gives(templates('<template name="T"/>\n<template xmlns:s="urn:s" name="U" id="2" s:reset="1"/>'),
                   {"templates": [{"name": "T", "instructions": []}, {"name": "U", "id": 2, "instructions": []}]},
                   '2: warning: <template name="T">: has no id and no templateRef names it; no message can use it',
                   '3: warning: <template name="U">: s:reset="1" cannot be said in JSON, and fastcat keeps its entries '
                   "across the template's messages; read datagrams with --packets")

    def test_a_refusal_has_no_warnings(self):
        self.refused(templates('<template name="T"/>\n<template/>'), "3: <template>: has no name; give it one")


class Values(TestCase):
    """Rules 10 to 13."""

    def test_integers(self):
        for kind, least, greatest in (("int32", -2147483648, 2147483647), ("uInt32", 0, 4294967295),
                                      ("int64", -9223372036854775808, 9223372036854775807),
                                      ("uInt64", 0, 18446744073709551615)):
            for number in (least, greatest, 0):
                self.value(kind, str(number), str(number))
            for number in (least - 1, greatest + 1, "9" * 5000):
                file = operated(kind, f'<default value="{number}"/>')
                shown = str(number) if len(str(number)) < 300 else "9" * 300 + "..."
                self.refused(file, f'4: <default>: value="{shown}" is out of the bounds of {kind}; write a number from '
                                   f"{least} to {greatest}")

    def test_texts_of_integers(self):
        for written, expected in (("007", "7"), ("-0", "0"), ("-007", "-7"), (" 7&#10;", "7"), ("0" * 5000 + "7", "7")):
            self.value("int32", written, expected)
        for written in ("+7", "1_0", "7.0", "0x7", "7e0", "", "-", "- 7", "7 7", "--7", "७", "seven"):
            self.value_refused("int32", written, "is no integer; write digits, perhaps with a - in front")
        self.value_refused("int32", "&#160;7", "is no integer; write digits, perhaps with a - in front")

    def test_parts_of_a_decimal(self):
        def part(word, written):
            return operated("decimal", f'<{word}>\n<copy value="{written}"/></{word}>')

        for word, least, greatest in (("exponent", -63, 63), ("mantissa", -9223372036854775808, 9223372036854775807)):
            other = "mantissa" if word == "exponent" else "exponent"
            for number in (least, greatest):
                self.field(part(word, number), **{word: {"operator": "copy", "value": str(number)}, other: {}})
            for number in (least - 1, greatest + 1):
                self.refused(part(word, number), f'5: <copy>: value="{number}" is out of the bounds of {word}; write a '
                                                 f"number from {least} to {greatest}")
            self.refused(part(word, "1.5"),
                         '5: <copy>: value="1.5" is no integer; write digits, perhaps with a - in front')

    def test_lengths(self):
        def length(written):
            return template(f'<sequence name="S"><length>\n<constant value="{written}"/></length></sequence>')

        self.gives(length("4294967295"), of_template(
            {"kind": "sequence", "name": "S", "length": {"operator": "constant", "value": "4294967295"},
             "instructions": []}))
        for written in ("4294967296", "-1"):
            self.refused(length(written), f'4: <constant>: value="{written}" is out of the bounds of length; write a number '
                                          "from 0 to 4294967295")

    def test_decimals(self):
        for written, expected in (
                ("0.01", "1e-2"), ("100", "1e2"), ("-12.50", "-125e-1"), (".5", "5e-1"), ("5.", "5e0"), ("-.5", "-5e-1"),
                ("0", "0e0"), ("-0", "0e0"), ("0.000", "0e0"), ("-0.0", "0e0"), ("00012.340", "1234e-2"),
                (" 1.5 ", "15e-1"), ("0." + "0" * 62 + "1", "1e-63"), ("1" + "0" * 63, "1e63"),
                ("9223372036854775807", "9223372036854775807e0"), ("-922337203685477580.8", "-9223372036854775808e-1"),
                ("9223372036854775807" + "0" * 63, "9223372036854775807e63"), ("1." + "0" * 5000, "1e0")):
            self.value("decimal", written, expected)

    def test_bases_of_deltas(self):
        for written, expected, kept in (("100.00", "1e2", "10000e-2"), ("100", "1e2", "100e0"), ("-12.50", "-125e-1", "-1250e-2"),
                                        ("0.00", "0e0", "0e-2"), (" 010.0 ", "1e1", "100e-1")):
            self.gives(operated("decimal", f'<delta value="{written}"/>'),
                       of_template({"kind": "decimal", "name": "F", "operator": "delta", "value": expected}),
                       f'4: warning: <delta>: value="{written}" becomes {expected}, and a delta is added to its exponent; where '
                       f"the feed is of {kept}, write that in the JSON")
        for written, expected in (("100.01", "10001e-2"), ("7", "7e0"), ("0", "0e0"), ("-.5", "-5e-1")):
            self.field(operated("decimal", f'<delta value="{written}"/>'), operator="delta", value=expected)
        for word in ("constant", "default", "copy"):
            self.field(operated("decimal", f'<{word} value="100.00"/>'), operator=word, value="1e2")
        self.field(operated("int32", '<delta value="100"/>'), operator="delta", value="100")

    def test_texts_that_are_no_decimals(self):
        for written in ("1e2", "1,5", "+1", "NaN", "INF", "", "-", ".", "-.", "1.2.3", "1 2", "१", "0x1", "1_0"):
            self.value_refused("decimal", written, "is no decimal number; write digits, perhaps with a - in front and a "
                                                   "point between them")

    def test_decimals_out_of_bounds(self):
        for written in ("9223372036854775808", "-9223372036854775809", "922337203685477580.8", "1" * 31):
            self.value_refused("decimal", written, "needs a mantissa beyond int64; write fewer digits")
        self.value_refused("decimal", "1" + "0" * 64, "needs the exponent 64; write a number whose exponent is -63 to 63")
        self.value_refused("decimal", "0." + "0" * 63 + "1",
                           "needs the exponent -64; write a number whose exponent is -63 to 63")

    def test_byte_vectors(self):
        for written, expected in (("0aFF", "0aff"), (" 0 a&#10;F\tF ", "0aff"), ("", ""), (" ", ""),
                                  ("00" * 65535, "00" * 65535)):
            self.value("byteVector", written, expected)
        for written in ("a", "0x00", "0g", "é0", "00 0", "００"):
            self.value_refused("byteVector", written, "is no hex; write two hex digits for each byte")
        self.refused(operated("byteVector", f'<default value="{"00" * 65536}"/>'),
                     f'4: <default>: value="{"0" * 300}..." has more than 65,535 bytes; shorten it')

    def test_strings(self):
        for written, expected in (("", ""), (" a  b ", " a  b "), ("\\u0041&quot;", '\\u0041"'),
                                  ("&#9;&#127;", "\t\x7f"), ("007", "007"), ("a" * 65535, "a" * 65535)):
            self.value("string", written, expected)
        # what stands for a line's end in an attribute is a blank in XML, and only a reference is not
        self.value("string", "a\r\nb\tc&#13;", "a b c\r")
        for character in ("\x80", "é"):
            file = operated("string", f'<default value="a{character}b"/>')
            shown = "&#128;" if character == "\x80" else character
            self.refused(file, f'4: <default>: value="a{shown}b" has "{shown}", which is not ASCII; write another value, or '
                               'charset="unicode" if the feed has it')
        self.refused(operated("string", f'<default value="{"a" * 65536}"/>'),
                     f'4: <default>: value="{"a" * 300}..." has more than 65,535 characters; shorten it')

    def test_unicode_strings(self):
        unicode = ' charset="unicode"'
        for written in ("", "é名😀", "é" * 32767 + "a"):
            self.value("string", written, written, unicode, charset="unicode")
        self.refused(operated("string", f'<default value="{"é" * 32768}"/>', unicode),
                     f'4: <default>: value="{"é" * 300}..." has more than 65,535 bytes; shorten it')


class Documents(TestCase):
    """Rules 14 to 18, and the limits on size."""

    def test_not_well_formed(self):
        for text, line, message in (
                ("", 1, "no element found"), ("<templates>\n", 2, "no element found"),
                ("<templates>\n</template>", 2, "mismatched tag"), ("\n<a b=c/>", 2, "not well-formed (invalid token)"),
                ("<a b='' b=''/>", 1, "duplicate attribute"), ("<a/>\n<b/>", 2, "junk after document element"),
                ("<a>\n&nbsp;</a>", 2, "undefined entity"), ("<a>&#0;</a>", 1, "reference to invalid character number"),
                ("<a>\n<x:b/></a>", 2, "unbound prefix"), ("<a\nx:b=''/>", 1, "unbound prefix"),
                (template("<x:note/>"), 3, "unbound prefix")):
            self.refused(text, f"{line}: this is no well-formed XML: {message}; mend it")

    def test_fault_of_xml_in_something_foreign(self):
        self.refused(template('<n xmlns="urn:x"><x:y/></n>'), "3: this is no well-formed XML: unbound prefix; mend it")

    def test_encodings(self):
        text = operated("string", '<copy value="名é"/>', ' charset="unicode"')
        expected = of_template({"kind": "string", "charset": "unicode", "name": "F", "operator": "copy", "value": "名é"})
        self.gives(text, expected)
        self.gives(text.encode("utf-8-sig"), expected)
        self.gives(text.encode("utf-16"), expected)
        for encoding in ("utf-16-le", "utf-16-be"):
            self.gives(("\ufeff" + text).encode(encoding), expected)
            self.gives(text.encode(encoding), expected)
            self.gives(('<?xml version="1.0" encoding="UTF-16"?>' + text).encode(encoding), expected)
        for encoding in ("UTF-8", "GB18030", "utf-7"):
            self.gives(f"<?xml version='1.0' encoding='{encoding}' standalone='yes'?>\n{text}".encode(encoding), expected)

    def test_encodings_of_several_bytes(self):
        text = operated("string", '<copy value="名"/>', ' charset="unicode"')
        expected = of_template({"kind": "string", "charset": "unicode", "name": "F", "operator": "copy", "value": "名"})
        for encoding in ("GB2312", "gbk", "Big5", "Shift_JIS", "EUC-JP", "EUC-KR"):
            self.gives(f'<?xml version="1.0" encoding="{encoding}"?>\n{text}'.encode(encoding), expected)

    def test_encodings_of_one_byte(self):
        text = operated("string", '<copy value="é"/>', ' charset="unicode"')
        expected = of_template({"kind": "string", "charset": "unicode", "name": "F", "operator": "copy", "value": "é"})
        for encoding in ("ISO-8859-1", "windows-1252", "iso-8859-15"):
            self.gives(f'<?xml version="1.0" encoding="{encoding}"?>\n{text}'.encode(encoding), expected)

    def test_mark_before_a_declaration(self):
        text = f'<?xml version="1.0" encoding="GB2312"?>\n{template()}'
        self.gives(text.encode("utf-8-sig"), of_template())
        self.gives(text.encode("utf-16"), of_template())

    def test_lines_are_those_of_the_file(self):
        words = "has no name; give it one"
        for text in (f"<?xml version='1.0' encoding='GB2312'?>\n<!-- 名\n名 -->\n{template('<group/>')}".encode("gb2312"),
                     f"<?xml version='1.0'?>\n<!-- 名\n名 -->\n{template('<group/>')}".encode("utf-16"),
                     f"<?xml version='1.0'?>\r\n<!--\r\n-->\r\n{template('<group/>')}".encode()):
            self.refused(text, f"6: <group>: {words}")

    def test_unknown_encodings(self):
        for encoding in ("klingon", "base64", "zlib", "punycode", "idna", "unicode_escape", "raw-unicode-escape",
                         "undefined"):
            self.refused(f'<?xml version="1.0" encoding="{encoding}"?>\n<templates/>',
                         f'1: encoding="{encoding}" is no encoding that is known here; save the file in UTF-8')

    def test_bytes_that_do_not_fit(self):
        for text, line, encoding in (
                (b"<templates>\n\xff</templates>", 2, "utf-8"), (b"<templates>\xed\xa0\x80</templates>", 1, "utf-8"),
                (b"\xef\xbb\xbf<templates>\n\n\xe9</templates>", 3, "utf-8"),
                (b"\xff\xfe<\0a\0/\0>", 1, "utf-16"), ("\ufeff<a>\n\ud800</a>".encode("utf-16-le", "surrogatepass"), 2, "utf-16"),
                (b'<?xml version="1.0" encoding="GB2312"?>\n\n\xff', 3, "GB2312"),
                (b'<?xml version="1.0" encoding="us-ascii"?>\n\xc3\xa9', 2, "us-ascii"),
                (b'<?xml version="1.0" encoding="utf-7"?><a>+2AA-</a>', 1, "utf-7")):
            self.refused(text, f"{line}: the bytes are not of the encoding {encoding}; save the file in UTF-8")
        self.refused('<?xml version="1.0" encoding="UTF-16"?><templates />',
                     '1: encoding="UTF-16" is not the encoding of the file; save the file in UTF-8')

    def test_doctype_with_defaults(self):
        self.gives(f'<!DOCTYPE templates [\n<!-- <!ENTITY a "b"> -->\n<!ELEMENT templates ANY>\n'
                   '<!ATTLIST uInt32 presence (mandatory|optional) "optional" id CDATA #IMPLIED>\n]>\n'
                   f'<templates xmlns="{STANDARD}"><template name="T" id="1"><uInt32 name="F"/></template></templates>',
                   of_template({"kind": "uInt32", "name": "F", "presence": "optional"}))
        self.gives(f'<!DOCTYPE template [<!ATTLIST template xmlns CDATA #FIXED "{STANDARD}">]><template name="T" id="1"/>',
                   of_template())

    def test_doctype_with_an_external_part(self):
        for kind, shown in (('SYSTEM "t.dtd"', "t.dtd"), ('PUBLIC "-//x" "http://x/t.dtd"', "http://x/t.dtd"),
                            ('SYSTEM ""', ""), ('SYSTEM "t.dtd" []', "t.dtd")):
            self.refused(f"\n<!DOCTYPE templates {kind}>\n<templates/>",
                         f'2: <!DOCTYPE templates>: names the external DTD "{shown}", which is not read; remove it, and '
                         "write what it declares where it is used")

    def test_entities(self):
        words = "declares an entity, and none is expanded; remove it, and write its text where it is used"
        for declaration in ('<!ENTITY e "text">', '<!ENTITY e SYSTEM "e.txt">', '<!ENTITY % e "">',
                            '<!NOTATION n SYSTEM "n"><!ENTITY e SYSTEM "e" NDATA n>'):
            self.refused(f"<!DOCTYPE templates [\n{declaration}\n]><templates/>", f"2: <!ENTITY e>: {words}")
        self.refused('<!DOCTYPE templates [\n%e;\n<!ATTLIST templates dictionary CDATA "D">]><templates x="&f;"/>',
                     "2: %e; is an entity that nothing declares; remove it")

    def test_entity_bomb(self):
        entities = "\n".join(f'<!ENTITY e{n} "{f"&e{n - 1};" * 10}">' for n in range(1, 12))
        self.refused(f'<!DOCTYPE templates [\n<!ENTITY e0 "0123456789">\n{entities}\n]>\n<templates dictionary="&e11;"/>',
                     "2: <!ENTITY e0>: declares an entity, and none is expanded; remove it, and write its text where it "
                     "is used")

    def test_references_that_every_xml_has(self):
        self.value("string", "&lt;&gt;&amp;&quot;&apos;&#65;&#x42;", "<>&\"'AB")

    def test_comments_and_instructions_of_processing(self):
        self.gives(f"<?xml version='1.0'?><?a b?><!-- c -->{template('<!-- d --><?e f?>')}<!-- g -->", of_template())

    def test_levels(self):
        for word in ("group", "sequence"):
            self.assertEqual(convert(nested(8, word)).status, 0)
            for levels in (9, 5000):
                self.refused(nested(levels, word), f'11: <{word} name="G9">: is inside of 8 groups and sequences, the most '
                                                   "that fastcat reads; nest them less")

    def test_deep_elements(self):
        self.gives(template('<x:a xmlns:x="urn:x">' + "<x:a>" * 4999 + "</x:a>" * 5000), of_template())
        self.refused(template('<uInt32 name="F">\n' * 5000 + "</uInt32>" * 5000),
                     '4: <uInt32 name="F">: may not stand in <uInt32 name="F">; move or remove it')

    def test_size(self):
        text = template().encode()
        longest = text + b" " * (MOST_BYTES - len(text))
        self.gives(longest, of_template())
        self.refused(longest + b" ", "1: the file has more than 16,777,216 bytes; split it")

    def test_a_huge_file_is_not_read(self):
        with tempfile.NamedTemporaryFile() as file:
            file.truncate(2**40)
            answer = call(file.name)
            self.assertEqual((answer.returncode, answer.stdout), (2, b""))
            self.assertEqual(answer.stderr.decode(), f"{file.name}:1: the file has more than 16,777,216 bytes; split it\n")

    def test_bomb_of_defaults(self):
        default = "d" * 1_000_000
        elements = '<uInt32 name="F"/>\n' * 1000
        self.refused(f'<!DOCTYPE templates [<!ATTLIST uInt32 id CDATA "{default}">]>\n{template(elements)}',
                     "272: <uInt32>: with defaults, attributes have more than 268,435,456 characters up to here; shorten the "
                     "defaults in the DOCTYPE")
        attributes = "\n".join(f"a{n} CDATA ''" for n in range(1001))
        self.refused(f"<!DOCTYPE templates [<!ATTLIST templates\n{attributes}>]>\n<templates/>",
                     "1002: <!ATTLIST>: declares more than 1,000 attributes; write them where they are used")

    def test_bomb_of_a_namespace(self):
        namespace = "urn:" + "n" * 251
        self.gives(template(f'<x:note xmlns:x="{namespace}"/>'), of_template())
        self.gives(template(f'<x:note xmlns:x="urn:x" xmlnsx="{namespace}n"/>'), of_template())
        for name in ("xmlns:x", "xmlns"):
            self.refused(template(f'<note {name}="{namespace}n"/>'),
                         f"3: <note>: {name} has more than 255 characters; shorten the namespace")

    def test_output_is_ascii(self):
        text = operated("string", '<copy value="é名😀"/>', ' charset="unicode"')
        self.assertIn(rb'"value":"\u00e9\u540d\ud83d\ude00"', convert(text).output)


class Programs(TestCase):
    """The program as a process."""

    def test_examples(self):
        files = sorted((TOP / "examples").glob("*.xml"))
        self.assertGreaterEqual(len(files), 7)
        for file in files:
            answer = call(file)
            self.assertEqual(answer.returncode, 0)
            self.assertEqual(answer.stdout, file.with_suffix(".json").read_bytes())
            warnings = [f'{file}:7: warning: <template name="FASTReset">: scp:reset="yes" cannot be said in JSON, and fastcat '
                        "keeps its entries across the template's messages; read datagrams with --packets"]
            self.assertEqual(answer.stderr.decode().splitlines(), warnings if file.stem == "eurex" else [])

    def test_layout(self):
        file = templates('<template name="T" id="1"><typeRef name="M"/><sequence name="S" presence="optional">'
                         '<typeRef name="N"/><length name="L"><copy/></length><decimal name="P"><mantissa/></decimal>'
                         '<group name="G"/></sequence></template>\n<template name="U" id="2"/>', ' dictionary="D"')
        self.assertEqual(convert(file).output.decode(), "\n".join((
            '{"dictionary":"D","templates":[',
            '{"name":"T","id":1,"typeRef":"M","instructions":[',
            ' {"kind":"sequence","name":"S","presence":"optional","typeRef":"N","length":{"name":"L","operator":"copy"},'
            '"instructions":[',
            '  {"kind":"decimal","name":"P",',
            '   "exponent":{},"mantissa":{}},',
            '  {"kind":"group","name":"G","instructions":[]}]}]},',
            '{"name":"U","id":2,"instructions":[]}]}', "")))

    def test_statuses(self):
        with tempfile.TemporaryDirectory() as folder:
            Path(folder, "-").write_text(template("", ' name="T"'))
            Path(folder, "bad.xml").write_text("<templates>")
            good = call("-", cwd=folder)
            self.assertEqual((good.returncode, json.loads(good.stdout)), (0, {"templates": [
                {"name": "T", "instructions": []}]}))
            self.assertEqual(good.stderr.decode(), '-:2: warning: <template name="T">: has no id and no templateRef names '
                                                   "it; no message can use it\n")
            bad = call("bad.xml", cwd=folder)
            self.assertEqual((bad.returncode, bad.stdout), (2, b""))
            self.assertEqual(bad.stderr, b"bad.xml:1: this is no well-formed XML: no element found; mend it\n")
            missing = call("none.xml", cwd=folder)
            self.assertEqual((missing.returncode, missing.stdout), (3, b""))
            self.assertEqual(missing.stderr, b"none.xml: cannot be read: No such file or directory\n")
            directory = call(folder)
            self.assertEqual((directory.returncode, directory.stdout), (3, b""))
            self.assertEqual(directory.stderr.decode(), f"{folder}: cannot be read: Is a directory\n")

    def test_command_lines(self):
        for words in ((), ("a", "b"), ("--wrong", "a")):
            answer = call(*words)
            self.assertEqual((answer.returncode, answer.stdout), (2, b""))
            self.assertIn(b"usage: xml-templates", answer.stderr)
        self.assertEqual(call("--help").returncode, 0)

    def test_any_locale(self):
        with tempfile.TemporaryDirectory() as folder:
            Path(folder, "é.xml").write_text(operated("string", '<copy value="名"/>', ' charset="unicode"'), "utf-8")
            Path(folder, "bad.xml").write_text(template('<group name="名"/>'), "utf-8")
            for locale in ({"LC_ALL": "C"}, {"LC_ALL": "POSIX", "PYTHONCOERCECLOCALE": "0", "PYTHONUTF8": "0"},
                           {"PYTHONIOENCODING": "ascii"}):
                environment = {"PATH": os.environ["PATH"], **locale}
                good = call("é.xml", cwd=folder, env=environment)
                self.assertEqual((good.returncode, good.stderr), (0, b""))
                self.assertEqual(json.loads(good.stdout)["templates"][0]["instructions"][0]["value"], "名")
                bad = call("bad.xml", cwd=folder, env=environment)
                self.assertEqual((bad.returncode, bad.stdout), (2, b""))
                self.assertEqual(bad.stderr.decode(), 'bad.xml:3: <group name="名">: name="名" is not of 1 to 255 characters '
                                                      "from ! to ~; rename it in the file\n")

    def test_a_name_of_a_file_that_is_no_text(self):
        answer = subprocess.run([os.fsencode(PROGRAM), b"\xff.xml"], capture_output=True, timeout=60, check=False)
        self.assertEqual((answer.returncode, answer.stderr), (3, b"\xff.xml: cannot be read: No such file or directory\n"))

    def test_streams_that_fail(self):
        example = TOP / "examples" / "book.xml"
        with open("/dev/full", "wb") as full:
            answer = subprocess.run([PROGRAM, example], stdout=full, stderr=subprocess.PIPE, timeout=60, check=False)
            self.assertEqual((answer.returncode, answer.stderr),
                             (3, b"standard output: cannot be written: No space left on device\n"))
            answer = subprocess.run([PROGRAM, "none.xml"], stdout=subprocess.PIPE, stderr=full, timeout=60, check=False)
            self.assertEqual((answer.returncode, answer.stdout), (3, b""))
        closed = subprocess.run(["sh", "-c", '"$0" "$1" >&-', PROGRAM, example], capture_output=True, timeout=60, check=False)
        self.assertEqual((closed.returncode, closed.stderr),
                         (3, b"standard output: cannot be written: Bad file descriptor\n"))
        silent = subprocess.run(["sh", "-c", '"$0" none.xml 2>&-', PROGRAM], capture_output=True, timeout=60, check=False)
        self.assertEqual((silent.returncode, silent.stdout), (3, b""))

    def test_an_early_expat(self):
        with mock.patch.object(program.expat, "version_info", (2, 4, 0)), mock.patch.object(sys, "argv", ["", "a"]), \
                tempfile.TemporaryFile("w+") as errors, contextlib.redirect_stderr(errors):
            with self.assertRaises(SystemExit) as ended:
                program.main()
            errors.seek(0)
            self.assertEqual(ended.exception.code, 2)
            self.assertTrue(errors.read().endswith("error: Python's expat has to be 2.4.1 or later\n"))


if __name__ == "__main__":
    ended = unittest.main(exit=False).result
    ill = len(ended.failures) + len(ended.errors)
    print(f"{ended.testsRun - ill} passed, {ill} failed")
    sys.exit(not ended.wasSuccessful())
