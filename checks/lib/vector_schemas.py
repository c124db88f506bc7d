"""The JSON Schemas of the vectors, one for each set, and whether what a line has is as a schema says. Of JSON Schema (draft 2020-12) only
the keywords that these schemas use are known here; any other one is a fault."""
import json
import os
import re
from collections.abc import Iterator
from typing import Any

from lib import vector_sets

Schema = dict[str, Any]

LAST_MINUTE = 68_374_080  # 2100-01-01 00:00
LAST_DEADLINE = LAST_MINUTE + 4 * 10_080
MARKS = [f"{activity}{crew}" for crew in ("", " crew") for activity in ("rest", "available", "work", "drive")]


def an_object(**properties: Schema) -> Schema:
    """An object with all of some keys, and no others."""
    return {"type": "object", "properties": properties, "required": list(properties), "additionalProperties": False}


def a_list(items: Schema) -> Schema:
    """A list whose items are alike."""
    return {"type": "array", "items": items}


def a_row(*items: Schema) -> Schema:
    """A list with these items."""
    return {"type": "array", "prefixItems": list(items), "items": False, "minItems": len(items)}


def one_of(*schemas: Schema) -> Schema:
    """Any of some."""
    return {"anyOf": list(schemas)}


def named(name: str) -> Schema:
    """What has a name among the definitions."""
    return {"$ref": f"#/$defs/{name}"}


def a_text(pattern: str) -> Schema:
    """A text of a pattern."""
    return {"type": "string", "pattern": pattern}


def a_number(least: int, most: int) -> Schema:
    """A whole number within limits."""
    return {"type": "integer", "minimum": least, "maximum": most}


NULL: Schema = {"type": "null"}
MINUTE, MARK, RANGE, LENGTH = named("minute"), named("mark"), named("range"), named("length")
ARTICLES = sorted(set(vector_sets.ARTICLES.values()))
RULE = {"enum": [f"B{kind}" for kind in range(1, 11)]}
CAUSE = {"enum": ["unknown", "crew"]}
FAULT = one_of(
    an_object(fault={"enum": ["C3", "C4", "C5", "C6", "C7", "C8"]}),
    an_object(fault={"enum": ["C1", "C9", "C10", "C11", "C12", "C13"]}, place=a_number(0, 262_143)),
    an_object(fault={"const": "C2"}, block=a_text("^05(04|20) 0[02]$")), an_object(fault={"const": "C14"}, minute=MINUTE),
)
DEFINITIONS: dict[str, Schema] = {
    "minute": {"description": "minutes since 1970-01-01 00:00 UTC", **a_number(0, LAST_MINUTE)},
    "length": {"description": "a number of minutes", **a_number(0, LAST_MINUTE)},
    "mark": {"enum": MARKS},
    "range": {"description": "a start and a past", **a_row(MINUTE, MINUTE)},
    "spans": a_list(a_row(MINUTE, MINUTE, MARK)),
    "digits": {
        "description": "bytes in hexadecimal digits",
        **a_list(one_of(a_text("^([0-9a-f]{2})*$"), an_object(byte=a_text("^[0-9a-f]{2}$"), times=a_number(2, 262_144)))),
    },
    "text": {
        "description": "bytes, each a character from U+0000 to U+00FF",
        **a_list(one_of(a_text("^[\\u0000-\\u00ff]*$"), an_object(byte=a_text("^[\\u0000-\\u00ff]$"), times=a_number(2, 262_144)))),
    },
    "fault": FAULT,
    "activity": one_of(an_object(spans=named("spans")), named("fault")),
    "breaches": a_list(an_object(rule=RULE, article={"enum": ARTICLES}, moment=MINUTE, since=MINUTE, amount=LENGTH)),
    "debts": a_list(an_object(week=MINUTE, amount=LENGTH, deadline=a_number(0, LAST_DEADLINE), payer=one_of(MINUTE, NULL))),
    "timeline": an_object(base=MINUTE, spans=named("spans")),
}
REPORT = {"horizon": MINUTE, "cause": CAUSE, "breaches": named("breaches"), "debts": named("debts")}
WHERE = {"monday": MINUTE, "horizon": MINUTE, "cause": CAUSE}
ENTRY = a_row(MINUTE, MINUTE, {"enum": MARKS[:4]}, {"type": "string"}, {"type": "string"})
DRIVER = a_row(a_number(1, 999_999), a_text("^[0-9a-f]{30}$"), MINUTE, {"type": "string"})
VALUE = (an_object(value=named("digits")), named("activity"))

# By the set: what is given, and what is expected.
FORMS: dict[str, tuple[Schema, Schema]] = {
    "words": VALUE,
    "chains": VALUE,
    "files": (
        an_object(file=named("digits"), part={"enum": ["both", "first", "second"]}),
        an_object(identification=one_of(an_object(holder=a_text("^[0-9a-f]{30}$")), named("fault")), activity=named("activity")),
    ),
    "timelines": (named("timeline"), an_object(**REPORT)),
    "stretches": (named("timeline"), an_object(stretches=a_list(an_object(monday=MINUTE, **REPORT, not_examined=one_of(RANGE, NULL))))),
    "ahead": (
        an_object(base=MINUTE, spans=named("spans"), minute=MINUTE),
        one_of(
            an_object(fault={"const": "Z3"}), an_object(**WHERE, not_examined=RANGE),
            an_object(
                **WHERE, start=MINUTE, rest_since=one_of(MINUTE, NULL), day_since=MINUTE, reduced=a_number(0, 1_000),
                extended=a_number(0, 7), driven=a_list(a_row(MINUTE, LENGTH)), coming=named("breaches"), debts=named("debts"),
                limits=a_list(an_object(rule=RULE, article={"enum": ARTICLES}, until=MINUTE)),
            ),
        ),
    ),
    "csv": (
        an_object(of={"enum": ["hours", "driver"]}, csv=named("text")),
        an_object(reply=a_text("^[ -~]+\n$"), read=one_of(NULL, DRIVER, a_list(ENTRY))),
    ),
    "http": (an_object(requests=a_list(named("text"))), an_object(replies=a_list(named("text")))),
}


def used_in(schema: Any) -> set[str]:
    """The names of the definitions that a schema uses, and that these use."""
    found = set(re.findall(r'"#/\$defs/(\w+)"', json.dumps(schema)))
    return found.union(*(used_in(DEFINITIONS[name]) for name in found)) if found else found


def schema_of(name: str) -> Schema:
    """The schema of a line of a set."""
    given, expected = FORMS[name]
    case = an_object(
        id=a_text("^[A-Za-z0-9-]+-[0-9]{3,}$"), why=a_text("^.+\\.$"), rule={"type": "string"}, tags=a_list({"type": "string"}),
        input=given, expected=expected,
    )
    head = {"$schema": "https://json-schema.org/draft/2020-12/schema", "title": f"A case of the set {name}"}
    return {**head, **case, "$defs": {one: DEFINITIONS[one] for one in DEFINITIONS if one in used_in(case)}}


def path_of(name: str) -> str:
    """The file of a set's schema."""
    return vector_sets.path_of(name).removesuffix(".jsonl") + ".schema.json"


def text_of(name: str) -> str:
    """The text of a set's schema."""
    return json.dumps(schema_of(name), indent=1) + "\n"


def write() -> None:
    """Writes the schemas."""
    for name in vector_sets.NAMES:
        with open(path_of(name), "w", encoding="ascii") as file:
            file.write(text_of(name))


TYPES: dict[str, type] = {"object": dict, "array": list, "string": str, "integer": int, "null": type(None)}


def is_of_type(value: Any, name: str) -> bool:
    """Whether a value is of a type. True is no number."""
    return isinstance(value, TYPES[name]) and not (name == "integer" and isinstance(value, bool))


def faults_in(value: Any, schema: Any, whole: Schema, where: str = "$") -> Iterator[str]:
    """What of a value isn't as a schema says, which is a part of a whole one."""
    if isinstance(schema, bool):
        if not schema:
            yield f"{where}: nothing may be here"
        return
    for keyword, said in schema.items():
        if keyword == "$ref":
            yield from faults_in(value, whole["$defs"][said.removeprefix("#/$defs/")], whole, where)
        elif keyword == "anyOf":
            if all(any(True for _ in faults_in(value, one, whole, where)) for one in said):
                yield f"{where}: none of the forms"
        elif keyword == "properties":
            for key in said.keys() & (value.keys() if isinstance(value, dict) else ()):
                yield from faults_in(value[key], said[key], whole, f"{where}.{key}")
        elif keyword == "prefixItems":
            for place, (item, one) in enumerate(zip(value if isinstance(value, list) else [], said)):
                yield from faults_in(item, one, whole, f"{where}[{place}]")
        elif keyword == "items":
            first = len(schema.get("prefixItems", []))
            for place, item in enumerate(value[first:] if isinstance(value, list) else [], first):
                yield from faults_in(item, said, whole, f"{where}[{place}]")
        elif not HOLDS[keyword](value, said, schema):
            yield f"{where}: not as '{keyword}' says"


# By the keyword: whether it holds of a value. A keyword about values of another type holds.
HOLDS: dict[str, Any] = {
    "$schema": lambda value, said, schema: True,
    "$defs": lambda value, said, schema: True,
    "title": lambda value, said, schema: True,
    "description": lambda value, said, schema: True,
    "type": lambda value, said, schema: is_of_type(value, said),
    "const": lambda value, said, schema: value == said and type(value) is type(said),
    "enum": lambda value, said, schema: any(value == one and type(value) is type(one) for one in said),
    "pattern": lambda value, said, schema: not isinstance(value, str) or re.search(said, value) is not None,
    "minimum": lambda value, said, schema: not is_of_type(value, "integer") or value >= said,
    "maximum": lambda value, said, schema: not is_of_type(value, "integer") or value <= said,
    "minItems": lambda value, said, schema: not isinstance(value, list) or len(value) >= said,
    "required": lambda value, said, schema: not isinstance(value, dict) or all(key in value for key in said),
    "additionalProperties": lambda value, said, schema: not isinstance(value, dict) or said or value.keys() <= schema["properties"].keys(),
}


def faults_of(name: str, case: vector_sets.Case) -> list[str]:
    """What of a case isn't as the schema of its set says."""
    schema = schema_of(name)
    return list(faults_in(case, schema, schema))
