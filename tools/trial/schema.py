"""A validator of the keywords of JSON Schema (2020-12) that the schemas in docs/ use. A schema with another keyword is refused."""
import json
import os
import re
import sys
from urllib.parse import urljoin

# These say something to a reader alone, or are read with another keyword.
SILENT = {"$schema", "$id", "$comment", "title", "description", "$defs", "then", "else"}
KINDS = {"null": type(None), "string": str, "array": list, "object": dict}
# (an expression may be nested deep, and each of its levels takes some calls)
sys.setrecursionlimit(max(sys.getrecursionlimit(), 5000))


def is_number(value):
    return isinstance(value, (int, float)) and not isinstance(value, bool)


def is_of(kind, value):
    if isinstance(kind, list):
        return any(is_of(it, value) for it in kind)
    if kind == "integer":
        return is_number(value) and (isinstance(value, int) or value.is_integer())
    return isinstance(value, KINDS[kind])


def same(one, other):
    return isinstance(one, bool) == isinstance(other, bool) and one == other


def matches(pattern, text):
    """In JSON Schema a `$` at the end of a pattern is the end of the text alone, not also the place before a last line end."""
    return re.search(re.sub(r"\$$", r"\\Z", pattern), text) is not None


# Whether a value is as the keyword says.
ASSERTIONS = {
    "type": is_of,
    "const": same,
    "enum": lambda said, value: any(same(it, value) for it in said),
    "minimum": lambda said, value: not is_number(value) or value >= said,
    "maximum": lambda said, value: not is_number(value) or value <= said,
    "maxLength": lambda said, value: not isinstance(value, str) or len(value) <= said,
    "pattern": lambda said, value: not isinstance(value, str) or matches(said, value),
    "minItems": lambda said, value: not isinstance(value, list) or len(value) >= said,
    "maxItems": lambda said, value: not isinstance(value, list) or len(value) <= said,
    "required": lambda said, value: not isinstance(value, dict) or all(it in value for it in said),
}
LISTS = {"allOf", "anyOf", "oneOf", "prefixItems"}
NAMED = {"properties", "$defs"}
SINGLE = {"not", "if", "then", "else", "items", "additionalProperties"}


def parts(schema):
    """The schemas that stand in a schema; a keyword that isn't known is an error."""
    strange = {*schema} - {*ASSERTIONS} - LISTS - NAMED - SINGLE - SILENT - {"$ref"}
    if strange:
        raise ValueError(f"keywords that the validator doesn't know: {sorted(strange)}")
    for word, said in schema.items():
        yield from said if word in LISTS else said.values() if word in NAMED else [said] if word in SINGLE else []


class Schemas:
    """The schemas of a folder, each by its `$id`, to which references lead."""

    def __init__(self, folder, names):
        self.files = {}
        for name in names:
            with open(os.path.join(folder, name), encoding="utf-8") as file:
                schema = json.load(file)
            self.files[schema["$id"]] = schema
        for base, schema in self.files.items():
            self.prepare(base, schema)

    def prepare(self, base, schema):
        """Looks at all keywords, and resolves each reference by the `$id` of the schema in which it stands."""
        if isinstance(schema, bool):
            return
        for part in parts(schema):
            self.prepare(base, part)
        if "$ref" in schema:
            schema["$ref"] = urljoin(base, schema["$ref"])
            self.at(schema["$ref"])

    def at(self, reference):
        name, _, path = reference.partition("#")
        schema = self.files[name]
        for word in path.split("/")[1:]:
            schema = schema[word]
        return schema

    def fault(self, schema, value, where=""):
        """The first fault of the value, or nothing."""
        if isinstance(schema, bool):
            return "" if schema else f"{where} isn't allowed"
        return next(filter(None, (self.told(schema, word, value, where) for word in schema)), "")

    def told(self, schema, word, value, where):
        said = schema[word]
        if word in ASSERTIONS:
            return "" if ASSERTIONS[word](said, value) else f"{where or 'the value'} breaks {word} {json.dumps(said)[:80]}"
        if word == "$ref":
            return self.fault(self.at(said), value, where)
        if word == "if":
            return self.fault(schema.get("else" if self.fault(said, value) else "then", True), value, where)
        if word in ("anyOf", "oneOf", "not"):
            fits = sum(not self.fault(it, value) for it in ([said] if word == "not" else said))
            return "" if {"anyOf": fits > 0, "oneOf": fits == 1, "not": fits == 0}[word] else f"{where or 'the value'} breaks {word}"
        return next(filter(None, (self.fault(it, part, at) for it, part, at in self.inside(schema, word, value, where))), "")

    @staticmethod
    def inside(schema, word, value, where):
        """What a keyword says of parts of the value: schema, part, and where it stands."""
        said = schema[word]
        if word == "allOf":
            return ((it, value, where) for it in said)
        if word == "properties" and isinstance(value, dict):
            return ((said[it], value[it], f"{where}.{it}") for it in said if it in value)
        if word == "additionalProperties" and isinstance(value, dict):
            return ((said, value[it], f"{where}.{it}") for it in value if it not in schema.get("properties", {}))
        if word == "prefixItems" and isinstance(value, list):
            return ((it, part, f"{where}[{at}]") for at, (it, part) in enumerate(zip(said, value)))
        if word == "items" and isinstance(value, list):
            first = len(schema.get("prefixItems", []))
            return ((said, part, f"{where}[{at}]") for at, part in enumerate(value[first:], first))
        return ()
