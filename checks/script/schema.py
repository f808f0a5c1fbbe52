"""A validator of JSON Schema (draft 2020-12), of those keywords that docs/script.schema.json uses."""
import re

NOTES = {"$schema", "$comment", "$defs", "title", "description", "default"}
UNNAMED = "no such member"
TYPES = {"object": dict, "array": list, "string": str, "boolean": bool, "null": type(None)}


# JSON knows no difference between 1 and 1.0, and true is no number.
def is_number(value):
    return isinstance(value, (int, float)) and not isinstance(value, bool)


def is_type(value, name):
    if name == "integer":
        return is_number(value) and value == int(value)
    return isinstance(value, TYPES[name])


def are_same(left, right):
    if is_number(left) or is_number(right):
        return is_number(left) and is_number(right) and left == right
    return type(left) is type(right) and left == right


def wanted(words):
    return "expected " + " or ".join("null" if word is None else str(word) for word in words)


class Schema:
    def __init__(self, whole):
        self.whole = whole

    # What is wrong with a value: the way to the part, and what it should be.
    def faults(self, value, schema=None, way=""):
        schema = self.whole if schema is None else schema
        if schema is True:
            return
        for keyword, given in schema.items():
            if keyword in NOTES or keyword in ("then", "else"):
                continue
            yield from getattr(self, "see_" + keyword.replace("$", ""))(value, given, schema, way)

    def takes(self, value, schema):
        return next(self.faults(value, schema), None) is None

    # The part that a reference names.
    def part(self, schema):
        return self.whole["$defs"][schema["$ref"].removeprefix("#/$defs/")]

    def see_ref(self, value, given, schema, way):
        yield from self.faults(value, self.part(schema), way)

    def see_type(self, value, given, schema, way):
        names = given if isinstance(given, list) else [given]
        if not any(is_type(value, name) for name in names):
            yield way, wanted(names)

    def see_const(self, value, given, schema, way):
        if not are_same(value, given):
            yield way, wanted([given])

    def see_enum(self, value, given, schema, way):
        if not any(are_same(value, word) for word in given):
            yield way, wanted(given)

    def see_minimum(self, value, given, schema, way):
        if is_number(value) and value < given:
            yield way, "expected at least %d" % given

    def see_maximum(self, value, given, schema, way):
        if is_number(value) and value > given:
            yield way, "expected at most %d" % given

    # ECMA's $ stands at the end of the text alone.
    def see_pattern(self, value, given, schema, way):
        if isinstance(value, str) and not re.search(given.replace("$", r"\Z"), value):
            yield way, wanted([schema.get("description", given)])

    def see_required(self, value, given, schema, way):
        for name in given if isinstance(value, dict) else ():
            if name not in value:
                yield "%s/%s" % (way, name), "missing"

    def see_properties(self, value, given, schema, way):
        for name, part in given.items() if isinstance(value, dict) else ():
            if name in value:
                yield from self.faults(value[name], part, "%s/%s" % (way, name))

    def see_additionalProperties(self, value, given, schema, way):
        for name in value if isinstance(value, dict) else ():
            if name not in schema["properties"]:
                yield "%s/%s" % (way, name), UNNAMED

    def see_items(self, value, given, schema, way):
        for place, item in enumerate(value if isinstance(value, list) else ()):
            yield from self.faults(item, given, "%s/%d" % (way, place))

    def see_minItems(self, value, given, schema, way):
        if isinstance(value, list) and len(value) < given:
            yield way, "expected at least %d" % given

    def see_maxItems(self, value, given, schema, way):
        if isinstance(value, list) and len(value) > given:
            yield way, "expected at most %d" % given

    def see_allOf(self, value, given, schema, way):
        for part in given:
            yield from self.faults(value, part, way)

    def see_oneOf(self, value, given, schema, way):
        if sum(self.takes(value, part) for part in given) != 1:
            yield way, wanted(self.part(item)["description"] for item in given)

    def see_if(self, value, given, schema, way):
        part = schema.get("then" if self.takes(value, given) else "else", True)
        yield from self.faults(value, part, way)
