"""docs/starlark.schema.json accepts each row of JSON, and refuses what differs from it a little."""
import copy
import itertools
import json
import unittest

from starlark_ast import AssignOp, BinOp, ErrorKind
from starlark_ast.forms import FIELDS, KINDS, key_of

from .rows import TOP, rows

try:
    import jsonschema
except ImportError:
    jsonschema = None

# Of all that differs this much is tried: all of it takes more than a minute.
STEP = 61
PARTS = {"statement": "stmt", "expression": "expr"}


def schema():
    with open(f"{TOP}/docs/starlark.schema.json", encoding="utf-8") as it:
        return json.load(it)


def refused(value):
    """Values that differ from this one in one place, so that they have none of the forms."""
    if isinstance(value, dict):
        yield {**value, "extra": 1}
        for key, part in value.items():
            yield {it: value[it] for it in value if it != key}
            yield from ({**value, key: it} for it in refused(part))
    elif isinstance(value, list):
        yield {}
        for at, part in enumerate(value):
            yield from ([*value[:at], it, *value[at + 1:]] for it in refused(part))
    else:
        yield 1.5
        yield [value]


class Forms(unittest.TestCase):
    """Without a validator: the schema has the forms that the classes have."""

    def test_forms(self):
        defs = schema()["$defs"]
        for family, kinds in KINDS.items():
            forms = {}
            for form in [*defs[family]["oneOf"], *defs["literal"]["oneOf"] * (family == "expr")]:
                form = defs[form["$ref"].rpartition("/")[2]] if "$ref" in form else form
                if "properties" in form:
                    self.assertEqual(form["required"], list(form["properties"]))
                    kind = form["properties"].get("literal", form["properties"][family])["const"]
                    forms[kind] = [it for it in form["properties"] if it not in (family, "literal")]
            self.assertEqual(forms, {name: [key_of(it) for it in FIELDS[kind]] for name, kind in kinds.items()})

    def test_names(self):
        defs = schema()["$defs"]
        for name, names in (("bin_op", BinOp), ("assign_op", AssignOp)):
            self.assertEqual(defs[name]["enum"], [it.value for it in names])
        kinds = [*defs["error_kind"]["enum"], *defs["unread"]["properties"]["error"]["enum"]]
        self.assertEqual(kinds, [it.value for it in ErrorKind])


@unittest.skipUnless(jsonschema, "jsonschema is not there")
class Answers(unittest.TestCase):
    def setUp(self):
        whole = schema()
        jsonschema.Draft202012Validator.check_schema(whole)
        self.validators = {"": jsonschema.Draft202012Validator(whole)}
        for part in PARTS.values():
            alone = {**copy.deepcopy(whole), "$ref": f"#/$defs/{part}"}
            del alone["oneOf"]
            self.validators[part] = jsonschema.Draft202012Validator(alone)

    def test_rows(self):
        for row in rows():
            with self.subTest(row.json):
                self.validators[PARTS.get(row.what, "")].validate(json.loads(row.json))

    def test_what_differs(self):
        count = 0
        for at, row in enumerate(rows()):
            validator = self.validators[PARTS.get(row.what, "")]
            for value in itertools.islice(refused(json.loads(row.json)), at % STEP, None, STEP):
                count += 1
                self.assertFalse(validator.is_valid(value), value)
        self.assertGreater(count, 5000 / STEP)


if __name__ == "__main__":
    unittest.main()
