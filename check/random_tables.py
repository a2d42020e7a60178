"""Random bodies that create a table, most of which are broken in one place."""

import json
from random import Random

from odd_values import ODD_VALUES, places_in

NAMES = ["a", "b", "c", "d", "é", "x y", "a.b", 'q"\\', "\x01", "k[0]"]
DOCS = ["", "said", None, "two\nlines"]
LOCATIONS = ["lake://b/t", "lake://c", "", "anywhere", None]
PLAIN_TYPES = "boolean int long float double date time timestamp timestamptz string uuid binary".split()
SIZED_TYPES = ["decimal(9,2)", "decimal(38, 38)", "decimal(1,0)", "fixed[1]", "fixed[2147483647]"]
ODD_TYPES = ["decimal(39,2)", "decimal(0,0)", "decimal(2,3)", "decimal(9,  2)", "decimal(09,2)", "decimal(9,2,1)"]
ODD_TYPES += ["decimal", "decimal(9)", "decimal(9,)", "decimal(9,2", "decimal(+9,2)", "decimal(99999999999,2)"]
ODD_TYPES += ["fixed[0]", "fixed[2147483648]", "fixed[01]", "fixed", "fixed[]", "fixed[1]]", "Int", "int ", "", "list"]
TRANSFORMS = ["identity", "void", "year", "month", "day", "hour", "bucket[16]", "truncate[1]", "bucket[2147483647]"]
ODD_TRANSFORMS = ["bucket[0]", "truncate[0]", "bucket[2147483648]", "bucket[016]", "bucket", "bucket[-1]", "years", ""]
NUMBERS = [0, -1, 1, 3, 999, 1000, 1001, 2147483446, 2147483447, 2147483448, 2147483646, 2147483647, 2147483648, 2**64]
UUID = "00010203-0405-0607-0809-0a0b0c0d0e0f"
ODD_UUIDS = ["", "00010203-0405-0607-08090a0b-0c0d0e0f0", "g0010203-0405-0607-0809-0a0b0c0d0e0f", "{" + "0" * 37]
# Numbers as they are written, in place of a text that holds them.
WRITTEN = ["1.0", "1e0", "-0", "0.0", "1E400", "1e308", "18446744073709551616", "-1", "00", "[", "nul"]
MARK = "written:"


def uuid_texts(uuid):
    """The texts that are read as a uuid."""
    return [uuid, uuid.upper(), uuid.replace("-", ""), f"{{{uuid}}}", f"URN:uuid:{uuid}"]


class RandomTables:
    """Bodies of a seed."""

    def __init__(self, seed):
        self.random = Random(seed)

    def next(self):
        """The text of a body."""
        return self.printed(self.broken_at_times(self.body()))

    def next_metadata(self):
        """The text of a whole metadata."""
        return self.printed(self.broken_at_times(self.metadata()))

    def broken_at_times(self, body):
        for _ in range(self.random.choice([0, 1, 1, 1, 1, 2])):
            body = self.broken(body)
        return body

    def pick(self, *found):
        return self.random.choice(found)

    def without_some(self, value, *keys):
        """A value without some of the members that it may have."""
        for key in keys:
            if self.random.random() < 0.4:
                del value[key]
        return value

    def names(self, most):
        return self.random.sample(NAMES, self.random.randint(0, most))

    # What is right

    def schema(self):
        self.ids = self.random.sample(range(1, 60), 40)
        if self.random.random() < 0.03:
            self.ids[0] = 2_147_483_447
        self.columns, self.fields = [], []
        schema = {"type": "struct", "fields": self.struct_fields(3), "schema-id": self.pick(0, 7, 2147483647)}
        identifiers = self.random.sample(self.fields, self.random.randint(0, min(2, len(self.fields))))
        schema["identifier-field-ids"] = self.pick(identifiers, None)
        return self.without_some(schema, "identifier-field-ids")

    def body(self):
        body = {
            "name": self.pick("t", "x" * 128, "a/b", "é"),
            "location": self.random.choice(LOCATIONS),
            "schema": self.without_some(self.schema(), "schema-id"),
            "partition-spec": self.without_some(self.spec(), "spec-id"),
            "write-order": self.without_some(self.order(), "order-id"),
            "stage-create": self.pick(True, False, None),
            "properties": {key: self.pick("v", "", "é") for key in self.names(3)},
            "more": {"fields": 1},
        }
        optional = ("location", "partition-spec", "write-order", "stage-create", "properties", "more")
        return self.without_some(body, *optional)

    def new_id(self):
        found = self.ids.pop(0) if self.ids else 60 + len(self.columns)
        self.columns.append(found)
        return found

    def struct_fields(self, left):
        return [self.field(name, left) for name in self.names(3)]

    def field(self, name, left):
        field = {"id": self.new_id(), "name": name, "required": self.pick(True, False)}
        self.fields.append(field["id"])
        field |= {"type": self.type(left), "doc": self.random.choice(DOCS)}
        return self.without_some(field, "doc")

    def type(self, left):
        kind = self.pick("plain", "plain", "sized", "struct", "list", "map")
        if kind == "plain" or not left:
            return self.random.choice(PLAIN_TYPES)
        if kind == "sized":
            return self.random.choice(SIZED_TYPES)
        if kind == "struct":
            return {"type": kind, "fields": self.struct_fields(left - 1)}
        if kind == "list":
            return {"type": kind, **self.part("element", left), "element-required": self.pick(True, False)}
        parts = self.part("key", left) | self.part("value", left)
        return {"type": kind, **parts, "value-required": self.pick(True, False)}

    def part(self, name, left):
        return {f"{name}-id": self.new_id(), name: self.type(left - 1)}

    def source(self):
        return self.random.choice(self.columns)

    def spec(self):
        names = self.names(3 if self.columns else 0)
        given = self.random.sample([1000, 1001, 1005, 2000, 2147483645, 2147483646, 2147483647], len(names))
        fields = [
            {"source-id": self.source(), "field-id": id, "name": name, "transform": self.random.choice(TRANSFORMS)}
            for id, name in zip(given, names)
        ]
        fields = [self.without_some(field, "field-id") for field in fields]
        return {"spec-id": self.pick(0, 3, 2147483647), "fields": fields}

    def order(self):
        fields = [
            {
                "transform": self.random.choice(TRANSFORMS),
                "source-id": self.source(),
                "direction": self.pick("asc", "desc"),
                "null-order": self.pick("nulls-first", "nulls-last"),
            }
            for _ in range(self.random.randint(0, 2) if self.columns else 0)
        ]
        return {"order-id": self.pick(0, 1, 2147483647), "fields": fields}

    def long(self):
        return self.pick(0, 1, 1700000000000, 2**63 - 1)

    def some(self, make):
        return [make() for _ in range(self.random.randint(0, 2))]

    def snapshot(self):
        snapshot = {
            "snapshot-id": self.long(),
            "parent-snapshot-id": self.pick(self.long(), None),
            "sequence-number": self.long(),
            "timestamp-ms": self.long(),
            "manifest-list": self.pick("lake://b/t/m", ""),
            "summary": {"operation": self.pick("append", "replace", "overwrite", "delete"), "é": "1"},
            "schema-id": self.pick(0, 7, None),
        }
        return self.without_some(snapshot, "parent-snapshot-id", "schema-id")

    def reference(self):
        keys = ("max-ref-age-ms", "max-snapshot-age-ms", "min-snapshots-to-keep")
        kept = {key: self.pick(1, 5, 2**63 - 1, None) for key in keys}
        return {"type": self.pick("branch", "tag"), "snapshot-id": self.long(), **self.without_some(kept, *kept)}

    def metadata(self):
        schemas = self.some(self.schema) + [self.schema()]
        specs = self.some(self.spec)
        for spec in specs:
            for place, field in enumerate(spec["fields"]):
                field["field-id"] = 1000 + place
        metadata = {
            "current-schema-id": 0,
            "current-snapshot-id": self.pick(self.long(), None),
            "default-sort-order-id": 0,
            "default-spec-id": 2147483647,
            "format-version": 2,
            "last-column-id": self.pick(0, 2147483447),
            "last-partition-id": self.pick(999, 2147483647),
            "last-sequence-number": self.long(),
            "last-updated-ms": self.long(),
            "location": self.pick("lake://b/t", ""),
            "metadata-log": self.some(lambda: {"metadata-file": "f", "timestamp-ms": self.long()}),
            "partition-specs": specs,
            "properties": {key: "v" for key in self.names(2)},
            "refs": {name: self.reference() for name in self.names(2)},
            "schemas": schemas,
            "snapshot-log": self.some(lambda: {"snapshot-id": self.long(), "timestamp-ms": self.long()}),
            "snapshots": self.some(self.snapshot),
            "sort-orders": self.some(self.order),
            "table-uuid": self.random.choice(uuid_texts(UUID)),
            "more": 1,
        }
        return self.without_some(metadata, "current-snapshot-id", "more")

    # What is broken

    def broken(self, body):
        if not isinstance(body, dict) or self.random.random() < 0.01:
            return self.random.choice(ODD_VALUES)
        ways = [self.odd_value, self.left_out, self.odd_number, self.odd_word, self.repeated, self.deep, self.null]
        self.random.choice(ways)(places_in(body))
        return body

    def place(self, places, test):
        found = [(holder, key) for holder, key in places if test(holder, key, holder[key])]
        return self.random.choice(found) if found else ({}, None)

    def odd_value(self, places):
        holder, key = self.place(places, lambda *_: True)
        holder[key] = self.random.choice(ODD_VALUES)

    def null(self, places):
        holder, key = self.place(places, lambda *_: True)
        holder[key] = None

    def left_out(self, places):
        holder, key = self.place(places, lambda holder, *_: isinstance(holder, dict))
        holder.pop(key, None)

    def odd_number(self, places):
        holder, key = self.place(places, lambda _, key, value: type(value) is int)
        holder[key] = self.pick(*NUMBERS, MARK + self.random.choice(WRITTEN))

    def odd_word(self, places):
        odd = dict.fromkeys(["type", "element", "key", "value"], ODD_TYPES) | {"transform": ODD_TRANSFORMS}
        odd |= {"direction": ["ASC", "asc "], "null-order": ["nulls-First", ""], "name": ["", "x" * 129, "\x7f", "\n"]}
        odd |= {"table-uuid": ODD_UUIDS, "view-uuid": ODD_UUIDS, "operation": ["Append", ""]}
        holder, key = self.place(places, lambda _, key, value: key in odd and isinstance(value, str))
        holder[key] = self.random.choice(odd.get(key, [""]))

    def repeated(self, places):
        """Gives one place what another one of its key holds."""
        keys = ("id", "element-id", "key-id", "value-id", "field-id", "source-id", "name")
        holder, key = self.place(places, lambda _, key, value: key in keys)
        same = ("name", "field-id", "source-id")
        kin = [key] if key in same else [other for other in keys if other not in same]
        other, found = self.place(places, lambda held, other, _: other in kin and held is not holder)
        if found is not None:
            holder[key] = other[found]

    def deep(self, places):
        """Puts a type into so many lists that it is about as deep as types may be."""
        holder, key = self.place(places, lambda _, key, value: key == "type" and value in PLAIN_TYPES)
        for id in range(100, 100 + self.random.randint(29, 34)):
            holder[key] = {"type": "list", "element-id": id, "element": holder.get(key), "element-required": True}

    def printed(self, body):
        """A body as text, at times with a key twice, cut short or with more behind it."""
        text = json.dumps(body, ensure_ascii=self.pick(True, False), separators=self.pick((",", ":"), (", ", " : ")))
        for word in WRITTEN:
            text = text.replace(f'"{MARK}{word}"', word)
        if isinstance(body, dict) and body and self.random.random() < 0.03:
            key = json.dumps(self.random.choice(list(body)))
            text = f"{{{key}:{json.dumps(self.random.choice(ODD_VALUES))},{text[1:]}"
        if self.random.random() < 0.01:
            text = text[: self.random.randrange(len(text) + 1)]
        if self.random.random() < 0.01:
            text += self.pick(" ", "x", "{}", "\n")
        return text
