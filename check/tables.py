"""Tables that are asked for: the bodies with their first bad field, the metadata that they make, and its JSON, written
a second time (Apache Iceberg table specification, format version 2). What is told of a body is text."""

import re

from reading import (
    Refused,
    body_of,
    compact,
    is_name,
    meeting,
    object_at,
    optional,
    required,
    text,
    text_map,
    under,
    unreadable,
)

HIGHEST_ID = 2_147_483_647
HIGHEST_COLUMN_ID = 2_147_483_447
NESTING = 32
PLAIN_TYPES = "boolean int long float double date time timestamp timestamptz string uuid binary".split()
PLAIN_TRANSFORMS = "identity void year month day hour".split()
NUMERAL = "(0|[1-9][0-9]*)"
DECIMAL = re.compile(rf"decimal\({NUMERAL}, ?{NUMERAL}\)")
FIXED = re.compile(rf"fixed\[{NUMERAL}\]")
SIZED_TRANSFORM = re.compile(rf"(?:bucket|truncate)\[{NUMERAL}\]")
HYPHENATED = "[0-9a-fA-F]{8}(-[0-9a-fA-F]{4}){3}-[0-9a-fA-F]{12}"
UUID_FORMS = re.compile(rf"[0-9a-fA-F]{{32}}|(?i:urn:uuid:)?{HYPHENATED}|\{{{HYPHENATED}\}}", re.ASCII)
UUID = "00010203-0405-0607-0809-0a0b0c0d0e0f"
MOMENT = 1000


class NotMade(Exception):
    """A table, or a change of one, that can't be made, with the word for it."""


def told(content):
    """What is told of a body: the JSON of the metadata, the first bad field, or the word for why no table is made."""
    try:
        return compact(created(request_of(content)))
    except Refused as refused:
        return refused.message
    except NotMade as why:
        return str(why)


def read_again(content):
    """What is told of a metadata: the same as JSON, or the first bad field."""
    try:
        return compact(metadata(body_of(content), ""))
    except Refused as refused:
        return refused.message


# Forms


def number(low, high):
    def read(value, path):
        if type(value) is not int or not low <= value <= high:
            unreadable(path)
        return value

    return read


def word(test):
    """The reader of a text as `str`, which must meet a test."""

    def read(value, path):
        if not isinstance(value, str) or not test(value):
            unreadable(path)
        return value

    return read


def one_of(*words):
    return word(lambda found: found in words)


def truth(value, path):
    if not isinstance(value, bool):
        unreadable(path)
    return value


def listed(read):
    def read_all(value, path):
        if not isinstance(value, list):
            unreadable(path)
        return [read(item, f"{path}[{place}]") for place, item in enumerate(value)]

    return read_all


def members(*rows):
    """The reader of an object, whose members are tested in the order of these rows: a key, which ends in `?` where the
    member may be absent, and its form."""

    def read(value, path):
        object_at(value, path)
        shown = {}
        for key, form in rows:
            found = optional(value, key[:-1], form, None, path) if key[-1] == "?" else required(value, key, form, path)
            shown[key.rstrip("?")] = found
        return {key: found for key, found in shown.items() if found is not None}

    return read


column_id = number(0, HIGHEST_COLUMN_ID)
any_id = number(0, HIGHEST_ID)
partition_id = number(1000, HIGHEST_ID)
long = number(0, 2**63 - 1)
kept = number(1, 2**63 - 1)


def is_sized(pattern, found):
    match = pattern.fullmatch(found)
    return match is not None and 1 <= int(match[1]) <= HIGHEST_ID


def plain_type(value, path):
    """A type without columns, as it is printed."""
    found = word(lambda found: True)(value, path)
    decimal = DECIMAL.fullmatch(found)
    if decimal and 1 <= int(decimal[1]) <= 38 and int(decimal[2]) <= int(decimal[1]):
        return f"decimal({decimal[1]}, {decimal[2]})"
    if found not in PLAIN_TYPES and not is_sized(FIXED, found):
        unreadable(path)
    return found


transform = word(lambda found: found in PLAIN_TRANSFORMS or is_sized(SIZED_TRANSFORM, found))


class Schema:
    """A schema, read as it is printed, with the ids of its columns and of those that are fields."""

    def __init__(self, value, path):
        self.columns, self.named = set(), set()
        object_at(value, path)
        required(value, "type", one_of("struct"), path)
        optional(value, "schema-id", any_id, None, path)
        self.identifiers = optional(value, "identifier-field-ids", listed(column_id), [], path)
        self.fields = required(value, "fields", lambda *at: self.fields_at(*at, NESTING), path)
        for place, identifier in enumerate(self.identifiers):
            if identifier not in self.named:
                unreadable(f"{path}.identifier-field-ids[{place}]")

    def new_id(self, value, path):
        found = column_id(value, path)
        if found in self.columns:
            unreadable(path)
        self.columns.add(found)
        return found

    def fields_at(self, value, path, left):
        names = set()

        def field(value, path):
            object_at(value, path)
            shown = {"id": required(value, "id", self.new_id, path)}
            shown["name"] = required(value, "name", meeting(lambda name: name and name not in names), path)
            shown["required"] = required(value, "required", truth, path)
            shown["type"] = required(value, "type", lambda *at: self.type_at(*at, left), path)
            doc = optional(value, "doc", text, None, path)
            names.add(shown["name"])
            self.named.add(shown["id"])
            return shown if doc is None else shown | {"doc": doc}

        return listed(field)(value, path)

    def type_at(self, value, path, left):
        """A type in which at most so many others stand in one another."""
        if isinstance(value, str) or not left:
            return plain_type(value, path)
        object_at(value, path)
        kind = required(value, "type", one_of("struct", "list", "map"), path)
        if kind == "struct":
            read = lambda *at: self.fields_at(*at, left - 1)
            return {"type": kind, "fields": required(value, "fields", read, path)}
        parts = ["element"] if kind == "list" else ["key", "value"]
        shown = {"type": kind}
        for part in parts:
            shown[f"{part}-id"] = required(value, f"{part}-id", self.new_id, path)
            shown[part] = required(value, part, lambda *at: self.type_at(*at, left - 1), path)
        needed = f"{parts[-1]}-required"
        return shown | {needed: required(value, needed, truth, path)}

    def printed(self):
        shown = {"fields": self.fields, "schema-id": 0, "type": "struct"}
        return shown | {"identifier-field-ids": self.identifiers} if self.identifiers else shown


partition_field = members(
    ("source-id", column_id),
    ("field-id?", partition_id),
    ("name", text),
    ("transform", transform),
)
sort_field = members(
    ("transform", transform),
    ("source-id", column_id),
    ("direction", one_of("asc", "desc")),
    ("null-order", one_of("nulls-first", "nulls-last")),
)


def fields_beside(key, field):
    """The reader of a spec or an order, whose own id is read for its form alone."""
    read = members((f"{key}?", any_id), ("fields", listed(field)))
    return lambda value, path: read(value, path)["fields"]


def begun(value):
    """What a body that asks for a table or a view begins with."""
    return {
        "name": required(value, "name", meeting(is_name)),
        "location": optional(value, "location", text, None),
        "schema": required(value, "schema", Schema),
    }


def request_of(content):
    """What a body asks for."""
    value = body_of(content)
    return begun(value) | {
        "spec": optional(value, "partition-spec", fields_beside("spec-id", partition_field), []),
        "order": optional(value, "write-order", fields_beside("order-id", sort_field), []),
        "staged": optional(value, "stage-create", truth, False),
        "properties": optional(value, "properties", text_map, {}),
    }


# Metadata


def with_id(key, read_id, read):
    """The reader of what is read as one that is asked for, and has its id."""

    def read_both(value, path):
        shown = read(value, path)
        return shown | {key: required(value, key, read_id, path)}

    return read_both


def entries(read):
    """The reader of an object whose members are all of one form, and are tested in byte order of their keys."""

    def read_all(value, path):
        object_at(value, path)
        return {key: read(value[key], under(path, key)) for key in sorted(value, key=str.encode)}

    return read_all


def summary(value, path):
    shown = text_map(value, path)
    required(value, "operation", one_of("append", "replace", "overwrite", "delete"), path)
    return shown


def uuid(value, path):
    """A UUID (RFC 9562, section 4), in any of its usual forms, as it is printed."""
    found = word(UUID_FORMS.fullmatch)(value, path).lower()
    digits = re.sub("^urn:uuid:|[^0-9a-f]", "", found)
    return "-".join((digits[:8], digits[8:12], digits[12:16], digits[16:20], digits[20:]))


snapshot = members(
    ("snapshot-id", long),
    ("parent-snapshot-id?", long),
    ("sequence-number", long),
    ("timestamp-ms", long),
    ("manifest-list", text),
    ("summary", summary),
    ("schema-id?", any_id),
)
reference = members(
    ("type", one_of("branch", "tag")),
    ("snapshot-id", long),
    ("max-ref-age-ms?", kept),
    ("max-snapshot-age-ms?", kept),
    ("min-snapshots-to-keep?", kept),
)
bound_field = with_id("field-id", partition_id, partition_field)
numbered_schema = with_id("schema-id", any_id, lambda *at: Schema(*at).printed())
metadata = members(
    ("current-schema-id", any_id),
    ("current-snapshot-id?", long),
    ("default-sort-order-id", any_id),
    ("default-spec-id", any_id),
    ("format-version", number(2, 2)),
    ("last-column-id", column_id),
    ("last-partition-id", number(999, HIGHEST_ID)),
    ("last-sequence-number", long),
    ("last-updated-ms", long),
    ("location", text),
    ("metadata-log", listed(members(("metadata-file", text), ("timestamp-ms", long)))),
    ("partition-specs", listed(members(("spec-id", any_id), ("fields", listed(bound_field))))),
    ("properties", text_map),
    ("refs", entries(reference)),
    ("schemas", listed(numbered_schema)),
    ("snapshot-log", listed(members(("snapshot-id", long), ("timestamp-ms", long)))),
    ("snapshots", listed(snapshot)),
    ("sort-orders", listed(members(("order-id", any_id), ("fields", listed(sort_field))))),
    ("table-uuid", uuid),
)


# Creation


def numbered(fields):
    """Partition fields with their ids: those without one get the next above all that are given."""
    following = max([999, *(field.get("field-id", 0) for field in fields)]) + 1
    shown = []
    for field in fields:
        shown.append({"field-id": following} | field)
        following += "field-id" not in field
    if following - 1 > HIGHEST_ID:
        raise NotMade("IdsUsedUp")
    return shown


def is_repeated(found):
    return len(set(found)) < len(found)


def judge_sources(fields, columns):
    if any(field["source-id"] not in columns for field in fields):
        raise NotMade("NoSuchField")


def place_of(request):
    """Where a table or a view lies: where it is asked to, or below one location by its name."""
    return b"lake://b/" + request["name"] if request["location"] is None else request["location"]


def created(request, uuid=UUID, moment=MOMENT):
    """The metadata of a new table, as it is printed."""
    schema, spec, order = request["schema"], request["spec"], request["order"]
    judge_sources(spec, schema.columns)
    given = [field["field-id"] for field in spec if "field-id" in field]
    if is_repeated(given) or is_repeated([field["name"] for field in spec]):
        raise NotMade("FieldTwice")
    spec = numbered(spec)
    judge_sources(order, schema.columns)
    return {
        "current-schema-id": 0,
        "default-sort-order-id": 1 if order else 0,
        "default-spec-id": 0,
        "format-version": 2,
        "last-column-id": max(schema.columns, default=0),
        "last-partition-id": max([999, *(field["field-id"] for field in spec)]),
        "last-sequence-number": 0,
        "last-updated-ms": moment,
        "location": place_of(request),
        "metadata-log": [],
        "partition-specs": [{"fields": spec, "spec-id": 0}],
        "properties": request["properties"],
        "refs": {},
        "schemas": [schema.printed()],
        "snapshot-log": [],
        "snapshots": [],
        "sort-orders": [{"fields": order, "order-id": 1 if order else 0}],
        "table-uuid": uuid,
    }
