"""What `pol_replay` tells of changes, and of the bytes that are read as them, written a second time."""

from uuid import UUID

from changes import CHANGES, OBJECT_CHANGE, read_whole
from forms import NoForm
from reading import compact


def told(text):
    """What is told of the bytes of a list of changes."""
    return told_of(CHANGES, changes_told, text)


def told_again(text):
    """The bytes that are written of what the bytes are read as."""
    return told_of(CHANGES, lambda changes: CHANGES.write(changes).hex(), text)


def object_change_told(text):
    """What is told of the bytes of a change of objects."""
    return told_of(OBJECT_CHANGE, change_told, text)


def told_of(form, tell, text):
    try:
        return tell(read_whole(form, text))
    except NoForm:
        return "no form"


def listed(values, tell, mark=" "):
    return str(len(values)) + "".join(mark + tell(value) for value in values)


def place(segments):
    return "lake://" + "/".join(segments)


def properties(pairs):
    return listed(sorted(pairs.items(), key=lambda pair: pair[0].encode()), " ".join)


# Metadata, as JSON


def dashed(value):
    """A struct as an object, without the fields that are absent."""
    return {name.replace("_", "-"): part for name, part in value.items() if part is not None}


def type_json(kind):
    name, inner = kind
    if name == "decimal":
        return f"decimal({inner['precision']}, {inner['scale']})"
    if name == "fixed":
        return f"fixed[{inner}]"
    if name == "struct":
        return {"type": name, "fields": list(map(field_json, inner))}
    if inner is None:
        return name
    parts = {part: type_json(inner[part]) for part in ("element", "key", "value") if part in inner}
    return dashed(inner) | parts | {"type": name}


def field_json(field):
    shown = dashed(field) | {"type": type_json(field["kind"])}
    del shown["kind"]
    return shown


def schema_json(schema):
    shown = dashed(schema) | {"type": "struct", "fields": list(map(field_json, schema["fields"]))}
    if not schema["identifier_field_ids"]:
        del shown["identifier-field-ids"]
    return shown


def transform_text(transform):
    name, size = transform
    return name if size is None else f"{name}[{size}]"


def spec_json(spec):
    return dashed(spec) | {
        "fields": [dashed(field) | {"transform": transform_text(field["transform"])} for field in spec["fields"]]
    }


def order_json(order):
    return dashed(order) | {
        "fields": [
            {
                "transform": transform_text(field["transform"]),
                "source-id": field["source_id"],
                "direction": field["direction"][0],
                "null-order": field["null_order"][0].replace("_", "-"),
            }
            for field in order["fields"]
        ]
    }


def reference_json(reference):
    shown = dashed(reference) | {"type": reference["kind"][0]}
    del shown["kind"]
    return shown


def table_json(meta):
    return dashed(meta) | {
        "metadata-log": list(map(dashed, meta["metadata_log"])),
        "partition-specs": list(map(spec_json, meta["partition_specs"])),
        "refs": {name: reference_json(reference) for name, reference in meta["refs"].items()},
        "schemas": list(map(schema_json, meta["schemas"])),
        "snapshot-log": list(map(dashed, meta["snapshot_log"])),
        "snapshots": list(map(dashed, meta["snapshots"])),
        "sort-orders": list(map(order_json, meta["sort_orders"])),
        "table-uuid": str(UUID(bytes=meta["table_uuid"])),
    }


def version_json(version):
    return dashed(version) | {"representations": [part | {"type": "sql"} for part in version["representations"]]}


def view_json(meta):
    return dashed(meta) | {
        "schemas": list(map(schema_json, meta["schemas"])),
        "version-log": list(map(dashed, meta["version_log"])),
        "versions": list(map(version_json, meta["versions"])),
        "view-uuid": str(UUID(bytes=meta["view_uuid"])),
    }


# Changes


def securable(value):
    kind, id = value
    return kind.capitalize() if id is None else f"{kind.capitalize()} {id}"


def scope(value):
    kind, ids = value
    return "All" if kind == "all" else "Roles " + listed(ids, str)


# How a field is told that isn't told as it stands.
FIELDS = {
    "digest": bytes.hex,
    "bytes": bytes.hex,
    "base": place,
    "location": place,
    "path": place,
    "allowed": lambda places: listed(places, place),
    "levels": ".".join,
    "properties": properties,
    "metadata": lambda meta: compact(table_json(meta) if "table_uuid" in meta else view_json(meta)),
    "privilege": lambda privilege: privilege[0],
    "securable": securable,
    "scope": scope,
    "write": lambda writes: str(writes).lower(),
}


def change_told(change):
    """The name of a variant, and its fields in the order of its form."""
    variant, row = change
    fields = [row] if isinstance(row, int) else [FIELDS.get(name, str)(value) for name, value in row.items()]
    return " ".join([variant, *map(str, fields)])


def changes_told(changes):
    return listed(changes, change_told, "; ")
