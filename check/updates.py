"""Commits to tables: their bodies with the first bad field, what they require of a table's metadata, and the metadata
after their updates, written a second time (Apache Iceberg REST OpenAPI, CommitTableRequest). What is told of a commit
is text."""

from collections import namedtuple

from reading import (
    Refused,
    body_of,
    compact,
    is_name,
    levels,
    location_of,
    location_text,
    meeting,
    object_at,
    required,
    text,
    text_map,
    texts,
)
from tables import (
    HIGHEST_ID,
    NotMade,
    Schema,
    any_id,
    column_id,
    fields_beside,
    is_repeated,
    judge_sources,
    kept,
    listed,
    long,
    members,
    metadata,
    one_of,
    partition_field,
    snapshot,
    sort_field,
    uuid,
    word,
)

VERSION = 7
MOMENT = 2000
METADATA_LOG = 100
SNAPSHOT_LOG = 10_000

# What parts of metadata have ids, and are added and named by updates: the keys of all, of an id and of the one in use.
Kind = namedtuple("Kind", ["all", "id", "used"])
SCHEMA = Kind("schemas", "schema-id", "current-schema-id")
SPEC = Kind("partition-specs", "spec-id", "default-spec-id")
ORDER = Kind("sort-orders", "order-id", "default-sort-order-id")


def told(former, content):
    """What is told of a commit to a metadata: the JSON of the metadata after it, or what stands against it."""
    return told_of(lambda: committed(former, read_commit(content)))


def told_of(make):
    """What is told of a metadata that a commit makes: its JSON, or what stands against it."""
    try:
        return compact(make())
    except Refused as refused:
        return refused.message
    except Unmet as unmet:
        return f"Unmet: {unmet.place}"
    except NotApplied as refused:
        return f"Refused: {refused.place} {refused.why}"


def transaction_told(content):
    """What is told of a transaction: how many changes of tables it has, or its first bad field."""
    try:
        return str(len(read_transaction(content)))
    except Refused as refused:
        return refused.message


class Unmet(Exception):
    """A requirement that doesn't hold, by its place."""

    def __init__(self, place):
        self.place = place


class NotApplied(Exception):
    """An update that is refused, by its place, and why."""

    def __init__(self, place, why):
        self.place, self.why = place, why


# Forms


def by_word(key, forms):
    """The reader of an object in which the word under a key tells what else it has: the word, and that."""

    def read(value, path):
        object_at(value, path)
        found = required(value, key, one_of(*forms), path)
        return found, forms[found](value, path)

    return read


any_word = word(lambda found: True)


def or_last(value, path):
    """The reader of an id, or of -1 for the last added."""
    return value if type(value) is int and value == -1 else any_id(value, path)


requirement = by_word(
    "type",
    {
        "assert-create": members(),
        "assert-table-uuid": members(("uuid", uuid)),
        "assert-ref-snapshot-id": members(("ref", any_word), ("snapshot-id?", long)),
        "assert-last-assigned-field-id": members(("last-assigned-field-id", column_id)),
        "assert-current-schema-id": members(("current-schema-id", any_id)),
        "assert-last-assigned-partition-id": members(("last-assigned-partition-id", any_id)),
        "assert-default-spec-id": members(("default-spec-id", any_id)),
        "assert-default-sort-order-id": members(("default-sort-order-id", any_id)),
    },
)
LEFT_OUT = [f"{way}-{what}" for what in ("statistics", "partition-statistics") for way in ("set", "remove")]
LEFT_OUT += ["add-encryption-key", "remove-encryption-key"]
# Updates of tables and of views.
SHARED = {
    "assign-uuid": members(("uuid", uuid)),
    "upgrade-format-version": members(("format-version", any_id)),
    "add-schema": members(("schema", Schema)),
    "set-location": members(("location", text)),
    "set-properties": members(("updates", text_map)),
    "remove-properties": members(("removals", texts)),
} | dict.fromkeys(LEFT_OUT, members())
update = by_word(
    "action",
    SHARED
    | {
        "set-current-schema": members(("schema-id", or_last)),
        "add-spec": members(("spec", fields_beside("spec-id", partition_field))),
        "set-default-spec": members(("spec-id", or_last)),
        "add-sort-order": members(("sort-order", fields_beside("order-id", sort_field))),
        "set-default-sort-order": members(("sort-order-id", or_last)),
        "add-snapshot": members(("snapshot", snapshot)),
        "set-snapshot-ref": members(
            ("ref-name", any_word),
            ("type", one_of("branch", "tag")),
            ("snapshot-id", long),
            ("max-ref-age-ms?", kept),
            ("max-snapshot-age-ms?", kept),
            ("min-snapshots-to-keep?", kept),
        ),
        "remove-snapshots": members(("snapshot-ids", listed(long))),
        "remove-snapshot-ref": members(("ref-name", any_word)),
        "remove-partition-specs": members(("spec-ids", listed(any_id))),
        "remove-schemas": members(("schema-ids", listed(any_id))),
    },
)
COMMIT = [("requirements", listed(requirement)), ("updates", listed(update))]
commit = members(*COMMIT)
identifier = members(("namespace", levels), ("name", meeting(is_name)))
transaction = members(("table-changes", listed(members(("identifier", identifier), *COMMIT))))


def read_commit(content):
    return commit(body_of(content), "")


def read_transaction(content):
    return transaction(body_of(content), "")["table-changes"]


def read_metadata(content):
    return metadata(body_of(content), "")


# Requirements


# For requirements that two numbers or uuids are equal: the keys of the one that is asked for, and of the metadata's.
EQUAL = {
    "assert-table-uuid": ("uuid", "table-uuid"),
    "assert-last-assigned-field-id": ("last-assigned-field-id", "last-column-id"),
    "assert-last-assigned-partition-id": ("last-assigned-partition-id", "last-partition-id"),
    "assert-current-schema-id": ("current-schema-id", "current-schema-id"),
    "assert-default-spec-id": ("default-spec-id", "default-spec-id"),
    "assert-default-sort-order-id": ("default-sort-order-id", "default-sort-order-id"),
    "assert-view-uuid": ("uuid", "view-uuid"),
}


def is_met(found, kind, asked):
    """Whether a requirement holds of a metadata."""
    if kind == "assert-create":
        return False
    if kind == "assert-ref-snapshot-id":
        return found["refs"].get(asked["ref"], {}).get("snapshot-id") == asked.get("snapshot-id")
    key, known = EQUAL[kind]
    return asked[key] == found[known]


# Updates


def refuse_where(holds, why):
    if holds:
        raise NotMade(why)


def column_ids(part):
    """The ids of all columns in a part of a schema, nested ones too."""
    if isinstance(part, list):
        return [found for item in part for found in column_ids(item)]
    if not isinstance(part, dict):
        return []
    own = [part[key] for key in ("id", "element-id", "key-id", "value-id") if key in part]
    parts = [part.get(key) for key in ("fields", "type", "element", "key", "value")]
    return own + column_ids(parts)


class Draft:
    """A metadata amid a list of updates, and what the list added last. Each update is a method of its name."""

    def __init__(self, former, moment=MOMENT):
        self.now = dict(former)
        self.last = {}
        self.moment = moment

    def apply(self, action, asked):
        if action not in LEFT_OUT:
            getattr(self, action.replace("-", "_"))(**{key.replace("-", "_"): part for key, part in asked.items()})

    def ids(self, kind):
        return [member[kind.id] for member in self.now[kind.all]]

    def named(self, kind, asked):
        """The id of the member that is asked for."""
        if asked == -1:
            refuse_where(kind not in self.last, "NoneAdded")
            asked = self.last[kind]
        refuse_where(asked not in self.ids(kind), "NoSuchId")
        return asked

    def chosen(self, kind, asked):
        """Puts the member that is asked for to use."""
        self.now[kind.used] = self.named(kind, asked)

    def added(self, kind, member, is_same, first=None):
        """Adds a member where none is the same, under the highest id plus one, unless another one is its first."""
        found = next((other[kind.id] for other in self.now[kind.all] if is_same(other)), None)
        if found is None:
            found = max(self.ids(kind)) + 1 if first is None else first
            refuse_where(found > HIGHEST_ID, "IdsUsedUp")
            self.now[kind.all] = self.now[kind.all] + [member | {kind.id: found}]
        self.last[kind] = found

    def removed(self, kind, ids):
        refuse_where(self.now[kind.used] in ids, "InUse")
        self.now[kind.all] = [member for member in self.now[kind.all] if member[kind.id] not in ids]
        if self.last.get(kind) in ids:
            del self.last[kind]

    def current_columns(self):
        used = self.now[SCHEMA.used]
        return set(column_ids(next(schema for schema in self.now[SCHEMA.all] if schema[SCHEMA.id] == used)))

    def assign_uuid(self, uuid):
        refuse_where(uuid != self.now["table-uuid"], "UuidDiffers")

    def upgrade_format_version(self, format_version):
        refuse_where(format_version != 2, "FormatVersion")

    def added_schema(self, shown):
        same = ("fields", "identifier-field-ids")
        self.added(SCHEMA, shown, lambda other: all(other.get(key) == shown.get(key) for key in same))

    def add_schema(self, schema):
        shown = schema.printed()
        self.added_schema(shown)
        self.now["last-column-id"] = max([self.now["last-column-id"], *column_ids(shown)])

    def set_current_schema(self, schema_id):
        self.chosen(SCHEMA, schema_id)

    def remove_schemas(self, schema_ids):
        self.removed(SCHEMA, schema_ids)

    def earlier_id(self, field):
        """The id of the first partition field of a spec that is the same but for its id."""
        fields = [other for spec in self.now[SPEC.all] for other in spec["fields"]]
        return next((other["field-id"] for other in fields if field | {"field-id": other["field-id"]} == other), None)

    def add_spec(self, spec):
        judge_sources(spec, self.current_columns())
        fields, following = [], self.now["last-partition-id"] + 1
        for field in spec:
            found = field.get("field-id", self.earlier_id(field))
            if found is None:
                found, following = following, following + 1
            fields.append(field | {"field-id": found})
        ids = [field["field-id"] for field in fields]
        refuse_where(is_repeated(ids) or is_repeated([field["name"] for field in fields]), "FieldTwice")
        refuse_where(max(ids, default=0) > HIGHEST_ID, "IdsUsedUp")
        self.added(SPEC, {"fields": fields}, lambda other: other["fields"] == fields)
        self.now["last-partition-id"] = max([self.now["last-partition-id"], *ids])

    def set_default_spec(self, spec_id):
        self.chosen(SPEC, spec_id)

    def remove_partition_specs(self, spec_ids):
        self.removed(SPEC, spec_ids)

    def add_sort_order(self, sort_order):
        judge_sources(sort_order, self.current_columns())
        if sort_order:
            self.added(ORDER, {"fields": sort_order}, lambda other: other["fields"] == sort_order)
        else:
            self.added(ORDER, {"fields": []}, lambda other: other["order-id"] == 0, 0)

    def set_default_sort_order(self, sort_order_id):
        self.chosen(ORDER, sort_order_id)

    def has_snapshot(self, found):
        return any(snapshot["snapshot-id"] == found for snapshot in self.now["snapshots"])

    def add_snapshot(self, snapshot):
        refuse_where(self.has_snapshot(snapshot["snapshot-id"]), "SnapshotThere")
        refuse_where(snapshot["sequence-number"] <= self.now["last-sequence-number"], "SequenceNotAbove")
        self.now["snapshots"] = self.now["snapshots"] + [snapshot]
        self.now["last-sequence-number"] = snapshot["sequence-number"]

    def set_snapshot_ref(self, ref_name, **reference):
        reference = {key.replace("_", "-"): part for key, part in reference.items()}
        found, is_tag = reference["snapshot-id"], reference["type"] == "tag"
        refuse_where(not self.has_snapshot(found), "NoSuchSnapshot")
        refuse_where(ref_name == "main" and is_tag, "MainNotBranch")
        refuse_where(is_tag and {"max-snapshot-age-ms", "min-snapshots-to-keep"} & set(reference), "BranchOnly")
        self.now["refs"] = self.now["refs"] | {ref_name: reference}
        if ref_name == "main":
            self.now["current-snapshot-id"] = found
            self.now["snapshot-log"] = self.now["snapshot-log"] + [{"snapshot-id": found, "timestamp-ms": self.moment}]

    def without_refs(self, is_gone):
        self.now["refs"] = {name: part for name, part in self.now["refs"].items() if not is_gone(name, part)}
        if "main" not in self.now["refs"]:
            self.now.pop("current-snapshot-id", None)

    def remove_snapshots(self, snapshot_ids):
        self.now["snapshots"] = [one for one in self.now["snapshots"] if one["snapshot-id"] not in snapshot_ids]
        self.without_refs(lambda _, reference: reference["snapshot-id"] in snapshot_ids)

    def remove_snapshot_ref(self, ref_name):
        self.without_refs(lambda name, _: name == ref_name)

    def set_location(self, location):
        self.now["location"] = location

    def set_properties(self, updates):
        self.now["properties"] = self.now["properties"] | updates

    def remove_properties(self, removals):
        self.now["properties"] = {key: part for key, part in self.now["properties"].items() if key not in removals}


def settled(location):
    """The text of a location in its parsed form, where it is one."""
    try:
        return location_text(location_of(location))
    except Refused:
        return location


def metadata_file(found, version, key="table-uuid"):
    """Where the file of a metadata stands, whose uuid is under a key."""
    return found["location"] + f"/metadata/{version:05}-{found[key]}.metadata.json".encode()


def log_left(entries, key, members):
    """The longest end of a log whose entries all name a member that is there by the id under a key."""
    there = {member[key] for member in members}
    return entries[max((place + 1 for place, entry in enumerate(entries) if entry[key] not in there), default=0) :]


def finished(former, version, draft):
    """What is done after the whole of a list."""
    now = draft.now
    snapshot_log = log_left(now["snapshot-log"], "snapshot-id", now["snapshots"])
    former_entry = {"metadata-file": metadata_file(former, version), "timestamp-ms": former["last-updated-ms"]}
    return now | {
        "last-updated-ms": draft.moment,
        "location": settled(now["location"]),
        "metadata-log": (now["metadata-log"] + [former_entry])[-METADATA_LOG:],
        "snapshot-log": snapshot_log[-SNAPSHOT_LOG:],
    }


def judge(former, requirements):
    """The requirements of a metadata must hold."""
    for place, one in enumerate(requirements):
        if not is_met(former, *one):
            raise Unmet(place)


def applied(draft, updates):
    """A draft after updates, one after another."""
    for place, one in enumerate(updates):
        try:
            draft.apply(*one)
        except NotMade as refused:
            raise NotApplied(place, refused) from None
    return draft


def updated(former, updates, version, moment):
    """The metadata of a version after updates at a moment."""
    return finished(former, version, applied(Draft(former, moment), updates)) if updates else former


def committed(former, asked):
    """The metadata after a commit."""
    judge(former, asked["requirements"])
    return updated(former, asked["updates"], VERSION, MOMENT)
