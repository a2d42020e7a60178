"""Views: the bodies that ask for them and commit to them with their first bad field, the metadata that they make, and
its JSON, written a second time (Apache Iceberg view specification, version 1). What is told of a body is text."""

from reading import Refused, body_of, compact, levels, required, text, text_map
from tables import (
    MOMENT,
    UUID,
    any_id,
    begun,
    listed,
    long,
    members,
    number,
    numbered_schema,
    one_of,
    place_of,
    uuid,
)
from updates import MOMENT as COMMITTED
from updates import (
    SCHEMA,
    SHARED,
    Draft,
    Kind,
    applied,
    by_word,
    judge,
    log_left,
    or_last,
    refuse_where,
    settled,
    told_of,
)

MOST_VERSIONS = 100
VERSION = Kind("versions", "version-id", "current-version-id")


def told(content):
    """What is told of a body: the JSON of the metadata, or the first bad field."""
    try:
        return compact(created(request_of(content)))
    except Refused as refused:
        return refused.message


def read_again(content):
    """What is told of a metadata: the same as JSON, or the first bad field."""
    try:
        return compact(read_metadata(content))
    except Refused as refused:
        return refused.message


def commit_told(former, content):
    """What is told of a commit to a metadata: the JSON of the metadata after it, or what stands against it."""
    return told_of(lambda: committed(former, read_commit(content)))


# Forms


representation = members(("type", one_of("sql")), ("sql", text), ("dialect", text))
TOLD = [
    ("summary", text_map),
    ("representations", listed(representation)),
    ("default-catalog?", text),
    ("default-namespace", levels),
]
asked_version = members(("version-id", any_id), ("timestamp-ms", long), ("schema-id", or_last), *TOLD)
version = members(("version-id", any_id), ("timestamp-ms", long), ("schema-id", any_id), *TOLD)
metadata = members(
    ("current-version-id", any_id),
    ("format-version", number(1, 1)),
    ("location", text),
    ("properties", text_map),
    ("schemas", listed(numbered_schema)),
    ("version-log", listed(members(("timestamp-ms", long), ("version-id", any_id)))),
    ("versions", listed(version)),
    ("view-uuid", uuid),
)
requirement = by_word("type", {"assert-view-uuid": members(("uuid", uuid))})
update = by_word(
    "action",
    SHARED
    | {
        "add-view-version": members(("view-version", asked_version)),
        "set-current-view-version": members(("view-version-id", or_last)),
    },
)
commit = members(("requirements?", listed(requirement)), ("updates", listed(update)))


def request_of(content):
    """What a body asks for."""
    value = body_of(content)
    return begun(value) | {
        "version": required(value, "view-version", asked_version),
        "properties": required(value, "properties", text_map),
    }


def read_commit(content):
    return {"requirements": []} | commit(body_of(content), "")


def read_metadata(content):
    return metadata(body_of(content), "")


# Creation


def created(request, uuid=UUID, moment=MOMENT):
    """The metadata of a new view, as it is printed."""
    return {
        "current-version-id": 1,
        "format-version": 1,
        "location": place_of(request),
        "properties": request["properties"],
        "schemas": [request["schema"].printed()],
        "version-log": [{"timestamp-ms": moment, "version-id": 1}],
        "versions": [request["version"] | {"schema-id": 0, "version-id": 1}],
        "view-uuid": uuid,
    }


# Updates


class ViewDraft(Draft):
    """A metadata of a view amid a list of updates: those that it shares with tables change the same of it."""

    def assign_uuid(self, uuid):
        refuse_where(uuid != self.now["view-uuid"], "UuidDiffers")

    def upgrade_format_version(self, format_version):
        refuse_where(format_version != 1, "FormatVersion")

    def add_schema(self, schema):
        self.added_schema(schema.printed())

    def add_view_version(self, view_version):
        asked = view_version | {SCHEMA.id: self.named(SCHEMA, view_version[SCHEMA.id])}
        own = {VERSION.id: None, "timestamp-ms": None}
        self.added(VERSION, asked, lambda other: other | own == asked | own)

    def set_current_view_version(self, view_version_id):
        self.chosen(VERSION, view_version_id)
        entry = {"timestamp-ms": self.moment, VERSION.id: self.now[VERSION.used]}
        self.now["version-log"] = self.now["version-log"] + [entry]


def kept(versions, current):
    """Those versions that are kept after a list: while there are too many, the one of the least id goes that isn't
    current."""
    while len(versions) > MOST_VERSIONS:
        gone = min(found for one in versions if (found := one[VERSION.id]) != current)
        versions = [one for one in versions if one[VERSION.id] != gone]
    return versions


def finished(draft):
    """What is done after the whole of a list."""
    now = draft.now
    versions = kept(now["versions"], now["current-version-id"])
    log = log_left(now["version-log"], VERSION.id, versions)
    return now | {"location": settled(now["location"]), "version-log": log, "versions": versions}


def updated(former, updates, moment):
    """The metadata of a view after updates at a moment."""
    return finished(applied(ViewDraft(former, moment), updates)) if updates else former


def committed(former, asked):
    """The metadata after a commit."""
    judge(former, asked["requirements"])
    return updated(former, asked["updates"], COMMITTED)
