"""The forms of rows, of the metadata of tables and views, and of changes, written a second time."""

from forms import (
    BYTES,
    NOTHING,
    NUMBER,
    SHORT,
    TEXT,
    TRUTH,
    NoForm,
    between,
    enum,
    fixed,
    later,
    listed,
    mapping,
    optional,
    ruled,
    struct,
)
from privileges import PRIVILEGES
from reading import is_name, is_namespace, is_plain

ID = between(SHORT, 0, 2**31 - 1)
COLUMN_ID = between(SHORT, 0, 2_147_483_447)
FIELD_ID = between(SHORT, 1000, 2**31 - 1)
SIZE = between(SHORT, 1, 2**31 - 1)
LONG = between(NUMBER, 0, 2**63 - 1)
KEPT = between(NUMBER, 1, 2**63 - 1)
MOST_TYPES = 32


def differ(values):
    return len(set(values)) == len(values)


def are_fields(fields):
    names = [field["name"] for field in fields]
    return differ(names) and all(names)


def decimal_holds(digits):
    return 1 <= digits["precision"] <= 38 and digits["scale"] <= digits["precision"]


def fields_form(left):
    """The fields of a struct, in whose types at most so many others stand in one another."""
    return ruled(
        listed(struct(id=COLUMN_ID, name=TEXT, required=TRUTH, kind=type_form(left), doc=optional(TEXT))), are_fields
    )


def type_form(left):
    inner = {
        "struct": later(lambda: fields_form(left - 1)),
        "list": struct(element_id=COLUMN_ID, element=later(lambda: type_form(left - 1)), element_required=TRUTH),
        "map": struct(
            key_id=COLUMN_ID,
            key=later(lambda: type_form(left - 1)),
            value_id=COLUMN_ID,
            value=later(lambda: type_form(left - 1)),
            value_required=TRUTH,
        ),
    }
    plain = "boolean int long float double date time timestamp timestamptz string uuid binary".split()
    return enum(
        **{name: NOTHING for name in plain},
        decimal=ruled(struct(precision=SHORT, scale=SHORT), decimal_holds),
        fixed=SIZE,
        **(inner if left else {name: None for name in inner}),
    )


def columns_of(fields):
    """The ids of fields and of the columns in them."""
    for field in fields:
        yield field["id"]
        yield from columns_in(field["kind"])


def columns_in(kind):
    name, inner = kind
    if name == "struct":
        yield from columns_of(inner)
    elif name == "list":
        yield inner["element_id"]
        yield from columns_in(inner["element"])
    elif name == "map":
        for part in ("key", "value"):
            yield inner[f"{part}_id"]
            yield from columns_in(inner[part])


def field_ids_of(fields):
    """The ids of fields, those of structs in them too."""
    for field in fields:
        yield field["id"]
        yield from field_ids_in(field["kind"])


def field_ids_in(kind):
    name, inner = kind
    if name == "struct":
        yield from field_ids_of(inner)
    elif name == "list":
        yield from field_ids_in(inner["element"])
    elif name == "map":
        yield from field_ids_in(inner["key"])
        yield from field_ids_in(inner["value"])


def is_schema(schema):
    fields = schema["fields"]
    return differ(list(columns_of(fields))) and set(schema["identifier_field_ids"]) <= set(field_ids_of(fields))


SCHEMA = ruled(struct(schema_id=ID, identifier_field_ids=listed(SHORT), fields=fields_form(MOST_TYPES)), is_schema)
TRANSFORM = enum(
    **{name: NOTHING for name in "identity void year month day hour".split()}, bucket=SIZE, truncate=SIZE
)
SPEC = struct(
    spec_id=ID, fields=listed(struct(source_id=COLUMN_ID, field_id=FIELD_ID, name=TEXT, transform=TRANSFORM))
)
ORDER = struct(
    order_id=ID,
    fields=listed(
        struct(
            transform=TRANSFORM,
            source_id=COLUMN_ID,
            direction=enum(asc=NOTHING, desc=NOTHING),
            null_order=enum(nulls_first=NOTHING, nulls_last=NOTHING),
        )
    ),
)
OPERATIONS = {"append", "replace", "overwrite", "delete"}
SNAPSHOT = ruled(
    struct(
        snapshot_id=LONG,
        parent_snapshot_id=optional(LONG),
        sequence_number=LONG,
        timestamp_ms=LONG,
        manifest_list=TEXT,
        summary=mapping(TEXT),
        schema_id=optional(ID),
    ),
    lambda snapshot: snapshot["summary"].get("operation") in OPERATIONS,
)
REFERENCE = struct(
    kind=enum(branch=NOTHING, tag=NOTHING),
    snapshot_id=LONG,
    max_ref_age_ms=optional(KEPT),
    max_snapshot_age_ms=optional(KEPT),
    min_snapshots_to_keep=optional(KEPT),
)


def is_whole(meta):
    """Whether ids differ, what is named is there, and the current snapshot is that of `main`."""
    schemas = [schema["schema_id"] for schema in meta["schemas"]]
    specs = [spec["spec_id"] for spec in meta["partition_specs"]]
    orders = [order["order_id"] for order in meta["sort_orders"]]
    snapshots = [snapshot["snapshot_id"] for snapshot in meta["snapshots"]]
    main = meta["refs"].get("main")
    return (
        all(map(differ, (schemas, specs, orders, snapshots)))
        and meta["current_schema_id"] in schemas
        and meta["default_spec_id"] in specs
        and meta["default_sort_order_id"] in orders
        and all(reference["snapshot_id"] in snapshots for reference in meta["refs"].values())
        and meta["current_snapshot_id"] == (main["snapshot_id"] if main else None)
    )


METADATA = ruled(
    struct(
        current_schema_id=ID,
        current_snapshot_id=optional(LONG),
        default_sort_order_id=ID,
        default_spec_id=ID,
        format_version=between(SHORT, 2, 2),
        last_column_id=COLUMN_ID,
        last_partition_id=between(SHORT, 999, 2**31 - 1),
        last_sequence_number=LONG,
        last_updated_ms=LONG,
        location=TEXT,
        metadata_log=listed(struct(metadata_file=TEXT, timestamp_ms=LONG)),
        partition_specs=listed(SPEC),
        properties=mapping(TEXT),
        refs=mapping(REFERENCE),
        schemas=listed(SCHEMA),
        snapshot_log=listed(struct(snapshot_id=LONG, timestamp_ms=LONG)),
        snapshots=listed(SNAPSHOT),
        sort_orders=listed(ORDER),
        table_uuid=fixed(16),
    ),
    is_whole,
)


def is_segment(segment):
    plain = all(byte >= 0x20 and byte not in (0x7F, 0x2F) for byte in segment.encode())
    return plain and segment not in ("", ".", "..")


def is_location(segments):
    return bool(segments) and all(map(is_segment, segments)) and len(("lake://" + "/".join(segments)).encode()) <= 1024


def is_whole_view(meta):
    """Whether ids differ, the current version is there, and so is the schema of each version."""
    schemas = [schema["schema_id"] for schema in meta["schemas"]]
    versions = [version["version_id"] for version in meta["versions"]]
    return (
        differ(schemas)
        and differ(versions)
        and meta["current_version_id"] in versions
        and all(version["schema_id"] in schemas for version in meta["versions"])
    )


NAME = ruled(TEXT, lambda text: is_name(text.encode()))
PLAIN = ruled(TEXT, lambda text: is_plain(text.encode()))
LOCATION = ruled(listed(TEXT), is_location)
NAMESPACE = ruled(listed(TEXT), lambda levels: is_namespace([level.encode() for level in levels]))
VERSION = struct(
    version_id=ID,
    timestamp_ms=LONG,
    schema_id=ID,
    summary=mapping(TEXT),
    representations=listed(struct(sql=TEXT, dialect=TEXT)),
    default_catalog=optional(TEXT),
    default_namespace=NAMESPACE,
)
VIEW_METADATA = ruled(
    struct(
        current_version_id=ID,
        format_version=between(SHORT, 1, 1),
        location=TEXT,
        properties=mapping(TEXT),
        schemas=listed(SCHEMA),
        version_log=listed(struct(timestamp_ms=LONG, version_id=ID)),
        versions=listed(VERSION),
        view_uuid=fixed(16),
    ),
    is_whole_view,
)
PRIVILEGE = enum(**{name: NOTHING for name in PRIVILEGES})
SECURABLE = enum(realm=NOTHING, catalog=NUMBER, namespace=NUMBER, table=NUMBER, view=NUMBER)
SCOPE = enum(all=NOTHING, roles=listed(NUMBER))
MEMBER = struct(principal=NUMBER, role=NUMBER)
JOIN = struct(principal_role=NUMBER, catalog_role=NUMBER)
GRANT = struct(catalog_role=NUMBER, privilege=PRIVILEGE, securable=SECURABLE)
PROPERTIES = mapping(TEXT)

CHANGE = enum(
    Time=NUMBER,
    NextId=NUMBER,
    NextSerial=NUMBER,
    PutPrincipal=struct(id=NUMBER, name=PLAIN, client_id=TEXT, digest=fixed(32)),
    DropPrincipal=NUMBER,
    PutPrincipalRole=struct(id=NUMBER, name=PLAIN),
    DropPrincipalRole=NUMBER,
    PutCatalog=struct(id=NUMBER, name=PLAIN, base=LOCATION, allowed=listed(LOCATION), properties=PROPERTIES),
    DropCatalog=NUMBER,
    PutCatalogRole=struct(id=NUMBER, catalog=NUMBER, name=PLAIN),
    DropCatalogRole=NUMBER,
    PutNamespace=struct(id=NUMBER, catalog=NUMBER, levels=NAMESPACE, properties=PROPERTIES),
    DropNamespace=NUMBER,
    PutTable=struct(
        id=NUMBER, namespace=NUMBER, name=NAME, version=NUMBER, moves=NUMBER, location=LOCATION, metadata=METADATA
    ),
    DropTable=NUMBER,
    PutView=struct(id=NUMBER, namespace=NUMBER, name=NAME, version=NUMBER, metadata=VIEW_METADATA),
    DropView=NUMBER,
    PutMember=MEMBER,
    DropMember=MEMBER,
    PutJoin=JOIN,
    DropJoin=JOIN,
    PutGrant=GRANT,
    DropGrant=GRANT,
    PutSession=struct(serial=NUMBER, word_a=NUMBER, word_b=NUMBER, principal=NUMBER, scope=SCOPE, expires=NUMBER),
    PutToken=struct(
        serial=NUMBER,
        word_a=NUMBER,
        word_b=NUMBER,
        principal=NUMBER,
        table=NUMBER,
        moves=NUMBER,
        location=LOCATION,
        write=TRUTH,
        expires=NUMBER,
    ),
)
CHANGES = listed(CHANGE)
OBJECT_CHANGE = enum(Put=struct(path=LOCATION, bytes=BYTES), Delete=struct(path=LOCATION))


def read_whole(form, text):
    value, at = form.read(text, 0)
    if at != len(text):
        raise NoForm
    return value
