"""What a catalogue and its objects keep in their two files, written a second time: the rows as changes, the changes of
a command, and the bytes of both journals.

A journal has a header of 64 bytes, and then its records, each behind an open gate: the length of a body, and the body.
Behind the last one is a closed gate. A body of the catalogue is a list of changes, and one of the objects a change."""

import copy
from uuid import UUID

from changes import CHANGES, OBJECT_CHANGE
from foretold import Foretold
from management import FIRST_GRANTS, digest_of
from privileges import PRIVILEGES
from rows import SESSION_LIFE, TOKEN_LIFE, Catalog, Moment, Principal

CATALOGUE, OBJECTS = "catalogue", "objects"
NAMES = {CATALOGUE: b"POLJRN01", OBJECTS: b"POLOBJ01"}
OPEN, CLOSED = b"\1", b"\0"


def header(store):
    return NAMES[store] + bytes(56)


def framed(body):
    """What stands behind the gate of a record."""
    return len(body).to_bytes(8, "big") + body


def record(body):
    return OPEN + framed(body)


def journal(store, bodies=()):
    """The bytes of a journal as it is written."""
    return header(store) + b"".join(map(record, bodies)) + CLOSED


# Rows in the forms of `changes.py`


def told(value):
    """A value in which texts are texts of Python, and moments numbers."""
    if isinstance(value, dict):
        return {told(key): told(part) for key, part in value.items()}
    if isinstance(value, (list, tuple)):
        return list(map(told, value))
    if isinstance(value, Moment):
        return value.told
    return value.decode() if isinstance(value, bytes) else value


def kind_of(kind):
    """The type of a column."""
    if isinstance(kind, str):
        name, _, sizes = kind.replace("[", "(").rstrip(")]").partition("(")
        if name == "decimal":
            precision, scale = map(int, sizes.split(","))
            return name, {"precision": precision, "scale": scale}
        return name, int(sizes) if sizes else None
    if kind["type"] == "struct":
        return "struct", list(map(field_of, kind["fields"]))
    parts = {key.replace("-", "_"): value for key, value in kind.items() if key != "type"}
    parts |= {key: kind_of(parts[key]) for key in ("element", "key", "value") if key in parts}
    return kind["type"], parts


def field_of(field):
    shown = {key: field.get(key) for key in ("id", "name", "required", "doc")}
    return shown | {"kind": kind_of(field["type"])}


def schema_of(schema):
    return {
        "schema_id": schema["schema-id"],
        "identifier_field_ids": schema.get("identifier-field-ids", []),
        "fields": list(map(field_of, schema["fields"])),
    }


def transform_of(transform):
    name, _, size = transform.rstrip("]").partition("[")
    return name, int(size) if size else None


def spec_of(spec):
    fields = [
        {
            "source_id": field["source-id"],
            "field_id": field["field-id"],
            "name": field["name"],
            "transform": transform_of(field["transform"]),
        }
        for field in spec["fields"]
    ]
    return {"spec_id": spec["spec-id"], "fields": fields}


def order_of(order):
    fields = [
        {
            "transform": transform_of(field["transform"]),
            "source_id": field["source-id"],
            "direction": (field["direction"], None),
            "null_order": (field["null-order"].replace("-", "_"), None),
        }
        for field in order["fields"]
    ]
    return {"order_id": order["order-id"], "fields": fields}


def snapshot_of(snapshot):
    keys = ("snapshot-id", "parent-snapshot-id", "sequence-number", "timestamp-ms", "manifest-list", "schema-id")
    return {key.replace("-", "_"): snapshot.get(key) for key in keys} | {"summary": snapshot["summary"]}


def reference_of(reference):
    keys = ("snapshot-id", "max-ref-age-ms", "max-snapshot-age-ms", "min-snapshots-to-keep")
    shown = {key.replace("-", "_"): reference.get(key) for key in keys}
    return shown | {"kind": (reference["type"], None)}


def entries_of(entries):
    return [{key.replace("-", "_"): value for key, value in entry.items()} for entry in entries]


def metadata_of(meta):
    """The metadata of a table."""
    numbers = "current-schema-id default-sort-order-id default-spec-id format-version last-column-id last-partition-id"
    numbers += " last-sequence-number last-updated-ms"
    return {key.replace("-", "_"): meta[key] for key in numbers.split()} | {
        "current_snapshot_id": meta.get("current-snapshot-id"),
        "location": meta["location"],
        "metadata_log": entries_of(meta["metadata-log"]),
        "partition_specs": list(map(spec_of, meta["partition-specs"])),
        "properties": meta["properties"],
        "refs": {name: reference_of(one) for name, one in meta["refs"].items()},
        "schemas": list(map(schema_of, meta["schemas"])),
        "snapshot_log": entries_of(meta["snapshot-log"]),
        "snapshots": list(map(snapshot_of, meta["snapshots"])),
        "sort_orders": list(map(order_of, meta["sort-orders"])),
        "table_uuid": UUID(meta["table-uuid"]).bytes,
    }


def version_of(version):
    return {
        "version_id": version["version-id"],
        "timestamp_ms": version["timestamp-ms"],
        "schema_id": version["schema-id"],
        "summary": version["summary"],
        "representations": [{key: part[key] for key in ("sql", "dialect")} for part in version["representations"]],
        "default_catalog": version.get("default-catalog"),
        "default_namespace": version["default-namespace"],
    }


def view_metadata_of(meta):
    return {
        "current_version_id": meta["current-version-id"],
        "format_version": meta["format-version"],
        "location": meta["location"],
        "properties": meta["properties"],
        "schemas": list(map(schema_of, meta["schemas"])),
        "version_log": entries_of(meta["version-log"]),
        "versions": list(map(version_of, meta["versions"])),
        "view_uuid": UUID(meta["view-uuid"]).bytes,
    }


def words_of(token):
    """The serial and the two words of a token's text."""
    numbers = [int(token[start : start + 16], 16) for start in (0, 16, 32)]
    return dict(zip(("serial", "word_a", "word_b"), numbers))


def session_of(token, session):
    scope = ("all", None) if session.scope is None else ("roles", session.scope)
    return words_of(token) | {
        "principal": session.principal,
        "scope": scope,
        "expires": session.opened.told + SESSION_LIFE,
    }


def token_of(text, token):
    return words_of(text) | {
        "principal": token.principal,
        "table": token.table,
        "moves": token.moves,
        "location": told(token.location),
        "write": token.is_writing,
        "expires": token.issued.told + TOKEN_LIFE,
    }


def rows_with_ids(rules):
    """The kinds of rows that have ids, each with its rows by id."""
    kinds = ("Principal", "PrincipalRole", "Catalog", "CatalogRole", "Namespace", "Table", "View")
    found = {kind: {} for kind in kinds}
    for name, row in rules.principals.items():
        shown = {"name": name.decode(), "client_id": row.client_id.decode(), "digest": row.digest}
        found["Principal"][row.id] = shown
    for name, id in rules.principal_roles.items():
        found["PrincipalRole"][id] = {"name": name.decode()}
    for name, row in rules.catalogs.items():
        add_catalog(found, name.decode(), row)
    return {kind: {id: {"id": id, **row} for id, row in sorted(rows.items())} for kind, rows in found.items()}


def add_catalog(found, name, row):
    """Adds a catalogue, and all that it contains."""
    shown = {"name": name, "base": told(row.base), "allowed": told(row.allowed)}
    found["Catalog"][row.id] = shown | {"properties": told(row.properties)}
    for role, id in row.roles.items():
        found["CatalogRole"][id] = {"catalog": row.id, "name": role.decode()}
    for path, namespace in row.namespaces.items():
        shown = {"catalog": row.id, "levels": told(path), "properties": told(namespace.properties)}
        found["Namespace"][namespace.id] = shown
        for part, table in namespace.tables.items():
            shown = {"namespace": namespace.id, "name": part.decode(), "version": table.version, "moves": table.moves}
            shown |= {"location": told(table.location), "metadata": metadata_of(told(table.metadata))}
            found["Table"][table.id] = shown
        for part, view in namespace.views.items():
            shown = {"namespace": namespace.id, "name": part.decode(), "version": view.version}
            found["View"][view.id] = shown | {"metadata": view_metadata_of(told(view.metadata))}


def facts(rules):
    """The members, joins and grants, in the order of their numbers, which is that of their bytes."""
    kinds = ["realm", "catalog", "namespace", "table", "view"]
    grants = sorted(rules.grants, key=lambda one: (one[0], PRIVILEGES.index(one[1]), kinds.index(one[2][0]), one[2][1]))
    return {
        "Member": [{"principal": principal, "role": role} for principal, role in sorted(rules.members)],
        "Join": [{"principal_role": one, "catalog_role": other} for one, other in sorted(rules.joins)],
        "Grant": [{"catalog_role": role, "privilege": (name, None), "securable": on} for role, name, on in grants],
    }


class Rows:
    """The rows of a catalogue at a moment."""

    def __init__(self, rules=None):
        self.time = rules.time if rules else 0
        self.next_id = rules.next_id if rules else 0
        self.next_serial = rules.next_serial if rules else 0
        self.by_id = rows_with_ids(rules) if rules else {}
        self.facts = facts(rules) if rules else {}
        self.sessions = [session_of(*one) for one in sorted(rules.sessions.items())] if rules else []
        self.tokens = [token_of(*one) for one in sorted(rules.storage_tokens.items())] if rules else []


def changes_between(old, new):
    """The changes that lead from rows to others: none where no row differs, and else the time first."""
    found = []
    if new.next_id != old.next_id:
        found.append(("NextId", new.next_id))
    if new.next_serial != old.next_serial:
        found.append(("NextSerial", new.next_serial))
    for kind, rows in new.by_id.items():
        before = old.by_id.get(kind, {})
        found += [(f"Put{kind}", row) for id, row in rows.items() if before.get(id) != row]
        found += [(f"Drop{kind}", id) for id in before if id not in rows]
    for kind, rows in new.facts.items():
        before = old.facts.get(kind, [])
        found += [(f"Put{kind}", row) for row in rows if row not in before]
        found += [(f"Drop{kind}", row) for row in before if row not in rows]
    found += [("PutSession", row) for row in new.sessions if row not in old.sessions]
    found += [("PutToken", row) for row in new.tokens if row not in old.tokens]
    return [("Time", new.time), *found] if found else []


def changes_of_objects(old, new):
    """The change that leads from objects to others, of which there is one at most."""
    put = [("Put", {"path": told(path), "bytes": kept}) for path, kept in new.kept.items() if path not in old.kept]
    return put + [("Delete", {"path": told(path)}) for path in old.kept if path not in new.kept]


class Kept(Foretold):
    """Rules over files: the bodies of both journals are kept too, and the time of the last change."""

    def __init__(self, root_secret):
        super().__init__(root_secret, [0])
        self.bodies = {CATALOGUE: [], OBJECTS: []}
        self.kept_time = 0

    def declare(self, moment, principal_roles=(), principals=(), catalogs=(), catalog_roles=(), grants=()):
        """What `init` makes of a declaration: the state after its commands, in the one record of the catalogue. A
        principal has a name, a client id, a secret and roles, a catalogue a name, a base and allowed locations, a role
        of a catalogue this one's name, its own and roles that are joined to it, and a grant a catalogue, a role and a
        privilege."""
        for name in principal_roles:
            self.principal_roles[name] = self.new_id()
        for name, client_id, secret, roles in principals:
            row = self.principals[name] = Principal(self.new_id(), client_id, digest_of(secret))
            self.members += [(row.id, self.principal_roles[role]) for role in roles]
        for name, base, allowed in catalogs:
            self.declare_catalog(name, base, allowed)
        for catalog, name, roles in catalog_roles:
            role = self.catalogs[catalog].roles[name] = self.new_id()
            self.joins += [(self.principal_roles[joined], role) for joined in roles]
        for catalog, role, privilege in grants:
            row = self.catalogs[catalog]
            self.grants.append((row.roles[role], privilege, ("catalog", row.id)))
        if principal_roles or principals or catalogs or catalog_roles or grants:
            self.time = moment
        self.keep(Rows())

    def declare_catalog(self, name, base, allowed):
        row = Catalog(self.new_id(), base, list(allowed), {}, {b"catalog_admin": self.new_id()})
        self.catalogs[name] = row
        admin = row.roles[b"catalog_admin"]
        self.joins.append((self.principal_roles[b"service_admin"], admin))
        self.grants += [(admin, privilege, ("catalog", row.id)) for privilege in FIRST_GRANTS]

    def keep(self, before):
        """Enters the changes since these rows, if there are any."""
        changes = changes_between(before, Rows(self))
        if changes:
            self.bodies[CATALOGUE].append(CHANGES.write(changes))
            self.kept_time = self.time
        return bool(changes)

    def reopened(self, moments):
        """The same after its files were closed and opened again, over a clock that tells these moments and draws that
        count from 0: of the time only that of the last change is left, and only objects that are there are counted."""
        again = copy.deepcopy(self)
        again.moments, again.next_word, again.time = list(moments), 0, self.kept_time
        again.objects.counted = sum(map(len, again.objects.kept.values()))
        return again

    def file(self, store):
        return journal(store, self.bodies[store])

    def step(self, request):
        """Answers a request; also tells which store it changes, if one."""
        before, objects = Rows(self), copy.deepcopy(self.objects)
        status, body = self.answer(request)
        if self.keep(before):
            return status, body, CATALOGUE
        changes = changes_of_objects(objects, self.objects)
        self.bodies[OBJECTS] += map(OBJECT_CHANGE.write, changes)
        return status, body, OBJECTS if changes else None

    def step_unwritten(self, request):
        """Takes back what a request did to the store that it changes, whose record wasn't written. An access that was
        allowed stands, though its object isn't changed."""
        before = copy.deepcopy(self)
        _, _, store = self.step(request)
        if store == OBJECTS:
            self.objects, self.bodies[OBJECTS] = before.objects, before.bodies[OBJECTS]
        else:
            moments, next_word = self.moments, self.next_word
            self.__dict__.update(before.__dict__)
            self.moments, self.next_word = moments, next_word
        return store
