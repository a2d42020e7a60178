"""The catalogue's rules written a second time, as a plain program, so that the proved one can be compared with it.

`Rules.answer` answers one request after another. Of what the program draws at random, and of what its clock says, it
takes the program's word, which is told by the first answer that shows it. So nothing expires here; `foretold.py` has
rules over a known clock. Of the bounds on quantities those on sessions and storage tokens, on allowed locations, on
what a table or a view has, and on tables in a transaction are known, but for a metadata's weight."""

import re

import views
from management import FIRST_GRANTS, Management, digest_of
from objects import Objects
from privileges import IMPLIED
from reading import (
    Refused,
    compact,
    covers,
    dotted,
    form_pairs,
    is_namespace,
    is_plain,
    is_utf8,
    levels,
    location_below,
    location_of,
    location_text,
    name_segment,
    namespace_segment,
    object_at,
    optional,
    plain_segment,
    query_value,
    refuse,
    required,
    segment_text,
    text,
    text_map,
    texts,
    under,
    unreadable,
)
from routes import ENDPOINTS, route_of
from rows import (
    SESSION_LIFE,
    TOKEN_LIFE,
    Catalog,
    Expiry,
    Moment,
    Namespace,
    Principal,
    Session,
    StorageToken,
    Table,
    View,
    part_there,
    plain,
    refuse_missing,
)
from tables import NotMade, created, request_of
from updates import LEFT_OUT, NotApplied, Unmet, identifier, judge, read_commit, read_transaction, updated

BASE = b"default-base-location"
MOST_LIVE = 10_000
SCOPE = b"PRINCIPAL_ROLE:"
# What a table, or a view, has at most of each of its parts, by the keys of these and their names in refusals.
PARTS = [(key, key.replace("-", " "), 1000) for key in ("schemas", "partition-specs", "sort-orders", "refs")]
PARTS += [("snapshots", "snapshots", 10_000), ("properties", "properties", 1000)]
UUID = "[0-9a-f]{8}-[0-9a-f]{4}-4[0-9a-f]{3}-[89ab][0-9a-f]{3}-[0-9a-f]{12}"
TOKEN = {
    "expires_in": 3600,
    "issued_token_type": "urn:ietf:params:oauth:token-type:access_token",
    "token_type": "bearer",
}


def new_catalog(value, path):
    """The name, type, base, properties and allowed locations of a new catalogue."""
    value = object_at(value, path)
    name = required(value, "name", plain, path)
    kind = optional(value, "type", text, b"INTERNAL", path)
    properties = required(value, "properties", text_map, path)
    if BASE not in properties:
        unreadable(under(path, f"properties.{BASE.decode()}"))
    base = properties.pop(BASE)
    storage = optional(value, "storageConfigInfo", object_at, {}, path)
    allowed = optional(storage, "allowedLocations", texts, [], under(path, "storageConfigInfo"))
    return name, kind, base, properties, allowed


class Rules(Management):
    """The rows of a catalogue, and what requests are answered over them."""

    def __init__(self, root_secret):
        self.next_id = 3
        self.next_serial = 0
        self.principals = {b"root": Principal(1, b"root", digest_of(root_secret))}
        self.principal_roles = {b"service_admin": 2}
        self.members = [(1, 2)]
        self.catalogs = {}
        self.joins = []
        self.grants = []
        self.sessions = {}
        self.storage_tokens = {}
        self.objects = Objects()

    def answer(self, request):
        """The status of the answer to a request, and its body, if it has one: a text, the bytes of an object, or the
        length of one alone."""
        try:
            request.action, segments = route_of(request.method, request.target.partition(b"?")[0])
            status, body = getattr(self, request.action)(request, *segments)
        except Refused as refused:
            status, body = refused.status, refused.body
        return status, None if request.method == "HEAD" and not isinstance(body, int) else body

    # What the program's clock and its draws say

    def begin(self, request):
        """The request was read: its moment is that of the clock, which isn't known."""
        request.moment = Moment()

    def moment_of(self, request):
        """The catalogue's time when the rules of a request are judged."""
        if request.moment is None:
            self.begin(request)
        return request.moment

    def drawn(self, request, key, form):
        """What the program drew, as its answer tells it under a key. An answer that tells none isn't the due one."""
        found = re.search(f'"{re.escape(key)}":"({form})"', request.answered)
        return found.group(1) if found else "nothing was drawn"

    def new_token(self, request, key):
        """The text of a new session or storage token."""
        self.next_serial += 1
        return self.drawn(request, key, "%016x[0-9a-f]{32}" % (self.next_serial - 1))

    # Sessions and needs

    def open_session(self, request):
        pairs = form_pairs(request.content)
        known = (b"grant_type", b"client_id", b"client_secret", b"scope")
        form = {key: value for key, value in pairs if key in known}
        words = form[b"scope"].split(b" ") if form.get(b"scope") else []
        is_form = all(is_utf8(part) for pair in pairs for part in pair) and all(form.get(key) for key in known[:3])
        if not is_form or sum(key in known for key, _ in pairs) > len(form) or len(words) > 16:
            return 400, compact({"error": "invalid_request"})
        if form[b"grant_type"] != b"client_credentials":
            return 400, compact({"error": "unsupported_grant_type"})
        return self.session_of_client(request, form[b"client_id"], digest_of(form[b"client_secret"]), words)

    def session_of_client(self, request, client_id, digest, words):
        now = self.moment_of(request)
        clients = [row for row in self.principals.values() if (row.client_id, row.digest) == (client_id, digest)]
        if not clients:
            return 401, compact({"error": "invalid_client"})
        everything = SCOPE + b"ALL"
        roles = [self.principal_roles.get(word[len(SCOPE) :]) for word in words if word != everything]
        is_scope = all(word.startswith(SCOPE) for word in words)
        if not is_scope or any((clients[0].id, role) not in self.members for role in roles):
            return 400, compact({"error": "invalid_scope"})
        opened = [row.opened for row in self.sessions.values() if row.principal == clients[0].id]
        refuse_too_many(opened, now, SESSION_LIFE)
        token = self.new_token(request, "access_token")
        self.sessions[token] = Session(clients[0].id, None if not words or everything in words else roles, now)
        return 200, compact({"access_token": token, **TOKEN})

    def session(self, request):
        """The caller's session, whose principal is there."""
        session, now = self.sessions.get(request.bearer), self.moment_of(request)
        if session is None or now.is_past(session.opened, SESSION_LIFE):
            refuse("Unauthenticated")
        if session.principal not in [row.id for row in self.principals.values()]:
            refuse("Unauthenticated")
        return session

    def active_roles(self, request):
        """The roles that count in the caller's session."""
        session = self.session(request)
        roles = {role for member, role in self.members if member == session.principal}
        return roles if session.scope is None else roles & set(session.scope)

    def in_realm(self, request):
        if self.principal_roles[b"service_admin"] not in self.active_roles(request):
            refuse("Forbidden", b"SERVICE_MANAGE_ACCESS on realm")

    def catalog(self, name):
        if name not in self.catalogs:
            refuse("NoCatalogue", name)
        return self.catalogs[name]

    def in_catalog(self, request, name, privilege, path=(), part=None):
        """The catalogue of a name, on which, or on the deepest part of a path in it, the caller has a privilege. The
        path may lead on to a table or a view."""
        roles = self.active_roles(request)
        catalog = self.catalog(name)
        kind = "view" if privilege.startswith("VIEW_") else "table"
        found = catalog.namespaces[path].parts(kind).get(part) if path in catalog.namespaces else None
        while path and path not in catalog.namespaces:
            path = path[:-1]
        above = [path[:depth] for depth in range(1, len(path) + 1)]
        chain = [("catalog", catalog.id)] + [("namespace", catalog.namespaces[part].id) for part in above]
        chain += [(kind, found.id)] if found else []
        if not self.may(roles, privilege, chain):
            where = b"namespace %b/%b" % (name, dotted(path)) if path else b"catalogue %b" % name
            where = b"%b %b/%b" % (kind.encode(), name, dotted([*path, part])) if found else where
            refuse("Forbidden", b"%b on %b" % (privilege.encode(), where))
        return catalog

    def may(self, roles, privilege, chain):
        """Whether one of these roles has a privilege on what a chain ends with: it, and all that contains it."""
        joined = {catalog_role for role, catalog_role in self.joins if role in roles}
        held = {grant[1] for grant in self.grants if grant[0] in joined and grant[2] in chain}
        return any(privilege in IMPLIED[word] for word in held)

    def new_id(self):
        self.next_id += 1
        return self.next_id - 1

    # Catalogues

    def get_config(self, request):
        name = query_value(request.query, b"warehouse")
        if name is None or not is_plain(name):
            unreadable("warehouse")
        self.active_roles(request)
        self.catalog(name)
        return 200, compact({"defaults": {}, "endpoints": ENDPOINTS, "overrides": {"prefix": name}})

    def shown_catalog(self, name):
        row = self.catalogs[name]
        return {
            "name": name,
            "properties": {**row.properties, BASE: location_text(row.base)},
            "storageConfigInfo": {"allowedLocations": [location_text(location) for location in row.allowed]},
            "type": "INTERNAL",
        }

    def list_catalogs(self, request):
        self.in_realm(request)
        return 200, compact({"catalogs": [self.shown_catalog(name) for name in sorted(self.catalogs)]})

    def create_catalog(self, request):
        name, kind, base, properties, allowed = required(request.body(), "catalog", new_catalog)
        self.in_realm(request)
        if name in self.catalogs:
            refuse("NameTaken", name)
        locations = [location_of(text) for text in [base, *allowed]]
        if kind != b"INTERNAL":
            refuse("Unsupported", b"type")
        if len(allowed) > 100:
            refuse("Limit", b"allowed locations 100")
        refuse_many(properties)
        row = Catalog(self.new_id(), locations[0], locations[1:], properties, {b"catalog_admin": self.new_id()})
        self.catalogs[name] = row
        admin = row.roles[b"catalog_admin"]
        self.joins.append((self.principal_roles[b"service_admin"], admin))
        self.grants += [(admin, privilege, ("catalog", row.id)) for privilege in FIRST_GRANTS]
        return 201, compact(self.shown_catalog(name))

    def get_catalog(self, request, segment):
        name = plain_segment(segment)
        self.in_catalog(request, name, "CATALOG_READ_PROPERTIES")
        return 200, compact(self.shown_catalog(name))

    def drop_catalog(self, request, segment):
        name = plain_segment(segment)
        self.active_roles(request)
        row = self.catalog(name)
        self.in_realm(request)
        if row.namespaces or len(row.roles) > 1:
            refuse("NotEmpty", name)
        del self.catalogs[name]
        self.forget_catalog_role(row.roles[b"catalog_admin"])
        return 204, None

    # Namespaces

    def list_namespaces(self, request, segment):
        name = plain_segment(segment)
        value = query_value(request.query, b"parent")
        parent = tuple(value.split(b"\x1f")) if value else ()
        if parent and not is_namespace(parent):
            unreadable("parent")
        row = self.in_catalog(request, name, "NAMESPACE_LIST", parent)
        refuse_missing(row, parent)
        children = [path for path in row.namespaces if path[:-1] == parent]
        return 200, compact({"namespaces": sorted(children)})

    def create_namespace(self, request, segment):
        name = plain_segment(segment)
        body = request.body()
        path = required(body, "namespace", levels)
        properties = optional(body, "properties", text_map, {})
        row = self.in_catalog(request, name, "NAMESPACE_CREATE", path[:-1])
        refuse_missing(row, path[:-1])
        if path in row.namespaces:
            refuse("NameTaken", dotted(path))
        refuse_many(properties)
        row.namespaces[path] = Namespace(self.new_id(), properties)
        return 200, compact({"namespace": path, "properties": properties})

    def in_namespace(self, request, name, path, privilege):
        """The catalogue of a name, and the namespace of a path, which must be there."""
        row = self.in_catalog(request, name, privilege, path)
        refuse_missing(row, path)
        return row, row.namespaces[path]

    def load_namespace(self, request, segment, second):
        name, path = plain_segment(segment), namespace_segment(second)
        _, namespace = self.in_namespace(request, name, path, "NAMESPACE_READ_PROPERTIES")
        return 200, compact({"namespace": path, "properties": namespace.properties})

    def head_namespace(self, request, segment, second):
        self.load_namespace(request, segment, second)
        return 204, None

    def drop_namespace(self, request, segment, second):
        name, path = plain_segment(segment), namespace_segment(second)
        row, namespace = self.in_namespace(request, name, path, "NAMESPACE_DROP")
        is_used = namespace.tables or namespace.views
        if is_used or any(other[: len(path)] == path and other != path for other in row.namespaces):
            refuse("NotEmpty", dotted(path))
        del row.namespaces[path]
        self.grants = [grant for grant in self.grants if grant[2] != ("namespace", namespace.id)]
        return 204, None

    def update_properties(self, request, segment, second):
        name, path = plain_segment(segment), namespace_segment(second)
        body = request.body()
        removals = optional(body, "removals", texts, [])
        updates = optional(body, "updates", text_map, {})
        _, namespace = self.in_namespace(request, name, path, "NAMESPACE_WRITE_PROPERTIES")
        for key in removals:
            if key in updates:
                refuse("KeyTwice", key)
        before = namespace.properties
        after = {key: value for key, value in before.items() if key not in removals} | updates
        refuse_many(after)
        namespace.properties = after
        lists = {"missing": set(removals) - set(before), "removed": set(removals) & set(before), "updated": set(updates)}
        return 200, compact({key: sorted(keys) for key, keys in lists.items()})

    # Tables

    def list_parts(self, request, segment, second, kind):
        name, path = plain_segment(segment), namespace_segment(second)
        _, namespace = self.in_namespace(request, name, path, f"{kind.upper()}_LIST")
        names = sorted(namespace.parts(kind))
        return 200, compact({"identifiers": [{"name": part, "namespace": path} for part in names]})

    def list_tables(self, request, segment, second):
        return self.list_parts(request, segment, second, "table")

    def create_table(self, request, segment, second):
        name, path = plain_segment(segment), namespace_segment(second)
        asked = request_of(request.content)
        self.in_catalog(request, name, "TABLE_CREATE", path)
        if request.is_delegated:
            self.in_catalog(request, name, "TABLE_READ_DATA", path)
        row, namespace = self.in_namespace(request, name, path, "TABLE_CREATE")
        refuse_taken(namespace, asked["name"])
        version = asked["properties"].pop(b"format-version", b"2")
        metadata = self.made(asked, request)
        location = location_asked(row, path, asked)
        refuse_overlap(location, self.tables())
        if request.is_delegated:
            self.refuse_more_tokens(request)
        if asked["staged"]:
            refuse("Unsupported", b"stage-create")
        if version != b"2":
            refuse("Unsupported", b"format-version")
        refuse_many(asked["properties"])
        table = Table(self.new_id(), location, metadata | {"location": location_text(location)})
        namespace.tables[asked["name"]] = table
        return 200, request.shown(self.shown_table(request, table, row, path))

    def made(self, asked, request):
        """The metadata of a new table, with the uuid that was drawn."""
        try:
            return created(asked, self.drawn(request, "table-uuid", UUID), self.moment_of(request))
        except NotMade as why:
            refuse_update(0, 0, why)

    def tables(self):
        """All tables, of whatever catalogue."""
        namespaces = [namespace for row in self.catalogs.values() for namespace in row.namespaces.values()]
        return [table for namespace in namespaces for table in namespace.tables.values()]

    def at_part(self, request, name, path, part, privilege):
        """The namespace of a path and what is of a name in it, a table or a view, which must be there."""
        row = self.in_catalog(request, name, privilege, path, part)
        refuse_missing(row, path)
        return row.namespaces[path], part_there(row, path, part, "view" if privilege.startswith("VIEW_") else "table")

    def load_table(self, request, segment, second, third):
        place = plain_segment(segment), namespace_segment(second), name_segment(third)
        shown = query_value(request.query, b"snapshots")
        if shown not in (None, b"all", b"refs"):
            unreadable("snapshots")
        self.in_catalog(request, place[0], "TABLE_READ_PROPERTIES", *place[1:])
        if request.is_delegated:
            self.in_catalog(request, place[0], "TABLE_READ_DATA", *place[1:])
        _, table = self.at_part(request, *place, "TABLE_READ_PROPERTIES")
        if request.is_delegated:
            self.refuse_more_tokens(request)
        loaded = self.shown_table(request, table, self.catalogs[place[0]], place[1])
        if shown == b"refs":
            loaded["metadata"] = with_named_snapshots(loaded["metadata"])
        return 200, request.shown(loaded)

    def load_credentials(self, request, segment, second, third):
        place = plain_segment(segment), namespace_segment(second), name_segment(third)
        _, table = self.at_part(request, *place, "TABLE_READ_DATA")
        self.refuse_more_tokens(request)
        return 200, request.shown(table.credentials(self.issued(request, table, self.catalogs[place[0]], place[1])))

    def shown_table(self, request, table, row, path):
        """What is shown of a table at a path of a catalogue, with a storage token where one is asked for."""
        if not request.is_delegated:
            return table.loaded()
        config = self.issued(request, table, row, path)
        return table.loaded() | table.credentials(config) | {"config": config}

    def refuse_more_tokens(self, request):
        """Refuses one more storage token of the caller's principal, where it has too many."""
        principal = self.session(request).principal
        issued = [row.issued for row in self.storage_tokens.values() if row.principal == principal]
        refuse_too_many(issued, self.moment_of(request), TOKEN_LIFE)

    def issued(self, request, table, row, path):
        """What a client is told of a new storage token of a table at a path of a catalogue."""
        above = [row.namespaces[path[:depth]].id for depth in range(1, len(path) + 1)]
        chain = [("catalog", row.id), *(("namespace", id) for id in above), ("table", table.id)]
        is_writing = self.may(self.active_roles(request), "TABLE_WRITE_DATA", chain)
        text, now = self.new_token(request, "lake.token"), self.moment_of(request)
        principal = self.session(request).principal
        self.storage_tokens[text] = StorageToken(principal, table.id, table.moves, table.location, is_writing, now)
        return {"lake.expires-at-ms": Expiry(now), "lake.token": text}

    def head_table(self, request, segment, second, third):
        place = plain_segment(segment), namespace_segment(second), name_segment(third)
        self.at_part(request, *place, "TABLE_READ_PROPERTIES")
        return 204, None

    def report_metrics(self, request, segment, second, third):
        return self.head_table(request, segment, second, third)

    def drop_table(self, request, segment, second, third):
        place = plain_segment(segment), namespace_segment(second), name_segment(third)
        if query_value(request.query, b"purgeRequested") not in (None, b"true", b"false"):
            unreadable("purgeRequested")
        namespace, table = self.at_part(request, *place, "TABLE_DROP")
        del namespace.tables[place[2]]
        self.grants = [grant for grant in self.grants if grant[2] != ("table", table.id)]
        return 204, None

    # Commits to tables, and their names

    def commit_table(self, request, segment, second, third):
        name, path, part = plain_segment(segment), namespace_segment(second), name_segment(third)
        change = {"identifier": {"namespace": path, "name": part}, **read_commit(request.content)}
        self.commit(request, name, [change])
        return 200, request.shown(self.catalogs[name].namespaces[path].tables[part].committed())

    def commit_transaction(self, request, segment):
        name = plain_segment(segment)
        self.commit(request, name, read_transaction(request.content))
        return 204, None

    def commit(self, request, name, changes):
        """Makes all of these changes of tables, or refuses the first of the rules that fails."""
        places = [(change["identifier"]["namespace"], change["identifier"]["name"]) for change in changes]
        self.active_roles(request)
        row = self.catalog(name)
        for path, part in places:
            self.in_catalog(request, name, "TABLE_WRITE_PROPERTIES", path, part)
        for path, _ in places:
            refuse_missing(row, path)
        former = [part_there(row, path, part, "table") for path, part in places]
        refuse_twice(places)
        after = committed(former, changes, self.moment_of(request))
        moved = [table for table, before in zip(after, former) if table.is_moved(before)]
        for table in moved:
            refuse_outside(row, table.location)
        replaced = {table.id: table for table in after}
        tables = [replaced.get(table.id, table) for table in self.tables()]
        for table in moved:
            refuse_overlap(table.location, [other for other in tables if other.id != table.id])
        refuse_left_out(changes)
        if len(changes) > 100:
            refuse("Limit", b"tables in a transaction 100")
        for table in after:
            refuse_large(table.metadata)
        for (path, part), table in zip(places, after):
            row.namespaces[path].tables[part] = table

    def rename_part(self, request, segment, kind):
        name = plain_segment(segment)
        body = request.body()
        source, destination = (required(body, key, identifier) for key in ("source", "destination"))
        path, part = destination["namespace"], destination["name"]
        row = self.in_catalog(request, name, f"{kind.upper()}_DROP", source["namespace"], source["name"])
        self.in_catalog(request, name, f"{kind.upper()}_CREATE", path)
        refuse_missing(row, source["namespace"])
        refuse_missing(row, path)
        found = part_there(row, source["namespace"], source["name"], kind)
        refuse_taken(row.namespaces[path], part)
        del row.namespaces[source["namespace"]].parts(kind)[source["name"]]
        row.namespaces[path].parts(kind)[part] = found
        return 204, None

    def rename_table(self, request, segment):
        return self.rename_part(request, segment, "table")

    # Views

    def list_views(self, request, segment, second):
        return self.list_parts(request, segment, second, "view")

    def create_view(self, request, segment, second):
        name, path = plain_segment(segment), namespace_segment(second)
        asked = views.request_of(request.content)
        row, namespace = self.in_namespace(request, name, path, "VIEW_CREATE")
        refuse_taken(namespace, asked["name"])
        location = location_asked(row, path, asked)
        refuse_many(asked["properties"])
        uuid = self.drawn(request, "view-uuid", UUID)
        metadata = views.created(asked, uuid, self.moment_of(request)) | {"location": location_text(location)}
        namespace.views[asked["name"]] = View(self.new_id(), metadata)
        return 200, request.shown(namespace.views[asked["name"]].loaded())

    def load_view(self, request, segment, second, third):
        place = plain_segment(segment), namespace_segment(second), name_segment(third)
        _, view = self.at_part(request, *place, "VIEW_READ_PROPERTIES")
        return 200, request.shown(view.loaded())

    def head_view(self, request, segment, second, third):
        self.load_view(request, segment, second, third)
        return 204, None

    def replace_view(self, request, segment, second, third):
        name, path, part = plain_segment(segment), namespace_segment(second), name_segment(third)
        asked = views.read_commit(request.content)
        namespace, view = self.at_part(request, name, path, part, "VIEW_WRITE_PROPERTIES")
        refuse_unmet(view, asked["requirements"], 0)
        metadata = replaced(view, asked["updates"], self.moment_of(request))
        if metadata["location"] != view.metadata["location"]:
            refuse_outside(self.catalogs[name], location_of(metadata["location"]))
        refuse_left_out([asked])
        refuse_large(metadata)
        namespace.views[part] = View(view.id, metadata, view.version + bool(asked["updates"]))
        return 200, request.shown(namespace.views[part].loaded())

    def drop_view(self, request, segment, second, third):
        place = plain_segment(segment), namespace_segment(second), name_segment(third)
        namespace, view = self.at_part(request, *place, "VIEW_DROP")
        del namespace.views[place[2]]
        self.grants = [grant for grant in self.grants if grant[2] != ("view", view.id)]
        return 204, None

    def rename_view(self, request, segment):
        return self.rename_part(request, segment, "view")

    # Objects

    def get_object(self, request, path):
        return 200, self.objects.there(self.opened(request, path))

    def head_object(self, request, path):
        return 200, len(self.objects.there(self.opened(request, path)))

    def put_object(self, request, path):
        self.objects.put(self.opened(request, path, is_writing=True), request.content)
        return 201, ""

    def delete_object(self, request, path):
        self.objects.delete(self.opened(request, path, is_writing=True))
        return 204, None

    def list_objects(self, request, path):
        return 200, compact({"paths": self.objects.texts_under(self.opened(request, path))})

    def opened(self, request, path, is_writing=False):
        """The location that a path is, which the caller's storage token opens."""
        segments = [segment_text(segment) for segment in path.split(b"/")]
        try:
            location = location_below(segments)
        except Refused:
            unreadable("path")
        token = self.storage_token(request)
        if not covers(token.location, location):
            refuse("NotCovered")
        if is_writing and not token.is_writing:
            refuse("NotWritable")
        return location

    def storage_token(self, request):
        """The caller's storage token, whose table is there and didn't move since."""
        token, now = self.storage_tokens.get(request.bearer), self.moment_of(request)
        if token is None or now.is_past(token.issued, TOKEN_LIFE):
            refuse("TokenUnknown")
        if (token.table, token.moves) not in [(table.id, table.moves) for table in self.tables()]:
            refuse("TokenUnknown")
        return token


def refuse_update(table, update, why):
    raise Refused("UpdateRefused", f"Update {update} of table {table} refused: {why}")


def refuse_too_many(moments, now, life):
    """Refuses one more beside what was opened or issued at these moments, of which those count that didn't expire."""
    live = 0 if len(moments) < MOST_LIVE else sum(not now.is_past(moment, life) for moment in moments)
    if live >= MOST_LIVE:
        refuse("TooManyTokens", b"%d" % live)


def with_named_snapshots(metadata):
    """A metadata without the snapshots that no reference names."""
    named = {reference["snapshot-id"] for reference in metadata["refs"].values()}
    return metadata | {"snapshots": [one for one in metadata["snapshots"] if one["snapshot-id"] in named]}


def committed(former, changes, moment):
    """Tables after their changes at a moment: all requirements are judged before all updates, and these before the
    locations."""
    for place, (table, change) in enumerate(zip(former, changes)):
        refuse_unmet(table, change["requirements"], place)
    after = []
    for place, (table, change) in enumerate(zip(former, changes)):
        updates = change["updates"]
        try:
            metadata = updated(table.metadata, updates, table.version, moment)
        except NotApplied as refused:
            refuse_update(place, refused.place, refused.why)
        after.append(Table(table.id, table.location, metadata, table.version + bool(updates), table.moves))
    for place, (table, before) in enumerate(zip(after, former)):
        if table.is_moved(before):
            table.location = location_of(table.metadata["location"], place)
            table.moves += 1
    return after


def refuse_unmet(found, requirements, place):
    """Refuses a commit to what stands at a place of its request, where one of its requirements doesn't hold."""
    try:
        judge(found.metadata, requirements)
    except Unmet as unmet:
        raise Refused("RequirementFailed", f"Requirement {unmet.place} of table {place} failed") from None


def replaced(view, updates, moment):
    """The metadata of a view after updates at a moment."""
    try:
        return views.updated(view.metadata, updates, moment)
    except NotApplied as refused:
        refuse_update(0, refused.place, refused.why)


def refuse_taken(namespace, part):
    """Tables and views of a namespace have names of their own."""
    if part in namespace.tables or part in namespace.views:
        refuse("NameTaken", part)


def refuse_twice(places):
    """Refuses the first place that names a table again."""
    for second, place in enumerate(places):
        if place in places[:second]:
            refuse("TableTwice", f"{places.index(place)} and {second}".encode())


def location_asked(row, path, asked):
    """Where a new table or view is to lie, in its catalogue."""
    given = asked["location"]
    location = location_below([*row.base, *path, asked["name"]]) if given is None else location_of(given)
    refuse_outside(row, location)
    return location


def refuse_outside(row, location):
    if not any(covers(upper, location) for upper in [row.base, *row.allowed]):
        refuse("LocationOutside", location_text(location))


def refuse_overlap(location, tables):
    """Refuses a location that overlaps that of one of these tables, of several that of the oldest one."""
    for table in sorted(tables, key=lambda table: table.id):
        if covers(table.location, location) or covers(location, table.location):
            refuse("LocationOverlap", b"%b and %b" % (location_text(location), location_text(table.location)))


def refuse_left_out(changes):
    for action, _ in [one for change in changes for one in change["updates"]]:
        if action in LEFT_OUT:
            refuse("Unsupported", action.encode())


def refuse_large(metadata):
    for key, word, bound in PARTS:
        if len(metadata.get(key, ())) > bound:
            refuse("Limit", f"{word} {bound}".encode())


def refuse_many(properties):
    if len(properties) > 1000:
        refuse("Limit", b"properties 1000")
