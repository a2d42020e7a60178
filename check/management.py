"""Principals, their roles, the roles of catalogues, joins and grants (Apache Polaris Management Service)."""

import hashlib

from privileges import GRANTABLE, PRIVILEGES
from reading import compact, is_name, levels, meeting, object_at, plain_segment, refuse, required
from rows import Principal, part_there, plain, refuse_missing

FIRST_GRANTS = ("CATALOG_MANAGE_ACCESS", "CATALOG_MANAGE_CONTENT")


def digest_of(secret):
    return hashlib.sha256(secret).digest()


def named(key):
    """The reader of a body that holds one name, in an object under this key."""
    return lambda body: required(body, key, lambda value, path: required(object_at(value, path), "name", plain, path))


principal_name = named("principal")
principal_role_name = named("principalRole")
catalog_role_name = named("catalogRole")


def new_grant(value, path):
    """The type and privilege of a grant, and the namespace and the name that it is on, where there are such."""
    value = object_at(value, path)
    kind = required(value, "type", meeting(lambda word: word.decode() in GRANTABLE), path).decode()
    privilege = required(value, "privilege", meeting(lambda word: word.decode() in GRANTABLE[kind]), path).decode()
    namespace = required(value, "namespace", levels, path) if kind != "catalog" else None
    key = {"table": "tableName", "view": "viewName"}.get(kind)
    return kind, privilege, namespace, required(value, key, meeting(is_name), path) if key else None


class Management:
    """The part of the rules that says who may do what."""

    # Principals and principal roles

    def principal(self, name):
        if name not in self.principals:
            refuse("NoSuchRole", name)
        return self.principals[name]

    def principal_role(self, name):
        if name not in self.principal_roles:
            refuse("NoSuchRole", name)
        return self.principal_roles[name]

    def shown_principal(self, name):
        return {"clientId": self.principals[name].client_id, "name": name}

    def credentials(self, status, name, secret):
        shown = {"clientId": self.principals[name].client_id, "clientSecret": secret}
        return status, compact({"credentials": shown, "principal": self.shown_principal(name)})

    def list_principals(self, request):
        self.in_realm(request)
        return 200, compact({"principals": [self.shown_principal(name) for name in sorted(self.principals)]})

    def create_principal(self, request):
        name = principal_name(request.body())
        self.in_realm(request)
        if name in self.principals:
            refuse("NameTaken", name)
        client_id = self.drawn(request, "clientId", "[0-9a-f]{16}").encode()
        secret = self.drawn(request, "clientSecret", "[0-9a-f]{32}").encode()
        self.principals[name] = Principal(self.new_id(), client_id, digest_of(secret))
        return self.credentials(201, name, secret)

    def get_principal(self, request, segment):
        name = plain_segment(segment)
        self.in_realm(request)
        self.principal(name)
        return 200, compact(self.shown_principal(name))

    def drop_principal(self, request, segment):
        name = plain_segment(segment)
        self.in_realm(request)
        row = self.principal(name)
        if name == b"root":
            refuse("Reserved", name)
        del self.principals[name]
        self.members = [member for member in self.members if member[0] != row.id]
        return 204, None

    def rotate(self, request, segment):
        name = plain_segment(segment)
        self.in_realm(request)
        row = self.principal(name)
        secret = self.drawn(request, "clientSecret", "[0-9a-f]{32}").encode()
        row.digest = digest_of(secret)
        return self.credentials(200, name, secret)

    def list_members(self, request, segment):
        name = plain_segment(segment)
        self.in_realm(request)
        row = self.principal(name)
        return 200, roles_listed(self.principal_roles, [role for member, role in self.members if member == row.id])

    def add_member(self, request, segment):
        name = plain_segment(segment)
        role_name = principal_role_name(request.body())
        self.in_realm(request)
        add(self.members, (self.principal(name).id, self.principal_role(role_name)))
        return 201, ""

    def end_member(self, request, segment, second):
        name, role_name = plain_segment(segment), plain_segment(second)
        self.in_realm(request)
        member = (self.principal(name).id, self.principal_role(role_name))
        if member not in self.members:
            refuse("NoSuchRole", role_name)
        if (name, role_name) == (b"root", b"service_admin"):
            refuse("Reserved", name)
        self.members.remove(member)
        return 204, None

    def list_principal_roles(self, request):
        self.in_realm(request)
        return 200, roles_listed(self.principal_roles, self.principal_roles.values())

    def create_principal_role(self, request):
        name = principal_role_name(request.body())
        self.in_realm(request)
        if name in self.principal_roles:
            refuse("NameTaken", name)
        self.principal_roles[name] = self.new_id()
        return 201, ""

    def get_principal_role(self, request, segment):
        name = plain_segment(segment)
        self.in_realm(request)
        self.principal_role(name)
        return 200, compact({"name": name})

    def drop_principal_role(self, request, segment):
        name = plain_segment(segment)
        self.in_realm(request)
        role = self.principal_role(name)
        if name == b"service_admin":
            refuse("Reserved", name)
        del self.principal_roles[name]
        self.members = [member for member in self.members if member[1] != role]
        self.joins = [join for join in self.joins if join[0] != role]
        return 204, None

    # Roles of catalogues, joins and grants

    def managed(self, request, name):
        """The catalogue of a name whose access the caller manages."""
        return self.in_catalog(request, name, "CATALOG_MANAGE_ACCESS")

    def forget_catalog_role(self, role):
        self.joins = [join for join in self.joins if join[1] != role]
        self.grants = [grant for grant in self.grants if grant[0] != role]

    def list_joins(self, request, segment, second):
        role_name, name = plain_segment(segment), plain_segment(second)
        row = self.managed(request, name)
        role = self.principal_role(role_name)
        return 200, roles_listed(row.roles, [joined for other, joined in self.joins if other == role])

    def add_join(self, request, segment, second):
        role_name, name = plain_segment(segment), plain_segment(second)
        joined_name = catalog_role_name(request.body())
        row = self.managed(request, name)
        add(self.joins, (self.principal_role(role_name), catalog_role(row, joined_name)))
        return 201, ""

    def end_join(self, request, segment, second, third):
        role_name, name, joined_name = plain_segment(segment), plain_segment(second), plain_segment(third)
        row = self.managed(request, name)
        join = (self.principal_role(role_name), catalog_role(row, joined_name))
        if join not in self.joins:
            refuse("NoSuchRole", joined_name)
        if (role_name, joined_name) == (b"service_admin", b"catalog_admin"):
            refuse("Reserved", joined_name)
        self.joins.remove(join)
        return 204, None

    def list_catalog_roles(self, request, segment):
        row = self.managed(request, plain_segment(segment))
        return 200, roles_listed(row.roles, row.roles.values())

    def create_catalog_role(self, request, segment):
        name = plain_segment(segment)
        role_name = catalog_role_name(request.body())
        row = self.managed(request, name)
        if role_name in row.roles:
            refuse("NameTaken", role_name)
        row.roles[role_name] = self.new_id()
        return 201, ""

    def get_catalog_role(self, request, segment, second):
        name, role_name = plain_segment(segment), plain_segment(second)
        catalog_role(self.managed(request, name), role_name)
        return 200, compact({"name": role_name})

    def drop_catalog_role(self, request, segment, second):
        name, role_name = plain_segment(segment), plain_segment(second)
        row = self.managed(request, name)
        role = catalog_role(row, role_name)
        if role_name == b"catalog_admin":
            refuse("Reserved", role_name)
        del row.roles[role_name]
        self.forget_catalog_role(role)
        return 204, None

    def list_grants(self, request, segment, second):
        name, role_name = plain_segment(segment), plain_segment(second)
        row = self.managed(request, name)
        role = catalog_role(row, role_name)
        paths = {namespace.id: path for path, namespace in row.namespaces.items()}
        parts = {
            found.id: {"namespace": path, f"{kind}Name": part}
            for path, namespace in row.namespaces.items()
            for kind in ("table", "view")
            for part, found in namespace.parts(kind).items()
        }
        listed = []
        for _, privilege, (kind, id) in sorted(filter(lambda grant: grant[0] == role, self.grants), key=place_of_grant):
            within = {"namespace": paths[id]} if kind == "namespace" else parts.get(id, {})
            listed.append({**within, "privilege": privilege, "type": kind})
        return 200, compact({"grants": listed})

    def grant(self, request, name, role_name):
        """The catalogue of a name, and the grant that a body names, of its role, on what is there."""
        kind, privilege, path, part = required(request.body(), "grant", new_grant)
        row = self.managed(request, name)
        refuse_missing(row, path or ())
        on = ("namespace", row.namespaces[path].id) if path else ("catalog", row.id)
        if part is not None:
            on = (kind, part_there(row, path, part, kind).id)
        return row, (catalog_role(row, role_name), privilege, on)

    def add_grant(self, request, segment, second):
        _, grant = self.grant(request, plain_segment(segment), plain_segment(second))
        add(self.grants, grant)
        return 201, ""

    def revoke(self, request, segment, second):
        name, role_name = plain_segment(segment), plain_segment(second)
        row, grant = self.grant(request, name, role_name)
        if grant not in self.grants:
            refuse("NoSuchRole", grant[1].encode())
        if role_name == b"catalog_admin" and grant[1] in FIRST_GRANTS and grant[2] == ("catalog", row.id):
            refuse("Reserved", role_name)
        self.grants.remove(grant)
        return 201, ""


def add(facts, fact):
    if fact not in facts:
        facts.append(fact)


def catalog_role(row, name):
    if name not in row.roles:
        refuse("NoSuchRole", name)
    return row.roles[name]


def place_of_grant(grant):
    """Grants are listed by privilege, then by what they are on: the catalogue first, then namespaces and then tables or
    views, each by their ids."""
    _, privilege, on = grant
    return PRIVILEGES.index(privilege), on


def roles_listed(names, ids):
    return compact({"roles": [{"name": name} for name in sorted(names) if names[name] in ids]})
