"""The table of requests (Iceberg REST OpenAPI; Apache Polaris Management Service; the object server's own paths)."""

from reading import refuse

CATALOG = "/api/catalog/v1"
PREFIX = f"{CATALOG}/{{prefix}}"
NAMESPACE = f"{PREFIX}/namespaces/{{namespace}}"
TABLE = f"{NAMESPACE}/tables/{{table}}"
VIEW = f"{NAMESPACE}/views/{{view}}"
MANAGEMENT = "/api/management/v1"
PRINCIPAL = f"{MANAGEMENT}/principals/{{principal}}"
PRINCIPAL_ROLE = f"{MANAGEMENT}/principal-roles/{{role}}"
CATALOG_ROLE = f"{MANAGEMENT}/catalogs/{{catalog}}/catalog-roles/{{catalog_role}}"

# A body's form has the names of its keys, where `?` marks one that may be absent, and what stands under each.
CATALOG_FORM = {
    "name": "catalog",
    "type?": "catalog_type",
    "properties": "based_texts",
    "storageConfigInfo?": {"allowedLocations": "locations"},
}
ROLE_FORM = {"principalRole": {"name": "role"}}
CATALOG_ROLE_FORM = {"catalogRole": {"name": "catalog_role"}}

# Each method of each path, with its action, and the form of its body where that is JSON.
ROUTES = [
    ("POST", f"{CATALOG}/oauth/tokens", "open_session"),
    ("GET", f"{CATALOG}/config", "get_config"),
    ("GET", f"{PREFIX}/namespaces", "list_namespaces"),
    ("POST", f"{PREFIX}/namespaces", "create_namespace", {"namespace": "levels", "properties?": "texts"}),
    ("GET", NAMESPACE, "load_namespace"),
    ("HEAD", NAMESPACE, "head_namespace"),
    ("DELETE", NAMESPACE, "drop_namespace"),
    ("POST", f"{NAMESPACE}/properties", "update_properties", {"removals": "removals", "updates": "texts"}),
    ("GET", f"{NAMESPACE}/tables", "list_tables"),
    ("POST", f"{NAMESPACE}/tables", "create_table", "new_table"),
    ("GET", TABLE, "load_table"),
    ("HEAD", TABLE, "head_table"),
    ("POST", TABLE, "commit_table", "commit"),
    ("DELETE", TABLE, "drop_table"),
    ("GET", f"{TABLE}/credentials", "load_credentials"),
    ("POST", f"{TABLE}/metrics", "report_metrics"),
    ("POST", f"{PREFIX}/tables/rename", "rename_table", "renaming"),
    ("POST", f"{PREFIX}/transactions/commit", "commit_transaction", "transaction"),
    ("GET", f"{NAMESPACE}/views", "list_views"),
    ("POST", f"{NAMESPACE}/views", "create_view", "new_view"),
    ("GET", VIEW, "load_view"),
    ("HEAD", VIEW, "head_view"),
    ("POST", VIEW, "replace_view", "view_commit"),
    ("DELETE", VIEW, "drop_view"),
    ("POST", f"{PREFIX}/views/rename", "rename_view", "renaming"),
    ("GET", f"{MANAGEMENT}/catalogs", "list_catalogs"),
    ("POST", f"{MANAGEMENT}/catalogs", "create_catalog", {"catalog": CATALOG_FORM}),
    ("GET", f"{MANAGEMENT}/catalogs/{{catalog}}", "get_catalog"),
    ("DELETE", f"{MANAGEMENT}/catalogs/{{catalog}}", "drop_catalog"),
    ("GET", f"{MANAGEMENT}/principals", "list_principals"),
    ("POST", f"{MANAGEMENT}/principals", "create_principal", {"principal": {"name": "principal", "type": "service"}}),
    ("GET", PRINCIPAL, "get_principal"),
    ("DELETE", PRINCIPAL, "drop_principal"),
    ("POST", f"{PRINCIPAL}/rotate", "rotate"),
    ("GET", f"{PRINCIPAL}/principal-roles", "list_members"),
    ("PUT", f"{PRINCIPAL}/principal-roles", "add_member", ROLE_FORM),
    ("DELETE", f"{PRINCIPAL}/principal-roles/{{role}}", "end_member"),
    ("GET", f"{MANAGEMENT}/principal-roles", "list_principal_roles"),
    ("POST", f"{MANAGEMENT}/principal-roles", "create_principal_role", ROLE_FORM),
    ("GET", PRINCIPAL_ROLE, "get_principal_role"),
    ("DELETE", PRINCIPAL_ROLE, "drop_principal_role"),
    ("GET", f"{PRINCIPAL_ROLE}/catalog-roles/{{catalog}}", "list_joins"),
    ("PUT", f"{PRINCIPAL_ROLE}/catalog-roles/{{catalog}}", "add_join", CATALOG_ROLE_FORM),
    ("DELETE", f"{PRINCIPAL_ROLE}/catalog-roles/{{catalog}}/{{catalog_role}}", "end_join"),
    ("GET", f"{MANAGEMENT}/catalogs/{{catalog}}/catalog-roles", "list_catalog_roles"),
    ("POST", f"{MANAGEMENT}/catalogs/{{catalog}}/catalog-roles", "create_catalog_role", CATALOG_ROLE_FORM),
    ("GET", CATALOG_ROLE, "get_catalog_role"),
    ("DELETE", CATALOG_ROLE, "drop_catalog_role"),
    ("GET", f"{CATALOG_ROLE}/grants", "list_grants"),
    ("PUT", f"{CATALOG_ROLE}/grants", "add_grant", {"grant": "grant"}),
    ("POST", f"{CATALOG_ROLE}/grants", "revoke", {"grant": "grant"}),
    ("GET", "/objects/{*path}", "get_object"),
    ("HEAD", "/objects/{*path}", "head_object"),
    ("PUT", "/objects/{*path}", "put_object"),
    ("DELETE", "/objects/{*path}", "delete_object"),
    ("GET", "/list/{*path}", "list_objects"),
]

# What a config tells of the rows behind a catalogue's prefix.
ENDPOINTS = [
    f"{method} /v1{path[len(CATALOG):]}" for method, path, *_ in ROUTES if path.startswith(PREFIX)
]


def segments_of(pattern, path):
    """The segments of a path that a row's path leaves open, or none where it is another path."""
    parts, found = pattern.split("/"), path.split(b"/")
    if parts[-1].startswith("{*"):
        parts, found = parts[:-1] + ["{}"], found[: len(parts) - 1] + [b"/".join(found[len(parts) - 1 :])]
    if len(parts) != len(found):
        return None
    pairs = list(zip(parts, found))
    if not all(segment if part.startswith("{") else part.encode() == segment for part, segment in pairs):
        return None
    return [segment for part, segment in pairs if part.startswith("{")]


def route_of(method, path):
    """The action of a request, and the open segments of its path."""
    rows = [(row[0], row[2], segments_of(row[1], path)) for row in ROUTES]
    rows = [row for row in rows if row[2] is not None]
    if not rows:
        refuse("No route")
    rows = [row for row in rows if row[0] == method]
    if not rows:
        refuse("Wrong method")
    return rows[0][1:]
