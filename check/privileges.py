"""Privileges, what each implies, and what each may be granted on (Apache Polaris documentation, access control)."""

KINDS = ("NAMESPACE", "TABLE", "VIEW")
RIGHTS = ("CREATE", "DROP", "LIST", "READ_PROPERTIES", "WRITE_PROPERTIES", "FULL_METADATA")
DATA = {"TABLE_READ_DATA", "TABLE_WRITE_DATA"}

# In the order in which the grants of a role are listed.
PRIVILEGES = [f"{kind}_{right}" for kind in KINDS for right in RIGHTS] + [
    "TABLE_READ_DATA",
    "TABLE_WRITE_DATA",
    "CATALOG_MANAGE_ACCESS",
    "CATALOG_MANAGE_CONTENT",
    "CATALOG_MANAGE_METADATA",
    "CATALOG_READ_PROPERTIES",
    "CATALOG_WRITE_PROPERTIES",
    "SERVICE_MANAGE_ACCESS",
]


def beginning(*fronts):
    """The privileges that begin with one of these words."""
    return {privilege for privilege in PRIVILEGES if privilege.startswith(fronts)}


METADATA = beginning("NAMESPACE_", "VIEW_") | (beginning("TABLE_") - DATA)
CATALOG_PROPERTIES = {"CATALOG_READ_PROPERTIES", "CATALOG_WRITE_PROPERTIES"}

IMPLIED = {privilege: {privilege} for privilege in PRIVILEGES}
IMPLIED["CATALOG_MANAGE_CONTENT"] |= {"CATALOG_MANAGE_METADATA"} | CATALOG_PROPERTIES | METADATA | DATA
IMPLIED["CATALOG_MANAGE_METADATA"] |= CATALOG_PROPERTIES | METADATA
IMPLIED["CATALOG_MANAGE_ACCESS"] |= {"CATALOG_READ_PROPERTIES"}
IMPLIED["CATALOG_WRITE_PROPERTIES"] |= {"CATALOG_READ_PROPERTIES"}
IMPLIED["NAMESPACE_FULL_METADATA"] |= beginning("NAMESPACE_")
IMPLIED["VIEW_FULL_METADATA"] |= beginning("VIEW_")
IMPLIED["TABLE_FULL_METADATA"] |= beginning("TABLE_") - DATA
IMPLIED["TABLE_READ_DATA"] |= {"TABLE_READ_PROPERTIES", "TABLE_LIST"}
IMPLIED["TABLE_WRITE_DATA"] |= {"TABLE_READ_DATA", "TABLE_WRITE_PROPERTIES", "TABLE_READ_PROPERTIES", "TABLE_LIST"}
for kind in KINDS:
    IMPLIED[f"{kind}_WRITE_PROPERTIES"] |= {f"{kind}_READ_PROPERTIES", f"{kind}_LIST"}
    IMPLIED[f"{kind}_READ_PROPERTIES"] |= {f"{kind}_LIST"}
    IMPLIED[f"{kind}_CREATE"] |= {f"{kind}_LIST"}

GRANTABLE = {
    "catalog": set(PRIVILEGES) - {"SERVICE_MANAGE_ACCESS"},
    "namespace": beginning("NAMESPACE_", "TABLE_", "VIEW_"),
    "table": beginning("TABLE_"),
    "view": beginning("VIEW_"),
}
