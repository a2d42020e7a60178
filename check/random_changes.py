"""Random lists of changes, as the forms of `changes.py` write them."""

import random

from changes import PRIVILEGES

PLAIN_TYPES = "boolean int long float double date time timestamp timestamptz string uuid binary".split()
VARIANTS = (
    "Time NextId NextSerial PutPrincipal DropPrincipal PutPrincipalRole DropPrincipalRole PutCatalog DropCatalog"
    " PutCatalogRole DropCatalogRole PutNamespace DropNamespace PutTable DropTable PutView DropView PutMember"
    " DropMember PutJoin DropJoin PutGrant DropGrant PutSession PutToken"
).split()


class RandomChanges:
    """Lists of changes of a seed, whose values keep the rules of their types."""

    def __init__(self, seed):
        self.draw = random.Random(seed)

    def number(self):
        return self.draw.choice([0, 1, self.draw.randrange(2**32), self.draw.randrange(2**64), 2**64 - 1])

    def long(self):
        return self.draw.choice([0, 1, self.draw.randrange(2**63), 2**63 - 1])

    def text(self):
        return "".join(self.draw.choice("ab é/\0\U0001f600") for _ in range(self.draw.randrange(4)))

    def name(self):
        return "".join(self.draw.choice("abc") for _ in range(1 + self.draw.randrange(3)))

    def many(self, make, most=3):
        return [make() for _ in range(self.draw.randrange(most + 1))]

    def maybe(self, make):
        return make() if self.draw.random() < 0.5 else None

    def texts(self):
        return {self.text(): self.text() for _ in range(self.draw.randrange(3))}

    def location(self):
        return [self.name() for _ in range(1 + self.draw.randrange(3))]

    def id_pool(self, most):
        """Ids that differ, one at a time."""
        return iter(self.draw.sample(range(most), 64))

    def fields(self, ids, left):
        fields = []
        for place in range(self.draw.randrange(3)):
            id, kind = next(ids), self.kind(ids, left)
            fields.append(
                dict(id=id, name=f"f{place}", required=self.draw.random() < 0.5, kind=kind, doc=self.maybe(self.text))
            )
        return fields

    def kind(self, ids, left):
        choice = self.draw.choice(["plain", "plain", "decimal", "fixed", "struct", "list", "map"])
        if choice == "decimal":
            precision = 1 + self.draw.randrange(38)
            return "decimal", dict(precision=precision, scale=self.draw.randrange(precision + 1))
        if choice == "fixed":
            return "fixed", 1 + self.draw.randrange(100)
        if choice == "plain" or not left:
            return self.draw.choice(PLAIN_TYPES), None
        if choice == "struct":
            return "struct", self.fields(ids, left - 1)
        if choice == "list":
            id = next(ids)
            return "list", dict(element_id=id, element=self.kind(ids, left - 1), element_required=True)
        key_id, value_id = next(ids), next(ids)
        key, value = self.kind(ids, left - 1), self.kind(ids, left - 1)
        return "map", dict(key_id=key_id, key=key, value_id=value_id, value=value, value_required=False)

    def schema(self, id):
        fields = self.fields(self.id_pool(2_147_483_447), 2)
        named = [field["id"] for field in fields if self.draw.random() < 0.3]
        return dict(schema_id=id, identifier_field_ids=named, fields=fields)

    def transform(self):
        name = self.draw.choice("identity void year month day hour bucket truncate".split())
        return name, 16 if name in ("bucket", "truncate") else None

    def snapshot(self, id):
        return dict(
            snapshot_id=id,
            parent_snapshot_id=self.maybe(self.long),
            sequence_number=self.long(),
            timestamp_ms=self.long(),
            manifest_list=self.text(),
            summary={**self.texts(), "operation": self.draw.choice(["append", "replace", "overwrite", "delete"])},
            schema_id=self.maybe(lambda: 7),
        )

    def reference(self, snapshots):
        return dict(
            kind=(self.draw.choice(["branch", "tag"]), None),
            snapshot_id=self.draw.choice(snapshots)["snapshot_id"],
            max_ref_age_ms=self.maybe(lambda: 1 + self.draw.randrange(2**63 - 1)),
            max_snapshot_age_ms=self.maybe(lambda: 1),
            min_snapshots_to_keep=self.maybe(lambda: 2**63 - 1),
        )

    def sort_field(self):
        return dict(
            transform=self.transform(),
            source_id=self.draw.randrange(9),
            direction=(self.draw.choice(["asc", "desc"]), None),
            null_order=(self.draw.choice(["nulls_first", "nulls_last"]), None),
        )

    def partition_field(self):
        return dict(source_id=1, field_id=1000 + self.draw.randrange(9), name=self.text(), transform=self.transform())

    def table(self):
        snapshots = [self.snapshot(id) for id in range(self.draw.randrange(3))]
        names = self.draw.sample(["main", "a", "é", "b"], self.draw.randrange(4)) if snapshots else []
        refs = {name: self.reference(snapshots) for name in names}
        orders = [dict(order_id=place, fields=self.many(self.sort_field)) for place in range(2)]
        return dict(
            current_schema_id=0,
            current_snapshot_id=refs["main"]["snapshot_id"] if "main" in refs else None,
            default_sort_order_id=self.draw.randrange(2),
            default_spec_id=5,
            format_version=2,
            last_column_id=self.draw.randrange(2_147_483_448),
            last_partition_id=999 + self.draw.randrange(9),
            last_sequence_number=self.long(),
            last_updated_ms=self.long(),
            location=self.text(),
            metadata_log=self.many(lambda: dict(metadata_file=self.text(), timestamp_ms=self.long())),
            partition_specs=[dict(spec_id=5, fields=self.many(self.partition_field))],
            properties=self.texts(),
            refs=refs,
            schemas=[self.schema(0), self.schema(3)],
            snapshot_log=self.many(lambda: dict(snapshot_id=self.long(), timestamp_ms=self.long())),
            snapshots=snapshots,
            sort_orders=orders,
            table_uuid=self.draw.randbytes(16),
        )

    def version(self, id):
        return dict(
            version_id=id,
            timestamp_ms=self.long(),
            schema_id=self.draw.choice([0, 3]),
            summary=self.texts(),
            representations=self.many(lambda: dict(sql=self.text(), dialect=self.text())),
            default_catalog=self.maybe(self.text),
            default_namespace=[self.name()],
        )

    def view(self):
        return dict(
            current_version_id=1,
            format_version=1,
            location=self.text(),
            properties=self.texts(),
            schemas=[self.schema(0), self.schema(3)],
            version_log=self.many(lambda: dict(timestamp_ms=self.long(), version_id=1)),
            versions=[self.version(1), self.version(2)],
            view_uuid=self.draw.randbytes(16),
        )

    def securable(self):
        kind = self.draw.choice(["realm", "catalog", "namespace", "table", "view"])
        return kind, None if kind == "realm" else self.number()

    def scope(self):
        return self.draw.choice([("all", None), ("roles", self.many(self.number))])

    def row(self, variant):
        number = self.number
        if variant.endswith("Member"):
            return dict(principal=number(), role=number())
        if variant.endswith("Join"):
            return dict(principal_role=number(), catalog_role=number())
        if variant.endswith("Grant"):
            privilege = (self.draw.choice(PRIVILEGES), None)
            return dict(catalog_role=number(), privilege=privilege, securable=self.securable())
        if not variant.startswith("Put"):
            return number()
        named = dict(id=number(), name=self.name())
        return {
            "PutPrincipal": lambda: dict(named, client_id=self.text(), digest=self.draw.randbytes(32)),
            "PutPrincipalRole": lambda: named,
            "PutCatalog": lambda: dict(
                named, base=self.location(), allowed=self.many(self.location), properties=self.texts()
            ),
            "PutCatalogRole": lambda: dict(named, catalog=number()),
            "PutNamespace": lambda: dict(
                id=number(), catalog=number(), levels=self.location(), properties=self.texts()
            ),
            "PutTable": lambda: dict(
                named,
                namespace=number(),
                version=number(),
                moves=number(),
                location=self.location(),
                metadata=self.table(),
            ),
            "PutView": lambda: dict(named, namespace=number(), version=number(), metadata=self.view()),
            "PutSession": lambda: dict(
                serial=number(),
                word_a=number(),
                word_b=number(),
                principal=number(),
                scope=self.scope(),
                expires=number(),
            ),
            "PutToken": lambda: dict(
                serial=number(),
                word_a=number(),
                word_b=number(),
                principal=number(),
                table=number(),
                moves=number(),
                location=self.location(),
                write=self.draw.random() < 0.5,
                expires=number(),
            ),
        }[variant]()

    def changes(self):
        return [(variant, self.row(variant)) for variant in self.draw.choices(VARIANTS, k=self.draw.randrange(5))]

    def object_change(self):
        if self.draw.random() < 0.3:
            return "Delete", dict(path=self.location())
        return "Put", dict(path=self.location(), bytes=self.draw.randbytes(self.draw.randrange(20)))

    def noise(self):
        """Random bytes, most of them behind a length that may be right."""
        noise = self.draw.randbytes(self.draw.randrange(40))
        return self.draw.choice([0, 1, 1, 1, 2, 2**64 - 1]).to_bytes(8, "big") + noise if noise else noise

    def broken(self, text):
        """A text of bytes with one bit flipped, or cut short."""
        if self.draw.random() < 0.1:
            return text[: self.draw.randrange(len(text))]
        bit = self.draw.randrange(8 * len(text))
        flipped = bytearray(text)
        flipped[bit // 8] ^= 1 << bit % 8
        return bytes(flipped)
