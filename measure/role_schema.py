"""The schema of a role, made from catalog.json and metadata.json alone in GraphQL's own language, by another program than hq.

It reads the forms that the examples have: tables by schema and name, custom names, relationships by foreign key or by mapping, select
permissions. It needs graphql-core 3.2 (`pip install graphql-core`).
"""

import json

from graphql import build_schema

from resolvers import combined, entries_of, is_free_name, sets_of

SCALARS = {"integer": "Int", "bigint": "bigint", "text": "String", "boolean": "Boolean", "uuid": "uuid"}
ANY_OPERATORS = ["_eq", "_gt", "_gte", "_in", "_is_null", "_lt", "_lte", "_neq", "_nin"]
TEXT_OPERATORS = ["_ilike", "_like", "_nilike", "_nlike"]
DIRECTIONS = ["asc", "asc_nulls_first", "asc_nulls_last", "desc", "desc_nulls_first", "desc_nulls_last"]


def table_key(table):
    """A table by schema and name, where a text is a name of the schema `public`."""
    return ("public", table) if isinstance(table, str) else (table.get("schema", "public"), table["name"])


class Table:
    """A tracked table with its names, as one role sees it."""

    def __init__(self, entry, catalog, role, sets):
        self.key = table_key(entry["table"])
        self.catalog = catalog[self.key]
        configuration = entry.get("configuration") or {}
        schema, name = self.key
        self.name = configuration.get("custom_name") or (name if schema == "public" else f"{schema}_{name}")
        self.roots = self.root_names(configuration.get("custom_root_fields") or {})
        self.column_names = self.names_of_columns(configuration)
        self.relationships = self.relations(entry)
        self.seen, self.aggregates, self.columns, self.masked = self.permission(entry, role, sets)

    def root_names(self, given):
        def root(name, derived):
            value = given.get(name)
            value = value.get("name") if isinstance(value, dict) else value
            return value or derived
        return {"select": root("select", self.name), "select_by_pk": root("select_by_pk", self.name + "_by_pk"),
                "select_aggregate": root("select_aggregate", self.name + "_aggregate")}

    def names_of_columns(self, configuration):
        names = dict(configuration.get("custom_column_names") or {})
        for column, config in (configuration.get("column_config") or {}).items():
            names[column] = (config or {}).get("custom_name")
        return {c["name"]: names.get(c["name"]) or c["name"] for c in self.catalog["columns"]}

    def relations(self, entry):
        own = [(r, False) for r in entry.get("object_relationships", [])]
        return own + [(r, True) for r in entry.get("array_relationships", [])]

    def permission(self, entry, role, sets):
        """Whether the role sees the table, whether it may aggregate it, its columns, and those that show at some rows only."""
        every = [c["name"] for c in self.catalog["columns"] if is_free_name(self.column_names[c["name"]])]
        if role == "admin":
            return True, True, every, []
        own = {p["role"]: self.own(every, p["permission"]) for p in entry.get("select_permissions", [])}
        given = [own[r] for r in ([role] if own.get(role) else dict.fromkeys(sets.get(role, []))) if own.get(r)]
        if not given:
            return False, False, [], []
        together = combined(every, given)
        return True, together["allow_aggregations"], together["columns"], list(together["masks"])

    def own(self, every, permission):
        """A permission with the columns that have a name of GraphQL; none where no column has."""
        columns = [c for c in every if permission["columns"] == "*" or c in permission["columns"]]
        return {**permission, "columns": columns} if columns else None

    def column(self, name):
        return next(c for c in self.catalog["columns"] if c["name"] == name)

    def scalar(self, name):
        """The scalar of a column; that of an opaque one has the name of its type, where that is one of GraphQL."""
        column = self.column(name)
        return SCALARS.get(column["type"]) or (column["of"] if is_free_name(column["of"]) else "String")

    def compared(self, name):
        """The scalar by whose comparisons a column is tested; all opaque ones have the same."""
        return "opaque" if self.column(name)["type"] == "opaque" else self.scalar(name)

    def ordered(self):
        """The columns whose values are compared."""
        return [c for c in self.columns if self.column(c)["type"] != "opaque"]

    def is_nullable(self, name):
        return name in self.masked or self.column(name).get("nullable", True) and name not in self.catalog["primary_key"]

    def remote(self, relationship):
        using = relationship["using"]
        if "manual_configuration" in using:
            return table_key(using["manual_configuration"]["remote_table"])
        on = using["foreign_key_constraint_on"]
        if isinstance(on, dict):
            return table_key(on["table"])
        columns = {on} if isinstance(on, str) else set(on)
        return table_key(next(f["table"] for f in self.catalog["foreign_keys"] if set(f["columns"]) == columns))


def list_arguments(table):
    n = table.name
    return f"(distinct_on: [{n}_select_column!], limit: Int, offset: Int, order_by: [{n}_order_by!], where: {n}_bool_exp)"


def block(kind, name, lines):
    return f"{kind} {name} {{\n  " + "\n  ".join(lines) + "\n}" if lines else f"{kind} {name}"


def comparison(scalar):
    """The comparisons of a scalar; of an opaque column there is the test for null alone."""
    operators = ["_is_null"] if scalar == "opaque" else sorted(ANY_OPERATORS + (TEXT_OPERATORS if scalar == "String" else []))
    types = {"_in": f"[{scalar}!]", "_nin": f"[{scalar}!]", "_is_null": "Boolean"}
    return block("input", f"{scalar}_comparison_exp", [f"{o}: {types.get(o, scalar)}" for o in operators])


def table_types(table, seen):
    """The types of a table, in the order of the schema."""
    n, named = table.name, table.column_names
    related = [(r["name"], seen[table.remote(r)], many) for r, many in table.relationships if table.remote(r) in seen]
    fields = [f"{named[c]}: {table.scalar(c)}{'' if table.is_nullable(c) else '!'}" for c in table.columns]
    for name, remote, many in related:
        fields.append(f"{name}{list_arguments(remote)}: [{remote.name}!]!" if many else f"{name}: {remote.name}")
        if many and remote.aggregates:
            fields.append(f"{name}_aggregate{list_arguments(remote)}: {remote.name}_aggregate!")
    yield block("type", n, fields)
    yield block("input", f"{n}_bool_exp",
                [f"_and: [{n}_bool_exp!]", f"_not: {n}_bool_exp", f"_or: [{n}_bool_exp!]"]
                + [f"{named[c]}: {table.compared(c)}_comparison_exp" for c in table.columns]
                + [f"{name}: {remote.name}_bool_exp" for name, remote, _ in related])
    yield block("input", f"{n}_order_by",
                [f"{named[c]}: order_by" for c in table.ordered()]
                + [f"{name}: {remote.name}_order_by" for name, remote, many in related if not many])
    yield block("enum", f"{n}_select_column", [named[c] for c in table.columns])
    if table.aggregates:
        yield from aggregate_types(table)


def aggregate_types(table):
    n, named = table.name, table.column_names
    ordered = [f"{named[c]}: {table.scalar(c)}" for c in table.ordered() if table.scalar(c) not in ("Boolean", "uuid")]
    summed = [f"{named[c]}: bigint" for c in table.ordered() if table.scalar(c) in ("Int", "bigint")]
    yield block("type", f"{n}_aggregate", [f"aggregate: {n}_aggregate_fields", f"nodes: [{n}!]!"])
    fields = [f"count(columns: [{n}_select_column!], distinct: Boolean): Int!"]
    taken = [("max", ordered), ("min", ordered), ("sum", summed)]
    yield block("type", f"{n}_aggregate_fields",
                fields + [f"{name}: {n}_{name}_fields" for name, columns in taken if columns])
    for name, columns in taken:
        if columns:
            yield block("type", f"{n}_{name}_fields", columns)


def root_fields(table):
    n, key = table.name, table.catalog["primary_key"]
    yield f"{table.roots['select']}{list_arguments(table)}: [{n}!]!"
    if table.aggregates:
        yield f"{table.roots['select_aggregate']}{list_arguments(table)}: {n}_aggregate!"
    if all(c in table.columns for c in key):
        arguments = ", ".join(f"{table.column_names[c]}: {table.scalar(c)}!" for c in key)
        yield f"{table.roots['select_by_pk']}({arguments}): {n}"


def due_schema(directory, role):
    """The schema of a role, written in GraphQL's own language."""
    catalog = json.loads((directory / "catalog.json").read_text())
    metadata = json.loads((directory / "metadata.json").read_text())
    entries = entries_of(metadata)
    by_key = {(t["schema"], t["name"]): t for t in catalog["tables"]}
    tables = [Table(e, by_key, role, sets_of(metadata)) for e in entries]
    seen = {t.key: t for t in tables if t.seen}
    roots = [f for t in seen.values() for f in root_fields(t)] or ["no_queries_available: String!"]
    scalars = dict.fromkeys(t.scalar(c) for t in seen.values() for c in t.columns if t.column(c)["type"] == "opaque")
    parts = ["schema { query: query_root }", "scalar bigint", "scalar uuid", block("enum", "order_by", DIRECTIONS)]
    parts += [f"scalar {name}" for name in scalars if name != "String"]
    parts += [comparison(s) for s in ("Boolean", "Int", "String", "bigint", "uuid")]
    parts += [comparison("opaque"), block("type", "query_root", roots)] + [p for t in seen.values() for p in table_types(t, seen)]
    return build_schema("\n".join(parts), assume_valid=True)
