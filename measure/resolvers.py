"""What nested resolvers give over the rows that a session may see, by plain recursion: no SQL, and nothing of hq.

A model is the list of the tracked tables, each a `Table`; `rows` has for each of them its rows, as dictionaries by column. `World` is
such a database as one session sees it, and says what a list, an object or an aggregate of it is.
"""
import csv
import functools
import json
import re
import uuid


class Table:
    """A tracked table: `names` are the GraphQL names of its columns; a relationship is its kind, table, pairs and written form."""

    def __init__(self, at, catalog):
        self.at, self.catalog, self.rels, self.perms = at, catalog, {}, {}
        self.kinds = {c["name"]: c["type"] for c in catalog["columns"]}
        self.nullable = {c["name"]: c.get("nullable", True) for c in catalog["columns"]}
        self.name, self.names = catalog["name"], {}


def sees(t, role):
    return role == "admin" or role in t.perms


def shown(t, role):
    """The columns that a role may see, of `admin` all, in the catalog's order."""
    return list(t.kinds) if role == "admin" else t.perms[role]["columns"]


def ordered(t, role):
    """Those of them whose values are compared."""
    return [c for c in shown(t, role) if t.kinds[c] != "opaque"]


def aggregates(t, role):
    return role == "admin" or t.perms[role].get("allow_aggregations", False)


# ---- reading a directory

def table_key(table):
    return ("public", table) if isinstance(table, str) else (table.get("schema", "public"), table["name"])


def entries_of(metadata):
    """The tables of an export: at the top in version 2, and in the one source in version 3."""
    metadata = metadata.get("metadata", metadata)
    return (metadata if metadata["version"] == 2 else metadata["sources"][0])["tables"]


def sets_of(metadata):
    """The inherited roles of an export, each with its set."""
    metadata = metadata.get("metadata", metadata)
    return {i["role_name"]: i["role_set"] for i in metadata.get("inherited_roles", [])}


def is_free_name(name):
    return re.fullmatch("[A-Za-z_][A-Za-z_0-9]*", name) is not None and not name.startswith("__")


def combined(columns, permissions):
    """What several permissions on a table permit together; `masks` has for a column that one of them lacks when its cells are shown."""
    either = lambda ps: ps[0]["filter"] if len(ps) == 1 else {"_or": [p["filter"] for p in ps]}
    shown = [c for c in columns if any(c in p["columns"] for p in permissions)]
    limits = [p.get("limit") for p in permissions]
    return {"columns": shown, "filter": either(permissions), "limit": None if None in limits else max(limits),
            "allow_aggregations": any(p.get("allow_aggregations") for p in permissions),
            "masks": {c: either([p for p in permissions if c in p["columns"]]) for c in shown if any(c not in p["columns"] for p in permissions)}}


def inherit(model, sets):
    """Gives each role of `sets` that has no permission on a table what the roles of its set have together, each counted once."""
    for t in model:
        own = dict(t.perms)
        for role, roles in sets.items():
            permissions = [own[r] for r in dict.fromkeys(roles) if r in own]
            if permissions and role not in own:
                t.perms[role] = combined(t.kinds, permissions)


def pairs_of(t, by_key, using):
    """The remote table of a relationship and the pairs of columns that link."""
    if "manual_configuration" in using:
        manual = using["manual_configuration"]
        return by_key[table_key(manual["remote_table"])], sorted(manual["column_mapping"].items())
    on = using["foreign_key_constraint_on"]
    owner = by_key[table_key(on["table"])] if isinstance(on, dict) else t
    columns = (on.get("columns") or [on["column"]]) if isinstance(on, dict) else [on] if isinstance(on, str) else on
    key = next(k for k in owner.catalog["foreign_keys"] if set(k["columns"]) == set(columns) and (owner is t or table_key(k["table"]) == table_key(t.catalog)))
    pairs = list(zip(key["columns"], key["references"]))
    return (owner, [(b, a) for a, b in pairs]) if isinstance(on, dict) else (by_key[table_key(key["table"])], pairs)


def read_model(directory):
    """The tracked tables of a directory, whose metadata has the forms that the examples have."""
    catalog = {table_key(t): t for t in json.load(open(f"{directory}/catalog.json", encoding="utf-8"))["tables"]}
    metadata = json.load(open(f"{directory}/metadata.json", encoding="utf-8"))
    entries = entries_of(metadata)
    model = [Table(at, catalog[table_key(e["table"])]) for at, e in enumerate(entries)]
    by_key = {table_key(t.catalog): t for t in model}
    for t, entry in zip(model, entries):
        schema, name = table_key(t.catalog)
        configuration = entry.get("configuration") or {}
        t.name = configuration.get("custom_name") or (name if schema == "public" else f"{schema}_{name}")
        custom = {**configuration.get("custom_column_names", {}), **{c: v.get("custom_name") for c, v in configuration.get("column_config", {}).items()}}
        t.names = {c: custom.get(c) or c for c in t.kinds}
        for kind in ("object", "array"):
            for r in entry.get(f"{kind}_relationships", []):
                t.rels[r["name"]] = (kind, *pairs_of(t, by_key, r["using"]), r["using"])
        for p in entry.get("select_permissions", []):
            given = p["permission"]["columns"]
            columns = [c for c in t.kinds if (given == "*" or c in given) and is_free_name(t.names[c])]
            if columns:
                t.perms[p["role"]] = {**p["permission"], "columns": columns}
    inherit(model, sets_of(metadata))
    return model


def read_rows(directory, model):
    """The rows of the table files, by tracked table."""
    taken = {"integer": int, "bigint": int, "text": str, "boolean": lambda text: text in ("t", "true"), "uuid": str, "opaque": str}
    found = []
    for t in model:
        with open(f"{directory}/{'.'.join(table_key(t.catalog))}.csv", encoding="utf-8", newline="") as file:
            found.append([{c: None if v == "\\N" else taken[t.kinds[c]](v) for c, v in row.items()} for row in csv.DictReader(file)])
    return found


# ---- what is true, seen and selected

ELEMENT = r' *(?:"((?:[^"\\]|\\.)*)"|([^{},"\\ ](?:[^{},"\\]*[^{},"\\ ])?)) *'
LIST = re.compile(rf"\{{\}}|\{{{ELEMENT}(?:,{ELEMENT})*\}}", re.DOTALL)


def listed(text):
    """The elements of a session list, as PostgreSQL writes an array of one dimension without NULL; None where this is no such list."""
    if not LIST.fullmatch(text):
        return None
    elements = [] if text == "{}" else [(m[1], m[2]) for m in re.finditer(rf"{ELEMENT}(?:,|\}}$)", text[1:], re.DOTALL)]
    if any(plain is not None and plain.lower() == "null" for _, plain in elements):
        return None
    return [plain if quoted is None else re.sub(r"\\(.)", r"\1", quoted, flags=re.DOTALL) for quoted, plain in elements]


COLUMN_OPERATORS = {"_ceq": "_eq", "_cne": "_neq", "_clt": "_lt", "_clte": "_lte", "_cgt": "_gt", "_cgte": "_gte"}


def compares(op, c):
    return {"_eq": c == 0, "_neq": c != 0, "_lt": c < 0, "_lte": c <= 0, "_gt": c > 0, "_gte": c >= 0}[op]

def order_of(value):
    return value.encode() if isinstance(value, str) else value


def compare(a, b):
    a, b = order_of(a), order_of(b)
    return (a > b) - (a < b)


def matches(pattern, text, fold):
    if fold:
        lower = lambda s: "".join(c.lower() if "A" <= c <= "Z" else c for c in s)
        pattern, text = lower(pattern), lower(text)
    parts, at = [], 0
    while at < len(pattern):
        if pattern[at] == "\\":
            parts.append(("is", pattern[at + 1]))
            at += 2
        else:
            parts.append({"%": ("any", ""), "_": ("one", "")}.get(pattern[at], ("is", pattern[at])))
            at += 1

    @functools.lru_cache(None)
    def from_(p, t):
        if p == len(parts):
            return t == len(text)
        kind, c = parts[p]
        if kind == "any":
            return from_(p + 1, t) or (t < len(text) and from_(p, t + 1))
        return t < len(text) and (kind == "one" or text[t] == c) and from_(p + 1, t + 1)
    return from_(0, 0)


def no(x):
    return None if x is None else not x


def all_of(xs):
    xs = list(xs)
    return False if False in xs else None if None in xs else True


def any_of(xs):
    xs = list(xs)
    return True if True in xs else None if None in xs else False


class World:
    """A database as the session of `role` and `variables` sees it; the names of variables are in small letters."""

    def __init__(self, model, rows, role, variables):
        self.model, self.role, self.variables, self.views, self.links, self.shows = model, role, variables, {}, {}, {}
        self.rows = [sorted(of, key=lambda r, t=t: [order_of(r[k]) for k in t.catalog["primary_key"]]) for t, of in zip(model, rows)]

    def permitted(self, t):
        """The rows that the session may see, in key order."""
        if t.at not in self.views:
            allows = lambda r: self.role == "admin" or self.holds(t, r, t.perms[self.role]["filter"], True) is True
            self.views[t.at] = [r for r in self.rows[t.at] if allows(r)] if sees(t, self.role) else []
        return self.views[t.at]

    def cell(self, t, row, column):
        """The cell of a permitted row as the session sees it: None where its column is masked and the mask is not true."""
        mask = t.perms[self.role].get("masks", {}).get(column) if self.role != "admin" else None
        if mask is None:
            return row[column]
        at = (t.at, id(row), column)
        if at not in self.shows:
            self.shows[at] = self.holds(t, row, mask, True) is True
        return row[column] if self.shows[at] else None

    def related(self, rel, row, all_rows):
        """The rows that a relationship links to a row: of all rows, or of those that the session may see."""
        _, other, pairs, _ = rel
        if (id(rel), all_rows) not in self.links:
            of = self.links[id(rel), all_rows] = {}
            for r in self.rows[other.at] if all_rows else self.permitted(other):
                of.setdefault(tuple(r[b] for _, b in pairs), []).append(r)
        values = tuple(row[a] for a, _ in pairs)
        return [] if None in values else self.links[id(rel), all_rows].get(values, [])

    def operand(self, kind, value, in_filter):
        """A constant, or in a permission's filter the value of a session variable."""
        if in_filter and isinstance(value, str) and value.lower().startswith("x-hasura-"):
            value = self.variables[value.lower()]
        if isinstance(value, str) and kind == "boolean":
            return value in ("t", "true")
        if kind == "uuid":
            return str(uuid.UUID(value))
        return int(value) if kind in ("integer", "bigint") else value

    def operands(self, value, in_filter):
        """A list, or in a permission's filter what the value of a session variable lists."""
        return listed(self.variables[value.lower()]) if in_filter and isinstance(value, str) else value

    def test(self, t, row, column, op, value, in_filter):
        kind, cell = t.kinds[column], row[column] if in_filter else self.cell(t, row, column)
        if in_filter and op in COLUMN_OPERATORS:
            return None if None in (cell, row[value]) else compares(COLUMN_OPERATORS[op], compare(cell, row[value]))
        if op == "_is_null":
            return (cell is None) == value
        if op in ("_in", "_nin"):
            found = any_of(None if cell is None else compare(cell, self.operand(kind, v, in_filter)) == 0 for v in self.operands(value, in_filter))
            return found if op == "_in" else no(found)
        if cell is None:
            return None
        if op in ("_like", "_nlike", "_ilike", "_nilike"):
            found = matches(self.operand(kind, value, in_filter), cell, op in ("_ilike", "_nilike"))
            return found if op in ("_like", "_ilike") else not found
        return compares(op, compare(cell, self.operand(kind, value, in_filter)))

    def holds(self, t, row, expression, in_filter):
        found = []
        for name, value in expression.items():
            if name == "_not":
                found.append(no(self.holds(t, row, value, in_filter)))
            elif name == "_and":
                found.append(all_of(self.holds(t, row, x, in_filter) for x in value))
            elif name == "_or":
                found.append(any_of(self.holds(t, row, x, in_filter) for x in value))
            elif name == "_exists" and in_filter:
                other = next(u for u in self.model if table_key(u.catalog) == table_key(value["_table"]))
                found.append(any(self.holds(other, r, value["_where"], True) is True for r in self.rows[other.at]))
            elif name in t.rels:
                other = t.rels[name][1]
                found.append(any(self.holds(other, r, value, in_filter) is True for r in self.related(t.rels[name], row, in_filter)))
            else:
                column = name if in_filter else next(n for n, g in t.names.items() if g == name)
                operators = value if isinstance(value, dict) else {"_eq": value}
                found.append(all_of(self.test(t, row, column, op, x, in_filter) for op, x in operators.items()))
        return all_of(found)

    def sort_cell(self, t, row, path, column):
        for name in path:
            of = self.related(t.rels[name], row, False)
            if not of:
                return None
            t, row = t.rels[name][1], of[0]
        return self.cell(t, row, column)

    def selected(self, t, rows, args, limited):
        rows = [r for r in rows if self.holds(t, r, args.get("where", {}), False) is True]
        sorts = args.get("sorts") or [((), c, False, False) for c in args.get("distinct", [])]

        def by(a, b):
            for path, column, desc, nulls_first in sorts:
                x, y = self.sort_cell(t, a, path, column), self.sort_cell(t, b, path, column)
                if x is None or y is None:
                    c = 0 if x is y else (-1 if (x is None) == nulls_first else 1)
                else:
                    c = -compare(x, y) if desc else compare(x, y)
                if c:
                    return c
            return 0
        rows = sorted(rows, key=functools.cmp_to_key(by))
        if args.get("distinct"):
            seen, kept = set(), []
            for r in rows:
                group = tuple(self.cell(t, r, c) for c in args["distinct"])
                if group not in seen:
                    seen.add(group)
                    kept.append(r)
            rows = kept
        rows = rows[args.get("offset", 0):]
        limits = [n for n in (args.get("limit"), t.perms[self.role].get("limit") if limited and self.role != "admin" else None) if n is not None]
        return rows[:min(limits)] if limits else rows

    # ---- what resolvers give

    def object(self, t, row, fields):
        out = {}
        for key, kind, *rest in fields:
            if kind == "column":
                out[key] = self.cell(t, row, rest[0])
            elif kind == "typename":
                out[key] = t.name
            elif kind == "object":
                of = self.related(t.rels[rest[0]], row, False)
                out[key] = self.object(t.rels[rest[0]][1], of[0], rest[1]) if of else None
            else:
                other = t.rels[rest[0]][1]
                out[key] = self.rows_field(other, self.related(t.rels[rest[0]], row, False), kind, rest[1], rest[2])
        return out

    def rows_field(self, t, rows, kind, args, fields):
        if kind == "list":
            return [self.object(t, r, fields) for r in self.selected(t, rows, args, True)]
        out = {}
        for key, part, inner in fields:
            if part == "nodes":
                out[key] = [self.object(t, r, inner) for r in self.selected(t, rows, args, True)]
            elif part == "typename":
                out[key] = f"{t.name}_aggregate"
            else:
                of = self.selected(t, rows, args, False)
                out[key] = {k: self.summary(t, of, f) for k, f in inner}
        return out

    def summary(self, t, rows, field):
        kind, *rest = field
        if kind == "typename":
            return f"{t.name}_aggregate_fields"
        if kind == "count":
            column, distinct = rest
            cells = [self.cell(t, r, column) for r in rows] if column else rows
            if column:
                cells = [c for c in cells if c is not None]
                cells = set(cells) if distinct else cells
            return len(cells)
        out = {}
        for key, column in rest[0]:
            cells = [c for c in (self.cell(t, r, column) for r in rows) if c is not None]
            out[key] = None if not cells else sum(cells) if kind == "sum" else (min if kind == "min" else max)(cells, key=order_of)
        return out
