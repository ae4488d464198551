"""The SQL subset of docs/FORMATS.md as trees of lists: `read` takes a text, `write` gives it back.

An expression is ["column", alias, name, form], where the form is one of FORMS, ["int", n], ["text", s], ["uuid", s], ["bool", b], ["object", [[name, expression], ..]], ["count"],
["count", expression, distinct], ["take", function, expression] or ["json_agg", expression, orders]; an order is [expression, direction]. A
condition is ["true"], ["false"], ["test", expression, operator, operands], ["not", c], ["and", cs], ["or", cs] or ["exists", select]. What a
FROM takes its rows from is ["table", schema, name, alias], ["sub", select, alias] or ["one", alias].
"""


class Rows:
    """SELECT .. FROM .. WHERE .. ORDER BY .. LIMIT .. OFFSET"""

    def __init__(self, distinct, outs, source, joins, where, orders, limit, offset):
        self.distinct, self.outs, self.source, self.joins = distinct, outs, source, joins
        self.where, self.orders, self.limit, self.offset = where, orders, limit, offset


class Fold:
    """One output with an aggregate over the rows of a select."""

    def __init__(self, out, inner, alias):
        self.out, self.inner, self.alias = out, inner, alias


DIRECTIONS = ["ASC NULLS FIRST", "ASC NULLS LAST", "DESC NULLS FIRST", "DESC NULLS LAST"]
OPERATORS = [" = ", " <> ", " <= ", " < ", " >= ", " > ", " LIKE ", " ILIKE "]
FUNCTIONS = ["sum", "min", "max"]
FORMS = ["", ' COLLATE "C"', "::text", '::text COLLATE "C"']


class NotSql(Exception):
    """The text is not in the subset."""


# ---- reading

class Reader:
    def __init__(self, text):
        self.text, self.at = text, 0

    def has(self, word):
        return self.text.startswith(word, self.at)

    def takes(self, word):
        if self.has(word):
            self.at += len(word)
            return True
        return False

    def need(self, word):
        if not self.takes(word):
            raise NotSql(f"{word!r} is missing at {self.at}: {self.text[self.at:self.at + 40]!r}")

    def quoted(self, quote):
        self.need(quote)
        found = []
        while True:
            end = self.text.index(quote, self.at)
            found.append(self.text[self.at:end])
            self.at = end + 1
            if not self.takes(quote):
                return quote.join(found)

    def separated(self, item, word=", "):
        items = [item()]
        while self.takes(word):
            items.append(item())
        return items

    def number(self):
        start = self.at
        while self.at < len(self.text) and self.text[self.at].isdigit():
            self.at += 1
        return int(self.text[start:self.at])

    def expression(self):
        if self.takes("TRUE"):
            return ["bool", True]
        if self.takes("FALSE"):
            return ["bool", False]
        if self.has("'"):
            text = self.quoted("'")
            if self.takes("::bigint"):
                return ["int", int(text)]
            if self.takes("::uuid"):
                return ["uuid", text]
            self.need("::text")
            return ["text", text]
        if self.takes("json_build_object("):
            pairs = [] if self.has(")") else self.separated(self.pair)
            self.need(")")
            return ["object", pairs]
        if self.has('"'):
            return ["column", *self.names(), FORMS[self.takes(FORMS[1])]]
        if self.takes("("):
            names = self.names()
            self.need(")")
            form = FORMS[3] if self.takes(FORMS[3]) else FORMS[2]
            if form == FORMS[2]:
                self.need(form)
            return ["column", *names, form]
        return self.aggregate()

    def names(self):
        alias = self.quoted('"')
        self.need(".")
        return alias, self.quoted('"')

    def pair(self):
        name = self.quoted("'")
        self.need("::text, ")
        return [name, self.expression()]

    def aggregate(self):
        if self.takes("count(*)"):
            return ["count"]
        if self.takes("count("):
            distinct = self.takes("DISTINCT ")
            value = self.expression()
            self.need(")")
            return ["count", value, distinct]
        if self.takes("COALESCE(json_agg("):
            value = self.expression()
            self.need(" ORDER BY ")
            orders = self.separated(self.order)
            self.need("), '[]'::json)")
            return ["json_agg", value, orders]
        for function in FUNCTIONS:
            if self.takes(function + "("):
                value = self.expression()
                self.need(")")
                return ["take", function, value]
        raise NotSql(f"no expression at {self.at}: {self.text[self.at:self.at + 40]!r}")

    def order(self):
        value = self.expression()
        for direction in DIRECTIONS:
            if self.takes(" " + direction):
                return [value, direction]
        raise NotSql(f"no direction at {self.at}")

    def out(self):
        value = self.expression()
        self.need(" AS ")
        return [value, self.quoted('"')]

    def condition(self):
        if self.takes("EXISTS ("):
            select = self.select()
            self.need(")")
            return ["exists", select]
        if self.takes("TRUE"):
            return ["true"]
        if self.takes("FALSE"):
            return ["false"]
        self.need("(")
        if self.takes("NOT "):
            inner = self.condition()
            self.need(")")
            return ["not", inner]
        start = self.at
        try:
            return self.test()
        except NotSql:
            self.at = start
        first = self.condition()
        word = " AND " if self.has(" AND ") else " OR "
        items = [first]
        while self.takes(word):
            items.append(self.condition())
        self.need(")")
        return [word.strip().lower(), items]

    def test(self):
        value = self.expression()
        if self.takes(" IS NULL)"):
            return ["test", value, " IS NULL", []]
        if self.takes(" IN ("):
            items = self.separated(self.expression)
            self.need("))")
            return ["test", value, " IN ", items]
        for operator in OPERATORS:
            if self.takes(operator):
                item = self.expression()
                self.need(")")
                return ["test", value, operator, [item]]
        raise NotSql(f"no operator at {self.at}")

    def source(self):
        if self.takes('(SELECT TRUE AS "u") AS '):
            return ["one", self.quoted('"')]
        if self.takes("("):
            select = self.select()
            self.need(") AS ")
            return ["sub", select, self.quoted('"')]
        schema = self.quoted('"')
        self.need(".")
        name = self.quoted('"')
        self.need(" AS ")
        return ["table", schema, name, self.quoted('"')]

    def join(self):
        select = self.select()
        self.need(") AS ")
        alias = self.quoted('"')
        self.need(" ON TRUE")
        return [select, alias]

    def select(self):
        self.need("SELECT ")
        distinct = []
        if self.takes("DISTINCT ON ("):
            distinct = self.separated(self.expression)
            self.need(") ")
        outs = self.separated(self.out)
        self.need(" FROM ")
        source = self.source()
        joins = []
        while self.takes(" LEFT JOIN LATERAL ("):
            joins.append(self.join())
        where = self.condition() if self.takes(" WHERE ") else None
        orders = self.separated(self.order) if self.takes(" ORDER BY ") else []
        limit = self.number() if self.takes(" LIMIT ") else None
        offset = self.number() if self.takes(" OFFSET ") else None
        bare = not (distinct or joins or where or orders) and limit is None and offset is None
        if bare and len(outs) == 1 and source[0] == "sub" and isinstance(source[1], Rows) and holds_aggregate(outs[0][0]):
            return Fold(outs[0], source[1], source[2])
        return Rows(distinct, outs, source, joins, where, orders, limit, offset)


def holds_aggregate(expression):
    if expression[0] == "object":
        return any(holds_aggregate(value) for _, value in expression[1])
    return expression[0] in ("count", "take", "json_agg")


def read(text):
    reader = Reader(text)
    try:
        select = reader.select()
    except (ValueError, IndexError) as error:
        raise NotSql(str(error)) from error
    if reader.at != len(text):
        raise NotSql(f"more text at {reader.at}: {text[reader.at:reader.at + 40]!r}")
    return select


# ---- writing

def quoted(quote, text):
    return quote + text.replace(quote, quote * 2) + quote


def name(text):
    return quoted('"', text)


def expression_text(e):
    kind = e[0]
    if kind == "column":
        names = f"{name(e[1])}.{name(e[2])}"
        return (f"({names})" if e[3] in FORMS[2:] else names) + e[3]
    if kind == "int":
        return f"'{e[1]}'::bigint"
    if kind in ("text", "uuid"):
        return f"{quoted(chr(39), e[1])}::{kind}"
    if kind == "bool":
        return "TRUE" if e[1] else "FALSE"
    if kind == "object":
        return "json_build_object(" + ", ".join(f"{quoted(chr(39), n)}::text, {expression_text(v)}" for n, v in e[1]) + ")"
    if kind == "count":
        return "count(*)" if len(e) == 1 else f"count({'DISTINCT ' if e[2] else ''}{expression_text(e[1])})"
    if kind == "take":
        return f"{e[1]}({expression_text(e[2])})"
    return f"COALESCE(json_agg({expression_text(e[1])} ORDER BY {orders_text(e[2])}), '[]'::json)"


def orders_text(orders):
    return ", ".join(f"{expression_text(value)} {direction}" for value, direction in orders)


def out_text(out):
    return f"{expression_text(out[0])} AS {name(out[1])}"


def condition_text(p):
    kind = p[0]
    if kind in ("true", "false"):
        return kind.upper()
    if kind == "not":
        return f"(NOT {condition_text(p[1])})"
    if kind in ("and", "or"):
        return "(" + f" {kind.upper()} ".join(map(condition_text, p[1])) + ")"
    if kind == "exists":
        return f"EXISTS ({write(p[1])})"
    value = expression_text(p[1])
    if p[2] == " IS NULL":
        return f"({value} IS NULL)"
    if p[2] == " IN ":
        return f"({value} IN ({', '.join(map(expression_text, p[3]))}))"
    return f"({value}{p[2]}{expression_text(p[3][0])})"


def source_text(source):
    if source[0] == "one":
        return f'(SELECT TRUE AS "u") AS {name(source[1])}'
    if source[0] == "sub":
        return f"({write(source[1])}) AS {name(source[2])}"
    return f"{name(source[1])}.{name(source[2])} AS {name(source[3])}"


def write(select):
    if isinstance(select, Fold):
        return f"SELECT {out_text(select.out)} FROM ({write(select.inner)}) AS {name(select.alias)}"
    text = "SELECT "
    if select.distinct:
        text += f"DISTINCT ON ({', '.join(map(expression_text, select.distinct))}) "
    text += ", ".join(map(out_text, select.outs)) + " FROM " + source_text(select.source)
    text += "".join(f" LEFT JOIN LATERAL ({write(inner)}) AS {name(alias)} ON TRUE" for inner, alias in select.joins)
    if select.where is not None:
        text += " WHERE " + condition_text(select.where)
    if select.orders:
        text += " ORDER BY " + orders_text(select.orders)
    if select.limit is not None:
        text += f" LIMIT {select.limit}"
    return text + (f" OFFSET {select.offset}" if select.offset is not None else "")
