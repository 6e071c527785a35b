"""What a CalQL text asks for, or its first fault."""
from collections import namedtuple

from .values import is_decimal

Query = namedtuple('Query', 'lets select aggs conds group order format')
Let = namedtuple('Let', 'name op args n')
Item = namedtuple('Item', 'name header')
Agg = namedtuple('Agg', 'kernel attr name')
Cond = namedtuple('Cond', 'negated name rel value')   # rel None: the name is there
OrderKey = namedtuple('OrderKey', 'name down')
Token = namedtuple('Token', 'kind text place')        # kinds: word, quoted, sign, end

WORD = frozenset('abcdefghijklmnopqrstuvwxyzABCDEFGHIJKLMNOPQRSTUVWXYZ0123456789_.-:#/@')
SIGNS = ('<=', '>=', ',', '(', ')', '*', '=', '<', '>')
KEYWORDS = frozenset('let select aggregate where group order by format as not asc desc'.split())
CLAUSES = ('let', 'select', 'aggregate', 'where', 'group', 'order', 'format')
KERNELS = {'count': 0, 'sum': 1, 'min': 1, 'max': 1, 'avg': 1, 'inclusive_sum': 1, 'percent_total': 1}
OPERATORS = {'truncate': (1, 1), 'scale': (1, 1), 'ratio': (2, 2), 'first': (1, 16), 'sum': (1, 16)}
FORMATS = ('table', 'tree', 'json', 'expand')
MOST_NUMBER = 2147483647


class QueryFault(Exception):
    def __init__(self, place, kind):
        super().__init__(place, kind)


class Parser:
    def __init__(self, text):
        self.text, self.place, self.ahead = text, 0, None

    def fault(self, kind, token=None):
        place = (token or self.look()).place
        raise QueryFault(len(self.text[:place].encode()), kind)

    def look(self):
        if self.ahead is None:
            self.ahead = self.token()
        return self.ahead

    def take(self):
        token, self.ahead = self.look(), None
        return token

    def token(self):
        text, place = self.text, self.place
        while place < len(text) and text[place] in ' \t\n':
            place += 1
        start = place
        if place == len(text):
            self.place = place
            return Token('end', '', start)
        for sign in SIGNS:
            if text.startswith(sign, place):
                self.place = place + len(sign)
                return Token('sign', sign, start)
        if text[place] == '"':
            quoted, place = '', place + 1
            while place < len(text) and text[place] != '"':
                place += text[place] == '\\'
                quoted += text[place:place + 1]
                place += 1
            if place >= len(text):
                raise QueryFault(len(text[:start].encode()), 'OpenQuote')
            self.place = place + 1
            return Token('quoted', quoted, start)
        while place < len(text) and (text[place] in WORD or ord(text[place]) > 127):
            place += 1
        if place == start:
            raise QueryFault(len(text[:start].encode()), 'BadToken')
        self.place = place
        return Token('word', text[start:place], start)

    def keyword(self):
        token = self.look()
        word = ''.join(chr(ord(c) + 32) if 'A' <= c <= 'Z' else c for c in token.text)
        return word if token.kind == 'word' and word in KEYWORDS else None

    def is_sign(self, sign):
        return self.look().kind == 'sign' and self.look().text == sign

    def sign(self, sign):
        if not self.is_sign(sign):
            self.fault('ExpectedSign')
        return self.take()

    def is_name(self):
        return self.look().kind == 'quoted' or (self.look().kind == 'word' and self.keyword() is None)

    def name(self):
        if not self.is_name():
            self.fault('ExpectedName')
        return self.take()

    def listed(self, item):
        items = [item()]
        while self.is_sign(','):
            self.take()
            items.append(item())
        return items

    def number(self, low):
        token = self.look()
        digits = token.text[1:] if token.text.startswith('-') else token.text
        if token.kind != 'word' or not is_decimal(digits) or int(digits) > MOST_NUMBER or int(token.text) < low:
            self.fault('BadNumber')
        return int(self.take().text)

    def let(self):
        name = self.name().text
        self.sign('=')
        op = self.name()
        if op.text not in OPERATORS:
            self.fault('UnknownOp', op)
        self.sign('(')
        args, n, count = [self.name().text], 1, 1
        number_at = {'truncate': 1, 'scale': 1, 'ratio': 2}.get(op.text)
        while self.is_sign(','):
            self.take()
            if count == number_at:
                n = self.number(1 if op.text == 'truncate' else -MOST_NUMBER)
            else:
                args.append(self.name().text)
            count += 1
        self.sign(')')
        least, most = OPERATORS[op.text]
        if not least <= len(args) <= most or (op.text == 'scale' and count < 2):
            self.fault('BadArity', op)
        return Let(name, op.text, args, n)

    def call(self, kernel):
        """The rest of a kernel's call, from its `(`."""
        self.sign('(')
        names = [] if self.is_sign(')') else self.listed(lambda: self.name().text)
        self.sign(')')
        if len(names) != KERNELS[kernel.text]:
            self.fault('BadArity', kernel)
        name = {'count': 'count', 'inclusive_sum': 'inclusive#'}.get(kernel.text, kernel.text + '#') + ''.join(names)
        if self.keyword() == 'as':
            self.take()
            name = self.name().text
        return Agg(kernel.text, names[0] if names else '', name)

    def item(self, aggs):
        name = self.name()
        if self.is_sign('('):
            if name.text not in KERNELS:
                self.fault('UnknownKernel', name)
            agg = self.call(name)
            aggs.append(agg)
            return Item(agg.name, agg.name)
        if self.keyword() == 'as':
            self.take()
            return Item(name.text, self.name().text)
        return Item(name.text, name.text)

    def agg(self):
        name = self.name()
        if name.text not in KERNELS:
            self.fault('UnknownKernel', name)
        return self.call(name)

    def cond(self):
        if self.keyword() == 'not':
            self.take()
            if not self.is_sign('('):
                return self.test(True)
            self.take()
            cond = self.test(True)
            self.sign(')')
            return cond
        return self.test(False)

    def test(self, negated):
        name = self.name().text
        if self.look().kind == 'sign' and self.look().text in ('=', '<', '>', '<=', '>='):
            rel = self.take().text
            return Cond(negated, name, rel, self.name().text)
        return Cond(negated, name, None, None)

    def key(self):
        name, down = self.name().text, False
        if self.keyword() in ('asc', 'desc'):
            down = self.keyword() == 'desc'
            self.take()
        return OrderKey(name, down)

    def by(self):
        if self.keyword() != 'by':
            self.fault('ExpectedBy')
        self.take()

    def format_name(self):
        name = self.name()
        if name.text not in FORMATS:
            self.fault('UnknownFormat', name)
        return name.text

    def query(self):
        seen, selected, aggregated = {}, [], []
        while self.look().kind != 'end':
            clause = self.keyword()
            if clause not in CLAUSES:
                self.fault('ExpectedClause')
            if clause in seen:
                self.fault('DuplicateClause')
            self.take()
            seen[clause] = self.clause(clause, selected, aggregated)
        aggs = {}
        for agg in selected + aggregated:
            aggs.setdefault(agg.name, agg)
        return Query(seen.get('let', []), seen.get('select'), list(aggs.values()), seen.get('where', []),
                     seen.get('group'), seen.get('order', []), seen.get('format', 'expand'))

    def clause(self, clause, selected, aggregated):
        if clause == 'let':
            return self.listed(self.let)
        if clause == 'select':
            if self.is_sign('*'):
                self.take()
                return None
            return self.listed(lambda: self.item(selected))
        if clause == 'aggregate':
            aggregated.extend(self.listed(self.agg))
            return None
        if clause == 'where':
            return self.listed(self.cond)
        if clause == 'group':
            self.by()
            return self.listed(lambda: self.name().text)
        if clause == 'order':
            self.by()
            return self.listed(self.key)
        return self.format_name()


def parse_query(text):
    """The query, and None; or None, and the place in bytes and kind of the first fault."""
    try:
        return Parser(text).query(), None
    except QueryFault as fault:
        return None, fault.args
