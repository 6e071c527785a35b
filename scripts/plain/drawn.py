"""Streams and queries that are drawn from fixed numbers, mostly valid ones."""
import random

KINDS = ('string', 'int', 'uint', 'addr', 'double', 'bool', 'type', 'usr', 'ptr')
NUMBERS = {'usr': 0, 'int': 1, 'uint': 2, 'string': 3, 'addr': 4, 'double': 5, 'bool': 6, 'type': 7, 'ptr': 11}
TEXTS = {
    'int': ('0', '7', '-7', '007', '-0', '77371252455336267181195264', '77371252455336267181195265', 'x', ''),
    'uint': ('0', '12', '18446744073709551615', '18446744073709551616', '-1'),
    'addr': ('0x1f', 'FF', '0', '0x', '11112222333344445'),
    'double': ('0.25', '-0.0', '1e-05', '.5', '5.', '3', '0.1234567891', '-2.5', '0.000000001'),
    'bool': ('true', '0', 'yes'),
    'type': ('int', 'double', 'text'),
}
NAMES = ('function', 'loop', 'x', 'y', 'count', 'sum#x', 'path', 'a\\,b', 'é')
QUERIES = (
    'select path,count() group by path order by count desc', 'where function', 'where not x', 'where x>3,y<=7',
    'where x=0.25', 'select sum(x),min(x),max(x),avg(x),count()', 'select sum(x) as s,count() group by y,function',
    'let z=truncate(x,5) select z,count() group by z', 'let z=ratio(x,y,100),w=sum(x,y) order by w,z desc',
    'let z=first(loop,function) group by z', 'let z=scale(x,-3)', 'group by path,x', 'aggregate percent_total(x) group by loop',
    'select inclusive_sum(x) as i,sum(x) group by path', 'select x,y,x as again', 'order by x desc,y', 'select *', 'group by nosuch',
    'select count( where x', 'format xml', 'where x>', 'let a=mean(x)', 'select a b', 'where x,,y', 'group path', 'select "a\\"b', ';',
)
FORMATS = ('', ' format expand', ' format table', ' format tree', ' format json')


class Drawing:
    def __init__(self, draw):
        self.draw, self.lines, self.attributes, self.nodes = draw, [], [], []
        self.next = 12

    def number(self):
        self.next += self.draw.choice((1, 1, 1, 5))
        return self.next

    def attribute(self):
        kind, name, props = self.draw.choice(KINDS), self.draw.choice(NAMES), self.draw.choice((0, 1, 65, 276, 2113))
        above = NUMBERS[kind]
        if props:
            number = self.number()
            self.lines.append(f'__rec=node,id={number},attr=10,data={props},parent={above}')
            above = number
        number = self.number()
        self.lines.append(f'__rec=node,id={number},attr=8,data={name},parent={above}')
        self.attributes.append((number, kind))

    def text(self, kind):
        return self.draw.choice(TEXTS.get(kind, ('main', 'a', 'b', '', 'c d', 'x\\=y', 'two\\nlines', 'ä')))

    def node(self):
        number, (attr, kind) = self.number(), self.draw.choice(self.attributes)
        parent = f',parent={self.draw.choice(self.nodes)}' if self.nodes and self.draw.random() < 0.8 else ''
        fields = [f'id={number}', f'attr={attr}', f'data={self.text(kind)}']
        self.draw.shuffle(fields)
        self.lines.append('__rec=node,' + ','.join(fields) + parent)
        self.nodes.append(number)

    def record(self):
        parts = ['__rec=' + self.draw.choice(('ctx',) * 9 + ('globals',))]
        if self.nodes and self.draw.random() < 0.8:
            parts.append('ref=' + '='.join(str(self.draw.choice(self.nodes)) for _ in range(self.draw.choice((1, 1, 2)))))
        if self.draw.random() < 0.7:
            imms = [self.draw.choice(self.attributes) for _ in range(self.draw.randrange(1, 4))]
            parts += ['attr=' + '='.join(str(attr) for attr, _ in imms), 'data=' + '='.join(self.text(kind) for _, kind in imms)]
        self.lines.append(','.join(parts))

    def fault(self):
        place = self.draw.randrange(len(self.lines))
        line = self.lines[place]
        self.lines.insert(place + 1, line.replace('data=', 'data=1') if self.draw.random() < 0.2 else '')
        self.lines[place] = self.draw.choice((
            line + ',', line + ',id', line + ',ref=x', line + ',ref=99999', line.replace('id=', 'id=1'), line.replace('attr=', 'attr=='),
            line + '\\', line + ',key=v', line.replace('__rec', 'rec'), line.replace('data=', 'date='), line + '\r', ' ', '', line + ',attr=12',
            line.replace('parent=', 'parent=1'), line + ',__rec=ctx', line.replace('attr=8', 'attr=3'), line))

    def stream(self):
        for _ in range(self.draw.randrange(1, 5)):
            self.attribute()
        for _ in range(self.draw.randrange(3, 25)):
            self.draw.choice((self.node, self.record, self.record, self.attribute if self.draw.random() < 0.2 else self.record))()
        # a value that isn't of its kind ends the stream for what follows, so most streams keep good texts only
        if self.draw.random() < 0.3:
            self.fault()
        return '\n'.join(self.lines).encode() + self.draw.choice((b'\n', b'', b'\n\n'))


def drawn_cases():
    """Words and bytes of 600 cases, with queries of each format."""
    for number in range(600):
        draw = random.Random(number)
        if draw.random() < 0.7:
            for kind in TEXTS:
                TEXTS[kind] = GOOD[kind]
        else:
            TEXTS.update(ALL)
        data = Drawing(draw).stream()
        if draw.random() < 0.1:
            data = data[:draw.randrange(len(data) + 1)]
        words = [] if draw.random() < 0.8 else ['--globals=' + draw.choice(('off', 'join', 'join', 'on'))]
        if draw.random() < 0.85:
            words.insert(draw.randrange(len(words) + 1), '--q=' + draw.choice(QUERIES) + draw.choice(FORMATS))
        yield words, data


ALL = dict(TEXTS)
GOOD = {
    'int': ('0', '7', '-7', '007', '-0', '77371252455336267181195264'), 'uint': ('0', '12', '18446744073709551615'),
    'addr': ('0x1f', 'FF', '0'), 'double': ALL['double'], 'bool': ('true', '0'), 'type': ('int', 'double'),
}
