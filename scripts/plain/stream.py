"""What the bytes of a `.cali` stream mean, line by line, or their first fault."""
from collections import namedtuple

from .values import KINDS, is_decimal, read_value

Attribute = namedtuple('Attribute', 'name kind props')
Entry = namedtuple('Entry', 'attr value')
Node = namedtuple('Node', 'attr value parent path')   # by ids; the path as entries from the root
Record = namedtuple('Record', 'paths imms')

MOST_ID = 2 ** 64 - 1
NAME, TYPE, PROP = 8, 9, 10
NAME_ATTRIBUTE = Attribute('cali.attribute.name', 'string', 0)
TYPE_ATTRIBUTE = Attribute('cali.attribute.type', 'type', 0)
PROP_ATTRIBUTE = Attribute('cali.attribute.prop', 'int', 0)


class Fault(Exception):
    pass


def lines_of(data):
    lines = data.split(b'\n')
    return lines[:-1] if lines[-1] == b'' else lines


def fields_of(line):
    """The fields of a line, each a list of a key and its values; the marks are those no backslash takes."""
    fields, place, text = [['']], 0, line
    while place < len(text):
        mark = text[place]
        if mark == '\\':
            place += 1
            if place == len(text):
                raise Fault('BadField')
            fields[-1][-1] += '\n' if text[place] == 'n' else text[place]
        elif mark == ',':
            fields.append([''])
        elif mark == '=':
            fields[-1].append('')
        else:
            fields[-1][-1] += mark
        place += 1
    if any(len(field) < 2 or field[0] == '' for field in fields):
        raise Fault('BadField')
    if len({field[0] for field in fields}) < len(fields):
        raise Fault('BadField')
    return fields


def built_in():
    nodes = {}
    for kind, number in KINDS.items():
        entry = Entry(TYPE_ATTRIBUTE, ('kind', kind))
        nodes[number] = Node(TYPE, entry.value, None, (entry,))
    for number, attribute in ((NAME, NAME_ATTRIBUTE), (TYPE, TYPE_ATTRIBUTE), (PROP, PROP_ATTRIBUTE)):
        above, entry = KINDS[attribute.kind], Entry(NAME_ATTRIBUTE, ('text', attribute.name))
        nodes[number] = Node(NAME, entry.value, above, nodes[above].path + (entry,))
    return nodes


class Stream:
    """A finite map from ids to nodes, the records so far, and the globals."""

    def __init__(self):
        self.nodes, self.rows, self.globals = built_in(), [], Record([], [])

    def nearest(self, number, attribute):
        """The value of the nearest node above one with this attribute, by its id."""
        number = self.nodes[number].parent
        while number is not None:
            if self.nodes[number].attr == attribute:
                return self.nodes[number].value
            number = self.nodes[number].parent
        return None

    def attribute(self, number):
        """The attribute that a node is, or None."""
        node = self.nodes[number]
        if node.attr != NAME:
            return None
        kind, props = self.nearest(number, TYPE), self.nearest(number, PROP)
        return Attribute(node.value[1], kind[1], props[1] if props else 0)

    def read_line(self, line):
        try:
            text = line.decode()
        except UnicodeDecodeError:
            raise Fault('NotText')
        if text == '':
            return
        fields = fields_of(text)
        head, rest = fields[0], {field[0]: field[1:] for field in fields[1:]}
        if head[0] != '__rec' or len(head) != 2 or head[1] not in ('node', 'ctx', 'globals'):
            raise Fault('NoRecord')
        if head[1] == 'node':
            self.read_node(rest)
        else:
            record = self.read_record(rest)
            if head[1] == 'ctx':
                self.rows.append(record)
            else:
                self.globals.paths.extend(record.paths)
                self.globals.imms.extend(record.imms)

    def ids(self, texts):
        if any(not is_decimal(text) or int(text) > MOST_ID for text in texts):
            raise Fault('BadNumber')
        return [int(text) for text in texts]

    def known(self, numbers):
        if any(number not in self.nodes for number in numbers):
            raise Fault('UnknownNode')

    def attributes(self, numbers):
        found = [self.attribute(number) for number in numbers]
        if None in found:
            raise Fault('NotAttribute')
        return found

    def read_node(self, fields):
        mine = {key: fields[key] for key in ('id', 'attr', 'data', 'parent') if key in fields}
        if not {'id', 'attr', 'data'} <= set(mine) or any(len(values) != 1 for values in mine.values()):
            raise Fault('MissingField')
        numbers = self.ids([mine[key][0] for key in ('id', 'attr', 'parent') if key in mine])
        number, attr, parent = numbers[0], numbers[1], numbers[2] if len(numbers) == 3 else None
        self.known(numbers[1:])
        attribute, = self.attributes([attr])
        value = read_value(attribute.kind, mine['data'][0])
        if value is None or (attr == PROP and not 0 <= value[1] < 2 ** 32):
            raise Fault('BadValue')
        path = (self.nodes[parent].path if parent is not None else ()) + (Entry(attribute, value),)
        node = Node(attr, value, parent, path)
        if attr == NAME and self.kind_above(parent) is None:
            raise Fault('NoKind')
        if len(path) > 1024:
            raise Fault('TooDeep')
        if self.nodes.setdefault(number, node)[:3] != node[:3]:
            raise Fault('Redefined')

    def kind_above(self, number):
        while number is not None and self.nodes[number].attr != TYPE:
            number = self.nodes[number].parent
        return number

    def read_record(self, fields):
        refs, attrs, data = (fields.get(key, []) for key in ('ref', 'attr', 'data'))
        if len(attrs) != len(data):
            raise Fault('Uneven')
        refs, attrs = self.ids(refs), self.ids(attrs)
        self.known(refs + attrs)
        attributes = self.attributes(attrs)
        values = [read_value(attribute.kind, text) for attribute, text in zip(attributes, data)]
        if None in values:
            raise Fault('BadValue')
        imms = [Entry(attribute, value) for attribute, value in zip(attributes, values)]
        return Record([self.nodes[ref].path for ref in refs], imms)


def read_stream(data):
    """The stream, and None; or None, and the line and kind of the first fault."""
    stream = Stream()
    for number, line in enumerate(lines_of(data), 1):
        try:
            stream.read_line(line)
        except Fault as fault:
            return None, (number, str(fault))
    return stream, None
