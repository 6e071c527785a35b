"""The canonical text of records: nodes where they are first needed, and a line for each record."""
from .stream import NAME, PROP, TYPE
from .values import KINDS, print_value


def escaped(text):
    return text.replace('\\', '\\\\').replace(',', '\\,').replace('=', '\\=').replace('\n', '\\n')


class Writer:
    def __init__(self):
        self.nodes, self.text = {}, ''

    def node(self, parent, attr, value):
        key = parent, attr, value
        if key not in self.nodes:
            self.nodes[key] = 12 + len(self.nodes)
            below = '' if parent is None else f',parent={parent}'
            self.text += f'__rec=node,id={self.nodes[key]},attr={attr},data={escaped(print_value(value))}{below}\n'
        return self.nodes[key]

    def attribute(self, attribute):
        above = KINDS[attribute.kind]
        if attribute.props:
            above = self.node(above, PROP, ('int', attribute.props))
        return self.node(above, NAME, ('text', attribute.name))

    def record(self, word, record):
        refs = []
        for path in record.paths:
            node = None
            for entry in path:
                node = self.node(node, self.attribute(entry.attr), entry.value)
            refs.append(str(node))
        attrs = [str(self.attribute(e.attr)) for e in record.imms]
        data = [escaped(print_value(e.value)) for e in record.imms]
        line = f'__rec={word}'
        for key, values in (('ref', refs), ('attr', attrs), ('data', data)):
            line += f',{key}=' + '='.join(values) if values else ''
        self.text += line + '\n'


def canonical_text(rows, everywhere):
    writer = Writer()
    for row in rows:
        writer.record('ctx', row)
    if everywhere.paths or everywhere.imms:
        writer.record('globals', everywhere)
    return writer.text
