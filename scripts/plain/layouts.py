"""The four layouts of an answer."""
import json

from .meaning import NESTED, cell, flat, hierarchy, single_number
from .values import print_value


def escaped(text):
    return text.replace('\\', '\\\\').replace(',', '\\,').replace('=', '\\=').replace('\n', '\\n')


def expand(answer):
    lines = []
    for row in answer.rows:
        if answer.all:
            parts = [(name, name) for name in dict.fromkeys(e.attr.name for e in flat(row))]
        else:
            parts = [(column.header, column.name) for column in answer.columns]
        shown = []
        for header, name in parts:
            texts = cell(row, name)
            if texts:
                shown.append(escaped(header) + '=' + '/'.join(escaped(text) for text in texts))
        lines.append(','.join(shown))
    return lines


def joined(texts):
    return '/'.join(texts).replace('\n', '\\n') if texts else ''


def laid_out(columns):
    """Lines of columns; each column is its header, its cells, and whether it is right-aligned."""
    if not columns:
        return []
    widths = [max(len(text) for text in [header] + cells) for header, cells, _ in columns]
    lines = []
    for row in zip(*([header] + cells for header, cells, _ in columns)):
        texts = [text.rjust(width) if right else text.ljust(width)
                 for text, width, (_, _, right) in zip(row, widths, columns)]
        lines.append(' '.join(texts).rstrip(' '))
    return lines


def is_right(rows, name):
    there = [row for row in rows if row is not None and cell(row, name)]
    return bool(there) and all(single_number(row, name) is not None for row in there)


def table(answer):
    return laid_out([(column.header.replace('\n', '\\n'), [joined(cell(row, column.name)) for row in answer.rows],
                      is_right(answer.rows, column.name)) for column in answer.columns])


def tree_lines(rows):
    """(label, row or None) in the order of the tree."""
    by_node, children, order = {}, {(): []}, []
    for row in rows:
        path = hierarchy(row)
        by_node.setdefault(path, []).append(row)
        for depth in range(1, len(path) + 1):
            if path[:depth] not in children:
                children[path[:depth]] = []
                children[path[:depth - 1]].append(path[:depth])
    lines = [('', row) for row in by_node.get((), [])]
    waiting = list(reversed(children[()]))
    while waiting:
        node = waiting.pop()
        label = '  ' * (len(node) - 1) + print_value(node[-1].value).replace('\n', '\\n')
        lines.extend((label, row) for row in by_node.get(node, [None]))
        waiting.extend(reversed(children[node]))
    return lines


def tree(answer):
    lines = tree_lines(answer.rows)
    hidden = {'path'} | {e.attr.name for row in answer.rows for e in hierarchy(row)}
    columns = [('Path', [label for label, _ in lines], False)]
    for column in answer.columns:
        if column.name not in hidden:
            cells = [joined(cell(row, column.name)) if row else '' for _, row in lines]
            columns.append((column.header.replace('\n', '\\n'), cells, True))
    return laid_out(columns)


def json_line(answer):
    objects = []
    for row in answer.rows:
        shown = {}
        for column in answer.columns:
            texts, number = cell(row, column.name), single_number(row, column.name)
            if texts:
                fits = number and number[0] != 'fixed' and -2 ** 63 <= number[1] < 2 ** 64
                shown[column.header] = number[1] if fits else '/'.join(texts)
        objects.append({key: shown[key] for key in sorted(shown, key=str.encode)})
    return [json.dumps(objects, ensure_ascii=False, separators=(',', ':'))]


LAYOUTS = {'expand': expand, 'table': table, 'tree': tree, 'json': json_line}


def layout(query, answer):
    return ''.join(line + '\n' for line in LAYOUTS[query.format](answer))
