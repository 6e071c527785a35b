"""What a query answers on records, computed as it is defined: one filter of the whole list for each group."""
from collections import namedtuple

from .stream import Attribute, Entry, Record
from .values import MOST, NANO, is_number, is_whole, measure, order, print_value, read_value

Answer = namedtuple('Answer', 'rows columns all')
Column = namedtuple('Column', 'header name')
NESTED = 256
RESULT_PROPS = 65


def flat(record):
    return [entry for path in record.paths for entry in path] + list(record.imms)


def hierarchy(record):
    return tuple(e for path in record.paths for e in path if e.attr.props & NESTED)


def last_entry(record, name):
    return next((e for e in reversed(flat(record)) if e.attr.name == name), None)


def last_number(record, name):
    return next((e.value for e in reversed(flat(record)) if e.attr.name == name and is_number(e.value)), None)


def towards_zero(a, b):
    return abs(a) // abs(b) * (1 if (a < 0) == (b < 0) else -1)


def let_value(let, record):
    numbers = [last_number(record, name) for name in let.args]
    if let.op == 'first':
        return next((e.value for e in (last_entry(record, name) for name in let.args) if e), None)
    if let.op == 'sum':
        there = [n for n in numbers if n]
        if not there:
            return None
        if all(is_whole(n) for n in there):
            return limited('int', sum(n[1] for n in there))
        return limited('fixed', sum(measure(n) for n in there))
    if None in numbers:
        return None
    a = numbers[0]
    form = 'fixed' if a[0] == 'fixed' else 'int'
    if let.op == 'truncate':
        step = let.n * (NANO if form == 'fixed' else 1)
        return limited(form, a[1] // step * step)
    if let.op == 'scale':
        return limited(form, a[1] * let.n)
    b = numbers[1]
    if b[1] == 0:
        return None
    if is_whole(a) and is_whole(b):
        return limited('int', towards_zero(a[1] * let.n, b[1]))
    if abs(measure(a) * let.n) > 2 ** 126:
        return None
    return limited('int', towards_zero(measure(a) * let.n, measure(b)))


def limited(form, number):
    return (form, number) if abs(number) <= MOST else None


def kind_of(value):
    return {'fixed': 'double', 'real': 'double', 'text': 'string', 'kind': 'type'}.get(value[0], value[0])


def with_lets(lets, record):
    for let in lets:
        value = let_value(let, record)
        if value is not None:
            entry = Entry(Attribute(let.name, kind_of(value), RESULT_PROPS), value)
            record = Record(record.paths, list(record.imms) + [entry])
    return record


def test_holds(cond, entry):
    value = read_value(entry.attr.kind, cond.value)
    if value is None:
        return False
    a, b = order(entry.value), order(value)
    return {'=': a == b, '<': a < b, '>': a > b, '<=': a <= b, '>=': a >= b}[cond.rel]


def cond_holds(cond, record):
    named = [e for e in flat(record) if e.attr.name == cond.name]
    holds = any(cond.rel is None or test_holds(cond, e) for e in named)
    return holds != cond.negated


def group_of(names, record):
    """The paths and immediates by which a record is grouped."""
    if names is None:
        return tuple(tuple(path) for path in record.paths), ()
    in_paths = [e for path in record.paths for e in path]
    rest_paths, rest_imms, paths, imms = in_paths, list(record.imms), [], []
    for name in names:
        def takes(entry, in_path, name=name):
            return (in_path and entry.attr.props & NESTED) if name == 'path' else entry.attr.name == name
        taken = tuple(e for e in rest_paths if takes(e, True))
        rest_paths = [e for e in rest_paths if not takes(e, True)]
        if taken:
            paths.append(taken)
        imms.extend(e for e in rest_imms if takes(e, False))
        rest_imms = [e for e in rest_imms if not takes(e, False)]
    return tuple(paths), tuple(imms)


def contributions(names, records):
    found = (last_number(record, name) for record in records for name in names)
    return [n for n in found if n is not None]


def total(numbers):
    """The sum of numbers, as a number, or None where nothing contributes or a fixed sum is too large."""
    if not numbers:
        return None
    if all(is_whole(n) for n in numbers):
        return 'int', sum(n[1] for n in numbers)
    size = sum(measure(n) for n in numbers)
    return ('fixed', size) if abs(size) <= 2 ** 118 else None


def end_value(numbers, pick):
    if not numbers:
        return None
    if all(is_whole(n) for n in numbers):
        return 'int', pick(n[1] for n in numbers)
    return 'fixed', pick(measure(n) for n in numbers)


def percent(part, whole):
    if part is None or whole is None:
        return None
    if is_whole(part) and is_whole(whole):
        s, t = part[1], whole[1]
    else:
        s, t = measure(part), measure(whole)
        if max(abs(s), abs(t)) > 2 ** 118:
            return None
    return ('int', towards_zero(100 * s, t)) if t else None


def is_below(group, other):
    """The other group's hierarchy has this one's as a prefix, and its other entries are the same."""
    mine, theirs = (hierarchy(Record(*g)) for g in (group, other))
    outside = [[[e for path in g[0] for e in path if not e.attr.props & NESTED], list(g[1])] for g in (group, other)]
    return theirs[:len(mine)] == mine and outside[0] == outside[1]


def kernel_value(agg, group, groups):
    records, name = groups[group], agg.attr
    sums = (name, 'sum#' + name)
    if agg.kernel == 'count':
        weights = []
        for record in records:
            counts = [e.value for e in flat(record) if e.attr.name == 'count' and is_whole(e.value)]
            weights.append(counts[-1][1] if counts else 1)
        return 'int', sum(weights)
    if agg.kernel == 'sum':
        return total(contributions(sums, records))
    if agg.kernel in ('min', 'max'):
        return end_value(contributions((name, f'{agg.kernel}#{name}'), records), min if agg.kernel == 'min' else max)
    if agg.kernel == 'avg':
        numbers = contributions((name,), records)
        whole = total(numbers)
        return whole and (whole[0], towards_zero(whole[1], len(numbers)))
    if agg.kernel == 'inclusive_sum':
        return total([n for other in groups if is_below(group, other) for n in contributions(sums, groups[other])])
    everything = [n for other in groups for n in contributions(sums, groups[other])]
    return percent(total(contributions(sums, records)), total(everything))


def results(query, group, groups):
    found = []
    for agg in query.aggs:
        value = kernel_value(agg, group, groups)
        if value is not None:
            found.append(Entry(Attribute(agg.name, kind_of(value), RESULT_PROPS), value))
    return Record(list(group[0]), list(group[1]) + found)


def sorted_rows(keys, rows):
    for key in reversed(keys):
        def of(row, key=key):
            entry = last_entry(row, key.name)
            return (0,) if entry is None else (1, order(entry.value))
        if key.down:
            rows = list(reversed(sorted(reversed(rows), key=of)))
        else:
            rows = sorted(rows, key=of)
    return rows


def entries_named(row, name):
    return hierarchy(row) if name == 'path' else [e for e in flat(row) if e.attr.name == name]


def shown_names(row):
    """The names of a row without a SELECT list, in first-seen order; the hierarchy is `path`, and first."""
    in_paths = [e for path in row.paths for e in path]
    others = [e.attr.name for e in in_paths if not e.attr.props & NESTED] + [e.attr.name for e in row.imms]
    return (['path'] if hierarchy(row) else []), list(dict.fromkeys(others))


def columns_of(query, rows):
    if query.select is not None:
        return [Column(item.header, item.name) for item in query.select]
    if (query.aggs or query.group) and query.group is not None:
        return [Column(name, name) for name in query.group + [agg.name for agg in query.aggs]]
    with_path, names = [], {}
    for row in rows:
        path, others = shown_names(row)
        with_path = with_path or path
        names.update(dict.fromkeys(others))
    return [Column(name, name) for name in dict.fromkeys(with_path + list(names))]


def answer(query, records):
    records = [with_lets(query.lets, record) for record in records]
    kept = [r for r in records if all(cond_holds(cond, r) for cond in query.conds)]
    rows = kept
    if query.aggs or query.group is not None:
        groups = {group: [r for r in kept if group_of(query.group, r) == group]
                  for group in dict.fromkeys(group_of(query.group, r) for r in kept)}
        rows = [results(query, group, groups) for group in groups]
    rows = sorted_rows(query.order, rows)
    return Answer(rows, columns_of(query, rows), query.select is None)


def cell(row, name):
    """The texts of the row's entries of a name, or None where there is none."""
    texts = [print_value(e.value) for e in entries_named(row, name)]
    return texts or None


def single_number(row, name):
    entries = entries_named(row, name)
    return entries[0].value if len(entries) == 1 and is_number(entries[0].value) else None
