#!/usr/bin/env python3
"""Joins answers over parts of the records to the answer over all of them; compares answers.

usage: rows.py join [FILE..]      joins the answers of these files, or of standard input, to one
       rows.py same ONE OTHER     whether two answers have the same rows, in whatever order

A line is an answer of `caliper` by `format json`, and all are answers to the same query. It groups,
and its results keep their own names, by which they are joined: `count` and `sum#A` are added, of
`min#A` the least stands, of `max#A` the greatest. All other names are the group's. Averages,
percents and inclusive sums can't be joined and are refused, and so is an answer of which two groups
look alike, each with status 2.

Nothing is rounded: a decimal stands in JSON as a text and is taken as a whole number of billionths,
and whole numbers are as large as they need to be here.
"""
import json
import re
import sys

BILLION = 10 ** 9
JOINS = {'sum': lambda one, other: one + other, 'min': min, 'max': max}
NUMBER = re.compile(r'(-?)(\d+)(?:\.(\d{1,9}))?')


class Refused(Exception):
    """What can't be joined."""


def refuse_float(text):
    """No answer has a number with a point outside of a text."""
    raise Refused(f'{text} is no whole number')


def kernel_of(name):
    """The kernel whose own name this is, if it is one's."""
    kernel = name.partition('#')[0]
    if kernel in ('avg', 'percent_total', 'inclusive') and '#' in name:
        raise Refused(f'{name} of parts says nothing of the whole; join sum# and count instead')
    if name == 'count':
        return 'sum'
    return kernel if kernel in JOINS and '#' in name else None


def in_billionths(value):
    """A result as a whole number of billionths, and whether it stands as a text."""
    if isinstance(value, int):
        return value * BILLION, False
    found = NUMBER.fullmatch(value)
    if not found:
        raise Refused(f'{value} is no number')
    number = int(found[2]) * BILLION + int((found[3] or '').ljust(9, '0'))
    return -number if found[1] else number, True


def spelled(number, is_text):
    """A result as `caliper` writes it: a whole number that fits 64 bits, or a text."""
    whole, rest = divmod(abs(number), BILLION)
    sign = '-' if number < 0 else ''
    if not is_text and not rest and -2 ** 63 <= number // BILLION < 2 ** 64:
        return number // BILLION
    return f'{sign}{whole}.{rest:09}'.rstrip('0') if rest else f'{sign}{whole}'


class Joined:
    """The rows of all answers that were added: of each group its results, by their names."""

    def __init__(self):
        self.groups = {}

    def add(self, answer):
        """Adds one answer, a text in JSON."""
        seen = set()
        for row in json.loads(answer, parse_float=refuse_float):
            group, results = [], []
            for name, value in row.items():
                (results if kernel_of(name) else group).append((name, value))
            # in JSON the number 1 and the text "1" differ, and so they do here
            group = tuple(sorted(group))
            if group in seen:
                raise Refused(f'two groups look alike: {dict(group)}')
            seen.add(group)
            self.add_results(self.groups.setdefault(group, {}), results)

    @staticmethod
    def add_results(held, results):
        """Joins the results of a row to those of its group."""
        for name, value in results:
            number, is_text = in_billionths(value)
            if name in held:
                joined = JOINS[kernel_of(name)](held[name][0], number)
                held[name] = joined, is_text or held[name][1]
            else:
                held[name] = number, is_text

    def rows(self):
        """All rows, as objects, in the order of their texts."""
        rows = [dict(group) | {name: spelled(*result) for name, result in held.items()}
                for group, held in self.groups.items()]
        return sorted(rows, key=text_of)

    def answer(self):
        """All rows as one answer."""
        return text_of(self.rows())


def text_of(value):
    """A value in JSON, without blanks, the keys in their order."""
    return json.dumps(value, sort_keys=True, separators=(',', ':'), ensure_ascii=False)


def join(files):
    """One answer of all answers."""
    joined = Joined()
    for name in files or ['/dev/stdin']:
        with open(name, encoding='utf-8') as lines:
            for line in lines:
                joined.add(line)
    print(joined.answer())


def rows_in(name):
    """The rows of a file with one answer, as texts in their order."""
    with open(name, encoding='utf-8') as text:
        return sorted(map(text_of, json.load(text, parse_float=refuse_float)))


def same(one, other):
    """Says whether two answers have the same rows; the status."""
    rows, others = rows_in(one), rows_in(other)
    if rows == others:
        print(f'{len(rows)} rows, the same in both')
        return 0
    for row in sorted({*rows} ^ {*others})[:10]:
        print(f'only in {one if row in rows else other}: {row}')
    print(f'{len(rows)} rows and {len(others)}, which differ')
    return 1


def main():
    words = sys.argv[1:]
    try:
        if words[:1] == ['join']:
            join(words[1:])
        elif words[:1] == ['same'] and len(words) == 3:
            sys.exit(same(*words[1:]))
        else:
            sys.exit(__doc__)
    except (Refused, ValueError) as why:
        print(f'rows.py: {why}', file=sys.stderr)
        sys.exit(2)


if __name__ == '__main__':
    main()
