"""What the bytes of a script and of a journal mean, line by line, or their first fault."""
from collections import namedtuple

from .stream import Attribute, Entry, Fault, lines_of
from .values import is_decimal, read_value

Script = namedtuple('Script', 'attributes channels values threads globals')
Channel = namedtuple('Channel', 'name services keys sums')     # keys and sums: None without such a line
# ops: (line, T, L); rows: (line, T, L or 0, reply, seen, reading)
Journal = namedtuple('Journal', 'clock ops rows end')

SERVICES = ('event', 'timer', 'trace', 'aggregate', 'region.depth', 'region.count')
ADDED = ('time.duration.ns', 'time.inclusive.duration.ns', 'region.depth', 'region.count')
RESERVED = ('path', 'count') + ADDED
NAME_LETTERS = frozenset('abcdefghijklmnopqrstuvwxyzABCDEFGHIJKLMNOPQRSTUVWXYZ0123456789._-:')
AS_VALUE, NESTED, GLOBAL, SKIP_EVENTS = 1, 256, 512, 64
MOST_WORD, MOST_TREE_WORDS = 2 ** 64 - 1, 134217728
HEADER = ('attribute', 'channel', 'key', 'value', 'global')
THREAD = ('begin', 'end', 'set', 'snapshot', 'flush', 'tick')


def is_name(text):
    return 1 <= len(text) <= 200 and NAME_LETTERS.issuperset(text)


def is_process(attribute):
    return attribute.props & 60 == 12


def is_reference(attribute):
    return not attribute.props & AS_VALUE


def unescaped(text):
    """The text that a VALUE spells, or None where it ends with a lone backslash."""
    out, place = '', 0
    while place < len(text):
        if text[place] == '\\':
            place += 1
            if place == len(text):
                return None
            out += '\n' if text[place] == 'n' else text[place]
        else:
            out += text[place]
        place += 1
    return out


class Reading:
    def __init__(self):
        self.attributes, self.channels, self.values, self.threads, self.globals = [], [], [], [], []

    def number(self, name):
        return next((n for n, a in enumerate(self.attributes) if a.name == name), None)

    def named(self, name):
        number = self.number(name)
        if number is None:
            raise Fault('UnknownName')
        return number

    def value(self, attribute, spelled):
        text = unescaped(spelled)
        if text is None:
            raise Fault('BadEscape')
        value = read_value(attribute.kind, text)
        if value is None or (value[0] in ('text', 'real') and len(text.encode()) > 4096):
            raise Fault('BadValue')
        if value[0] in ('int', 'fixed') and not -2 ** 63 <= value[1] < 2 ** 63:
            raise Fault('BadValue')
        return value

    def attribute(self, words):
        name, kind, props = words
        if not is_name(name) or name in RESERVED or name.startswith('cali.'):
            raise Fault('BadName')
        if self.number(name) is not None:
            raise Fault('DuplicateName')
        allowed = is_decimal(props) and int(props) <= 65535
        if kind not in ('string', 'int', 'uint', 'addr', 'double', 'bool'):
            raise Fault('BadKind')
        if allowed and int(props) & AS_VALUE and kind in ('string', 'double'):
            raise Fault('BadKind')
        if not allowed:
            raise Fault('BadProps')
        self.attributes.append(Attribute(name, kind, int(props)))

    def channel(self, words):
        name, listed = words
        if not is_name(name):
            raise Fault('BadName')
        if any(c.name == name for c in self.channels):
            raise Fault('DuplicateName')
        services = listed.split(',')
        if any(s not in SERVICES for s in services) or len(set(services)) < len(services) \
                or not {'trace', 'aggregate'} & set(services):
            raise Fault('BadService')
        self.channels.append(Channel(name, services, None, None))

    def keeps(self, word, names):
        """A `key` or `value` line."""
        channel = self.channels[-1]
        if 'aggregate' not in channel.services:
            raise Fault('NotAggregate')
        for place, name in enumerate(names):
            if name == 'path' and word == 'key':
                if place > 0:
                    raise Fault('BadName')
                continue
            if name in names[:place]:
                raise Fault('DuplicateName')
            event, _, of = name.partition('#')
            if not (self.number(name) is not None or name in ADDED
                    or (event in ('event.begin', 'event.end', 'event.set') and self.number(of) is not None)):
                raise Fault('UnknownName')
        self.channels[-1] = channel._replace(**{'keys' if word == 'key' else 'sums': names})

    def global_line(self, name, spelled):
        number = self.number(name)
        if number is not None and any(g.attr == self.attributes[number] for g in self.globals):
            raise Fault('DuplicateName')
        attribute = self.attributes[self.named(name)]
        if not attribute.props & GLOBAL:
            raise Fault('NotGlobal')
        self.globals.append(Entry(attribute, self.value(attribute, spelled)))

    def thread_line(self, word, rest):
        lines = self.threads[-1]
        if word == 'snapshot':
            lines.append(('snapshot',))
        elif word == 'tick':
            if not is_decimal(rest[0]) or int(rest[0]) > MOST_WORD:
                raise Fault('BadValue')
            lines.append(('tick', int(rest[0])))
        elif word == 'flush':
            place = next((n for n, c in enumerate(self.channels) if c.name == rest[0]), None)
            if place is None:
                raise Fault('UnknownName')
            if 'aggregate' not in self.channels[place].services:
                raise Fault('NotAggregate')
            lines.append(('flush', place))
        elif word == 'end':
            lines.append(('end', self.named(rest[0])))
        else:
            number = self.named(rest[0])
            lines.append((word, number, self.value(self.attributes[number], rest[1])))

    def fits(self):
        def size(line):
            value = line[2]
            texts = len(value[1].encode()) if value[0] in ('text', 'real') else 0
            return 4 + (-(-texts // 8) if value[0] in ('text', 'real') else 2 if value[0] in ('int', 'fixed') else 1)

        def process(line):
            return line[0] in ('begin', 'end', 'set') and is_process(self.attributes[line[1]])

        makes = [[(process(line), size(line)) for line in lines if line[0] in ('begin', 'set')
                  and is_reference(self.attributes[line[1]])] for lines in self.threads]
        shared = sum(n for lines in makes for p, n in lines if p)
        arena = max([sum(n for p, n in lines if not p) for lines in makes] + [0]) + shared if self.threads else 0
        threads = len(self.threads)
        words = 1 + ((threads + 1) * (arena // 4) + 1) + (threads + 1) * arena
        return len(self.attributes) <= 1024 and len(self.channels) <= 16 and threads <= 64 \
            and sum(map(len, self.threads)) <= 1048576 and words <= MOST_TREE_WORDS \
            and sum(process(line) for lines in self.threads for line in lines) <= 65536

    def line(self, line):
        word, sign, rest = line.partition(' ')
        if word not in HEADER + THREAD + ('thread',):
            raise Fault('UnknownWord')
        if (word in HEADER and self.threads) or (word in THREAD and not self.threads):
            raise Fault('Misplaced')
        if word in ('key', 'value') and (not self.channels or getattr(
                self.channels[-1], 'keys' if word == 'key' else 'sums') is not None):
            raise Fault('Misplaced')
        takes_value = word in ('begin', 'set', 'global')
        words = (rest.split(' ', 1) if takes_value else rest.split(' ')) if sign else []
        wanted = {'attribute': 3, 'channel': 2, 'global': 2, 'begin': 2, 'set': 2, 'end': 1, 'snapshot': 0,
                  'flush': 1, 'tick': 1, 'thread': 0}.get(word)
        named = words[:1] if takes_value else words
        if '' in named or (len(words) != wanted if wanted is not None else not words):
            raise Fault('WrongArity')
        if word == 'thread':
            self.threads.append([])
        elif word == 'attribute':
            self.attribute(words)
        elif word == 'channel':
            self.channel(words)
        elif word == 'global':
            self.global_line(*words)
        elif word in HEADER:
            self.keeps(word, words)
        else:
            self.thread_line(word, words)
        if not self.fits():
            raise Fault('TooMany')


def read_script(lines):
    """The script of lines of bytes, or the number of the first faulty line with its kind."""
    reading = Reading()
    for number, raw in enumerate(lines, 1):
        try:
            text = raw.decode()
        except UnicodeDecodeError:
            return None, (number, 'NotText')
        if text == '' or text.startswith('#'):
            continue
        try:
            reading.line(text)
        except Fault as fault:
            return None, (number, str(fault))
    return Script(reading.attributes, reading.channels, reading.values, reading.threads, reading.globals), None


def reading_word(text):
    if text == '-':
        return None
    if not is_decimal(text) or int(text) > MOST_WORD:
        raise Fault('Form')
    return int(text)


def decimals(words):
    if not all(is_decimal(word) for word in words):
        raise Fault('Form')
    return [int(word) for word in words]


def reply_word(text):
    word, sign, number = text.partition(':')
    if text in ('done', 'notopen', 'toodeep', 'slotsfull', 'merged'):
        return text, None
    if word in ('mismatch', 'busy') and sign and is_decimal(number):
        return word, int(number)
    raise Fault('Form')


def journal_line(words, number, clock, ops, rows):
    if words[0] == 'op' and len(words) == 3 and clock and not rows:
        ops.append((number, *decimals(words[1:])))
    elif words[0] == 'start' and len(words) == 3 and clock:
        rows.append((number, *decimals(words[1:2]), 0, None, None, reading_word(words[2])))
    elif words[0] == 'line' and len(words) == 6 and rows:
        thread, line = decimals(words[1:3])
        reply = reply_word(words[3])
        rows.append((number, thread, line, reply, *decimals(words[4:5]), reading_word(words[5])))
    else:
        raise Fault('Form')


def read_journal(lines, first):
    """The journal of lines from this line number on, or its first fault of form."""
    clock, ops, rows, end = None, [], [], None
    for number, raw in enumerate(lines, first):
        if raw == b'':
            continue
        if end is not None:
            return None, (number, 'After')
        try:
            words = raw.decode().split(' ')
            if words[0] == 'journal' and clock is None and len(words) == 2 and words[1] in ('script', 'real'):
                clock = words[1]
            elif words == ['end'] and clock:
                end = number
            else:
                journal_line(words, number, clock, ops, rows)
        except (Fault, UnicodeDecodeError):
            return None, (number, 'Form')
    if end is None:
        return None, (first + len(lines), 'Cut')
    return Journal(clock, ops, rows, end), None


def read_both(data):
    """The script and the journal, if one is there, or the first fault."""
    lines = lines_of(data)
    place = next((n for n, line in enumerate(lines) if line.split(b' ')[0] == b'journal'), None)
    script, fault = read_script(lines if place is None else lines[:place])
    if fault or place is None:
        return script, None, fault
    journal, fault = read_journal(lines[place:], place + 1)
    return script, journal, fault
