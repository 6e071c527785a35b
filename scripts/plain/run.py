"""What a run's records are, by its script and its journal, and whether the journal is lawful."""
from collections import namedtuple

from .calql import Agg, Query
from .meaning import answer, group_of
from .script import AS_VALUE, NESTED, SKIP_EVENTS, is_process, is_reference
from .stream import Attribute, Entry, Record
from .values import KINDS, order

Note = namedtuple('Note', 'reply looks due snapshots')      # what one line gives; snapshots: of (channel, record)
ADDED_PROPS = 65
DURATION, INCLUSIVE = 'time.duration.ns', 'time.inclusive.duration.ns'
MOST_CLOCK = 2 ** 64 - 1


def slot_of(script, number):
    return 0 if script.attributes[number].props & (NESTED | AS_VALUE) == NESTED else number + 1


def reply_to(script, board, line):
    """The table of boards: a board is a dict from slots to non-empty lists of (attribute, value, reading)."""
    code, number = line[:2]
    values = board.get(slot_of(script, number), [])
    if code == 'end':
        if not values:
            return 'notopen', None
        return ('done', None) if values[-1][0] == number else ('mismatch', values[-1][0])
    if code == 'set' and values and values[-1][0] == number:
        return 'done', None
    if not values and len(board) >= 64:
        return 'slotsfull', None
    return ('toodeep', None) if len(values) >= 128 else ('done', None)


def board_after(script, board, line, reading=None):
    if reply_to(script, board, line) != ('done', None):
        return board
    code, number, slot = line[0], line[1], slot_of(script, line[1])
    values = list(board.get(slot, []))
    if code == 'end' or (code == 'set' and values and values[-1][0] == number):
        values.pop()
    if code != 'end':
        values.append((number, line[2], reading))
    after = {s: vs for s, vs in board.items() if s != slot}
    return {**after, slot: values} if values else after


def process_board(script, history, count):
    board = {}
    for thread, line in history[:count]:
        board = board_after(script, board, script.threads[thread][line - 1])
    return board


def is_process_line(script, line):
    return line[0] in ('begin', 'end', 'set') and is_process(script.attributes[line[1]])


def entry(script, value):
    return Entry(script.attributes[value[0]], value[1])


def slots_of(script, board, references):
    """The reference slots, or the as-value slots, in slot order."""
    return [board[s] for s in sorted(board) if is_reference(script.attributes[board[s][0][0]]) == references]


def paths_of(script, board):
    return [tuple(entry(script, v) for v in values) for values in slots_of(script, board, True)]


def tops_of(script, board):
    return [entry(script, values[-1]) for values in slots_of(script, board, False)]


def added(name, kind, form, content):
    return Entry(Attribute(name, kind, ADDED_PROPS), (form, content))


def event_entry(script, board, line):
    attribute = script.attributes[line[1]]
    value = line[2] if line[0] != 'end' else board[slot_of(script, line[1])][-1][1]
    return Entry(Attribute(f'event.{line[0]}#{attribute.name}', attribute.kind, ADDED_PROPS), value)


def snapshot_of(script, channel, line, mine, process, reading, previous):
    """A snapshot with its parts in order: event, times, probes, as-value entries."""
    imms = []
    if line[0] != 'snapshot':
        imms.append(event_entry(script, process if is_process_line(script, line) else mine, line))
    if 'timer' in channel.services:
        imms.append(added(DURATION, 'uint', 'uint', max(0, reading - previous)))
        if line[0] == 'end' and not is_process_line(script, line):
            opened = mine[slot_of(script, line[1])][-1][2]
            imms.append(added(INCLUSIVE, 'uint', 'uint', max(0, reading - opened)))
    for service in channel.services:
        if service == 'region.depth':
            imms.append(added(service, 'uint', 'uint', len(mine.get(0, []))))
        if service == 'region.count':
            imms.append(added(service, 'uint', 'uint', sum(map(len, mine.values()))))
    imms += tops_of(script, mine) + tops_of(script, process)
    return Record(paths_of(script, mine) + paths_of(script, process), imms)


def takes(script, channel, line):
    if line[0] == 'snapshot':
        return True
    return line[0] in ('begin', 'end', 'set') and 'event' in channel.services \
        and not script.attributes[line[1]].props & SKIP_EVENTS


def thread_run(script, journal, thread):
    """Each line's note, by its six steps; a line with the reading and SEEN that the journal has."""
    history, start, rows = journal.history, *journal.threads[thread]
    mine, clock, seen = {}, 0, 0
    previous = [start if start is not None else 0] * len(script.channels)
    for place, line in enumerate(script.threads[thread], 1):
        _, now_seen, reading = rows[place - 1]
        clock = min(MOST_CLOCK, clock + line[1]) if line[0] == 'tick' else clock
        on_process = is_process_line(script, line)
        if on_process:                                                      # 1
            seen = history.index((thread, place))
        process = process_board(script, history, seen)
        if line[0] in ('begin', 'end', 'set'):                              # 2
            reply = reply_to(script, process if on_process else mine, line)
        else:
            reply = None if line[0] == 'flush' else ('done', None)
        done = reply == ('done', None)
        taking = [c for c, channel in enumerate(script.channels) if done and takes(script, channel, line)]
        looks = bool(taking) and not on_process                             # 3
        if looks:
            seen = now_seen
            process = process_board(script, history, seen)
        due = any('timer' in script.channels[c].services for c in taking)   # 4
        reading = 0 if reading is None else reading
        snapshots = []
        for c in taking:                                                    # 5
            snapshots.append((c, snapshot_of(script, script.channels[c], line, mine, process, reading, previous[c])))
            if 'timer' in script.channels[c].services:
                previous[c] = reading
        if on_process:                                                      # 6
            seen += 1
        elif done and line[0] in ('begin', 'end', 'set'):
            mine = board_after(script, mine, line, reading)
        yield Note(reply, looks, due, snapshots), clock


Meant = namedtuple('Meant', 'clock history threads')    # threads: (start, [(reply, seen, reading)])


def meant(journal):
    threads = []
    for _, _, number, reply, seen, reading in journal.rows:
        if number == 0:
            threads.append((reading, []))
        else:
            threads[-1][1].append((reply, seen, reading))
    return Meant(journal.clock, [(t, n) for _, t, n in journal.ops], threads)


def plain(script):
    """The journal of the threads one after another, with the script clock and each flush merged."""
    timed = any('timer' in c.services for c in script.channels)
    history = [(t, n) for t, lines in enumerate(script.threads) for n, line in enumerate(lines, 1)
               if is_process_line(script, line)]
    threads = []
    for t, lines in enumerate(script.threads):
        threads.append((0 if timed else None, []))
        seen, clock = 0, 0
        for n, line in enumerate(lines, 1):
            before = sum(1 for o in history if o < (t, n))
            clock = min(MOST_CLOCK, clock + line[1]) if line[0] == 'tick' else clock
            threads[-1][1].append((None, before, clock))
            guess = Meant('script', history, threads + [(0, [])] * (len(script.threads) - t - 1))
            note = list_note(script, guess, t, n)
            seen = before + 1 if is_process_line(script, line) else before if note.looks else seen
            reply = note.reply or ('merged', None)
            threads[-1][1][-1] = (reply, seen, clock if note.due else None)
    return Meant('script', history, threads)


def list_note(script, journal, thread, count):
    cut = script._replace(threads=[lines[:count] if t == thread else lines for t, lines in enumerate(script.threads)])
    return list(thread_run(cut, journal, thread))[-1][0]


def first_broken(script, journal):
    """The line and the kind of the first rule that is broken, of those on the journal as a whole, or None."""
    marks = iter(journal.rows)
    wanted = [(t, n) for t, lines in enumerate(script.threads) for n in range(len(lines) + 1)]
    for place, (t, n) in enumerate(wanted):
        if place >= len(journal.rows):
            return journal.end, 'Shape'
        row = next(marks)
        if row[1:3] != (t, n):
            return row[0], 'Shape'
    if len(journal.rows) > len(wanted):
        return journal.rows[len(wanted)][0], 'Shape'
    processes = [[n for n, line in enumerate(lines, 1) if is_process_line(script, line)] for lines in script.threads]
    for number, t, n in journal.ops:
        if t >= len(processes) or n not in processes[t]:
            return number, 'OpStranger'
    left = [list(p) for p in processes]
    for number, t, n in journal.ops:
        if not left[t] or left[t].pop(0) != n:
            return number, 'OpOrder'
    if any(left):
        return journal.end, 'OpOrder'
    return first_broken_row(script, journal)


def first_broken_row(script, journal):
    """Rules 7 to 12, each tried on all lines of the threads before the next."""
    run = meant(journal)
    timed = any('timer' in c.services for c in script.channels)
    lines = [row for row in journal.rows if row[2] != 0]
    before = {row[1:3]: 0 if row[2] == 1 else run.threads[row[1]][1][row[2] - 2][1] for row in lines}
    place = {op: p for p, op in enumerate(run.history)}
    for number, t, n, _, seen, _ in lines:
        if seen < before[t, n]:
            return number, 'SeenFalls'
    for number, _, _, _, seen, _ in lines:
        if seen > len(run.history):
            return number, 'SeenPast'
    for number, t, n, _, seen, _ in lines:
        if (t, n) in place and (seen != place[t, n] + 1 or before[t, n] > place[t, n]):
            return number, 'SeenOwn'
    notes = [list(thread_run(script, run, t)) for t in range(len(script.threads))]
    for number, t, n, _, seen, _ in lines:
        if (t, n) not in place and not notes[t][n - 1][0].looks and seen != before[t, n]:
            return number, 'SeenFixed'
    for number, t, n, _, _, reading in journal.rows:
        due, clock = (timed, 0) if n == 0 else (notes[t][n - 1][0].due, notes[t][n - 1][1])
        if (reading is not None) != due or (due and run.clock == 'script' and reading != clock):
            return number, 'Reading'
    for number, t, n, reply, _, _ in lines:
        wanted = notes[t][n - 1][0].reply
        if reply != wanted and (wanted or not is_flush_reply(script, run, t, script.threads[t][n - 1], reply)):
            return number, 'Reply'
    return None


def is_flush_reply(script, run, thread, line, reply):
    """Merged, or a Busy that names another thread which has a merged flush of that channel."""
    word, holder = reply
    return word == 'merged' or (word == 'busy' and holder != thread and holder < len(script.threads) and any(
        other == line and run.threads[holder][1][n][0] == ('merged', None)
        for n, other in enumerate(script.threads[holder])))


def channel_query(channel):
    sums = channel.sums if channel.sums is not None else ([DURATION] if 'timer' in channel.services else [])
    aggs = [Agg('count', '', 'count')] + [Agg(k, a, f'{k}#{a}') for a in sums for k in ('sum', 'min', 'max')]
    return Query([], None, aggs, [], channel.keys, [], 'expand')


def entry_order(entry):
    return (entry.attr.name.encode(), KINDS[entry.attr.kind], entry.attr.props), order(entry.value)


def group_order(group):
    paths, imms = group
    return [[entry_order(e) for e in path] for path in paths], [entry_order(e) for e in imms]


def group_rows(channel, taken):
    """The groups of a channel's query over its snapshots, in the order of groups."""
    query = channel_query(channel)
    groups = dict.fromkeys(group_of(query.group, record) for record in taken)   # in first-seen order, as the rows
    pairs = zip(groups, answer(query, taken).rows)
    return [row for _, row in sorted(pairs, key=lambda pair: group_order(pair[0]))]


def records_of(script, run):
    """The rows and the globals of a run."""
    notes = [list(thread_run(script, run, t)) for t in range(len(script.threads))]
    rows = []
    for c, channel in enumerate(script.channels):
        taken = [record for lines in notes for note, _ in lines for place, record in note.snapshots if place == c]
        if 'trace' in channel.services:
            rows += taken
        if 'aggregate' in channel.services:
            rows += group_rows(channel, taken)
    references = [(e,) for e in script.globals if is_reference(e.attr)]
    return rows, Record(references, [e for e in script.globals if not is_reference(e.attr)])

