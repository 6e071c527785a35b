"""Scripts with journals that a run of theirs may leave, drawn from fixed numbers, and such journals spoilt in one line."""
import random
from itertools import permutations

from .run import MOST_CLOCK, Meant, is_process_line, list_note, plain
from .script import read_both

ATTRIBUTES = (
    'attribute f string 276', 'attribute g string 276', 'attribute p string 12', 'attribute q int 13', 'attribute r string 268', 'attribute n int 1',
    'attribute u uint 0', 'attribute s string 64', 'attribute d double 0', 'attribute e int 77',
)
SERVICES = ('event', 'timer', 'region.depth', 'region.count')
KEYS = ('f', 'p', 'q', 'n', 'path f', 'event.begin#f g', 'path', 'time.duration.ns')
SUMS = ('n', 'q', 'time.duration.ns', 'time.inclusive.duration.ns', 'region.count n')
VALUES = {'string': ('a', 'b', 'a b', '\\\\', ''), 'int': ('1', '-2', '7'), 'uint': ('3', '0'), 'double': ('0.25', '1e5', '-3')}


def header(draw):
    lines = draw.sample(ATTRIBUTES, draw.choice((2, 3, 4, 6))) if draw.random() < 0.5 else list(ATTRIBUTES[draw.choice((0, 0, 2)):draw.choice((3, 4, 5))])
    for name in ('t', 'w', 'x')[:draw.choice((1, 1, 2, 3))]:
        services = draw.sample(SERVICES, draw.choice((0, 1, 2, 3, 4))) + draw.choice((['trace'], ['aggregate'], ['aggregate', 'trace']))
        draw.shuffle(services)
        lines.append(f'channel {name} {",".join(services)}')
        declared = {line.split(' ')[1] for line in lines if line.startswith('attribute')}
        for word, choices in (('key', KEYS), ('value', SUMS)):
            names = draw.choice(choices)
            known = all(n in ('path',) or n.startswith(('time.', 'region.')) or n.split('#')[-1] in declared for n in names.split(' '))
            if 'aggregate' in services and known and draw.random() < 0.5:
                lines.append(f'{word} {names}')
    if draw.random() < 0.3:
        lines += ['attribute l string 512', 'global l a b', 'attribute m int 513', 'global m -7']
    return lines


def body(draw, lines, count):
    kinds = {line.split(' ')[1]: line.split(' ')[2] for line in lines if line.startswith('attribute')}
    tables = [line.split(' ')[1] for line in lines if line.startswith('channel') and 'aggregate' in line]
    for _ in range(count):
        name = draw.choice(sorted(kinds))
        value = draw.choice(VALUES[kinds[name]])
        choices = [f'begin {name} {value}', f'begin {name} {value}', f'set {name} {value}', f'end {name}', f'end {name}', 'snapshot',
                   f'tick {draw.choice((0, 1, 5, 2 ** 64 - 1))}']
        yield draw.choice(choices + [f'flush {name}' for name in tables])


def drawn_script(draw):
    lines = header(draw)
    for _ in range(draw.choice((1, 2, 2, 3))):
        lines += ['thread'] + list(body(draw, lines, draw.randrange(12)))
    return lines


def run_of(script, turns, clock, starts, read):
    """The journal of an interleaving, given by the threads whose turn it is, line by line."""
    history, before, done = [], {}, [0] * len(script.threads)
    for t in turns:
        done[t] += 1
        before[t, done[t]] = len(history)
        if is_process_line(script, script.threads[t][done[t] - 1]):
            history.append((t, done[t]))
    timed = any('timer' in channel.services for channel in script.channels)
    threads = []
    for t, lines in enumerate(script.threads):
        threads.append((starts[t] if timed else None, []))
        seen, ticks = 0, 0
        for n, line in enumerate(lines, 1):
            ticks = min(MOST_CLOCK, ticks + line[1]) if line[0] == 'tick' else ticks
            reading = read(ticks)
            threads[-1][1].append((None, before[t, n], reading))
            guess = Meant(clock, history, threads + [(0, [])] * (len(script.threads) - t - 1))
            note = list_note(script, guess, t, n)
            seen = before[t, n] + 1 if is_process_line(script, line) else before[t, n] if note.looks else seen
            threads[-1][1][-1] = (note.reply or ('merged', None), seen, reading if note.due else None)
    return Meant(clock, history, threads)


def drawn_run(draw, script):
    """The journal of one interleaving of a script's threads, with some clock."""
    turns = [t for t, lines in enumerate(script.threads) for _ in lines]
    draw.shuffle(turns)
    clock = draw.choice(('script', 'real'))
    starts = [0 if clock == 'script' else draw.randrange(50) for _ in script.threads]
    run = run_of(script, turns, clock, starts, lambda ticks: ticks if clock == 'script' else draw.randrange(100))
    merged = {(t, line[1]) for t, lines in enumerate(script.threads) for line in lines if line[0] == 'flush'}
    return with_busy(draw, script, run, merged)


def with_busy(draw, script, run, merged):
    """Some flushes of a thread found another one at it, which keeps its own."""
    polite = draw.choice([*range(len(script.threads)), None])
    threads = []
    for t, (start, lines) in enumerate(run.threads):
        changed = []
        for line, (reply, seen, reading) in zip(script.threads[t], lines):
            holders = [h for h, c in sorted(merged) if line[0] == 'flush' and c == line[1] and h != t]
            if t == polite and holders and draw.random() < 0.5:
                reply = 'busy', draw.choice(holders)
            changed.append((reply, seen, reading))
        threads.append((start, changed))
    return run._replace(threads=threads)


def written(run):
    """The text of a journal, line by line."""
    def word(reading):
        return '-' if reading is None else str(reading)
    lines = [f'journal {run.clock}'] + [f'op {t} {n}' for t, n in run.history]
    for t, (start, notes) in enumerate(run.threads):
        lines.append(f'start {t} {word(start)}')
        for n, ((reply, of), seen, reading) in enumerate(notes, 1):
            lines.append(f'line {t} {n} {reply if of is None else f"{reply}:{of}"} {seen} {word(reading)}')
    return lines + ['end']


def changed(draw, words):
    """A line with one of its numbers, or its reply, changed within its form."""
    at = draw.choice({'op': (1, 2), 'start': (1, 2, 2), 'line': (1, 2, 3, 3, 3, 4, 4, 4, 4, 5, 5)}[words[0]])
    if words[0] == 'line' and at == 3:
        words[3] = draw.choice(('done', 'notopen', 'toodeep', 'merged', 'busy:0', 'busy:1', 'busy:9', 'mismatch:0'))
    elif words[at] == '-':
        words[at] = '5'
    else:
        words[at] = draw.choice((str(int(words[at]) + 1), str(max(0, int(words[at]) - 1)), '0', '9' * 20 if at < 5 and words[0] != 'start' else '-'))
    return words


def spoilt(draw, lines):
    """A line left out, doubled, exchanged with its neighbour, or changed."""
    place, lines = draw.randrange(1, len(lines) - 1) if len(lines) > 2 else 1, list(lines)
    way = draw.randrange(9)
    if way == 0 or lines[place] == 'end':
        del lines[place]
    elif way == 1:
        lines.insert(place, lines[place])
    elif way == 2:
        lines[place - 1:place + 1] = lines[place - 1:place + 1][::-1]
    else:
        lines[place] = ' '.join(changed(draw, lines[place].split(' ')))
    return lines


def interleaved():
    """Three threads with two process lines each, in each of the 90 orders of the six."""
    lines = ['attribute p string 12', 'channel t event,trace']
    for t, second in enumerate(('end p', 'set p z', 'end p')):
        lines += ['thread', f'begin p v{t}', second]
    script, _, _ = read_both('\n'.join(lines).encode())
    for order in sorted(set(permutations((0, 0, 1, 1, 2, 2)))):
        yield lines + written(run_of(script, order, 'script', [0, 0, 0], lambda ticks: ticks))


def drawn_cases(count):
    """Inputs of `serial`: a script alone, with a journal, and with a spoilt one."""
    draw = random.Random(4127)
    yield from interleaved()
    for _ in range(count):
        lines = drawn_script(draw)
        script, _, fault = read_both('\n'.join(lines).encode())
        yield lines
        if not fault:
            yield lines + written(plain(script))
            journal = written(drawn_run(draw, script))
            yield lines + journal
            for _ in range(3):
                yield lines + spoilt(draw, journal)
