"""Scripts with and without a journal that are drawn from fixed numbers, mostly valid ones."""

NAMES = ('f', 'g', 'h', 'p', 'nosuch', 'path', 'a/b', '', 'cali.x', 'region.depth', 'time.duration.ns', 'event.begin#f', 'event.set#nosuch')
VALUES = ('main', '1', '-7', '0x1f', 'true', '0.25', '', ' a b', 'x\\\\y\\n', 'x\\', '9223372036854775808', '1e5', '-0.5')
SERVICES = ('event', 'timer', 'trace', 'aggregate', 'region.depth', 'region.count', 'trace', 'aggregate', 'nosuch', '')


def header(draw):
    lines = []
    for name in ('f', 'g', 'h', 'p'):
        kind = draw.choice(('string', 'int', 'uint', 'addr', 'double', 'bool')) if draw.random() < 0.5 else 'string'
        props = draw.choice((0, 12, 276, 268, 512) if kind in ('string', 'double') else (0, 1, 13, 276, 512))
        if draw.random() < 0.03:
            kind, props = draw.choice((('usr', 0), ('string', 1), ('int', 65536), ('double', 277)))
        lines.append(f'attribute {name} {kind} {props}')
    for name in ('t', 'q'):
        services = draw.sample(SERVICES, draw.choice((1, 2, 3))) if draw.random() < 0.08 else draw.choice((['event', 'aggregate'], ['aggregate', 'timer'], ['trace', 'region.depth']))
        lines.append(f'channel {name} {",".join(services)}')
        for word in draw.choice(((), ('key',), ('value',), ('key', 'value'))) if services[0] != 'trace' or draw.random() < 0.05 else ():
            names = draw.choices(NAMES, k=draw.choice((1, 2, 3))) if draw.random() < 0.1 else ['f', 'g']
            lines.append(f'{word} {" ".join(names)}')
    if draw.random() < 0.15:
        lines.append(f'global {draw.choice(NAMES[:5])} {draw.choice(VALUES)}')
    return lines


def thread_line(draw):
    name = draw.choice(NAMES) if draw.random() < 0.03 else draw.choice(NAMES[:4])
    value = draw.choice(VALUES) if draw.random() < 0.1 else draw.choice(('1', '0'))
    return draw.choice((f'begin {name} {value}', f'set {name} {value}', f'end {name}', 'snapshot', f'flush {draw.choice("tq")}', 'tick 007', '', '#x'))


def journal(draw):
    lines = [draw.choice(('journal script', 'journal real', 'journal', 'journal x', 'journals'))] if draw.random() < 0.2 else ['journal real']
    for _ in range(draw.randrange(3)):
        lines.append(draw.choice(('op 0 1', 'op 1 99999999999999999999', '', 'op 0')))
    for _ in range(draw.randrange(3)):
        lines.append(draw.choice(('start 0 -', 'start 1 18446744073709551616', 'start 0 5')))
        for _ in range(draw.randrange(3)):
            reply = draw.choice(('done', 'mismatch:1', 'notopen', 'busy:7', 'busy', 'merged', 'x'))
            lines.append(f'line 0 1 {reply} {draw.choice(("0", "99999999999999999999", "-"))} {draw.choice(("-", "3"))}')
    return lines + draw.choice((['end'], ['end'], ['end'], [], ['end', ''], ['end', 'x']))


def both(draw):
    lines = header(draw)
    for _ in range(draw.choice((1, 1, 2))):
        lines.append('thread')
        lines += [thread_line(draw) for _ in range(draw.randrange(6))]
    if draw.random() < 0.4:
        lines += journal(draw)
    if draw.random() < 0.3:
        place = draw.randrange(len(lines))
        lines[place] = draw.choice((lines[place] + ' ', lines[place][:-1], lines[place].replace(' ', '  ', 1), draw.choice(lines)))
    return '\n'.join(lines).encode() + draw.choice((b'\n', b''))
