"""Values of every kind: how a text is read, printed and compared."""

KINDS = {'usr': 0, 'int': 1, 'uint': 2, 'string': 3, 'addr': 4, 'double': 5, 'bool': 6, 'type': 7, 'ptr': 11}
NANO = 10 ** 9
MOST = 2 ** 86
DIGITS = frozenset('0123456789')


def is_decimal(text):
    return text != '' and DIGITS.issuperset(text)


def read_fixed(text):
    """Nano-units, or None: an optional sign, a decimal, and optionally a point with one to nine digits."""
    body = text[1:] if text.startswith('-') else text
    whole, point, behind = body.partition('.')
    if not is_decimal(whole) or (point and not (is_decimal(behind) and len(behind) <= 9)):
        return None
    size = int(whole) * NANO + int((behind + '0' * 9)[:9])
    return (-size if text.startswith('-') else size) if size <= MOST else None


def read_value(kind, text):
    """A value as (its form, its content), or None where the text isn't of the kind."""
    if kind == 'int':
        body = text[1:] if text.startswith('-') else text
        if is_decimal(body) and int(body) <= MOST:
            return 'int', int(text)
    elif kind == 'uint':
        if is_decimal(text) and int(text) < 2 ** 64:
            return 'uint', int(text)
    elif kind == 'addr':
        digits = text[2:] if text.startswith('0x') else text
        if 1 <= len(digits) <= 16 and set(digits) <= set('0123456789abcdefABCDEF'):
            return 'addr', int(digits, 16)
    elif kind == 'double':
        size = read_fixed(text)
        return ('fixed', size) if size is not None else ('real', text)
    elif kind == 'bool':
        if text in ('true', '1', 'false', '0'):
            return 'bool', text in ('true', '1')
    elif kind == 'type':
        if text in KINDS:
            return 'kind', text
    else:
        return {'string': 'text', 'usr': 'usr', 'ptr': 'ptr'}[kind], text
    return None


def print_value(value):
    form, content = value
    if form == 'fixed':
        whole, rest = divmod(abs(content), NANO)
        behind = f'.{rest:09}'.rstrip('0') if rest else ''
        return ('-' if content < 0 else '') + str(whole) + behind
    if form == 'addr':
        return hex(content)
    if form == 'bool':
        return 'true' if content else 'false'
    return str(content)


def is_whole(value):
    return value[0] in ('int', 'uint')


def is_number(value):
    return is_whole(value) or value[0] == 'fixed'


def measure(value):
    return value[1] if value[0] == 'fixed' else value[1] * NANO


def order(value):
    """A key by which values compare."""
    form, content = value
    if is_number(value):
        return 0, measure(value), ('int', 'uint', 'fixed').index(form)
    if form == 'bool':
        return 1, content
    if form == 'addr':
        return 2, content
    if form == 'kind':
        return 3, KINDS[content]
    return 4 + ('text', 'real', 'usr', 'ptr').index(form), content.encode()
