"""Requests for nodes, in the form of compare/answers/nodes.txt (compare/README.md)."""
from images import Fault, files, needed, number

ONCE = {'node', 'size', 'header', 'root', 'sizes', 'info', 'data', 'rust', 'answer'}
REPEATED = {'lengths', 'data-at', 'at'}


def items(path):
    """The items of a file, each its lines as (word, rest)."""
    item = []
    with open(path) as file:
        for line in file:
            word, _, rest = line.strip().partition(' ')
            if word == 'node' and item:
                yield item
                item = []
            if word and not word.startswith('#'):
                item.append((word, rest))
    if item:
        yield item


def fields_of(item):
    """The lines of an item by their words, lists of those that it may have more than once."""
    fields = {word: [] for word in REPEATED}
    for word, rest in item:
        if word in REPEATED:
            fields[word].append(rest)
        elif word not in ONCE:
            raise Fault(f'no such line: {word}')
        elif word in fields:
            raise Fault(f'a second `{word}`')
        else:
            fields[word] = rest
    return fields


def expanded(length, rows):
    """Bytes of a length, by the runs that aren't 0."""
    whole = bytearray(length)
    for row in rows:
        at, data = row.split()
        at, part = number(at), bytes.fromhex(data)
        if at + len(part) > length:
            raise Fault(f'bytes at {at} past the end')
        whole[at:at + len(part)] = part
    return bytes(whole)


def sizes_of(text):
    """The two sizes, or none where they vary."""
    words = text.split()
    if words == ['variable']:
        return None
    if len(words) == 3 and words[0] == 'fixed':
        return number(words[1]), number(words[2])
    raise Fault(f'no sizes: {text}')


def request_of(fields):
    """A request, with its answer and the node that is left where it is built."""
    size, answer = number(needed(fields, 'size')), number(needed(fields, 'answer'))
    header = [number(n) for n in needed(fields, 'header').split()]
    root = number(needed(fields, 'root'))
    if len(header) != 5 or root > 1:
        raise Fault('no header')
    lengths = []
    for row in fields['lengths']:
        times, *numbers = [number(n) for n in row.split()]
        lengths += numbers * times
    if answer != 0 and fields['at']:
        raise Fault('a node beside a refusal')
    return {
        'name': needed(fields, 'node'),
        'size': size,
        'header': header,
        'root': root,
        'sizes': sizes_of(needed(fields, 'sizes')),
        'info': bytes.fromhex(needed(fields, 'info')),
        'data': expanded(number(needed(fields, 'data')), fields['data-at']),
        'lengths': lengths,
        'answer': answer,
        'node': expanded(size, fields['at']) if answer == 0 else b'',
    }


def read(paths):
    """The requests of files and of folders' files, at least one in each."""
    for path in files(paths):
        requests = 0
        for item in items(path):
            try:
                request = request_of(fields_of(item))
            except (Fault, ValueError) as fault:
                raise Fault(f'{path}: {item[0][1]}: {fault}') from None
            requests += 1
            yield request
        if requests == 0:
            raise Fault(f'{path}: no request')
