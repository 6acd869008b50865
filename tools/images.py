"""The images of a file in the form of compare/answers/list.txt (compare/README.md, "The fixed list"), with their answers.

An answer may have more numbers than the archive gives, and an image lines of a check by chunks (`chunks`, `chunks-left`) and of
the rules that it is meant for (`level`): a file is then for code that is still to come, and what is known of it is taken. One for
earlier code has the numbers of its time, as an earlier caller's array has."""
import os

from definition import places

PLACES = places()
FIGURES = PLACES['FIGURES']
# as many numbers as answers had before each appending
EARLIER = PLACES['LATER_LOST'], PLACES['CLAIMANTS'], PLACES['FREE_RING']
WORDS = {'define', 'image', 'made', 'base', 'length', 'at', 'map', 'level', 'rust', 'answer', 'left', 'chunks', 'chunks-left'}


class Fault(Exception):
    """What is wrong with a file."""


def items(path):
    """The items of a file, each its lines as (word, rest); lines before the first name are an image of the file's name."""
    item, unnamed = [('image', os.path.basename(path))], True
    with open(path) as file:
        for line in file:
            word, _, rest = line.strip().partition(' ')
            if word in ('define', 'image'):
                if len(item) > 1 or not unnamed:
                    yield item
                item, unnamed = [(word, rest)], False
            elif word and not word.startswith('#'):
                item.append((word, rest))
    if len(item) > 1 or not unnamed:
        yield item


def fields_of(item):
    """The lines of an item by their words, each there once but for `at`."""
    fields = {}
    for word, rest in item:
        if word not in WORDS:
            raise Fault(f'no such line: {word}')
        if word in fields and word != 'at':
            raise Fault(f'a second `{word}`')
        fields[word] = rest
    return fields


def needed(fields, word):
    if word not in fields:
        raise Fault(f'no `{word}`')
    return fields[word]


def number(text):
    n = int(text)
    if not 0 <= n < 1 << 64:
        raise Fault(f'{text} is no number of 64 bits')
    return n


def image_of(item, fields, bases):
    length = number(needed(fields, 'length'))
    if 'base' in fields and fields['base'] not in bases:
        raise Fault(f"no base {fields['base']} before it")
    image = bytearray(bases.get(fields.get('base'), b'')[:length].ljust(length, b'\0'))
    for rest in (rest for word, rest in item if word == 'at'):
        at, data = rest.split()
        part = bytes.fromhex(data)
        at = number(at)
        if at + len(part) > length:
            raise Fault(f'bytes at {at} past its end')
        image[at:at + len(part)] = part
    return bytes(image)


def answered(fields, image):
    """An image with its answer and the map that is left."""
    answer = [number(n) for n in needed(fields, 'answer').split()]
    length, left = number(needed(fields, 'map')), bytes.fromhex(needed(fields, 'left'))
    if len(answer) < FIGURES and len(answer) not in EARLIER:
        raise Fault(f'an answer of {len(answer)} numbers')
    if len(left) != length:
        raise Fault(f'{len(left)} bytes of a map of {length}')
    return {'name': fields['image'], 'image': image, 'map': length, 'answer': answer, 'left': left, 'chunks': 'chunks' in fields}


class Uncompared:
    """What images state and the archive doesn't give, or the other way round."""

    def __init__(self, images=()):
        self.longer = self.shorter = self.chunks = 0
        for v in images:
            self.note(v)

    def note(self, v):
        self.longer += len(v['answer']) > FIGURES
        self.shorter += len(v['answer']) < FIGURES
        self.chunks += v['chunks']

    def __str__(self):
        told = [(self.longer, f'numbers past {FIGURES}'), (self.shorter, 'missing numbers'),
                (self.chunks, 'lines `chunks`')]
        return '; '.join(f'{what} not compared, in {images} images' for images, what in told if images)


def files(paths):
    """The files among paths, or in them; not a folder's INDEX, which says what each of the others shows."""
    for path in paths:
        inside = [os.path.join(path, name) for name in sorted(os.listdir(path))] if os.path.isdir(path) else [path]
        yield from (file for file in inside if os.path.basename(file) != 'INDEX')


def read(*paths):
    """The images of files and of folders' files, at least one in each."""
    for file in files(paths):
        yield from read_file(file)


def read_file(path):
    bases, images = {}, 0
    for item in items(path):
        try:
            fields = fields_of(item)
            image = image_of(item, fields, bases)
            if 'define' in fields:
                bases[fields['define']] = image
                continue
            v = answered(fields, image)
        except (Fault, ValueError) as fault:
            raise Fault(f'{path}: {item[0][1]}: {fault}') from None
        images += 1
        yield v
    if images == 0:
        raise Fault(f'{path}: no image')
