"""What the tests of apfs-space-check share: the command, the images with known answers, the operators' page, scratch files."""
import json
import os
import re
import shutil
import struct
import subprocess
import sys
import tempfile
import unittest

sys.dont_write_bytecode = True
sys.path.insert(0, os.path.join(os.path.dirname(os.path.dirname(os.path.dirname(os.path.abspath(__file__)))), 'tools'))
import definition  # noqa: E402  (beside the other tools)
import images  # noqa: E402
from definition import ROOT  # noqa: E402
from images import FIGURES, PLACES  # noqa: E402, F401

COMMAND = os.path.join(ROOT, 'command', 'target', 'release', 'apfs-space-check')
SAMPLE = os.path.join(ROOT, 'crates', 'listing', 'stdin')
CONSISTENT, INCONSISTENT, REFUSED, NO_ANSWER = range(4)
# of what checks no image, as --help
DONE = 0

# where some of the programs are that the tests use, which not every user looks
os.environ['PATH'] += ':/usr/sbin:/sbin'

BLOCK = 4096
# where the sample's chunk bitmap stands, of which bits 0 to 9 are set
BITMAP = 7 * BLOCK
# the kind of a space manager
MANAGER = 5


def sample():
    with open(SAMPLE, 'rb') as file:
        return bytearray(file.read())


def lost_and_leaked():
    """The sample with block 9, the object map's root, marked free, and block 10 marked as in use."""
    image = sample()
    image[BITMAP + 1] = 0b101
    return image


def claimed_twice():
    """The sample with areas over each other: by its superblock, block 2, the descriptor area is blocks 0 to 2, with the map at
    place 1, and the data area 1 to 5."""
    image = sample()
    superblock = image[2 * BLOCK:3 * BLOCK]
    struct.pack_into('<IIQQ', superblock, 104, 3, 5, 0, 1)
    struct.pack_into('<I', superblock, 136, 1)
    image[2 * BLOCK:3 * BLOCK] = seal(superblock)
    return image


# the head, and the tail, of an empty list of unused blocks
NO_INDEX = 0xffff


def bitmap_ring(head, tail, following, table=354):
    """The sample with a ring of blocks 10 to 13 for the pool's bitmap, which stands in 12, and a list of unused blocks there: its
    head, its tail and the index that follows each; the table of these is at a byte of the manager, block 3."""
    image = sample()
    pool_bitmap, image[5 * BLOCK:6 * BLOCK] = image[5 * BLOCK:6 * BLOCK], bytes(BLOCK)
    image[12 * BLOCK:13 * BLOCK] = pool_bitmap
    # blocks 5, 14 and 15 are free, of the chunk that block 6 lists, and of the device
    struct.pack_into('<H', image, BITMAP, 0b0011_1111_1101_1111)
    struct.pack_into('<I', image, 6 * BLOCK + 60, 3)
    manager = image[3 * BLOCK:4 * BLOCK]
    struct.pack_into('<Q', manager, 72, 3)
    struct.pack_into('<IQ', manager, 164, 4, 10)
    struct.pack_into('<HH', manager, 320, head, tail)
    struct.pack_into('<I', manager, 332, table)
    struct.pack_into('<5H', manager, 352, 2, *following)
    image[3 * BLOCK:4 * BLOCK] = seal(manager)
    return image


# what numbers and names must be, from what is proved and not from the code under test
KINDS = definition.kinds()
PROBLEMS = definition.problems()
REFUSALS = definition.refusals()
# "Refusal 19 is never given again" (document 02)
WITHDRAWN = {19}
# kinds with places among the base's numbers; those of later kinds stand at the answer's end
BASE_KINDS = PLACES['FIRST_LOST'] - PLACES['LOST']
# so many problems, and so many overlaps, are named in a report
LOGGED = (PLACES['FREE'] - PLACES['PROBLEM']) // 2


def figure(v, name):
    """A number of an image's answer."""
    return v['answer'][PLACES[name]]


def problems(v):
    """The problems that an image's answer names, each number and block."""
    named = v['answer'][PLACES['PROBLEM']:PLACES['FREE']]
    return list(zip(named[::2], named[1::2]))[:figure(v, 'PROBLEMS')]


def problem_blocks(v):
    return [block for _, block in problems(v)]


def overlap_blocks(v):
    return v['answer'][PLACES['OVERLAP']:PLACES['LOST']:3][:figure(v, 'OVERLAPS')]


def claimants(v):
    """How often each kind came second, by its number, in an image's answer."""
    return dict(zip(KINDS, v['answer'][PLACES['CLAIMANTS']:PLACES['FREE_RING']]))


def known(path=os.path.join(ROOT, 'compare', 'answers', 'list.txt')):
    """The images of the fixed list with the answers that the command must give: it never lends a short map."""
    return [v for v in images.read(path) if figure(v, 'REFUSAL') != REFUSALS['ShortMap']]


OPERATORS_PAGE = definition.read_text('docs', 'OPERATOR.md')
CHANGES_PAGE = definition.read_text('docs', 'CHANGES.md')


def page_rows(pattern):
    """The rows of the page's tables that begin like a pattern, as its groups."""
    return re.findall(rf'^\| {pattern} \|', OPERATORS_PAGE, re.MULTILINE)


def packages():
    """The packages that programs come from, by tools/packages.txt."""
    rows = (line.split() for line in definition.read_text('tools', 'packages.txt').splitlines() if not line.startswith('#'))
    return {program: package for _, package, program in rows}


class CommandTest(unittest.TestCase):
    """Each test has a folder of its own, in which the command is run."""
    PACKAGES = packages()

    def setUp(self):
        scratch = tempfile.TemporaryDirectory()
        self.addCleanup(scratch.cleanup)
        self.folder = scratch.name

    def path(self, name):
        return os.path.join(self.folder, name)

    def write(self, name, content):
        with open(self.path(name), 'wb') as file:
            file.write(content)
        return name

    def read(self, name):
        with open(self.path(name), 'rb') as file:
            return file.read()

    def remove(self, name):
        if os.path.exists(self.path(name)):
            os.remove(self.path(name))

    def sparse(self, name, length):
        with open(self.path(name), 'wb') as file:
            file.truncate(length)
        return name

    def needs(self, program):
        """The test is left out where a program that a package has isn't installed."""
        if program in self.PACKAGES and shutil.which(program) is None:
            self.skipTest(f'package {self.PACKAGES[program]}')

    def must(self, program, *arguments, **options):
        """Runs another program, which must succeed."""
        self.needs(program)
        done = subprocess.run([program, *arguments], cwd=self.folder, capture_output=True, check=False, **options)
        self.assertEqual(done.returncode, 0, done)
        return done.stdout

    def run_command(self, *arguments):
        done = subprocess.run([COMMAND, *arguments], cwd=self.folder, stdin=subprocess.DEVNULL, capture_output=True,
                              check=False, timeout=120)
        self.assertNotIn(b'panicked', done.stderr)
        return done.returncode, done.stdout.decode(), done.stderr.decode()

    def json_of(self, *arguments):
        """The line of JSON for one image; its status is the command's."""
        status, out, _ = self.run_command('--json', *arguments)
        self.assertEqual(out.count('\n'), 1, out)
        answer = json.loads(out)
        self.assertEqual(answer['exit_status'], status)
        return answer


def seal(block):
    """Writes a block's checksum into it."""
    last = 2 ** 32 - 1
    # to the last that isn't 0
    end = (len(block.rstrip(b'\0')) + 3) // 4 * 4
    words = [word for word, in struct.iter_unpack('<I', block[8:end])]
    total = sum(words)
    running = sum((len(block) // 4 - 2 - i) * word for i, word in enumerate(words))
    low = last - (total + running) % last
    block[:8] = struct.pack('<II', low, last - (total + low) % last)
    return block


def sealed(fields):
    """A block of a superblock's fields, each at a place and of a width, with its checksum."""
    block = bytearray(BLOCK)
    for at, width, value in fields:
        block[at:at + width] = value.to_bytes(width, 'little')
    return seal(block)


def numbered(xid, device_free):
    """The sample with an xid, in each of its objects, and with the device's free count."""
    image = sample()
    for at in range(0, len(image), BLOCK):
        block = image[at:at + BLOCK]
        if block == seal(block[:]):
            struct.pack_into('<Q', block, 16, xid)
            if block[24] == MANAGER:
                struct.pack_into('<Q', block, 72, device_free)
            image[at:at + BLOCK] = seal(block)
    return image


def slow(superblocks):
    """A container that takes the square of its superblocks in time: each is the best that is left, and has no map."""
    head = [(24, 4, 1), (32, 4, int.from_bytes(b'NXSB', 'little')), (36, 4, BLOCK), (40, 8, superblocks + 1),
            (104, 4, superblocks), (112, 8, 1), (140, 4, 2)]
    return b''.join(sealed([*head, (16, 8, superblocks - i)]) for i in range(-1, superblocks))
