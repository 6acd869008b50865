"""What the command writes: pictures, block maps, explanations, help, and the line of progress at a terminal."""
import functools
import json
import os
import pty
import re
import resource
import struct
import subprocess
import unittest
import zlib

from support import (BLOCK, CHANGES_PAGE, COMMAND, CONSISTENT, DONE, INCONSISTENT, KINDS, LOGGED, NO_ANSWER, OPERATORS_PAGE,
                     REFUSALS, REFUSED, ROOT, SAMPLE, WITHDRAWN, CommandTest, figure, known, lost_and_leaked, overlap_blocks,
                     page_rows, problem_blocks, sample)

MIB = 1 << 20
# by what docs/OPERATOR.md says of them
COLOURS = {meaning: colour for colour, meaning in page_rows(r'[a-z ]+ \| `([0-9a-f]{6})` \| ([^:|]*?)(?:: .*?)?')}
TWICE, LOST, PROBLEM, LEAKED = (COLOURS[what] for what in ('claimed twice', 'lost', 'internal-pool problem', 'leaked'))
FREE = COLOURS['free']
OWNERS = {number: COLOURS[f'{number}, {name}'] for number, name in KINDS.items()}
# as the legend has them
NAMES = {TWICE: 'claimed twice', LOST: 'in use but marked free (lost)', PROBLEM: 'internal-pool problem',
         LEAKED: 'marked, no owner found (leaked)', **{OWNERS[number]: name for number, name in KINDS.items()}, FREE: 'free'}


def text_chunks(png):
    """The texts in a PNG file, by their keywords; every chunk's checksum is tested."""
    texts, at = {}, 8
    while at < len(png):
        length, kind = struct.unpack('>I4s', png[at:at + 8])
        data = png[at + 8:at + 8 + length]
        assert zlib.crc32(kind + data) == struct.unpack('>I', png[at + 8 + length:at + 12 + length])[0], kind
        if kind == b'tEXt':
            keyword, _, text = data.partition(b'\0')
            texts[keyword.decode()] = text.decode()
        at += 12 + length
    return texts


def colour_of(byte):
    """What a block of the map is drawn as."""
    owner, marked = byte & 15, byte & 16
    if owner and marked:
        return OWNERS[owner]
    return LOST if owner else LEAKED if marked else FREE


def font():
    """The letters of the picture, by the rows of their points."""
    with open(os.path.join(ROOT, 'command', 'src', 'font.rs'), encoding='utf-8') as file:
        rows = re.findall(r'^    \[(0x.*?)\],', file.read(), re.MULTILINE)
    letters = {tuple(int(row, 16) for row in letter.split(', ')): chr(32 + i) for i, letter in enumerate(rows)}
    assert len(letters) == 95
    return letters


class Decoded:
    """A picture as netpbm's pngtopnm reads it."""
    LETTERS = font()
    MARGIN, LINE, INK = 16, 18, '111827'

    def __init__(self, test, name):
        pixels = test.must('pngtopnm', name)
        header = re.match(rb'P6\n(\d+) (\d+)\n255\n', pixels)
        self.width, self.height = int(header[1]), int(header[2])
        self.points = pixels[header.end():]
        test.assertEqual(len(self.points), 3 * self.width * self.height)
        told = text_chunks(test.read(name))['Cells'].split()
        self.cells = {key: int(value) for key, value in zip(told[::2], told[1::2])}

    def point(self, x, y):
        at = 3 * (y * self.width + x)
        return self.points[at:at + 3].hex()

    def row_of(self, cell):
        """Where the middle of a cell's row is."""
        return self.cells['y'] + cell // self.cells['columns'] * self.cells['size'] + self.cells['size'] // 2

    def cell(self, number):
        column = number % self.cells['columns']
        return self.point(self.cells['x'] + column * self.cells['size'] + self.cells['size'] // 2, self.row_of(number))

    def marks(self, cell):
        """The colours beside a cell's row."""
        return {self.point(x, self.row_of(cell)) for x in (self.MARGIN // 2, self.width - self.MARGIN // 2)}

    def text(self, x, y):
        """The letters of a line, up to two spaces."""
        text = ''
        while x + 7 <= self.width and not text.endswith('  '):
            rows = (''.join('01'[self.point(x + i, y + j) == self.INK] for i in range(7)) for j in range(13))
            text += self.LETTERS[tuple(int(row, 2) for row in rows)]
            x += 7
        return text.strip()

    def legend(self):
        """The text beside each colour."""
        heights = [self.height - self.MARGIN - i * self.LINE for i in range(1, (len(NAMES) + 1) // 2 + 1)]
        return {self.point(x, y): self.text(x + 26, y) for x in (self.MARGIN, self.width // 2) for y in heights}


class Pictures(CommandTest):
    def drawn(self, image):
        self.remove('picture.png')
        self.remove('map')
        status, _, err = self.run_command(image, '--picture', 'picture.png', '--map', 'map')
        self.assertIn(status, (CONSISTENT, INCONSISTENT))
        self.assertEqual(err, '')
        return Decoded(self, 'picture.png'), self.read('map')

    def legend_agrees(self, picture, expected, more=None):
        """Every colour has its name, and the number of blocks drawn so."""
        names = dict(NAMES)
        for colour, after in (more or {}).items():
            names[colour] += after
        self.assertEqual(picture.legend(), {colour: f'{name}: {expected.count(colour)}' for colour, name in names.items()})

    def test_a_cell_for_each_block(self):
        picture, blocks = self.drawn(self.write('disk.img', lost_and_leaked()))
        self.assertEqual((picture.cells['blocks'], picture.cells['columns']), (1, 16))
        expected = [colour_of(byte) for byte in blocks]
        self.assertEqual([picture.cell(i) for i in range(16)], expected)
        self.assertEqual(expected[8:11], [OWNERS[6], LOST, LEAKED])
        self.assertEqual(picture.marks(0), {LOST})
        self.legend_agrees(picture, expected)
        self.assertEqual((picture.text(16, 16), picture.text(16, 34)), ('disk.img', 'xid 7'))
        self.assertEqual(picture.text(16 + 7 * len('xid 7   '), 34), 'inconsistent')
        self.assertEqual(picture.text(16 + 7 * len('xid 7   inconsistent   '), 34), '16 blocks of 4096 bytes')
        picture, _ = self.drawn(self.write('disk.img', sample()))
        self.assertEqual(picture.marks(0), {'ffffff'})
        self.assertEqual(picture.text(16 + 7 * len('xid 7   '), 34), 'consistent')

    def test_blocks_that_the_report_names(self):
        """Images of the list with overlaps and problems: the blocks named are drawn so, whoever owns them."""
        drawn, cut = {TWICE: 0, PROBLEM: 0}, 0
        for v in known():
            problems, overlaps = figure(v, 'PROBLEMS'), figure(v, 'OVERLAPS')
            if problems == 0 and overlaps == 0:
                continue
            picture, blocks = self.drawn(self.write('disk.img', v['image']))
            expected = [colour_of(byte) for byte in blocks]
            marks = [(block, PROBLEM) for block in problem_blocks(v) if block < len(blocks)]
            marks += [(block, TWICE) for block in overlap_blocks(v)]
            # the louder colour stays: twice, lost, problem
            for block, colour in marks:
                expected[block] = max(expected[block], colour, key=[FREE, LEAKED, *OWNERS.values(), PROBLEM, LOST, TWICE].index)
                drawn[colour] += 1
            self.assertEqual(picture.cells['blocks'], 1, v['name'])
            self.assertEqual([picture.cell(i) for i in range(len(blocks))], expected, v['name'])
            logs = (PROBLEM, problems), (TWICE, overlaps)
            more = {colour: f', first {LOGGED} of {n}' for colour, n in logs if n > LOGGED}
            self.legend_agrees(picture, expected, more)
            cut += bool(more)
        self.assertGreater(min(*drawn.values(), cut), 5)

    def test_nodes_of_a_volume(self):
        image = self.sparse('mkapfs.img', 256 * MIB)
        self.must('mkapfs', image)
        picture, blocks = self.drawn(image)
        expected = [colour_of(byte) for byte in blocks]
        self.assertEqual([picture.cell(i) for i in range(len(blocks))], expected)
        self.assertEqual([expected.count(OWNERS[kind]) for kind in (10, 11)], [1, 1])
        self.legend_agrees(picture, expected)

    def test_cells_of_several_blocks(self):
        image = self.sparse('mkapfs.img', 520 * MIB + BLOCK)  # the last row and the last cell aren't full
        self.must('mkapfs', image)
        picture, blocks = self.drawn(image)
        each = picture.cells['blocks']
        self.assertEqual((each, len(blocks)), (4, 520 * MIB // BLOCK + 1))
        seen = set()
        for i in range(-(-len(blocks) // each)):
            classes = {colour_of(byte) for byte in blocks[i * each:(i + 1) * each]}
            if len(classes) == 1:
                self.assertEqual({picture.cell(i)}, classes, i)
                seen |= classes
        self.assertLessEqual({FREE, OWNERS[2], OWNERS[3]}, seen)
        leaked = [i for i, byte in enumerate(blocks) if colour_of(byte) == LEAKED]
        self.assertTrue(leaked)
        self.assertEqual({picture.cell(block // each) for block in leaked}, {LEAKED})

    def test_named_blocks_in_cells_of_several(self):
        image = self.sparse('mkapfs.img', 520 * MIB)
        self.must('mkapfs', image)
        _, blocks = self.drawn(image)
        with open(self.path(image), 'r+b') as file:
            for block in (i for i, byte in enumerate(blocks) if byte & 15 == 5):  # the pool's bitmaps
                file.seek(block * BLOCK)
                file.write(bytes(BLOCK))
        named = {problem['block'] for problem in self.json_of(image)['report']['problems']['first']}
        self.assertEqual(named, {i for i, byte in enumerate(blocks) if byte & 32})
        picture, _ = self.drawn(image)
        self.assertEqual({picture.cell(block // 4) for block in named}, {PROBLEM})
        self.assertEqual([picture.marks(block // 4) for block in named], [{PROBLEM}] * len(named))


class WrittenFiles(CommandTest):
    def test_nothing_is_written_over(self):
        """Not the image, under whichever name, and no other file: it may hold a disk."""
        image = self.write('disk.img', sample())
        os.link(self.path(image), self.path('link'))
        os.symlink(image, self.path('symlink'))
        names = [image, 'link', 'symlink', self.write('other', b'?')]
        before = [self.read(name) for name in names]
        for option in '--map', '--picture':
            for name in names:
                status, out, err = self.run_command(image, option, name)
                self.assertEqual((status, out), (NO_ANSWER, ''))
                self.assertEqual(err, f'apfs-space-check: {name}: it is there already, and is not written over\n')
        self.assertEqual([self.read(name) for name in names], before)

    def test_files_that_make_no_sense(self):
        image = self.write('disk.img', sample())
        self.assertEqual(self.run_command(image, image, '--map', 'map')[0], NO_ANSWER)
        for other in 'same', './same', os.path.join(self.folder, 'same'):
            self.assertEqual(self.run_command(image, '--map', 'same', '--picture', other)[0], NO_ANSWER)
        for option in '--map', '--picture':
            for name, reason in ('absent/file', 'No such file or directory'), ('/dev/full', 'No space left on device'):
                status, out, err = self.run_command(image, option, name)
                self.assertEqual((status, out.count('consistent')), (NO_ANSWER, 1))
                self.assertIn(f'{name}: {reason}', err)
        self.assertEqual(os.listdir(self.folder), [image])

    def test_an_empty_file_is_filled(self):
        image = self.write('disk.img', sample())
        self.write('empty', b'')
        os.symlink('empty', self.path('symlink'))
        self.assertEqual(self.run_command(image, '--map', 'symlink')[0], CONSISTENT)
        self.assertEqual((len(self.read('empty')), os.path.islink(self.path('symlink'))), (16, True))
        self.assertEqual(sorted(os.listdir(self.folder)), [image, 'empty', 'symlink'])

    def test_standard_output_as_a_file(self):
        image = self.write('disk.img', sample())
        self.run_command(image, '--picture', 'picture', '--map', 'map')
        for option, name in ('--picture', 'picture'), ('--map', 'map'):
            printed = self.must(COMMAND, '--quiet', option, '/dev/stdout', image)
            self.assertEqual(printed, self.read(name))

    def limited(self, *arguments, restore_signals):
        """The command, where no file may have more than eight bytes."""
        limit = functools.partial(resource.setrlimit, resource.RLIMIT_FSIZE, (8, 8))
        return subprocess.run([COMMAND, *arguments], cwd=self.folder, capture_output=True, check=False, preexec_fn=limit,
                              restore_signals=restore_signals)

    def test_a_file_that_can_not_be_written_whole(self):
        image = self.write('disk.img', sample())
        for option in '--map', '--picture':
            # Python ignores the signal that comes with the limit, and so does what it starts
            done = self.limited(image, option, 'file', restore_signals=False)
            self.assertEqual(done.returncode, NO_ANSWER)
            self.assertIn(b'apfs-space-check: file: File too large', done.stderr)
            self.assertEqual(os.listdir(self.folder), [image])

    def test_a_child_that_ends_while_it_writes(self):
        """It has printed its answer by then, which counts no more, and has begun a file, which is removed."""
        image = self.write('disk.img', sample())
        done = self.limited('--json', image, '--map', 'file', restore_signals=True)
        self.assertEqual((done.returncode, done.stdout.count(b'\n')), (NO_ANSWER, 1))
        self.assertEqual(json.loads(done.stdout)['answer'], 'unreadable')
        self.assertEqual(os.listdir(self.folder), [image])

    def test_a_refused_image_has_no_files(self):
        image = self.write('cut.img', sample()[:-1])
        status, _, err = self.run_command(image, '--map', 'map', '--picture', 'picture')
        self.assertEqual((status, os.listdir(self.folder)), (REFUSED, [image]))
        for name in 'map', 'picture':
            self.assertIn(f'apfs-space-check: {name}: not written: there is no report\n', err)


class Texts(CommandTest):
    def options(self):
        """Every long option that --help names."""
        status, out, err = self.run_command('--help')
        self.assertEqual((status, err), (DONE, ''))
        options = set(re.findall(r'^ .*?(--[a-z]+)', out, re.MULTILINE))
        self.assertEqual(len(options), 10, options)
        return options

    def test_version(self):
        status, out, err = self.run_command('--version')
        self.assertEqual((status, err), (DONE, ''))
        self.assertRegex(out, r'^apfs-space-check \d+\.\d+\.\d+\n$')

    def test_quiet(self):
        good, bad = self.write('good.img', sample()), self.write('bad.img', lost_and_leaked())
        cut = self.write('cut.img', sample()[:-1])
        for name, status in [(good, CONSISTENT), (bad, INCONSISTENT), (cut, REFUSED)]:
            self.assertEqual(self.run_command('--quiet', name), (status, '', ''))
        self.assertIn('absent', self.run_command('--quiet', 'absent')[2])

    def test_explanations(self):
        given = set(REFUSALS.values())
        numbers = given | WITHDRAWN
        sentences = set()
        for number in numbers:
            status, out, err = self.run_command('--explain', str(number))
            self.assertEqual((status, err, out.count('\n')), (DONE, '', 1))
            meaning, _, advice = out.removeprefix(f'refused {number}: ').strip().partition('; ')
            row = f'| {number} | {meaning} | {advice} |'
            self.assertTrue(row in OPERATORS_PAGE, row)
            sentences.add(meaning)
            since = re.search(r'no longer given since version ([\d.]+),', meaning)
            self.assertEqual(since is None, number in given)
            if since:
                self.assertIn(f'Version {since[1]} ', CHANGES_PAGE)
        self.assertEqual(len(sentences), len(numbers))
        for wrong in *(set(range(max(numbers) + 2)) - numbers), 'x':
            status, out, err = self.run_command('--explain', str(wrong))
            self.assertEqual((status, out), (NO_ANSWER, ''))
            self.assertIn('no refusal has this number', err)

    def test_wrong_command_lines(self):
        for arguments in [], ['--nothing', SAMPLE], ['--offset', '1', '--partition', '2', SAMPLE], ['--json', '--quiet', SAMPLE], \
                ['--explain', '5', SAMPLE], ['--offset', '-1', SAMPLE]:
            status, out, err = self.run_command(*arguments)
            self.assertEqual((status, out), (NO_ANSWER, ''), arguments)
            self.assertIn('error:', err)

    def test_manual_page(self):
        page = os.path.join(ROOT, 'command', 'apfs-space-check.1')
        self.assertEqual(self.must('mandoc', '-T', 'lint', '-W', 'warning', page), b'')
        text = re.sub('.\b', '', self.must('mandoc', '-T', 'utf8', page).decode())
        for option in self.options():
            self.assertIn(option, text)

    def test_completions(self):
        for shell in 'bash', 'zsh', 'fish':
            status, out, _ = self.run_command('--completions', shell)
            self.assertEqual(status, DONE)
            for option in self.options():
                self.assertIn(option.removeprefix('--'), out)
        self.must('bash', '-n', input=self.run_command('--completions', 'bash')[1].encode())

    def test_nobody_reads_the_output(self):
        reader, writer = os.pipe()
        os.close(reader)
        done = subprocess.run([COMMAND, SAMPLE], stdout=writer, stderr=subprocess.PIPE, check=False)
        os.close(writer)
        self.assertEqual((done.returncode, done.stderr), (NO_ANSWER, b''))
        with open('/dev/full', 'wb') as full:
            done = subprocess.run([COMMAND, SAMPLE], stdout=full, stderr=subprocess.PIPE, check=False)
        self.assertEqual(done.returncode, NO_ANSWER)
        self.assertIn(b'standard output: No space left on device', done.stderr)


class Progress(CommandTest):
    def at_a_terminal(self, *arguments):
        """Standard error as a terminal shows it, and standard output."""
        terminal, stderr = pty.openpty()
        with open(self.path('out'), 'wb') as out:
            run = subprocess.Popen([COMMAND, *arguments], cwd=self.folder, stdout=out, stderr=stderr)
        os.close(stderr)
        shown = b''
        while True:
            try:
                shown += os.read(terminal, 4096)
            except OSError:  # how Linux tells that the other side is closed
                break
        os.close(terminal)
        run.wait()
        return shown.decode(), self.read('out').decode()

    def test_a_large_image(self):
        image = self.sparse('large.img', 2048 * MIB)
        self.must('mkapfs', image)
        shown, out = self.at_a_terminal(image)
        self.assertRegex(shown, r'checking large.img of 2\.00\s?GiB, .* read')
        self.assertTrue(shown.endswith('\r\x1b[2K'), 'the line is cleared')
        self.assertTrue(out.startswith('space check  large.img  xid 1\n'), out)
        self.assertEqual(self.at_a_terminal('--quiet', image)[0], '')
        self.assertEqual(self.run_command(image)[2], '')

    def test_a_small_image(self):
        self.assertEqual(self.at_a_terminal(self.write('small.img', sample()))[0], '')


if __name__ == '__main__':
    unittest.main()
