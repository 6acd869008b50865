"""Every image of the fixed list, whose answers are the original's, through the command: JSON, listing and block map."""
import os
import re
import struct
import subprocess
import unittest

from support import (BASE_KINDS, BLOCK, CONSISTENT, FIGURES, INCONSISTENT, KINDS, LOGGED, NO_INDEX, OPERATORS_PAGE, PLACES,
                     PROBLEMS, REFUSALS, REFUSED, ROOT, SAMPLE, WITHDRAWN, CommandTest, bitmap_ring, claimants, claimed_twice,
                     figure, known, lost_and_leaked, numbered, page_rows, problems)

LISTING = os.path.join(ROOT, 'crates', 'listing', 'out', 'listing')

# the page's rows of problems: line, number, and the name that JSON alone has
PROBLEM_ROWS = {int(number): (line, name) for line, number, name in page_rows(r'`([^`]*)` \| (\d+), (.*?)')}
REPORTED = {'consistent': (1, CONSISTENT), 'inconsistent': (2, INCONSISTENT)}

# of the list of unused blocks of the pool bitmap's ring
FREE_RING_PROBLEMS = (7, 8)

# powers of 2 and of 10 with their neighbours, numbers with zeros inside, and of one digit throughout
NUMBERS = sorted(n for n in {base ** k + more for base in (2, 10) for k in range(65) for more in (-1, 0, 1)}
                 | {int(('90' * 10)[:k]) for k in range(1, 21)} | {int(('100' * 7)[:k]) for k in range(1, 21)}
                 | {int(digit * k) for digit in '123456789' for k in range(1, 21)} if n < 2 ** 64)


def figures(answer):
    """The answer's numbers at their places, from a parsed line of JSON."""
    found = [0] * FIGURES

    def put(name, *numbers):
        found[PLACES[name]:PLACES[name] + len(numbers)] = numbers

    if answer['answer'] == 'refused':
        put('REFUSAL', answer['refusal']['number'])
        return found
    r = answer['report']
    for name in 'xid', 'pool_used', 'pool_unused', 'free_ring', 'free', 'wrong_chunks', 'device_free', 'leaked':
        put(name.upper(), r[name])
    put('PROBLEMS', r['problems']['total'])
    put('PROBLEM', *(n for p in r['problems']['first'] for n in (p['number'], p['block'])))
    put('OVERLAPS', r['overlaps']['total'])
    put('OVERLAP', *(n for o in r['overlaps']['first'] for n in (o['block'], o['owner']['number'], o['claimant']['number'])))
    kinds = r['lost']['kinds']
    for row, some in ('', kinds[:BASE_KINDS]), ('LATER_', kinds[BASE_KINDS:]):
        put(f'{row}LOST', *(kind['count'] for kind in some))
        put(f'{row}FIRST_LOST', *(kind['first'] or 0 for kind in some))
    put('VERDICT', r['verdict']['number'])
    put('CLAIMANTS', *(kind['count'] for kind in r['overlaps']['claimants']))
    return found


def lines(answer):
    """The listing that a parsed line of JSON stands for."""
    if answer['answer'] == 'refused':
        return f"refused {answer['refusal']['number']}\n"
    r = answer['report']
    matches = 'matches' if r['free'] == r['device_free'] else 'DOES NOT MATCH'
    found = [f"space check  {answer['image']}  xid {r['xid']}",
             f"internal pool  {r['pool_used']} blocks in use, {r['pool_unused']} marked but unused, "
             f"{r['problems']['total']} problems",
             *('  ' + PROBLEMS[p['number']].format(hex(p['block'])) for p in r['problems']['first']),
             f"bitmaps    {r['free']} blocks free; chunks with a wrong free count: {r['wrong_chunks']}; device free count "
             f"{r['device_free']} ({matches})",
             f"overlaps   {r['overlaps']['total']} blocks claimed by two different things",
             *(f"  {kind['name']}: {kind['count']}"
               for kind in sorted(r['overlaps']['claimants'], key=lambda kind: kind['number']) if kind['count']),
             *(f"  block {hex(o['block'])}: {o['owner']['name']} and {o['claimant']['name']}" for o in r['overlaps']['first']),
             f"in use but marked free: {r['lost']['total']} blocks",
             *(f"  {kind['name']}: {kind['count']} (first at {hex(kind['first'])})"
               for kind in sorted(r['lost']['kinds'], key=lambda kind: kind['name']) if kind['count']),
             f"allocated but unused (leaked): {r['leaked']} blocks",
             'result     consistent: nothing in use is marked free, nothing is claimed twice'
             if r['verdict']['number'] == 1 else 'result     inconsistent']
    return '\n'.join(found) + '\n'


class Answers(CommandTest):
    def names_agree(self, answer):
        """A number and the name beside it."""
        report = answer['report']
        lost, overlaps = report['lost'], report['overlaps']
        for kinds in lost['kinds'], overlaps['claimants']:
            self.assertEqual([kind['number'] for kind in kinds], list(KINDS))
        named = [o[who] for o in overlaps['first'] for who in ('owner', 'claimant')]
        for kind in lost['kinds'] + overlaps['claimants'] + named:
            self.assertEqual(kind['name'], KINDS[kind['number']])
        for problem in report['problems']['first']:
            self.assertEqual(problem['name'], PROBLEM_ROWS[problem['number']][1])
        number, status = REPORTED[answer['answer']]
        self.assertEqual((report['verdict']['number'], answer['exit_status']), (number, status))
        self.assertEqual(report['verdict']['name'], answer['answer'])
        for total, kinds in (lost['total'], lost['kinds']), (overlaps['total'], overlaps['claimants']):
            self.assertEqual(total, sum(kind['count'] for kind in kinds))

    def agrees(self, v):
        image = self.write('disk.img', v['image'])
        self.remove('map')
        answer = self.json_of('--map', 'map', image)
        self.assertEqual(figures(answer), v['answer'])
        self.assertEqual((answer['image'], answer['offset'], answer['length']), (image, 0, len(v['image'])))
        status, out, err = self.run_command(image)
        self.assertEqual(out, lines(answer))
        self.assertEqual(status, answer['exit_status'])
        refused = figure(v, 'REFUSAL')
        if refused:
            self.assertEqual((status, answer['report'], os.listdir(self.folder)), (REFUSED, None, [image]))
            self.assertIn(f"{image}: refused {refused}: {answer['refusal']['name']}; {answer['refusal']['next']}", err)
        else:
            self.names_agree(answer)
            size, count = struct.unpack_from('<IQ', v['image'], 36)
            self.assertEqual((answer['block_size'], answer['block_count']), (size, count))
            self.assertEqual(self.read('map'), v['left'][:count])
            self.assertEqual((err, answer['refusal']), ('', None))
        return refused, figure(v, 'VERDICT')

    def test_images_with_the_originals_answers(self):
        met = set()
        for v in known():
            with self.subTest(v['name']):
                met.add(self.agrees(v))
        every_refusal = {(number, 0) for name, number in REFUSALS.items() if name != 'ShortMap'}
        self.assertEqual(met, every_refusal | {(0, verdict) for verdict, _ in REPORTED.values()})

    def test_names_on_the_operators_page(self):
        self.assertEqual({number: line for number, (line, _) in PROBLEM_ROWS.items()},
                         {number: line.format('B') for number, line in PROBLEMS.items()})
        owners = [(str(number), name) for number, name in KINDS.items()]
        rows = page_rows(r'(\d+) \| (.*?)')
        self.assertEqual(rows[:len(owners)], owners)
        self.assertEqual([int(number) for number, _ in rows[len(owners):]], sorted({*REFUSALS.values(), *WITHDRAWN}))
        # the first kind has no row as a claimant: nothing is owned before it
        self.assertEqual(page_rows(r'(\d+), (.*?)'), owners[1:])

    def test_claimants_of_the_list(self):
        """In every answer they add up to the total, and the claims that it names are among them."""
        met = set()
        for v in known():
            counts, total = claimants(v), figure(v, 'OVERLAPS')
            named = v['answer'][PLACES['OVERLAP'] + 2:PLACES['LOST']:3][:total]
            with self.subTest(v['name']):
                self.assertEqual((len(v['answer']), list(counts)), (FIGURES, list(KINDS)))
                self.assertEqual(sum(counts.values()), total)
                for kind, count in counts.items():
                    self.assertGreaterEqual(count, named.count(kind))
                    self.assertTrue(total > LOGGED or count == named.count(kind))
            met |= {kind for kind, count in counts.items() if count}
        # the first kind never comes second
        self.assertEqual(met, {*KINDS} - {1})

    def test_problems_of_the_free_ring_in_the_list(self):
        """They come before all others, each block in use once, and what is met again ends the list."""
        met, longest = set(), 0
        for v in known():
            named, visited = problems(v), figure(v, 'FREE_RING')
            ring = [problem for problem in named if problem[0] in FREE_RING_PROBLEMS]
            numbers = [number for number, _ in ring]
            with self.subTest(v['name']):
                self.assertEqual(named[:len(ring)], ring)
                self.assertEqual((numbers, len({*ring})), (sorted(numbers), len(ring)))
                self.assertLessEqual(numbers.count(8), 1)
                self.assertGreaterEqual(visited, max(numbers.count(number) for number in FREE_RING_PROBLEMS))
            met |= {*numbers}
            longest = max(longest, visited)
        self.assertEqual(met, {*FREE_RING_PROBLEMS})
        self.assertGreater(longest, 1)

    def proved_lines(self, image):
        """What the program crates/listing prints, whose text is proved."""
        self.assertTrue(os.path.exists(LISTING), '`rt run` in crates/listing makes the program, and `rt ci`')
        with open(self.path(image), 'rb') as stdin:
            return subprocess.run([LISTING], stdin=stdin, capture_output=True, check=True).stdout.decode()

    def test_lines_are_those_of_the_proved_listing(self):
        """On the images that the program takes whole."""
        reports = 0
        for v in known():
            if len(v['image']) <= 65536:
                image = self.write('stdin', v['image'])
                with self.subTest(v['name']):
                    proved = self.proved_lines(image)
                    self.assertEqual(self.run_command(image)[1], proved)
                    reports += proved.startswith('space check')
        self.assertGreater(reports, 100)

    def test_numbers_are_written_as_python_writes_them(self):
        """The two figures of a listing that can be any number of 64 bits."""
        with open(os.path.join(os.path.dirname(SAMPLE), 'stdout'), encoding='ascii') as file:
            expected = file.readlines()
        self.assertEqual((NUMBERS[0], NUMBERS[-1]), (0, 2 ** 64 - 1))
        for xid, free in zip(NUMBERS, reversed(NUMBERS)):
            image = self.write('stdin', numbered(xid, free))
            expected[0] = f'space check  stdin  xid {xid}\n'
            matches = 'matches' if free == 6 else 'DOES NOT MATCH'
            expected[2] = f'bitmaps    6 blocks free; chunks with a wrong free count: 0; device free count {free} ({matches})\n'
            with self.subTest(xid=xid, free=free):
                self.assertEqual(self.proved_lines(image), ''.join(expected))
                self.assertEqual(self.run_command(image)[1], ''.join(expected))

    def test_listing_of_lost_and_leaked(self):
        image = self.write('disk.img', lost_and_leaked())
        status, out, err = self.run_command(image)
        self.assertEqual((status, err), (INCONSISTENT, ''))
        self.assertEqual(out.splitlines()[4:], ['in use but marked free: 1 blocks', '  object map node: 1 (first at 0x9)',
                                                'allocated but unused (leaked): 1 blocks', 'result     inconsistent'])

    def test_listing_of_blocks_claimed_twice(self):
        """The lines by claimant are in the order of the kinds' numbers; by name the data area would come first."""
        image = self.write('stdin', claimed_twice())
        status, out, err = self.run_command(image)
        self.assertEqual((status, err), (INCONSISTENT, ''))
        overlaps = [
            'overlaps   4 blocks claimed by two different things',
            '  checkpoint descriptor area: 1',
            '  checkpoint data area: 2',
            '  internal-pool bitmap ring: 1',
            '  block 0x0: container superblock and checkpoint descriptor area',
            '  block 0x1: checkpoint descriptor area and checkpoint data area',
            '  block 0x2: checkpoint descriptor area and checkpoint data area',
            '  block 0x5: checkpoint data area and internal-pool bitmap ring']
        self.assertEqual(out.splitlines()[3:], [*overlaps, 'in use but marked free: 0 blocks',
                                                'allocated but unused (leaked): 0 blocks', 'result     inconsistent'])
        self.assertEqual(self.proved_lines(image), out)
        self.assertIn(''.join(f'    {line}\n' for line in overlaps), OPERATORS_PAGE)
        told = self.json_of(image)['report']['overlaps']
        self.assertEqual(list(told), ['total', 'claimants', 'first'])
        self.assertEqual([kind for kind in told['claimants'] if kind['count']],
                         [{'number': 2, 'name': 'checkpoint descriptor area', 'count': 1},
                          {'number': 3, 'name': 'checkpoint data area', 'count': 2},
                          {'number': 5, 'name': 'internal-pool bitmap ring', 'count': 1}])

    def test_lists_of_unused_bitmap_blocks(self):
        """The ring is blocks 10 to 13, of which 12 is in use."""
        for head, tail, following, visited, found in [
                (3, 1, (1, NO_INDEX, NO_INDEX, 0), 3, []),
                (1, 1, (4, 4, 4, 4), 1, []),  # of one index, whatever follows it
                (NO_INDEX, 0, (4, 4, 4, 4), 0, []),  # empty, whatever its tail
                (3, 0, (1, 1, 0, 2), 3, [(7, 12)]),
                (3, 2, (2, 2, 2, 0), 3, [(7, 12)]),  # the tail is in use
                (3, 1, (3, 1, 1, 0), 2, [(8, 13)]),  # back to the head
                (0, 2, (1, 3, 2, 1), 3, [(8, 11)]),
                (3, 1, (2, 1, 2, 0), 3, [(7, 12), (8, 12)])]:  # in use, and then met again
            image = self.write('stdin', bitmap_ring(head, tail, following))
            expected = [
                'space check  stdin  xid 7',
                f'internal pool  2 blocks in use, 0 marked but unused, {len(found)} problems',
                *(f'  problem {number} at {hex(block)}' for number, block in found),
                'bitmaps    3 blocks free; chunks with a wrong free count: 0; device free count 3 (matches)',
                'overlaps   0 blocks claimed by two different things',
                'in use but marked free: 0 blocks',
                'allocated but unused (leaked): 0 blocks',
                'result     inconsistent' if found else
                'result     consistent: nothing in use is marked free, nothing is claimed twice']
            with self.subTest(head=head, tail=tail, following=following):
                status, out, err = self.run_command(image)
                self.assertEqual((status, out.splitlines(), err), (INCONSISTENT if found else CONSISTENT, expected, ''))
                self.assertEqual(self.proved_lines(image), out)
                answer = self.json_of(image)
                self.names_agree(answer)
                report = answer['report']
                self.assertEqual((report['free_ring'], report['problems']['total']), (visited, len(found)))
                self.assertEqual([(p['number'], p['block']) for p in report['problems']['first']], found)
        keys = re.search(r'^\| `report` \| (.*?) \(', OPERATORS_PAGE, re.MULTILINE)[1]
        self.assertEqual(', '.join(f'`{key}`' for key in report), keys)

    def test_refused_lists_of_unused_bitmap_blocks(self):
        """An index past the ring's end, wherever it is met; and a table past the manager's end, of an empty list too."""
        empty = NO_INDEX, NO_INDEX, (0, 0, 0, 0)
        for number, ring in [(25, (4, 4, (0, 0, 0, 0))), (25, (3, 1, (4, 0, 0, 0))), (25, (3, 1, (NO_INDEX, 0, 0, 0))),
                             (25, (2, 1, (NO_INDEX, 0, 0, 0))), (17, (*empty, BLOCK - 7)), (17, (*empty, 2 ** 32 - 1))]:
            image = self.write('stdin', bitmap_ring(*ring))
            with self.subTest(ring):
                status, out, err = self.run_command(image, '--map', 'map')
                self.assertEqual((status, out), (REFUSED, f'refused {number}\n'))
                self.assertIn(f'stdin: refused {number}: ', err)
                self.assertEqual((self.proved_lines(image), os.listdir(self.folder)), (out, [image]))
                self.assertEqual(self.json_of(image)['refusal']['number'], number)
        # the table may end where the manager does
        self.assertEqual(self.run_command(self.write('stdin', bitmap_ring(*empty, BLOCK - 8)))[0], CONSISTENT)


if __name__ == '__main__':
    unittest.main()
