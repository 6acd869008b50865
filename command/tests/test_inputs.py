"""What the command is given: files, what is no file, disks with a GPT, block devices, disks that refuse reads."""
import json
import os
import signal
import struct
import subprocess
import time
import unittest
import zlib

from support import (BLOCK, COMMAND, CONSISTENT, INCONSISTENT, KINDS, MANAGER, NO_ANSWER, REFUSED, SAMPLE, CommandTest,
                     lost_and_leaked, sample, seal, slow)

APFS = '7C3457EF-0000-11AA-AA11-00306543ECAC'
LINUX = '0FC63DAF-8483-4772-8E79-3D69D8477DE4'
MIB = 1 << 20
CONSISTENT_LINE = 'result     consistent: nothing in use is marked free, nothing is claimed twice\n'


def is_running(process):
    try:
        with open(f'/proc/{process}/stat', encoding='utf-8') as file:
            return file.read().rpartition(')')[2].split()[0] != 'Z'
    except FileNotFoundError:
        return False


def maps_of(process):
    try:
        with open(f'/proc/{process}/maps', encoding='utf-8') as maps:
            return maps.read()
    except (FileNotFoundError, ProcessLookupError):
        return ''


def end(process):
    try:
        os.kill(process, signal.SIGKILL)
    except ProcessLookupError:
        pass


class Files(CommandTest):
    def test_the_sample(self):
        image = self.write('stdin', sample())
        with open(os.path.join(os.path.dirname(SAMPLE), 'stdout'), encoding='ascii') as file:
            self.assertEqual(self.run_command(image), (CONSISTENT, file.read(), ''))

    def test_no_file(self):
        status, out, err = self.run_command('absent.img')
        self.assertEqual((status, out), (NO_ANSWER, ''))
        self.assertIn('absent.img: No such file or directory', err)

    def test_what_is_no_file(self):
        os.mkdir(self.path('folder'))
        os.mkfifo(self.path('pipe'))
        neither = 'it is neither a file nor a block device'
        for name, reason in [('folder', 'it is a directory'), ('pipe', neither), ('/dev/zero', neither)]:
            status, out, err = self.run_command(name)
            self.assertEqual((status, out, err), (NO_ANSWER, '', f'apfs-space-check: {name}: {reason}\n'))
            answer = self.json_of(name)
            self.assertEqual((answer['image'], answer['answer'], answer['error']), (name, 'unreadable', reason))

    def test_an_empty_file(self):
        status, out, err = self.run_command(self.write('empty', b''))
        self.assertEqual((status, out), (REFUSED, 'refused 1\n'))
        self.assertIn('empty: refused 1: the image is shorter than 4,096 bytes; ', err)

    def test_an_image_cut_short(self):
        status, out, err = self.run_command(self.write('cut.img', sample()[:-1]))
        self.assertEqual((status, out), (REFUSED, 'refused 5\n'))
        self.assertIn('cut.img: refused 5: ', err)

    def test_a_longer_image(self):
        answer = self.json_of(self.write('long.img', sample() + bytes(2 * BLOCK)))
        self.assertEqual((answer['answer'], answer['length'], answer['block_count']), ('consistent', 18 * BLOCK, 16))

    def test_names(self):
        """Any name that a file can have, and one that looks like an option."""
        self.write('-V', lost_and_leaked())
        self.assertEqual(self.run_command('--', '-V')[0], INCONSISTENT)
        with open(os.path.join(os.fsencode(self.folder), b'\xff.img'), 'wb') as file:
            file.write(lost_and_leaked())
        status, out, _ = self.run_command(b'\xff.img')
        self.assertEqual((status, out.splitlines()[0]), (INCONSISTENT, 'space check  \ufffd.img  xid 7'))
        for name in 'a\nresult     consistent', 'a\x1b[2Jb':
            image = self.write(name, lost_and_leaked())
            _, out, _ = self.run_command(image)
            shown = name.replace('\n', '\\n').replace('\x1b', '\\u{1b}')
            self.assertEqual(out.splitlines()[0], f'space check  {shown}  xid 7')
            self.assertEqual(self.json_of(image)['image'], name)

    def test_the_worst_of_several(self):
        good, bad = self.write('good.img', sample()), self.write('bad.img', lost_and_leaked())
        cut = self.write('cut.img', sample()[:BLOCK])
        for names, worst in [([good, bad], INCONSISTENT), ([bad, good], INCONSISTENT), ([cut, bad, good], REFUSED),
                             ([good, 'absent', cut], NO_ANSWER)]:
            self.assertEqual(self.run_command(*names)[0], worst, names)
        # each has its own lines, in the order of the command line, whatever came before
        names = [cut, 'absent', good, good, good, good, bad]
        _, out, err = self.run_command(*names)
        self.assertTrue(out.startswith('refused 5\nspace check  good.img  xid 7\n'), out)
        self.assertTrue(out.endswith('result     inconsistent\n'), out)
        self.assertEqual((out.count('space check'), out.count(CONSISTENT_LINE)), (5, 4))
        self.assertIn('absent: No such file', err)
        status, out, _ = self.run_command('--json', *names)
        answers = [json.loads(line) for line in out.splitlines()]
        self.assertEqual([answer['image'] for answer in answers], names)
        self.assertEqual([answer['exit_status'] for answer in answers], [REFUSED, NO_ANSWER, 0, 0, 0, 0, INCONSISTENT])
        self.assertEqual({tuple(answer) for answer in answers}, {tuple(answers[0])}, 'the same keys in every line')
        self.assertEqual(status, NO_ANSWER)

    def test_images_are_not_written(self):
        image = self.write('disk.img', sample())
        os.utime(self.path(image), ns=(1, 1))
        os.chmod(self.path(image), 0o444)
        before = os.stat(self.path(image))
        self.run_command(image, '--map', 'map', '--picture', 'picture')
        after = os.stat(self.path(image))
        self.assertEqual((self.read(image), after.st_mtime_ns), (bytes(sample()), before.st_mtime_ns))

    def test_a_container_by_mkapfs(self):
        image = self.sparse('mkapfs.img', 256 * MIB)
        self.must('mkapfs', image)
        answer = self.json_of(image)
        self.assertEqual((answer['answer'], answer['block_count']), ('consistent', 256 * MIB // BLOCK))
        self.assertEqual(answer['report']['free'], answer['report']['device_free'])

    def test_a_volume_by_mkapfs(self):
        """Its superblock tells where its trees are, of a node each; the file-system tree alone, of subtype 14, has no owner."""
        image = self.sparse('mkapfs.img', 256 * MIB)
        self.must('mkapfs', image)
        self.assertEqual(self.run_command('--quiet', image, '--map', 'map')[0], CONSISTENT)
        content, cells = self.read(image), self.read('map')
        [volume] = (at for at in range(0, len(content), BLOCK) if content[at + 32:at + 36] == b'APSB')

        def number(at, width=8):
            return int.from_bytes(content[at:at + width], 'little')

        object_map = number(volume + 128)
        owners = {volume // BLOCK: 'volume superblock', object_map: 'object map',
                  number(object_map * BLOCK + 48): 'object map node',
                  number(volume + 144): 'extent-reference tree node', number(volume + 152): 'snapshot tree node'}
        self.assertEqual({block: KINDS.get(cells[block] & 15) for block in owners}, owners)
        leaked = [block for block, cell in enumerate(cells) if cell == 16]
        self.assertEqual([number(block * BLOCK + 28, 4) for block in leaked], [14])

    def test_unused_bitmap_blocks_by_mkapfs(self):
        """Its manager lists all blocks of the ring but the one in use. Then the list leads through that one, back to its head,
        and past the ring's end."""
        image = self.sparse('mkapfs.img', 256 * MIB)
        self.must('mkapfs', image)
        content = self.read(image)
        # an ephemeral object of this kind
        [at] = (at for at in range(0, len(content), BLOCK) if struct.unpack_from('<I', content, at + 24)[0] == MANAGER | 1 << 31)
        manager = bytearray(content[at:at + BLOCK])
        bitmaps, blocks, base = struct.unpack_from('<IIQ', manager, 160)
        head, tail, indices, table = struct.unpack_from('<HH4xII', manager, 320)
        [used] = struct.unpack_from(f'<{bitmaps}H', manager, indices)
        following = struct.unpack_from(f'<{blocks}H', manager, table)
        unused = [head]
        while unused[-1] != tail:
            unused.append(following[unused[-1]])
        self.assertEqual(sorted([used, *unused]), list(range(blocks)))
        report = self.json_of(image)['report']
        self.assertEqual((report['free_ring'], report['problems']['total']), (len(unused), 0))
        before = unused[-2]
        for changed, visited, line, status in [
                ({before: used, used: tail}, blocks, f'  problem 7 at {hex(base + used)}', INCONSISTENT),
                ({before: head}, len(unused) - 1, f'  problem 8 at {hex(base + head)}', INCONSISTENT),
                ({before: blocks}, None, 'refused 25', REFUSED)]:
            damaged = manager[:]
            for index, to in changed.items():
                struct.pack_into('<H', damaged, table + 2 * index, to)
            with open(self.path(image), 'r+b') as file:
                file.seek(at)
                file.write(seal(damaged))
            with self.subTest(line):
                told, out, _ = self.run_command(image)
                self.assertEqual((told, [found for found in out.splitlines() if 'problem ' in found or 'refused' in found]),
                                 (status, [line]))
                report = self.json_of(image)['report']
                self.assertEqual(report and (report['free_ring'], report['problems']['total']), visited and (visited, 1))


class Places(CommandTest):
    """Disks whose partition tables are made by fdisk."""

    def disk(self, *partitions, sector=512):
        """A disk of 64 MiB with partitions of 8 MiB, each a type and its content."""
        self.sparse('disk.img', 64 * MIB)
        keys = ['g']
        for i, (kind, _) in enumerate(partitions):
            start = (8 * i + 8) * MIB // sector
            # of a table with one partition the type's number isn't asked for
            keys += ['n', i + 1, start, start + 8 * MIB // sector - 1, 't', *([i + 1] if i else []), kind]
        typed = ''.join(f'{key}\n' for key in [*keys, 'w'])
        self.must('fdisk', '--sector-size', str(sector), 'disk.img', input=typed.encode())
        for i, (_, content) in enumerate(partitions):
            self.patch((8 * i + 8) * MIB, content)
        return 'disk.img'

    def patch(self, at, content):
        with open(self.path('disk.img'), 'r+b') as file:
            file.seek(at)
            file.write(content)

    def test_second_partition(self):
        for sector in (512, 4096):
            disk = self.disk((LINUX, b''), (APFS, sample()), sector=sector)
            for arguments in [], ['--partition', '2']:
                status, out, err = self.run_command(disk, *arguments)
                self.assertEqual((status, out.splitlines()[0], err), (CONSISTENT, 'space check  disk.img partition 2  xid 7', ''))
            answer = self.json_of(disk)
            self.assertEqual((answer['partition'], answer['offset'], answer['length']), (2, 16 * MIB, 8 * MIB))

    def test_offset(self):
        disk = self.disk((LINUX, b''), (APFS, sample()))
        status, out, _ = self.run_command(disk, '--offset', str(16 * MIB))
        self.assertEqual((status, out.splitlines()[0]), (CONSISTENT, 'space check  disk.img  xid 7'))
        answer = self.json_of(disk, '--offset', str(16 * MIB))
        self.assertEqual((answer['partition'], answer['offset'], answer['length']), (None, 16 * MIB, 48 * MIB))
        self.assertEqual(self.run_command(disk, '--offset', str(16 * MIB + 1))[:2], (REFUSED, 'refused 2\n'))
        self.assertEqual(self.run_command(disk, '--offset', str(64 * MIB))[:2], (REFUSED, 'refused 1\n'))
        status, _, err = self.run_command(disk, '--offset', str(64 * MIB + 1))
        self.assertEqual(status, NO_ANSWER)
        self.assertIn('disk.img: byte 67108865 lies past its end, at 67108864', err)

    def test_a_partition_that_is_not_there(self):
        disk = self.disk((LINUX, b''), (APFS, sample()))
        status, out, err = self.run_command(disk, '--partition', '1')
        self.assertEqual((status, out), (REFUSED, 'refused 2\n'))
        self.assertIn('disk.img partition 1: refused 2: ', err)
        status, _, err = self.run_command(disk, '--partition', '3')
        self.assertEqual(status, NO_ANSWER)
        self.assertIn('disk.img: no partition 3; its GPT has 1, 2 (APFS)', err)

    def test_none_or_several(self):
        status, _, err = self.run_command(self.disk((LINUX, sample())))
        self.assertEqual(status, NO_ANSWER)
        self.assertIn('disk.img: no APFS partition; its GPT has 1\n', err)
        status, _, err = self.run_command(self.disk((APFS, sample()), (APFS, lost_and_leaked())))
        self.assertEqual(status, NO_ANSWER)
        self.assertIn('several APFS partitions: --partition names one; its GPT has 1 (APFS), 2 (APFS)', err)
        self.assertEqual(self.run_command('disk.img', '--partition', '2')[0], INCONSISTENT)

    def test_no_gpt(self):
        status, _, err = self.run_command(self.write('plain.img', sample()), '--partition', '1')
        self.assertEqual(status, NO_ANSWER)
        self.assertIn('plain.img: it has no GPT', err)

    def test_an_mbr(self):
        """A disk with another table than a GPT is taken as a whole, though an old GPT stands at its end."""
        disk = self.disk((APFS, sample()))
        self.must('sfdisk', '--wipe', 'never', disk, input=b'label: dos\nstart=16384, type=af\n')
        self.patch(512, bytes(8))
        self.assertEqual(self.read(disk)[-512:-504], b'EFI PART')
        self.assertEqual(self.run_command(disk)[:2], (REFUSED, 'refused 2\n'))
        self.assertEqual(self.run_command(disk, '--offset', str(16384 * 512))[0], CONSISTENT)
        disk = self.disk((APFS, sample()))
        self.patch(446 + 8, b'\x05')  # where the partition of type 0xee begins: not with the GPT
        self.assertEqual(self.run_command(disk)[:2], (REFUSED, 'refused 2\n'))

    def test_the_sixth_partition(self):
        disk = self.disk(*[(LINUX, b'')] * 5, (APFS, lost_and_leaked()))
        self.assertEqual(self.json_of(disk)['partition'], 6)

    def test_damaged_tables(self):
        for sector in (512, 4096):
            disk = self.disk((LINUX, b''), (APFS, sample()), sector=sector)
            self.assertIsNone(self.json_of(disk)['note'])
            self.patch(2 * sector + 128, b'\xff')  # an entry of the first table
            status, out, err = self.run_command(disk)
            self.assertEqual((status, out.splitlines()[0]), (CONSISTENT, 'space check  disk.img partition 2  xid 7'))
            note = "the GPT at the disk's start is damaged: took the one at its end"
            self.assertEqual(err, f'apfs-space-check: disk.img: {note}\n')
            self.assertEqual(self.json_of(disk)['note'], note)
            self.patch(64 * MIB - sector + 40, b'\xff')  # the second table's header
            status, out, err = self.run_command(disk)
            self.assertEqual((status, out), (NO_ANSWER, ''))
            self.assertIn('disk.img: its GPT is damaged at both ends', err)
            self.assertEqual(self.run_command(disk, '--offset', str(16 * MIB))[0], CONSISTENT)

    def forge(self, at, content):
        """Changes the first header, or an entry of the first table, and makes its checksums right as far as that goes."""
        self.patch(at, content)
        disk = self.read('disk.img')
        count, length = struct.unpack_from('<II', disk, 512 + 80)
        self.patch(512 + 88, struct.pack('<I', zlib.crc32(disk[1024:1024 + count * length])))
        header = bytearray(self.read('disk.img')[512:512 + struct.unpack_from('<I', disk, 512 + 12)[0]])
        header[16:20] = bytes(4)
        self.patch(512 + 16, struct.pack('<I', zlib.crc32(header)))

    def test_tables_that_make_no_sense(self):
        """Their checksums are right, and the table at the disk's end would tell otherwise."""
        disk = self.disk((APFS, sample()))
        self.forge(1024 + 40, struct.pack('<Q', 3))  # the partition's last sector
        status, _, err = self.run_command(disk)
        self.assertEqual((status, err), (NO_ANSWER, 'apfs-space-check: disk.img: partition 1 ends before it begins\n'))
        for at, width, value in [(512 + 12, 4, 17), (512 + 12, 4, 91), (512 + 12, 4, 513), (512 + 80, 4, 2 ** 32 - 1),
                                 (512 + 84, 4, 64), (512 + 84, 4, 2 ** 32 - 1), (512 + 72, 8, 2 ** 64 - 1), (1024 + 32, 8, 2 ** 63)]:
            disk = self.disk((APFS, sample()))
            self.forge(at, value.to_bytes(width, 'little'))
            status, out, err = self.run_command(disk)
            self.assertEqual((status, err.count("took the one at its end")), (CONSISTENT, 1), (at, value, out, err))

    def test_a_partition_cut_short(self):
        disk = self.disk((LINUX, b''), (APFS, sample()))
        os.truncate(self.path(disk), 16 * MIB + len(sample()) - 1)
        self.assertEqual(self.run_command(disk)[:2], (REFUSED, 'refused 5\n'))
        os.truncate(self.path(disk), 9 * MIB)
        self.assertEqual(self.run_command(disk)[0], NO_ANSWER)

    def test_what_older_use_has_left(self):
        """Where an MBR says that there is a GPT, it counts, and else what begins at byte 0."""
        disk = self.disk((APFS, lost_and_leaked()))
        self.patch(0, sample()[:440])  # partitioning tools keep these bytes of a container that was there before
        self.assertEqual(self.run_command(disk)[0], INCONSISTENT)
        self.patch(0, sample())  # a container over the table at the start; the one at the end is still there
        self.assertEqual(self.run_command(disk)[0], CONSISTENT)
        self.patch(0, bytes(len(sample())))
        self.assertEqual(self.run_command(disk)[:2], (REFUSED, 'refused 2\n'))
        self.assertEqual(self.run_command(disk, '--partition', '1')[0], NO_ANSWER)


class Devices(CommandTest):
    def loop(self, image):
        """A block device that can't be written to. Where the system lets nobody make one, the test is left out."""
        self.needs('losetup')
        attached = subprocess.run(['losetup', '--find', '--show', '--read-only', self.path(image)], capture_output=True,
                                  text=True, check=False)
        refused = 'Permission denied' in attached.stderr or 'Operation not permitted' in attached.stderr
        if refused or not os.path.exists('/dev/loop-control'):
            self.skipTest(f'no right to make a block device: {attached.stderr.strip()}')
        self.assertEqual(attached.returncode, 0, attached)
        device = attached.stdout.strip()
        self.addCleanup(subprocess.run, ['losetup', '--detach', device], check=True)
        return device

    def test_a_block_device(self):
        device = self.loop(self.write('disk.img', sample()))
        status, out, err = self.run_command(device)
        self.assertEqual((status, out.splitlines()[0], err), (CONSISTENT, f'space check  {device}  xid 7', ''))
        # and is never written to by a slip
        for option in '--map', '--picture':
            status, _, err = self.run_command(SAMPLE, option, device)
            self.assertEqual((status, err), (NO_ANSWER, f'apfs-space-check: {device}: a block device is never written to\n'))
        self.assertEqual(self.read('disk.img'), bytes(sample()))

    def test_a_disk_that_refuses_reads(self):
        # large, so that whoever looks at new devices hasn't read all of it
        image = self.sparse('disk.img', 256 * MIB)
        self.must('mkapfs', image)
        device = self.loop(image)
        os.truncate(self.path(image), BLOCK)
        good = self.write('good.img', sample())
        status, out, err = self.run_command(device, good)
        self.assertEqual(status, NO_ANSWER)
        self.assertIn(f'{device}: the disk refused a read', err)
        self.assertTrue(out.startswith('space check  good.img  xid 7'), out)
        answer = self.json_of(device)
        self.assertEqual((answer['answer'], answer['report']), ('unreadable', None))
        self.assertIn('refused a read', answer['error'])


class Meanwhile(CommandTest):
    """What happens during a check, of a container that takes some seconds."""

    def started(self, superblocks):
        """The command and its child, stopped in the middle of the check."""
        self.needs('pgrep')
        image = self.write('slow.img', slow(superblocks))
        run = subprocess.Popen([COMMAND, image], cwd=self.folder, stdout=subprocess.PIPE, stderr=subprocess.PIPE, text=True)
        self.addCleanup(run.communicate)
        self.addCleanup(run.kill)
        until = time.monotonic() + 10
        while time.monotonic() < until:
            found = subprocess.run(['pgrep', '--parent', str(run.pid)], capture_output=True, text=True, check=False).stdout
            for child in map(int, found.split()):
                if image in maps_of(child):
                    os.kill(child, signal.SIGSTOP)
                    self.addCleanup(end, child)
                    return run, child
        self.fail('no child maps the image')

    def test_the_image_is_cut(self):
        run, child = self.started(20000)
        os.truncate(self.path('slow.img'), BLOCK)
        os.kill(child, signal.SIGCONT)
        out, err = run.communicate(timeout=300)
        self.assertEqual((run.returncode, out), (NO_ANSWER, ''))
        self.assertIn('slow.img: the disk refused a read, or the file was cut short while it was checked', err)

    def test_the_image_is_written_to(self):
        run, child = self.started(20000)
        before = os.stat(self.path('slow.img'))
        with open(self.path('slow.img'), 'r+b') as file:
            file.write(bytes(1))
        # as tools that copy times do
        os.utime(self.path('slow.img'), ns=(before.st_atime_ns, before.st_mtime_ns))
        os.kill(child, signal.SIGCONT)
        out, err = run.communicate(timeout=300)
        self.assertEqual((run.returncode, out), (NO_ANSWER, ''))
        self.assertIn('slow.img: it was changed while it was checked', err)

    def test_the_command_is_ended(self):
        run, child = self.started(40000)  # which would go on for longer than is waited here
        run.kill()
        run.wait()
        os.kill(child, signal.SIGCONT)
        until = time.monotonic() + 5
        while is_running(child) and time.monotonic() < until:
            time.sleep(0.05)
        self.assertFalse(is_running(child))

    def test_the_child_is_ended(self):
        run, child = self.started(20000)
        os.kill(child, signal.SIGKILL)
        out, err = run.communicate(timeout=300)
        self.assertEqual((run.returncode, out), (NO_ANSWER, ''))
        self.assertIn('slow.img: the check ended without an answer (signal: 9', err)


if __name__ == '__main__':
    unittest.main()
