"""Hostile files: each ends in a line of its own, hides nothing that a loader reads, and lets the others be answered."""

from __future__ import annotations

import bz2
import gzip
import io
import lzma
import os
import pickle
import random
import socket
import struct
import subprocess
import sys
import tarfile
import threading
import time
import unittest
import zipfile
import zlib
from dataclasses import replace
from typing import Sequence
from unittest import mock

from pickles import chosen
from picklestep.place import find_program, is_module
from picklestep.records import End
from picklestep.scan import Options, blobs, look
from picklestep.scan.blobs import Budget, Limits
from picklestep.scan.reading import Summary
from scan_support import (HARMLESS, HOSTILE, MODELS, Made, ScanCase, closing, entry, environment, local, names_of, notes_of, places_of,
                          tarred, zip_of)


class HostileZip(ScanCase):
    """Zip archives that a strict reader refuses, or reads in another way than a lax one."""

    def found(self, data: bytes, *texts: str) -> None:
        """The call is found, and the notes have these texts."""
        result = self.look('a.zip', data)
        self.assertIn('posix.system', names_of(result), notes_of(result))
        self.assertIsNone(result.error)
        for text in texts:
            self.assertIn(text, notes_of(result))

    def test_a_wrong_checksum(self) -> None:
        for method in (0, 8):
            with self.subTest(method):
                self.found(zip_of([Made(b'data.pkl', HOSTILE, method, checksum=1)]), "! data.pkl: not in the form that torch, numpy, zipfile and Info-ZIP write: the checksum of 'data.pkl' is wrong")

    def test_python_refuses_these_and_the_call_is_found(self) -> None:
        for made in (Made(b'a', HOSTILE, 8, checksum=1), Made(b'a', HOSTILE, 8, local_name=b'b'), Made(b'a', HOSTILE, 8, flags=1),
                     Made(b'a', HOSTILE, 8, flags=0x20), Made(b'a', HOSTILE, 8, flags=0x40)):
            data = zip_of([made])
            with self.assertRaises((zipfile.BadZipFile, RuntimeError, NotImplementedError)):
                zipfile.ZipFile(io.BytesIO(data)).read('a')
            self.found(data)

    def test_settings_of_lzma_that_are_none(self) -> None:
        """zipfile reads the next member without trouble."""
        written = io.BytesIO()
        with zipfile.ZipFile(written, 'w') as archive:
            archive.writestr(zipfile.ZipInfo('a.bin'), b'hello', zipfile.ZIP_LZMA)
            archive.writestr(zipfile.ZipInfo('b.pkl'), HOSTILE)
        data = bytearray(written.getvalue())
        data[data.index(b'\x09\x04\x05\x00') + 4] = 0x80
        self.assertEqual(zipfile.ZipFile(io.BytesIO(data)).read('b.pkl'), HOSTILE)
        self.found(bytes(data), '! a.bin: ')

    def test_flags_of_encryption_on_a_plain_member(self) -> None:
        for method in (0, 8):
            self.found(zip_of([Made(b'a', HOSTILE, method, flags=1)]), 'its flags say that it is encrypted, and it is not')
            self.found(zip_of([Made(b'a', HOSTILE, method, flags=1, checksum=7)]), '! a: encrypted: only what can be read')
            self.found(zip_of([Made(b'a', HOSTILE, method, local_flags=0x41)]), 'the flags before its data are 0x41')

    def test_an_encrypted_member(self) -> None:
        noise = random.Random(4).randbytes(200) if hasattr(random.Random, 'randbytes') else bytes(range(7, 207))
        result = self.look('a.zip', zip_of([Made(b'data.pkl', b'\xff' + noise, flags=1, checksum=7), Made(b'b', HOSTILE)]))
        self.assertIn('! data.pkl: encrypted', notes_of(result))
        self.assertEqual(places_of(result), ['b'])

    def test_two_names_for_one_member(self) -> None:
        self.found(zip_of([Made(b'a.txt', HOSTILE, 8, local_name=b'data.pkl')]), "the name before its data is another one: 'data.pkl'")
        # A pickle that nothing but its name shows: both names count.
        for one, other in ((b'a.txt', b'data.pkl'), (b'data.pkl', b'a.txt'), (b'data.pkl\0.txt', b'data.pkl\0.txt')):
            result = self.look('a.zip', zip_of([Made(one, b'\x00', 8, local_name=other)]))
            self.assertIn('data.pkl', places_of(result)[0])

    def test_two_members_of_one_name(self) -> None:
        result = self.look('a.zip', zip_of([Made(b'data.pkl', HARMLESS), Made(b'data.pkl', HOSTILE)]))
        self.assertEqual(names_of(result), ['collections.OrderedDict', 'posix.system'])
        self.assertIn('a name that a member before has', notes_of(result))
        self.assertIn('  data.pkl: several members have this name: each is looked at', notes_of(result))

    def test_two_methods_for_one_member(self) -> None:
        self.found(zip_of([Made(b'a', HOSTILE, 0, local_method=8)]), 'both are looked at')
        self.found(zip_of([Made(b'a', HOSTILE, 8, local_method=0)]), 'both are looked at')

    def test_names_that_lead_out(self) -> None:
        before = set(os.listdir(self.folder.parent))
        for name in (b'../../x', b'/tmp/picklestep-test/x', b'a/../../x'):
            self.found(zip_of([Made(name, HOSTILE)]), 'leads out of the folder')
        self.assertFalse(os.path.exists('/tmp/picklestep-test'))
        self.assertEqual({name for name in set(os.listdir(self.folder.parent)) - before if name == 'x'}, set())

    def test_a_zip_after_a_pickle(self) -> None:
        archive = zip_of([Made(b'data.pkl', HARMLESS)])
        result = self.look('model', HOSTILE + archive)
        self.assertEqual(sorted(names_of(result)), ['collections.OrderedDict', 'posix.system'])
        self.assertIn('a zip archive stands at its end', notes_of(result))
        # The archive counts its offsets from the start of the file.
        result = self.look('model', zip_of([Made(b'data.pkl', HOSTILE)], before=HARMLESS))
        self.assertEqual(sorted(names_of(result)), ['collections.OrderedDict', 'posix.system'])

    def test_a_zip_inside_the_text_of_a_pickle(self) -> None:
        archive = zip_of([Made(b'data.pkl', HARMLESS)])
        result = self.look('model', b'\x80\x03B' + len(archive).to_bytes(4, 'little') + archive + b'0' + HOSTILE)
        self.assertIn('posix.system', names_of(result))

    def test_a_pickle_after_a_zip(self) -> None:
        for data in (zip_of([Made(b'data.pkl', HARMLESS)]) + HOSTILE, zip_of([Made(b'data.pkl', HARMLESS)], comment=HOSTILE)):
            result = self.look('model.pt', data)
            self.assertEqual(names_of(result), ['collections.OrderedDict', 'posix.system'])
            self.assertIn('belong to no member', notes_of(result))

    def test_a_member_that_the_directory_leaves_out(self) -> None:
        whole = zip_of([Made(b'hidden', HOSTILE)])
        hidden = whole[:whole.index(b'PK\x01\x02')]
        for data in (hidden + zip_of([Made(b'data.pkl', HARMLESS)]), zip_of([Made(b'data.pkl', HARMLESS)], before=hidden)):
            result = self.look('model.pt', data)
            self.assertEqual(sorted(names_of(result)), ['collections.OrderedDict', 'posix.system'])

    def test_two_archives_in_one_file(self) -> None:
        one, other = zip_of([Made(b'data.pkl', HARMLESS)]), zip_of([Made(b'data.pkl', HOSTILE)])
        for data in (one + other, other + one):
            result = self.look('model.pt', data)
            self.assertEqual(sorted(names_of(result)), ['collections.OrderedDict', 'posix.system'])

    def test_an_archive_that_is_a_pickle_too(self) -> None:
        # Its first header is a persistent id up to the newline in the name of its member.
        data = zip_of([Made(b'\n0cposix\ngetcwd\n(tR.', b'text', checksum=1)])

        class Loader(pickle.Unpickler):
            def persistent_load(self, pid: str) -> str:
                return pid

        self.assertEqual(Loader(io.BytesIO(data)).load(), os.getcwd())
        result = self.look('a.pt', data)
        self.assertIn('posix.getcwd', names_of(result))

    def test_two_directories(self) -> None:
        # (the real torch 1.13 loads data.pkl of this file, which Python's zipfile does not see)
        data = two_directories([Made(b'archive/data.pkl', HOSTILE), Made(b'archive/version', b'3\n')])
        with zipfile.ZipFile(io.BytesIO(data)) as archive:
            self.assertEqual(archive.namelist(), ['weights.bin'])
            self.assertEqual(archive.read('weights.bin')[:5], b'\xffPK\x03\x04')
        self.found(data, 'it has another directory at offset 2201')
        self.assertIn('archive/data.pkl', places_of(self.look('a.pt', data)))

    def test_two_closing_records(self) -> None:
        # The last record is the comment of another one, whose comment reaches to the end of the file too.
        hidden = Made(b'data.pkl', HOSTILE)
        told = entry(hidden, 42)
        seen = Made(b'weights.bin', b'\xff' + local(hidden) + told)
        body, last = local(seen), entry(seen, 0)
        places = (len(told), 42 + len(local(hidden))), (len(last), len(body))
        for one, other in (places, places[::-1]):
            self.found(body + last + closing(1, *one, comment=closing(1, *other)))

    def test_closing_records_without_end(self) -> None:
        # Several thousand of them in each member: no more than a few are looked at.
        data = shared(Made(b'name', b'\xff' + b'PK\x05\x06' * 16_000), 50)
        begin = time.process_time()
        self.look('a.zip', data)
        self.assertLess(time.process_time() - begin, 5)

    def test_bytes_of_the_size_of_a_record(self) -> None:
        # The record after a member's data has 12, 16, 20 or 24 bytes, and these pickles are as long.
        for call in (b'cos\nxy\n)R0N.', b'PK\x07\x08\ncos\nx\n)R.', b'cos\ngetppid\n(tR0NN0.', b'ccode\ninteract\n)R0NN0N0.'):
            self.assertTrue(12 <= len(call) <= 24)
            result = self.look('a.zip', zip_of([Made(b'a', b'text', after=call), Made(b'b', b'text')]))
            self.assertIn(f'(bytes 35 to {35 + len(call)}): these bytes belong to no member', notes_of(result))
        self.assertEqual(names_of(result), ['code.interact'])

    def test_a_record_after_the_data(self) -> None:
        sums = struct.pack('<III', zlib.crc32(b'text'), 4, 4)
        for record in (sums, b'PK\x07\x08' + sums, sums[:4] + struct.pack('<QQ', 4, 4), b'PK\x07\x08' + sums[:4] + struct.pack('<QQ', 4, 4)):
            data = zip_of([Made(b'a', b'text', flags=8, after=record), Made(b'b', b'text')])
            # (No known writer leaves the signature out, or writes long sizes where the header has none.)
            self.assertEqual(notes_of(self.look('a.zip', data)).count('\n'), 0)
            self.assertEqual(notes_of(self.look('a.zip', data)) == '', record.startswith(b'PK') and len(record) == 16)

    def test_an_ending_that_says_nothing(self) -> None:
        self.found(zip_of([Made(b'weights.bin', HOSTILE, 8)]))
        self.found(zip_of([Made(b'archive/data/0', HOSTILE)]))
        self.found(zip_of([Made(b'x/', HOSTILE)]))

    def test_truncated(self) -> None:
        whole = zip_of([Made(b'a.pkl', HOSTILE), Made(b'b.pkl', HARMLESS * 50)])
        for at in range(70, len(whole) - 1, 97):
            with self.subTest(at):
                result = self.look('a.zip', whole[:at])
                self.assertIn('posix.system', names_of(result))
                self.assertIn('the archive has no directory', notes_of(result))

    def test_each_cut_of_a_real_file_ends(self) -> None:
        whole = (MODELS / 'numpy_compressed.npz').read_bytes()
        for at in range(0, len(whole), 61):
            self.assertIsNone(self.look('a.npz', whole[:at]).error)

    def test_deflated_data_that_are_broken(self) -> None:
        data = bytearray(zip_of([Made(b'a.pkl', HOSTILE + bytes(range(256)) * 9, 8), Made(b'b', HOSTILE)]))
        data[60:64] = b'\xff\xff\xff\xff'
        result = self.look('a.zip', bytes(data))
        self.assertIn('the compressed data cannot be unpacked', notes_of(result))
        self.assertIn('b', places_of(result))

    def test_random_changes(self) -> None:
        chance = random.Random(33)
        whole = zip_of([Made(b'a', b'text', 8), Made(b'b/', b''), Made(b'c.npy', b'\x93NUMPY\x01\0\x10\0{} and more', 8)], comment=b'note')
        for _ in range(1500):
            data = bytearray(whole)
            for _ in range(chance.randrange(1, 6)):
                data[chance.randrange(len(data))] = chance.choice((0, 1, 8, 80, 255, chance.randrange(256)))
            with mock.patch('picklestep.scan.reading.Asked.summary', return_value=NOTHING):
                self.assertIsNone(self.look('a.zip', bytes(data)).error)


NOTHING = Summary(Budget(Limits()), False)
NOTHING.end = End('stopped')


class Bombs(ScanCase):
    """What would fill a disk or the memory."""

    def test_a_zip_bomb(self) -> None:
        bomb = zip_of([Made(b'zeros', bytes(30_000_000), 8), Made(b'after.pkl', HOSTILE)])
        self.assertLess(len(bomb), 40_000)
        result = self.look('bomb.zip', bomb, Options(Limits(unpacked=10_000_000)))
        self.assertIn('! zeros: more than 10,000,000 bytes are unpacked', notes_of(result))
        self.assertIn('posix.system', names_of(self.look('bomb.zip', bomb)))

    @unittest.skipUnless(hasattr(os, 'wait4'), 'the system does not say what a process took')
    def test_the_limits_by_default(self) -> None:
        """A minute of processor time and 1 GB are enough to say what is not looked at. (Bombs that take as long as that are timed by hand.)"""
        zeros = gzip.compress(bytes(1 << 29), 1)
        for name, data, told in (('zeros.gz', zeros, 'bytes that may be held at once'),
                                 ('nested.gz', gzip.compress(gzip.compress(zeros)), 'bytes that may be held at once'),
                                 ('long.pkl', b'\x80\x04\x8e' + struct.pack('<Q', 1 << 40) + bytes(20_000_000), 'truncated')):
            with self.subTest(name), open(self.file('told', b''), 'w+') as out:
                words = [sys.executable, '-m', 'picklestep', 'scan', str(self.file(name, data))]
                started = subprocess.Popen(words, env=environment(), stdin=subprocess.DEVNULL, stdout=out)
                _, status, used = os.wait4(started.pid, 0)
                started.returncode = os.WEXITSTATUS(status)
                out.seek(0)
                self.assertIn(told, out.read())
                self.assertEqual(started.returncode, 1 if name == 'long.pkl' else 3)
                self.assertLess(used.ru_utime + used.ru_stime, 60)
                self.assertLess(used.ru_maxrss << 10, 1 << 30)

    def test_a_bomb_that_is_named_a_pickle(self) -> None:
        for name, data in (('a.pkl.gz', gzip.compress(b'N' * 9_000_000)), ('a.pkl.bz2', bz2.compress(b'N' * 9_000_000)),
                           ('a.pkl.xz', lzma.compress(b'N' * 9_000_000)), ('a.joblib', zlib.compress(b'N' * 9_000_000))):
            result = self.look(name, data, Options(Limits(unpacked=1_000_000)))
            self.assertIn('more than 1,000,000 bytes are unpacked', notes_of(result))

    def test_members_that_share_their_data(self) -> None:
        result = self.look('a.zip', shared(Made(b'name', bytes(1_000_000), 8), 200), Options(Limits(unpacked=50_000_000)))
        self.assertIn('bytes are unpacked', notes_of(result))

    def test_too_many_members(self) -> None:
        result = self.look('a.zip', zip_of([Made(b'%d' % number, b'x') for number in range(300)]), Options(Limits(members=200)))
        self.assertIn('it has more than 200 members', notes_of(result))
        # Headers without a directory: no more of them are kept than the limit allows.
        header = zip_of([Made(b'', b'')])[:30]
        result = self.look('b.zip', header * 300_000, Options(Limits(members=200)))
        self.assertIn('it has more than 200 members', notes_of(result))

    def test_ten_zips_one_in_another(self) -> None:
        data = HOSTILE
        for depth in range(10):
            data = zip_of([Made(b'%d.zip' % depth if depth else b'data.pkl', data, 8)])
        result = self.look('deep.zip', data)
        self.assertIn('containers are opened to a depth of 4', notes_of(result))
        self.assertEqual(names_of(self.look('deep.zip', data, Options(Limits(depth=10)))), ['posix.system'])
        four = HOSTILE
        for _ in range(4):
            four = zip_of([Made(b'in', four, 8)])
        self.assertEqual(names_of(self.look('four.zip', four)), ['posix.system'])

    def test_an_xz_that_asks_for_much_memory(self) -> None:
        packed = lzma.compress(HOSTILE, lzma.FORMAT_XZ, filters=[{'id': lzma.FILTER_LZMA2, 'dict_size': 1 << 29}])
        self.assertIn('the compressed data cannot be unpacked', notes_of(self.look('a.xz', packed)))

    def test_a_real_limit_of_memory(self) -> None:
        limits = Options(Limits(memory=128 << 20))
        result = self.look('a.pkl', b'(' + b'N' * 3_000_000 + b'l.', limits)
        self.assertRegex(notes_of(result), r'! : the program had no more memory \(it may take [0-9]{2},[0-9,]+ bytes\)')
        self.assertEqual(names_of(self.look('b.pkl', HOSTILE, limits)), ['posix.system'])

    def test_the_limit_of_memory_that_was_given_is_named(self) -> None:
        budget = Budget(Limits(memory=2_000))
        with mock.patch.object(blobs, '_own_size', lambda: 1 << 50), mock.patch.object(blobs, '_used', blobs._Used()):
            with self.assertRaisesRegex(blobs.LimitMet, '2,000 bytes of memory'):
                budget.spend()

    def test_an_answer_of_many_lines(self) -> None:
        many = b'cos\ngetcwd\nq\x000' + b'h\x00)R0' * 5000 + b'N.'
        result = self.look('a.pkl', many, Options(Limits(lines=1000)))
        self.assertIn('! : the answers about the file have more than 1,000 lines: the rest of it is not looked at', notes_of(result))
        self.assertEqual((names_of(result), result.pickles[0].end.how), (['os.getcwd'], 'unknown'))
        self.assertLessEqual(result.pickles[0].calls[0].count, 1000)
        # What is kept of it is bounded too: lines that all differ, and all lines where these are asked for.
        with mock.patch('picklestep.scan.reading._MOST_KEPT', 10_000):
            different = b''.join(b'cos\nname%d\n0' % number for number in range(5000)) + b'N.'
            for content, lines in ((different, False), (many, True)):
                result = self.look('a.pkl', content, Options(Limits(), lines))
                self.assertIn('! : the answer about it has more than 10,000 bytes of different lines', notes_of(result))
            self.assertTrue(self.look('a.pkl', many).pickles[0].end.is_stopped)
        # And a line that does not end.
        with mock.patch('picklestep.scan.reading._MOST_KEPT', 100_000):
            long = b'cm\nn\nX' + (200_000).to_bytes(4, 'little') + b'a' * 200_000 + b'\x85R.'
            result = self.look('a.pkl', long, Options(full=True))
            self.assertIn('! : the answer about it has more than 100,000 bytes of different lines', notes_of(result))
            self.assertTrue(self.look('a.pkl', long).pickles[0].end.is_stopped)

    def test_an_answer_that_takes_long(self) -> None:
        said = b'{"kind":"import","offset":0,"module":"os","name":"x","object":0,"text":"    0: import \'os\' \'x\' as #0"}'
        program = self.file('program', b"#!/bin/sh\n[ $1 != form ] || exit 2\ncat <<'END'\n" + said + b'\nEND\nexec sleep 300\n')
        program.chmod(0o755)
        begin = time.monotonic()
        with mock.patch.dict(os.environ, PICKLESTEP_PROGRAM=str(program)):
            result = self.look('a.pkl', b'N.', Options(Limits(seconds=2)))
        self.assertLess(time.monotonic() - begin, 100)
        self.assertIn('! : the program took more than 2 seconds: the rest of it is not looked at', notes_of(result))
        self.assertEqual(names_of(result), ['os.x'])  # (what it said before is reported)

    def test_a_long_name_that_is_called_again_and_again(self) -> None:
        """Each line of the answer has the name: a megabyte makes 50 GB."""
        content = b'\x80\x02cposix\n' + b'a' * 500_000 + b'\nq\x00' + b'0h\x00)R' * 100_000 + b'.'
        with mock.patch('picklestep.scan.reading._MOST_ANSWERED', 8 << 20):
            result = self.look('a.pkl', content)
        self.assertIn('the answers about the file have more than 8,388,608 bytes', notes_of(result))
        seconds = 5 if is_module(find_program()) else 2  # (of which Node takes one to start where the machine has much else to do)
        begin = time.process_time()
        result = self.look('b.pkl', content, Options(Limits(seconds=seconds)))
        self.assertLess(time.process_time() - begin, 5 * seconds)
        self.assertRegex(notes_of(result), f'(took more than|it took) {seconds} seconds')
        self.assertEqual([len(name) for name in names_of(result)], [len('posix.') + 500_000])

    def test_stored_members_that_share_their_bytes(self) -> None:
        data = shared(Made(b'name', HARMLESS * 1000), 100)
        result = self.look('a.zip', data, Options(Limits(unpacked=500_000)))
        self.assertIn('members share bytes, and more than 500,000 are looked at again', notes_of(result))
        self.assertLess(len(result.pickles), 40)
        # Bytes that unpack to nothing.
        data = shared(Made(b'name', b'', 8, after=b''), 1)
        nothing = zlib.compressobj(0, zlib.DEFLATED, -15)
        packed = b''.join(nothing.flush(zlib.Z_FULL_FLUSH) + b'\0\0\0\xff\xff' * 20_000 for _ in range(2)) + nothing.flush()
        result = self.look('a.zip', shared(Packed(b'name', packed, 8), 300), Options(Limits(unpacked=1_000_000)))
        self.assertIn('members share bytes', notes_of(result))

    def test_honest_files_are_read_once(self) -> None:
        names = [b'%d.pkl' % number for number in chosen(range(30), 10)]
        data = zip_of([Made(name, HARMLESS * 3000) for name in names])
        result = self.look('a.zip', data, Options(Limits(unpacked=100_000)))
        self.assertEqual((len(result.pickles), notes_of(result)), (len(names), ''))


class Packed(Made):
    """A member whose data are packed already."""

    def packed(self) -> bytes:
        return self.data


def shared(made: Made, count: int) -> bytes:
    """An archive whose directory names one member many times."""
    entries = b''.join(entry(replace(made, name=b'%d' % number), 0) for number in range(count))
    body = local(made)
    return body + entries + closing(count, len(entries), len(body))


def two_directories(hidden: Sequence[Made]) -> bytes:
    """An archive with one closing record and two directories. One ends at the record and names one member, which begins with ff. The record
    has the offset of the other one, which is inside that member like the members that it names.

    Whoever counts the directory's size back adds the difference to all offsets, so bytes of no member are before it.
    """
    body = local(Made(b'archive/pad', bytes(2000)))
    first = len(body)
    inside, told = b'\xff', b''
    for made in hidden:
        told += entry(made, first + 41 + len(inside))
        inside += local(made)
    offset = first + 41 + len(inside)
    seen = Made(b'weights.bin', inside + told)
    body += local(seen)
    back = entry(seen, first - (len(body) - offset), b' ' * (len(told) - 57))
    return body + back + closing(len(hidden), len(told), offset)


def summed(header: bytearray) -> bytes:
    """A tar header with the sum that it should have."""
    header[148:156] = b' ' * 8
    header[148:156] = b'%06o\0 ' % sum(header[:512])
    return bytes(header)


def with_records(kind: bytes, records: bytes, member: bytes) -> bytes:
    """A tar archive that has a block of records before a member."""
    header = bytearray(tarfile.TarInfo('records').tobuf(tarfile.USTAR_FORMAT))
    header[124:136], header[156:157] = b'%011o\0' % len(records), kind
    return summed(header) + records + bytes(-len(records) % 512) + member


class HostileTar(ScanCase):
    """Tar archives."""

    def tar(self, **members: bytes) -> bytes:
        return tarred(members)

    def test_a_block_that_is_no_header(self) -> None:
        data = bytearray(self.tar(a=b'text', b=HOSTILE))
        data[1024:1030] = b'broken'  # the header of the second member
        self.assertEqual(tarfile.open(fileobj=io.BytesIO(bytes(data))).getnames(), ['a'])
        result = self.look('a.tar', bytes(data) + self.tar(c=HOSTILE))
        self.assertIn('belong to no member', notes_of(result))
        self.assertIn('posix.system', names_of(result))

    def test_a_pickle_between_members(self) -> None:
        data = self.tar(a=b'text')
        result = self.look('a.tar', data[:1024] + HOSTILE.ljust(512, b'\0') + data[1024:])
        self.assertIn('posix.system', names_of(result))

    def test_an_archive_after_the_end_of_another(self) -> None:
        self.assertEqual(names_of(self.look('a.tar', self.tar(a=b'text') + self.tar(b=HOSTILE))), ['posix.system'])

    def test_a_first_name_that_is_a_pickle(self) -> None:
        result = self.look('a.tar', self.tar(**{"cposix\nsystem\n(S'id'\ntR.": b'x'}))
        self.assertIn('posix.system', names_of(result))

    def test_a_pickle_that_is_a_compressed_stream_too(self) -> None:
        # (BINUNICODE and its length begin a zlib stream, which ends within the text)
        text = b'X\x09\x03\x00\x00' + b'\x00\x00\x01' + b'z' * 774 + b'0'
        self.assertEqual(zlib.decompressobj().decompress(text), b'')
        self.assertIn('posix.system', names_of(self.look('model.bin', text + HOSTILE)))

    def test_a_cut_archive(self) -> None:
        result = self.look('a.tar', self.tar(a=HOSTILE + bytes(5000))[:2000])
        self.assertIn('! a: its data are cut short', notes_of(result))
        self.assertIn('posix.system', names_of(result))

    def test_a_size_that_is_hostile(self) -> None:
        for field in (b'\xff' * 12, b'77777777777\0', b'-0000000001\0', b'\x80' + b'\xff' * 11):
            data = bytearray(self.tar(a=HOSTILE))
            data[124:136] = field
            result = self.look('a.tar', summed(data))
            self.assertIsNone(result.error)
            self.assertIn('posix.system', names_of(result) or [notes_of(result)])

    def test_sparse_members(self) -> None:
        # The stored bytes end within the text of an opcode. What an extractor makes of them is a pickle.
        content = b'B' + (1 << 20).to_bytes(4, 'little') + bytes(1 << 20) + b'0' + HOSTILE
        with open(self.folder / 'model.bin', 'wb') as file:
            file.write(content[:5])
            file.seek(len(content) - 26)
            file.write(content[-26:])
        for words in (['--format=gnu'], *(['--format=posix', f'--sparse-version={version}'] for version in ('0.0', '0.1', '1.0'))):
            with self.subTest(words):
                run = subprocess.run(['tar', '-c', '-S', '--hole-detection=raw', *words, '-f', 'a.tar', 'model.bin'], cwd=self.folder,
                                     capture_output=True, check=False)
                if run.returncode != 0:
                    self.skipTest('GNU tar is not here')
                with tarfile.open(self.folder / 'a.tar') as archive:
                    held = archive.extractfile('model.bin')
                    assert held is not None
                    self.assertEqual(held.read(), content)
                self.assertLess((self.folder / 'a.tar').stat().st_size, 1 << 16)
                result = look(str(self.folder / 'a.tar'))
                self.assertEqual((names_of(result), places_of(result)), (['posix.system'], ['model.bin > (expanded)']))
                self.assertIn('it is sparse', notes_of(result))
                self.assertIn('! : not in the form that tarfile, GNU tar and bsdtar write', notes_of(result))
                small = look(str(self.folder / 'a.tar'), Options(Limits(unpacked=1 << 19)))
                self.assertIn('! model.bin: more than 524,288 bytes are unpacked', notes_of(small))

    def test_sparse_members_that_nobody_writes(self) -> None:
        data = bytearray(self.tar(a=HOSTILE))
        for pieces in (((0, 25), (10, 5)), ((1 << 40, 25),), ((0, 25),) * 4):
            for index, number in enumerate(number for piece in pieces for number in piece):
                data[386 + 12 * index:398 + 12 * index] = b'%011o\0' % number
            data[156:157], data[483:495] = b'S', b'%011o\0' % 25
            self.assertIn('! a: it is sparse, and its pieces are not in order', notes_of(self.look('a.tar', summed(data))))
        records = b'22 GNU.sparse.major=1\n22 GNU.sparse.minor=0\n30 GNU.sparse.realsize=999999\n'
        for begin in (b'9' * 20 + b'\n', b'3\n1\n', b'x\n', b'-1\n'):
            result = self.look('a.tar', with_records(b'x', records, self.tar(a=begin.ljust(512, b'\0') + HOSTILE)))
            self.assertIsNone(result.error)

    def test_sizes_that_readers_take_differently(self) -> None:
        # tarfile takes the size of the records, and busybox that of the header. After the smaller one come other members.
        inner = self.tar(b=HOSTILE)[:1024]
        for kind in (b'x', b'X', b'g'):
            for told, size in ((1024, 0), (0, 1024), (1024, 5), (3, 1024)):
                member = bytearray(self.tar(a=bytes(size))[:512])
                data = with_records(kind, b'%d size=%d\n' % (9 + len(b'%d' % told), told), bytes(member) + inner)
                with self.subTest((kind, told, size)):
                    self.assertIn('posix.system', names_of(self.look('a.tar', data)))

    def test_records_that_are_longer_than_the_archive(self) -> None:
        header = bytearray(self.tar(a=b'')[:512])
        header[124:136], header[156:157] = b'77777777777\0', b'x'
        self.assertIn('posix.system', names_of(self.look('a.tar', summed(header) + self.tar(b=HOSTILE))))

    def test_records_that_are_very_long(self) -> None:
        comment = b'1500020 comment=' + b'x' * 1_500_003 + b'\n'
        data = with_records(b'x', comment + b'9 size=0\n', self.tar(a=self.tar(b=HOSTILE)))
        with tarfile.open(fileobj=io.BytesIO(data)) as archive:
            self.assertEqual(archive.getnames(), ['a', 'b'])
        self.assertIn('! a: the records before it have more than 1,048,576 bytes', notes_of(self.look('a.tar', data)))

    def test_sums_and_numbers_that_tarfile_takes(self) -> None:
        # Bytes above 127 in a name, counted as numbers below zero; numbers with signs and as bytes.
        data = bytearray(self.tar(**{'a' * 20: HOSTILE}))
        data[:4] = b'\xff\xfe\xfd\xfc'
        data[148:156] = b' ' * 8
        below = sum(byte - 256 if byte > 127 else byte for byte in data[:512])
        for field in (b'%06o\0 ' % below, b'+%o' % below, b'\x80\0\0\0' + below.to_bytes(4, 'big')):
            data[148:156] = field.ljust(8, b'\0')
            with tarfile.open(fileobj=io.BytesIO(bytes(data))) as archive:
                self.assertEqual([member.size for member in archive], [len(HOSTILE)])
            self.assertEqual(names_of(self.look('a.tar', bytes(data))), ['posix.system'])

    def test_links_and_names(self) -> None:
        held = io.BytesIO()
        with tarfile.open(fileobj=held, mode='w') as archive:
            for kind in (tarfile.SYMTYPE, tarfile.LNKTYPE, tarfile.FIFOTYPE, tarfile.CHRTYPE, tarfile.DIRTYPE):
                told = tarfile.TarInfo('link')
                told.type, told.linkname = kind, '/etc/passwd'
                archive.addfile(told)
            told = tarfile.TarInfo('../../x')
            told.size = len(HOSTILE)
            archive.addfile(told, io.BytesIO(HOSTILE))
        result = self.look('a.tar', held.getvalue())
        self.assertEqual((places_of(result), result.others), (['../../x'], 0))
        self.assertIn('leads out of the folder', notes_of(result))


class HostileFolders(ScanCase):
    """What else may be in a folder."""

    def test_each_ends_in_a_line_of_its_own(self) -> None:
        self.file('a.pkl', HOSTILE)
        os.mkfifo(self.folder / 'fifo.pkl')
        held = socket.socket(socket.AF_UNIX)
        self.addCleanup(held.close)
        held.bind(str(self.folder / 'socket'))
        os.symlink('..', self.folder / 'parent')
        os.symlink('nowhere', self.folder / 'broken')
        os.symlink('a.pkl', self.folder / 'linked.pkl')
        with open(os.fsencode(self.folder) + b'/n\xff.pkl', 'wb') as file:
            file.write(HARMLESS)
        run = self.scan('.')
        self.assertEqual(run.returncode, 1)
        for line in ('  ./fifo.pkl: skipped: a FIFO', '  ./socket: skipped: a socket', '  ./parent: skipped: a symbolic link to a folder',
                     '! ./broken: cannot be read: No such file or directory', '  ./linked.pkl: 25 bytes', '  ./a.pkl: 25 bytes',
                     '  ./n\\udcff.pkl: 28 bytes'):
            self.assertIn(line, run.stdout.splitlines())
        self.assertIn('4 files, 3 pickles in 3 of them', run.stdout)
        self.assertIn('1 file that cannot be read, 3 skipped', run.stdout)

    def test_devices(self) -> None:
        run = self.scan('/dev/null', '/dev/zero')
        self.assertEqual(run.returncode, 3)
        self.assertEqual(run.stdout.splitlines()[:4], ['  /dev/null: skipped: a device', '! /dev/null: a device is not looked at',
                                                       '  /dev/zero: skipped: a device', '! /dev/zero: a device is not looked at'])

    def test_a_fifo_that_is_named(self) -> None:
        # (In a folder it is skipped: see above.)
        os.mkfifo(self.folder / 'fifo.pkl')
        for words in (['fifo.pkl'], ['--jobs', '2', 'fifo.pkl', '--', 'fifo.pkl']):
            run = self.scan('--brief', *words)
            self.assertEqual((run.returncode, run.stdout.splitlines()[0]), (3, '! fifo.pkl: a FIFO is not looked at'))
        self.assertIn('! : a FIFO is not looked at', notes_of(look(str(self.folder / 'fifo.pkl'))))

    def test_a_file_without_permission(self) -> None:
        path = self.file('secret.pkl', HOSTILE)
        closed = self.folder / 'closed'
        closed.mkdir()
        self.file('open.pkl', HARMLESS)
        path.chmod(0)
        closed.chmod(0)
        try:
            if os.access(path, os.R_OK):
                self.skipTest('this user may read every file')
            run = self.scan('.')
        finally:
            closed.chmod(0o700)
        self.assertIn('! ./secret.pkl: cannot be read: Permission denied', run.stdout)
        self.assertIn('! ./closed: cannot be read: Permission denied', run.stdout)
        self.assertIn('import collections.OrderedDict', run.stdout)

    def test_reading_that_is_refused(self) -> None:
        # As a user without permission meets it, for users who may read every file.
        path = self.file('a.pkl', HOSTILE)
        with mock.patch('picklestep.scan.looking.os.open', side_effect=PermissionError(13, 'Permission denied')):
            self.assertEqual(look(str(path)).error, 'Permission denied')
        with mock.patch('picklestep.scan.blobs._read_at', side_effect=OSError(5, 'Input/output error')):
            self.assertEqual(look(str(path)).error, 'Input/output error')

    def test_a_file_that_changes(self) -> None:
        path = self.file('a.pkl', HARMLESS * 20_000)
        stop = threading.Event()

        def change() -> None:
            while not stop.is_set():
                with open(path, 'ab') as file:
                    file.write(b'N.')
                time.sleep(0.001)

        thread = threading.Thread(target=change)
        thread.start()
        try:
            result = look(str(path))
        finally:
            stop.set()
            thread.join()
        self.assertIn('! : it changed while it was looked at', notes_of(result))

    def test_a_file_that_becomes_shorter(self) -> None:
        path = self.file('a.zip', zip_of([Made(b'a.pkl', HOSTILE), Made(b'b.pkl', HARMLESS), Made(b'c', bytes(100_000))]))
        read = blobs._read_at
        calls = iter(range(1000))

        def shrinking(descriptor: int, count: int, offset: int) -> bytes:
            if next(calls) == 3:
                os.truncate(path, 60)
            return read(descriptor, count, offset)

        with mock.patch('picklestep.scan.blobs._read_at', side_effect=shrinking):
            result = look(str(path))
        self.assertIn('! : it changed while it was looked at', notes_of(result))

    def test_signs_that_a_terminal_obeys(self) -> None:
        self.file('a\x1b[2J.pkl', b'c\x1b]0;title\x07\nx\n.')
        self.file('b.zip', zip_of([Made(b'n\x1b[2J\n.pkl', HOSTILE)]))
        run = self.scan('.')
        self.assertNotIn('\x1b', run.stdout)
        self.assertIn('b.zip > n\\x1b[2J\\n.pkl', run.stdout)


if __name__ == '__main__':
    unittest.main()
