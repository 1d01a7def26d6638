"""Texts in tables, and the probes."""
import re
import struct
import unittest

from support import read
from common import escape, unescape


def adds_up(data):
    """Whether counts, pitch counts and text lengths of a reading add up and nothing is left over."""
    at = 4
    for _ in range(struct.unpack_from('<I', data)[0]):
        sections = []
        for size in (28, 12, 5, 11, 1):
            count, = struct.unpack_from('<I', data, at)
            sections.append(data[at + 4:at + 4 + count * size])
            at += 4 + count * size
        measures, notes, pitches, lyrics, text = sections
        voices = sum(sum(struct.unpack_from('<4I', measures, i)) for i in range(0, len(measures), 28))
        owned = sum(struct.unpack_from('<I', notes, i + 8)[0] for i in range(0, len(notes), 12))
        written = sum(struct.unpack_from('<I', lyrics, i + 7)[0] for i in range(0, len(lyrics), 11))
        if (voices, owned, written) != (len(notes) // 12, len(pitches) // 5, len(text)):
            return False
    return at == len(data)


class Escapes(unittest.TestCase):
    """The reference reader's own test (tools/oracle/crates/oracle/tests/escapes.rs) holds the Rust to the same rows."""
    rows = [line.split('\t') for line in read('tools', 'oracle', 'escapes.tsv').split('\n')[:-1]]

    def test_each_row(self):
        self.assertGreater(len(self.rows), 50)
        for text, digits, written in self.rows:
            self.assertEqual(unescape(text).hex(), digits, text)
            self.assertEqual(escape(bytes.fromhex(digits)), written, text)
            self.assertEqual(unescape(written).hex(), digits, text)

    def test_each_escape(self):
        for text, data in [(r'K:C\nA', b'K:C\nA'), (r'a\r\tb\\n', b'a\r\tb\\n'), (r'\u{e9}\u{212a}', 'é\u212a'.encode()),
                           (r'A\x80\xff', b'A\x80\xff'), (r'A\*3{>}B', b'A>>>B'), (r'\*2{V:\n}', b'V:\nV:\n'),
                           (r'\*2{\u{7d}}', b'}}'), (r'\q\*x{', b'\\q\\*x{'), ('a\\', b'a\\'), ('', b'')]:
            self.assertEqual(unescape(text), data, text)

    def test_escape_goes_back(self):
        for data in [b'K:C\nA\\n\t\r', 'é\u2028\x00~\x7f'.encode(), b'', bytes(range(256)), b'\xe2\x82A\xed\xa0\x80']:
            self.assertEqual(unescape(escape(data)), data)
            self.assertNotIn('\n', escape(data))


class Probes(unittest.TestCase):
    rows = [line.split('\t') for line in read('tools', 'oracle', 'probes.tsv').split('\n')[:-1]]

    def test_number_and_columns(self):
        self.assertEqual(len(self.rows), 536)
        self.assertEqual({len(row) for row in self.rows}, {3})
        self.assertEqual(len({row[0] for row in self.rows}), 536)

    def test_texts_are_as_the_reference_writes_them(self):
        for text, _, _ in self.rows:
            self.assertEqual(escape(unescape(text)), text)

    def test_answers(self):
        kinds = {}
        for text, answer, words in self.rows:
            kind = answer.split()[0]
            kinds[kind] = kinds.get(kind, 0) + 1
            if kind == 'refused':
                self.assertRegex(answer, r'^refused ([1-9]|1[0-478]) [0-9]+$', text)
                self.assertIn('[01: %s]' % answer, words)
            else:
                self.assertRegex(answer, r'^(reading|outside) ([0-9a-f]{2})+$', text)
                self.assertTrue(adds_up(bytes.fromhex(answer.split()[1])), text)
                self.assertEqual(kind == 'outside', bool(re.search(r'\[01: outside', words)), text)
        self.assertEqual(set(kinds), {'reading', 'refused', 'outside'})

    def test_adds_up_can_fail(self):
        data = bytes.fromhex(self.rows[0][1].split()[1])
        self.assertTrue(adds_up(data))
        self.assertFalse(adds_up(data + b'\0'))
        self.assertFalse(adds_up(data[:8] + b'\2' + data[9:]))


class Samples(unittest.TestCase):
    """What the gate's programs replay: as many rows as they print, and as the documents say."""

    def rows(self, crate):
        lines = read('crates', crate, 'stdin').split('\n')
        self.assertEqual(lines.pop(), '')
        self.assertEqual(read('crates', crate, 'stdout'), '%d answers, 0 differ\n' % len(lines))
        for document in (('README.md',), ('docs', 'ARCHITECTURE.md')):
            self.assertRegex(read(*document), r'%s` [^\n]*\b%d\b' % (crate, len(lines)))
        return [line.split(' ') for line in lines]

    def test_texts(self):
        for length, _, number, value, text, reading in self.rows('test_replay'):
            self.assertEqual((int(length, 16), int(value, 16) if number == '00' else 0), (len(text) // 2, len(reading) // 2))

    def test_editions(self):
        rows = self.rows('test_editions')
        for length, _, number, value, text, reading in rows:
            self.assertEqual((int(length, 16), int(value, 16) if number == '00' else 0), (len(text) // 2, len(reading) // 2))
            self.assertLessEqual(int(length, 16), 1792)
        # Read, refused with 10, 16, 17, 21 and 22, and others.
        self.assertTrue({'00', '01', '06', '0a', '10', '11', '15', '16'} <= {row[2] for row in rows})

    def test_lists(self):
        rows = self.rows('test_played')
        for length, part, store, _, number, used, reading, numbers in rows:
            self.assertEqual((int(length, 16), int(used, 16)), (len(reading) // 2, len(numbers) // 2))
            if number == '00':
                numbers = struct.unpack('<%dI' % (len(numbers) // 8), bytes.fromhex(numbers))
                self.assertEqual(numbers[0], len(numbers) - 1)
                self.assertGreaterEqual(int(store, 16), 4 * len(numbers))
        # Each answer to a whole reading, and 19 to one that is not; no part, the first ones and the last number.
        kinds = [(whole, number) for _, _, _, whole, number, *_ in rows]
        self.assertEqual(set(kinds), {('01', '00'), ('01', '13'), ('01', '14'), ('00', '13')})
        self.assertTrue(all(kinds.count(kind) > 30 for kind in set(kinds)))
        self.assertTrue({'00000000', '00000001', '00000002', '00000003', 'ffffffff'} <= {row[1] for row in rows})


if __name__ == '__main__':
    unittest.main()
