"""Each wrong answer (crates/*/must-fail, tests/edits) still fits the files that it changes: rt tries the former, and the latter are not tried by the gate."""
import glob
import os
import unittest

ROOT = os.path.dirname(os.path.dirname(os.path.dirname(os.path.abspath(__file__))))


def edits():
    """(edit's path, the crate it changes)"""
    for path in sorted(glob.glob(os.path.join(ROOT, 'crates', '*', 'must-fail', '*.edit'))):
        yield path, path.split(os.sep)[-3]
    for path in sorted(glob.glob(os.path.join(ROOT, 'tests', 'edits', '*', '*.edit'))):
        yield path, path.split(os.sep)[-2]


def read(path):
    with open(path, encoding='utf-8') as file:
        return file.read()


class Edits(unittest.TestCase):
    def test_each_text_that_is_replaced_stands_once(self):
        found = 0
        for path, crate in edits():
            name, texts, file, old = os.path.relpath(path, ROOT), {}, None, None
            for line in read(path).split('\n'):
                if line.startswith('file: '):
                    file = os.path.join(ROOT, 'crates', crate, line[len('file: '):])
                    texts.setdefault(file, read(file))
                elif line.startswith('old: '):
                    old = line[len('old: '):]
                elif line.startswith('new:'):
                    self.assertEqual(texts[file].count(old), 1, '%s: %s' % (name, old))
                    texts[file] = texts[file].replace(old, line[len('new:'):].removeprefix(' '))
                    found += 1
            self.assertTrue(any(text != read(file) for file, text in texts.items()), '%s changes nothing' % name)
        self.assertGreater(found, 300)

    def test_no_wrong_answer_stands_twice(self):
        seen = {}
        for path, crate in edits():
            words = (crate, '\n'.join(line for line in read(path).split('\n') if not line.startswith('#')))
            self.assertNotIn(words, seen, os.path.relpath(path, ROOT))
            seen[words] = path


if __name__ == '__main__':
    unittest.main()
