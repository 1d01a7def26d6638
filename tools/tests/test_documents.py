"""tests/differences.tsv, docs/DIFFERENCES.md and docs/DECISIONS.md agree; what documents name is there; what stands once under tools."""
import os
import re
import unittest

from support import ROOT, load, read

answers = load('answers')


class Differences(unittest.TestCase):
    rows = answers.read_rows()
    document = read('docs', 'DIFFERENCES.md')

    def test_rows(self):
        self.assertEqual(len({row['id'] for row in self.rows}), len(self.rows))
        for row in self.rows:
            self.assertIn(row['mark'], answers.MARKS, row['id'])
            for name in ('section', 'standard', 'rust', 'text', 'rust_words', 'rust_answer'):
                self.assertTrue(row[name].strip(), (row['id'], name))

    def test_the_two_answers_differ_where_the_row_says_so(self):
        for row in self.rows:
            if row['mark'] == 'part':
                self.assertTrue(row['standard_words'], row['id'])
                self.assertNotEqual(row['standard_words'], row['rust_words'], row['id'])

    def test_what_is_refused_is_outside_the_domain(self):
        for row in self.rows:
            if row['mark'] == 'refused':
                self.assertRegex(row['rust_answer'], r'^(refused|outside) ', row['id'])
                if row['section'] != 'domain':
                    self.assertEqual(row['rust_answer'].split()[1], row['section'], row['id'])
            elif row['id'] != 'voices-limit':
                self.assertTrue(row['rust_answer'].startswith('reading '), row['id'])

    def test_each_text_has_its_row_in_the_document(self):
        shown = [line for line in self.document.split('\n') if line.startswith('| ')]
        for row in self.rows:
            found = [line for line in shown if '| %s |' % answers.code(row['text']) in line]
            words = row['rust_words'].partition('   [01:')[0] if row['mark'] == 'refused' else row['rust_words']
            self.assertTrue(any(answers.code(words) in line for line in found), row['id'])

    def test_the_tables_are_those_of_the_rows(self):
        self.assertEqual(answers.with_tables(self.document, self.rows), self.document)

    def test_a_changed_answer_shows(self):
        rows = [dict(row) for row in self.rows]
        rows[0]['rust_words'] += '!'
        self.assertNotEqual(answers.with_tables(self.document, rows), self.document)


class Decisions(unittest.TestCase):
    document = read('docs', 'DECISIONS.md')

    def test_entries_are_numbered(self):
        numbers = [int(number) for number in re.findall(r'^### (\d+)\. \S', self.document, re.M)]
        self.assertEqual(numbers, list(range(1, len(numbers) + 1)))
        self.assertGreater(len(numbers), 40)

    def test_every_text_has_an_answer(self):
        found = answers.decisions(self.document)
        self.assertGreater(len(found), 100)
        for _, text, words in found:
            self.assertRegex(words, r'\||^Err |^HANG|^a reading of|^not UTF-8' + (r'|^refused \d+ \d+$' if text.startswith(answers.SECOND) else ''), text)
        indented = [line for line in self.document.split('\n') if line.startswith('    ')]
        self.assertEqual(len(indented), len(found))


class Charged(unittest.TestCase):
    """docs/CHARGED.md has the rows of the theorem, and no others."""
    THEOREM = read('crates', 'examples', 'proofs', 'Charged.antt')
    PAGE = read('docs', 'CHARGED.md')

    def theorem(self):
        found = re.findall(r'record \{ text = "(.*)"; charged = (.*) ∷ \[\] \}', self.THEOREM)
        return [(text.replace('\\"', '"'), [int(number) for number in numbers.split(' ∷ ')]) for text, numbers in found]

    def page(self, document):
        for text, columns in re.findall(r'^\| [^`]*\| `(.*)` \| ([0-9][0-9 /|]*) \|$', document, re.M):
            parts = zip(*(column.split(' / ') for column in columns.split(' | ')))
            yield text.replace('\\|', '|'), [int(number) for part in parts for number in part]

    def test_rows(self):
        rows = self.theorem()
        self.assertGreater(len(rows), 20)
        self.assertEqual(list(self.page(self.PAGE)), rows)

    def test_another_number_shows(self):
        self.assertNotEqual(list(self.page(self.PAGE.replace('| 1 | 5 | 0 | 0 |', '| 1 | 4 | 0 | 0 |'))), self.theorem())


class Theorems(unittest.TestCase):
    """A theorem that PROMISES or DIFFERENCES names before a file stands in that file."""

    def named(self, document):
        for names, path in re.findall(r'((?:`[^`]+`(?:, | and )?)+) \((crates/\w+/proofs/\w+\.antt)', document):
            for name in re.findall(r'`([^`]+)`', names):
                yield name, path

    def lost(self, document):
        return [(name, path) for name, path in self.named(document) if not re.search(r'^ *pub %s( :|$)' % re.escape(name), read(*path.split('/')), re.M)]

    def test_each_stands_there(self):
        for name in ('PROMISES.md', 'DIFFERENCES.md', 'CHARGED.md'):
            with self.subTest(name):
                self.assertEqual(self.lost(read('docs', name)), [])
        self.assertGreater(len(list(self.named(read('docs', 'PROMISES.md')))), 25)

    def test_a_lost_theorem_shows(self):
        self.assertEqual(self.lost('`demand-4` (crates/blocks/proofs/Demand.antt)'), [('demand-4', 'crates/blocks/proofs/Demand.antt')])


class Files(unittest.TestCase):
    def files(self):
        for folder, folders, names in os.walk(ROOT):
            folders[:] = [name for name in folders if name not in ('.git', 'target', 'out', '__pycache__')]
            for name in names:
                if name != '.git':
                    yield os.path.join(folder, name)

    def test_no_paths_of_one_machine(self):
        pattern = re.compile(r'(?<![\w.~])/(tmp|root|opt|home|usr|work)/')
        self.assertTrue(pattern.search('see ' + '/' + 'tmp/x'))
        for path in self.files():
            with open(path, encoding='utf-8', errors='replace') as file:
                for number, line in enumerate(file, 1):
                    if number == 1 and line.startswith('#!'):
                        continue
                    self.assertIsNone(pattern.search(line), '%s:%d' % (os.path.relpath(path, ROOT), number))

    def test_notice_has_both_licences(self):
        notice = read('NOTICE')
        for words in ('kent-tokyo/acorde', '4cb88658e3', 'Permission is hereby granted, free of charge', 'Copyright (c) 2026 kent-tokyo',
                      'TERMS AND CONDITIONS FOR USE, REPRODUCTION, AND DISTRIBUTION', '9. Accepting Warranty or Additional Liability'):
            self.assertIn(words, notice)

    def test_what_documents_name_is_there(self):
        for document in (('README.md',), ('tools', 'README.md'), ('docs', 'ARCHITECTURE.md'), ('docs', 'CHANGING.md')):
            named = paths(read(*document))
            absent = sorted({path for path in named if not os.path.exists(os.path.join(ROOT, path))})
            with self.subTest('/'.join(document)):
                self.assertGreater(len(named), 8)
                self.assertEqual(absent, [])

    def test_what_the_recipes_name_is_in_the_crates(self):
        text = ''
        for path in self.files():
            if path.startswith(os.path.join(ROOT, 'crates')) and path.endswith(('.rt', '.antt')):
                with open(path, encoding='utf-8') as file:
                    text += file.read()
        words = set(re.findall(r'[\w-]+', text))
        named = re.findall(r'`([A-Za-z]\w+)`', read('docs', 'CHANGING.md'))
        self.assertGreater(len(named), 15)
        self.assertEqual(sorted(set(named) - words - {'src', 'specs', 'proofs'}), [], 'docs/CHANGING.md names what is not there')

    def test_paths(self):
        self.assertEqual(paths('see crates/laws, tools/dev NAME; `tests/edits/CRATE/x.edit`, ../docs/src, .ci/run.'),
                         ['crates/laws', 'tools/dev', 'tests/edits', '.ci/run'])
        self.assertEqual(paths('crates/io/src/abc/mod.rs of acorde, bindings/rust/src/*.rs'), ['bindings/rust/src'])
        self.assertEqual(paths('crates/reader/specs/Token.antt (`x`), Part.antt; tools/oracle/crates (a.rs)'),
                         ['crates/reader/specs/Token.antt', 'crates/reader/specs/Part.antt', 'tools/oracle/crates', 'tools/oracle/crates/a.rs'])


def paths(text):
    """The paths of the repository that a text names: up to the first piece that stands for others (NAME, *). A file's bare name stands in the folder named last."""
    found = []
    for path in re.findall(r'(?<![\w./-])((?:crates|tools|tests|docs|bindings|include|examples|\.ci)/[\w./*-]+|\w+\.(?:antt|rs|rt)\b)(?! of acorde)', text):
        if path.startswith('crates/io/') or not found and '/' not in path:
            continue
        if '/' not in path:
            path = (os.path.dirname(found[-1]) if '.' in found[-1] else found[-1]) + '/' + path
        pieces = path.rstrip('.').rstrip('/').split('/')
        end = next((at for at, piece in enumerate(pieces) if '*' in piece or re.fullmatch('[A-Z]+', piece)), len(pieces))
        found.append('/'.join(pieces[:end]))
    return found


class Tools(unittest.TestCase):
    def test_each_piece_that_is_compared_stands_in_the_list(self):
        folder, names = os.path.join(ROOT, 'tools', 'compare', 'src', 'edges'), []
        for name in os.listdir(folder):
            names += re.findall(r'Piece \{ name: "([^"]+)"', read('tools', 'compare', 'src', 'edges', name))
        listed = [row.split(' | ')[1] for row in read('tools', 'compare', 'README.md').partition('## The pieces')[2].replace('\\|', '').split('\n') if row.startswith('| ')]
        self.assertEqual(sorted(names), sorted(listed[1:]))
        self.assertGreater(len(names), 15)

    def test_what_stands_once(self):
        """One Cargo workspace, one reading of escaped texts in each language, one random generator, one way to the source."""
        texts = {}
        for path in Files().files():
            if re.search(r'^(tools|bindings)/', os.path.relpath(path, ROOT)) and not path.endswith('test_documents.py'):
                with open(path, encoding='utf-8', errors='replace') as file:
                    texts[os.path.relpath(path, ROOT)] = file.read()
        for pattern in (r'\bfn unescape\b', r'\bdef unescape\b', r'\bunescape *= *lambda\b|\bdef unescape\b', r'\bstruct Rng\b', r'\bfn source_dir\b', r'\bfn parse_passes\(text: &str\) -> Vec<u8> \{\n        (?!let passes = acorde_core)'):
            self.assertEqual(sum(len(re.findall(pattern, text)) for text in texts.values()), 1, pattern)
        roots = sorted(path for path, text in texts.items() if path.endswith('Cargo.toml') and '[workspace]' in text)
        self.assertEqual(roots, ['bindings/rust/Cargo.toml', 'tools/Cargo.toml'])
        self.assertEqual(sorted(path for path in texts if path.endswith('Cargo.lock')), ['bindings/rust/Cargo.lock', 'tools/Cargo.lock'])


if __name__ == '__main__':
    unittest.main()
