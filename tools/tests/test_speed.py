"""The benchmark's texts and tunes, the figures of tools/instructions, and when a text is over its own."""
import os
import re
import shutil
import subprocess
import tempfile
import unittest

from support import ROOT, TOOLS, load, read

instructions = load('instructions')
FIGURES = read('tools', 'figures.tsv')

# The texts' own sources without the Rust reader: the oracle's generator, texts.rs and tunes.rs stand alone.
LIBRARY = '#[path = "{tools}/oracle/crates/oracle/src/rng.rs"] pub mod rng;\n#[path = "{tools}/oracle/crates/oracle/src/generate.rs"] pub mod generate;\n'
PROGRAM = '''#[path = "{tools}/compare/src/texts.rs"] mod texts;
#[path = "{tools}/compare/src/tunes.rs"] mod tunes;
fn main() {{
    for text in texts::TEXTS {{
        print!("{{}}\\0{{}}\\0", text.name, text.texts().len());
        for one in text.texts() {{ print!("{{one}}\\0"); }}
    }}
}}
'''


def callgrind(rows):
    """Output of callgrind in its form: functions with their costs, calls with the cost of what is called."""
    return ('version: 1\npositions: line\nevents: Ir\n\n' + ''.join(rows)).split('\n')


class Figures(unittest.TestCase):
    rows = instructions.read_figures(FIGURES)

    def test_each_text_has_its_figure_once(self):
        names = re.findall(r'Text \{\s*name: "([^"]+)"', read('tools', 'compare', 'src', 'texts.rs'))
        self.assertGreater(len(names), 30)
        self.assertEqual(list(self.rows), names)

    def test_the_texts_that_issue_17_names(self):
        for name in 'a b c d lyrics lines tunes chain chain20 verses40 verses400 signs2 voices32 overlays fields tiny tally'.split():
            self.assertIn(name, self.rows)

    def test_they_are_as_they_would_be_written(self):
        self.assertEqual(instructions.written(self.rows), FIGURES)
        for row in self.rows.values():
            self.assertTrue(all(value > 0 for value in row.values()), row)

    def test_a_text_twice_is_refused(self):
        with self.assertRaises(ValueError):
            instructions.read_figures(FIGURES + FIGURES.split('\n')[-2] + '\n')


class Verdict(unittest.TestCase):
    kept = {'a': {'bytes': 1000, 'port': 200.0, 'memset': 32.0, 'rust': 900.0}}

    def verdict(self, port, size=1000, name='a'):
        return instructions.verdict(name, {'bytes': size, 'port': port, 'memset': 32.0, 'rust': 900.0}, self.kept)

    def test_over_five_in_a_hundred(self):
        for port, error in ((200.0, False), (209.9, False), (210.1, True), (400.0, True), (100.0, False)):
            self.assertEqual(self.verdict(port)[1], error, port)
        self.assertIn('OVER ITS FIGURE of 200.0', self.verdict(210.1)[0])
        self.assertIn('+4.5', self.verdict(209.0)[0])

    def test_less_is_said(self):
        self.assertIn('--write', self.verdict(180.0)[0])
        self.assertNotIn('--write', self.verdict(195.0)[0])

    def test_no_figure_or_one_of_another_text(self):
        self.assertTrue(self.verdict(200.0, name='b')[1])
        self.assertTrue(self.verdict(200.0, size=1001)[1])


class Counted(unittest.TestCase):
    def test_clearing_stands_apart_and_calls_count_once(self):
        rows = ['fl=x\nfn=abc_parse\n10 5\n11 7\ncfn=__memset_avx2_unaligned_erms\ncalls=1 0\n11 1000\n12 3\n\n', 'fl=y\nfn=__memset_avx2_unaligned_erms\n0 1000\n\n', 'fn=__memcpy_avx\n0 20\n']
        self.assertEqual(instructions.counted(callgrind(rows)), (35, 1000))
        self.assertEqual(instructions.counted(callgrind([])), (0, 0))


@unittest.skipIf(shutil.which('rustc') is None, 'the texts are made by Rust')
class Texts(unittest.TestCase):
    @classmethod
    def setUpClass(cls):
        with tempfile.TemporaryDirectory() as folder:
            for name, source, words in (('oracle', LIBRARY, ['--crate-type', 'lib']), ('texts', PROGRAM, ['-L', folder, '--extern', 'oracle'])):
                with open(os.path.join(folder, name + '.rs'), 'w') as file:
                    file.write(source.format(tools=TOOLS))
                subprocess.run(['rustc', '--edition', '2024', '-Awarnings', '--out-dir', folder, os.path.join(folder, name + '.rs'), *words], check=True)
            parts = subprocess.run([os.path.join(folder, 'texts')], stdout=subprocess.PIPE, check=True).stdout.decode().split('\0')
        cls.texts = {}
        while len(parts) > 1:
            name, count = parts[0], int(parts[1])
            cls.texts[name], parts = parts[2:2 + count], parts[2 + count:]

    def test_the_figures_are_of_these_texts(self):
        rows = instructions.read_figures(FIGURES)
        self.assertEqual({name: sum(len(text.encode()) for text in texts) for name, texts in self.texts.items()}, {name: row['bytes'] for name, row in rows.items()})

    def test_texts_keep_within_the_limits(self):
        for name, texts in self.texts.items():
            for text in texts:
                self.assertLessEqual(text.count('\n'), 10_000, name)
                self.assertTrue(text.startswith('X:') and text.endswith('\n'), name)
        self.assertEqual({name for name, texts in self.texts.items() if len(texts) != 1}, {'tunes'})

    def test_a_thousand_tunes(self):
        tunes = self.texts['tunes']
        self.assertEqual((len(tunes), len(set(tunes))), (1000, 1000))
        sizes = [len(tune.encode()) for tune in tunes]
        self.assertTrue(139 <= min(sizes) < 160 and 2900 < max(sizes) <= 3030, (min(sizes), max(sizes)))
        voices = [len(set(re.findall(r'^V:(\S+)', tune, re.M))) or 1 for tune in tunes]
        self.assertEqual(set(voices), {1, 2, 3, 4})
        self.assertGreater(voices.count(1), 400)
        share = lambda pattern: sum(bool(re.search(pattern, tune, re.M)) for tune in tunes)
        self.assertTrue(320 <= share(r'^w:') <= 345, share(r'^w:'))
        self.assertTrue(300 <= share(r'"[A-G][m7]?"') <= 700)
        self.assertGreater(share(r'\|:'), 400)
        self.assertGreater(share(r'\[2 '), 200)

    def test_voices32_has_so_many(self):
        self.assertEqual(len(set(re.findall(r'^V:\S+', self.texts['voices32'][0], re.M))), 32)
        self.assertEqual(len(set(re.findall(r'^V:\S+', self.texts['named'][0], re.M))), 32)


if __name__ == '__main__':
    unittest.main()
