"""tools/tally in a small repository with a program in the place of rt: which program it runs, and a transcript of each error."""
import os
import re
import shutil
import subprocess
import sys
import tempfile
import unittest

from support import ROOT, TOOLS, load, read

tally = load('tally')

# In the place of rt. It writes down what it was asked for; `try` prints the text, as the sources run unproved would; `run` leaves a program that prints it.
RT = r'''#!%s
import os, sys
with open(os.environ['ASKED'], 'a') as file:
    file.write(' '.join(sys.argv[1:]) + '\n')
answer = os.environ['ANSWER']
if sys.argv[1] == 'version':
    print('kit')
elif sys.argv[1] == 'try':
    assert os.path.exists('src/lib.rt') and sys.stdin.buffer.read() is not None
    if os.environ.get('DIFFERS'):
        print('run=differs runners=2 proved=no', file=sys.stderr)
        sys.exit(5)
    sys.stdout.write(answer)
    print('run=ended status=0 runners=2 proved=no', file=sys.stderr)
elif sys.argv[1] == 'run':
    print('rt: chose --jobs 2 for low', file=sys.stderr)
    if os.environ.get('FAILS'):
        print('logic=not-proved\nrt: the library low did not build, so nothing above it was checked', file=sys.stderr)
        sys.exit(1)
    print('rt: chose --jobs 2 for tally', file=sys.stderr, flush=True)
    os.makedirs('out', exist_ok=True)
    with open('out/tally', 'w') as file:
        file.write('#!/bin/sh\ncat >/dev/null\nprintf %%s "$ANSWER"\n')
    os.chmod('out/tally', 0o755)
    if not os.environ.get('CHANGED'):
        open('out/tally.stamp', 'w').close()
    print('refused 1 0')
''' % sys.executable

COUNTS = 'parts 1\npart 1 measures 2 sounded 6 rests 1 syllables 3\n'
UNPROVED = 'tally: by these sources, compiled and NOT proved (half a minute). tools/tally --proved FILE proves them first, once\n'
PROVED = 'tally: by the proved program of these sources\n'


class Case(unittest.TestCase):
    def setUp(self):
        self.folder = tempfile.mkdtemp()
        self.addCleanup(shutil.rmtree, self.folder)
        for name in ('low', 'tally', 'other'):
            os.makedirs(os.path.join(self.folder, 'crates', name, 'src'))
            self.write('crates/%s/src/lib.rt' % name, '// %s\n' % name)
        self.write('crates.txt', '# crates\nlow:\nother: low\ntally: low io\n')
        self.write('tune.abc', 'K:C\nA\n')
        os.makedirs(os.path.join(self.folder, 'tools'))
        shutil.copy(os.path.join(TOOLS, 'tally'), os.path.join(self.folder, 'tools', 'tally'))
        os.makedirs(os.path.join(self.folder, 'bin'))
        self.write('bin/rt', RT)
        os.chmod(os.path.join(self.folder, 'bin', 'rt'), 0o755)

    def write(self, path, text):
        with open(os.path.join(self.folder, path), 'w') as file:
            file.write(text)

    def tally(self, *words, answer=COUNTS, text=b'', path=None, **more):
        """Standard output, standard error, the status, and what rt was asked for beside its version."""
        asked = os.path.join(self.folder, 'asked')
        open(asked, 'w').close()
        env = dict(os.environ, ANSWER=answer, ASKED=asked, PATH=path or os.path.join(self.folder, 'bin') + os.pathsep + os.environ['PATH'], **more)
        run = subprocess.run([sys.executable, os.path.join(self.folder, 'tools', 'tally')] + list(words), input=text, stdout=subprocess.PIPE,
                             stderr=subprocess.PIPE, env=env, cwd=self.folder)
        with open(asked) as file:
            calls = [line for line in file.read().split('\n') if line and line != 'version']
        return run.stdout.decode(), run.stderr.decode(), run.returncode, calls


class Errors(Case):
    """Each is told before anything is compiled or proved."""

    def told(self, error, *words, **more):
        self.assertEqual(self.tally(*words, **more), ('', error, 2, []))

    def test_no_file(self):
        self.told('tally: absent.abc: No such file or directory\n', 'absent.abc')
        self.told('tally: absent.abc: No such file or directory\n', '--proved', 'absent.abc')

    def test_a_folder(self):
        self.told('tally: crates: Is a directory\n', 'crates')

    @unittest.skipIf(os.geteuid() == 0, 'root reads every file')
    def test_an_unreadable_file(self):
        os.chmod(os.path.join(self.folder, 'tune.abc'), 0)
        self.told('tally: tune.abc: Permission denied\n', 'tune.abc')

    def test_usage(self):
        self.told('tally: no option --fast; tools/tally --help lists them\n', '--fast', 'tune.abc')
        self.told('tally: one FILE at a time; sindvaelo tally takes several (bindings/rust)\n', 'tune.abc', 'tune.abc')

    def test_no_toolchain(self):
        self.told('tally: rt is missing: install the Rattle toolchain and put its command rt on PATH\n', 'tune.abc', path=os.path.join(self.folder, 'crates'))

    def test_runs_that_differ(self):
        out, told, status, calls = self.tally('tune.abc', DIFFERS='1')
        self.assertEqual((out, status, calls), ('', 2, ['try']))
        self.assertTrue(told.startswith(UNPROVED) and told.endswith('tally: the sources cannot be compiled and run, or their runs differ: see above\n'), told)

    def test_not_proved(self):
        out, told, status, calls = self.tally('--proved', 'tune.abc', FAILS='1')
        self.assertEqual((out, status, calls), ('', 2, ['run']))
        self.assertTrue(told.startswith('tally: proving the program and the 1 crates below it first: it takes a while, once\n'
                                        'tally: proving: crate 1 of 2 (low)\n'), told)
        self.assertTrue(told.endswith('logic=not-proved\nrt: the library low did not build, so nothing above it was checked\n'
                                      'tally: the program is not proved: see above\n'), told)

    def test_sources_that_change_meanwhile(self):
        out, told, status, calls = self.tally('--proved', 'tune.abc', CHANGED='1')
        self.assertEqual((out, status, calls), ('', 2, ['run']))
        self.assertTrue(told.endswith('tally: the sources changed while they were proved: run it again\n'), told)

    def test_a_program_that_prints_nothing(self):
        self.tally('--proved', 'tune.abc')
        self.assertEqual(self.tally('tune.abc', answer=''), ('', PROVED + 'tally: the program printed no tally: it could not read its input\n', 2, []))
        self.write('crates/low/src/lib.rt', '// changed\n')
        self.assertEqual(self.tally('tune.abc', answer='')[:3], ('', UNPROVED + 'tally: the program printed no tally: it could not read its input\n', 2))


class Programs(Case):
    def test_not_proved_at_first(self):
        self.assertEqual(self.tally('tune.abc'), (COUNTS, UNPROVED, 0, ['try']))
        self.assertEqual(self.tally(text=b'K:C\nA\n'), (COUNTS, UNPROVED, 0, ['try']))
        self.assertEqual(self.tally('-', text=b'K:C\nA\n'), (COUNTS, UNPROVED, 0, ['try']))
        self.assertFalse(os.path.exists(os.path.join(self.folder, 'target')))

    def test_proved_on_demand_and_then_for_good(self):
        proving = ('tally: proving the program and the 1 crates below it first: it takes a while, once\n'
                   'tally: proving: crate 1 of 2 (low)\ntally: proving: crate 2 of 2 (tally)\n')
        self.assertEqual(self.tally('--proved', 'tune.abc'), (COUNTS, proving + PROVED, 0, ['run']))
        self.assertEqual(self.tally('tune.abc'), (COUNTS, PROVED, 0, []))
        # A crate that the program is not made of does not matter; one that it is made of does, and so does the program.
        self.write('crates/other/src/lib.rt', '// changed\n')
        self.assertEqual(self.tally('tune.abc'), (COUNTS, PROVED, 0, []))
        self.write('crates/low/src/lib.rt', '// changed\n')
        later = os.path.getmtime(os.path.join(self.folder, 'crates', 'tally', 'out', 'tally.stamp')) + 5
        os.utime(os.path.join(self.folder, 'crates', 'low', 'src', 'lib.rt'), (later, later))
        self.assertEqual(self.tally('tune.abc'), (COUNTS, UNPROVED, 0, ['try']))
        self.write('crates/low/src/lib.rt', '// low\n')
        self.assertEqual(self.tally('tune.abc'), (COUNTS, PROVED, 0, []))

    def test_a_program_that_was_proved_otherwise(self):
        self.tally('--proved', 'tune.abc')
        os.remove(os.path.join(self.folder, 'target', 'tally.proved'))
        _, told, status, calls = self.tally('tune.abc')
        self.assertEqual((status, calls), (0, ['run']))
        self.assertTrue(told.endswith(PROVED))


class Answers(Case):
    def test_a_refusal(self):
        self.assertEqual(self.tally('tune.abc', answer='refused 7 3\n'),
                         ('refused 7 3\n', UNPROVED + 'tally: refused (7) at line 3: an X: line after the first K: line. Send one tune in a text\n', 1, ['try']))
        self.assertEqual(self.tally('tune.abc', answer='refused 3 0\n')[:3],
                         ('refused 3 0\n', UNPROVED + 'tally: refused (3): not UTF-8. Convert the file to UTF-8\n', 1))

    def test_refusals_of_a_pass_list(self):
        for number, words in ((14, 'an ending whose passes are no list. Write numbers without a leading zero, or two with one hyphen between, and single commas between them: '
                                   '[1 for [01 or [1-, [1,2 for [1,,2'),
                              (17, 'an ending with a pass that is 0 or above 32, as in [0 or [33. Number the passes from 1 to 32'),
                              (18, 'an ending whose passes do not rise. Write each above the one before it: [1-3 for [3-1, [1,2 for [2,1')):
            answer = 'refused %d 2\n' % number
            self.assertEqual(self.tally('tune.abc', answer=answer)[:3], (answer, UNPROVED + 'tally: refused (%d) at line 2: %s\n' % (number, words), 1))

    def test_too_long(self):
        self.assertEqual(self.tally('tune.abc', answer='too long\n')[:3],
                         ('too long\n', UNPROVED + 'tally: over 1,792 bytes, which is all that this program takes. For a longer text run sindvaelo tally '
                                                   '(in bindings/rust: cargo run --release -- tally FILE)\n', 1))

    def test_the_words_are_those_of_the_crate(self):
        words = re.findall(r'Self::(\w+)(?: \{ \.\. \})? => ": (.*)",', read('bindings', 'rust', 'src', 'refusal.rs'))
        numbers = dict(re.findall(r'Self::(\w+)(?: \{ \.\. \})? => (\d+),', read('bindings', 'rust', 'src', 'refusal.rs')))
        # No text brings about 19 and 20, which refuse a played list, and in the first edition none 21 and 22.
        self.assertEqual({int(numbers[name]): text for name, text in words if name in numbers and numbers[name] not in ('19', '20', '21', '22')}, tally.MEANS)

    def test_the_limit_is_the_program_s(self):
        source = read('crates', 'tally_run', 'src', 'lib.rt')
        self.assertIn('const MOST_INPUT: usize = %d;' % tally.LIMIT, source)
        self.assertIn('if MOST_INPUT < input.len()', source)
        self.assertIn('format(LIMIT', read('tools', 'tally'))
        self.assertIn('{:,} bytes'.format(tally.LIMIT), tally.__doc__)

    def test_each_text_of_the_examples_has_a_tally(self):
        names = os.listdir(os.path.join(ROOT, 'examples'))
        self.assertEqual(sorted(name[:-4] for name in names if name.endswith('.abc')), sorted(name[:-6] for name in names if name.endswith('.tally')))


if __name__ == '__main__':
    unittest.main()
