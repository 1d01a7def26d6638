"""bundle on a small crate; affected on a small repository; what dev takes from the prover's output; what vectors writes; what each tool says of itself."""
import os
import subprocess
import sys
import tempfile
import unittest

from support import ROOT, TOOLS, load, read
from common import needs, short

affected, bundle, dev, vectors, places, reasons = (load(name) for name in ('affected', 'bundle', 'dev', 'vectors', 'places', 'reasons'))

OUTPUT = '''rt: chose --jobs 2 for a
./proofs/f/Answers.antt:3:1: `returns` is not admitted: has-holes
./proofs/f/Answers.antt:3:5: goal ? in `returns`
    c : goal.Then-b
  ⊢ Prim.Native.Nat.◌+◌ (c.before.before.before.x) 1
    (computed from:
      something long)
note: what antt said
  more of it
help: write ./proofs/g/Invariants.antt with these lines, and check again: each hole asks for a measure
    use a.B

    pub g_spec : ℕ
help: write ./proofs/h/Answers.antt with these lines
    use a.C
logic somewhere: libraries=16
statements core: modules loaded=222 checked=0
fn a::f: no proof
logic=not-proved
rt: rt lemma WORD.. finds a lemma by guessed names or words of the goal
'''


class Bundle(unittest.TestCase):
    def crate(self, folder):
        specs = os.path.join(folder, 'small', 'specs')
        os.makedirs(specs)
        for name, text in [('Lib', 'pub mod One\npub mod Two\n'),
                           ('One', 'unfoldable pub first : ℕ\nfirst = 0\n\npub hidden : ℕ\nhidden = 1\n'),
                           ('Two', 'unfoldable pub first : ℕ\nfirst = 2\n\nunfoldable pub second : ℕ\nsecond = 3\n')]:
            with open(os.path.join(specs, name + '.antt'), 'w') as file:
                file.write(text)
        return os.path.join(folder, 'small')

    def test_written(self):
        with tempfile.TemporaryDirectory() as folder:
            crate = self.crate(folder)
            for _ in range(2):
                run = subprocess.run([sys.executable, os.path.join(TOOLS, 'bundle'), crate], stdout=subprocess.PIPE, text=True)
                self.assertEqual((run.returncode, run.stdout), (0, '3 definitions\n'))
            with open(crate + '/specs/All.antt') as file:
                self.assertEqual(file.read(), bundle.HEAD + '''use Rattle.std.specs.Prelude.{ℕ}
use Rattle.small.specs.One.{first}
use Rattle.small.specs.Two.{first as Two-first, second}

unfoldable pub all : ℕ
unfolding first Two-first second
all = 0
''')
            with open(crate + '/specs/Lib.antt') as file:
                self.assertEqual(file.read(), 'pub mod One\npub mod Two\npub mod All\n')

    def test_names_keep_their_order(self):
        with tempfile.TemporaryDirectory() as folder:
            crate = self.crate(folder)
            write = lambda: subprocess.run([sys.executable, os.path.join(TOOLS, 'bundle'), crate], stdout=subprocess.DEVNULL, check=True)
            write()
            with open(crate + '/specs/One.antt', 'w') as file:
                file.write('unfoldable pub new : ℕ\nnew = 1\n\nunfoldable pub first : ℕ\nfirst = 0\n')
            write()
            with open(crate + '/specs/All.antt') as file:
                self.assertIn('use Rattle.small.specs.One.{first, new}\n', file.read())

    def test_those_of_the_repository_are_as_written(self):
        for crate, below in (('laws', ()), ('standard', ('laws',)), ('reader', ('laws', 'standard')), ('part_layout', ('laws', 'standard', 'reader'))):
            with open(os.path.join(ROOT, 'crates', crate, 'specs', 'All.antt'), encoding='utf-8') as file:
                self.assertEqual(file.read(), bundle.bundle(os.path.join(ROOT, 'crates', crate), below)[0], crate)


class Affected(unittest.TestCase):
    CRATES = '# NAME: what it depends on\nlow:\nmid: low\nside: low\ntop: low mid\nother:\n'

    def repository(self, folder):
        for name in ('low', 'mid', 'side', 'top', 'other'):
            os.makedirs(os.path.join(folder, 'crates', name, 'src'))
            self.write(folder, 'crates/%s/src/lib.rt' % name, '// %s\n' % name)
        self.write(folder, 'crates.txt', self.CRATES)
        for words in (['init', '-q'], ['add', '-A'], ['-c', 'user.name=x', '-c', 'user.email=x', 'commit', '-q', '-m', 'x']):
            subprocess.run(['git'] + words, cwd=folder, check=True)

    def write(self, folder, path, text):
        with open(os.path.join(folder, path), 'w') as file:
            file.write(text)

    def run_in(self, folder, *words):
        run = subprocess.run([sys.executable, os.path.join(TOOLS, 'affected')] + list(words), cwd=folder, stdout=subprocess.PIPE, text=True)
        self.assertEqual(run.returncode, 0)
        return run.stdout.split('\n')[:-1]

    def test_what_is_touched_and_what_stands_above_it(self):
        with tempfile.TemporaryDirectory() as folder:
            self.repository(folder)
            self.assertEqual(self.run_in(folder), ['0 touched, 0 to prove again of 5'])
            self.write(folder, 'README.md', 'x\n')
            self.assertEqual(self.run_in(folder), ['0 touched, 0 to prove again of 5'])
            self.write(folder, 'crates/mid/src/lib.rt', '// another\n')
            self.assertEqual(self.run_in(folder), ['mid (touched)', 'top', '1 touched, 2 to prove again of 5'])
            # A file that git does not know yet.
            self.write(folder, 'crates/other/src/more.rt', '')
            self.assertEqual(self.run_in(folder), ['mid (touched)', 'top', 'other (touched)', '2 touched, 3 to prove again of 5'])
            # A crate that stands on more than before.
            self.write(folder, 'crates.txt', self.CRATES.replace('other:', 'other: side'))
            self.write(folder, 'crates/low/src/lib.rt', '')
            self.assertEqual(self.run_in(folder, 'HEAD'), ['low (touched)', 'mid (touched)', 'side', 'top', 'other (touched)', '3 touched, 5 to prove again of 5'])

    def test_run(self):
        with tempfile.TemporaryDirectory() as folder:
            self.repository(folder)
            self.write(folder, 'crates/mid/src/lib.rt', '')
            # In the place of rt: a program that says what it was asked for.
            os.makedirs(os.path.join(folder, 'bin'))
            self.write(folder, 'bin/rt', '#!/bin/sh\necho "${PWD##*/}: $*" >>"$ASKED"\n[ "${PWD##*/}: $*" != "$FAILS: check" ]\n')
            os.chmod(os.path.join(folder, 'bin', 'rt'), 0o755)
            asked = os.path.join(folder, 'asked')
            for fails, status, wanted in (('', 0, 'mid: check\ntop: check\n%s: must-fail mid\n' % os.path.basename(folder)), ('mid', 1, 'mid: check\n')):
                open(asked, 'w').close()
                run = subprocess.run([sys.executable, os.path.join(TOOLS, 'affected'), '--run'], cwd=folder, stdout=subprocess.DEVNULL,
                                     env=dict(os.environ, ASKED=asked, FAILS=fails, PATH=os.path.join(folder, 'bin') + os.pathsep + os.environ['PATH']))
                self.assertEqual(run.returncode, status)
                with open(asked) as file:
                    self.assertEqual(file.read(), wanted)

    def test_crates(self):
        self.assertEqual(needs('a:\n# x: y\nb: a  # c\nd staticlib: b\n'), {'a': [], 'b': ['a'], 'd': ['b']})


class Dev(unittest.TestCase):
    def test_offers(self):
        self.assertEqual(dev.offers(OUTPUT), [('./proofs/g/Invariants.antt', 'use a.B\n\npub g_spec : ℕ\n'),
                                              ('./proofs/h/Answers.antt', 'use a.C\n')])

    def test_reports(self):
        found = [[line for line in report if line] for report in dev.reports(OUTPUT)]
        self.assertEqual([report[0] for report in found],
                         ['./proofs/f/Answers.antt:3:5: goal ? in `returns`', 'fn a::f: no proof', 'logic=not-proved',
                          'rt: rt lemma WORD.. finds a lemma by guessed names or words of the goal'])
        self.assertEqual(found[0][1:], ['    c : goal.Then-b', '  ⊢ Prim.Native.Nat.◌+◌ (c.before.before.before.x) 1'])

    def test_short(self):
        self.assertEqual(short('⊢ Prim.Native.Nat.◌+◌ (c.before.before.before.x) 1', 99), '⊢ ◌+◌ (c.before×3.x) 1')
        self.assertEqual(short('Rattle.a.specs.declared.E.TheVariants.X', 99), 'E.TheVariants.X')
        self.assertEqual(short('abcdef', 3), 'abc ...')

    def test_where_it_checks_and_what_it_writes(self):
        with tempfile.TemporaryDirectory() as folder:
            os.makedirs(os.path.join(folder, 'crates', 'a', 'proofs'))
            open(os.path.join(folder, 'crates.txt'), 'w').close()
            os.makedirs(os.path.join(folder, 'bin'))
            # In the place of rt: a program that prints the output above where it is asked for, in the crate's folder.
            with open(os.path.join(folder, 'bin', 'rt'), 'w') as file:
                file.write('#!/bin/sh\n[ "${PWD##*/} $*" = "a check --allow-holes" ] && printf %s "$OUTPUT"\nexit 1\n')
            os.chmod(os.path.join(folder, 'bin', 'rt'), 0o755)
            run = subprocess.run([sys.executable, os.path.join(TOOLS, 'dev'), 'a', '--write', '--allow-holes'], cwd=folder, stdout=subprocess.PIPE, text=True,
                                 env=dict(os.environ, OUTPUT=OUTPUT, PATH=os.path.join(folder, 'bin') + os.pathsep + os.environ['PATH']))
            self.assertEqual(run.returncode, 1)
            self.assertIn('wrote crates/a/proofs/g/Invariants.antt\n', run.stdout)
            with open(os.path.join(folder, 'crates', 'a', 'proofs', 'h', 'Answers.antt')) as file:
                self.assertEqual(file.read(), 'use a.C\n')
            with open(os.path.join(folder, 'target', 'dev-a.txt')) as file:
                self.assertEqual(file.read(), OUTPUT)


class Vectors(unittest.TestCase):
    def test_wanted(self):
        self.assertEqual(vectors.wanted('reading 0100ff'), (3, [1, 1, 0, 255]))
        self.assertEqual(vectors.wanted('refused 14 2'), (0, [0, 14, 2]))
        self.assertIsNone(vectors.wanted('outside 00'))
        self.assertIsNone(vectors.wanted('panic'))

    def test_theorem(self):
        self.assertEqual(vectors.theorem('v0-1', b'A\n', 3, [1, 0]),
                         '\nv0-1 : answered (65 ∷ 10 ∷ []) 3 8256 ≡ 1 ∷ 0 ∷ []\nunfolding all\nv0-1 = refl\n')


class Places(unittest.TestCase):
    OFFERED = '''use a.B

-- src/lib.rt:7:9
pub add-x : goal.add-x
add-x c = ?

-- src/lib.rt:4:1
pub returns : goal.returns
returns c = ?
'''
    PRINTED = '''./proofs/f/Answers.antt:3:1: `add-x` is not admitted: has-holes
./proofs/f/Answers.antt:4:9: goal ? in `add-x`
    c : goal.After-g
  names you can use, by step:
    c.args: .x
note: finished
./proofs/f/Answers.antt:8:9: goal ? in `returns`
    c : goal.After-h
  names you can use, by step:
    as in `add-x` above, as far as c.args
fn a::f: has holes
'''

    def test_asked(self):
        self.assertEqual(places.asked(self.OFFERED), (self.OFFERED, 2))
        head, first, second = self.OFFERED.rstrip('\n').split('\n\n')
        self.assertEqual(places.asked(self.OFFERED, 'returns'), ('\n\n'.join((head, second, first)) + '\n', 1))
        self.assertEqual(places.asked(self.OFFERED, 'other')[1], 0)

    def test_places(self):
        self.assertEqual(places.places(self.PRINTED), ['add-x', '    c : goal.After-g', '  names you can use, by step:', '    c.args: .x',
                                                       'returns', '    c : goal.After-h', '  names you can use, by step:', '    as in `add-x` above, as far as c.args'])
        self.assertEqual(places.places(self.PRINTED, 'returns')[0], 'returns')
        self.assertEqual(places.places(self.PRINTED, 'other'), [])


class StaticLibrary(unittest.TestCase):
    """tools/staticlib in a small repository, with a program in the place of rt."""

    def made(self, status):
        with tempfile.TemporaryDirectory() as folder:
            for path, text in (('tools/staticlib', read('tools', 'staticlib')),
                               ('bin/rt', '#!/bin/sh\n[ "${PWD##*/} $*" = "abc_c lib" ] || exit 3\nmkdir -p out\necho archive >out/libabc_c.a\nexit %d\n' % status)):
                os.makedirs(os.path.dirname(os.path.join(folder, path)))
                with open(os.path.join(folder, path), 'w') as file:
                    file.write(text)
                os.chmod(os.path.join(folder, path), 0o755)
            os.makedirs(os.path.join(folder, 'crates', 'abc_c'))
            run = subprocess.run([os.path.join(folder, 'tools', 'staticlib')], stdout=subprocess.DEVNULL,
                                 env=dict(os.environ, PATH=os.path.join(folder, 'bin') + os.pathsep + os.environ['PATH']))
            library = os.path.join(folder, 'target', 'staticlib', 'libabc.a')
            if not os.path.exists(library):
                return run.returncode, None
            with open(library) as file:
                return run.returncode, file.read()

    def test_what_it_writes(self):
        self.assertEqual(self.made(0), (0, 'archive\n'))
        self.assertEqual(self.made(1), (1, None))


class Gate(unittest.TestCase):
    """.ci/run in a small repository, with a program in the place of rt."""

    def gate(self, said, status=0, fails=False):
        """The status, the last line printed, and what rt was asked for."""
        with tempfile.TemporaryDirectory() as folder:
            for path, text, mode in (('.ci/run', read('.ci', 'run'), 0o755), ('tools/tests/test_a.py', 'import unittest\n\n\nclass A(unittest.TestCase):\n    def test(self):\n        self.assertFalse(%r)\n' % fails, 0o644),
                                     ('bin/rt', '#!/bin/sh\necho "$*" >>"$ASKED"\n[ "$*" = version ] && exec echo kit\nprintf %%s "$SAID"\nexit %d\n' % status, 0o755)):
                os.makedirs(os.path.dirname(os.path.join(folder, path)), exist_ok=True)
                with open(os.path.join(folder, path), 'w') as file:
                    file.write(text)
                os.chmod(os.path.join(folder, path), mode)
            asked = os.path.join(folder, 'asked')
            run = subprocess.run([os.path.join(folder, '.ci', 'run')], cwd=folder, stdout=subprocess.PIPE, stderr=subprocess.DEVNULL, text=True,
                                 env=dict(os.environ, ASKED=asked, SAID=said, PATH=os.path.join(folder, 'bin') + os.pathsep + os.environ['PATH']))
            with open(asked) as file:
                return run.returncode, run.stdout.splitlines()[-1], file.read().split('\n')[:-1]

    def test_what_it_asks_and_says(self):
        ok = 'rt: ok; handles allowed: none; must-fail edits: 6 refused%s; every proof and must-fail edit was done in this run\n7 passed, 0 failed\n'
        self.assertEqual(self.gate(ok % ''), (0, '7 passed, 0 failed', ['version', 'ci']))
        self.assertEqual(self.gate(ok % ', 1 of them only by a limit'), (0, '7 passed, 0 failed', ['version', 'ci']))
        self.assertEqual(self.gate(ok % ', 2 bad'), (1, '7 passed, 0 failed', ['version', 'ci']))
        self.assertEqual(self.gate('rt: FAILED: a\n6 passed, 1 failed\n', 1), (1, '6 passed, 1 failed', ['version', 'ci']))
        self.assertEqual(self.gate('0 passed, 1 failed\n', 2), (2, '0 passed, 1 failed', ['version', 'ci']))
        self.assertEqual(self.gate(ok % '', fails=True), (1, 'kit', ['version']))


class Help(unittest.TestCase):
    def test_each_tool_says_what_it_does(self):
        names = [name for name in os.listdir(TOOLS) if os.access(os.path.join(TOOLS, name), os.X_OK) and os.path.isfile(os.path.join(TOOLS, name))]
        self.assertGreater(len(names), 15)
        for name in names:
            run = subprocess.run([os.path.join(TOOLS, name), '--help'], stdout=subprocess.PIPE, text=True)
            self.assertEqual(run.returncode, 0, name)
            self.assertGreater(len(run.stdout.split('\n')), 3, name)

    def test_an_absent_reference_source_is_said(self):
        run = subprocess.run([os.path.join(TOOLS, 'reference-tests')], stdout=subprocess.PIPE, stderr=subprocess.PIPE, text=True,
                             env=dict(os.environ, ACORDE_SRC='no/such/folder'))
        self.assertEqual(run.returncode, 2)
        self.assertIn('Set ACORDE_SRC', run.stderr)


class Forms(unittest.TestCase):
    """tools/forms on a crate with a place of each form, and on one with none."""
    OLD = '''
enum Found {
    Nothing,
    At(u32),
}

const KIND: u8 = 3;

fn refuse(n: u8) -> Answer {
    Answer::Refused(14, 0)
}

fn first(line: &[u8], a: usize, b: usize) -> usize
    requires { (a ≤ b) × (b ≤ length line.now) }
{
    let mut i = a;
    while i < b {
        i += 1;
    }
    i
}

fn second(line: &[u8], a: usize, b: usize) -> usize
    requires { (a ≤ b) × (b ≤ length line.now) }
{
    let mut i = a;
    while i < b {
        i += 1;
    }
    i
}

fn third(line: &[u8], a: usize, b: usize, led: bool) -> u8
    requires { (a ≤ b) × (b ≤ length line.now) }
{
    if led { 1 } else { 0 }
}
'''
    NEW = '''
fn first(line: &[u8]) -> Option<usize> {
    for i in 0..line.len() {
        if line[i] == b' ' {
            return Some(i);
        }
    }
    None
}
'''

    def counts(self, text):
        with tempfile.TemporaryDirectory() as folder:
            os.makedirs(os.path.join(folder, 'crates', 'a', 'src'))
            with open(os.path.join(folder, 'crates', 'a', 'src', 'lib.rt'), 'w') as file:
                file.write(text)
            run = subprocess.run([os.path.join(TOOLS, 'forms'), '--counts', folder], stdout=subprocess.PIPE, text=True)
        return [int(line.rpartition(': ')[2]) for line in run.stdout.splitlines()]

    def test_counts(self):
        self.assertEqual(self.counts(self.OLD), [1, 0, 1, 1, 1, 2, 0, 1, 3, 3])
        self.assertEqual(self.counts(self.NEW), [0] * 10)


class Reasons(unittest.TestCase):
    FACT = 'rt: must-fail a/lost.edit: refused, as it must be: ./proofs/f/Answers.antt:9:5: error: `returns`: the two values are 1 and 2\n'
    SHAPE = ('rt: must-fail a/renamed.edit: refused, as it must be: ./proofs/f/Answers.antt:3:5: error: `g`: module `Rattle.a.specs.M` has no `x` that can be named from here\n'
             'rt: must-fail a/only.edit: refused, as it must be (only because a proof file names what the edit took away, so this says little): proofs/g.antt:1:1: error: x\n')
    WRONG = 'rt: must-fail a/kept.edit: NOT REFUSED: the crate is still proved with this edit\nrt: must-fail a/bad.edit: BAD EDIT: it changes nothing\n'

    def test_reason(self):
        words = lambda line: line.partition('.edit: ')[2].rstrip('\n')
        self.assertEqual(reasons.reason(words(self.FACT)), (None, './proofs/f/Answers.antt:9:5: error: `returns`: the two values are 1 and 2'))
        self.assertEqual([reasons.reason(words(line))[0] for line in (self.SHAPE + self.WRONG).splitlines()], ['a name is gone', 'a name is gone', 'not refused', 'bad edit'])

    def test_run(self):
        run = lambda text, *more: subprocess.run([sys.executable, os.path.join(TOOLS, 'reasons'), *more], input=text, stdout=subprocess.PIPE, stderr=subprocess.PIPE, text=True)
        self.assertEqual(run('rt: ok\n').returncode, 2)
        self.assertEqual(run(self.FACT).returncode, 0)
        self.assertIn('a/lost.edit: a fact: ', run(self.FACT, '--all').stdout)
        found = run(self.FACT + self.SHAPE + self.WRONG)
        self.assertEqual(found.returncode, 1)
        self.assertIn('a/renamed.edit: a name is gone: ', found.stdout)
        self.assertIn('5 edits, 4 not refused for a fact', found.stdout)
        self.assertNotIn('a/lost', found.stdout)


if __name__ == '__main__':
    unittest.main()
