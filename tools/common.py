"""What the tools share: texts as they are written in tables, the reference reader, the toolchain, scratch crates."""
import os
import re
import subprocess
import sys

ROOT = os.path.dirname(os.path.dirname(os.path.abspath(__file__)))

# ---- texts in tables ------------------------------------------------------------------------------------------------

_PLAIN = {'n': '\n', 'r': '\r', 't': '\t', '\\': '\\'}


def unescape(text):
    r"""The bytes of a text written on one line: `\n \r \t \\`, `\u{X}` a character, `\xHH` a byte, `\*N{..}` N times what
    the braces hold (its own `}` written `\u{7d}`). Any other backslash stands for itself. The reference reader reads them the
    same way; tools/oracle/escapes.tsv holds both to it."""
    out = bytearray()
    at = 0
    while at < len(text):
        if text[at] != '\\':
            out += text[at].encode()
            at += 1
            continue
        rest = text[at + 1:]
        if rest[:1] in _PLAIN and rest:
            out += _PLAIN[rest[0]].encode()
            at += 2
            continue
        found = re.match(r'u\{([0-9a-fA-F]+)\}', rest)
        code = int(found.group(1), 16) if found else 0xd800
        if code < 0xd800 or 0xe000 <= code < 0x110000:
            out += chr(code).encode()
            at += 1 + found.end()
            continue
        found = re.match(r'x([0-9a-fA-F]{2})', rest)
        if found:
            out.append(int(found.group(1), 16))
            at += 1 + found.end()
            continue
        found = re.match(r'\*([0-9]+)\{((?:[^\\}]|\\u\{[0-9a-fA-F]+\}|\\[^u])*)\}', rest)
        if found:
            out += unescape(found.group(2)) * int(found.group(1))
            at += 1 + found.end()
            continue
        out += b'\\'
        at += 1
    return bytes(out)


def escape(data):
    """A text on one line, as the reference reader writes it: `unescape` gives the bytes back."""
    names = {'\n': r'\n', '\r': r'\r', '\t': r'\t', '\\': r'\\'}
    out = []
    for c in data.decode(errors='surrogateescape'):
        if 0xdc80 <= ord(c) <= 0xdcff:
            out.append('\\x%02x' % (ord(c) - 0xdc00))
        else:
            out.append(names.get(c) or (c if ' ' <= c <= '~' else '\\u{%x}' % ord(c)))
    return ''.join(out)


# ---- the reference reader -------------------------------------------------------------------------------------------


def reference():
    """Where the reference reader is: $ORACLE, or built from tools/oracle. Leaves with status 2 where its source is absent."""
    if os.environ.get('ORACLE'):
        return os.environ['ORACLE']
    run = subprocess.run([os.path.join(ROOT, 'tools', 'reference'), '--build'], stdout=subprocess.PIPE, text=True)
    if run.returncode != 0:
        sys.exit(run.returncode)
    return run.stdout.strip()


# ---- the toolchain --------------------------------------------------------------------------------------------------


def toolchain():
    """The toolchain's folder."""
    try:
        return os.path.dirname(subprocess.check_output(['rt', 'doc'], text=True).strip())
    except OSError:
        sys.exit('rt is missing: install the Rattle toolchain and put its command rt on PATH')


def needs(text):
    """The crates of a crates.txt, in its order, with what each depends on."""
    found = {}
    for line in text.split('\n'):
        name, colon, rest = line.partition('#')[0].partition(':')
        if colon:
            found[name.split()[0]] = rest.split()
    return found


def check_over(repository, folder, name, uses, words=()):
    """Checks the crate `name` in `folder`, outside the repository, over the libraries that it uses: the repository's, as rt built them in its crates
    (crates/NAME/out), and the kit's. What the prover printed comes back. Holes are allowed, so that an unknown value or a goal can be asked for."""
    kit, crates = toolchain(), os.path.join(os.path.abspath(repository), 'crates')
    built = lambda library: os.path.join(crates, library, 'out', 'rlib', library + '.rlib')
    root = 'src/main.rt' if os.path.exists(os.path.join(folder, 'src', 'main.rt')) else 'src/lib.rt'
    command = [kit + '/bin/rattle', 'check', '--crate-name', name, root]
    for library in ['std', *uses]:
        if os.path.isdir(os.path.join(crates, library)):
            if not os.path.isdir(built(library)):
                sys.exit('no library of crate %s: run rt lib in crates/%s first' % (library, library))
            command += ['--extern', '%s=%s' % (library, built(library))]
        else:
            command += ['--extern', '%s=%s/rlibs/%s.rlib' % (library, kit, library)]
    for library in sorted(os.listdir(crates)):
        if os.path.isdir(built(library)):
            command += ['-L', 'dependency=' + os.path.dirname(built(library))]
    command += ['-L', 'dependency=%s/rlibs' % kit, '--antt-project', kit + '/rattle/logic/antt-project.json', '--logic-built', kit + '/logic_built', *words]
    return subprocess.run(command, cwd=folder, stdout=subprocess.PIPE, stderr=subprocess.STDOUT, text=True).stdout


def check_scratch(repository, folder, definitions):
    """Checks a crate of one file of definitions in `folder`, which uses the crates of the repository that they import from."""
    for part in ('src', 'specs'):
        os.makedirs(os.path.join(folder, part), exist_ok=True)
    open(os.path.join(folder, 'src', 'lib.rt'), 'w').close()
    with open(os.path.join(folder, 'specs', 'Lib.antt'), 'w') as file:
        file.write('pub mod E\n')
    with open(os.path.join(folder, 'specs', 'E.antt'), 'w') as file:
        file.write(definitions)
    named = sorted(set(re.findall(r'^use Rattle\.(\w+)\.', definitions, re.M)) - {'std'})
    return check_over(repository, folder, 'scratch', named, ['--jobs', '1', '--allow-holes'])


# ---- short output ---------------------------------------------------------------------------------------------------

_LONG = re.compile(r'(Rattle\.\w+\.(proofs|specs)\.(declared\.)?|lib\.(ListN|Seq|Dec)\.|mir\.(Val|Syntax)\.|'
                   r'Prim\.Native\.Nat\.|denote\.(Bor|Ref)\.|mathlib\.Core\.(List|Bool|Path|Logic)\.|borrow\.Table\.)')


def short(line, cut):
    """A line of the prover with short names, at most `cut` characters long."""
    line = _LONG.sub('', line)
    line = re.sub(r'(?:\.before){3,}', lambda m: '.before×%d' % m.group(0).count('.'), line)
    return line if len(line) <= cut else line[:cut] + ' ...'
