"""Document 01's numbers, widths, places and limits as the specifications have them stand in include/abc.h, bindings/rust and bindings/c too, and so do the library's calls."""
import glob
import os
import re
import unittest

from support import ROOT, read

FILES = {
    'records': 'crates/reader/specs/Records.antt',
    'codes': 'crates/reader/specs/Codes.antt',
    'answer': 'crates/reader/specs/Answer.antt',
    'scan': 'crates/reader/specs/Scan.antt',
    'lines': 'crates/reader/specs/Lines.antt',
    'fields': 'crates/reader/specs/Fields.antt',
    'inline': 'crates/reader/specs/Inline.antt',
    'passes': 'crates/reader/specs/PassLists.antt',
    'tokens': 'crates/reader/specs/Tokens.antt',
    'sounds': 'crates/reader/specs/Sounds.antt',
    'lengths': 'crates/reader/specs/Lengths.antt',
    'notes': 'crates/standard/specs/Notes.antt',
    'packed': 'crates/abc/specs/Packed.antt',
    'bound': 'crates/bounds/proofs/Reading.antt',
    'played': 'crates/reading_played',
    'numbers': 'crates/refusals/specs/Numbers.antt',
    'library': 'crates/abc_c/src/lib.rt',
    'header': 'include/abc.h',
    'rust': 'bindings/rust/src/lib.rs',
    'views': 'bindings/rust/src/reading.rs',
    'refusals': 'bindings/rust/src/refusal.rs',
    'cargo': 'bindings/rust/Cargo.toml',
    'c': 'bindings/c/tally.c',
    'c played': 'bindings/c/played.c',
}

# The words of the header and of the crate for what the specifications name otherwise.
SAME = {
    'note': 'sounded', 'restz': 'rest', 'restx': 'invisiblerest', 'barrestz': 'barrest', 'barrestx': 'invisiblebarrest',
    'hiddenrest': 'invisiblerest', 'hiddenbarrest': 'invisiblebarrest',
    'begin': 'begins', 'continue': 'continues', 'end': 'ends', 'middleofword': 'middle',
    'voltabegins': 'begins', 'voltaends': 'ends', 'voltaalone': 'beginend',
    '8th': 'eighth', '16th': 'sixteenth', '32nd': 'thirtysecond', '64th': 'sixtyfourth', '128th': 'hundredtwentyeighth',
    'novoiceidentifier': 'novoiceid',
}


def text_of(path):
    """A file; of a crate's folder its code and definitions."""
    if os.path.isfile(os.path.join(ROOT, path)):
        return read(path)
    return ''.join(read(file) for part in ('src', 'specs') for file in sorted(glob.glob(os.path.join(ROOT, path, part, '*'))))


def plain(name):
    word = name.replace('_', '').lower()
    return SAME.get(word, word)


def number(text, pattern):
    found = re.findall(pattern, text, re.S)
    if len(found) != 1:
        raise AssertionError('%d places for %s' % (len(found), pattern))
    return int(found[0].replace('_', ''))


def between(text, start, end):
    return text[text.index(start):].partition(end)[0]


# ---- the specifications ---------------------------------------------------------------------------------------------


def codes(text, function):
    return {int(code): plain(name.rpartition('.')[2]) for name, code in re.findall(r'^%s ([\w.]+) = (\d+)$' % function, text, re.M)}


def places(text, function, pieces):
    """Where the pieces of a record begin, by the order in which its definition writes them."""
    body = between(text, '\n%s ' % function, '\n\n').partition('=')[2]
    found = sorted((body.index(mark), name, width) for name, (mark, width) in pieces.items())
    at, out = 0, {}
    for _, name, width in found:
        out[name] = at
        at += width
    out['end'] = at
    return out


def specified(t):
    records = t['records']
    facts = {'width of a ' + name: number(records, r'\n%s_width = (\d+)\n' % name) for name in ('measure', 'note', 'pitch', 'lyric')}
    facts['most bytes'] = number(t['answer'], r'\nmost_bytes = (\d+)\n')
    facts['scratch'] = re.findall(r'\nscratch_needed n = (\d+) \* \(n \+ (\d+)\)\n', t['answer'])
    facts['reading'] = number(t['bound'], r'pub never_16 : [^\n]* → (\d+) \* length text ≤ rl →')
    facts['refused bit'] = number(t['packed'], r'\nrefused_bit = (\d+)\n')
    facts['number unit'] = number(t['packed'], r'\nnumber_unit = (\d+)\n')
    for name in ('barline', 'kind', 'beam', 'syllabic', 'volta'):
        facts[name] = codes(t['codes'], name + '_code')
    facts['volta'].pop(0)
    facts['beam'][0] = 'none' if facts['beam'][0] == 'unbeamed' else facts['beam'][0]
    minor, major = re.findall(r'\nmode_code minor = cond minor (\d+) (\d+)\n', t['codes'])[0]
    facts['mode'] = {int(major): 'major', int(minor): 'minor'}
    facts['flags'] = {plain(name): int(bit) for name, bit in re.findall(r'bit \(?(?:f\.)?(\w+)(?: n\))? (\d+)', between(records, '\nflag_byte n', '\n\n'))}
    facts['flags']['unbeamed'] = facts['flags'].pop('isunbeamed')
    facts['measure'] = places(records, 'measure_bytes', {
        'counts': ('note_counts', 16), 'left': ('m.left', 1), 'right': ('m.right', 1), 'top': ('m.meter.0', 1), 'bottom': ('m.meter.1', 1),
        'key': ('key_mark_bytes', 2), 'volta': ('volta_code', 1), 'first pass': ('get_or', 1), 'passes': ('le32 (pass_bits', 4)})
    facts['note'] = places(records, 'note_bytes', {
        'kind': ('kind_code', 1), 'value': ('n.value', 1), 'dots': ('n.dots', 1), 'flags': ('flag_byte', 1), 'beam': ('beam_code', 1),
        'actual': ('.actual', 1), 'normal': ('.normal', 1), 'boundary': ('.boundary', 1), 'pitches': ('le32', 4)})
    facts['pitch'] = places(records, 'pitch_bytes', {'step': ('p.step', 1), 'octave': ('p.octave', 1), 'alter': ('p.alter', 1), 'cents': ('signed16', 2)})
    facts['lyric'] = places(records, 'lyric_bytes', {
        'note': ('le32 i', 4), 'verse': ('.verse', 1), 'syllabic': ('syllabic_code', 1), 'extend': ('.extend', 1), 'text': ('le32 (length', 4)})
    for name in ('measure', 'note', 'pitch', 'lyric'):
        facts['end of a ' + name] = facts[name].pop('end')
    facts['most lines'], facts['most notes'], facts['most voices'] = [number(t['scan'], r'\n%s = (\d+)\n' % name) for name in ('most_lines', 'most_notes', 'most_voices')]
    facts['longest line'] = number(t['lines'], r'ltb (\d+) \(length l\)\) \(refused 5\)')
    facts['last pass'] = number(t['passes'], r'\nis_pass n = leb 1 n && leb n (\d+)\n')
    facts['most slashes'] = number(t['lengths'], r'\nmany_slashes ed s = ltb (\d+) \(slashes ')
    shape, out, falls = [number(t['passes'], pattern) for pattern in (
        r'\ntested none = faulty (\d+)\n', r'elim \(all is_pass \(numbers_in is\)\) \[\s*\| false ↦ faulty (\d+)\n', r'elim \(rise \(numbers_in is\)\) \[ false ↦ faulty (\d+) \|')]
    facts['refusals of a pass list'] = {shape: 'passes', out: 'passrange', falls: 'passorder'}
    first, last = re.findall(r'\nbeamable k value = [^\n]*leb (\d+) value && leb value (\d+)', t['notes'])[0]
    facts['beamable'] = {int(first): 'eighth', int(last): 'hundredtwentyeighth'}
    told = set()
    for name in ('answer', 'scan', 'lines', 'fields', 'inline', 'passes', 'tokens', 'sounds'):
        told |= {int(n) for n in re.findall(r'\b(?:refused_with|refused|refuses|refuse|faulty|some) (\d+)\b', t[name])}
    # The code's own refusals, by name; those of the played list are told there.
    numbers = {name: int(n) for name, n in re.findall(r'^number_of (?:\w+\.)?(\w+) = (\d+)$', t['numbers'], re.M)}
    told |= {numbers[name] for name in re.findall(r'\bRefusal::(\w+)', t['played'])}
    facts['refused numbers'] = told
    facts['refusals'] = {n: plain(name) for name, n in numbers.items()}
    return facts


def calls(library):
    """The library's calls by name: parameters and result as its code has them."""
    found = re.findall(r'\n#\[unsafe\(no_mangle\)\]\npub extern "C" fn (\w+)\(([^)]*)\) -> (\w+)\s', library)
    return {name: ([tuple(word.strip() for word in parameter.split(':')) for parameter in words.split(',') if parameter.strip()], result) for name, words, result in found}


def in_c(call):
    """A call's prototype in C: a slice is a pointer and a length."""
    name, (parameters, result) = call
    kinds = {'&[u8]': 'const uint8_t *{0}, size_t {0}_len', '&mut [u8]': 'uint8_t *{0}, size_t {0}_len', 'u32': 'uint32_t {0}'}
    words = ', '.join(kinds[kind].format(word) for word, kind in parameters)
    return '%s %s(%s);' % ({'u64': 'uint64_t', 'bool': 'bool'}[result], name, words or 'void')


def in_ffi(call):
    """The same in Rust."""
    name, (parameters, result) = call
    kinds = {'&[u8]': '{0}: *const u8, {0}_len: usize', '&mut [u8]': '{0}: *mut u8, {0}_len: usize', 'u32': '{0}: u32'}
    return 'pub fn %s(%s) -> %s;' % (name, ', '.join(kinds[kind].format(word) for word, kind in parameters), result)


# ---- the doors ------------------------------------------------------------------------------------------------------


def enums(text):
    """The header's enums, each by its first name."""
    out = {}
    for body in re.findall(r'\benum \{([^}]*)\}', text):
        at, names = 0, {}
        for item in body.split(','):
            name, given, value = item.partition('=')
            at = int(value) if given else at
            names[at] = name.strip()
            at += 1
        out[min(names.items())[1]] = names
    return out


def stripped(names, prefix):
    return {at: plain(re.sub('^ABC_' + prefix, '', name)) for at, name in names.items()}


def in_header(t):
    h = t['header']
    facts = {'width of a ' + name: number(h, r'#define ABC_%s_BYTES (\d+)\n' % name.upper()) for name in ('measure', 'note', 'pitch', 'lyric')}
    facts['most bytes'] = number(h, r'#define ABC_MOST_BYTES \(\(size_t\)(\d+)\)')
    facts['scratch'] = re.findall(r'#define ABC_SCRATCH_BYTES\(n\) \(\(size_t\)(\d+) \* \(\(size_t\)\(n\) \+ (\d+)\)\)', h)
    facts['reading'] = number(h, r'#define ABC_READING_BYTES\(n\) \(\(size_t\)(\d+) \* \(size_t\)\(n\)\)')
    facts['list'] = re.findall(r'#define ABC_LIST_BYTES\(count\) \(\(size_t\)(\d+) \+ \(size_t\)(\d+) \* \(size_t\)\(count\)\)', h)
    facts['refused bit'] = 1 << number(h, r'#define ABC_REFUSED \(\(uint64_t\)1 << (\d+)\)')
    facts['number unit'] = 1 << number(h, r'#define ABC_REFUSAL\(answer\) \(\(unsigned\)\(\(\(answer\) >> (\d+)\) & 0xff\)\)')
    all_enums = enums(h)
    facts['barline'] = stripped(all_enums['ABC_BAR_NORMAL'], 'BAR_')
    facts['kind'] = stripped(all_enums['ABC_NOTE'], '')
    facts['beam'] = stripped(all_enums['ABC_BEAM_NONE'], 'BEAM_')
    facts['syllabic'] = stripped(all_enums['ABC_SINGLE'], '')
    facts['value'] = stripped(all_enums['ABC_LONGA'], '')
    facts['flags'] = {name: at for at, name in stripped(all_enums['ABC_TIE_START'], '').items()}
    facts['refusals'] = {int(at): plain(name) for name, at in re.findall(r'#define ABC_(\w+) (\d+) +/\*', h)}
    facts['version'] = '.'.join(re.findall(r'#define ABC_VERSION_(?:MAJOR|MINOR|PATCH) (\d+)', h))
    facts['mode'] = {int(at): word for at, word in re.findall(r'(\d) (major|minor)', between(h, 'key mark (', ')'))}
    return facts


def numbered(text, name):
    return {int(at): plain(word) for at, word in re.findall(r'^ +(\d+) (\w+) "', between(text, '    %s {\n' % name, '\n    }'), re.M)}


def in_rust(t):
    rust, views, refusals = t['rust'], t['views'], t['refusals']
    facts = {'width of a ' + name: number(views, r'\nconst %s: usize = (\d+);' % name.upper()) for name in ('measure', 'note', 'pitch', 'lyric')}
    facts['most bytes'] = number(rust, r'pub const MOST_BYTES: usize = ([\d_]+);')
    adds, times = re.findall(r'fn scratch_bytes\(n: usize\) -> usize \{\s*n\.saturating_add\((\d+)\)\.saturating_mul\((\d+)\)', rust)[0]
    facts['scratch'] = [(times, adds)]
    facts['reading'] = number(rust, r'fn reading_bytes\(n: usize\) -> usize \{\s*n\.saturating_mul\((\d+)\)')
    times, adds = re.findall(r'fn list_bytes\(count: usize\) -> usize \{\s*count\.saturating_mul\((\d+)\)\.saturating_add\((\d+)\)', rust)[0]
    facts['list'] = [(adds, times)]
    facts['refused bit'] = 1 << number(rust, r'if answer >> (\d+) == 0')
    facts['number unit'] = 1 << number(rust, r'Refusal::of\(\(answer >> (\d+)\) as u8, answer as u32\)')
    for name, case in (('barline', 'Barline'), ('kind', 'Kind'), ('beam', 'BeamState'), ('syllabic', 'Syllabic'), ('volta', 'VoltaKind'), ('mode', 'Mode'), ('value', 'Duration')):
        facts[name] = numbered(views, case)
    methods = {'tie_start': 'tiestart', 'tie_end': 'tieend', 'slur_start': 'slurstart', 'slur_end': 'slurend', 'is_grace': 'grace', 'explicit_unbeamed': 'unbeamed'}
    facts['flags'] = {name: number(views, r'pub fn %s\(&self\) -> bool \{\s*self\.byte\(3\) & (\d+) != 0' % method) for method, name in methods.items()}

    def at(function, pattern):
        return number(between(views, '    pub fn %s(' % function, '\n    }\n'), pattern)

    facts['measure'] = {
        'counts': 0 if '(0..4).map(|v| number(record, 4 * v)).sum()' in views else None,
        'left': at('barline_left', r'record\[(\d+)\]'), 'right': at('barline_right', r'record\[(\d+)\]'),
        'top': at('time_sig', r'numerator: self\.record\[(\d+)\]'), 'bottom': at('time_sig', r'denominator: self\.record\[(\d+)\]'),
        'key': at('key_sig', r'match self\.record\[(\d+)\]'), 'volta': at('volta', r'match self\.record\[(\d+)\]'),
        'first pass': at('volta', r'number: self\.record\[(\d+)\]'), 'passes': at('volta', r'number\(self\.record, (\d+)\)')}
    if at('key_sig', r'fifths: self\.record\[(\d+)\]') != facts['measure']['key'] + 1:
        facts['measure']['key'] = None
    facts['note'] = {
        'kind': at('kind', r'byte\((\d+)\)'), 'value': at('duration', r'byte\((\d+)\)'), 'dots': at('dot_count', r'byte\((\d+)\)'), 'flags': at('tie_end', r'byte\((\d+)\)'),
        'beam': at('beam', r'byte\((\d+)\)'), 'actual': at('tuplet', r'match self\.byte\((\d+)\)'), 'normal': at('tuplet', r'normal_notes: self\.byte\((\d+)\)'),
        'boundary': at('tuplet_boundary', r'byte\((\d+)\)'), 'pitches': number(between(views, '    fn split(', '\n    }'), r'number\(note, (\d+)\)')}
    pitch = between(views, 'impl Pitch {', '\n}')
    facts['pitch'] = {'step': number(pitch, r'Step::of\(p\[(\d+)\]\)'), 'octave': number(pitch, r'octave: p\[(\d+)\]'), 'alter': number(pitch, r'alter: p\[(\d+)\]'),
                      'cents': number(pitch, r'from_le_bytes\(\[p\[(\d+)\], p\[4\]\]\)')}
    lyric = between(views, "impl<'a> Lyric<'a> {", '\n}')
    facts['lyric'] = {'note': number(lyric, r'note: number\(record, (\d+)\)'), 'verse': number(lyric, r'verse: record\[(\d+)\]'),
                      'syllabic': number(lyric, r'Syllabic::of\(record\[(\d+)\]\)'), 'extend': number(lyric, r'extend: record\[(\d+)\]'),
                      'text': number(between(views, "impl<'a> Iterator for Lyrics<'a> {", '\n}'), r'number\(record, (\d+)\)')}
    facts['refusals'] = {int(n): plain(name) for n, name in re.findall(r' (\d+) => Self::(\w+)', refusals)}
    back = {int(n): plain(name) for name, n in re.findall(r'Self::(\w+)(?: \{ \.\. \})? => (\d+),', refusals) if n != '0'}
    facts['refusals both ways'] = facts['refusals'] == back
    facts['version'] = re.findall(r'^version = "([^"]+)"', t['cargo'], re.M)[0]
    return facts


def differences(t):
    """What the doors say otherwise than the specifications, or than one another."""
    spec, header, rust = specified(t), in_header(t), in_rust(t)
    out = []

    def same(what, a, b):
        if a != b:
            out.append('%s: %s, %s' % (what, a, b))

    for name, door in (('header', header), ('crate', rust)):
        for what in sorted(set(spec) & set(door)):
            same('%s, %s' % (name, what), spec[what], door[what])
        same(name + ', numbers of refusals', spec['refused numbers'], set(door['refusals']))
        same(name + ', refusals of a pass list', spec['refusals of a pass list'], {at: door['refusals'].get(at) for at in spec['refusals of a pass list']})
        for value, word in spec['beamable'].items():
            same('%s, value %d' % (name, value), word, door['value'].get(value))
    for what in ('refusals', 'value', 'version', 'list'):
        same('header and crate, ' + what, header[what], rust[what])
    for what, found, wanted in (('calls of the header', re.findall(r'^(\w+ abc_\w+\([^)]*\);)$', t['header'], re.M), in_c),
                                ('calls of the crate', re.findall(r'(pub fn abc_\w+\([^)]*\) -> \w+;)', t['rust']), in_ffi)):
        same(what, sorted(found), sorted(map(wanted, calls(t['library']).items())))
    same('crate, a refusal from its number and back', rust['refusals both ways'], True)
    for name in ('measure', 'note', 'pitch', 'lyric'):
        same('a %s is as long as its pieces' % name, spec['end of a ' + name], spec['width of a ' + name])
    for limit, words in ((spec['most bytes'], '{:,}'), (spec['most lines'], '{:,}'), (spec['longest line'], '{:,}'), (spec['most voices'] + 1, 'a {}rd voice'),
                         (spec['most notes'] + 1, 'the {:,}st note'), (spec['last pass'], '1 to {}'), (spec['most slashes'], 'more than {} slashes in a row')):
        for name in ('header', 'refusals'):
            if words.format(limit) not in t[name]:
                out.append('%s does not say %s' % (FILES[name], words.format(limit)))
    widths = {'ABC_MEASURE_BYTES', 'ABC_NOTE_BYTES', 'ABC_PITCH_BYTES', 'ABC_LYRIC_BYTES', 'ABC_READING_BYTES', 'ABC_SCRATCH_BYTES', 'ABC_MOST_BYTES'}
    for name, words in (('c', widths), ('c played', widths | {'ABC_LIST_BYTES', 'ABC_LIST_SHORT'})):
        code = re.sub(r'/\*.*?\*/', '', t[name], flags=re.S)
        if not words <= set(re.findall(r'\w+', code)):
            out.append(FILES[name] + ' does not go by the header')
        out += ['%s has the number %s of its own' % (FILES[name], found) for found in re.findall(r'(?<![\w.<])(28|12|11|5|19|20|23|32|256|67108864)\b', code)]
    major, minor, patch = map(int, header['version'].split('.'))
    same('version of the library', number(t['packed'], r'\nversion = (\d+)\n'), 1000000 * major + 1000 * minor + patch)
    return out


# A change in one place alone, which has to show.
SPOILED = [
    ('records', 'note_width = 12', 'note_width = 13'), ('records', 'm.left ∷ barline_code m.right', 'm.right ∷ barline_code m.left'),
    ('records', 'bit f.slur_start 4', 'bit f.slur_start 64'), ('codes', 'kind_code bar_rest = 3', 'kind_code bar_rest = 5'), ('answer', '32 * (n + 256)', '32 * (n + 128)'),
    ('answer', 'most_bytes = 67108864', 'most_bytes = 67108865'), ('scan', 'most_voices = 32', 'most_voices = 16'), ('answer', 'refused_with 16 0', 'refused_with 23 0'),
    ('passes', 'leb n 32', 'leb n 33'), ('passes', 'tested none = faulty 14', 'tested none = faulty 18'),
    ('passes', '| false ↦ faulty 17', '| false ↦ faulty 18'), ('bound', '→ 23 * length text ≤ rl', '→ 24 * length text ≤ rl'), ('packed', 'number_unit = 4294967296', 'number_unit = 65536'),
    ('header', 'ABC_PITCH_BYTES 5', 'ABC_PITCH_BYTES 6'), ('header', '#define ABC_MIDDLE 10', '#define ABC_MIDDLE 23'),
    ('header', 'ABC_BAR_DOUBLE, ABC_BAR_FINAL', 'ABC_BAR_FINAL, ABC_BAR_DOUBLE'), ('header', 'ABC_GRACE = 16', 'ABC_GRACE = 64'), ('header', '10,000th', '1,000th'),
    ('header', 'ABC_VERSION_MINOR 6', 'ABC_VERSION_MINOR 7'), ('header', 'ABC_PASS_RANGE 17', 'ABC_PASS_RANGE 14'), ('rust', '67_108_864', '67_108_863'), ('rust', 'saturating_mul(23)', 'saturating_mul(22)'),
    ('rust', 'answer >> 32', 'answer >> 33'), ('views', 'const LYRIC: usize = 11', 'const LYRIC: usize = 12'), ('views', 'self.byte(3) & 8', 'self.byte(3) & 4'),
    ('views', 'verse: record[4]', 'verse: record[5]'), ('views', '2 Minor "', '3 Minor "'), ('views', 'Barline::of(self.record[17])', 'Barline::of(self.record[16])'),
    ('refusals', '            9 => Self::TooManyVoices { line }', '            9 => Self::Middle { line }'), ('refusals', '17 => Self::PassRange', '17 => Self::PassOrder'),
    ('refusals', 'Self::PassOrder { .. } => 18', 'Self::PassOrder { .. } => 17'), ('refusals', '1,048,576', '1,048,575'),
    ('cargo', 'version = "0.6.0"', 'version = "0.6.1"'), ('packed', '\nversion = ', '\nversion = 9'), ('c', 'ABC_NOTE_BYTES', '12'),
    ('c played', 'ABC_LIST_BYTES', 'list_bytes'), ('c played', 'ABC_LIST_SHORT', '20'), ('header', 'ABC_LIST_SHORT 20', 'ABC_LIST_SHORT 19'), ('header', '(size_t)4 * (size_t)(count)', '(size_t)8 * (size_t)(count)'),
    ('header', 'size_t reading_len, uint32_t part, uint8_t *list', 'size_t reading_len, uint8_t *list'), ('header', 'bool abc_is_whole', 'int abc_is_whole'),
    ('rust', 'count.saturating_mul(4)', 'count.saturating_mul(8)'), ('rust', 'part: u32, list: *mut u8', 'part: u64, list: *mut u8'), ('rust', 'reading_len: usize) -> bool', 'reading_len: usize) -> u8'),
    ('refusals', '19 => Self::NoSuchPart', '19 => Self::ListShort'), ('library', 'fn abc_played(reading: &[u8], part: u32', 'fn abc_played(part: u32, reading: &[u8]'),
    ('library', 'fn abc_is_whole', 'fn abc_whole'), ('played', 'Refusal::ListShort', 'Refusal::Middle'), ('numbers', 'ListShort = 20', 'ListShort = 23'), ('numbers', 'NoMusic = 1', 'NoMusic = 2'), ('header', 'ABC_KEY_BEYOND 21', 'ABC_KEY_BEYOND 23'), ('refusals', '21 => Self::KeyBeyond', '21 => Self::Middle'), ('fields', '(some 21)', '(some 23)'),
    ('sounds', 'refused 22', 'refused 23'), ('lengths', 'ltb 31', 'ltb 32'), ('header', 'ABC_MANY_SLASHES 22', 'ABC_MANY_SLASHES 23'), ('header', '31 slashes', '32 slashes'), ('refusals', '22 => Self::ManySlashes', '22 => Self::Octave'),
    ('refusals', 'Self::ManySlashes { .. } => 22', 'Self::ManySlashes { .. } => 21'), ('refusals', '31 slashes', '32 slashes'),
    ('library', 'fn abc_parse_2_1', 'fn abc_parse_21'),
]


class Doors(unittest.TestCase):
    texts = {name: text_of(path) for name, path in FILES.items()}

    def test_the_doors_say_what_the_specifications_say(self):
        self.assertEqual(differences(self.texts), [])

    def test_a_change_in_one_place_shows(self):
        for name, old, new in SPOILED:
            with self.subTest(FILES[name] + ': ' + new):
                self.assertIn(old, self.texts[name])
                try:
                    found = differences(dict(self.texts, **{name: self.texts[name].replace(old, new)}))
                except (AssertionError, KeyError, ValueError, IndexError) as error:
                    found = [str(error)]
                self.assertTrue(found)

    def test_the_calls(self):
        self.assertEqual(set(calls(self.texts['library'])), {'abc_parse', 'abc_parse_2_1', 'abc_played', 'abc_is_whole', 'abc_version'})

    def test_twenty_two_refusals(self):
        self.assertEqual(specified(self.texts)['refused numbers'], set(range(1, 23)))


if __name__ == '__main__':
    unittest.main()
