#!/usr/bin/env python3
"""Lists, for each point of docs/DESIGN-PASS.md, the places in crates/*/src that its patterns find.

    python3 tools/places.py [FOLDER]     FOLDER is the top of a checkout; here by default
    python3 tools/places.py --count [FOLDER]
"""
import glob, os, re, sys

CHECK = r'(?:None|Err\((?:[^()]|\([^()]*\))*\)|Ok\(None\))'

PATTERNS = {
    '1': [
        ('own enum with the cases of a Result', r'enum \w+ \{\s*Done\(Done\),\s*NotDone\(NotDone\),\s*\}'),
        ('an Option or Result handed on by hand', r'let (?:Some|Ok)\([^=]*?\) = [^;]*?else \{\s*return ' + CHECK + r';\s*\}'),
        ('a match that hands on None or Err', r'None => (?:None|Ok\(None\))(?:,|\n)|Err\((\w+)\) => (?:return )?Err\(\1\)'),
        ('an error as an Option', r'-> Option<\w*Error>|Some\((?:error|e)\) = [^{]*\{\s*return Err'),
        ('an Option in a Result for an error', r'-> Result<Option<Opened>'),
        ('a flag beside a value', r'\n    (?:pub )?(?:closed|ended|held|lost|found|has_\w+|is_\w+): bool,'),
        ('a number for a refusal', r'const (?:SPENT_IDS|NO_BYTES|NOT_MADE)\b[^;]*;|(?:Denied|NotCreated|NotReturned)\(u64\)|Denied\(\d[^)]*\)'),
        ('a number for a kind', r'\n    (?:pub )?allocator_id: u8,|allocator_id: u8\b(?=[,)])'),
        ('a number that stands for nothing', r'fn bucket\(&self\) -> u32|bucket_size: u32,'),
    ],
    '2': [
        ('fn number(&self) of a denial', r'\n    (?:pub )?fn number\(&self\) -> u8\s*(?:ensures|\{)'),
        ('number of an answer, or 0', r'fn (?:unmade|untouched|denial|denial_of_\w+)\('),
        ('fn write_* of a denial', r'fn write_(?:refused|not_made|not_opened|no_access)\b'),
        ('a store whose calls hand on to a table', r'self\.table\.(?:open|withdraw|close|read|write|is_named|payload_size|is_empty)\((?:name|handle|handle, from, \w+)?\)\n'),
        ('a text of at most so many bytes', r'bytes: \[u8; (?:24|32)\],'),
        ('every mapped place is told the store', r'fn (?:close_all|withdraw_all)\b'),
        ('readers and words of one shape', r'fn (?:read_frames|read_span|is_ok|is_denied|read_kind|read_strategy)\b'),
    ],
    '3': [
        ('a for over a range', r'\bfor \w+ in [^{]*\.\.[^{]*\{'),
        ('a for with enumerate', r'\bfor \([^)]*\) in [^{]*enumerate\(\) \{'),
        ('a while', r'\bwhile [^{]*\{'),
        ('a count by hand', r'let mut (?:\w+) = (?:0|0\w+|None);'),
        ('a for that a method replaces', r'\bfor \w+ in [^{]*\{\s*if [^{]*\{\s*(?:return|found = |mapped \+= )'),
    ],
    '4': [
        ('numbers of two values compared', r'\.(?:value|as_value)\(\) (?:==|!=) \w+[\w.()]*\.(?:value|as_value)\(\)'),
        ('a conversion by a method', r'fn (?:validated|from_value|as_value|number\(word|read_kind\(word|read_strategy\(word|push_decimal)\b'),
        ('impl Default, Debug or Display', r'impl (?:fmt::)?(?:Default|Debug|Display) for'),
        ('fields copied one by one', r'handle: self\.handle,\s*address: self\.address,'),
    ],
    '5': [
        ('an offset and its grant', r'offset: PointerOffset,\s*grant: u64\b'),
        ('an opened segment and its bucket size', r'opened: Opened,\s*bucket_size: u32\b'),
        ('a start and a size', r'start: u32,\s*size: u32\b'),
        ('the words of a call and of its answer', r'call: &\[&str\],\s*answer: &\[&str\]'),
        ('that a viewer is open', r'requires still_open'),
        ('that an address is low', r'(?:requires|requires low|ghost low:) \{ (?:opened|segment)\.address < 2'),
    ],
    '6': [
        ('a buffer with a length beside', r'\w+: \[[^\]]*; \w+\],\s*(?:len|depth): \w+|(?:len|depth): \w+,\s*free: \[[^\]]*\]'),
        ('a search by hand', r'while low < high'),
        ('elements moved by hand', r'entries\[i\] = entries\[i \+ 1\]'),
    ],
    '7': [
        ('a call matched twice', r'fn on_segment\(&mut self, handle: u16, call: Call'),
        ('what runs at each place, by name', r'fn (?:close_all|withdraw_all)\b'),
        ('a counter picked by a match', r'count\(&mut self\.\w+\),'),
    ],
}


def places(top):
    for path in sorted(glob.glob(os.path.join(top, 'crates/*/src/**/*.rt'), recursive=True)):
        with open(path, encoding='utf-8') as f:
            text = f.read()
        for point, patterns in PATTERNS.items():
            for what, pattern in patterns:
                for m in re.finditer(pattern, text):
                    at = m.start() + (1 if m.group().startswith('\n') else 0)
                    yield point, what, os.path.relpath(path, top), text.count('\n', 0, at) + 1


def main(args):
    count = '--count' in args
    rest = [a for a in args if a != '--count']
    top = rest[0] if rest else os.path.join(os.path.dirname(os.path.abspath(__file__)), '..')
    found = list(places(top))
    for point, patterns in PATTERNS.items():
        print(f'point {point}: {sum(1 for f in found if f[0] == point)}')
        for what, _ in patterns:
            here = [f'{f[2]}:{f[3]}' for f in found if f[0] == point and f[1] == what]
            print(f'  {len(here):3} {what}')
            if not count:
                for place in here:
                    print(f'        {place}')


if __name__ == '__main__':
    main(sys.argv[1:])
