#!/usr/bin/env python3
"""Holds the C header and the Rust crate to the library: each exported call and each struct that it hands over.

    python3 host/bindings.py

crates/host/src/lib.rt says what the calls are, the crates under crates/ what the structs are. Compared with them are
the calls of host/externals.h and host/rust/src/raw.rs (names, parameters in order with their names and types, results)
and the structs of host/externals.h and host/rust/src/types.rs (fields in order with their names and types, lengths of
arrays). Prints a line for each difference and ends with status 1; where all agree, the counts, and status 0.
"""
import re
import sys
from pathlib import Path
from typing import NamedTuple

HOST = Path(__file__).resolve().parent
CRATES = HOST.parent / 'crates'

# Structs whose names differ from the library's. Without a line here the C name is `ext_` and the words of that name.
C_NAMES = {
    'AnchorsCache': 'ext_cache',
    'AnchorsCacheTransaction': 'ext_transaction',
    'MempoolAnchor': 'ext_anchor',
    'ExternalKey': 'ext_key',
    'ShardIdent': 'ext_shard',
    'ExternalsPartitionRangeReaderState': 'ext_range_partition',
    'ExternalsRangeReaderState': 'ext_range',
    'ExternalsPartitionReaderState': 'ext_partition',
    'MsgsExecutionParams': 'ext_params',
    'ReadCounts': 'ext_counts',
    'FillState': 'ext_free_answer',
    'FlagAnswer': 'ext_flag',
}
RUST_NAMES = {
    'AnchorsCacheTransaction': 'Transaction',
    'ExternalsPartitionRangeReaderState': 'RangePartition',
    'ExternalsRangeReaderState': 'Range',
    'ExternalsPartitionReaderState': 'Partition',
    'MsgsExecutionParams': 'Params',
    'Externals': 'State',
    'ReadCounts': 'Counts',
    'FillState': 'FreeAnswer',
    'FlagAnswer': 'Flag',
}
# C has no field without a name: a struct of one number names its unit.
C_UNITS = {'ChainTime': 'ms', 'Seconds': 's'}
C_NUMBERS = {
    'uint8_t': 'u8',
    'uint16_t': 'u16',
    'uint32_t': 'u32',
    'uint64_t': 'u64',
    'int32_t': 'i32',
    'size_t': 'usize',
    'bool': 'bool',
}


class Call(NamedTuple):
    """Parameters are (name, type). Types are written as in Rust."""
    parameters: list
    result: str


class Found(NamedTuple):
    """What one side declares, by name. A struct is a list of (field, type)."""
    calls: dict
    structs: dict


def read(path):
    """A file's text without its comments."""
    text = path.read_text(encoding='utf-8')
    return re.sub(r'/\*.*?\*/|//[^\n]*', '', text, flags=re.S)


def parts(text):
    """What commas outside of brackets separate."""
    return [p.strip() for p in re.split(r',(?![^\[]*\])', text) if p.strip()]


def by_name(pairs, place, differences):
    """A dictionary; a name that comes twice is a difference."""
    found = {}
    for name, value in pairs:
        if name in found:
            differences.append(f'{place}: {name} is declared twice')
        found[name] = value
    return found


# ---- Rattle and Rust
def constants(text):
    return {n: v.replace('_', '') for n, v in re.findall(r'const (\w+): \w+ = ([\d_]+);', text)}


def in_scope(text):
    """The constants that a file declares, and those of other crates that it names by `use`."""
    found = constants(text)
    for crate, names in re.findall(r'use (\w+)::(\w+|\{[^}]*\});', text):
        path = CRATES / crate / 'src' / 'lib.rt'
        if path.exists():
            found.update((n, v) for n, v in constants(read(path)).items() if n in re.findall(r'\w+', names))
    return found


def sized(ty, known):
    """The type with each array's length as a number."""
    return re.sub(r'; (\w+)\]', lambda m: f'; {known.get(m.group(1), m.group(1))}]', ty)


def named(text, known):
    """`name: type` pairs, with the type's length as a number."""
    pairs = [re.sub(r'^pub ', '', p).split(': ', 1) for p in parts(text)]
    return [(name, sized(ty, known)) for name, ty in pairs]


def fields(body, known):
    """A struct's fields from its declaration; a tuple's are numbered."""
    if body.startswith('{'):
        return named(body[1:-1], known)
    types = [re.sub(r'^pub ', '', p) for p in parts(body[1:-1])]
    return [(str(i), sized(ty, known)) for i, ty in enumerate(types)]


STRUCT = r'pub struct (\w+)\s*(\{.*?\}|\(.*?\);)'


def structs_in(text, pattern):
    known = in_scope(text)
    return [(name, fields(body.rstrip(';'), known)) for name, body in re.findall(pattern, text, re.S)]


def lent(parameters):
    """Parameters as C and Rust see them: a slice is a pointer and a length, a reference a pointer."""
    for name, ty in parameters:
        kind = '*mut ' if ty.startswith('&mut ') else '*const '
        if ty.endswith('[u8]'):
            yield name, kind + 'u8'
            yield name + '_len', 'usize'
        else:
            yield name, re.sub(r'^&(mut )?', lambda m: kind, ty)


def used_in(calls, declared, differences):
    """The structs that the calls reach. One that is declared nowhere, or twice, is a difference."""
    wanted = [ty for call in calls.values() for _, ty in call.parameters + [('', call.result)]]
    structs = {}
    while wanted:
        for name in re.findall(r'\b[A-Z]\w*', wanted.pop()):
            if name in structs:
                continue
            found = [body for n, body in declared if n == name]
            if len(found) != 1:
                differences.append(f'crates: {name} with C layout is declared {len(found)} times')
            structs[name] = found[0] if found else []
            wanted += [ty for _, ty in structs[name]]
    return structs


def library(differences):
    """The library's own: the calls that crates/host exports, and the structs of any crate that they reach."""
    exported = r'pub extern "C" fn (\w+)\((.*?)\)(?: -> (\w+))?\s*(?:requires|ensures|\{)'
    found = re.findall(exported, read(CRATES / 'host' / 'src' / 'lib.rt'), re.S)
    calls = by_name([(n, Call(list(lent(named(p, {}))), r)) for n, p, r in found], 'lib.rt', differences)
    sources = sorted(CRATES.glob('*/src/**/*.rt'))
    declared = [s for path in sources for s in structs_in(read(path), r'#\[repr\(C\)\]\s*(?:#\[derive[^\n]*\n)*' + STRUCT)]
    return Found(calls, used_in(calls, declared, differences))


def rust(differences):
    """raw.rs has the calls, types.rs the structs; the structs inside `plain!` get their C layout there."""
    found = re.findall(r'pub fn (\w+)\((.*?)\)(?: -> (\w+))?;', read(HOST / 'rust/src/raw.rs'), re.S)
    calls = by_name([(n, Call(named(p, {}), r)) for n, p, r in found], 'raw.rs', differences)
    text = read(HOST / 'rust/src/types.rs')
    structs = by_name(structs_in(text, STRUCT), 'types.rs', differences)
    loose = re.sub(r'plain! \{\n.*?\n\}', '', text, flags=re.S)
    laid_out = re.findall(r'#\[repr\(C\)\]\n(?:#\[derive[^\n]*\n)*pub struct (\w+)', loose)
    for name, _ in re.findall(STRUCT, loose, re.S):
        if name not in laid_out:
            differences.append(f'types.rs: {name} has no C layout')
    return Found(calls, structs)


# ---- C
def c_declared(text, known):
    """`type a, *b, c[8]` as pairs of name and type."""
    form = re.fullmatch(r'(const )?(\w+)\s+(.*)', text.strip(), re.S)
    const, base, names = form.groups() if form else ('', '', text)
    base = C_NUMBERS.get(base, base)
    for declared in parts(names):
        pointer, name, length = re.fullmatch(r'(\**)\s*([^\[]*)(?:\[(.*)\])?', declared, re.S).groups()
        kind = pointer.replace('*', '*const ' if const else '*mut ')
        yield name, f'[{base}; {known.get(length, length)}]' if length else kind + base


def header(differences):
    text = read(HOST / 'externals.h')
    known = dict(re.findall(r'#define (\w+) (\d+)', text))
    structs = []
    for body, name in re.findall(r'typedef struct \{(.*?)\} (\w+);', text, re.S):
        structs.append((name, [d for line in body.split(';') if line.strip() for d in c_declared(line, known)]))
    calls = []
    for result, name, listed in re.findall(r'^(\w+) (\w+)\((.*?)\);', text, re.S | re.M):
        parameters = [d for p in parts(listed) if p != 'void' for d in c_declared(p, known)]
        calls.append((name, Call(parameters, C_NUMBERS.get(result, result))))
    return Found(by_name(calls, 'externals.h', differences), by_name(structs, 'externals.h', differences))


# ---- the library's declarations in each side's names
def c_name(name):
    return C_NAMES.get(name, 'ext' + re.sub(r'[A-Z]', lambda m: '_' + m.group().lower(), name))


def rust_name(name):
    return RUST_NAMES.get(name, name)


def said_by(own, name_of, units):
    """The library's calls and structs, with a struct's name by `name_of` and its only field by `units`."""
    def types(pairs):
        return [(name, re.sub(r'\b[A-Z]\w*', lambda m: name_of(m.group()), ty)) for name, ty in pairs]

    calls = {n: Call(types(c.parameters), types([('', c.result)])[0][1]) for n, c in own.calls.items()}
    structs = {}
    for name, body in own.structs.items():
        structs[name_of(name)] = types([(units.get(name, field), ty) for field, ty in body])
    return Found(calls, structs)


# ---- what differs
def in_turn(what, own, theirs):
    """The places of two lists of (name, type) that differ."""
    for i in range(max(len(own), len(theirs))):
        wanted = f'`{": ".join(own[i])}`' if i < len(own) else 'nothing'
        seen = f'`{": ".join(theirs[i])}`' if i < len(theirs) else 'nothing'
        if wanted != seen:
            yield f'{what} {i + 1} is {seen}, in the library {wanted}'


def by_key(place, own, theirs, compared):
    """Each name that only one side has, and what differs in those of both."""
    for name in [n for n in own if n not in theirs]:
        yield f'{place}: {name} is missing'
    for name in [n for n in theirs if n not in own]:
        yield f'{place}: {name} is not in the library'
    for name in [n for n in own if n in theirs]:
        for text in compared(own[name], theirs[name]):
            yield f'{place}: {name}: {text}'


def calls_differ(own, theirs):
    yield from in_turn('parameter', own.parameters, theirs.parameters)
    if own.result != theirs.result:
        yield f'the result is `{theirs.result}`, in the library `{own.result}`'


def structs_differ(own, theirs):
    return in_turn('field', own, theirs)


def main():
    differences = []
    own = library(differences)
    sides = [
        ('externals.h', 'externals.h', header(differences), said_by(own, c_name, C_UNITS)),
        ('raw.rs', 'types.rs', rust(differences), said_by(own, rust_name, {})),
    ]
    for calls, structs, found, wanted in sides:
        differences += by_key(calls, wanted.calls, found.calls, calls_differ)
        differences += by_key(structs, wanted.structs, found.structs, structs_differ)
    if differences:
        print('\n'.join(differences))
        return 1
    parameters = sum(len(c.parameters) for c in own.calls.values())
    all_fields = sum(len(s) for s in own.structs.values())
    counted = f'{len(own.structs)} structs with {all_fields} fields'
    print(f'{len(own.calls)} calls with {parameters} parameters and {counted} agree')
    return 0


if __name__ == '__main__':
    sys.exit(main())
