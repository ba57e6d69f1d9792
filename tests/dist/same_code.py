#!/usr/bin/env python3
"""same_code.py ONE.o OTHER.o: whether two object files have the same code: the same sections that are loaded, with the same bytes, the same
places to be filled in when linking, and the same functions for others to call. Also that only the functions of include/uplink.h are such, and
that the stack needn't be executable."""
import re, struct, sys

LOADED, RELOCATIONS, SYMBOLS = 2, 4, 2


def name_at(table, at):
    return table[at:table.index(b'\0', at)].decode()


class Object:
    def __init__(self, path):
        with open(path, 'rb') as file:
            self.whole = file.read()
        at, = struct.unpack_from('<Q', self.whole, 0x28)
        size, count, names = struct.unpack_from('<HHH', self.whole, 0x3a)
        self.heads = [struct.unpack_from('<IIQQQQIIQQ', self.whole, at + size * i) for i in range(count)]
        self.names = [name_at(self.bytes_of(names), head[0]) for head in self.heads]
        table = next(i for i, head in enumerate(self.heads) if head[1] == SYMBOLS)
        strings = self.bytes_of(self.heads[table][6])
        self.symbols = [(name_at(strings, s[0]), *s[1:]) for s in struct.iter_unpack('<IBBHQQ', self.bytes_of(table))]

    def bytes_of(self, section):
        return self.whole[self.heads[section][4]:self.heads[section][4] + self.heads[section][5]]

    def symbol(self, number):
        """A symbol's name, or where it has none the section that it stands for, and its place there."""
        name, _, _, section, value, _ = self.symbols[number]
        return name or self.names[section], value

    def code(self):
        """Every section that is loaded: its flags, its alignment and its bytes. Every place in it to be filled in: what by, and how."""
        found = {}
        for i, head in enumerate(self.heads):
            if head[2] & LOADED and head[5]:
                found[self.names[i]] = (head[2], head[8], self.bytes_of(i))
            elif head[1] == RELOCATIONS:
                fills = struct.iter_unpack('<QQq', self.bytes_of(i))
                found[self.names[i]] = [(at, how & 0xffffffff, self.symbol(how >> 32), more) for at, how, more in fills]
        return found

    def functions(self):
        """The functions that others can call."""
        return sorted(name for name, kind, _, section, _, _ in self.symbols if kind >> 4 == 1 and section)


def main(one, other):
    one, other = Object(one), Object(other)
    mine, others = one.code(), other.code()
    wrong = sorted(name for name in mine.keys() | others.keys() if mine.get(name) != others.get(name))
    if wrong:
        sys.exit('same_code: these sections differ: ' + ' '.join(wrong))
    with open('include/uplink.h', encoding='utf-8') as header:
        declared = sorted(set(re.findall(r'^uint64_t (uplink_\w+)\(', header.read(), re.M)))
    if not one.functions() == other.functions() == declared:
        sys.exit('same_code: the functions for others are not those of include/uplink.h: ' + ' '.join(one.functions()))
    if '.note.GNU-stack' not in other.names:
        sys.exit('same_code: the second has no .note.GNU-stack')
    print('same code: %d sections, %d bytes, %d functions' % (len(mine), sum(len(part[2]) for part in mine.values() if isinstance(part, tuple)), len(declared)))


main(*sys.argv[1:])
