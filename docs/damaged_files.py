"""Small files of each format, made by chance, and damage to them."""
import re
import struct

from second_reading import LAST_32, LAST_64

EXTREMES = [0, 1, 2**31 - 1, 2**31, 2**32 - 1, 2**32, 2**63 - 1, 2**63, 2**64 - 16, 2**64 - 1, 2**64]
NAMES = [b'f', b'main', b'operator ()', b'a::b<c>', b'\xc3\xa9t\xc3\xa9', b'', b'x public', b'm', b'INLINE 0', b'\xe2\x82\xac']
PATHS = [b'a.c', b'/src/a.c', b'src/./b.c', b'/', b'.', b'a/', b'', b'//x//y', b'./c.c', b'\xc3\xa9/d.c', b'x/..']
SIZES = [0, 1, 4, 8, 16, 32, 48, 64, 256, LAST_32]


class Maker:
    """Makes files and damage by chance. Addresses are asked for near the starts of what it made, or near extreme numbers."""

    def __init__(self, chance):
        self.chance = chance
        self.starts, self.extremes = [0x1000], [0, LAST_64]

    def start(self, low=0x1000):
        start = low + 32 * self.chance.randrange(8)
        self.starts.append(start)
        return start

    def span(self, low, depth=0):
        """A start behind another, and a size that mostly is smaller the deeper it lies."""
        return low + 8 * self.chance.randrange(-1 if depth == 0 else 0, 4), self.one(SIZES + [64 - 8 * depth] * 8)

    def some(self, most, make):
        return [make() for _ in range(self.chance.randrange(most + 1))]

    def one(self, values):
        return self.chance.choice(values)

    def addrs(self):
        near = [self.starts] * 7 + [self.extremes]
        return [min(max(self.one(self.one(near)) + self.one([-1, 0, 0, 1, 7, 8, 15, 17, 24, 40]), 0), LAST_64) for _ in range(8)]

    # Breakpad.

    def breakpad(self):
        top = [
            lambda: [b'FILE %d %s' % (self.chance.randrange(4), self.one(PATHS))],
            lambda: [b'INLINE_ORIGIN %d %s' % (self.chance.randrange(4), self.one(NAMES))],
            lambda: [b'PUBLIC %s%x 0 %s' % (self.one([b'', b'', b'm ']), self.start(), self.one(NAMES))],
            lambda: [b'INFO CODE_ID 1'],
            lambda: [b'STACK CFI INIT 1000 10 .cfa: $rsp'] + self.some(2, lambda: b'STACK CFI 1001 .cfa: $rsp 16 +'),
            lambda: [b'STACK WIN 4 1000 10'],
            *[self.breakpad_function] * 5,
        ]
        lines = self.some(1, lambda: b'MODULE Linux x86_64 0 %s' % self.one(NAMES))
        lines += [b'FILE 0 a.c', b'INLINE_ORIGIN 0 g'] if self.chance.random() < 0.8 else []
        for _ in range(self.chance.randrange(8)):
            lines += self.one(top)()
            lines += self.some(1, lambda: self.one([b'', b' ', b'\t'])) if self.chance.random() < 0.1 else []
        end = self.one([b'\n', b'\n', b'\n', b'\r\n', b'\r\r\n'])
        return b''.join(line + end for line in lines)

    def breakpad_function(self):
        start, ids = self.start(), [0, 0, 0, 0, 1, 2]
        head = b'FUNC %s%x %x 0 %s' % (self.one([b'', b'', b'm ']), start, self.one(SIZES + [64] * 8), self.one(NAMES))

        def line():
            return b'%x %x %d %d' % (*self.span(start), self.chance.randrange(100), self.one(ids))

        def call():
            depth = self.chance.randrange(3)
            ranges = b''.join(b' %x %x' % self.span(start, depth) for _ in range(self.chance.randrange(1, 4)))
            return b'INLINE %d %d %d %d%s' % (depth, self.chance.randrange(50), self.one(ids), self.one(ids), ranges)

        inner = self.some(6, line) + self.some(6, call) + self.some(1, lambda: b'INLINE_ORIGIN %d h' % self.one(ids))
        self.chance.shuffle(inner)
        return [head, *inner]

    # GSYM.

    def leb(self, value, signed=False):
        text = b''
        while not (-64 <= value < 64 if signed else value < 128):
            text, value = text + bytes([value & 127 | 128]), value >> 7
        return text + bytes([value & 127])

    def line_table(self):
        least = self.chance.randrange(-8, 3)
        text = self.leb(least, True) + self.leb(least + self.chance.randrange(-1, 24), True) + self.leb(self.chance.randrange(300))
        operators = [
            lambda: b'\1' + self.leb(self.chance.randrange(4)),
            lambda: b'\2' + self.leb(self.chance.randrange(16)),
            lambda: b'\3' + self.leb(self.chance.randrange(-99, 99), True),
            lambda: bytes([self.chance.randrange(4, 256)]),
        ]
        text += bytes([4]) * self.one([0, 1, 1]) + b''.join(self.some(8, lambda: self.one(operators)()))
        return text + self.one([b'\0', b''])

    def inline_node(self, depth):
        ranges = [self.span(0, depth + 1) for _ in range(self.chance.randrange(1, 3))]
        text = self.leb(len(ranges)) + b''.join(self.leb(number) for each in ranges for number in each)
        children = self.some(2, lambda: self.inline_node(depth + 1)) if depth < 3 else []
        text += bytes([bool(children)]) + struct.pack('<I', self.one(self.places)) + self.leb(self.chance.randrange(4))
        return text + self.leb(self.chance.randrange(99)) + (b''.join(children) + b'\0' if children else b'')

    def gsym_data(self):
        data = struct.pack('<II', self.one(SIZES + [64] * 8), self.one(self.places))
        for kind in self.one([[], [1], [1, 2], [1, 2], [2, 1], [1, 2, 3, 1, 2]]):
            text = self.line_table() if kind == 1 else self.inline_node(0)
            data += struct.pack('<II', kind, len(text)) + text
        return data + b'\0' * 8

    def gsym(self):
        strings = b'\0' + b'\0'.join([b'main', b'src', b'a.c', b'sub', b'\xc3\xa9']) + b'\0'
        self.places = [0, 1, 1, 6, 6, 10, 14, 14, 18, 2]
        count, width = self.chance.randrange(1, 5), self.one([1, 2, 4, 8, 8, 4, 3])
        base = self.one([0x1000, 0, 2**64 - 0x200])
        offsets = sorted(self.start(0) for _ in range(count))
        self.starts += [base + offset for offset in offsets]
        files = [(0, 0)] + self.some(3, lambda: (self.one(self.places), self.one(self.places)))
        places_at = -(-(48 + count * width) // 4) * 4
        strings_at = places_at + 4 * count + 4 + 8 * len(files)
        places, data = [], b''
        for _ in range(count):
            data += b'\0' * (-(strings_at + len(strings) + len(data)) % 4)
            places.append(strings_at + len(strings) + len(data))
            data += self.gsym_data()
        head = struct.pack('<IHBBQIII20x', 0x4753594D, 1, width, 20, base, count, strings_at, len(strings))
        head += b''.join(offset.to_bytes(width, 'little') for offset in offsets)
        head = head.ljust(places_at, b'\0') + struct.pack(f'<{count}I', *places) + struct.pack('<I', len(files))
        return head + b''.join(struct.pack('<II', *file) for file in files) + strings + data

    # ELF.

    def elf(self):
        strings = b'\0f\0main\0\xc3\xa9\0'
        symbols = b'\0' * 24
        for _ in range(self.one(range(8))):
            name, info, section = self.one([1, 3, 8, 4]), self.one([0x12, 0x12, 2, 10, 1]), self.one([1, 1, 1, 1, 0])
            symbols += struct.pack('<IBBHQQ', name, info, 0, section, self.start(0x400000), self.one(SIZES + [32, 64] * 4))
        count = self.chance.randrange(1, 4)
        symbols_at = 64 + 56 * count
        strings_at = symbols_at + len(symbols)
        sections_at = strings_at + len(strings)
        head = struct.pack('<16sHHIQQQIHHHHHH', b'\x7fELF\2\1\1', 2, 62, 1, 0x400000, 64, sections_at, 0, 64, 56, count, 64, 3, 0)
        segments = [(1, 5, 0, 0x400000, 0, self.one([0x200, 0x80]), 0, 0)]
        segments += [(self.one([1, 2]), 4, 0x100 * i, 0x400000 + 0x1000 * i, 0, 0x100, 0, 0) for i in range(1, count)]
        sections = [(0, 0, 0, 0, 0, 0, 0, 0, 0, 0)]
        sections.append((0, self.one([2, 2, 11]), 0, 0, symbols_at, len(symbols), 2, 0, 8, 24))
        sections.append((0, 3, 0, 0, strings_at, len(strings), 0, 0, 1, 0))
        head += b''.join(struct.pack('<IIQQQQQQ', *segment) for segment in segments) + symbols + strings
        return head + b''.join(struct.pack('<IIQQQQIIQQ', *section) for section in sections)

    # Texts of processes.

    def process(self):
        """The files in a process's folder. Without an id in its status the perf map has no number yet."""
        lines, files, at = [], {}, 0x1000
        for _ in range(self.chance.randrange(1, 6)):
            at += 0x100 * self.one([0, 0, 0, 1, 2])
            end = at + 0x80 * self.chance.randrange(4)
            text = self.one([b'', b'', b' /bin/app', b' /bin/app (deleted)', b' [vdso]', b' /a b', b'   /\xc3\xa9', b' (deleted)'])
            lines.append(b'%x-%x r-xp %08x 08:01 11%s\n' % (at, end, self.one([0, 0, 0x10, 0x100]), text))
            self.starts += [at, at, at + 0x20, at + 0x40, end - 1]
            files[f'map_files/{at:x}-{end:x}'] = Maker(self.chance).elf() if text.startswith(b' /') else b''
            at = end
        ids = self.one([b'', b'NStgid:\t7\n', b'NStgid:\t9\t7\n', b'NStgid:\t9 8\t7\nNStgid:\t3\n'])
        functions = self.some(5, lambda: b'%x %x %s\n' % (self.start(), self.one(SIZES), self.one(NAMES)))
        status = b'Name:\tapp\n%sVmPeak:\t8 kB\n' % ids
        return {'maps': b''.join(lines), 'status': status, f'root/tmp/perf-{7 if ids else ""}.map': b''.join(functions), **files}

    # Damage.

    def damaged_text(self, text):
        kinds = [self.cut, self.flipped, *[self.with_lines_moved] * 2, *[self.with_number] * 2, self.with_byte]
        for _ in range(self.one([0, 1, 1, 1, 2, 3])):
            text = self.one(kinds)(text)
        return text

    def damaged_bytes(self, data):
        kinds = [self.cut, *[self.flipped] * 2, *[self.with_wide] * 3, self.with_part, self.with_byte]
        for _ in range(self.one([0, 1, 1, 2, 3, 5])):
            data = self.one(kinds)(data)
        return data

    def place(self, data):
        return self.chance.randrange(len(data) + 1)

    def cut(self, data):
        at = self.place(data)
        return data[: self.one([at, data.rfind(b'\n', 0, at) + 1])]

    def flipped(self, data):
        at = self.place(data)
        return data[:at] + bytes(byte ^ 1 << self.chance.randrange(8) for byte in data[at : at + 1]) + data[at + 1 :]

    def with_byte(self, data):
        at = self.place(data)
        text = self.one([b'', b' ', b'\t', b'\r', b'\n', b'm ', b'0', b'+', b'\0', b'\xff', b'\f'])
        return data[:at] + text + data[at + self.one([0, 1]) :]

    def with_lines_moved(self, text):
        lines = text.splitlines(keepends=True)
        if lines:
            one, other = self.chance.randrange(len(lines)), self.chance.randrange(len(lines))
            if self.chance.random() < 0.5:
                lines[one], lines[other] = lines[other], lines[one]
            else:
                lines.insert(one, lines[other])
        return b''.join(lines)

    def with_number(self, text):
        numbers = list(re.finditer(rb'[0-9a-f]+', text))
        if not numbers:
            return text
        number, extreme = self.one(numbers), self.one(EXTREMES)
        self.extremes.append(extreme)
        return text[: number.start()] + self.one([b'%x', b'%d', b'0%x', b'+%x']) % extreme + text[number.end() :]

    def with_wide(self, data):
        width = self.one([1, 2, 4, 8])
        at = self.place(data) // width * width
        number = self.one(EXTREMES + [len(data), len(data) - at, self.chance.randrange(256)]) % 256**width
        self.extremes.append(number)
        return (data[:at] + number.to_bytes(width, 'little') + data[at + width :])[: max(len(data), 1)]

    def with_part(self, data):
        one, other, size = self.place(data), self.place(data), self.chance.randrange(24)
        return data[:one] + data[other : other + size] + data[one + size :]
