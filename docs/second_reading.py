"""Second readings of Breakpad, GSYM and ELF files and of a process's texts, by FORMATS.md and DEFINITIONS.md: plain, slow, and
written apart from the crates. A reader takes bytes, the path that the answers name, and flags of the command line. It gives a
function from an address to the text of its answer."""
import os
import re
import struct

LAST_32, LAST_64 = 2**32 - 1, 2**64 - 1
UNKNOWN = b'? address not found in symbolization source\n'
MISSING = b'? symbolization source has no or no relevant symbols\n'
IGNORED = b'? an error occurred but was ignored in batch mode\n'
NO_OFFSET = b'? file offset does not map to a valid piece of code/data\n'
UNMAPPED = b'? absolute address not found in virtual memory map of process\n'
UNSUPPORTED = b'? address belongs to unsupported entity\n'

# What readers met of the rules that DIFFERENCES.md tells; who asks empties it before.
met = set()


class Refused(Exception):
    """Why a file, or an address, is refused."""


def check(passes, refusal='InvalidData'):
    if not passes:
        raise Refused(refusal)


def is_utf8(text):
    try:
        text.decode()
    except UnicodeDecodeError:
        return False
    return True


def covers(start, size, addr):
    if start + size > LAST_64:
        met.add('ends that may wrap')
    return start == addr if size == 0 else start <= addr < start + size <= LAST_64


def nearest(records, addr):
    """The record that answers, of records that begin with start and size."""
    below = [record for record in records if record[0] <= addr]
    if not below:
        return None
    start = max(record[0] for record in below)
    equals = [record for record in below if record[0] == start]
    tried = min(equals, key=lambda r: r[1]) if start == addr else max(reversed(equals), key=lambda r: r[1])
    return tried if covers(start, tried[1], addr) else None


def where(site):
    return b'%s:%d' % site if site else b'-'


def known(addr, name, start, size, module=None, site=None, calls=(), end=b''):
    """The text of a symbol; a site is a path and a line, a call a name and a site."""
    size = b'-' if size is None else b'0x%x' % size
    module = b'-' if module is None else module
    first = b'%s+0x%x start 0x%x size %s module %s at %s%s\n' % (name, addr - start, start, size, module, where(site), end)
    return first + b''.join(b'  %s at %s\n' % (name, where(at)) for name, at in calls)


def seen_from_outside(line, calls):
    """The site of the symbol's code and its calls, by the line's site and the sites where calls stand, the outermost first."""
    sites = [site for _, site in calls] + [line]
    return sites[0], [(name, site) for (name, _), site in zip(calls, sites[1:])]


def joined(directory, file):
    if directory is None or file.startswith(b'/'):
        return file
    return directory + (b'' if directory == b'' or directory.endswith(b'/') else b'/') + file


def live_pieces(path):
    """How far the text reaches up to the end of each piece that is neither empty nor a dot behind the first, and the piece."""
    pieces, end = [], -1
    for index, piece in enumerate(path.split(b'/')):
        end += 1 + len(piece)
        if piece and (piece != b'.' or index == 0):
            pieces.append((end, piece))
    return pieces


def path_of(name):
    """The joined path of a FILE record's directory and file."""
    pieces, root = live_pieces(name), b'/' if name.startswith(b'/') else None
    if not pieces:
        return root
    directory = name[: pieces[-2][0]] if len(pieces) > 1 else root
    return joined(directory, pieces[-1][1])


SEP, MSEP, GAP, WORD = rb'[ \t]+', rb' [ \t]*', rb'[ \t]*', rb'[^ \t][^ ]*'
HEX16, HEX8, DEC, NAME = rb'([0-9A-Fa-f]{1,16})', rb'([0-9A-Fa-f]{1,8})', rb'([0-9]{1,10})', rb'((?:[^ \t].*)?)'
RANGES = rb'((?:[ \t]+[0-9A-Fa-f]{1,16}[ \t]+[0-9A-Fa-f]{1,8})+)'
MARK = rb'(?:m[ \t]+)?'


def form(*pieces):
    return re.compile(b''.join(pieces), re.DOTALL).fullmatch


# Of each record its form, and what its fields are: hexadecimal, decimal, a name, or ranges.
TOP = {
    'MODULE': (form(b'MODULE', SEP, WORD, MSEP, WORD, MSEP, WORD, MSEP, NAME), 'n'),
    'INFO': (form(b'INFO', SEP, b'.*'), ''),
    'FILE': (form(b'FILE', SEP, DEC, SEP, NAME), 'dn'),
    'INLINE_ORIGIN': (form(b'INLINE_ORIGIN', SEP, DEC, SEP, NAME), 'dn'),
    'PUBLIC': (form(b'PUBLIC', SEP, MARK, HEX16, SEP, HEX8, SEP, NAME), 'hhn'),
    'FUNC': (form(b'FUNC', SEP, MARK, HEX16, SEP, HEX8, SEP, HEX8, SEP, NAME), 'hhhn'),
    'STACK WIN': (form(b'STACK WIN', SEP, b'.*'), ''),
    'STACK CFI INIT': (form(b'STACK CFI INIT', SEP, b'.*'), ''),
}
UNDER = {
    'FUNC': {
        'LINE': (form(HEX16, SEP, HEX8, SEP, DEC, SEP, DEC), 'hhdd'),
        'INLINE': (form(b'INLINE ', GAP, DEC, SEP, DEC, SEP, DEC, SEP, DEC, RANGES), 'ddddr'),
        'INLINE_ORIGIN': (form(b'INLINE_ORIGIN ', GAP, DEC, SEP, NAME), 'dn'),
    },
    'STACK CFI INIT': {'STACK CFI': (form(b'STACK CFI', SEP, b'.*'), '')},
}
FIELDS = {
    'h': lambda text: int(text, 16),
    'd': lambda text: int(text) if int(text) <= LAST_32 else None,
    'n': lambda text: text if is_utf8(text) else None,
    'r': lambda text: [int(number, 16) for number in text.split()],
}


def record_of(forms, body):
    for tag, (match, kinds) in forms.items():
        found = match(body)
        if found:
            fields = [FIELDS[kind](text) for kind, text in zip(kinds, found.groups())]
            if None not in fields:
                return tag, fields
    return None


def breakpad_records(data):
    """The records of a Breakpad file: tag, fields, and whether it stands under another."""
    check(data.endswith(b'\n'), 'InvalidInput')
    owner, free = None, False
    for line in data[:-1].split(b'\n'):
        text = line.lstrip(b' \t\r') if free else line
        if free and not text:
            continue
        body = text.rstrip(b'\r')
        inner = record_of(UNDER.get(owner, {}), body)
        record = inner or record_of(TOP, body)
        check(record and b'\r' not in body, 'InvalidInput')
        free = not inner
        owner = owner if inner else record[0]
        yield record[0], record[1], bool(inner)


def read_breakpad(data, path, flags):
    module, functions, publics, files, origins = None, [], [], {}, {}
    for index, (tag, fields, inner) in enumerate(breakpad_records(data)):
        if tag == 'MODULE':
            check(index == 0, 'InvalidInput')
            module = fields[0]
        elif tag == 'FILE':
            files[fields[0]] = fields[1]
        elif tag == 'INLINE_ORIGIN':
            origins[fields[0]] = fields[1]
        elif tag == 'PUBLIC':
            publics.append(fields)
        elif tag == 'FUNC':
            functions.append((fields[0], fields[1], fields[3], [], []))
        elif tag == 'LINE':
            functions[-1][3].append(fields)
        elif tag == 'INLINE':
            functions[-1][4].extend((start, size, *fields[:4]) for start, size in zip(fields[4][::2], fields[4][1::2]))

    def site(file, line):
        path = path_of(files[file]) if file in files else None
        check(path is not None, 'InvalidInput')
        return path, line

    def calls_around(calls, addr):
        around = []
        while True:
            tried = [call for call in calls if call[2] == len(around) and call[0] <= addr]
            call = max(reversed(tried), key=lambda c: c[0]) if tried else None
            if call and [other[0] for other in tried].count(call[0]) > 1:
                met.add('equal inlined calls at one depth')
            if not call or call[1] == 0 or not covers(call[0], call[1], addr):
                return around  # One of size 0 has nothing inside.
            around.append(call)

    def called(call):
        check(call[5] in origins, 'InvalidInput')
        return origins[call[5]], site(call[4], call[3])

    def answer(addr):
        if not functions and not publics:
            return MISSING
        function = nearest(functions, addr)
        if function:
            start, size, name, lines, calls = function
            line = nearest(lines, addr) if '--no-code-info' not in flags else None
            if not line:
                return known(addr, name, start, size, module)
            around = [] if '--no-inlined' in flags else [called(call) for call in calls_around(calls, addr)]
            return known(addr, name, start, size, module, *seen_from_outside(site(line[3], line[2]), around))
        below = [public for public in publics if public[0] <= addr]
        public = max(below, key=lambda p: p[0]) if below else None
        if not public or any(public[0] <= function[0] <= addr for function in functions):
            return UNKNOWN
        return known(addr, public[2], public[0], None, module, end=b' public')

    return answer


class Cursor:
    """Bytes that are read from the front. What is missing refuses the address."""

    def __init__(self, data):
        self.data, self.place = data, 0

    def number(self, width):
        self.place += width
        check(self.place <= len(self.data))
        return int.from_bytes(self.data[self.place - width : self.place], 'little')

    def leb(self, signed=False):
        value, count = 0, 0
        while True:
            byte = self.number(1)
            value |= (byte & 127) << 7 * count
            count += 1
            if byte < 128:
                break
        if signed and byte >= 64:
            value -= 1 << 7 * count
        if count > 10 or not (-(2**63) <= value < 2**63 if signed else value < 2**64):
            met.add('LEB128 past 64 bits')
            raise Refused('InvalidData')
        return value


def line_state(data, start, addr):
    """File and line of the state of a line table that answers for the address, or None."""
    front = Cursor(data)
    least, greatest, line = front.leb(signed=True), front.leb(signed=True), front.leb() % 2**32
    at, file, row = start, 1, None
    try:
        while operator := front.number(1):
            if operator == 1:
                file = front.leb() % 2**32
                continue
            if operator == 3:
                line = (line + front.leb(signed=True)) % 2**32
                continue
            if operator == 2:
                at = (at + front.leb()) % 2**64
            else:
                count = greatest - least + 1
                if count < 1:
                    met.add('a range of line deltas below one')
                    break
                line = (line + least + (operator - 4) % count) % 2**32
                at = (at + (operator - 4) // count) % 2**64
            if at > addr:
                return row
            row = file, line
    except Refused:
        pass
    return row and (file, line)


def inline_frames(data, start, addr):
    """Name, file and line of each function around the address, the outermost first."""
    front, frames, unsound = Cursor(data), [], []

    def read_node(base, is_read):
        """Reads a node with those in it; false where the count 0 stands in its place."""
        count = front.leb()
        ranges = [(base + front.leb(), front.leb()) for _ in range(count)]
        if not ranges:
            return False
        has_children, name, file, line = front.number(1), front.number(4), front.leb(), front.leb()
        if is_read and (file > LAST_32 or any(start + size > LAST_64 for start, size in ranges)):
            unsound.append(name)
        matches = is_read and any(start <= addr < start + size for start, size in ranges)
        if matches and name:
            frames.append((name, file, min(line, LAST_32)))
        while has_children and read_node(ranges[0][0], matches):
            pass
        return True

    read_node(start, True)
    check(not unsound)
    return frames


def read_gsym(data, path, flags):
    check(len(data) >= 48)
    magic, version, width, _, base, count, strings_at, strings_size = struct.unpack_from('<IHBBQIII', data)
    places_at = -(-(48 + count * width) // 4) * 4
    files_at = places_at + 4 * count
    check((magic, version) == (0x4753594D, 1) and files_at + 4 <= len(data) and strings_at + strings_size <= len(data))
    (file_count,) = struct.unpack_from('<I', data, files_at)
    check(files_at + 4 + 8 * file_count <= len(data))
    starts = []
    if width in (1, 2, 4, 8):
        starts = [int.from_bytes(data[48 + width * i : 48 + width * (i + 1)], 'little') for i in range(count)]
    if starts != sorted(starts):
        met.add('an address table that descends')
        raise Refused('InvalidData')
    strings = data[strings_at : strings_at + strings_size]

    def string(place, of_path=False):
        end = strings.find(b'\0', place)
        check(end >= 0)
        if of_path and not is_utf8(strings[place:end]):
            met.add('directories and files of any bytes')
        check(is_utf8(strings[place:end]))
        return strings[place:end]

    def site(index, line):
        check(index < file_count)
        directory, file = struct.unpack_from('<II', data, files_at + 4 + 8 * index)
        return joined(string(directory, of_path=True), string(file, of_path=True)), line

    def entries(place):
        while place + 8 <= len(data):
            kind, length = struct.unpack_from('<II', data, place)
            if kind == 0 or place + 8 + length > len(data):
                return
            yield kind, data[place + 8 : place + 8 + length]
            place += 8 + length

    def answer(addr):
        below = [start for start in starts if base + start <= addr]
        if not below:
            return UNKNOWN
        start = base + below[-1]
        index = starts.index(below[-1]) if start == addr else len(below) - 1
        (place,) = struct.unpack_from('<I', data, places_at + 4 * index)
        check(place + 8 <= len(data))
        size, name_at = struct.unpack_from('<II', data, place)
        if size and not covers(start, size, addr):
            return UNKNOWN
        name, line, frames = string(name_at), None, []
        if '--no-code-info' not in flags:
            for kind, text in entries(place + 8):
                if kind == 1 and not line:
                    line = line_state(text, start, addr)
                elif kind == 2 and not frames and '--no-inlined' not in flags:
                    frames = inline_frames(text, start, addr)
        if not line:
            return known(addr, name, start, size)
        calls = [(string(frame[0]), site(*frame[1:])) for frame in frames[1:]]
        name = string(frames[0][0]) if frames else name
        return known(addr, name, start, size, None, *seen_from_outside(site(*line), calls))

    return answer


class Elf:
    """The functions and load segments of an ELF file."""

    def __init__(self, data):
        check(len(data) >= 6 and data[:4] == b'\x7fELF')
        check(data[4:6] == b'\2\1', 'Unsupported')
        check(len(data) >= 64)
        programs, sections = struct.unpack_from('<QQ', data, 32)
        program_size, program_count, section_size, section_count = struct.unpack_from('<HHHH', data, 54)
        if program_count:
            check(program_count != 65535 and program_size == 56 and programs + 56 * program_count <= len(data))
        check(section_size == 64 and sections + 64 * section_count <= len(data) if section_count else sections == 0)
        heads = [struct.unpack_from('<IIQQQQ', data, programs + 56 * i) for i in range(program_count)]
        self.segments = [(offset, addr, size) for kind, _, offset, addr, _, size in heads if kind == 1]
        self.functions = []
        tables = [struct.unpack_from('<IIQQQQIIQQ', data, sections + 64 * i) for i in range(section_count)]
        table = next((t for kind in (2, 11) for t in tables if t[1] == kind), None)
        if not table:
            return
        check(table[4] + table[5] <= len(data) and table[9] == 24 and table[5] % 24 == 0)
        check(table[6] < len(tables))
        place, size = tables[table[6]][4:6]
        check(place + size <= len(data))
        strings = data[place : place + size]
        for at in range(table[4], table[4] + table[5], 24):
            name, info, _, section, start, size = struct.unpack_from('<IBBHQQ', data, at)
            if info % 16 in (2, 10) and section:
                end = strings.find(b'\0', name)
                check(end >= 0 and is_utf8(strings[name:end]))
                self.functions.append((start, size, strings[name:end]))

    def answer(self, addr, module):
        if not self.functions:
            return MISSING
        found = nearest(self.functions, addr)
        return known(addr, found[2], found[0], found[1] or None, module) if found else UNKNOWN

    def answer_at_offset(self, offset, module):
        held = next((s for s in self.segments if s[0] <= offset < s[0] + s[2]), None) if offset <= LAST_64 else None
        if not held or held[1] + offset - held[0] > LAST_64:
            return NO_OFFSET
        return self.answer(held[1] + offset - held[0], module)


def read_elf(data, path, flags):
    elf = Elf(data)
    return lambda addr: elf.answer(addr, path)


MAPPING = form(HEX16, b'-', HEX16, rb' +[^ ]{4} +', HEX16, rb' +[^ ]+ +[0-9]{1,20}(?: +([^ ].*)?)?')
PERF_LINE = form(rb'\+?([0-9A-Fa-f]+)[ \t\f]\+?([0-9A-Fa-f]+)[ \t\f](.*)')


def read_mappings(data):
    check(is_utf8(data))
    matches = [MAPPING(line) for line in data.split(b'\n') if line]
    check(all(match and int(match[1], 16) <= int(match[2], 16) for match in matches))
    check(matches, 'UnexpectedEof')
    return [(int(match[1], 16), int(match[2], 16), int(match[3], 16), match[4] or b'') for match in matches]


def read_perf_map(data):
    matches = [PERF_LINE(line) for line in re.split(rb'[\r\n]', data) if line]
    check(all(match and int(match[1], 16) <= LAST_64 and int(match[2], 16) <= LAST_64 and is_utf8(match[3]) for match in matches))
    return [(int(match[1], 16), int(match[2], 16), match[3]) for match in matches]


def read_status(data, pid):
    """The id by which the process knows itself."""
    check(is_utf8(data))
    line = next((line for line in data.split(b'\n') if line.startswith(b'NStgid:')), None)
    if line is None:
        return pid
    word = re.split(rb'[ \t\f\r]', line[7:].rstrip(b' \t\f\r'))[-1]
    check(re.fullmatch(rb'\+?[0-9]+', word) and int(word) <= LAST_32)
    return int(word)


def read_process(data, path, flags):
    """A process by the files in its folder, which is the path. `data` is its text of mappings."""
    mappings, folder = read_mappings(data), path.decode()
    pid = int(os.path.basename(folder))

    def file(name):
        try:
            with open(f'{folder}/{name}', 'rb') as opened:
                return opened.read()
        except FileNotFoundError:
            raise Refused('NotFound') from None

    def by_perf_map(addr):
        try:
            functions = read_perf_map(file(f'root/tmp/perf-{read_status(file("status"), pid)}.map'))
        except Refused as refused:
            if refused.args[0] == 'NotFound':
                return UNKNOWN
            raise
        found = nearest(functions, addr)
        return known(addr, found[2], found[0], found[1]) if found else UNKNOWN

    def answer(addr):
        start, end, offset, text = next((m for m in mappings if addr < m[1]), (LAST_64 + 1, 0, 0, b''))
        if start > addr:
            return UNMAPPED
        if not text:
            return by_perf_map(addr)
        if not text.startswith(b'/'):
            return UNSUPPORTED
        elf = Elf(file(f'map_files/{start:x}-{end:x}'))
        return elf.answer_at_offset(addr - start + offset, text.removesuffix(b' (deleted)'))

    return answer


READERS = {'breakpad': read_breakpad, 'gsym': read_gsym, 'elf': read_elf, 'process': read_process}


def answers(kind, data, path, flags, addrs):
    """The text of a batch of the addresses, and the texts of each alone."""
    try:
        reader = READERS[kind](data, path.encode(), flags)
    except Refused as refused:
        text = refusal(refused)
        return text, [text] * len(addrs)
    texts = [alone(reader, addr) for addr in addrs]
    batch = [b'0x%x: %s' % (addr, IGNORED) if text.startswith(b'refused') else text for addr, text in zip(addrs, texts)]
    return b''.join(batch), texts


def alone(reader, addr):
    try:
        return b'0x%x: %s' % (addr, reader(addr))
    except Refused as refused:
        return refusal(refused)


def refusal(refused):
    return b'refused: %s\n' % refused.args[0].encode()
