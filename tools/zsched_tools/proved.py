"""Which programs are proved: those with a section that the proving build alone adds, of the checksum of what the system
loads of them. `strip` and packages keep it. A file without it, or with another sum, is unproved.

    proved.py FILE        ends with 0 if the file is proved, else with 1
    proved.py FILE COPY   stores a copy with the section of a program that was just proved and built"""
import hashlib
import os
import pathlib
import struct
import sys

SECTION = b".zsched.proved"
# Of ELF files of 64 bits: the places of the tables of segments and sections, with sizes and numbers; an entry of each.
_HEADER, _SEGMENT, _SECTION = struct.Struct("<32xQQ6xHHHHH"), struct.Struct("<I4xQ16xQ"), struct.Struct("<IIQQQQIIQQ")
_OFFSET, _SIZE = 4, 5


def _sections(data):
    """The sections, and the number of the one with their names."""
    if data[:6] != b"\x7fELF\x02\x01":
        raise ValueError("no ELF file of 64 bits")
    *_, at, _, _, size, number, names = _HEADER.unpack_from(data)
    return [_SECTION.unpack_from(data, at + size * it) for it in range(number)], names


def checksum(data):
    """The checksum of the segments that are loaded, and of their table, the kind of processor and the entry's address.
    The rest of the header says where the other parts of the file are, which `strip` moves."""
    at, _, size, number, *_ = _HEADER.unpack_from(data)
    total = hashlib.sha256(data[16:32] + data[at:at + size * number])
    for kind, begin, length in (_SEGMENT.unpack_from(data, at + size * it) for it in range(number)):
        total.update(data[max(begin, _HEADER.size):begin + length] if kind == 1 else b"")
    return total.hexdigest().encode()


def is_proved_program(data):
    """Whether the bytes of a file have the section, with their checksum."""
    try:
        sections, names = _sections(data)
        of_it = [it for it in sections if data.startswith(SECTION + b"\0", sections[names][_OFFSET] + it[0])]
        return [data[it[_OFFSET]:it[_OFFSET] + it[_SIZE]] for it in of_it] == [checksum(data)]
    except (ValueError, IndexError, OverflowError, struct.error):
        return False


def is_proved(path):
    """Whether a file can be read, and is a proved program."""
    try:
        return os.path.isfile(path) and is_proved_program(pathlib.Path(path).read_bytes())
    except OSError:
        return False


def marked(data):
    """The bytes of a program with the section. Its content, all names and the table of sections come to the end."""
    (sections, names), total = _sections(data), checksum(data)
    begin, size = sections[names][_OFFSET:_SIZE + 1]
    text = data[begin:begin + size] + SECTION + b"\0"
    sections[names] = (*sections[names][:_OFFSET], len(data) + len(total), len(text), *sections[names][_SIZE + 1:])
    sections.append((size, 1, 0, 0, len(data), len(total), 0, 0, 1, 0))
    data += total + text
    data += bytes(-len(data) % 8)
    header = data[:40] + struct.pack("<Q", len(data)) + data[48:60] + struct.pack("<H", len(sections))
    return header + data[62:] + b"".join(_SECTION.pack(*it) for it in sections)


def store(file, copy):
    """Stores a copy with the section of a program that was just proved and built, in one step."""
    place = pathlib.Path(copy)
    place.parent.mkdir(parents=True, exist_ok=True)
    new = place.with_name(f".{place.name}.{os.getpid()}")
    try:
        new.write_bytes(marked(pathlib.Path(file).read_bytes()))
        new.chmod(0o755)
        new.replace(place)
    finally:
        new.unlink(missing_ok=True)


if __name__ == "__main__":
    try:
        sys.exit(not is_proved(sys.argv[1]) if len(sys.argv) == 2 else store(*sys.argv[1:]))
    except (OSError, ValueError, struct.error) as fault:
        sys.exit(f"{sys.argv[1]}: {fault}")
