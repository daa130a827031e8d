"""Custom dictionaries for tests/interop: the items as another program reads them, and a dictionary made of items."""
UINT32, UINT64, BOOL, INT32, INT64, STRING, BYTES = 0x04, 0x05, 0x08, 0x0C, 0x0D, 0x18, 0x42
NUMBERS = {UINT32: (4, False), UINT64: (8, False), INT32: (4, True), INT64: (8, True)}


def items(dictionary):
    """The type, name and value of each item, as bytes."""
    found, at = [], 2
    while at < len(dictionary) - 1:
        type_, name_at = dictionary[at], at + 5
        value_at = name_at + int.from_bytes(dictionary[at + 1 : name_at], "little") + 4
        at = value_at + int.from_bytes(dictionary[value_at - 4 : value_at], "little")
        found.append((type_, dictionary[name_at : value_at - 4], dictionary[value_at:at]))
    return found


def sized(bytes_):
    return len(bytes_).to_bytes(4, "little") + bytes_


def dictionary_of(found):
    """The dictionary of such items: no bytes where there are none."""
    body = b"".join(bytes([type_]) + sized(name) + sized(value) for type_, name, value in found)
    return b"\x00\x01" + body + b"\x00" if found else b""


def without_empty(dictionary):
    """A dictionary without the items whose values are empty."""
    return dictionary_of([item for item in items(dictionary) if item[2]])


def text_of(type_, value):
    """A value as file_kdbx.pl says it."""
    if type_ in NUMBERS:
        return str(int.from_bytes(value, "little", signed=NUMBERS[type_][1]))
    if type_ == BOOL:
        return "true" if value[0] else "false"
    return value.decode("utf-8" if type_ == STRING else "latin-1")


def as_read(dictionary):
    """The values by name, as file_kdbx.pl says them."""
    return {name.decode(): text_of(type_, value) for type_, name, value in items(dictionary)}


def number(type_, value):
    size, signed = NUMBERS[type_]
    return value.to_bytes(size, "little", signed=signed)
