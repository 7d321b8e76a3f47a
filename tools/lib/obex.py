"""obex: packets, headers and tag lists of the object exchange protocol, as bytes. Every script of tools/ that makes packets imports them
from here, so that a packet's form is written once. Numbers go high-order byte first."""

# The operations by their first byte, as a final packet has it; FINAL off, the packet is one that another follows.
CONNECT, DISCONNECT, PUT, GET, SET_PATH, ACTION, SESSION, USER_DEFINED, ABORT = 0x80, 0x81, 0x82, 0x83, 0x85, 0x86, 0x87, 0x90, 0xFF
FINAL = 0x80
# The replies that the scripts write out, final as every reply is.
CONTINUE, SUCCESS = 0x90, 0xA0
# The header ids that have a name here.
NAME, TYPE, TARGET_ID, BODY, END_OF_BODY, WHO, LENGTH, CONNECTION_ID = 0x01, 0x42, 0x46, 0x48, 0x49, 0x4A, 0xC3, 0xCB
# The headers whose value is a tag list, and the ids that the original has a name for.
TAGGED = (0x4C, 0x4D, 0x4E, 0x52)
KNOWN_IDS = [0x01, 0x05, 0x15, 0x42, 0x44, 0x46, 0x47, 0x48, 0x49, 0x4A, 0x4C, 0x4D, 0x4E, 0x4F, 0x50, 0x51, 0x52,
             0x93, 0x94, 0x97, 0x98, 0xC0, 0xC3, 0xC4, 0xCB, 0xCF, 0xD6]
# The target of folder browsing, which every session here connects to.
TARGET = bytes.fromhex('f9ec7bc4953c11d2984e525400dc9e09')


def wide16(n):
    return bytes([n // 256 % 256, n % 256])


def long_header(id, value):
    """A header whose value has any length: its id, its own length in two bytes, the value."""
    return bytes([id]) + wide16(3 + len(value)) + value


def wide_header(id, number):
    """A header of four bytes."""
    return bytes([id]) + number.to_bytes(4, 'big')


def utf16(text, end=True):
    return text.encode('utf-16-be', 'surrogatepass') + (b'\0\0' if end else b'')


def name(text):
    return long_header(NAME, utf16(text))


def connection(number):
    return wide_header(CONNECTION_ID, number)


def tag(t, value):
    """One entry of a tag list."""
    return bytes([t, len(value)]) + value


def packet(first, rest=b'', length=None):
    """A packet of its first byte, its length and the rest: fields, if the operation has some, and headers. A length that is given is
    written instead of the true one, for packets that are wrong."""
    return bytes([first]) + wide16(3 + len(rest) if length is None else length) + rest


def fields_of(first):
    """How many bytes of fields an operation's packets have before their headers: Connect four, SetPath two."""
    return {0: 4, 5: 2}.get(first & 0x1F, 0) if first & 0x7F != 0x7F else 0


def connect_fields(limit):
    """A Connect's fields: version 1.0, no flags, the longest packet that its sender takes."""
    return b'\x10\0' + wide16(limit)


def connect(limit, *headers):
    """A Connect to the target, unless it is given other headers."""
    return packet(CONNECT, connect_fields(limit) + (b''.join(headers) if headers else long_header(TARGET_ID, TARGET)))


def set_path(flags, *headers):
    return packet(SET_PATH, bytes([flags, 0]) + b''.join(headers))
