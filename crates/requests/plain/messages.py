"""The kernel's requests and the replies to them, as linux/fuse.h lays them out (protocol 7.31)."""

import struct

# Of each opcode its name and the fields of its body: `NAME:BYTES` a number, `NAME:text` bytes up to a zero byte, `bytes` as many as `size`
# says, `forgets` pairs of a node and a count, as many as `count` says, and `rest` anything. `_` is a field that nobody reads.
TRANSFER = 'handle:8 offset:8 size:4 transfer_flags:4 _:8 flags:4 _:4'
RELEASE = 'handle:8 flags:4 release_flags:4 _:8'
BODIES = {
    1: ('LOOKUP', 'name:text'),
    2: ('FORGET', 'lookups:8'),
    3: ('GETATTR', 'flags:4 _:4 handle:8'),
    4: ('SETATTR', 'valid:4 _:4 handle:8 size:8 _:8 atime:8 mtime:8 ctime:8 atime_ns:4 mtime_ns:4 ctime_ns:4 mode:4 _:4 uid:4 gid:4 _:4'),
    5: ('READLINK', ''),
    6: ('SYMLINK', 'name:text target:text'),
    8: ('MKNOD', 'mode:4 device:4 umask:4 _:4 name:text'),
    9: ('MKDIR', 'mode:4 umask:4 name:text'),
    10: ('UNLINK', 'name:text'),
    11: ('RMDIR', 'name:text'),
    12: ('RENAME', 'new_parent:8 name:text new_name:text'),
    13: ('LINK', 'file:8 name:text'),
    14: ('OPEN', 'flags:4 open_flags:4'),
    15: ('READ', TRANSFER),
    16: ('WRITE', TRANSFER + ' bytes'),
    17: ('STATFS', ''),
    18: ('RELEASE', RELEASE),
    20: ('FSYNC', 'handle:8 flags:4 _:4'),
    25: ('FLUSH', 'handle:8 _:4 _:4 _:8'),
    26: ('INIT', 'major:4 minor:4 max_readahead:4 flags:4 rest'),
    27: ('OPENDIR', 'flags:4 open_flags:4'),
    28: ('READDIR', TRANSFER),
    29: ('RELEASEDIR', RELEASE),
    30: ('FSYNCDIR', 'handle:8 flags:4 _:4'),
    34: ('ACCESS', 'mask:4 _:4'),
    35: ('CREATE', 'flags:4 mode:4 umask:4 open_flags:4 name:text'),
    36: ('INTERRUPT', 'unique:8'),
    38: ('DESTROY', ''),
    41: ('NOTIFY_REPLY', '_:8 offset:8 size:4 _:4 _:8 _:8 rest'),
    42: ('BATCH_FORGET', 'count:4 _:4 forgets'),
    44: ('READDIRPLUS', TRANSFER),
    45: ('RENAME2', 'new_parent:8 flags:4 _:4 name:text new_name:text'),
    46: ('LSEEK', 'handle:8 offset:8 whence:4 _:4'),
}
# Names of others that a kernel sends.
OTHERS = {21: 'SETXATTR', 22: 'GETXATTR', 23: 'LISTXATTR', 24: 'REMOVEXATTR', 31: 'GETLK', 39: 'IOCTL', 43: 'FALLOCATE',
          47: 'COPY_FILE_RANGE', 50: 'SYNCFS', 51: 'TMPFILE', 52: 'STATX'}
OPCODES = {name: opcode for opcode, (name, _) in BODIES.items()} | {name: opcode for opcode, name in OTHERS.items()}
SILENT = ('FORGET', 'BATCH_FORGET', 'INTERRUPT', 'NOTIFY_REPLY')
IN_OCTAL = ('mode', 'umask', 'flags', 'valid')
HEAD = struct.Struct('<IIQQIIII')
FOREVER = 1000000000
BLOCK = 4096

# Bits of `valid` in SETATTR.
MODE, UID, GID, SIZE, ATIME, MTIME, ATIME_NOW, MTIME_NOW = 1, 2, 4, 8, 16, 32, 128, 256


class Request:
    """A request: its head, and the fields of its body."""

    def __init__(self, opcode, unique, node, uid, gid, fields):
        self.opcode, self.unique, self.node, self.uid, self.gid = opcode, unique, node, uid, gid
        self.fields = fields
        self.name = BODIES[opcode][0] if opcode in BODIES else None


def unique_of(message):
    """The number of what may be no request; None where it has no whole head."""
    return HEAD.unpack_from(message)[2] if len(message) >= HEAD.size else None


def read(message):
    """The request that a message is; None where it is none."""
    if len(message) < HEAD.size:
        return None
    length, opcode, unique, node, uid, gid, _, _ = HEAD.unpack_from(message)
    if length != len(message):
        return None
    fields = read_body(opcode, message[HEAD.size:])
    return None if fields is None else Request(opcode, unique, node, uid, gid, fields)


def read_body(opcode, body):
    """The fields of a body; None where it isn't one of this opcode's. Of other opcodes no body is read."""
    if opcode not in BODIES:
        return {}
    fields = {}
    for name, kind in layout(opcode):
        value, body = read_field(kind, body, fields)
        if value is None:
            return None
        fields[name] = value
    return None if body else fields


def layout(opcode):
    """Names and kinds of an opcode's fields."""
    return [(word.split(':') * 2)[:2] for word in BODIES[opcode][1].split()]


def read_field(kind, body, fields):
    """The value at a body's beginning, and what stands behind it."""
    if kind == 'text':
        text, end, body = body.partition(b'\0')
        return (text if end else None), body
    if kind == 'rest':
        return body, b''
    count = {'bytes': fields.get('size', 0), 'forgets': 16 * fields.get('count', 0)}.get(kind)
    if count is None:
        count = int(kind)
        return (int.from_bytes(body[:count], 'little') if len(body) >= count else None), body[count:]
    if len(body) < count:
        return None, body
    return (body[:count] if kind == 'bytes' else list(struct.iter_unpack('<QQ', body[:count]))), body[count:]


def asked(kind, number, node, /, user=0, group=0, process=77, **fields):
    """The bytes of a request of this name and number; fields that aren't given are 0."""
    body = b''
    for field, form in layout(OPCODES[kind]) if OPCODES[kind] in BODIES else []:
        value = fields.get(field, 0)
        if form == 'text':
            body += value + b'\0'
        elif form in ('bytes', 'rest'):
            body += value or b''
        elif form == 'forgets':
            body += b''.join(struct.pack('<QQ', *pair) for pair in value or [])
        else:
            body += value.to_bytes(int(form), 'little')
    return HEAD.pack(HEAD.size + len(body), OPCODES[kind], number, node, user, group, process, 0) + body


def told_of(message):
    """A line that reads a message."""
    if len(message) < HEAD.size:
        return 'no whole head: %d bytes' % len(message)
    length, opcode, unique, node, uid, gid, process, _ = HEAD.unpack_from(message)
    name = BODIES[opcode][0] if opcode in BODIES else OTHERS.get(opcode, 'OPCODE %d' % opcode)
    text = '%s %d of node %s' % (name, unique, shown_node(node))
    if process:
        text += ', by user %d, group %d' % (uid, gid)
    if length != len(message):
        return '%s: of %d bytes, it says, and has %d' % (text, length, len(message))
    fields = read_body(opcode, message[HEAD.size:])
    if fields is None:
        return '%s: a body of %d bytes that is none of it' % (text, len(message) - HEAD.size)
    shown = [shown_field(field, value) for field, value in fields.items() if is_told(fields, field, value)]
    return text + (': ' + ', '.join(shown) if shown else '')


def shown_node(node):
    """A node with its generation apart."""
    return '%d' % node if node < 2 ** 32 else '%d.%d' % (node >> 32, node & 0xffffffff)


def is_told(fields, field, value):
    """Whether a reader wants to see a field: numbers that aren't 0, and those that are asked for."""
    if field in ('_', 'rest', 'count') or field in ('atime_ns', 'mtime_ns', 'ctime_ns'):
        return False
    return field in ('offset', 'size') and 'valid' not in fields or value != 0


def shown_field(field, value):
    """A field with its name."""
    name = field.replace('_', ' ')
    if field == 'forgets':
        return ', '.join('node %s %d times' % (shown_node(node), count) for node, count in value)
    if field in ('new_parent', 'file'):
        return '%s node %s' % (name, shown_node(value))
    if isinstance(value, bytes):
        shown = repr(value)[1:].strip("'\"")
        return '%s %s' % (name, shown if len(shown) <= 60 else '%s.. (%d bytes)' % (shown[:50], len(value)))
    return '%s %s' % (name, '0%o' % value if field in IN_OCTAL else value)


# Replies


def reply(unique, body=b''):
    """The reply that a request was done."""
    return struct.pack('<IiQ', 16 + len(body), 0, unique) + body


def error(unique, number):
    """The reply that a request failed."""
    return struct.pack('<IiQ', 16, -number, unique)


def attributes(inode, size, blocks, marks, mode, links):
    """`struct fuse_attr`."""
    times = [marks.atime, marks.mtime, marks.ctime]
    return struct.pack('<QQQQQQIIIIIIIIII', inode, size, blocks, *[seconds for seconds, _ in times],
                       *[nanoseconds for _, nanoseconds in times], mode, links, marks.uid, marks.gid, 0, BLOCK, 0)


def entry(node, generation, told):
    """`struct fuse_entry_out`. The kernel may keep name and attributes for as long as it likes."""
    return struct.pack('<QQQQII', node, generation, FOREVER, FOREVER, 0, 0) + told


def no_entry():
    """The entry of a name that isn't there, which the kernel may keep too."""
    return struct.pack('<QQQQII', 0, 0, FOREVER, 0, 0, 0) + bytes(88)


def told_attributes(told):
    """`struct fuse_attr_out`."""
    return struct.pack('<QII', FOREVER, 0, 0) + told


def opened(handle, flags):
    """`struct fuse_open_out`."""
    return struct.pack('<QII', handle, flags, 0)


def listed(inode, offset, kind, name):
    """`struct fuse_dirent`."""
    return struct.pack('<QQII', inode, offset, len(name), kind) + name + bytes(-len(name) % 8)


def agreed(max_readahead, flags):
    """`struct fuse_init_out`: writes of 1 MiB, 256 pages, 16 requests in the background and 12 before the kernel waits."""
    return struct.pack('<IIIIHHIIH', 7, 31, max_readahead, flags, 16, 12, 1048576, 1, 256) + bytes(34)


def usage(blocks, free, files, free_files):
    """`struct fuse_statfs_out`."""
    return struct.pack('<QQQQQIII', blocks, free, free, files, free_files, BLOCK, 255, BLOCK) + bytes(28)


# A server's question


def retrieval(node):
    """The notification that asks for none of the bytes that the kernel has of a file: FUSE_NOTIFY_RETRIEVE."""
    return struct.pack('<IiQQQQII', 48, 5, 0, 0, node, 0, 0, 0)


def retrieved_by(message):
    """The node of such a notification; None where it is none."""
    is_one = struct.unpack_from('<iQ', message, 4) == (5, 0)
    return struct.unpack_from('<Q', message, 24)[0] if is_one else None


def retrieved(node):
    """The message that a kernel sends then."""
    return asked('NOTIFY_REPLY', 0, node, process=0)


# Bytes as rows write them


def spelled(data):
    """Two digits a byte, and `HH*N` for a byte that comes 32 times and more."""
    words, start, at = [], 0, 0
    while at < len(data):
        end = at
        while end < len(data) and data[end] == data[at]:
            end += 1
        if end - at >= 32:
            words += [data[start:at].hex()] if at > start else []
            words.append('%02x*%d' % (data[at], end - at))
            start = end
        at = end
    words += [data[start:].hex()] if start < len(data) else []
    return ' '.join(words) or '-'


def bytes_of(words):
    """The bytes that such words stand for."""
    parts = [word.partition('*') for word in words.split(' ') if word != '-']
    return b''.join(bytes.fromhex(digits) * (int(count) if count else 1) for digits, _, count in parts)
