"""Lays pages and files of small tables, for the tests and the benches. Where nothing else is said a table is sound."""

import json
import struct

PAGE = 8192

CASE = """[cluster]
next_xid = {next_xid}
oldest_xid = 3
next_multi = {next_multi}
oldest_multi = 1
next_member = {next_member}
xact = "xact"
offsets = "offsets"
members = "members"
[heap]
file = "t"
"""


# Pages


def up8(length):
    return (length + 7) // 8 * 8


def page(items, special, flags=0):
    """A page with these items: a tuple's bytes, or the number of a line pointer without storage."""
    place, pointers, body = PAGE - len(special), [], {}
    for item in items:
        if isinstance(item, int):
            pointers.append(item)
            continue
        place = (place - len(item)) // 8 * 8
        body[place] = item
        pointers.append(place | 1 << 15 | len(item) << 17)
    out = bytearray(PAGE)
    lower = 24 + 4 * len(pointers)
    struct.pack_into("<IIHHHHHHI", out, 0, 0, 0, 0, flags, lower, place, PAGE - len(special), 0x2004, 0)
    for k, pointer in enumerate(pointers):
        struct.pack_into("<I", out, 24 + 4 * k, pointer)
    for at, item in body.items():
        out[at : at + len(item)] = item
    out[PAGE - len(special) :] = special
    return bytes(out)


def heap_tuple(body, item=1, block=0, xmin=700, xmax=0, infomask2=1, infomask=0x0900):
    head = struct.pack(
        "<IIIHHHHHBx", xmin, xmax, 0, block >> 16, block & 0xFFFF, item, infomask2, infomask, 24
    )
    return head + body


def index_tuple(body, item, block=0, info=0):
    length = up8(8 + len(body))
    return struct.pack("<HHHH", block >> 16, block & 0xFFFF, item, info | length) + body.ljust(length - 8, b"\0")


def separator(body, block=0, tid=None):
    """A pivot with one value, and the TID that it keeps, if any."""
    if tid is None:
        return index_tuple(body, 1, block, 0x2000)
    kept = body.ljust(up8(8 + len(body)) - 8, b"\0")
    return index_tuple(kept + struct.pack("<xxHHH", 0, *tid), 0x1001, block, 0x2000)


def first_downlink(block):
    return index_tuple(b"", 0, block, 0x2000)


def tree_page(items, prev=0, following=0, level=0, flags=1):
    return page(items, struct.pack("<IIIHH", prev, following, level, flags, 0))


def metapage(root, level):
    out = bytearray(page([], struct.pack("<IIIHH", 0, 0, 0, 8, 0)))
    struct.pack_into("<IIIIII", out, 24, 0x053162, 4, root, level, root, level)
    struct.pack_into("<H", out, 12, 72)
    return bytes(out)


def int4(number):
    return struct.pack("<i", number)


# Tables: their files, the names of their indexes with their files, and how many columns they have


class Table:
    def __init__(self, files, case, indexes, columns=1):
        self.files = dict(files)
        self.files["case.toml"] = case.encode()
        self.indexes = indexes
        self.columns = columns


def column(name, kind):
    return f'[[column]]\nname = "{name}"\ntype = "{kind}"\n'


def index(name, file, key, include=(), unique=False):
    listed = f"include = {json.dumps(include)}\n" if include else ""
    listed += "unique = true\n" if unique else ""
    return f'[[index]]\nname = "{name}"\nfile = "{file}"\n{listed}[[index.key]]\ncolumn = "{key}"\n'


def logs(offsets=(), members=()):
    """Each transaction committed, and these numbers in the files of multixacts."""
    pages = [bytearray(PAGE), bytearray(PAGE)]
    for out, numbers in zip(pages, (offsets, members)):
        for at, form, number in numbers:
            struct.pack_into(form, out, at, number)
    return {"xact/0000": b"\x55" * PAGE, "offsets/0000": bytes(pages[0]), "members/0000": bytes(pages[1])}


def small(heap, tree, offsets=(), members=()):
    """A table of one number with an index on it."""
    case = CASE.format(next_xid=1000, next_multi=10, next_member=100) + column("a", "int4") + index("t_a", "i", "a")
    return Table({"t": heap, "i": tree, **logs(offsets, members)}, case, {"t_a": "i"})


def rows_of(numbers):
    return page([heap_tuple(int4(n), k + 1) for k, n in enumerate(numbers)], b"")


def entry(number, item):
    return index_tuple(int4(number), item)


def three_rows():
    leaf = tree_page([entry(5, 1), entry(7, 2), entry(9, 3)], flags=3)
    return small(rows_of([5, 7, 9]), metapage(1, 0) + leaf)


def multixact():
    heap = page(
        [
            heap_tuple(int4(7), 2, xmax=5, infomask=0x1100, infomask2=0x4001),
            heap_tuple(int4(9), 2, xmin=712, infomask=0x2800, infomask2=0x8001),
        ],
        b"",
    )
    members = [(3, "<B", 4), (8, "<I", 710), (12, "<I", 711), (16, "<I", 712)]
    tree = metapage(1, 0) + tree_page([entry(9, 1)], flags=3)
    return small(heap, tree, [(20, "<I", 1), (24, "<I", 4)], members)


def equal_keys():
    tids = struct.pack("<HHHHHH", 0, 0, 1, 0, 0, 2)
    listed = index_tuple(int4(7) + bytes(4) + tids, 0x2002, 16, 0x2000)
    return small(rows_of([7, 7]), metapage(1, 0) + tree_page([listed], flags=3))


def including():
    """Numbers and texts, with an index on the numbers that includes the texts."""
    bodies = [int4(n) + bytes([2 * len(text) + 3]) + text for n, text in ((5, b"five"), (7, b""), (9, b"nine"))]
    entries = [index_tuple(body, k + 1, info=0x4000) for k, body in enumerate(bodies)]
    pages = [
        tree_page([separator(int4(7)), entries[0]], following=2),
        tree_page(entries[1:], prev=1),
        tree_page([first_downlink(1), separator(int4(7), 2)], level=1, flags=2),
    ]
    heap = page([heap_tuple(body, k + 1, infomask2=2, infomask=0x0902) for k, body in enumerate(bodies)], b"")
    case = CASE.format(next_xid=1000, next_multi=10, next_member=100) + column("a", "int4") + column("b", "text")
    case += index("t_a", "i", "a", ("b",))
    return Table({"t": heap, "i": metapage(3, 1) + b"".join(pages), **logs()}, case, {"t_a": "i"}, 2)


def split():
    """A leaf whose right half is in no downlink yet."""
    leaves = [
        tree_page([separator(int4(7)), entry(5, 1)], following=2, flags=0x81),
        tree_page([separator(int4(9)), entry(7, 2)], prev=1, following=4),
    ]
    root = tree_page([first_downlink(1), separator(int4(9), 4)], level=1, flags=2)
    last = tree_page([entry(9, 3)], prev=2)
    return small(rows_of([5, 7, 9]), metapage(3, 1) + b"".join(leaves) + root + last)


def half_dead():
    """A leaf whose downlink is gone, and whose page isn't yet."""
    pages = [
        tree_page([index_tuple(b"", 0, 0, 0x2000)], following=2, flags=17),
        tree_page([separator(int4(7)), entry(5, 1)], prev=1, following=4),
        tree_page([first_downlink(2), separator(int4(7), 4)], level=1, flags=2),
        tree_page([entry(7, 2), entry(9, 3)], prev=2),
    ]
    return small(rows_of([5, 7, 9]), metapage(3, 1) + b"".join(pages))


def toast():
    pointer = struct.pack("<BBiIII", 1, 18, 2000, 1996, 16500, 16400)
    heap = page([heap_tuple(pointer, infomask=0x0906)], b"")
    chunk = struct.pack("<IiI", 16500, 0, 2000 << 2) + bytes(1996)
    chunks = page([heap_tuple(chunk, infomask2=3, infomask=0x0902)], b"")
    case = CASE.format(next_xid=1000, next_multi=10, next_member=100)
    case += 'toast_file = "tt"\ntoast_oid = 16400\n' + column("a", "text")
    return Table({"t": heap, "tt": chunks, "t_vm": bytes(PAGE), **logs()}, case, {})


def on_leaves(leaves, separators):
    """An index of these leaves, each a list of its entries, and the root above them; the values of the separators."""
    count = len(leaves)
    pages = []
    for k, leaf in enumerate(leaves):
        bound, following = ([], 0) if k == count - 1 else ([separator(separators[k])], k + 2)
        pages.append(tree_page(bound + leaf, k, following))
    downlinks = [separator(value, k + 2) for k, value in enumerate(separators)]
    root = tree_page([first_downlink(1), *downlinks], level=1, flags=2)
    return metapage(count + 1, 1) + b"".join(pages) + root


def rows_far_apart():
    """210 rows and 70 leaves of three entries: from a row to the next in the heap it is a leaf, round and round."""
    heap = rows_of([row % 70 * 3 + row // 70 for row in range(210)])
    leaves = [[entry(3 * k + place, k + 70 * place + 1) for place in range(3)] for k in range(70)]
    return small(heap, on_leaves(leaves, [int4(3 * k) for k in range(1, 70)]))


def five_thousand_rows():
    """Rows of a number, a text, bytes of a fixed length and a uuid, with an index on the uuid."""

    def uuid(number):
        return number.to_bytes(16, "big")

    def on_heap(number):
        name = b"user%d" % number
        body = struct.pack("<q", number) + bytes([2 * len(name) + 3]) + name
        body = body.ljust(up8(len(body)), b"\0") + struct.pack("<q", number) + uuid(number)
        return heap_tuple(body, number % 100 + 1, number // 100, infomask2=4, infomask=0x0902)

    heap = b"".join(page([on_heap(block * 100 + k) for k in range(100)], b"") for block in range(50))
    entries = [index_tuple(uuid(k), k % 100 + 1, k // 100) for k in range(5000)]
    leaves = [entries[k : k + 250] for k in range(0, 5000, 250)]
    case = CASE.format(next_xid=1000, next_multi=10, next_member=100) + column("k", "int8") + column("name", "text")
    case += column("f", "fixed") + "len = 8\nalign = 8\n" + column("u", "uuid") + index("t_a", "i", "u")
    tree = on_leaves(leaves, [uuid(k) for k in range(250, 5000, 250)])
    return Table({"t": heap, "i": tree, **logs()}, case, {"t_a": "i"}, 4)


# The table that `gen` builds


def built(seed, count):
    rows, x = [], seed
    for k in range(count):
        x = (x * 6364136223846793005 + 1442695040888963407) % 2**64
        rows.append((k, (x >> 33) % 100))

    def tid(row):
        return row[0] // 185, row[0] % 185 + 1

    def on_heap(row):
        block, item = tid(row)
        body = struct.pack("<qi", *row)
        return heap_tuple(body, item, block, xmin=3, infomask2=2, infomask=0x0800)

    def tree(key_of, form):
        entries = sorted(rows, key=lambda row: (key_of(row), tid(row)))
        leaves = [entries[k : k + 300] for k in range(0, count, 300)]

        def bound(k, block):
            left, right = leaves[k - 1][-1], leaves[k][0]
            kept = tid(left) if key_of(left) == key_of(right) else None
            return separator(struct.pack(form, key_of(right)), block, kept)

        pages = []
        for k, leaf in enumerate(leaves):
            is_last = k == len(leaves) - 1
            items = [] if is_last else [bound(k + 1, 0)]
            items += [index_tuple(struct.pack(form, key_of(row)), tid(row)[1], tid(row)[0]) for row in leaf]
            pages.append(tree_page(items, k, 0 if is_last else k + 2, 0, 3 if len(leaves) == 1 else 1))
        if len(leaves) > 1:
            items = [first_downlink(1)] + [bound(k, k + 1) for k in range(1, len(leaves))]
            pages.append(tree_page(items, 0, 0, 1, 2))
        return metapage(len(pages), 1 if len(leaves) > 1 else 0) + b"".join(pages)

    heap = b"".join(page([on_heap(row) for row in rows[k : k + 185]], b"") for k in range(0, count, 185))
    case = CASE.format(next_xid=4, next_multi=1, next_member=0) + column("id", "int8") + column("grp", "int4")
    case += index("t_id", "i1", "id") + index("t_grp", "i2", "grp")
    files = {
        "t": heap,
        "i1": tree(lambda row: row[0], "<q"),
        "i2": tree(lambda row: row[1], "<i"),
        "xact/0000": b"\x40" + bytes(PAGE - 1),
    }
    return Table(files, case, {"t_id": "i1", "t_grp": "i2"}, 2)
