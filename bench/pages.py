"""Pages of data files for the measurements: headers, map bits and whole files with one table (docs/FORMATS.md)."""
import struct

PAGE = 8192
ROOM = 8096
SPAN = 8088
EXTENTS = 63904
ROWS = 100
ROW = 70
INDEX_ROW = 13
INDEX_ROWS = ROOM // (INDEX_ROW + 2)
IAM_PAGES = [8, 10]


def page(number, kind, object_id=0, level=0, prev=0, following=0, slots=0, free=0, free_from=0):
    """A page with this header and nothing else."""
    bytes_ = bytearray(PAGE)
    struct.pack_into("<BBBxIIIIHHH", bytes_, 0, 1, kind, level, number, object_id, prev, following, slots, free, free_from)
    return bytes_


def catalog_entry(object_id, kind, name, iam, root):
    """An entry of the catalog; kind 1 is a heap, 2 a clustered table."""
    return struct.pack("<IBB16s2xII8x", object_id, kind, len(name), name, iam, root)


def set_bit(bytes_, n):
    bytes_[96 + n // 8] |= 1 << n % 8


def is_system(extent):
    """Whether the extent holds a PFS, GAM or SGAM page of the standard geometry, or the file header."""
    first = 8 * extent
    return extent == 0 or any((first + i) % SPAN == 0 or (first + i) % (8 * EXTENTS) in (0, 1) for i in range(8))


def system_pages(pages):
    """The system pages of a file in which one object has all extents behind the first two, by their numbers."""
    made = {0: page(0, 15)}
    struct.pack_into("<8sHBxI", made[0], 96, b"PGCHKDB1", 1, 1, pages)
    for first in range(0, pages, SPAN):
        number = first or 1
        made[number] = page(number, 11)
        for p in range(first, min(first + SPAN, pages)):
            made[number][96 + p % SPAN] = pfs_byte(p, pages)
    for interval in range(intervals_of(pages)):
        gam = 8 * EXTENTS * interval or 2
        made[gam] = page(gam, 8)
        made[gam + 1] = page(gam + 1, 9)
    set_bit(made[3], 1)
    made[9] = page(9, 13)
    return made


def intervals_of(pages):
    return (pages // 8 + EXTENTS - 1) // EXTENTS


def pfs_byte(p, pages):
    """The PFS byte of a page: one of the system's, of the IAM pages and the boot page in extent 1, or of the table."""
    if p == 0 or p % SPAN == 0 or p in (1, 2, 3) or (p >= 8 * EXTENTS and p % (8 * EXTENTS) in (0, 1)):
        return 0x44
    if is_system(p // 8):
        return 0x00
    if p // 8 == 1:
        if p in IAM_PAGES[:intervals_of(pages)]:
            return 0x70
        return 0x64 if p == 9 else 0x00
    return 0x40


def iam_pages(pages):
    """The IAM pages of object 1, which marks all extents but the first two and those of the system."""
    intervals = intervals_of(pages)
    numbers = IAM_PAGES[:intervals]
    made = {}
    for interval, number in enumerate(numbers):
        prev = numbers[interval - 1] if interval else 0
        following = numbers[interval + 1] if interval + 1 < intervals else 0
        made[number] = page(number, 10, 1, 0, prev, following)
        struct.pack_into("<II", made[number], 96, interval, interval)
        for extent in range(EXTENTS * interval, min(EXTENTS * (interval + 1), pages // 8)):
            if extent > 1 and not is_system(extent):
                n = extent % EXTENTS
                made[number][136 + n // 8] |= 1 << n % 8
    return made


def leaf(number, prev, following, first_key):
    """A leaf of object 1 with rows of 70 bytes whose keys rise by one."""
    bytes_ = page(number, 1, 1, 0, prev, following, ROWS, ROOM - ROWS * (ROW + 2), 96 + ROWS * ROW)
    for i in range(ROWS):
        at = 96 + i * ROW
        struct.pack_into("<BHQ", bytes_, at, 0x10, ROW, first_key + i)
        struct.pack_into("<H", bytes_, PAGE - 2 - 2 * i, at)
    return bytes_


def index_page(number, level, prev, following, rows):
    """An index page of object 1 with these rows, each a key and a child."""
    count = len(rows)
    bytes_ = page(number, 2, 1, level, prev, following, count, ROOM - count * (INDEX_ROW + 2), 96 + INDEX_ROW * count)
    for i, (key, child) in enumerate(rows):
        at = 96 + INDEX_ROW * i
        struct.pack_into("<BQI", bytes_, at, 0x06, key, child)
        struct.pack_into("<H", bytes_, PAGE - 2 - 2 * i, at)
    return bytes_


def crowded_page(number):
    """A page with 4,000 slots, all of one row."""
    bytes_ = page(number, 1, 1, 0, 0, 0, 4000, 0, 107)
    struct.pack_into("<BHQ", bytes_, 96, 0x10, 11, 1)
    for i in range(4000):
        struct.pack_into("<H", bytes_, PAGE - 2 - 2 * i, 96)
    return bytes_
