"""Global addresses: their pages, blocks, layers, and where their page-table entries stand."""

BLOCK = 32
PAGE = 4096
SEGMENT = 1 << 30
TABLE = 255 << 30  # the first address of the page table
ROOT = TABLE + (255 << 20)  # the first address of the root table
ROOT_END = ROOT + (1 << 18)
END = 1 << 38

LAYERS = ("root", "pte", "data")


def block_of(at):
    """The first byte of the block of an address."""
    return at - at % BLOCK


def page_of(at):
    """The first byte of the page of an address."""
    return at - at % PAGE


def entry_of(at):
    """The address of the page-table entry of an address."""
    return TABLE + 4 * (at // PAGE)


def entry_block(at):
    """The block in which the page-table entry of an address stands."""
    return block_of(entry_of(at))


def root_block(at):
    """The block in which the root entry of an address stands."""
    return block_of(entry_of(entry_of(at)))


def layer_of(at):
    """What a block at this address holds: `root`, `pte` or `data`, or None where no fill may be."""
    if at < TABLE:
        return "data"
    if ROOT <= at < ROOT_END:
        return "root"
    if at < ROOT:
        return "pte"
    return None


def line_of(at, lines):
    """The number of the cache line of an address."""
    return at // BLOCK % lines


def short(at):
    """An address without its leading zeros, at least two digits of it."""
    return "%02x" % at


def full(at):
    """An address as traces write it."""
    return "%010x" % at
