"""Repartitioning of coarse meshes, over the C calls of libvejgodat, which vejgodat.h describes.

A table is an array of int64 with P + 1 entries, or a list of integers; meshes, messages and areas are arrays of uint8, and
a part is a Part. Lists of counts, shapes and weights are arrays of uint32 or lists of integers. An array of another dtype,
byte order or shape is a TypeError or ValueError; what the library refuses is Refused. The constants of the header are here
without their prefix: vejgodat.MAX_RANKS, vejgodat.HEXAHEDRON.

What is proved is behind the C calls. This package isn't; it is tested."""
from collections import namedtuple

import numpy as np

from ._calls import (BYTE, ENTRY, NUMBER, SUM, Fault, Refused, WrongField, ask, call, fault, ffi, given, lib, listed, real,
                     written, wrong_field)

CORE = np.dtype([("number", "<u4"), ("shape", "u1"), ("zero", "u1", 3), ("neighbour", "<u4", 6), ("code", "u1", 6),
                 ("region", "<u2")])
TREE = np.dtype(CORE.descr + [("data", "u1", 24)])
MOVE = np.dtype([("sender", "<u4"), ("receiver", "<u4"), ("first", "<u4"), ("count", "<u4")])

Neighbour = namedtuple("Neighbour", "shape kind index face orientation")
Leaves = namedtuple("Leaves", "upright inverted leaves")
Progress = namedtuple("Progress", "heard due")
Message = namedtuple("Message", "epoch dimension K P sender receiver trees ghosts")

__all__ = """Refused Fault WrongField Part Area Message Neighbour Leaves Progress CORE TREE MOVE version check_table table_fault table_range
write_table table_from_leaves table_from_weights table_from_blocks pad_table sender_of trees_sent send_set receive_set plan corners
new_mesh link mesh_trees mesh_boxes check_mesh mesh_fault mesh_header brick import_triangle cut empty_part check_part part_fault
part_header check_message read_message build_message build_all count_leaves leaf_counts""".split()

_constants = {name[len("VEJGODAT_"):]: getattr(lib, name) for name in dir(lib) if name.startswith("VEJGODAT_")}
globals().update(_constants)
__version__ = ".".join(str(lib.VEJGODAT_VERSION // unit % 100) for unit in (10000, 100, 1))


def version():
    """The library's version: 10000 major + 100 minor + patch."""
    return call("version")


# Tables

def _table(table, name="table"):
    return given(name, table, ENTRY)


def _tables(old, new):
    return given("old table", old, ENTRY), given("new table", new, ENTRY)


def _written_table(call_name, ranks, *arguments):
    return written(call_name, ask("table_length", ranks).length, *arguments).view(ENTRY)


def check_table(table):
    """Refused where the table isn't valid."""
    ask("check_table", _table(table))


def table_fault(table):
    """The first place at which a table isn't valid, or None."""
    return fault("table_fault", _table(table))


def table_range(table, rank):
    """The trees of a rank, as a range."""
    answer = ask("table_range", _table(table), rank)
    return range(answer.first, answer.first + answer.count)


def write_table(first, count):
    """The table of a partition: the first tree and the number of trees of each rank."""
    first, count = given("first", first, NUMBER), given("count", count, NUMBER)
    return _written_table("write_table", len(first), len(first), first, count)


def table_from_leaves(ranks, leaves):
    """The table that divides the leaves evenly, from the number of leaves of each tree."""
    return _written_table("table_from_leaves", ranks, ranks, given("leaves", leaves, NUMBER))


def table_from_weights(weights, leaves):
    """The table that divides the leaves by the weight of each rank."""
    weights = given("weights", weights, NUMBER)
    return _written_table("table_from_weights", len(weights), weights, given("leaves", leaves, NUMBER))


def table_from_blocks(ranks, leaves, sums):
    """table_from_leaves, with a sum (uint64) for each block of BLOCK_TREES trees, which are compared."""
    return _written_table("table_from_blocks", ranks, ranks, given("leaves", leaves, NUMBER), given("sums", sums, SUM))


def pad_table(table, ranks):
    """The table of more ranks, or of fewer, in which the ranks of only one of the two have no trees."""
    return _written_table("pad_table", ranks, _table(table), ranks)


# Who sends

def sender_of(old, new, tree, receiver):
    """The rank that sends a tree to a receiver, or None."""
    sender = ask("sender_of", *_tables(old, new), tree, receiver).sender
    return None if sender < 0 else sender


def trees_sent(old, new, sender, receiver):
    """The trees that a rank sends to another or keeps, as a range."""
    answer = ask("trees_sent", *_tables(old, new), sender, receiver)
    return range(answer.first, answer.first + answer.count)


def send_set(old, new, rank):
    """The ranks that a rank sends trees to, itself where it keeps some."""
    old, new = _tables(old, new)
    return listed("send_set", len(old), old, new, rank)


def receive_set(old, new, rank):
    """The ranks that a rank gets trees from."""
    old, new = _tables(old, new)
    return listed("receive_set", len(old), old, new, rank)


def plan(old, new):
    """All moves, an array of MOVE: sender, receiver, first tree and number of trees."""
    old, new = _tables(old, new)
    moves = [(p, q, sent.start, len(sent)) for p in range(max(len(old) - 1, 1)) for q in send_set(old, new, p)
             for sent in [trees_sent(old, new, p, q)]]
    return np.array(moves, MOVE)


# Whole meshes

def corners(shape, face):
    """The number of corners of a face; 0 where the shape doesn't have it."""
    return call("corners", shape, face)


def new_mesh(dimension, shapes):
    """A mesh with a tree of each shape, every face at the boundary; link() joins them."""
    shapes = given("shapes", shapes, NUMBER)
    mesh = np.zeros(8 + 64 * len(shapes), BYTE)
    at = ffi.from_buffer("uint8_t[]", mesh)
    lib.vejgodat_mesh_set_header(at, dimension, len(shapes))
    for tree, shape in enumerate(shapes.tolist()):
        lib.vejgodat_mesh_set_tree(at, tree, shape)
    return mesh


def link(mesh, tree, face, neighbour, neighbour_face, orientation=0):
    """Write both ends of a link; check_mesh says afterwards whether the mesh is sound."""
    mesh = given("mesh", mesh, BYTE, writable=True)
    trees = len(mesh_trees(mesh))
    for name, value, limit in (("tree", tree, trees), ("face", face, 6), ("neighbour", neighbour, trees),
                               ("neighbour_face", neighbour_face, 6), ("orientation", orientation, 4)):
        if not 0 <= value < limit:
            raise IndexError(f"{name}: {value} is not below {limit}")
    lib.vejgodat_mesh_set_link(ffi.from_buffer("uint8_t[]", mesh), tree, face, neighbour, neighbour_face, orientation)


def mesh_trees(mesh):
    """The records of a mesh, an array of TREE over its bytes."""
    mesh = given("mesh", mesh, BYTE)
    if len(mesh) % 64 != 8:
        raise ValueError(f"mesh: 8 + 64 K bytes are needed, not {len(mesh)}")
    return mesh[8:].view(TREE)


def mesh_boxes(mesh):
    """The tree data as boxes, float32 of shape (K, 6) over the mesh's bytes: low corner, high corner."""
    return _boxes(given("mesh", mesh, BYTE), 8, len(mesh_trees(mesh)))


def _boxes(data, start, count):
    return np.ndarray((count, 6), "<f4", data, start + 40, (64, 4)) if count else np.zeros((0, 6), "<f4")


def check_mesh(mesh):
    """Refused where the mesh isn't sound."""
    ask("check_mesh", given("mesh", mesh, BYTE))


def mesh_fault(mesh):
    """The first place at which a mesh isn't sound, or None."""
    return fault("mesh_fault", given("mesh", mesh, BYTE))


def mesh_header(mesh):
    """What is wrong with the header or the length of a mesh, or None."""
    return wrong_field("mesh_header", given("mesh", mesh, BYTE))


def brick(a, b, c, periodic=(False, False, False)):
    """A brick of a times b times c hexahedra."""
    x, y, z = (1 if axis else 0 for axis in periodic)
    return written("write_brick", ask("brick_length", a, b, c).length, a, b, c, x, y, z)


def import_triangle(text):
    """The mesh of an element file of Triangle, whose bytes are given."""
    text = given("text", text, BYTE)
    return written("import_triangle", ask("triangle_length", text).length, text)


# Parts

class Part:
    """The part of a rank, over bytes that aren't copied. Part(data, table, rank) checks them, Refused where they aren't
    sound; cut and Area.close make parts."""

    def __init__(self, data, table, rank):
        self._hold(given("part", data, BYTE), _table(table), rank)
        ask("check_part", self._data, self.table, rank)
        self._view()

    @classmethod
    def _of(cls, data, table, rank):
        self = cls.__new__(cls)
        self._hold(data, table, rank)
        self._view()
        return self

    def _hold(self, data, table, rank):
        self._data, self.rank = data, rank
        self.table = _fixed(table.copy())

    def _view(self):
        header = self._data[:32].view(NUMBER).tolist()
        self.dimension, self.K, self.P, _, self.first, n, g, _ = header
        self.trees = _fixed(self._data[32:32 + 64 * n].view(TREE))
        self.ghosts = _fixed(self._data[32 + 64 * n:].view(CORE))

    def __repr__(self):
        return f"Part(rank {self.rank} of {self.P}, {len(self.trees)} trees from {self.first} on, {len(self.ghosts)} ghosts)"

    @property
    def bytes(self):
        """All bytes, for a file or a message; read-only."""
        return _fixed(self._data)

    @property
    def data(self):
        """The tree data, uint8 of shape (n, 24), to read and to write: they are the caller's."""
        return self._data[32:32 + 64 * len(self.trees)].view(TREE)["data"]

    @property
    def boxes(self):
        """The tree data as boxes, float32 of shape (n, 6), to read and to write."""
        return _boxes(self._data, 32, len(self.trees))

    def set_region(self, local, region):
        """Write the region of a tree."""
        if not 0 <= local < len(self.trees) or not 0 <= region < lib.VEJGODAT_REGIONS:
            raise IndexError(f"tree {local} is not below {len(self.trees)}, or region {region} not below {lib.VEJGODAT_REGIONS}")
        lib.vejgodat_part_set_region(ffi.from_buffer("uint8_t[]", self._data, require_writable=True), local, region)

    def neighbour(self, local, face):
        """What is across a face of a tree."""
        answer = ask("neighbour_of", self._data, self.table, self.rank, local, face)
        return Neighbour(answer.shape, answer.kind, answer.index, answer.face, answer.orientation)

    def lookup(self, number):
        """The local index of a tree or ghost by its global number, or None."""
        n = len(self.trees)
        found = call("lookup", self._data[32:32 + 64 * n], self._data[32 + 64 * n:], number)
        return {lib.VEJGODAT_FOUND_NONE: None, lib.VEJGODAT_FOUND_TREE: found.offset // 64,
                lib.VEJGODAT_FOUND_GHOST: n + found.offset // 40}[found.which]

    def region_counts(self):
        """The number of trees of each region."""
        out = np.zeros(lib.VEJGODAT_REGIONS, NUMBER)
        ask("region_counts", self._data, self.table, self.rank, out)
        return out

    def trees_at_point(self, x, y, z):
        """The local indices of the trees whose box has a point; numbers are rounded to 32 bits."""
        return self._near("trees_at_point", real("x", x), real("y", y), real("z", z))

    def trees_below(self, axis, limit):
        """Those whose box reaches below a limit on an axis."""
        return self._near("trees_below", axis, real("limit", limit))

    def trees_between(self, axis, lower, upper):
        """Those whose box meets a slab."""
        return self._near("trees_between", axis, real("lower", lower), real("upper", upper))

    def _near(self, name, *probe):
        return listed(name, len(self.trees), self._data, self.table, self.rank, *probe)

    def to_columns(self):
        """The part stored by columns."""
        return written("part_to_columns", len(self._data), self._data, self.table, self.rank)

    @classmethod
    def from_columns(cls, columns, table, rank):
        """The part of a column file."""
        columns, table = given("columns", columns, BYTE), _table(table)
        return cls._of(written("columns_to_part", len(columns), columns, table, rank), table, rank)

    def relabel(self, table, rank):
        """The same part under another table and rank that have the same trees."""
        table = _table(table)
        return Part._of(written("relabel_part", len(self._data), self._data, self.table, self.rank, table, rank), table, rank)


def _fixed(view):
    view = view[:]
    view.flags.writeable = False
    return view


def cut(mesh, table, rank):
    """The part of a rank, cut out of the whole mesh."""
    mesh, table = given("mesh", mesh, BYTE), _table(table)
    return Part._of(written("cut_part", ask("part_length", mesh, table, rank).length, mesh, table, rank), table, rank)


def empty_part(table, rank, dimension):
    """The part of a rank without trees."""
    table = _table(table)
    return Part._of(written("empty_part", 32, table, rank, dimension), table, rank)


def check_part(data, table, rank):
    """Refused where the bytes aren't a part that is sound for table and rank."""
    ask("check_part", given("part", data, BYTE), _table(table), rank)


def part_fault(data, table, rank):
    """The first place at which a part isn't sound, or None."""
    return fault("part_fault", given("part", data, BYTE), _table(table), rank)


def part_header(data, table, rank):
    """What is wrong with the header or the length of a part, or None."""
    return wrong_field("part_header", given("part", data, BYTE), _table(table), rank)


# Messages

def check_message(message):
    """Refused where a message breaks its layout."""
    ask("check_message", given("message", message, BYTE))


def read_message(message):
    """The header of a message, and its trees and ghosts as read-only arrays over its bytes."""
    message = given("message", message, BYTE)
    check_message(message)
    *header, n, _ = message[:32].view(NUMBER).tolist()
    return Message(*header, _fixed(message[32:32 + 64 * n].view(TREE)), _fixed(message[32 + 64 * n:].view(CORE)))


def build_message(part, new, receiver, epoch):
    """The message of a part's rank to a receiver."""
    old, new = _tables(part.table, new)
    length = ask("message_length", part._data, old, new, part.rank, receiver).length
    return written("build_message", length, part._data, old, new, part.rank, receiver, epoch)


def build_all(part, new, epoch):
    """The messages of a part's rank: a list of (receiver, message), itself as receiver of the trees that it keeps."""
    old, new = _tables(part.table, new)
    length = ask("build_all_length", part._data, old, new, part.rank).length
    all_of_them = written("build_all", length, part._data, old, new, part.rank, epoch)
    at, messages = 0, []
    while at < length:
        _, _, _, _, _, receiver, n, g = all_of_them[at:at + 32].view(NUMBER).tolist()
        end = at + 32 + 64 * n + 40 * g
        messages.append((receiver, all_of_them[at:end]))
        at = end
    return messages


class Area:
    """The area in which a rank's new part is assembled. Area.open makes one; Area(data) goes on with bytes that were kept,
    Refused where they aren't sound."""

    def __init__(self, data):
        self._data = given("area", data, BYTE, writable=True)
        ask("progress_of", self._data)

    @classmethod
    def open(cls, old, new, rank, dimension, epoch):
        """An area for the messages to a rank."""
        old, new = _tables(old, new)
        self = cls.__new__(cls)
        length = ask("area_length", old, new, rank, dimension).length
        self._data = written("open_area", length, old, new, rank, dimension, epoch)
        return self

    @property
    def bytes(self):
        """All bytes, to keep; read-only."""
        return _fixed(self._data)

    @property
    def progress(self):
        """How many senders are heard, and how many are due."""
        answer = ask("progress_of", self._data)
        return Progress(answer.heard, answer.due)

    def deliver(self, message):
        """Take a message; Refused where it isn't the one due, and the area is as before."""
        ask("deliver", self._data, self._beside(given("message", message, BYTE)))

    def deliver_all(self, messages):
        """Take messages that stand end to end: the answer to each, 0 or a refusal."""
        messages = self._beside(given("messages", messages, BYTE))
        return listed("deliver_all", len(messages) // 32 + 1, self._data, messages)

    def _beside(self, messages):
        if np.may_share_memory(self._data, messages):
            raise ValueError("message: it stands in the area's own memory")
        return messages

    def part_length(self):
        """The length of the part; Refused where a message is missing or the part isn't sound."""
        return ask("part_of_area_length", self._data).length

    def close(self):
        """The rank's part under the new table; Refused where a message is missing or the part isn't sound."""
        length = lib.vejgodat_area_part_bytes(ffi.from_buffer("uint8_t[]", self._data))
        data = written("close_area", length, self._data)
        ranks, rank = self._data[12:20].view(NUMBER).tolist()
        return Part._of(data, self._data[40 + 8 * ranks:48 + 16 * ranks].view(ENTRY), rank)


# Refinement strings

def count_leaves(shape, bits):
    """The leaves of a tree's refinement string."""
    answer = ask("count_leaves", shape, given("bits", bits, BYTE))
    return Leaves(answer.upright, answer.inverted, answer.leaves)


def leaf_counts(shapes, lengths, bits):
    """The leaves of each tree: shapes, lengths of the strings, and the strings end to end."""
    shapes = given("shapes", shapes, NUMBER)
    return listed("leaf_counts", len(shapes), shapes, given("lengths", lengths, NUMBER), given("bits", bits, BYTE))
