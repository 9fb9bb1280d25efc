"""Every call of the package, on good, damaged and missing input; tables, sets and moves against a second implementation."""
import os
import random
import re
import subprocess
import sys

import cffi
import numpy as np
import pytest
import second
import vejgodat
from vejgodat import Area, Part, Refused, _calls

TOP = os.path.join(os.path.dirname(os.path.abspath(__file__)), "..", "..")
BINDINGS = os.path.join(TOP, "packages", "bindings")
HEADER = os.path.join(TOP, "include", "vejgodat.h")


def refused(number, function, *arguments, place=None):
    with pytest.raises(Refused) as caught:
        function(*arguments)
    error = caught.value
    assert (error.number, error.place) == (number, place)
    assert error.text and str(error).startswith(f"refusal {number}, {error.text}")


def bindings(what):
    return subprocess.run([sys.executable, BINDINGS, what], stdout=subprocess.PIPE, check=True, encoding="utf8").stdout


# The declarations

def test_declarations_are_the_headers(tmp_path):
    """The package was built from this header."""
    ffi = cffi.FFI()
    ffi.cdef(bindings("cffi"))
    ffi.set_source("vejgodat._declarations", None)
    ffi.emit_python_code(str(tmp_path / "fresh.py"))
    with open(os.path.join(os.path.dirname(vejgodat.__file__), "_declarations.py"), encoding="utf8") as built:
        assert built.read() == (tmp_path / "fresh.py").read_text(encoding="utf8")


def test_declarations_are_the_compilers(tmp_path):
    """A C compiler takes each function's declaration beside the header's own, and has the same constants and layouts."""
    lines = ["#define VEJGODAT_INLINE", "#include <stddef.h>", f'#include "{HEADER}"']
    for line in bindings("cffi").splitlines():
        constant = re.fullmatch(r"#define (\w+) (\d+)", line)
        if constant:
            lines.append(f'_Static_assert ({constant[1]} == {constant[2]}u, "{constant[1]}");')
        elif not line.startswith("typedef"):
            lines.append(line)
    for name in _calls.ffi.list_types()[0]:
        kind = _calls.ffi.typeof(name)
        lines.append(f'_Static_assert (sizeof ({name}) == {_calls.ffi.sizeof(kind)}, "{name}");')
        for field, at in kind.fields:
            lines.append(f'_Static_assert (offsetof ({name}, {field}) == {at.offset}, "{name}.{field}");')
            lines.append(f'_Static_assert (__builtin_types_compatible_p (__typeof__ ((({name} *) 0)->{field}), {at.type.cname}), "{field}");')
    assert len(lines) > 150
    (tmp_path / "beside.c").write_text("\n".join(lines) + "\n")
    subprocess.run([os.environ.get("CC", "cc"), "-std=gnu11", "-Werror", "-fsyntax-only", str(tmp_path / "beside.c")], check=True)


def test_bindings_refuse_what_they_do_not_know(tmp_path):
    for text in ("int vejgodat_table[3];\n", "union vejgodat_any { int a; };\n"):
        (tmp_path / "other.h").write_text(text)
        said = subprocess.run([sys.executable, BINDINGS, "cffi", str(tmp_path / "other.h")], stderr=subprocess.PIPE, encoding="utf8")
        assert said.returncode == 1 and "not a declaration" in said.stderr
    assert subprocess.run([sys.executable, BINDINGS], stderr=subprocess.DEVNULL).returncode == 1


def test_constants():
    assert vejgodat.version() == vejgodat.VERSION and vejgodat.__version__.count(".") == 2
    assert (vejgodat.MAX_RANKS, vejgodat.HEXAHEDRON, vejgodat.UNUSED, vejgodat.JOIN) == (16384, 2, 2**32 - 1, 21)
    assert vejgodat.CORE.itemsize == 40 and vejgodat.TREE.itemsize == 64 and vejgodat.MOVE.itemsize == 16


# Arrays

@pytest.mark.parametrize("wrong, error", [
    (np.array([0, 3, 5], np.int32), TypeError), (np.array([0, 3, 5], np.uint64), TypeError),
    (np.array([0, 3, 5], ">i8"), TypeError), (np.array([0.0, 3.0, 5.0]), TypeError),
    (np.zeros(24, np.uint8), TypeError), (np.array([[0, 3, 5]]), ValueError), (np.array(5), ValueError),
    (np.array([0, 9, 3, 9, 5])[::2], ValueError), (np.ma.array([0, 3, 5]), TypeError), ([0, 3.5, 5], TypeError),
    (["0", "5"], TypeError), ([0, 2**63], OverflowError), (b"\0" * 16, TypeError), (None, TypeError), (5, TypeError),
    (np.frombuffer(b"\0" * 17, np.uint8)[1:].view("<i8"), ValueError)])
def test_arrays_of_another_kind(wrong, error):
    for function in (vejgodat.check_table, vejgodat.table_fault, lambda a: vejgodat.table_range(a, 0),
                     lambda a: vejgodat.send_set([0, 5], a, 0), lambda a: vejgodat.cut(vejgodat.brick(1, 1, 1), a, 0)):
        with pytest.raises(error):
            function(wrong)


def test_numbers_of_another_kind():
    for leaves, error in (([-1], OverflowError), ([2**32], OverflowError), (np.ones(3), TypeError), (np.ones(3, int), TypeError)):
        with pytest.raises(error):
            vejgodat.table_from_leaves(2, leaves)
    for rank, error in ((-1, OverflowError), (2**32, OverflowError), (1.0, TypeError), (np.float32(1), TypeError), ("0", TypeError)):
        with pytest.raises(error):
            vejgodat.table_range([0, 5], rank)
    assert vejgodat.table_range([0, 2, 5], np.int64(1)) == range(2, 5)
    for bad in (np.zeros(72, np.int8), "mesh", np.zeros((8, 9), np.uint8), np.zeros(144, np.uint8)[::2]):
        with pytest.raises((TypeError, ValueError)):
            vejgodat.check_mesh(bad)


# Tables and sets

def test_check_table():
    for table in ([0, 3, -3, 5], np.array([0, 5]), np.array([0, 0, 0, 1], "<i8")):
        vejgodat.check_table(table)
        assert vejgodat.table_fault(table) is None
    refused(vejgodat.RANKS, vejgodat.check_table, [])
    refused(vejgodat.RANKS, vejgodat.check_table, [0])
    refused(vejgodat.TABLE, vejgodat.check_table, [0, 3, 2, 5], place="rank 1: negative count")
    fault = vejgodat.table_fault([0, 3, 2, 5])
    assert fault == vejgodat.Fault(vejgodat.TABLE, vejgodat.FAULT_COUNT, 1, None, "rank 1: negative count")
    refused(vejgodat.TABLE, vejgodat.send_set, [0, 5], [1, 5], 0, place="new table, rank 0: first entry not 0")
    refused(vejgodat.DIFFER, vejgodat.send_set, [0, 5], [0, 6], 0)
    refused(vejgodat.INDEX, vejgodat.table_range, [0, 5], 1)


def test_random_tables():
    turn = random.Random(1)
    good = 0
    for _ in range(3000):
        K, P = turn.randint(1, 6), turn.randint(1, 5)
        entries = [turn.randint(0, K) for _ in range(P - 1)]
        table = [0 if turn.random() < 0.95 else 1] + (sorted(entries) if turn.random() < 0.7 else entries) + [K]
        table = [-entry if 0 < p < P and turn.random() < 0.4 else entry for p, entry in enumerate(table)]
        if second.valid(table):
            good += 1
            vejgodat.check_table(table)
            for p in range(P):
                assert vejgodat.table_range(table, p) == second.trees(table, p)
            ranges = [second.trees(table, p) for p in range(P)]
            again = vejgodat.write_table([r.start for r in ranges], [len(r) for r in ranges])
            assert [list(second.trees(again.tolist(), p)) for p in range(P)] == [list(r) for r in ranges]
        else:
            with pytest.raises(Refused):
                vejgodat.check_table(table)
    assert 1000 < good < 2700


def random_tables(turn, K):
    P = turn.randint(1, 6)
    return [vejgodat.table_from_leaves(P, [turn.choice((1, 1, 2, 9)) for _ in range(K)]) if turn.random() < 0.5 else
            vejgodat.table_from_weights([1] + [turn.choice((0, 1, 5)) for _ in range(P - 1)], [1] * K) for _ in range(2)]


def test_random_leaves():
    turn = random.Random(2)
    for _ in range(500):
        leaves = [turn.randint(1, 4) for _ in range(turn.randint(1, 8))]
        weights = [turn.randint(0, 3) for _ in range(turn.randint(1, 6))]
        ranks = len(weights)
        table = vejgodat.table_from_leaves(ranks, leaves)
        assert table.dtype == np.int64 and table.tolist() == second.shares(ranks, leaves, [1] * ranks)
        assert np.array_equal(vejgodat.table_from_blocks(ranks, leaves, [sum(leaves)]), table)
        if sum(weights) > 0:
            assert vejgodat.table_from_weights(weights, leaves).tolist() == second.shares(ranks, leaves, weights)
    refused(vejgodat.RANKS, vejgodat.table_from_leaves, 0, [1])
    refused(vejgodat.RANKS, vejgodat.table_from_leaves, 16385, [1])
    refused(vejgodat.PARTITION, vejgodat.table_from_leaves, 1, [])
    refused(vejgodat.PARTITION, vejgodat.table_from_blocks, 1, [1, 1], np.array([3], np.uint64))
    refused(vejgodat.PARTITION, vejgodat.write_table, [0, 1], [1])
    refused(vejgodat.WEIGHTS, vejgodat.table_from_weights, [0, 0], [1])


def test_random_sets():
    turn = random.Random(3)
    for _ in range(300):
        K = turn.randint(1, 9)
        old, new = random_tables(turn, K)
        if len(old) != len(new):
            new = vejgodat.table_from_leaves(len(old) - 1, [turn.randint(1, 5) for _ in range(K)])
        moves = second.sent(old.tolist(), new.tolist())
        ranks = range(len(old) - 1)
        for p in ranks:
            assert vejgodat.send_set(old, new, p).tolist() == [q for q in ranks if (p, q) in moves]
            assert vejgodat.receive_set(old, new, p).tolist() == [q for q in ranks if (q, p) in moves]
            for q in ranks:
                assert list(vejgodat.trees_sent(old, new, p, q)) == moves.get((p, q), [])
            for tree in range(K):
                assert vejgodat.sender_of(old, new, tree, p) == second.sender(old.tolist(), new.tolist(), tree, p)
        plan = vejgodat.plan(old, new)
        assert plan.dtype == vejgodat.MOVE
        assert plan.tolist() == [(p, q, trees[0], len(trees)) for (p, q), trees in sorted(moves.items())]
    refused(vejgodat.RANKS, vejgodat.plan, [], [])


# Meshes

def test_meshes():
    mesh = vejgodat.new_mesh(2, [vejgodat.TRIANGLE, vejgodat.QUADRILATERAL])
    vejgodat.check_mesh(mesh)
    vejgodat.link(mesh, 0, 2, np.int64(1), 3, 1)
    vejgodat.check_mesh(mesh)
    records = vejgodat.mesh_trees(mesh)
    assert records["neighbour"][0].tolist() == [0, 0, 1] + [vejgodat.UNUSED] * 3 and records["code"][0].tolist() == [0, 1, 7, 0, 0, 0]
    records["region"][1] = 4095
    vejgodat.check_mesh(mesh)
    records["neighbour"][1, 3] = 1                      # the view is the mesh
    refused(vejgodat.MESH, vejgodat.check_mesh, mesh, place="tree 0, face 2: link not answered")
    assert vejgodat.mesh_fault(mesh)[1:4] == (vejgodat.FAULT_ANSWER, 0, 2)
    refused(vejgodat.MESH, vejgodat.cut, mesh, [0, 2], 0, place="tree 0, face 2: link not answered")
    refused(vejgodat.MESH, vejgodat.cut, vejgodat.brick(1, 1, 1), [0, 2], 0, place="its K isn't the table's")
    for where in ((2, 0, 0, 0), (0, 6, 0, 0), (0, 0, 2, 0), (0, 0, 0, 6), (0, 0, 0, 0, 4), (-1, 0, 0, 0)):
        with pytest.raises(IndexError):
            vejgodat.link(mesh, *where)
    with pytest.raises(ValueError):
        vejgodat.link(mesh.tobytes(), 0, 0, 0, 0)       # can't be written
    for length in (0, 7, 9, 71):
        with pytest.raises(ValueError):
            vejgodat.mesh_trees(np.zeros(length, np.uint8))
    refused(vejgodat.MESH, vejgodat.check_mesh, b"", place="header or length: shorter than a header")
    assert vejgodat.mesh_header(b"\4" + bytes(7)) == vejgodat.WrongField(vejgodat.HEADER_DIMENSION, 0, 4, "dimension neither 2 nor 3")
    assert vejgodat.mesh_header(mesh) is None
    assert vejgodat.corners(vejgodat.PRISM, 3) == 3 and vejgodat.corners(vejgodat.TRIANGLE, 3) == 0


def test_bricks_and_triangles():
    mesh = vejgodat.brick(3, 2, 1, periodic=(True, False, False))
    assert vejgodat.mesh_fault(mesh) is None and len(vejgodat.mesh_trees(mesh)) == 6
    assert vejgodat.mesh_trees(mesh)["neighbour"][0].tolist() == [2, 1, 0, 3, 0, 0]
    refused(vejgodat.EXTENT, vejgodat.brick, 0, 1, 1)
    text = b"2 3 0\n1 1 2 3\n2 2 3 4\n"
    mesh = vejgodat.import_triangle(text)
    assert vejgodat.mesh_trees(mesh)["neighbour"][:, :3].tolist() == [[1, 0, 0], [1, 1, 0]]
    refused(vejgodat.TEXT, vejgodat.import_triangle, text[:-1])
    refused(vejgodat.TEXT, vejgodat.import_triangle, b"")
    refused(vejgodat.TWICE, vejgodat.import_triangle, b"1 3 0\n1 1 1 3\n")
    refused(vejgodat.EDGE, vejgodat.import_triangle, b"3 3 0\n1 1 2 3\n2 1 2 4\n3 1 2 5\n")


# Parts

TABLE = np.array([0, -4, -4, 8])


@pytest.fixture
def part():
    mesh = vejgodat.brick(2, 2, 2)
    vejgodat.mesh_trees(mesh)["region"] = [0, 0, 0, 7, 7, 9, 0, 0]
    vejgodat.mesh_boxes(mesh)[:] = [[k, 0, 0, k + 1, 1, 1] for k in range(8)]
    return vejgodat.cut(mesh, TABLE, 1)


def test_views_of_a_part(part):
    assert (part.rank, part.P, part.K, part.first, part.dimension) == (1, 3, 8, 3, 3)
    assert part.trees["number"].tolist() == [3] and part.ghosts["number"].tolist() == [1, 2, 7]
    assert part.trees.base is not None and np.shares_memory(part.trees, part.bytes) and np.shares_memory(part.data, part.bytes)
    for view in (part.trees, part.ghosts, part.bytes, part.table):
        with pytest.raises(ValueError):
            view[0] = view[0]
    part.data[0] = 5
    assert part.trees["data"].tolist() == [[5] * 24]
    part.set_region(0, 12)
    assert part.trees["region"].tolist() == [12] and part.region_counts()[12] == 1 and part.region_counts().sum() == 1
    for wrong in ((1, 0), (0, 4096), (-1, 0)):
        with pytest.raises(IndexError):
            part.set_region(*wrong)
    assert "rank 1 of 3" in repr(part)


def test_parts_of_bytes(part, tmp_path):
    part.bytes.tofile(tmp_path / "part")
    assert np.array_equal(Part(np.memmap(tmp_path / "part", np.uint8, "r"), TABLE, 1).ghosts, part.ghosts)
    again = Part(part.bytes.tobytes(), TABLE, 1)
    assert np.array_equal(again.bytes, part.bytes)
    with pytest.raises((ValueError, BufferError)):
        again.set_region(0, 1)                          # bytes can't be written
    mapped = part.bytes.copy()
    assert np.shares_memory(Part(mapped, TABLE, 1).trees, mapped)
    vejgodat.check_part(mapped, TABLE, 1)
    mapped[32 + 5] = 1
    fault = vejgodat.part_fault(mapped, TABLE, 1)
    assert (fault.number, fault.kind, fault.at, fault.face) == (vejgodat.PART, vejgodat.FAULT_BYTES, 0, None)
    for call in (vejgodat.check_part, Part):
        refused(vejgodat.PART, call, mapped, TABLE, 1, place=fault.text)
        refused(vejgodat.PART, call, mapped[:20], TABLE, 1, place="header or length: shorter than a header")
        refused(vejgodat.PART, call, part.bytes, TABLE, 0, place="header or length: rank not the one given")
        refused(vejgodat.INDEX, call, mapped, TABLE, 3)
    assert vejgodat.part_fault(part.bytes, TABLE, 1) is None and vejgodat.part_header(part.bytes, TABLE, 1) is None
    assert vejgodat.part_header(part.bytes, TABLE, 2)[:3] == (vejgodat.HEADER_RANK, 2, 1)
    refused(vejgodat.INDEX, vejgodat.part_header, part.bytes, TABLE, 3)
    empty = vejgodat.cut(vejgodat.brick(2, 1, 1), [0, 2, 2], 1)
    assert len(empty.trees) == len(empty.ghosts) == len(empty.boxes) == 0 and empty.data.shape == (0, 24)


def test_asking_a_part(part):
    assert part.neighbour(0, 0) == vejgodat.Neighbour(vejgodat.HEXAHEDRON, vejgodat.KIND_GHOST, 2, 1, 0)
    assert part.neighbour(0, 1).kind == vejgodat.KIND_BOUNDARY
    refused(vejgodat.INDEX, part.neighbour, 1, 0)
    assert [part.lookup(k) for k in range(8)] == [None, 1, 2, 0, None, None, None, 3]
    assert part.trees_at_point(3.5, 0, np.float32(1)).tolist() == [0] and part.trees_at_point(5, 0, 0).tolist() == []
    assert part.trees_below(0, 3).tolist() == [0] and part.trees_between(1, 2, 3).tolist() == []
    refused(vejgodat.PROBE, part.trees_below, 3, 1.0)
    refused(vejgodat.PROBE, part.trees_at_point, float("nan"), 0, 0)
    with pytest.raises(TypeError):
        part.trees_below(0, "1")
    part.boxes[0, 0] = np.nan
    refused(vejgodat.BOX, part.trees_below, 0, 1.0)
    columns = part.to_columns()
    assert np.array_equal(Part.from_columns(columns, TABLE, 1).bytes, part.bytes)
    refused(vejgodat.COLUMNS, Part.from_columns, columns[:-1], TABLE, 1)


# Restart

def test_restart():
    mesh = vejgodat.brick(3, 2, 2)
    table = vejgodat.table_from_leaves(3, [1] * 12)
    padded = vejgodat.pad_table(table, 5)
    assert [vejgodat.table_range(padded, p) for p in range(5)] == [vejgodat.table_range(table, p) for p in range(3)] + [range(12, 12)] * 2
    assert np.array_equal(vejgodat.pad_table(padded, 3), table)
    refused(vejgodat.OCCUPIED, vejgodat.pad_table, table, 2)
    refused(vejgodat.RANKS, vejgodat.pad_table, table, 0)
    assert np.array_equal(vejgodat.empty_part(padded, 4, 3).bytes, vejgodat.cut(mesh, padded, 4).bytes)
    refused(vejgodat.OCCUPIED, vejgodat.empty_part, table, 1, 3)
    part = vejgodat.cut(mesh, table, 1)
    assert np.array_equal(part.relabel(padded, 1).bytes, vejgodat.cut(mesh, padded, 1).bytes)
    assert np.array_equal(part.relabel(padded, 1).relabel(table, 1).bytes, part.bytes)
    refused(vejgodat.RANGE, part.relabel, padded, 2)


# Messages and areas

def random_mesh(turn, K):
    """Trees whose faces meet at random; regions and data at random."""
    dimension = turn.choice((2, 3))
    shapes = [turn.choice((0, 1) if dimension == 2 else (2, 3, 4, 5)) for _ in range(K)]
    mesh = vejgodat.new_mesh(dimension, shapes)
    faces = [(k, f) for k in range(K) for f in range(6) if vejgodat.corners(shapes[k], f) > 0]
    turn.shuffle(faces)
    while len(faces) > 1:
        (k, f), (l, g) = faces.pop(), faces.pop()
        corners = vejgodat.corners(shapes[k], f)
        if corners == vejgodat.corners(shapes[l], g) and turn.random() < 0.9:
            vejgodat.link(mesh, k, f, l, g, turn.randrange(corners))
    records = vejgodat.mesh_trees(mesh)
    records["region"] = [turn.randrange(4096) for _ in range(K)]
    records["data"] = np.array([turn.randrange(256) for _ in range(24 * K)]).reshape(K, 24)
    return mesh, dimension


def test_random_moves():
    turn = random.Random(4)
    for epoch in range(150):
        K = turn.randint(1, 12)
        mesh, dimension = random_mesh(turn, K)
        old = vejgodat.table_from_leaves(turn.randint(1, 5), [turn.randint(1, 4) for _ in range(K)])
        new = vejgodat.table_from_leaves(len(old) - 1, [turn.randint(1, 4) for _ in range(K)])
        ranks = range(len(old) - 1)
        parts = [vejgodat.cut(mesh, old, p) for p in ranks]
        messages = [(p, q, message) for p in ranks for q, message in vejgodat.build_all(parts[p], new, epoch)]
        assert [(p, q) for p, q, _ in messages] == sorted(second.sent(old.tolist(), new.tolist()))
        areas = [Area.open(old, new, q, dimension, epoch) for q in ranks]
        turn.shuffle(messages)
        for p, q, message in messages:
            assert np.array_equal(message, vejgodat.build_message(parts[p], new, q, epoch))
            read = vejgodat.read_message(message)
            assert isinstance(read, vejgodat.Message) and (read.epoch, read.dimension, read.K, read.P, read.sender, read.receiver) == (epoch, dimension, K, len(old) - 1, p, q)
            assert read.trees["number"].tolist() == second.sent(old.tolist(), new.tolist())[p, q]
            areas[q].deliver(message)
        for q in ranks:
            heard, due = areas[q].progress
            assert heard == due == len(vejgodat.receive_set(old, new, q))
            closed = areas[q].close()
            assert np.array_equal(closed.bytes, vejgodat.cut(mesh, new, q).bytes) and areas[q].part_length() == len(closed.bytes)
            assert np.array_equal(closed.table, new) and closed.rank == q
            Part(closed.bytes, new, q)


def test_refusals_of_an_area(part):
    new = np.array([0, 2, 5, 8])
    parts = [vejgodat.cut(vejgodat.brick(2, 2, 2), TABLE, p) for p in range(3)]
    area = Area.open(TABLE, new, 1, 3, 9)
    assert area.progress == vejgodat.Progress(0, len(vejgodat.receive_set(TABLE, new, 1)))
    refused(vejgodat.MISSING, area.close)
    refused(vejgodat.MISSING, area.part_length)
    message = vejgodat.build_message(parts[1], new, 1, 9)
    before = area.bytes.copy()
    refused(vejgodat.LAYOUT, area.deliver, b"")
    refused(vejgodat.LAYOUT, area.deliver, message[:-1])
    refused(vejgodat.RUN, area.deliver, vejgodat.build_message(parts[0], new, 1, 8), place="epoch not the area's")
    refused(vejgodat.RECEIVER, area.deliver, vejgodat.build_message(parts[0], new, 0, 9))
    assert np.array_equal(area.bytes, before) and not area.bytes.flags.writeable
    area.deliver(message)
    refused(vejgodat.HEARD, area.deliver, message)
    with pytest.raises(ValueError):
        area.deliver(area.bytes[:32])
    # what was kept goes on
    kept = Area(area.bytes.copy())
    others = np.concatenate([vejgodat.build_message(parts[p], new, 1, 9) for p in vejgodat.receive_set(TABLE, new, 1) if p != 1])
    assert kept.deliver_all(np.concatenate([others, message])).tolist() == [0] * (kept.progress.due - 1) + [vejgodat.HEARD]
    assert kept.deliver_all(b"").tolist() == []
    assert np.array_equal(kept.close().bytes, vejgodat.cut(vejgodat.brick(2, 2, 2), new, 1).bytes)
    refused(vejgodat.AREA, Area, np.zeros(300, np.uint8))
    with pytest.raises(ValueError):
        Area(area.bytes.tobytes())                      # can't be written
    refused(vejgodat.NOTHING, vejgodat.build_message, parts[0], [0, 8, 8, 8], 2, 9)
    refused(vejgodat.TABLE, vejgodat.build_all, parts[0], [0, 9, 8, 8], 9, place="new table, rank 1: entry above K or below -K")
    refused(vejgodat.INDEX, Area.open, TABLE, new, 0, 4, 9)
    refused(vejgodat.LAYOUT, vejgodat.check_message, message[:40])
    vejgodat.check_message(message)


def test_refinement():
    assert vejgodat.count_leaves(vejgodat.TRIANGLE, b"\1\0\0\0\0") == vejgodat.Leaves(3, 1, 4)
    assert vejgodat.leaf_counts([0, 2], [1, 9], bytes([0, 1] + [0] * 8)).tolist() == [1, 8]
    refused(vejgodat.SHAPE, vejgodat.count_leaves, vejgodat.PRISM, b"\0")
    refused(vejgodat.STRING, vejgodat.count_leaves, 0, b"")
    refused(vejgodat.STRING, vejgodat.leaf_counts, [0], [1], b"\2")
    refused(vejgodat.PARTITION, vejgodat.leaf_counts, [0], [], b"")


# The last one: all of it was called

def test_every_call(functions_called):
    with open(__file__, encoding="utf8") as source:
        text = source.read()
    assert [name for name in vejgodat.__all__ if not re.search(rf"\b{name}\b", text)] == []
    assert [name for name in bindings("calls").split() if name not in functions_called] == []
