"""flow.c in Python, with the package vejgodat: python3 flow.py"""
import numpy as np
import vejgodat

ranks, epoch = 3, 7
mesh = vejgodat.brick(4, 3, 2, periodic=(True, False, False))
leaves = np.ones(24, np.uint32)
old = vejgodat.table_from_leaves(ranks, leaves)
leaves[:5] = 8
new = vejgodat.table_from_leaves(ranks, leaves)

areas = [vejgodat.Area.open(old, new, q, 3, epoch) for q in range(ranks)]
messages = [sent for p in range(ranks) for sent in vejgodat.build_all(vejgodat.cut(mesh, old, p), new, epoch)]
for receiver, message in messages:
    areas[receiver].deliver(message)
for q in range(ranks):
    assert np.array_equal(areas[q].close().bytes, vejgodat.cut(mesh, new, q).bytes)
print(f"{ranks} ranks, {len(messages)} messages, each part as cut")
