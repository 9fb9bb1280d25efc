"""Tables, senders and sets once more, from the definitions at the top of vejgodat.h, for small cases."""


def first(table, p):
    return table[p] if table[p] >= 0 else -table[p] - 1


def end(table, p):
    return abs(table[p + 1])


def trees(table, p):
    return range(first(table, p), max(first(table, p), end(table, p)))


def valid(table):
    ranks, K = range(len(table) - 1), table[-1]
    return (len(table) >= 2 and table[0] == 0 and 1 <= K <= 1048576 and all(-K <= entry <= K for entry in table)
            and all(end(table, p) - first(table, p) >= (1 if table[p] < 0 else 0) for p in ranks))


def sender(old, new, tree, receiver):
    """Of the ranks that have the tree, the nearest to the receiver; of two equally near, the lower."""
    if tree not in trees(new, receiver):
        return None
    return min((abs(p - receiver), p) for p in range(len(old) - 1) if tree in trees(old, p))[1]


def sent(old, new):
    """{(sender, receiver): [tree, ..]}"""
    moves = {}
    for q in range(len(new) - 1):
        for tree in trees(new, q):
            moves.setdefault((sender(old, new, tree, q), q), []).append(tree)
    return moves


def shares(ranks, leaves, weights):
    """The table whose rank p has the trees of its leaves: from ceil (N V / W) up to ceil (N (V + w) / W)."""
    of_leaf = [tree for tree, count in enumerate(leaves) for _ in range(count)]
    N, W, below, has = len(of_leaf), sum(weights), 0, []
    for weight in weights:
        has.append(of_leaf[-(-N * below // W):-(-N * (below + weight) // W)])
        below += weight
    return table_of([(part[0], part[-1] - part[0] + 1) if part else (0, 0) for part in has], len(leaves))


def table_of(ranges, K):
    """The table of a partition: an entry is negative where the rank's first tree is on a lower rank too; an empty rank has
    the first tree that no lower rank has."""
    table, reached = [], 0
    for begin, count in ranges:
        if count == 0:
            table.append(reached)
            continue
        table.append(begin if begin == reached else -begin - 1)
        reached = begin + count
    return table + [K]
