"""Moves the parts of a brick whenever its leaf counts change: mpirun -n 4 python3 move.py"""
import numpy as np
import vejgodat
from mpi4py import MPI

comm = MPI.COMM_WORLD


def table_of(step):
    """The table of a step's leaf counts, made on one rank for all: a layer of the brick is refined."""
    leaves = np.ones(512, np.uint32)
    leaves[64 * step:64 * step + 64] = 64
    table = vejgodat.table_from_leaves(comm.size, leaves) if comm.rank == 0 else np.empty(comm.size + 1, np.int64)
    comm.Bcast(table)
    return table


def move(part, new, epoch):
    """The part of this rank under the new table; all ranks call this, with the same table and epoch."""
    sent = [comm.Isend(message, receiver, epoch) for receiver, message in vejgodat.build_all(part, new, epoch)]
    area = vejgodat.Area.open(part.table, new, comm.rank, part.dimension, epoch)
    for _ in vejgodat.receive_set(part.table, new, comm.rank):
        status = MPI.Status()
        comm.Probe(MPI.ANY_SOURCE, epoch, status)
        message = np.empty(status.Get_count(MPI.BYTE), np.uint8)
        comm.Recv(message, status.Get_source(), epoch)
        area.deliver(message)
    MPI.Request.Waitall(sent)
    return area.close()


mesh = vejgodat.brick(8, 8, 8)
part = vejgodat.cut(mesh, table_of(0), comm.rank)
for step in range(1, 8):
    part = move(part, table_of(step), epoch=step)
    assert np.array_equal(part.bytes, vejgodat.cut(mesh, part.table, comm.rank).bytes)
print(f"rank {comm.rank} of {comm.size}: 7 moves, each part as cut", flush=True)
