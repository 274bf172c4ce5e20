"""Faults of counts that rust/bench/table.awk must find."""
from planting import Room

LIMITED = ["awk", "-v", "limit=1.5", "-v", "smallest=64", "-v", "largest=64", "-f", "rust/bench/table.awk", "counts"]


def counts(archive=150, model="aa", peer="aa"):
    """A work whose rounds of the model take 100 instructions, those of the archive as many as are said, with these checksums. It may have no
    peer."""
    sides = (("archive", archive, "aa"), ("model", 100, model), ("peer", 50, peer), ("idle", 0, "00"))
    sides = [side for side in sides if side[2]]
    return "".join(f"meter 64 {side} {rounds} {7 + cost * rounds} 4 2 {sum_}\n" for side, cost, sum_ in sides for rounds in (10, 30))


def run():
    """Plants every fault; how many."""
    with Room("rust/bench/table.awk") as room:
        room.write("counts", counts())
        room.passes(LIMITED, "| meter | 64 | 80 | 40 | 37.5 | 25.0 | 1.50 | 12.5 | 3.00 | 75.0 | 50.0 |")
        room.finds(LIMITED, "the ratio is above 1.5", ("counts", counts(archive=151)))
        room.finds(LIMITED, "the answers differ", ("counts", counts(model="ab")))
        room.finds(LIMITED, "the answers differ", ("counts", counts(peer="ab")))
        room.write("counts", counts(peer=None))
        room.passes(LIMITED, "| meter | 64 | 80 | 40 | 37.5 | 25.0 | 1.50 | none | none | 75.0 | 50.0 |")
        room.finds(LIMITED, "the ratio is above 1.5", ("counts", counts(archive=151, peer=None)))
        room.finds(LIMITED, "the answers differ", ("counts", counts(model="ab", peer=None)))
        return room.count
