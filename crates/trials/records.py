"""Records and tables put together, for the trials: paper 01, "Records" and "The table"."""
import struct


def u2(n): return struct.pack("<H", n & 0xFFFF)
def u4(n): return struct.pack("<I", n & 0xFFFFFFFF)
def cat(*parts): return b"".join(map(bytes, parts)) if any(isinstance(p, bytes) for p in parts) else sum(parts, [])
def rec(kind, body=b"", length=None): return u2(4 + len(body) if length is None else length) + u2(kind) + bytes(body)


# ---- expressions
def lit(z): return rec(32, u4(z))
def truth(n): return rec(33, [n])
def party(n): return rec(34, [n])
def var(i): return rec(35, [i])
def neg(e): return rec(36, e)
def op(kind, a, b): return rec(kind, bytes(a) + bytes(b))


YES, NIL, ONE = truth(1), rec(16), lit(1)


# ---- clauses
def owes(blame=0, wanted=1, where=YES, after=lit(0), within=lit(60), then=NIL):
    return rec(17, bytes([blame, wanted]) + where + after + within + bytes(then))


def may(wanted=1, where=YES, after=lit(0), within=lit(60), then=NIL, other=NIL):
    return rec(18, bytes([wanted]) + where + after + within + then + bytes(other))


def cond(e, t, f): return rec(19, cat(e, t, f, b""))
def both(a, b): return rec(20, cat(a, b, b""))
def either(a, b): return rec(21, cat(a, b, b""))
def inst(k, args=(), blames=()): return rec(22, bytes([k]) + b"".join(args) + bytes(blames))
def simply(blame, within): return owes(blame, within=lit(within))


# ---- agreements and readings
def reading(*types, count=None): return rec(2, [len(types) if count is None else count, *types])


def template(body, types=(), params=0, declared=0, count=None):
    return rec(3, bytes([len(types) if count is None else count, *types, params]) + u2(declared) + bytes(body))


def sized(units, body, types=(), params=0, declared=0):
    """Kind 4, with its units behind the declared parties: paper 02, No. 7."""
    return rec(4, bytes([len(types), *types, params]) + u2(declared) + bytes([units]) + bytes(body))


def agreement(main, templates=(), readings=(reading(1),), parties=2, counts=None, kind=1):
    n, m = counts if counts else (len(readings), len(templates))
    return rec(kind, u4(100) + bytes([parties, n, m]) + b"".join(readings) + b"".join(templates) + bytes(main))


def event(time, kind=0, values=()):
    """A reading of a type; of type 0 a time mark."""
    return rec(64, u4(time) + bytes([kind]) + b"".join(map(u4, values)))


SAMPLE = bytes.fromhex(
    "40000100640000000201000600020001012F00110000011500240011002A000500230000"
    "08002000FA0000000800200000000000080020003C00000004001000")

# ---- tables
ZEROS = [0] * 3080


def padded(n, cells): return list(cells) + [0] * (n - len(cells))
def table_with(head, units): return padded(3080, padded(8, head) + [z for u in units for z in padded(24, u)])
def waiting(sort, place, a, params, values): return [sort, place, a] + padded(5, params) + values
def joining(sort): return [sort]


# the last reading time, and when it last moved: at the start, 100, where nothing else is said
def running(time, units, moved=100): return table_with([1, time, 0, 0, len(units), moved], units)
def fulfilled(time, moved=100): return table_with([2, time, 0, 0, 0, moved], [])
def breached(time, bits, moved=100): return table_with([3, 170, time, bits, 0, moved], [])


def altered(i, z, cells): return cells[:i] + [z] + cells[i + 1:]
def cell(unit, k): return 8 + 24 * unit + k
