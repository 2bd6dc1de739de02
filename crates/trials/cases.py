"""The calls of the program `trials`, cause by cause, each with what must come back: written by hand from the papers."""
from records import *

# a cause, or (entry, agreement, table, reading, number, parties or table after); behind it a reading's mark, if not 0,
# from No. 9 on its cost, which cost.py says of the others, and of No. 2 the forecast, which ahead.py says of the others;
# a preview has both its tables, and the second one afterwards
CALLS = []


def cause(name): CALLS.append(name)
def call(entry, data, table, event, *answer): CALLS.append((entry, bytes(data), table, bytes(event), *answer))


# ---- forms of a case
def refuses(number, data):
    """Each entry, whatever the table and the reading."""
    table = altered(3079, -1, altered(0, 7, ZEROS))
    call("check", data, [], b"", number, 0)
    call("start", data, table, b"", number, table)
    call("reading", data, table, b"", number, table)


def accepts(parties, data): call("check", data, [], b"", 0, parties)
def stays(number, data, table): call("start", data, table, b"", number, table)
def begins(data, table, after): call("start", data, table, b"", 0, after)


def rejects(number, data, table): call("reading", data, table, event(200), number, table)
def declines(number, data, table, r): call("reading", data, table, r, number, table)
def leads(data, table, r, after): call("reading", data, table, r, 0, after)


def case(name, data, number, parties=0):
    cause(name)
    refuses(number, data) if number else accepts(parties, data)


# ---- clauses and agreements
def nested(f, n, s):
    for _ in range(n):
        s = f(s)
    return s


def nest(clause, n): return nested(lambda c: both(c, NIL), n, clause)
def chained(n): return nested(lambda c: both(NIL, c), n, NIL)
def balanced(n): return NIL if n == 0 else both(balanced(n - 1), balanced(n - 1))
def shared(leaf, n): return leaf if n <= 1 else both(shared(leaf, n // 2), shared(leaf, n - n // 2))
def nothings(n): return shared(NIL, n)
def otherwise(f): return may(other=f)
def asking(e): return owes(where=e)
def after_is(e): return owes(after=e)
def within_is(e): return owes(within=e)
def then_is(t): return owes(then=t)
def is_zero(e): return op(43, e, lit(0))


A_NUMBER = reading(1)


def counting(parties, readings, templates, rest): return rec(1, u4(100) + bytes([parties, readings, templates]) + rest)
def calling(t): return agreement(inst(0), [t])
def beside(t): return agreement(NIL, [t])
def lending(c): return agreement(c, [template(simply(128, 60), [1], 1)])


def in_sight(k):
    """Eight values of a template, four of a reading and k of the next."""
    body = then_is(owes(0, 2, YES, ONE, ONE, NIL))
    return agreement(NIL, [template(body, [1] * 8, 0, 1)], [reading(1, 1, 1, 1), reading(*[1] * k)])


def second(inner, outer, body): return agreement(NIL, [template(NIL, declared=inner), template(body, declared=outer)])


# three parties, the main clause's being 0 and 1; reading type 1 with a number, a truth and a party
# template 0 (its body at place 28): a number and two parameters, of whom the first owes a reading above that number
# main: party 0 owes a reading with truth (at 72), then a choice (at 99) sees number, truth, party and remaining time;
# and template 0 for party 1, or party 1 owes a reading without truth (at 179)
MIXED = agreement(
    both(owes(0, where=var(1), then=otherwise(simply(0, 20))),
         either(inst(0, [lit(50)], [1, 1]), owes(1, where=neg(var(1))))),
    [template(owes(128, where=op(42, var(0), var(1))), [1], 2)], [reading(1, 2, 3)], 3)


def lent(q): return waiting(17, 28, 100, [q, 1], [50])
def values(a, b, c): return [a, b, c]


BEGUN = running(100, [joining(20), waiting(17, 72, 100, [], []), joining(21), lent(1), waiting(17, 179, 100, [], [])])
GOOD = running(110, [
    joining(20), waiting(18, 99, 110, [], [7, 1, 2, 50]), joining(21), lent(1), waiting(17, 179, 100, [], [])], 110)


def broken(table): rejects(7, MIXED, table)
def sound(time, table): leads(MIXED, table, event(time), table)
def unread(number, r): declines(number, MIXED, fulfilled(110), r)
def read_at(time, r): leads(MIXED, fulfilled(110), r, fulfilled(time))
def with_values(a, b, c): return event(120, 1, values(a, b, c))


WHOLE = with_values(7, 1, 2)


def many(n): return shared(inst(0), n)
def owing(c): return agreement(c, [template(simply(0, 60), declared=1)])


AWAITING = running(100, [waiting(17, 56, 100, [], [])])

# 16 parties, each owing in the main clause; in template 0 so do its party parameters
PARTIES, PARAMETERS = range(16), range(128, 132)
MEMBERS = [*PARTIES, *PARAMETERS]


def shared_by(members):
    half = len(members) // 2
    return both(shared_by(members[:half]), shared_by(members[half:])) if half else simply(members[0], 60)


def sided(*clauses): return agreement(NIL, [template(either(*clauses), [], 4, 65_535)], parties=16)
def pairs(members): return [(p, q) for q in members for p in members if p < q]


EVERYONE = agreement(shared_by(PARTIES), [template(shared_by(PARAMETERS), [], 4)], parties=16)


def owed(member, *params): return waiting(17, EVERYONE.index(simply(member, 60)), 100, list(params), [])
def one_of(a, b): return running(100, [joining(21), a, b])
def one_member(a, b): leads(EVERYONE, one_of(a, b), event(110), altered(1, 110, one_of(a, b)))
def two_members(a, b): declines(7, EVERYONE, one_of(a, b), event(110))

# ---- agreements, each by its name
# accepted
case("the sample", SAMPLE, 0, 1)
case("fulfilled alone", agreement(NIL), 0, 0)
case("two parties joined by and", agreement(both(owes(0), owes(1))), 0, 3)
case("or with one party twice", agreement(either(owes(1), owes(1))), 0, 2)
case("or with fulfilled", agreement(either(NIL, owes(1))), 0, 2)
case("choice with an else", agreement(may(other=owes(1, within=lit(20)))), 0, 2)
case("if with a party on each side", agreement(cond(YES, owes(0), owes(1))), 0, 3)
case("then sees the values and the remaining time", agreement(owes(then=owes(1, within=op(37, var(0), var(1))))), 0, 3)
case("where sees the value", agreement(owes(where=op(42, lit(1), var(0)))), 0, 1)
case("numbers at both ends", agreement(owes(after=lit(-1000000000), within=lit(1000000000))), 0, 1)
case("the last party of sixteen", agreement(owes(15), parties=16), 0, 1 << 15)
case("equal parties", agreement(owes(where=op(43, party(0), party(1)))), 0, 1)
case("equal truths", agreement(owes(where=op(43, YES, truth(0)))), 0, 1)
case("not and and", agreement(owes(where=op(41, neg(YES), YES))), 0, 1)
case("all four operations",
     agreement(owes(within=op(37, op(38, lit(9), lit(1)), op(39, lit(2), op(40, lit(7), lit(2)))))), 0, 1)
case("an instance by its declared parties", agreement(inst(0), [template(NIL, declared=3)]), 0, 3)
case("an instance by its blames", agreement(inst(0, blames=[1]), [template(owes(128), params=1)]), 0, 2)
case("an instance with values",
     agreement(inst(0, [lit(5), YES, party(1)]),
               [template(owes(within=var(0), where=op(41, var(1), op(43, var(2), party(1)))), (1, 2, 3), declared=1)]),
     0, 1)
case("a template that nothing names", agreement(NIL, [template(owes(1), declared=2)]), 0, 0)
case("a template within its own then", agreement(inst(0), [template(owes(then=inst(0)), declared=1)]), 0, 1)
case("a lower template unguarded", agreement(inst(1), [template(NIL), template(inst(0))]), 0, 0)
case("the main clause names the last template", agreement(inst(1), [template(NIL), template(NIL)]), 0, 0)
case("nesting of 24", agreement(nest(NIL, 22)), 0, 0)
case("a body at nesting of 24", agreement(NIL, [template(nest(NIL, 21))]), 0, 0)
case("16 in sight",
     agreement(inst(0, [lit(1)] * 8),
               [template(owes(wanted=2, then=owes(wanted=1, then=owes(wanted=3))), types=(1,) * 8, declared=1)],
               readings=[reading(1), reading(1, 1), reading()]), 0, 1)
case("width of 255", agreement(balanced(7)), 0, 0)
case("width of 256", agreement(may(other=balanced(7))), 0, 0)
case("sixteen reading types", agreement(owes(wanted=16), readings=[reading()] * 16), 0, 1)
case("thirty-two templates", agreement(NIL, [template(NIL)] * 32), 0, 0)
case("four values in a reading", agreement(owes(where=op(43, var(3), party(0))), readings=[reading(1, 2, 3, 3)]), 0, 1)
case("eight values and four parameters",
     agreement(inst(0, [lit(1)] * 8, [0, 1, 0, 1]), [template(NIL, types=(1,) * 8, params=4)]), 0, 3)

# 1: length
case("empty", b"", 1)
case("three bytes", b"\x03\x00\x01", 1)
case("one byte too many for its length", agreement(NIL) + b"\x00", 1)
case("a length beyond the bytes", u2(99) + agreement(NIL)[2:], 1)
case("over 16,384 bytes", rec(1, u4(100) + bytes([1, 1, 0]) + reading() + bytes(16384)), 1)

# 2: records
case("another kind of record", agreement(NIL, kind=2), 2)
case("only a header", rec(1), 2)
case("cut in the head", rec(1, u4(100) + bytes([2, 1])), 2)
case("no clause", agreement(b""), 2)
case("no parties", agreement(NIL, parties=0), 2)
case("seventeen parties", agreement(NIL, parties=17), 2)
case("no reading types", agreement(NIL, readings=()), 2)
case("seventeen reading types", agreement(NIL, readings=[reading()] * 17), 2)
case("thirty-three templates", agreement(NIL, [template(NIL)] * 33), 2)
case("a template for a reading type", agreement(NIL, readings=[template(NIL)]), 2)
case("a reading type for a template", agreement(NIL, [reading(1)]), 2)
case("five values in a reading", agreement(NIL, readings=[reading(1, 1, 1, 1, 1)]), 2)
case("a value type missing", agreement(NIL, readings=[reading(1, count=2)]), 2)
case("a value type left over", agreement(NIL, readings=[reading(1, 1, count=1)]), 2)
case("value type 0", agreement(NIL, readings=[reading(0)]), 2)
case("value type 4", agreement(NIL, readings=[reading(4)]), 2)
case("nine values in a template", agreement(NIL, [template(NIL, types=(1,) * 9)]), 2)
case("template value type 0", agreement(NIL, [template(NIL, types=(0,))]), 2)
case("template value type 4", agreement(NIL, [template(NIL, types=(4,))]), 2)
case("five party parameters", agreement(NIL, [template(NIL, params=5)]), 2)
case("a template without a clause", agreement(NIL, [template(b"")]), 2)
case("a template with two clauses", agreement(NIL, [template(NIL + NIL)]), 2)
case("two main clauses", agreement(NIL + NIL), 2)
case("kind 23 as a clause", agreement(rec(23)), 2)
case("kind 15 as a clause", agreement(rec(15)), 2)
case("an expression as a clause", agreement(YES), 2)
case("kind 44 as an expression", agreement(owes(where=rec(44))), 2)
case("kind 31 as an expression", agreement(owes(where=rec(31, b"\x01"))), 2)
case("a clause as an expression", agreement(owes(where=NIL)), 2)
case("fulfilled with a byte", agreement(rec(16, b"\x00")), 2)
case("a number of three bytes", agreement(owes(within=rec(32, b"\x00\x00\x00"))), 2)
case("a truth of two bytes", agreement(owes(where=rec(33, b"\x01\x01"))), 2)
case("an obligation without then", agreement(owes(then=b"")), 2)
case("an obligation with two thens", agreement(owes(then=NIL + NIL)), 2)
case("a choice without else", agreement(may(other=b"")), 2)
case("an if with one side", agreement(cond(YES, NIL, b"")), 2)
case("an and with one side", agreement(rec(20, NIL)), 2)
case("an or with three sides", agreement(rec(21, NIL * 3)), 2)
case("a not without operand", agreement(owes(where=rec(36))), 2)
case("a sum with one operand", agreement(owes(within=rec(37, lit(1)))), 2)
case("a part that runs past its record", agreement(rec(20, rec(16, length=9) + NIL)), 2)
case("a part of length 3", agreement(rec(20, rec(16, length=3) + NIL)), 2)
case("nesting of 25", agreement(nest(NIL, 23)), 2)
case("a body at nesting of 25", agreement(NIL, [template(nest(NIL, 22))]), 2)
case("an expression at nesting of 25", agreement(nest(owes(), 22)), 2)
case("an instance of no template", agreement(inst(0)), 2)
case("an instance past the last template", agreement(inst(1), [template(NIL)]), 2)
case("an instance without a template number", agreement(rec(22), [template(NIL)]), 2)
case("an argument missing", agreement(inst(0), [template(NIL, types=(1,))]), 2)
case("an argument too many", agreement(inst(0, [lit(1)]), [template(NIL)]), 2)
case("a blame missing", agreement(inst(0), [template(NIL, params=1)]), 2)
case("a blame too many", agreement(inst(0, blames=[0]), [template(NIL)]), 2)

# 3: typing
for name, e in (("1 + true", op(37, lit(1), YES)), ("true - 1", op(38, YES, lit(1))),
                ("1 * party", op(39, lit(1), party(0))), ("true / 1", op(40, YES, lit(1)))):
    case(name, agreement(owes(within=e)), 3)
for name, e in (("not 1", neg(lit(1))), ("1 and true", op(41, lit(1), YES)), ("true and 1", op(41, YES, lit(1))),
                ("true < true", op(42, YES, YES)), ("1 = true", op(43, lit(1), YES)),
                ("party = 0", op(43, party(0), lit(0)))):
    case(name, agreement(owes(where=e)), 3)
case("where a number", agreement(owes(where=lit(1))), 3)
case("after a truth", agreement(owes(after=YES)), 3)
case("within a party", agreement(owes(within=party(0))), 3)
case("an if on a number", agreement(cond(lit(1), NIL, NIL)), 3)
case("after sees no reading value", agreement(owes(after=var(0))), 3)
case("within sees no reading value", agreement(owes(within=var(0))), 3)
case("else sees no reading value", agreement(may(other=owes(within=var(0)))), 3)
case("where does not see the remaining time", agreement(owes(where=op(42, var(1), lit(1)))), 3)
case("a number above the end", agreement(owes(within=lit(1000000001))), 3)
case("a number below the end", agreement(owes(within=lit(-1000000001))), 3)
case("truth 2", agreement(owes(where=truth(2))), 3)
case("a party at the count", agreement(owes(where=op(43, party(2), party(0)))), 3)
case("a parameter as a party literal",
     agreement(inst(0, blames=[0]), [template(owes(128, where=op(43, party(128), party(0))), params=1)]), 3)
case("a blame at the count", agreement(owes(2)), 3)
case("a blame of 127", agreement(owes(127)), 3)
case("a parameter in the main clause", agreement(owes(128)), 3)
case("a parameter that the template lacks", agreement(inst(0, blames=[0]), [template(owes(129), params=1)]), 3)
case("blame 132", agreement(inst(0, blames=[0] * 4), [template(owes(132), params=4)]), 3)
case("wanted type 0", agreement(owes(wanted=0)), 3)
case("wanted type over the count", agreement(owes(wanted=2)), 3)
case("a declared party at the count", agreement(NIL, [template(NIL, declared=4)]), 3)
case("a constant party not declared", agreement(NIL, [template(owes(1), declared=1)]), 3)
case("17 in sight",
     agreement(inst(0, [lit(1)] * 8),
               [template(owes(wanted=2, then=owes(wanted=2, then=owes(wanted=2))), types=(1,) * 8, declared=1)],
               readings=[reading(1), reading(1, 1)]), 3)
case("or with two parties", agreement(either(owes(0), owes(1))), 3)
case("or with a party and a parameter", agreement(NIL, [template(either(owes(0), owes(128)), params=1, declared=1)]), 3)
case("or with two parameters", agreement(NIL, [template(either(owes(128), owes(129)), params=2)]), 3)
case("or by declared parties", agreement(either(inst(0), owes(0)), [template(NIL, declared=2)]), 3)
case("or inside a then", agreement(owes(then=either(owes(0), owes(1)))), 3)
case("an argument of another type", agreement(inst(0, [YES]), [template(NIL, types=(1,))]), 3)
case("an instance's blame at the count", agreement(inst(0, blames=[2]), [template(NIL, params=1)]), 3)
case("an untyped template that nothing names", agreement(NIL, [template(owes(where=lit(1)), declared=1)]), 3)
case("3 before 4", agreement(owes(2), [template(inst(0))]), 3)

# 4: guards
case("template 0 is just template 0", agreement(NIL, [template(inst(0))]), 4)
case("a later template", agreement(NIL, [template(inst(1)), template(NIL)]), 4)
case("itself beside and", agreement(NIL, [template(both(NIL, inst(0)))]), 4)
case("itself in an if", agreement(NIL, [template(cond(YES, inst(0), NIL))]), 4)
case("itself in an else", agreement(NIL, [template(may(other=inst(0)))]), 4)
case("4 before 5", agreement(both(balanced(7), NIL), [template(inst(0))]), 4)

# 5: widths
case("129 fulfilled joined by 128 and", agreement(both(balanced(7), NIL)), 5)
case("a wide body", agreement(NIL, [template(both(balanced(7), NIL))]), 5)
case("a wide then", agreement(owes(then=both(balanced(7), NIL))), 5)
case("a wide then of a choice", agreement(may(then=both(balanced(7), NIL))), 5)
case("wide by an instance", agreement(both(inst(0), NIL), [template(balanced(7))]), 5)
case("wide by an else", agreement(may(other=may(other=balanced(7)))), 5)
case("wide by doubling", agreement(NIL, [template(NIL)] + [template(both(inst(k), inst(k))) for k in range(31)]), 5)

# ---- the refusals, number by number and cause by cause, with what lies just inside
# 1
cause("1: the table's example")
refuses(1, [])
cause("1: under 4 bytes, as long as it says")
refuses(1, [3, 0, 1])
cause("1: a byte too many, a byte too few")
refuses(1, cat(SAMPLE, [0]))
refuses(1, SAMPLE[:63])
cause("1: 16,385 bytes; with 16,384 it is the next number")
refuses(1, rec(1, [0] * 16_381))
refuses(2, rec(1, [0] * 16_380))
accepts(1, SAMPLE)

# 2
cause("2: the table's example")
refuses(2, agreement(rec(23)))
cause("2: kinds beside a clause's, and one that is 16 in its low byte")
refuses(2, agreement(rec(15)))
refuses(2, agreement(rec(272)))
cause("2: kinds beside an expression's, and one that is 33 in its low byte")
refuses(2, agreement(asking(rec(31, [1]))))
refuses(2, agreement(asking(rec(44, cat(ONE, ONE)))))
refuses(2, agreement(asking(rec(289, [1]))))
cause("2: not kind 1, 2, 3 where these are due")
refuses(2, rec(2, cat(u4(100), [2, 1, 0], A_NUMBER, NIL)))
refuses(2, counting(2, 1, 0, cat(rec(3, [1, 1]), NIL)))
refuses(2, counting(2, 1, 1, cat(A_NUMBER, rec(2, cat([0] * 4, NIL)), NIL)))
cause("2: only a header")
refuses(2, rec(1))
cause("2: party count 0, 1, 16, 17")
refuses(2, agreement(NIL, [], [A_NUMBER], 0))
accepts(0, agreement(NIL, [], [A_NUMBER], 1))
accepts(32_768, agreement(simply(15, 60), [], [A_NUMBER], 16))
refuses(2, agreement(NIL, [], [A_NUMBER], 17))
cause("2: reading count 0, 16, 17")
refuses(2, agreement(NIL, [], [], 2))
accepts(1, agreement(owes(0, 16, YES, ONE, ONE, NIL), [], [A_NUMBER] * 16, 2))
refuses(2, agreement(NIL, [], [A_NUMBER] * 17, 2))
cause("2: template count 32, 33")
accepts(0, agreement(inst(31), [template(NIL)] * 32))
refuses(2, agreement(NIL, [template(NIL)] * 33))
cause("2: fewer records than counted, and more")
refuses(2, counting(2, 2, 0, cat(A_NUMBER, NIL)))
refuses(2, counting(2, 1, 0, cat(A_NUMBER, A_NUMBER, NIL)))
refuses(2, counting(2, 1, 1, cat(A_NUMBER, NIL)))
refuses(2, counting(2, 1, 0, cat(A_NUMBER, template(NIL), NIL)))
cause("2: a reading type's value count 0, 4, 5; fewer types, and more")
accepts(0, agreement(NIL, [], [reading()], 2))
accepts(0, agreement(NIL, [], [reading(1, 2, 3, 1)], 2))
refuses(2, agreement(NIL, [], [reading(1, 2, 3, 1, 2)], 2))
refuses(2, agreement(NIL, [], [rec(2, [2, 1])], 2))
refuses(2, agreement(NIL, [], [rec(2, [1, 1, 1])], 2))
refuses(2, agreement(NIL, [], [rec(2)], 2))
cause("2: a template's value count 8, 9; parameter count 4, 5")
accepts(0, beside(template(NIL, [1] * 8, 0, 0)))
refuses(2, beside(template(NIL, [1] * 9, 0, 0)))
accepts(0, beside(template(NIL, [], 4, 0)))
refuses(2, beside(template(NIL, [], 5, 0)))
cause("2: type bytes 0 and 4")
refuses(2, agreement(NIL, [], [reading(0)], 2))
refuses(2, agreement(NIL, [], [reading(4)], 2))
refuses(2, beside(template(NIL, [1, 0], 0, 0)))
refuses(2, beside(template(NIL, [4], 0, 0)))
cause("2: nesting of 24 and 25: clauses, a body's clauses, expressions")
accepts(0, agreement(chained(22)))
refuses(2, agreement(chained(23)))
accepts(0, beside(template(chained(21))))
refuses(2, beside(template(chained(22))))
accepts(1, agreement(asking(nested(neg, 21, YES))))
refuses(2, agreement(asking(nested(neg, 22, YES))))
cause("2: a length that is too short: under a header, by a byte; that is too long: by a byte, by 256")
refuses(2, agreement(rec(16, [], 3)))
refuses(2, agreement(rec(16, [], 0)))
refuses(2, agreement(asking(rec(33, [1], 4))))
refuses(2, agreement(asking(rec(33, [1], 6))))
refuses(2, agreement(rec(16, [], 5)))
refuses(2, agreement(rec(16, [], 260)))
refuses(2, counting(2, 1, 0, cat(rec(2, [1, 1], 7), NIL)))
refuses(2, agreement(both(rec(16, [], 8), NIL)))
cause("2: a byte left over: at the end of the agreement, in each literal, in a fulfilled")
refuses(2, agreement(cat(NIL, [0])))
refuses(2, agreement(after_is(rec(32, cat(u4(1), [0])))))
refuses(2, agreement(asking(rec(33, [1, 0]))))
refuses(2, agreement(asking(op(43, rec(34, [1, 0]), party(1)))))
refuses(2, agreement(asking(is_zero(rec(35, [0, 0])))))
refuses(2, agreement(rec(16, [0])))
cause("2: a byte left over: in clauses 17 to 22, in expressions 36 and 41, in a body")
refuses(2, agreement(then_is(cat(NIL, [0]))))
refuses(2, agreement(otherwise(cat(NIL, [0]))))
refuses(2, agreement(cond(YES, NIL, cat(NIL, [0]))))
refuses(2, agreement(both(NIL, cat(NIL, [0]))))
refuses(2, agreement(either(NIL, cat(NIL, [0]))))
refuses(2, calling(template(cat(NIL, [0]))))
refuses(2, agreement(asking(neg(cat(YES, [0])))))
refuses(2, agreement(asking(op(41, YES, cat(YES, [0])))))
cause("2: a literal cut short")
refuses(2, agreement(after_is(rec(32, [1, 0, 0]))))
refuses(2, agreement(asking(rec(33))))
refuses(2, agreement(asking(op(43, rec(34), party(1)))))
refuses(2, agreement(asking(is_zero(rec(35)))))
cause("2: a child cut short, and none")
refuses(2, agreement(both(NIL, NIL[:3])))
refuses(2, agreement(NIL[:3]))
refuses(2, agreement([]))
refuses(2, agreement(rec(17)))
refuses(2, agreement(then_is([])))
refuses(2, agreement(otherwise([])))
refuses(2, agreement(cond(YES, NIL, [])))
refuses(2, agreement(both(NIL, [])))
refuses(2, agreement(either([], [])))
refuses(2, agreement(asking(neg([]))))
refuses(2, agreement(asking(op(41, YES, []))))
refuses(2, agreement(rec(22)))
refuses(2, beside(template([])))
refuses(2, beside(rec(3, [0, 0, 0])))
refuses(2, beside(rec(3)))
cause("2: an expression where a clause is due")
refuses(2, agreement(YES))
refuses(2, agreement(both(YES, NIL)))
refuses(2, agreement(then_is(ONE)))
refuses(2, agreement(may(1, YES, ONE, ONE, ONE, NIL)))
refuses(2, agreement(otherwise(ONE)))
refuses(2, agreement(cond(YES, NIL, YES)))
refuses(2, beside(template(ONE)))
cause("2: a clause where an expression is due")
refuses(2, agreement(asking(NIL)))
refuses(2, agreement(after_is(NIL)))
refuses(2, agreement(within_is(NIL)))
refuses(2, agreement(may(1, NIL, ONE, ONE, NIL, NIL)))
refuses(2, agreement(may(1, YES, NIL, ONE, NIL, NIL)))
refuses(2, agreement(may(1, YES, ONE, NIL, NIL, NIL)))
refuses(2, agreement(asking(neg(NIL))))
refuses(2, agreement(asking(op(42, ONE, NIL))))
refuses(2, agreement(cond(NIL, NIL, NIL)))
refuses(2, lending(inst(0, [NIL], [0])))
cause("2: an instance naming no template; in a `then` that nothing reaches")
refuses(2, agreement(inst(0)))
refuses(2, beside(template(inst(1))))
refuses(2, agreement(then_is(inst(0))))
cause("2: an argument missing, one too many; a blame too few, one too many")
accepts(1, lending(inst(0, [ONE], [0])))
refuses(2, lending(inst(0, [], [0])))
refuses(2, lending(inst(0, [ONE, ONE], [0])))
refuses(2, lending(inst(0, [ONE], [])))
refuses(2, lending(inst(0, [ONE], [0, 0])))
cause("2: before 3")
refuses(2, agreement(both(asking(ONE), rec(23))))

# 3
cause("3: the table's example")
refuses(3, agreement(asking(is_zero(op(37, ONE, YES)))))
cause("3: each operator in its place")
accepts(1, agreement(asking(op(
    41, neg(op(42, op(37, ONE, op(38, ONE, ONE)), op(39, ONE, op(40, ONE, ONE)))),
    op(41, op(43, ONE, ONE), op(41, op(43, YES, YES), op(43, party(0), party(1))))))))
cause("3: each operator with a wrong operand: not")
refuses(3, agreement(asking(neg(ONE))))
refuses(3, agreement(asking(neg(party(0)))))
cause("3: plus, minus, times, quotient")
refuses(3, agreement(asking(is_zero(op(37, YES, ONE)))))
refuses(3, agreement(asking(is_zero(op(37, ONE, party(0))))))
refuses(3, agreement(asking(is_zero(op(38, YES, ONE)))))
refuses(3, agreement(asking(is_zero(op(38, ONE, YES)))))
refuses(3, agreement(asking(is_zero(op(39, party(0), ONE)))))
refuses(3, agreement(asking(is_zero(op(39, ONE, YES)))))
refuses(3, agreement(asking(is_zero(op(40, YES, ONE)))))
refuses(3, agreement(asking(is_zero(op(40, ONE, YES)))))
refuses(3, agreement(asking(is_zero(op(37, YES, YES)))))
cause("3: and")
refuses(3, agreement(asking(op(41, ONE, YES))))
refuses(3, agreement(asking(op(41, YES, ONE))))
refuses(3, agreement(asking(op(41, party(0), party(0)))))
cause("3: less")
refuses(3, agreement(asking(op(42, YES, ONE))))
refuses(3, agreement(asking(op(42, ONE, YES))))
refuses(3, agreement(asking(op(42, party(0), party(1)))))
cause("3: equal, of two types")
refuses(3, agreement(asking(op(43, ONE, YES))))
refuses(3, agreement(asking(op(43, party(0), ONE))))
refuses(3, agreement(asking(op(43, YES, party(0)))))
cause("3: each result is of its type")
refuses(3, agreement(asking(op(37, ONE, ONE))))
refuses(3, agreement(within_is(neg(YES))))
refuses(3, agreement(within_is(op(41, YES, YES))))
refuses(3, agreement(within_is(op(42, ONE, ONE))))
refuses(3, agreement(within_is(op(43, ONE, ONE))))
cause("3: a wrong type: where, after, within, of an obligation and of a choice")
refuses(3, agreement(asking(ONE)))
refuses(3, agreement(asking(party(0))))
refuses(3, agreement(after_is(YES)))
refuses(3, agreement(after_is(party(0))))
refuses(3, agreement(within_is(YES)))
refuses(3, agreement(within_is(party(0))))
refuses(3, agreement(may(1, ONE, ONE, ONE, NIL, NIL)))
refuses(3, agreement(may(1, YES, YES, ONE, NIL, NIL)))
refuses(3, agreement(may(1, YES, ONE, party(0), NIL, NIL)))
cause("3: an if's condition")
refuses(3, agreement(cond(ONE, NIL, NIL)))
refuses(3, agreement(cond(party(0), NIL, NIL)))
cause("3: an instance's argument")
refuses(3, lending(inst(0, [YES], [0])))
refuses(3, lending(inst(0, [party(0)], [0])))
accepts(0, agreement(inst(0, [YES, party(1)], []), [template(NIL, [2, 3], 0, 0)]))
refuses(3, agreement(inst(0, [party(1), YES], []), [template(NIL, [2, 3], 0, 0)]))
cause("3: a value in sight: where sees the reading's one, and no other")
accepts(1, agreement(asking(is_zero(var(0)))))
refuses(3, agreement(asking(is_zero(var(1)))))
refuses(3, agreement(asking(var(0))))
cause("3: after, within and else see no reading")
refuses(3, agreement(after_is(var(0))))
refuses(3, agreement(within_is(var(0))))
refuses(3, agreement(otherwise(within_is(var(0)))))
refuses(3, agreement(cond(is_zero(var(0)), NIL, NIL)))
cause("3: then sees it, after it the remaining time, and no more")
accepts(1, agreement(then_is(after_is(op(37, var(0), var(1))))))
accepts(1, agreement(may(1, YES, ONE, ONE, after_is(op(37, var(0), var(1))), NIL)))
refuses(3, agreement(then_is(after_is(var(2)))))
accepts(1, agreement(then_is(asking(is_zero(var(2))))))
refuses(3, agreement(then_is(asking(is_zero(var(3))))))
cause("3: a template's values come first, and the main clause sees none of them")
accepts(0, beside(template(asking(op(41, var(0), is_zero(var(1)))), [2], 0, 1)))
refuses(3, beside(template(asking(is_zero(var(0))), [2], 0, 1)))
refuses(3, lending(inst(0, [var(0)], [0])))
cause("3: a party parameter is no value")
refuses(3, beside(template(cond(op(43, var(0), party(0)), NIL, NIL), [], 1, 0)))
cause("3: literals at their ends and beyond them")
accepts(1, agreement(within_is(lit(1_000_000_000))))
refuses(3, agreement(within_is(lit(1_000_000_001))))
accepts(1, agreement(within_is(lit(-1_000_000_000))))
refuses(3, agreement(within_is(lit(-1_000_000_001))))
accepts(1, agreement(asking(truth(0))))
refuses(3, agreement(asking(truth(2))))
refuses(3, agreement(asking(op(43, party(0), party(2)))))
refuses(3, agreement(asking(op(43, party(0), party(128)))))
refuses(3, beside(template(cond(op(43, party(0), party(128)), NIL, NIL), [], 1, 0)))
cause("3: a blame: the last party, the next; a parameter in the main clause")
accepts(2, agreement(simply(1, 60)))
refuses(3, agreement(simply(2, 60)))
refuses(3, agreement(simply(127, 60)))
refuses(3, agreement(simply(128, 60)))
cause("3: a parameter that the template has, that it lacks, that none has")
accepts(0, beside(template(simply(131, 60), [], 4, 0)))
refuses(3, beside(template(simply(131, 60), [], 3, 0)))
refuses(3, beside(template(simply(128, 60), [], 0, 0)))
refuses(3, beside(template(simply(132, 60), [], 4, 0)))
cause("3: an instance's blames")
accepts(2, lending(inst(0, [ONE], [1])))
refuses(3, lending(inst(0, [ONE], [2])))
refuses(3, lending(inst(0, [ONE], [128])))
accepts(0, agreement(NIL, [template(NIL, [], 1, 0), template(inst(0, [], [128]), [], 1, 0)]))
refuses(3, agreement(NIL, [template(NIL, [], 1, 0), template(inst(0, [], [129]), [], 1, 0)]))
cause("3: a wanted type of 0, and above the count")
refuses(3, agreement(owes(0, 0, YES, ONE, ONE, NIL)))
refuses(3, agreement(owes(0, 2, YES, ONE, ONE, NIL)))
refuses(3, agreement(may(0, YES, ONE, ONE, NIL, NIL)))
refuses(3, agreement(may(2, YES, ONE, ONE, NIL, NIL)))
cause("3: a declared party above the count")
accepts(0, beside(template(NIL, declared=3)))
refuses(3, beside(template(NIL, declared=4)))
refuses(3, beside(template(NIL, declared=32_768)))
cause("3: an instance's parties are the declared ones, used or not, and its blames, used or not")
accepts(3, calling(template(NIL, declared=3)))
accepts(2, agreement(inst(0, [], [1]), [template(NIL, [], 1, 0)]))
cause("3: a body's constant party that is not declared: a blame, in a then, in an else, an instance's blame, "
      "an instance's declared one")
accepts(0, beside(template(simply(0, 60), declared=1)))
refuses(3, beside(template(simply(1, 60), declared=1)))
refuses(3, beside(template(then_is(simply(1, 60)), declared=1)))
refuses(3, beside(template(otherwise(simply(1, 60)))))
accepts(0, agreement(NIL, [template(NIL, [], 1, 0), template(inst(0, [], [1]), declared=2)]))
refuses(3, agreement(NIL, [template(NIL, [], 1, 0), template(inst(0, [], [1]), declared=1)]))
accepts(0, second(1, 1, inst(0)))
refuses(3, second(2, 1, inst(0)))
cause("3: 16 in sight, 17 in an unused then")
accepts(0, in_sight(2))
refuses(3, in_sight(3))
cause("3: `or` with one party on both sides, with two parties")
accepts(1, agreement(either(simply(0, 50), simply(0, 60))))
accepts(1, agreement(either(simply(0, 50), NIL)))
refuses(3, agreement(either(simply(0, 50), simply(1, 60))))
refuses(3, agreement(either(NIL, then_is(simply(1, 60)))))
refuses(3, agreement(either(otherwise(simply(1, 60)), simply(0, 60))))
cause("3: with a party and a parameter, with one parameter on both sides, with two parameters")
refuses(3, beside(template(either(simply(0, 60), simply(128, 60)), [], 1, 1)))
accepts(0, beside(template(either(simply(128, 60), simply(128, 60)), [], 1, 0)))
refuses(3, beside(template(either(simply(128, 60), simply(129, 60)), [], 2, 0)))
cause("3: with an instance: of one party, of two declared ones, of a declared one and a blame")
accepts(2, agreement(either(inst(0), simply(1, 60)), [template(NIL, declared=2)]))
refuses(3, agreement(either(inst(0), NIL), [template(NIL, declared=3)]))
refuses(3, agreement(either(inst(0, [], [1]), NIL), [template(NIL, [], 1, 1)]))
cause("3: with no member, with each member alone, parameters too")
accepts(0, sided(NIL, NIL))
for m in MEMBERS:
    accepts(0, sided(simply(m, 50), simply(m, 60)))
cause("3: with each two members, parameters too")
for p, q in pairs(MEMBERS):
    call("check", sided(simply(p, 60), simply(q, 60)), [], b"", 3, 0)
cause("3: with the first 3 to 20 members, and the last")
for n in range(3, 21):
    call("check", sided(shared_by(MEMBERS[:n - 1]), simply(MEMBERS[n - 1], 60)), [], b"", 3, 0)
    call("check", sided(simply(MEMBERS[-n], 60), shared_by(MEMBERS[1 - n:])), [], b"", 3, 0)
cause("3: before 4")
refuses(3, agreement(asking(ONE), [template(inst(0), declared=1)]))

# 4
cause("4: the table's example")
refuses(4, calling(template(inst(0))))
refuses(4, beside(template(inst(0))))
cause("4: a later one")
refuses(4, agreement(NIL, [template(inst(1)), template(NIL)]))
cause("4: on either side of an and, an or, an if")
refuses(4, beside(template(both(NIL, inst(0)))))
refuses(4, beside(template(either(inst(0), NIL))))
refuses(4, beside(template(cond(YES, NIL, inst(0)))))
cause("4: inside an else")
refuses(4, beside(template(otherwise(inst(0)))))
cause("4: accepted: an earlier one, inside a then of either kind, inside an else inside a then, main naming any")
accepts(0, agreement(inst(1), [template(NIL), template(inst(0))]))
accepts(1, calling(template(then_is(inst(0)), declared=1)))
accepts(0, calling(template(may(1, YES, ONE, ONE, inst(0), NIL))))
accepts(1, calling(template(then_is(otherwise(inst(0))), declared=1)))
cause("4: before 5")
refuses(4, agreement(nothings(129), [template(inst(0))]))

# 5
cause("5: the table's example: width 257")
refuses(5, agreement(nothings(129)))
cause("5: 255, and 256 by an else")
accepts(0, agreement(nothings(128)))
accepts(0, agreement(otherwise(nothings(128))))
cause("5: over it by an if and by an or")
refuses(5, agreement(cond(YES, NIL, nothings(128))))
refuses(5, agreement(either(nothings(128), NIL)))
cause("5: a body that nothing names")
accepts(0, beside(template(otherwise(nothings(128)))))
refuses(5, beside(template(nothings(129))))
cause("5: a then of either kind; what lies in it does not add to the clause")
accepts(1, agreement(then_is(otherwise(nothings(128)))))
refuses(5, agreement(then_is(nothings(129))))
refuses(5, agreement(may(1, YES, ONE, ONE, nothings(129), NIL)))
refuses(5, agreement(otherwise(then_is(nothings(129)))))
cause("5: a then within a then, beside an if, an and, an or, in a body")
refuses(5, agreement(then_is(then_is(nothings(129)))))
refuses(5, agreement(may(1, YES, ONE, ONE, then_is(nothings(129)), NIL)))
refuses(5, agreement(cond(YES, then_is(nothings(129)), NIL)))
refuses(5, agreement(both(NIL, then_is(nothings(129)))))
refuses(5, agreement(either(then_is(nothings(129)), NIL)))
refuses(5, beside(template(then_is(nothings(129)), declared=1)))
cause("5: an instance adds 1 to the body's")
accepts(0, calling(template(nothings(128))))
refuses(5, calling(template(otherwise(nothings(128)))))
refuses(5, agreement(then_is(inst(0)), [template(otherwise(nothings(128)))]))

# 6
cause("6: the table's example, for start and for reading")
stays(6, MIXED, BEGUN[:3079])
rejects(6, MIXED, GOOD[:3079])
cause("6: a cell too many, no cell")
stays(6, MIXED, cat(GOOD, [0]))
rejects(6, MIXED, cat(GOOD, [0]))
stays(6, MIXED, [])
rejects(6, MIXED, [])
cause("6: before 7")
rejects(6, MIXED, [9])
cause("6: 'Start ignores the table's earlier contents.'")
begins(MIXED, ZEROS, BEGUN)
begins(MIXED, altered(0, 9, GOOD), BEGUN)

# 7
cause("7: the table that the others alter is the run's")
leads(MIXED, BEGUN, event(110, 1, values(7, 1, 2)), GOOD)
sound(110, GOOD)
cause("7: the table's example; states 0, 4 and negative")
broken(altered(0, 9, GOOD))
broken(altered(0, 0, GOOD))
broken(altered(0, 4, GOOD))
broken(altered(0, -1, GOOD))
broken(ZEROS)
cause("7: last reading time at its ends and beyond them")
sound(100, fulfilled(100))
broken(fulfilled(99))
broken(altered(1, -1, fulfilled(100)))
sound(4_294_967_295, fulfilled(4_294_967_295))
broken(fulfilled(4_294_967_296))
broken(altered(1, 4_294_967_296, GOOD))
broken(altered(1, 4_294_967_296, breached(160, 1)))
cause("7: head cells that are zero while running")
broken(altered(2, 105, GOOD))
broken(altered(3, 1, GOOD))
broken(altered(6, 1, GOOD))
broken(altered(7, 1, GOOD))
broken(altered(7, -1, GOOD))
cause("7: when fulfilled")
broken(altered(2, 105, fulfilled(110)))
broken(altered(3, 1, fulfilled(110)))
broken(altered(4, 1, fulfilled(110)))
cause("7: when breached")
broken(altered(4, 1, breached(160, 1)))
broken(altered(6, -1, breached(160, 1)))
cause("7: running without units, units not counted, units too many")
broken(running(110, []))
broken(altered(4, 0, GOOD))
broken(altered(4, 4, GOOD))
broken(altered(4, 6, GOOD))
broken(altered(4, 129, GOOD))
broken(altered(4, -1, GOOD))
cause("7: a join lacking both sides, its right side; two residues")
broken(running(110, [joining(20)]))
broken(running(110, [joining(21), lent(1)]))
broken(running(110, [lent(1), lent(1)]))
broken(running(110, [lent(1), joining(20), lent(1)]))
cause("7: an `or` as the left side of an `and`")
sound(110, running(110, [joining(20), joining(21), lent(1), lent(1), lent(0)]))
cause("7: no sort of a unit")
broken(altered(cell(4, 0), 19, GOOD))
broken(altered(cell(4, 0), 16, GOOD))
broken(altered(cell(4, 0), 22, GOOD))
broken(altered(cell(4, 0), -17, GOOD))
cause("7: a place that is no clause: 0, negative, within the clause, an `and`, its `then`, beyond the end")
broken(altered(cell(4, 1), 0, GOOD))
broken(altered(cell(4, 1), -1, GOOD))
broken(altered(cell(4, 1), 180, GOOD))
broken(altered(cell(4, 1), 68, GOOD))
broken(altered(cell(4, 1), 210, GOOD))
broken(altered(cell(4, 1), 1000, GOOD))
cause("7: a place of a clause of the other sort")
broken(altered(cell(4, 0), 18, GOOD))
broken(altered(cell(1, 0), 17, GOOD))
cause("7: A at the start and at the last reading time, before and after them")
sound(110, altered(cell(4, 2), 110, GOOD))
broken(altered(cell(4, 2), 99, GOOD))
broken(altered(cell(4, 2), 111, GOOD))
broken(altered(cell(4, 2), -1, GOOD))
cause("7: cell 7 of a unit")
broken(altered(cell(3, 7), 1, GOOD))
cause("7: a parameter that is not used, in range and not; another not in range; one where there is none")
sound(110, altered(cell(3, 4), 2, GOOD))
broken(altered(cell(3, 4), 3, GOOD))
broken(altered(cell(3, 4), -1, GOOD))
broken(running(110, [lent(3)]))
broken(altered(cell(3, 3), -1, GOOD))
broken(altered(cell(3, 5), 1, GOOD))
broken(altered(cell(4, 3), 1, GOOD))
broken(altered(cell(4, 6), 1, GOOD))
cause("7: a number at its ends and beyond them")
sound(110, altered(cell(1, 8), 1_000_000_000, GOOD))
broken(altered(cell(1, 8), 1_000_000_001, GOOD))
sound(110, altered(cell(1, 8), -1_000_000_000, GOOD))
broken(altered(cell(1, 8), -1_000_000_001, GOOD))
cause("7: what is no truth, no party")
sound(110, altered(cell(1, 9), 0, GOOD))
broken(altered(cell(1, 9), 2, GOOD))
broken(altered(cell(1, 9), -1, GOOD))
broken(altered(cell(1, 10), 3, GOOD))
broken(altered(cell(1, 10), -1, GOOD))
cause("7: a value where none is in sight")
broken(altered(cell(1, 12), 1, GOOD))
broken(altered(cell(4, 8), 1, GOOD))
broken(altered(cell(4, 23), 1, GOOD))
cause("7: a join unit's other cells")
broken(altered(cell(0, 1), 68, GOOD))
broken(altered(cell(0, 2), 100, GOOD))
broken(altered(cell(2, 3), 1, GOOD))
broken(altered(cell(2, 23), -1, GOOD))
cause("7: an unused cell")
broken(altered(cell(5, 0), 17, GOOD))
broken(altered(3079, 1, GOOD))
cause("7: a party of the main clause, and one that is not")
sound(110, running(110, [lent(0)]))
broken(running(110, [lent(2)]))
cause("7: the rule for `or`: two parties beside an `or`, by a parameter and by an `and` turned into an `or`")
broken(altered(cell(3, 3), 0, GOOD))
broken(altered(cell(0, 0), 21, GOOD))
sound(110, altered(cell(2, 0), 20, GOOD))
cause("7: each party alone on both sides of an `or`: itself, by the first parameter, by the last")
for p in PARTIES:
    one_member(owed(p), owed(p))
    one_member(owed(p), owed(128, p, 0, 0, 0))
    one_member(owed(131, 0, 0, 0, p), owed(128, p, 0, 0, 0))
cause("7: each two parties: themselves, by the first parameter, by the last")
for p, q in pairs(PARTIES):
    two_members(owed(p), owed(q))
    two_members(owed(q), owed(128, p, 0, 0, 0))
    two_members(owed(131, 0, 0, 0, p), owed(128, q, 0, 0, 0))
cause("7: a breach by each party of the main clause; without party, with one not of it, with a bit above 15")
sound(170, breached(160, 3))
broken(breached(160, 0))
broken(breached(160, 4))
broken(breached(160, 5))
broken(breached(160, 65_536))
broken(breached(160, 65_537))
broken(altered(3, -1, breached(160, 1)))
cause("7: its time at the ends and beyond them")
sound(170, breached(100, 1))
sound(170, breached(170, 1))
broken(breached(99, 1))
broken(breached(171, 1))
broken(altered(2, -1, breached(160, 1)))
cause("7: a leftover cell")
broken(altered(8, 17, fulfilled(110)))
broken(altered(3079, 1, fulfilled(110)))
broken(altered(8, 17, breached(160, 1)))
broken(altered(3079, -1, breached(160, 1)))
cause("7: before 8")
declines(7, MIXED, ZEROS, [])

# 8
cause("8: a whole reading")
read_at(120, WHOLE)
cause("8: the table's example: 8 bytes, and none")
unread(8, rec(64, u4(120)))
unread(8, [])
cause("8: its length says more, or less; bytes behind it")
unread(8, WHOLE[:20])
unread(8, rec(64, cat(u4(120), [0]), 8))
unread(8, cat(WHOLE, [0]))
unread(8, cat(event(120), event(120)))
cause("8: another kind")
unread(8, rec(63, cat(u4(120), [0])))
unread(8, rec(65, cat(u4(120), [0])))
unread(8, rec(320, cat(u4(120), [0])))
cause("8: 5 values, a ragged length")
unread(8, event(120, 1, [1] * 5))
unread(8, rec(64, cat(u4(120), [0, 0])))
unread(8, rec(64, cat(u4(120), [1], [0] * 11)))
cause("8: also on a running table and after a breach; before 9 and 10")
declines(8, MIXED, GOOD, [])
declines(8, MIXED, breached(160, 1), [])
unread(8, event(90, 2, [1] * 5))

# 9
cause("9: the table's example, and a negative truth")
unread(9, with_values(7, 2, 2))
unread(9, with_values(7, -1, 2))
read_at(120, with_values(7, 0, 2))
cause("9: a type over the count")
unread(9, event(120, 2, []))
unread(9, event(120, 255, values(7, 1, 2)))
cause("9: too few values, too many, a mark with a value")
unread(9, event(120, 1, []))
unread(9, event(120, 1, [7, 1]))
unread(9, event(120, 1, [7, 1, 2, 0]))
unread(9, event(120, 0, [0]))
read_at(120, event(120))
cause("9: a number at its ends and beyond them")
read_at(120, with_values(1_000_000_000, 1, 0))
unread(9, with_values(1_000_000_001, 1, 0))
read_at(120, with_values(-1_000_000_000, 1, 0))
unread(9, with_values(-1_000_000_001, 1, 0))
cause("9: a party at the count, and negative")
unread(9, with_values(7, 1, 3))
unread(9, with_values(7, 1, -1))
cause("9: also on a running table and after a breach; before 10")
declines(9, MIXED, GOOD, event(120, 2, []))
declines(9, MIXED, breached(160, 1), event(170, 2, []))
unread(9, event(90, 2, []))

# 10
cause("10: the table's example, on a running table and on a fulfilled one")
declines(10, MIXED, GOOD, event(105, 1, values(7, 1, 2)))
declines(10, MIXED, GOOD, event(109))
unread(10, event(105))
cause("10: before the start")
declines(10, MIXED, BEGUN, event(99))
cause("10: after a breach, against the reading that made it")
declines(10, MIXED, breached(160, 1), event(169))
cause("10: at the same time, and at the last minute that a reading can say")
read_at(110, event(110))
leads(MIXED, breached(160, 1), event(171), breached(160, 1))
read_at(4_294_967_295, event(4_294_967_295))

# 11
cause("11: at the start: 129 units")
stays(11, owing(many(65)), ZEROS)
accepts(1, owing(many(65)))
cause("11: by a reading; before it 10")
begins(owing(then_is(many(65))), ZEROS, AWAITING)
declines(11, owing(then_is(many(65))), AWAITING, event(110, 1, [0]))
declines(10, owing(then_is(many(65))), AWAITING, event(99, 1, [0]))
cause("11: a side that an `or` drops costs nothing")
begins(owing(either(many(65), NIL)), ZEROS, fulfilled(100))
leads(owing(then_is(either(NIL, many(65)))), AWAITING, event(110, 1, [0]), fulfilled(110, 110))
cause("11: 6 before 11")
stays(6, owing(many(65)), [])

# paper 02, No. 5
def asked(b, q): return agreement(asking(op(43, op(40, var(0), lit(b)), lit(q))))


ASKED = running(100, [waiting(17, 17, 100, [], [])])


def divided(a, b, q):
    """The reading's value a, divided by b, is the q that is asked for."""
    leads(asked(b, q), ASKED, event(110, 1, [a]), fulfilled(110, 110))


cause("the quotient with a fraction: it rounds down, by a number above 0 and by one below")
divided(7, 2, 3)
divided(-7, 2, -4)
divided(7, -2, -4)
divided(-7, -2, 3)
divided(1, -2, -1)
divided(-1, 2, -1)
divided(1, -1_000_000_000, -1)
divided(-1, 1_000_000_000, -1)
divided(999_999_999, 1_000_000_000, 0)
divided(-999_999_999, -1_000_000_000, 0)
cause("the quotient with a fraction is not the number above it")
leads(asked(2, -3), ASKED, event(110, 1, [-7]), running(110, [waiting(17, 17, 100, [], [])]))
leads(asked(-2, -3), ASKED, event(110, 1, [7]), running(110, [waiting(17, 17, 100, [], [])]))
cause("the quotient without a fraction")
divided(-8, 2, -4)
divided(8, -2, -4)
divided(-8, -2, 4)
divided(0, -5, 0)
cause("the quotient by 0 is 0")
divided(7, 0, 0)
divided(-7, 0, 0)
divided(0, 0, 0)
cause("the quotient of both ends by 1 and by -1")
divided(1_000_000_000, 1, 1_000_000_000)
divided(1_000_000_000, -1, -1_000_000_000)
divided(-1_000_000_000, 1, -1_000_000_000)
divided(-1_000_000_000, -1, 1_000_000_000)

# paper 02, No. 1
def moved(time, table): return altered(5, time, table)


def ranged(last, table):
    """When a table last moved: from the start to its last reading."""
    sound(last, moved(100, table))
    sound(last, moved(last, table))
    for time in (99, last + 1, -1, 0, 1 << 32, -1 << 63, (1 << 63) - 1):
        broken(moved(time, table))


cause("7: when it last moved at its ends and beyond them: running")
ranged(110, GOOD)
cause("7: fulfilled")
ranged(110, fulfilled(110))
cause("7: breached, also before the breach time and between it and the reading that showed it")
ranged(170, breached(160, 1))
sound(170, moved(159, breached(160, 1)))
sound(170, moved(161, breached(160, 1)))
cause("7: it asks nothing of any A")
sound(110, moved(105, GOOD))


# a template's obligation, at place 25, whose `then` is the template anew
EVER = agreement(inst(0), [template(then_is(inst(0)), declared=1)])


def waits_since(a): return waiting(17, 25, a, [], [])
def since(a, time, last_moved): return running(time, [waits_since(a)], last_moved)


cause("it begins as the start time, whatever the table held")
begins(EVER, moved(77, ZEROS), since(100, 100, 100))
begins(agreement(NIL), moved(-1, ZEROS), fulfilled(100))
cause("a mark moves the last reading time alone; so does a reading that nothing wants")
leads(EVER, since(100, 100, 100), event(110), since(100, 110, 100))
leads(EVER, since(105, 110, 107), event(110), since(105, 110, 107))
leads(agreement(asking(op(42, var(0), lit(5)))), ASKED, event(110, 1, [7]), moved(100, altered(1, 110, ASKED)))
cause("a unit with another A has altered")
leads(EVER, since(100, 105, 100), event(110, 1, [1]), since(110, 110, 110))
cause("a unit replaced by its equal, T being A, has not")
leads(EVER, since(100, 100, 100), event(100, 1, [1]), since(100, 100, 100))
leads(EVER, since(120, 120, 105), event(120, 1, [1]), since(120, 120, 105))
leads(EVER, since(120, 120, 105), event(121, 1, [1]), since(121, 121, 121))

# a `then` that waits in another place; a value handed on; two parties in turn
STEPS = agreement(then_is(simply(0, 60)))
VALUED = agreement(inst(0, [lit(1)]), [template(then_is(inst(0, [var(1)])), [1], declared=1)])
TURNING = agreement(inst(0, [], [0, 1]), [template(owes(128, then=inst(0, [], [129, 128])), [], 2)])


def valued(v, last_moved): return running(120, [waiting(17, 26, 120, [], [v])], last_moved)
def turning(p, q, last_moved): return running(120, [waiting(17, 25, 120, [p, q], [])], last_moved)


cause("T being A: another value alone, other parameters alone, another place have altered")
leads(VALUED, valued(1, 105), event(120, 1, [1]), valued(1, 105))
leads(VALUED, valued(1, 105), event(120, 1, [2]), valued(2, 120))
leads(VALUED, valued(1, 105), event(120, 1, [-1]), valued(-1, 120))
leads(TURNING, turning(0, 1, 105), event(120, 1, [1]), turning(1, 0, 120))
leads(STEPS, running(120, [waiting(17, 17, 120, [], [])], 105), event(120, 1, [3]),
      running(120, [waiting(17, STEPS.index(simply(0, 60)), 120, [], [3, 60])], 120))

# two obligations, and a template whose `then` is both of itself
PAIR = agreement(both(simply(0, 60), simply(1, 50)))
EITHER = agreement(either(simply(0, 50), simply(0, 60)))
TWICE = agreement(inst(0), [template(owes(then=both(inst(0), inst(0))), declared=1)])


def of_pair(sort, time, last_moved, *places):
    units = [waiting(17, place, 100, [], []) for place in places]
    return running(time, [joining(sort), *units] if len(units) > 1 else units, last_moved)


def grown(a, last_moved): return running(a, [joining(20), waits_since(a), waits_since(a)], last_moved)


cause("fewer units in use, more, and a breach and a fulfilment have altered")
leads(EITHER, of_pair(21, 100, 100, 21, 52), event(155), of_pair(21, 155, 155, 52))
leads(TWICE, since(100, 100, 100), event(110, 1, [1]), grown(110, 110))
leads(PAIR, of_pair(20, 100, 100, 21, 52), event(170), breached(150, 2, 170))
leads(PAIR, of_pair(20, 105, 100, 21, 52), event(120, 1, [1]), fulfilled(120, 120))
cause("a breach at the very minute of the start, shown by a mark")
leads(agreement(simply(0, -5)), ASKED, event(100), table_with([3, 100, 100, 1, 0, 100], []))
cause("readings of a fulfilled and of a breached table leave it")
leads(MIXED, moved(105, fulfilled(110)), event(120), moved(105, fulfilled(120)))
leads(MIXED, moved(105, fulfilled(110)), WHOLE, moved(105, fulfilled(120)))
leads(MIXED, moved(165, breached(160, 1)), event(180), moved(165, breached(160, 1)))
cause("8, 9, 10 and 11 leave it")
declines(8, MIXED, moved(105, GOOD), [])
declines(9, MIXED, moved(105, GOOD), event(120, 2, []))
declines(10, MIXED, moved(105, GOOD), event(109))
declines(11, owing(then_is(many(65))), moved(105, altered(1, 110, AWAITING)), event(110, 1, [0]))

# paper 02, No. 8
def level(time, z=0): return event(time, 1, [z])
def bell(time): return event(time, 2)
def pond(main, *bodies): return agreement(main, [template(t, declared=1) for t in bodies], [reading(1), reading()])
def from_to(first, last, **rest): return dict(after=lit(first - 100), within=lit(last - first), **rest)
def below(z): return op(42, var(0), lit(z))


# party 0 owes a level from 120 to 160, a bell by 400, a level that is never the right one
OPENING = owes(**from_to(120, 160))
BELL = owes(wanted=2, within=lit(300))
UNMET = owes(where=truth(0))
JOINS = ((both, 20), (either, 21))


def unit(data, clause, a=100, params=(), sees=()):
    """A clause that waits, at its first place in the agreement."""
    return waiting(clause[2], data.index(clause), a, list(params), list(sees))


def units(data, sort, *clauses): return [joining(sort), *(unit(data, c) for c in clauses)]
def shown(time, at, bits): return table_with([3, time, at, bits, 0, time], [])


def idle(mark, data, table, readings):
    """Each by itself alters no unit and no state: the last reading time moves alone."""
    for r in readings:
        call("reading", data, table, r, 0, altered(1, int.from_bytes(r[4:8], "little"), table), mark)


def early(data, table, *readings): idle(1, data, table, readings)
def not_early(data, table, *readings): idle(0, data, table, readings)
def alone(clause, *bodies): return pond(clause, *bodies), running(100, [unit(pond(clause, *bodies), clause)])


OWED, OPENS = alone(OPENING)
CHOICE = may(**from_to(120, 160, other=BELL))
CHOSEN, OFFERED = alone(CHOICE)

cause("early: an obligation, before its window, at its ends, after it")
begins(OWED, ZEROS, OPENS)
early(OWED, OPENS, level(100), level(101), level(119))
leads(OWED, OPENS, level(120), fulfilled(120, 120))
leads(OWED, OPENS, level(160), fulfilled(160, 160))
leads(OWED, OPENS, level(161), shown(161, 160, 1))
cause("early: a choice, before its window, at its ends, after it")
begins(CHOSEN, ZEROS, OFFERED)
early(CHOSEN, OFFERED, level(100), level(119))
leads(CHOSEN, OFFERED, level(120), fulfilled(120, 120))
leads(CHOSEN, OFFERED, level(160), fulfilled(160, 160))
leads(CHOSEN, OFFERED, level(161), running(161, [unit(CHOSEN, BELL, 160)], 161))
cause("early: once more, at the last reading time and after it")
early(OWED, altered(1, 110, OPENS), level(110), level(111), level(119))

# "the reading is accepted"
cause("early: not when refused with 1 to 7")
for number, data in enumerate((cat(OWED, [0]), pond(OPENING + NIL), pond(both(OPENING, asking(ONE))),
                               pond(OPENING, inst(0)), pond(both(OPENING, nothings(129)))), 1):
    declines(number, data, running(100, [unit(data, OPENING)]), level(110))
declines(6, OWED, cat(OPENS, [0]), level(110))
declines(6, OWED, OPENS[:3079], level(110))
declines(7, OWED, altered(5, 99, OPENS), level(110))
declines(7, OWED, altered(cell(0, 2), 101, OPENS), level(110))
cause("early: not when refused with 8, with 9, with 10")
for number, r in ((8, level(115)[:12]), (8, rec(65, level(115)[4:])), (8, cat(level(115), level(115))),
                  (9, event(115, 1)), (9, event(115, 1, [0, 0])), (9, level(115, 1_000_000_001)),
                  (9, event(115, 3, [0])), (10, level(109)), (10, level(99))):
    declines(number, OWED, altered(1, 110, OPENS), r)
cause("early: not when refused with 11; with another value the same unit waits")
GROWS = owes(where=below(5), then=many(65))
for pair in ((GROWS, OPENING), (OPENING, GROWS)):
    data = pond(both(*pair), simply(0, 60))
    declines(11, data, running(100, units(data, 20, *pair)), level(110, 4))
    early(data, running(100, units(data, 20, *pair)), level(110, 5))

# "the table was running"
cause("early: not on a fulfilled table, nor on a breached one")
not_early(OWED, fulfilled(110), level(110), level(115))
for table in (table_with([3, 110, 105, 1, 0, 110], []), table_with([3, 110, 110, 1, 0, 100], [])):
    leads(OWED, table, level(110), table)
    leads(OWED, table, level(115), table)
cause("early: not where the unit was dropped with the `or` that was fulfilled")
DROPS = pond(either(OPENING, BELL))
early(DROPS, running(100, units(DROPS, 21, OPENING, BELL)), level(106))
leads(DROPS, running(100, units(DROPS, 21, OPENING, BELL)), bell(106), fulfilled(106, 106))
not_early(DROPS, fulfilled(106, 106), level(106), level(110))

# "and no unit or state altered"
cause("early: not where another unit takes the reading and its `then` waits: on either side of `and`, of `or`")
TAKES = owes(then=BELL)
for join, sort in JOINS:
    left, right = pond(join(TAKES, OPENING)), pond(join(OPENING, TAKES))
    leads(left, running(100, units(left, sort, TAKES, OPENING)), level(110, 7),
          running(110, [joining(sort), unit(left, BELL, 110, sees=[7, 50]), unit(left, OPENING)], 110))
    leads(right, running(100, units(right, sort, OPENING, TAKES)), level(110, 7),
          running(110, [joining(sort), unit(right, OPENING), unit(right, BELL, 110, sees=[7, 50])], 110))
    early(right, running(110, [joining(sort), unit(right, OPENING), unit(right, BELL, 110, sees=[7, 50])], 110),
          level(110, 7))
cause("early: nor where that unit is fulfilled; the next reading of that minute finds the other alone")
for pair in ((owes(), OPENING), (OPENING, owes())):
    data = pond(both(*pair))
    leads(data, running(100, units(data, 20, *pair)), level(110), running(110, [unit(data, OPENING)], 110))
    early(data, running(110, [unit(data, OPENING)], 110), level(110), level(119))
cause("early: nor where that fulfils an `or`")
for pair in ((owes(), OPENING), (OPENING, owes())):
    data = pond(either(*pair))
    leads(data, running(100, units(data, 21, *pair)), level(110), fulfilled(110, 110))
cause("early: nor where another unit is late: a breach, in its last minute not yet")
DUE = owes(1, 2, within=lit(5))
for pair in ((DUE, OPENING), (OPENING, DUE)):
    data = pond(both(*pair))
    early(data, running(100, units(data, 20, *pair)), level(105))
    leads(data, running(100, units(data, 20, *pair)), level(106), shown(106, 105, 2))
cause("early: nor where an `or` loses its late side")
SOON = owes(0, 2, within=lit(5))
for pair in ((SOON, OPENING), (OPENING, SOON)):
    data = pond(either(*pair))
    early(data, running(100, units(data, 21, *pair)), level(105))
    leads(data, running(100, units(data, 21, *pair)), level(106), running(106, [unit(data, OPENING)], 106))
    early(data, running(106, [unit(data, OPENING)], 106), level(106))
cause("early: nor where a choice is late, and its else waits")
TURNS = may(2, within=lit(5), other=BELL)
BESIDE = pond(both(OPENING, TURNS))
early(BESIDE, running(100, units(BESIDE, 20, OPENING, TURNS)), level(105))
leads(BESIDE, running(100, units(BESIDE, 20, OPENING, TURNS)), level(106),
      running(106, [joining(20), unit(BESIDE, OPENING), unit(BESIDE, BELL, 105)], 106))
cause("early: the reading that brings an else is not, the next is")
LATER, BEFORE = alone(may(2, within=lit(5), other=OPENING))
AFTER = running(106, [unit(LATER, OPENING, 105)], 106)
not_early(LATER, BEFORE, level(105))
leads(LATER, BEFORE, level(106), AFTER)
early(LATER, AFTER, level(106), level(124))
leads(LATER, AFTER, level(125), fulfilled(125, 125))
cause("early: not where a unit alters at the time that cell 5 held already")
PASSING = pond(both(OPENING, TAKES))
leads(PASSING, running(110, units(PASSING, 20, OPENING, TAKES), 110), level(110, 7),
      running(110, [joining(20), unit(PASSING, OPENING), unit(PASSING, BELL, 110, sees=[7, 50])], 110))

# "wants this type"
cause("early: not by another type, with a value and without")
RINGING = owes(wanted=2, **from_to(120, 160))
not_early(OWED, OPENS, bell(110), bell(119))
not_early(*alone(RINGING), level(110), level(119))
early(*alone(RINGING), bell(110), bell(119))
cause("early: not by a type with the same values")
SEVEN = owes(where=op(43, var(0), lit(7)), **from_to(120, 160))
TWO_TYPES = agreement(SEVEN, (), [reading(1), reading(1)])
not_early(TWO_TYPES, running(100, [unit(TWO_TYPES, SEVEN)]), event(110, 2, [7]))
early(TWO_TYPES, running(100, [unit(TWO_TYPES, SEVEN)]), event(110, 1, [7]))
cause("early: not by a time mark")
MARKED = pond(both(OPENING, RINGING))
not_early(MARKED, running(100, units(MARKED, 20, OPENING, RINGING)), event(100), event(110), event(119))
early(MARKED, running(100, units(MARKED, 20, OPENING, RINGING)), level(110), bell(110))

# "finds `where` true"
cause("early: not with `where` false, before the window and in it; of an obligation and of a choice")
for clause in (owes(where=neg(below(250)), **from_to(120, 160)), may(where=neg(below(250)), **from_to(120, 160))):
    not_early(*alone(clause), level(100, 249), level(119, 249), level(120, 249), level(160, 249))
    early(*alone(clause), level(100, 250), level(119, 250))
    leads(*alone(clause), level(120, 250), fulfilled(120, 120))
not_early(*alone(UNMET), level(100), level(110))
cause("early: `where` divides as No. 5 says")
HALVES = owes(where=op(43, op(40, var(0), lit(2)), lit(-4)), **from_to(120, 160))
early(*alone(HALVES), level(110, -7), level(110, -8))
not_early(*alone(HALVES), level(110, -6), level(110, -9))

# "has a first later than the reading"
def again(after): return owes(after=lit(after), then=inst(0))
def renewed(after): return pond(inst(0), again(after))


def renewing(after, a, time=None, last_moved=105):
    return running(time or a, [unit(renewed(after), again(after), a)], last_moved)


cause("early: not where first is the reading's time or before it, though nothing alters: `then` is the same once more")
not_early(renewed(0), renewing(0, 120), level(120))
not_early(renewed(-1), renewing(-1, 120), level(120))
not_early(renewed(-60), renewing(-60, 120), level(120))
early(renewed(1), renewing(1, 120), level(120))
leads(renewed(1), renewing(1, 120), level(121), renewing(1, 121, 121, 121))
cause("early: one unit has to have all three: each of three has two of them; with one that has them all")
FALSE = owes(where=truth(0), **from_to(120, 160))
for third, form in ((FALSE, not_early), (OPENING, early)):
    data = pond(both(both(RINGING, third), inst(0)), again(0))
    form(data, running(100, [joining(20), *units(data, 20, RINGING, third), unit(data, again(0))]), level(100))

# "at least one waiting unit"
cause("early: the first of three units, the second, the third, none: under `and` and `or`, left and right")
LONGER = owes(wanted=2, within=lit(301))
for k in range(4):
    a, b, c = [OPENING if i == k else z for i, z in enumerate((BELL, UNMET, LONGER))]
    for outer, o in JOINS:
        for inner, i in JOINS:
            left, right = pond(outer(inner(a, b), c)), pond(outer(a, inner(b, c)))
            idle(int(k < 3), left, running(100, [joining(o), *units(left, i, a, b), unit(left, c)]), [level(110)])
            idle(int(k < 3), right, running(100, [joining(o), unit(right, a), *units(right, i, b, c)]), [level(110)])
cause("early: two of them, together and by another value each")
HIGH, LOW = owes(where=neg(below(5)), **from_to(130, 160)), owes(1, where=below(5), **from_to(120, 150))
TWO = pond(both(HIGH, LOW))
early(TWO, running(100, units(TWO, 20, HIGH, LOW)), level(119, 4), level(119, 5), level(129, 5))
leads(TWO, running(100, units(TWO, 20, HIGH, LOW)), level(129, 4), running(129, [unit(TWO, HIGH)], 129))
not_early(TWO, running(129, [unit(TWO, HIGH)], 129), level(129, 4))
early(TWO, running(129, [unit(TWO, HIGH)], 129), level(129, 5))
cause("early: clauses that do not wait are no units: in a `then`, in an else, beside an if, in a template")
for clause in (owes(wanted=2, then=OPENING), owes(where=truth(0), then=OPENING), may(2, then=OPENING),
               may(2, other=OPENING), may(where=truth(0), other=OPENING)):
    not_early(*alone(clause), level(100), level(110))
for data in (pond(cond(YES, BELL, OPENING)), pond(cond(truth(0), OPENING, BELL)), pond(BELL, OPENING)):
    begins(data, ZEROS, running(100, [unit(data, BELL)]))
    not_early(data, running(100, [unit(data, BELL)]), level(110))
for data in (pond(cond(YES, OPENING, BELL)), pond(cond(truth(0), BELL, OPENING)), pond(inst(0), OPENING)):
    begins(data, ZEROS, running(100, [unit(data, OPENING)]))
    early(data, running(100, [unit(data, OPENING)]), level(110))

# what is in sight: the values of a template, a number and a party; the reading's, a number and a party
ASKS = owes(129, where=op(43, var(1), var(3)), after=var(0))
SEES = agreement(both(inst(0, [lit(30), party(1)], [0, 1]), inst(0, [lit(40), party(0)], [1, 0])),
                 [template(ASKS, [1, 3], 2)], [reading(1, 3)], 3)
FIRST, SECOND = unit(SEES, ASKS, 100, [0, 1], [30, 1]), unit(SEES, ASKS, 100, [1, 0], [40, 0])


def by(time, p): return event(time, 1, [5, p])


cause("early: `where` and `after` see a unit's own values; its parameters do not matter")
begins(SEES, ZEROS, running(100, [joining(20), FIRST, SECOND]))
early(SEES, running(100, [joining(20), FIRST, SECOND]), by(129, 1), by(129, 0), by(130, 0), by(139, 0))
not_early(SEES, running(100, [joining(20), FIRST, SECOND]), by(129, 2), by(139, 2))
leads(SEES, running(100, [joining(20), FIRST, SECOND]), by(130, 1), running(130, [SECOND], 130))
leads(SEES, running(100, [joining(20), FIRST, SECOND]), by(140, 0), running(140, [FIRST], 140))
early(SEES, running(130, [SECOND], 130), by(130, 0), by(139, 0))
not_early(SEES, running(130, [SECOND], 130), by(139, 1))
cause("early: in a `then`, the earlier reading's value and the remaining time")
GREATER = owes(where=op(42, var(0), var(2)), after=var(0))
REMAINING = owes(wanted=2, after=var(1))
for clause, r, first in ((GREATER, lambda t: level(t, 31), 140), (REMAINING, bell, 160)):
    data, table = alone(then_is(clause))
    waits = running(110, [unit(data, clause, 110, sees=[30, 50])], 110)
    leads(data, table, level(110, 30), waits)
    early(data, waits, r(110), r(first - 1))
    not_early(data, waits, level(110, 30), level(first - 1, 30), level(first, 30), event(first - 1))
    leads(data, waits, r(first), fulfilled(first, first))
cause("early: `after` is worked out by the rules: a quotient rounds down, a sum is held at its end")
SHARE = after_is(op(39, op(40, lit(-7), lit(2)), lit(-5)))
HELD = after_is(op(37, lit(1_000_000_000), lit(1_000_000_000)))
early(*alone(SHARE), level(100), level(115), level(119))
leads(*alone(SHARE), level(120), fulfilled(120, 120))
early(*alone(HELD), level(100), level(1_000_000_099))
leads(*alone(HELD), level(1_000_000_100), fulfilled(1_000_000_100, 1_000_000_100))

cause("early: not with a negative `after`: `where` false, taken, replaced by its equal")
for after in (-1, -20, -1_000_000_000):
    spans = dict(after=lit(after), within=lit(1_000_000_000))
    not_early(*alone(owes(where=truth(0), **spans)), level(100))
    leads(*alone(owes(**spans)), level(100), fulfilled(100, 100))
    data = pond(inst(0), owes(then=inst(0), **spans))
    not_early(data, running(100, [unit(data, owes(then=inst(0), **spans))]), level(100))

cause("early: a window that ends before it begins: until its last minute, not after it")
CROSSED = owes(**from_to(150, 130))
early(*alone(CROSSED), level(100), level(130))
leads(*alone(CROSSED), level(131), shown(131, 130, 1))
leads(*alone(CROSSED), level(149), shown(149, 130, 1))
leads(*alone(CROSSED), level(150), shown(150, 130, 1))
early(*alone(owes(**from_to(120, 119))), level(119))
leads(*alone(owes(**from_to(120, 119))), level(120), shown(120, 119, 1))
cause("early: a choice with such a window")
CROSSES, OFFERS = alone(may(**from_to(150, 130, other=BELL)))
early(CROSSES, OFFERS, level(100), level(130))
leads(CROSSES, OFFERS, level(131), running(131, [unit(CROSSES, BELL, 130)], 131))
leads(CROSSES, OFFERS, level(150), running(150, [unit(CROSSES, BELL, 130)], 150))
cause("early: not where the window ended before it was activated: the state alters, a side is lost, an else waits")
PAST = from_to(150, 90)
leads(*alone(owes(**PAST)), level(100), shown(100, 100, 1))
LOSES = pond(either(owes(**PAST), BELL))
leads(LOSES, running(100, units(LOSES, 21, owes(**PAST), BELL)), level(100), running(100, [unit(LOSES, BELL)]))
SPENT, OFFERING = alone(may(**PAST, other=BELL))
leads(SPENT, OFFERING, level(100), running(100, [unit(SPENT, BELL)]))

# "Altered means that a unit cell or the state cell holds another number afterwards."
# by its else, which takes the reading that finds it late, the choice is the same once more
def elsewise(**window): return may(**window, other=then_is(inst(0)))


LAPSED = elsewise(within=lit(-1))
cause("early: beside a unit replaced by its equal, through a `then` and through an else; a minute later A alters")
for body in (again(0), LAPSED):
    for join, sort in JOINS:
        left, right = pond(join(inst(0), OPENING), body), pond(join(OPENING, inst(0)), body)
        early(left, running(100, units(left, sort, body, OPENING)), level(100))
        early(right, running(100, units(right, sort, OPENING, body)), level(100))
        leads(right, running(100, units(right, sort, OPENING, body)), level(101),
              running(101, [joining(sort), unit(right, OPENING), unit(right, body, 101)], 101))
cause("early: by itself such a unit is not, its first being the reading's time")
not_early(pond(inst(0), LAPSED), running(100, [unit(pond(inst(0), LAPSED), LAPSED)]), level(100))
cause("early: beside a unit that is fulfilled where another becomes both of them")
BOTH = both(inst(0), inst(1))
for third, form in ((OPENING, early), (BELL, not_early)):
    data = pond(both(BOTH, third), owes(), then_is(BOTH))
    form(data, running(100, [joining(20), *units(data, 20, owes(), then_is(BOTH)), unit(data, third)]), level(100))
cause("early: a unit that a fulfilled `or` drops, and that another brings back: it was there and is there")
BRINGS = both(either(inst(0), inst(1)), inst(2))
BACK = pond(BRINGS, OPENING, owes(), then_is(BRINGS))


def brought(a, time, last_moved):
    waits = [unit(BACK, c, a) for c in (OPENING, owes(), then_is(BRINGS))]
    return running(time, [joining(20), joining(21), *waits], last_moved)


begins(BACK, ZEROS, brought(100, 100, 100))
early(BACK, brought(100, 100, 100), level(100))
leads(BACK, brought(100, 100, 100), level(101), brought(101, 101, 101))
early(BACK, brought(101, 101, 101), level(101))
cause("early: not by a clause of an else, or of a `then`, that is dropped at once: it is no unit of the table")
DROPPED = may(within=lit(-1), other=both(either(OPENING, owes()), then_is(inst(0))))
VANISHES = then_is(both(either(OPENING, NIL), inst(0)))
for body in (DROPPED, VANISHES):
    data, beside_it = pond(inst(0), body), pond(both(inst(0), FALSE), body)
    not_early(data, running(100, [unit(data, body)]), level(100))
    not_early(beside_it, running(100, units(beside_it, 20, body, FALSE)), level(100))
    joined = pond(both(inst(0), CHOICE), body)
    early(joined, running(100, units(joined, 20, body, CHOICE)), level(100))

cause("early: a unit that is late, whose first is later, and that stands there again: by the words of No. 8 it is")
for first, last, form in ((105, 99, early), (101, 99, early), (1_000_000_099, 99, early), (105, 100, early),
                          (100, 99, not_early), (95, 95, not_early), (99, -900, not_early)):
    body = elsewise(**from_to(first, last))
    form(pond(inst(0), body), running(100, [unit(pond(inst(0), body), body)]), level(100))
cause("early: so it is not with `where` false, nor by another type")
for body in (elsewise(where=truth(0), **from_to(105, 99)), elsewise(wanted=2, **from_to(105, 99))):
    not_early(pond(inst(0), body), running(100, [unit(pond(inst(0), body), body)]), level(100))
cause("early: an obligation too: its `or` loses it, and the other side becomes that `or`")
EITHER_OF = either(inst(0), inst(1))
for first, form in ((105, early), (101, early), (100, not_early)):
    body = owes(**from_to(first, 99))
    data = pond(EITHER_OF, body, then_is(EITHER_OF))
    form(data, running(100, units(data, 21, body, then_is(EITHER_OF))), level(100))

# near the last minute that a reading can say
END = 4_294_967_295
cause("early: a first at that minute and beyond 32 bits")
for after in (5, 6, 100, 1_000_000_000):
    early(renewed(after), renewing(after, END - 5), level(END - 5), level(END - 1))
    if after > 5:
        early(renewed(after), renewing(after, END - 5), level(END))
leads(renewed(5), renewing(5, END - 5), level(END), renewing(5, END, END, END))
not_early(renewed(0), renewing(0, END), level(END))
early(renewed(1), renewing(1, END), level(END))
cause("early: a first beyond 32 bits of a window that is past in the next minute, and of one that is past already")
for last in (100, 99):
    body = elsewise(**from_to(last + 1_000_000_000, last))
    data = pond(inst(0), body)
    early(data, running(END - 5, [unit(data, body, END - 5)]), level(END - 5))
    leads(data, running(END - 5, [unit(data, body, END - 5)]), level(END), running(END, [unit(data, body, END)], END))
    early(data, running(END, [unit(data, body, END)]), level(END))

# tables that no run reaches
cause("early: another A than the run's, wherever cell 5 stands")
for a, last_moved in ((100, 100), (100, 107), (100, 118), (110, 100), (118, 100), (118, 118)):
    table = running(118, [unit(OWED, OPENING, a)], last_moved)
    early(OWED, table, level(118), level(a + 19))
    leads(OWED, table, level(a + 20), fulfilled(a + 20, a + 20))
cause("early: values and parameters that are handed to nobody, a place that is not reached yet, a template not named")
STRANGE = unit(SEES, ASKS, 105, [2, 1], [1_000_000_000, 2])
early(SEES, running(110, [STRANGE]), by(110, 2), by(1_000_000_104, 2))
not_early(SEES, running(110, [STRANGE]), by(110, 0))
UNREAD = pond(then_is(GREATER))
early(UNREAD, running(100, [unit(UNREAD, GREATER, sees=[1, 1_000_000_000])]), level(100, 2))
not_early(UNREAD, running(100, [unit(UNREAD, GREATER, sees=[-1, -1_000_000_000])]), level(100, -1))
UNNAMED = pond(BELL, OPENING)
early(UNNAMED, running(110, [unit(UNNAMED, OPENING, 105)]), level(124))
cause("early: joined as the agreement does not join it")
early(OWED, running(110, [joining(21), *units(OWED, 20, OPENING, OPENING), unit(OWED, OPENING, 110)]), level(110))
early(OWED, running(110, [joining(20), unit(OWED, OPENING, 110), unit(OWED, OPENING, 108)]), level(127))
leads(OWED, running(110, [joining(20), unit(OWED, OPENING, 110), unit(OWED, OPENING, 108)]), level(128),
      running(128, [unit(OWED, OPENING, 110)], 128))


# as many units as there can be
def spread(join, parts):
    half = len(parts) // 2
    return join(spread(join, parts[:half]), spread(join, parts[half:])) if half else parts[0]


def among(places):
    """64 instances joined in balance: at these places of template 1, else of template 0; and their 127 units."""
    data = pond(spread(both, [inst(int(i in places)) for i in range(64)]), BELL, OPENING)
    waits = [[unit(data, OPENING if i in places else BELL)] for i in range(64)]
    return data, running(100, spread(lambda a, b: [joining(20), *a, *b], waits))


cause("early: one of 127 units, none of them, each that waits")
begins(among([31])[0], ZEROS, among([31])[1])
for i in (0, 1, 31, 32, 62, 63):
    early(*among([i]), level(110))
not_early(*among([]), level(110))
early(*among(range(64)), level(110))

# paper 02, No. 9. Each cost is a sum: the units in use, then the clauses that each `then` and each else activates
def costs(cost, data, table, r, after, mark=0): call("reading", data, table, r, 0, after, mark, cost)
def costs_nothing(number, data, table, r): call("reading", data, table, r, number, table, 0, 0)
def exceeds(cost, data, table, r): call("reading", data, table, r, 11, table, 0, cost)
def idly(table, r): return altered(1, int.from_bytes(r[4:8], "little"), table)


# three clauses, an `and` of two obligations that wait for a bell; an obligation that has them as its `then`
TWO_BELLS, TWO_WAIT = both(BELL, LONGER), (20, BELL, LONGER)
THEN_BELLS = then_is(TWO_BELLS)


def lapsing(other):
    """A choice of a bell until 105, if activated at the start."""
    return may(2, within=lit(5), other=other)


def belated(other):
    """A choice that is late as soon as it is activated."""
    return may(2, within=lit(-1), other=other)


def wide(n, waits):
    """The units of so many that wait, joined in balance."""
    return spread(lambda a, b: [joining(20), *a, *b], [[waits]] * n)


def comes_to(data, time, a, parts, sees=()):
    """A table altered at this time: joins, by their sort, and clauses that wait since a; without any, fulfilled."""
    waits = [joining(p) if p in (20, 21) else unit(data, p, a, sees=sees) for p in parts]
    return running(time, waits, time) if waits else fulfilled(time, time)


def by_then(cost, then, *parts, bodies=()):
    """An obligation, the only unit, takes a level of 7 at 110. A template's body does not see it."""
    data, table = alone(then_is(then), *bodies)
    costs(cost, data, table, level(110, 7), comes_to(data, 110, 110, parts, () if bodies else (7, 50)))


def by_else(cost, r, other, *parts, a=105, sees=(), bodies=()):
    """A choice until 105, the only unit, is late at 106."""
    data, table = alone(lapsing(other), *bodies)
    costs(cost, data, table, r, comes_to(data, 106, a, parts, sees))


MARK, LEVEL = event(106), level(106, 7)
SEEN = dict(a=106, sees=(7, 59))  # by a `then` in an else, which was activated at 105 and has 60 minutes

# "Count one for each unit of the table read, which is every unit in use"
cause("cost: a unit that waits on: at a mark, another type, `where` false, too early; an obligation and a choice")
OPENS_AT_120 = dict(where=below(5), **from_to(120, 160), then=TWO_BELLS)
for clause in (owes(**OPENS_AT_120), may(**OPENS_AT_120, other=TWO_BELLS)):
    data, table = alone(clause)
    for r, early_mark in ((event(110), 0), (bell(125), 0), (level(125, 5), 0), (level(119, 4), 1)):
        costs(1, data, table, r, idly(table, r), early_mark)
cause("cost: joins are units too: three units, five, 127")
for join, sort in JOINS:
    data = pond(join(join(BELL, LONGER), UNMET))
    three, five = units(data, sort, BELL, LONGER), [joining(sort), *units(data, sort, BELL, LONGER), unit(data, UNMET)]
    costs(3, data, running(100, three), event(110), running(110, three))
    costs(5, data, running(100, five), event(110), running(110, five))
costs(127, *among([]), event(110), altered(1, 110, among([])[1]))
cause("cost: a breach activates nothing: of one unit, of three")
costs(1, *alone(THEN_BELLS), level(161), shown(161, 160, 1))
for pair in ((SOON, BELL), (BELL, SOON)):
    data = pond(both(*pair))
    costs(3, data, running(100, units(data, 20, *pair)), MARK, shown(106, 105, 1))

# "and one for each clause activated, in the sense of 01's activating"
OWES_BELLS, OFFERS_BELLS = owes(wanted=2, then=TWO_BELLS), may(2, then=TWO_BELLS, other=TWO_BELLS)
cause("cost: a `then` that is fulfilled")
by_then(1 + 1, NIL)
cause("cost: an obligation, without its own `then`")
by_then(1 + 1, OWES_BELLS, OWES_BELLS)
cause("cost: a choice, without its own `then` and else")
by_then(1 + 1, OFFERS_BELLS, OFFERS_BELLS)
cause("cost: an if and the side that it picks, by a truth, by the reading's value, in another if")
by_then(1 + (1 + 3), cond(YES, TWO_BELLS, NIL), *TWO_WAIT)
by_then(1 + (1 + 1), cond(truth(0), TWO_BELLS, NIL))
by_then(1 + (1 + 3), cond(below(8), TWO_BELLS, NIL), *TWO_WAIT)
by_then(1 + (1 + 1), cond(neg(neg(below(7))), TWO_BELLS, NIL))
by_then(1 + (1 + (1 + 3)), cond(YES, cond(truth(0), NIL, TWO_BELLS), NIL), *TWO_WAIT)
cause("cost: an `and` and both sides, a fulfilled one too")
by_then(1 + (1 + 1 + 1), TWO_BELLS, *TWO_WAIT)
by_then(1 + (1 + 1 + 3), both(NIL, TWO_BELLS), *TWO_WAIT)
by_then(1 + (1 + 3 + 1), both(TWO_BELLS, NIL), *TWO_WAIT)
by_then(1 + (1 + 1 + 1), both(NIL, NIL))
cause("cost: an `or` and both sides, what a fulfilled one drops too")
by_then(1 + (1 + 1 + 1), either(BELL, LONGER), 21, BELL, LONGER)
by_then(1 + (1 + 1 + 3), either(NIL, TWO_BELLS))
by_then(1 + (1 + 3 + 1), either(TWO_BELLS, NIL))
by_then(1 + (1 + 1 + 1), either(NIL, NIL))
cause("cost: an instance and its template's body, which may be another instance; values are no clauses")
by_then(1 + (1 + 3), inst(0), *TWO_WAIT, bodies=[TWO_BELLS])
by_then(1 + (1 + (1 + 3)), inst(1), *TWO_WAIT, bodies=[TWO_BELLS, inst(0)])
costs(1 + (1 + 1), VALUED, valued(1, 105), event(120, 1, [2]), valued(2, 120))
cause("cost: a choice that takes the reading; its else is not activated")
data, table = alone(may(then=TWO_BELLS, other=NIL))
costs(1 + 3, data, table, level(110, 7), comes_to(data, 110, 110, TWO_WAIT, (7, 50)))
cause("cost: a `then` is not given the same reading: the next one activates what follows")
data, table = alone(then_is(THEN_BELLS))
one_taken = comes_to(data, 110, 110, [THEN_BELLS], (7, 50))
costs(1 + 1, data, table, level(110, 7), one_taken)
costs(1 + 3, data, one_taken, level(110, 8), comes_to(data, 110, 110, TWO_WAIT, (7, 50, 8, 60)))
cause("cost: both sides of a join take the reading, or one of them")
for join, sort in JOINS:
    data = pond(join(then_is(BELL), then_is(LONGER)))
    table = running(100, units(data, sort, then_is(BELL), then_is(LONGER)))
    costs(3 + 1 + 1, data, table, level(110, 7), comes_to(data, 110, 110, (sort, BELL, LONGER), (7, 50)))
    data = pond(join(BELL, then_is(LONGER)))
    costs(3 + 1, data, running(100, units(data, sort, BELL, then_is(LONGER))), level(110, 7),
          running(110, [joining(sort), unit(data, BELL), unit(data, LONGER, 110, sees=(7, 50))], 110))
cause("cost: the unit is replaced by its equal, no cell alters: activated all the same")
costs(1 + (1 + 1), renewed(0), renewing(0, 120), level(120), renewing(0, 120))

cause("cost: an else of each kind, of which nothing takes the reading or is late")
by_else(1 + 1, MARK, NIL)
by_else(1 + 1, MARK, OWES_BELLS, OWES_BELLS)
by_else(1 + 1, MARK, OFFERS_BELLS, OFFERS_BELLS)
by_else(1 + (1 + 3), MARK, cond(YES, TWO_BELLS, NIL), *TWO_WAIT)
by_else(1 + (1 + 1), MARK, cond(truth(0), TWO_BELLS, NIL))
by_else(1 + (1 + 1 + 1), MARK, TWO_BELLS, *TWO_WAIT)
by_else(1 + (1 + 1 + 1), MARK, either(BELL, LONGER), 21, BELL, LONGER)
by_else(1 + (1 + 3), MARK, inst(0), *TWO_WAIT, bodies=[TWO_BELLS])
cause("cost: an else that is breached by the same reading")
MISSED = owes(wanted=2, within=lit(0))
costs(1 + 1, *alone(lapsing(MISSED)), MARK, shown(106, 105, 1))

# three choices and an obligation, each the else of the one before, ten minutes each: to 110, 120, 130, 140
LINKS = [owes(within=lit(10))]
for _ in range(3):
    LINKS.insert(0, may(within=lit(10), other=LINKS[0]))
CHAIN, UNTRIED = alone(LINKS[0])
cause("cost: a chain of elses: as many as are late; the next one takes the reading, and is fulfilled")
for elses, time in ((0, 110), (1, 111), (1, 120), (2, 121), (2, 130), (3, 131), (3, 140)):
    waits = running(time, [unit(CHAIN, LINKS[elses], 100 + 10 * elses)], time if elses else 100)
    costs(1 + elses, CHAIN, UNTRIED, event(time), waits)
    costs(1 + elses + 1, CHAIN, UNTRIED, level(time), fulfilled(time, time))
cause("cost: to its end, where the obligation is breached: at once and by turns")
costs(1 + (1 + 1 + 1), CHAIN, UNTRIED, event(141), shown(141, 140, 1))
costs(1 + (1 + 1 + 1), CHAIN, UNTRIED, level(141), shown(141, 140, 1))
SECOND_LINK, FOURTH_LINK = comes_to(CHAIN, 111, 110, LINKS[1:2]), comes_to(CHAIN, 131, 130, LINKS[3:])
costs(1 + 1, CHAIN, UNTRIED, event(111), SECOND_LINK)
costs(1 + (1 + 1), CHAIN, SECOND_LINK, event(131), FOURTH_LINK)
costs(1, CHAIN, FOURTH_LINK, event(141), shown(141, 140, 1))
cause("cost: choices late as soon as they are activated, also as deep as records nest")
by_else(1 + (1 + 1 + 3), MARK, belated(belated(TWO_BELLS)), *TWO_WAIT)
by_else(1 + (21 + 1), MARK, nested(belated, 21, NIL))

# "an else that follows the same reading is not counted again for that"
cause("cost: a `then` under an else, under two of them; without the reading that it takes")
by_else(1 + 1, MARK, THEN_BELLS, THEN_BELLS)
by_else(1 + 1 + 3, LEVEL, THEN_BELLS, *TWO_WAIT, **SEEN)
by_else(1 + 1 + 1 + 3, LEVEL, belated(THEN_BELLS), *TWO_WAIT, **SEEN)
cause("cost: such a `then` is not given the same reading, be it one that would be late")
by_else(1 + 1 + 1, LEVEL, then_is(THEN_BELLS), THEN_BELLS, **SEEN)
by_else(1 + 1 + 1, LEVEL, then_is(belated(TWO_BELLS)), belated(TWO_BELLS), **SEEN)
cause("cost: an else of two waits: one follows, both, by a `then` and by an else")
by_else(1 + 3, MARK, both(then_is(BELL), LONGER), 20, then_is(BELL), LONGER)
data, table = alone(lapsing(both(then_is(BELL), LONGER)))
costs(1 + 3 + 1, data, table, LEVEL,
      running(106, [joining(20), unit(data, BELL, 106, sees=(7, 59)), unit(data, LONGER, 105)], 106))
by_else(1 + 3 + (1 + 1) + 1, LEVEL, both(belated(then_is(BELL)), then_is(LONGER)), *TWO_WAIT, **SEEN)
by_else(1 + 3 + (1 + 1), MARK, both(belated(BELL), belated(LONGER)), *TWO_WAIT)
cause("cost: the sides of an if in an else: the one that is picked follows")
by_else(1 + (1 + 1) + 3, LEVEL, cond(YES, THEN_BELLS, owes()), *TWO_WAIT, **SEEN)
by_else(1 + (1 + 1) + 1, LEVEL, cond(truth(0), THEN_BELLS, owes()))
cause("cost: 64 late choices, each with its else, and with its `then` too")
MANY_LAPSE = pond(many(64), lapsing(owes()))
ALL_LAPSE = running(100, wide(64, unit(MANY_LAPSE, lapsing(owes()))))
costs(127 + 64, MANY_LAPSE, ALL_LAPSE, MARK, running(106, wide(64, unit(MANY_LAPSE, owes(), 105)), 106))
costs(127 + 64 * (1 + 1), MANY_LAPSE, ALL_LAPSE, LEVEL, fulfilled(106, 106))

# "Sides that are later dropped count."
cause("cost: a side that an `or` drops, the reading fulfilling the other: what its `then` or its else activated")
for dropped in (THEN_BELLS, lapsing(TWO_BELLS)):
    for pair in ((dropped, owes()), (owes(), dropped)):
        data = pond(either(*pair))
        costs(3 + 3 + 1, data, running(100, units(data, 21, *pair)), LEVEL, fulfilled(106, 106))
cause("cost: a side that an `and` drops, the other being breached")
for dropped in (THEN_BELLS, lapsing(TWO_BELLS)):
    for pair in ((dropped, SOON), (SOON, dropped)):
        data = pond(both(*pair))
        costs(3 + 3, data, running(100, units(data, 20, *pair)), LEVEL, shown(106, 105, 1))
cause("cost: a side that an `or` loses: its else is breached")
for pair in ((lapsing(MISSED), BELL), (BELL, lapsing(MISSED))):
    data = pond(either(*pair))
    costs(3 + 1, data, running(100, units(data, 21, *pair)), MARK, running(106, [unit(data, BELL)], 106))
cause("cost: dropped within an else: by the `or` that the reading fulfils, by the `and` that is breached")
by_else(1 + 3 + (3 + 1), LEVEL, either(THEN_BELLS, owes()))
by_else(1 + 3 + (1 + 3), LEVEL, either(owes(), THEN_BELLS))
for pair in ((THEN_BELLS, MISSED), (MISSED, THEN_BELLS)):
    costs(1 + 3 + 3, *alone(lapsing(both(*pair))), LEVEL, shown(106, 105, 1))

# "Fulfilled beside `and` vanishes; fulfilled on either side of `or` fulfils it": so nothing of that `or` waits
FOLLOWING = (THEN_BELLS, belated(TWO_BELLS))  # either would activate three more, following the level
cause("cost: an `or` that is fulfilled when it is activated in an else: its other side follows nothing")
for side in FOLLOWING:
    by_else(1 + (1 + 1 + 1), LEVEL, either(NIL, side))
    by_else(1 + (1 + 1 + 1), LEVEL, either(side, NIL))
    by_else(1 + (1 + 1 + 1), MARK, either(NIL, side))
    by_else(1 + (1 + 1 + 1), MARK, either(side, NIL))
cause("cost: through an if, an instance, an `and`, another `or`")
for fulfils, clauses in ((cond(YES, NIL, BELL), 1 + 1), (cond(truth(0), BELL, NIL), 1 + 1), (inst(0), 1 + 1),
                         (both(NIL, NIL), 1 + 1 + 1), (either(BELL, NIL), 1 + 1 + 1)):
    for side in FOLLOWING:
        by_else(1 + (1 + clauses + 1), LEVEL, either(fulfils, side), bodies=[NIL])
        by_else(1 + (1 + 1 + clauses), LEVEL, either(side, fulfils), bodies=[NIL])
cause("cost: within the side that an if picks, within a template, under another else")
for side in FOLLOWING:
    by_else(1 + (1 + (1 + 1 + 1)), LEVEL, cond(YES, either(NIL, side), side))
    by_else(1 + (1 + (1 + 1 + 1)), LEVEL, inst(0), bodies=[either(side, NIL)])
    by_else(1 + 1 + (1 + 1 + 1), LEVEL, belated(either(NIL, side)))
cause("cost: what stands beside such an `or` follows")
FOLLOWS = then_is(either(UNMET, OPENING))
for side in FOLLOWING:
    by_else(1 + (1 + 3 + 1) + 3, LEVEL, both(either(NIL, side), FOLLOWS), 21, UNMET, OPENING, **SEEN)
    by_else(1 + (1 + 1 + 3) + 3, LEVEL, both(FOLLOWS, either(side, NIL)), 21, UNMET, OPENING, **SEEN)
cause("cost: an `or` that the reading fulfils in an else, by a `then` or an else: its other side has followed")
for side in FOLLOWING:
    by_else(1 + 3 + (1 + 3), LEVEL, either(owes(), side))
    by_else(1 + 3 + (3 + 1), LEVEL, either(side, owes()))
    by_else(1 + 3 + (1 + 3), LEVEL, either(belated(NIL), side))
    by_else(1 + 3 + (3 + 1), LEVEL, either(side, belated(NIL)))
cause("cost: an `and` with a fulfilled side in an else: the other side follows")
for other in (both(NIL, THEN_BELLS), both(THEN_BELLS, NIL)):
    by_else(1 + 3, MARK, other, THEN_BELLS)
    by_else(1 + 3 + 3, LEVEL, other, *TWO_WAIT, **SEEN)
for other in (both(NIL, belated(TWO_BELLS)), both(belated(TWO_BELLS), NIL)):
    by_else(1 + 3 + 3, MARK, other, *TWO_WAIT)
by_else(1 + 3, LEVEL, both(NIL, NIL))
cause("cost: such an `and` does not fulfil an `or`: both sides of it follow")
by_else(1 + (1 + 3 + 1) + 1, MARK, either(both(NIL, BELL), belated(LONGER)), 21, BELL, LONGER)
by_else(1 + (1 + 1 + 3) + 1, MARK, either(belated(BELL), both(LONGER, NIL)), 21, BELL, LONGER)

# "on 11 it is the refused reading's, and not zero"
cause("cost: 11 by a `then`: 65 instances of one clause under 64 joins; 64 under 63 are accepted")
exceeds(1 + (64 + 65 * 2), *alone(then_is(many(65)), BELL), level(110))
data, table = alone(then_is(many(64)), BELL)
costs(1 + (63 + 64 * 2), data, table, level(110), running(110, wide(64, unit(data, BELL, 110)), 110))
cause("cost: 11 by an else; where each takes the reading it is accepted")
exceeds(1 + (64 + 65 * 2), *alone(lapsing(many(65)), owes()), MARK)
costs(1 + (64 + 65 * 2) + 65, *alone(lapsing(many(65)), owes()), LEVEL, fulfilled(106, 106))
data, table = alone(lapsing(many(64)), BELL)
costs(1 + (63 + 64 * 2), data, table, MARK, running(106, wide(64, unit(data, BELL, 105)), 106))
cause("cost: 11 beside an `or` that drops a side; dropped by an `or` it is accepted")
BESIDE_MANY = pond(both(either(THEN_BELLS, owes()), then_is(many(65))), UNMET)
exceeds(5 + (3 + 1) + (64 + 65 * 2), BESIDE_MANY, running(100, [
    joining(20), *units(BESIDE_MANY, 21, THEN_BELLS, owes()), unit(BESIDE_MANY, then_is(many(65)))]), level(110))
MANY_DROPPED = pond(either(owes(), then_is(many(65))), UNMET)
costs(3 + 1 + (64 + 65 * 2), MANY_DROPPED, running(100, units(MANY_DROPPED, 21, owes(), then_is(many(65)))),
      level(110), fulfilled(110, 110))


def doubled(times, a): return running(a, wide(2 ** times, waits_since(a)), a)


# each unit that waits activates an `and`, two instances and two obligations: five clauses
cause("cost: P15, reading by reading; the seventh is refused with 11; then marks, to the breach and after it")
begins(TWICE, ZEROS, doubled(0, 100))
for i, cost in enumerate((1 + 5, 3 + 10, 7 + 20, 15 + 40, 31 + 80, 63 + 160)):
    costs(cost, TWICE, doubled(i, 100 + i), level(101 + i), doubled(i + 1, 101 + i))
exceeds(127 + 320, TWICE, doubled(6, 106), level(107))
costs(127, TWICE, doubled(6, 106), event(107), altered(1, 107, doubled(6, 106)))
costs(127, TWICE, altered(1, 107, doubled(6, 106)), event(167), shown(167, 166, 1))
costs(0, TWICE, shown(167, 166, 1), event(168), shown(167, 166, 1))

# "On a fulfilled or breached table, and on a refusal other than 11, the count is 0"
cause("cost: 0 on a fulfilled table and on a breached one")
for r in (event(120), level(120), bell(120)):
    costs(0, OWED, fulfilled(110), r, fulfilled(120))
    costs(0, OWED, shown(110, 105, 1), r, shown(110, 105, 1))
cause("cost: 0 when refused with 1 to 10; not refused the same reading is taken")
for number, data in enumerate((cat(OWED, [0]), pond(OPENING + NIL), pond(both(OPENING, asking(ONE))),
                               pond(OPENING, inst(0)), pond(both(OPENING, nothings(129)))), 1):
    costs_nothing(number, data, running(100, [unit(data, OPENING)]), level(120))
costs_nothing(6, OWED, OPENS[:3079], level(120))
costs_nothing(7, OWED, altered(5, 99, OPENS), level(120))
costs_nothing(8, OWED, OPENS, level(120)[:12])
costs_nothing(9, OWED, OPENS, event(120, 1))
costs_nothing(10, OWED, altered(1, 121, OPENS), level(120))
costs(1 + 1, OWED, OPENS, level(120), fulfilled(120, 120))
cause("cost: 0 when refused with 10, where it would be 11")
exceeds(1 + (64 + 65 * 2), *alone(then_is(many(65)), BELL), level(100))
costs_nothing(10, *alone(then_is(many(65)), BELL), level(99))

# a choice of width 256: its else is 128 obligations and 127 joins, and each `then` has width 256; 33,024 and 2,113,599
FULL = lapsing(shared(then_is(inst(0)), 128))
cause("cost: the most of one unit: each `then` is an instance of 128 times fulfilled and 127 joins; with 11 likewise")
costs(1 + (128 + 127) + 128 * (1 + 128 + 127), *alone(FULL, nothings(128)), LEVEL, fulfilled(106, 106))
exceeds(1 + (128 + 127) + 128 * (1 + 128 + 127), *alone(FULL, shared(BELL, 128)), LEVEL)
cause("cost: the most of a reading: 64 of them under 63 joins, each by a `then`")
ALL_FULL = pond(shared(inst(1), 64), nothings(128), then_is(FULL))
FULL_BEGUN = running(100, wide(64, unit(ALL_FULL, then_is(FULL))))
FULL_WAITS = running(100, wide(64, unit(ALL_FULL, FULL, sees=(0, 60))))
begins(ALL_FULL, ZEROS, FULL_BEGUN)
costs(127 + 64, ALL_FULL, FULL_BEGUN, level(100), FULL_WAITS)
costs(127 + 64 * ((128 + 127) + 128 * (1 + 128 + 127)), ALL_FULL, FULL_WAITS, LEVEL, fulfilled(106, 106))

# paper 02, No. 2. Each forecast is written out: the breach's time and its parties by bit, or none
NOTHING = 0, 0


def opens(ahead, data, left): call("start", data, ZEROS, b"", 0, left, ahead)
def tells(ahead, cost, data, table, r, left): call("reading", data, table, r, 0, left, 0, cost, ahead)
def tells_nothing(number, cost, data, table, r): call("reading", data, table, r, number, table, 0, cost, NOTHING)


def opens_joined(ahead, join, *clauses):
    data = pond(join(*clauses))
    opens(ahead, data, running(100, units(data, dict(JOINS)[join], *clauses)))


OWES, MAY = owes(), may()
cause("ahead: of a start: none of what is fulfilled, nor of a choice; an obligation's last minute")
opens(NOTHING, agreement(NIL), fulfilled(100))
opens(NOTHING, *alone(MAY))
opens((160, 1), *alone(OWES))
cause("ahead: of an `and` the earlier breach, of both in one minute all their parties")
opens_joined((160, 1), both, OWES, MAY)
opens_joined((150, 2), both, simply(0, 60), simply(1, 50))
opens_joined((150, 1), both, simply(0, 50), simply(1, 60))
opens_joined((150, 3), both, simply(0, 50), simply(1, 50))
cause("ahead: of an `or` the later breach, and none where a side has none")
opens_joined(NOTHING, either, OWES, MAY)
opens_joined(NOTHING, either, MAY, OWES)
opens_joined((160, 2), either, simply(1, 60), simply(1, 50))
opens_joined((160, 2), either, simply(1, 50), simply(1, 60))
cause("ahead: of a mark: the same before the breach's minute and in it; then the breach itself, which stays")
BOTH_WAIT = of_pair(20, 100, 100, 21, 52)
for time in (100, 149, 150):
    tells((150, 2), 3, PAIR, BOTH_WAIT, event(time), altered(1, time, BOTH_WAIT))
tells((150, 2), 3, PAIR, BOTH_WAIT, event(151), shown(151, 150, 2))
for r in (event(151), event(400), event(400, 1, [1])):
    tells((150, 2), 0, PAIR, shown(151, 150, 2), r, shown(151, 150, 2))
cause("ahead: two breaches in the very minute of the start; the mark of that minute shows the one that is late")
LATE = simply(0, -5), simply(1, 0)
data = pond(both(*LATE))
opens((100, 3), data, running(100, units(data, 20, *LATE)))
tells((100, 1), 3, data, running(100, units(data, 20, *LATE)), event(100), shown(100, 100, 1))
cause("ahead: a reading moves it: by a `then`, by a unit that is fulfilled; with the last unit it is gone")
data, table = alone(then_is(OWES))
opens((160, 1), data, table)
tells((170, 1), 2, data, table, level(110, 7), running(110, [unit(data, OWES, 110, sees=[7, 50])], 110))
HASTY = owes(1, 2, within=lit(20))
data = pond(both(HASTY, OPENING))
both_wait, one_waits = running(100, units(data, 20, HASTY, OPENING)), running(110, [unit(data, OPENING)], 110)
opens((120, 2), data, both_wait)
tells((160, 1), 3 + 1, data, both_wait, bell(110), one_waits)
tells(NOTHING, 1 + 1, data, one_waits, level(120), fulfilled(120, 120))
cause("ahead: a choice that is late brings its else's, which was ahead before")
opens((405, 1), *alone(lapsing(BELL)))
tells((405, 1), 2, *alone(lapsing(BELL)), MARK, comes_to(alone(lapsing(BELL))[0], 106, 105, [BELL]))
cause("ahead: a unit of a table made by hand that is late at its last reading")
data, _ = alone(OWES)
tells((160, 1), 1, data, running(170, [unit(data, OWES)]), event(170), shown(170, 160, 1))
cause("ahead: a refusal gives zeros for it, whatever was ahead: 6 to 11, of a reading and of a start")
GROWING = owing(then_is(many(65)))
tells((160, 1), 1, GROWING, AWAITING, event(100), AWAITING)
tells_nothing(6, 0, GROWING, AWAITING[:3079], event(100))
tells_nothing(7, 0, GROWING, altered(3, 1, AWAITING), event(100))
tells_nothing(7, 0, GROWING, altered(3079, 1, shown(110, 105, 1)), event(110))
tells_nothing(8, 0, GROWING, AWAITING, [])
tells_nothing(9, 0, GROWING, AWAITING, event(110, 2))
tells_nothing(10, 0, GROWING, AWAITING, event(99))
tells_nothing(11, 1 + (64 + 65 * 2), GROWING, AWAITING, event(110, 1, [0]))
call("start", GROWING, AWAITING[:3079], b"", 6, AWAITING[:3079], NOTHING)
call("start", owing(many(65)), AWAITING, b"", 11, AWAITING, NOTHING)

# paper 02, No. 6. Each outcome is written out: what the second table becomes, or that it is as it was
# second tables: zeros, one that is damaged at both ends, another run's, a breached one
SECONDS = ZEROS, altered(3079, -1, altered(0, 7, ZEROS)), doubled(4, 300), shown(400, 300, 3)
# of a wrong length: a cell too few, one too many, none
MISFITS = altered(3078, -1, ZEROS[:3079]), altered(0, 1, [*ZEROS, 9]), []


def previews(data, table, r, number, left, early, cost, ahead, seconds):
    for given in seconds:
        call("preview", data, (table, given), r, number, given if number else left, early, cost, ahead)


def foresees(ahead, cost, data, table, r, outcome, early=0, seconds=SECONDS):
    previews(data, table, r, 0, outcome, early, cost, ahead, seconds)


def foresees_nothing(number, data, table, r, cost=0, seconds=SECONDS):
    previews(data, table, r, number, None, 0, cost, NOTHING, seconds)


cause("preview: a mark, and a reading that nothing wants: the time moves alone; in the minute of the last not even that")
data, table = alone(OWES)
foresees((160, 1), 1, data, table, event(110), altered(1, 110, table))
foresees((160, 1), 1, data, table, bell(160), altered(1, 160, table))
foresees((160, 1), 1, data, table, event(100), table)
cause("preview: a reading that alters: by a `then`, by a unit that is fulfilled; with the last unit")
data, table = alone(then_is(OWES))
foresees((170, 1), 2, data, table, level(110, 7), running(110, [unit(data, OWES, 110, sees=[7, 50])], 110))
data = pond(both(HASTY, OPENING))
foresees((160, 1), 3 + 1, data, both_wait, bell(110), one_waits)
foresees(NOTHING, 1 + 1, data, one_waits, level(120), fulfilled(120, 120))
cause("preview: more units than before, as many as a table has, fewer")
foresees((163, 1), 7 + 20, TWICE, doubled(2, 102), level(103), doubled(3, 103))
foresees((166, 1), 63 + 160, TWICE, doubled(5, 105), level(106), doubled(6, 106))
foresees((160, 1), 3, EITHER, of_pair(21, 110, 100, 21, 52), event(155), of_pair(21, 155, 155, 52))
cause("preview: a reading that comes too early; from its window on it does not")
foresees((160, 1), 1, OWED, OPENS, level(119), altered(1, 119, OPENS), early=1)
foresees(NOTHING, 1 + 1, OWED, OPENS, level(120), fulfilled(120, 120))
cause("preview: a choice that is late, and its else waits")
foresees((405, 1), 2, *alone(lapsing(BELL)), MARK, comes_to(alone(lapsing(BELL))[0], 106, 105, [BELL]))
cause("preview: a breach, by the one that is late; its own minute is not late")
foresees((150, 2), 3, PAIR, BOTH_WAIT, event(150), altered(1, 150, BOTH_WAIT))
foresees((150, 2), 3, PAIR, BOTH_WAIT, event(151), shown(151, 150, 2))
cause("preview: of a fulfilled table the time moves alone; a breached one is copied, cell for cell")
for r in (event(120), level(120), bell(120)):
    foresees(NOTHING, 0, OWED, fulfilled(110, 105), r, fulfilled(120, 105))
    foresees((105, 1), 0, OWED, shown(110, 105, 1), r, shown(110, 105, 1))
cause("preview: whatever the second table held: in each cell another number; the first table itself")
for given in ([i - 1540 for i in range(3080)], OPENS, fulfilled(120, 120)):
    foresees(NOTHING, 1 + 1, OWED, OPENS, level(120), fulfilled(120, 120), seconds=[given])
    foresees_nothing(10, OWED, OPENS, level(99), seconds=[given])
cause("preview: refused with 1 to 5, whatever the tables are")
for number, data in enumerate((cat(OWED, [0]), pond(OPENING + NIL), pond(both(OPENING, asking(ONE))),
                               pond(OPENING, inst(0)), pond(both(OPENING, nothings(129)))), 1):
    for table in (running(100, [unit(data, OPENING)]), ZEROS, ZEROS[:3079]):
        foresees_nothing(number, data, table, level(120), seconds=SECONDS + MISFITS)
cause("preview: refused with 6: by the first table, by the second, by both")
for table in (OPENS[:3079], [*OPENS, 0], []):
    foresees_nothing(6, OWED, table, level(120), seconds=SECONDS + MISFITS)
foresees_nothing(6, OWED, OPENS, level(120), seconds=MISFITS)
cause("preview: refused with 7, 8, 9 and 10, whatever would be next")
foresees_nothing(7, OWED, altered(5, 99, OPENS), [])
foresees_nothing(7, OWED, altered(3079, 1, shown(110, 105, 1)), event(110))
foresees_nothing(8, OWED, OPENS, level(99)[:12])
foresees_nothing(9, OWED, OPENS, event(99, 1))
foresees_nothing(10, OWED, altered(1, 121, OPENS), level(120))
cause("preview: refused with 8, 9 and 10 on a fulfilled table and on a breached one")
for table in (fulfilled(110), shown(110, 105, 1)):
    foresees_nothing(8, OWED, table, level(110)[:12])
    foresees_nothing(9, OWED, table, event(110, 1))
    foresees_nothing(10, OWED, table, level(109))
cause("preview: refused with 11, at the reading's cost; before it 10")
foresees_nothing(11, TWICE, doubled(6, 106), level(107), 127 + 320)
foresees_nothing(11, GROWING, AWAITING, event(110, 1, [0]), 1 + (64 + 65 * 2))
foresees_nothing(10, TWICE, doubled(6, 106), level(105))
cause("preview: 6 by the second table comes before 7 to 11, and where the reading would be accepted")
for data, table, r in ((OWED, ZEROS, level(120)), (OWED, OPENS, []), (OWED, OPENS, event(120, 1)),
                       (OWED, OPENS, level(99)), (TWICE, doubled(6, 106), level(107)), (OWED, OPENS, level(119)),
                       (OWED, fulfilled(110), event(120)), (OWED, shown(110, 105, 1), event(120))):
    foresees_nothing(6, data, table, r, seconds=MISFITS)
cause("preview: a second table that the agreement shows later, breached or fulfilled: it is not asked")
for given in (altered(1, 200, OPENS), shown(200, 160, 1), fulfilled(200)):
    foresees((160, 1), 1, OWED, OPENS, event(110), altered(1, 110, OPENS), seconds=[given])
    foresees_nothing(10, OWED, altered(1, 121, OPENS), event(120), seconds=[given])
cause("preview: the reading itself afterwards, on the first table; and the one after it, on what the second became")
data, table = alone(then_is(OWES))
outcome = running(110, [unit(data, OWES, 110, sees=[7, 50])], 110)
foresees((170, 1), 2, data, table, level(110, 7), outcome, seconds=[ZEROS])
tells((170, 1), 2, data, table, level(110, 7), outcome)
foresees((170, 1), 1, data, outcome, event(171), shown(171, 170, 1), seconds=[outcome])
tells((170, 1), 1, data, outcome, event(171), shown(171, 170, 1))

# paper 02, No. 7. Each need is written out; what is declared or allowed is just that, and then a unit less or more
TWO_OWE = both(simply(0, 60), simply(1, 60))  # needs 3


def sized_beside(units, body, *others): return agreement(NIL, [*others, sized(units, body, declared=3)])
def one_unit(clause): return sized(1, clause, declared=1)


def limit(need, body, *others):
    """The last template's body fits what it needs, and no less."""
    accepts(0, sized_beside(need, body, *others))
    refuses(15, sized_beside(need - 1, body, *others))


def refused_by_all(number, data):
    """By each entry, also where each table is as long as it must be, shows a run, and a reading is whole."""
    refuses(number, data)
    for table in (ZEROS, ZEROS[:3079], running(100, [unit(SAMPLE, SAMPLE[17:])])):
        stays(number, data, table)
        for r in ([], event(110, 9), level(99), level(110), event(110)):
            declines(number, data, table, r)
            foresees_nothing(number, data, table, r, seconds=SECONDS[:1] + MISFITS[:1])


cause("15: fulfilled needs nothing, nor does an if of two fulfilled, nor an instance of what declares nothing")
accepts(0, sized_beside(0, NIL))
accepts(0, sized_beside(0, cond(YES, NIL, NIL)))
accepts(0, sized_beside(0, inst(0), sized(0, NIL)))
cause("15: an obligation needs 1, or what its `then` does")
limit(1, owes())
limit(3, then_is(TWO_OWE))
cause("15: a choice needs 1, or what its `then` or its else does")
limit(1, may())
limit(3, may(then=TWO_OWE, other=OWES))
limit(3, may(then=OWES, other=TWO_OWE))
limit(3, may(then=TWO_OWE, other=TWO_OWE))
cause("15: an if needs what the larger of its clauses does, be it followed or not")
limit(3, cond(YES, TWO_OWE, OWES))
limit(3, cond(YES, OWES, TWO_OWE))
limit(3, cond(truth(0), TWO_OWE, TWO_OWE))
cause("15: `and` and `or` need 1 and both together, though one fulfilled side is dropped")
for join, _ in JOINS:
    limit(1, join(NIL, NIL))
    limit(2, join(OWES, NIL))
    limit(2, join(NIL, OWES))
    limit(5, join(OWES, join(OWES, OWES)))
    limit(5, join(join(OWES, OWES), OWES))
cause("15: an instance needs what its template declares, not what its body does")
limit(7, inst(0), sized(7, OWES, declared=1))
limit(5, inst(1), sized(7, OWES, declared=1), sized(5, OWES, declared=1))
limit(13, both(inst(0), inst(1)), sized(7, OWES, declared=1), sized(5, OWES, declared=1))
cause("15: so it does where it begins anew: behind a reading all that is declared, beside itself more than that")
limit(1, then_is(inst(0)))
for u in (2, 127, 128):
    accepts(0, sized_beside(u, then_is(inst(0))))
for u in (1, 2, 127, 128):
    refuses(15, sized_beside(u, then_is(both(inst(0), NIL))))
cause("15: P15's template, with units: no number of units is enough")
refuses(15, agreement(inst(0), [sized(0, owes(then=both(inst(0), inst(0))), declared=1)]))
refuses(15, agreement(inst(0), [sized(1, owes(then=both(inst(0), inst(0))), declared=1)]))
refuses(15, agreement(inst(0), [sized(128, owes(then=both(inst(0), inst(0))), declared=1)]))
cause("15: more declared than is needed is accepted")
accepts(0, sized_beside(128, NIL))
accepts(1, agreement(OWES, [sized(128, NIL)]))
cause("15: the main clause: 128 is accepted, 129 is not; by an instance, by joins, by what is not followed")
accepts(0, agreement(inst(0), [sized(128, NIL)]))
refuses(15, agreement(both(inst(0), NIL), [sized(128, NIL)]))
accepts(0, agreement(either(inst(0), inst(1)), [sized(64, NIL), sized(63, NIL)]))
refuses(15, agreement(either(inst(0), inst(1)), [sized(64, NIL), sized(64, NIL)]))
accepts(1, agreement(then_is(inst(0)), [sized(128, NIL)]))
refuses(15, agreement(then_is(both(NIL, inst(0))), [sized(128, NIL)]))
refuses(15, agreement(may(then=inst(0), other=both(inst(0), NIL)), [sized(128, NIL)]))
refuses(15, agreement(cond(YES, NIL, both(inst(0), NIL)), [sized(128, NIL)]))
cause("15: 64 instances of one unit are 127, 65 are 129")
accepts(1, agreement(many(64), [one_unit(OWES)]))
refuses(15, agreement(many(65), [one_unit(OWES)]))
cause("15: by every entry, before 6 to 11: a body of a template that nothing names, and the main clause")
refused_by_all(15, agreement(OWES, [one_unit(OWES), sized(2, TWO_OWE, declared=3)]))
refused_by_all(15, agreement(OWES, [sized(2, TWO_OWE, declared=3), one_unit(OWES)]))
refused_by_all(15, agreement(many(65), [one_unit(OWES)]))
cause("15: 2, 3, 4 and 5 before it, by every entry")
refused_by_all(2, sized_beside(0, OWES + NIL))
refused_by_all(3, sized_beside(0, asking(ONE)))
refused_by_all(4, sized_beside(0, OWES, sized(0, inst(0))))
refused_by_all(5, agreement(nothings(129), [sized(0, OWES, declared=1)]))
cause("2: units of 128, of 129 and of 255; behind values and parameters too")
accepts(0, sized_beside(128, NIL))
accepts(0, beside(sized(128, NIL, [1] * 8, 4)))
for u in (129, 255):
    refused_by_all(2, sized_beside(u, NIL))
    refuses(2, beside(sized(u, NIL, [1] * 8, 4)))
    refuses(2, sized_beside(0, NIL, sized(u, NIL)))
cause("2: kinds 3 and 4 mixed: either first, one among many")
refused_by_all(2, agreement(NIL, [template(NIL), sized(1, NIL)]))
refused_by_all(2, agreement(NIL, [sized(1, NIL), template(NIL)]))
refuses(2, agreement(NIL, [sized(1, NIL)] * 31 + [template(NIL)]))
refuses(2, agreement(NIL, [template(NIL)] * 15 + [sized(1, NIL)] + [template(NIL)] * 16))
accepts(0, agreement(NIL, [sized(1, NIL)] * 32))
refuses(2, agreement(NIL, [sized(1, NIL)] * 33))
cause("2: kind 5, laid out as kind 3 and as kind 4; kind 260; each layout under the other's kind")
refuses(2, beside(rec(5, cat([0, 0], u2(0), NIL))))
refuses(2, beside(rec(5, cat([0, 0], u2(0), [1], NIL))))
refuses(2, beside(rec(260, cat([0, 0], u2(0), [1], NIL))))
refuses(2, beside(rec(4, cat([0, 0], u2(0), NIL))))
refuses(2, beside(rec(3, cat([0, 0], u2(0), [1], NIL))))
cause("2: of kind 4 as of kind 3: 9 values, 5 parameters, a type byte, no clause, two, one cut short, 25 deep")
refuses(2, beside(sized(1, NIL, [1] * 9)))
refuses(2, beside(sized(1, NIL, [], 5)))
refuses(2, beside(sized(1, NIL, [1, 0])))
refuses(2, beside(sized(1, NIL, [4])))
refuses(2, beside(sized(1, [])))
refuses(2, beside(rec(4, cat([0, 0], u2(0)))))
refuses(2, beside(sized(1, NIL + NIL)))
refuses(2, beside(sized(1, NIL[:3])))
refuses(2, beside(sized(1, cat(NIL, [0]))))
accepts(0, beside(sized(21, chained(21))))
refuses(2, beside(sized(22, chained(22))))
cause("3: of kind 4 as of kind 3: a body is typed, and what it declares counts")
refuses(3, beside(sized(1, simply(1, 60), declared=1)))
refuses(3, beside(sized(1, NIL, declared=4)))
accepts(3, agreement(inst(0), [sized(1, NIL, declared=3)]))
refuses(3, agreement(either(inst(0), NIL), [sized(1, NIL, declared=3)]))
cause("of kind 3, and without templates, as before: no need is asked, and 129 units are 11")
accepts(0, beside(template(shared(OWES, 65), declared=1)))
for data in (agreement(many(65), [template(OWES, declared=1)]), agreement(shared(OWES, 65))):
    accepts(1, data)
    stays(11, data, ZEROS)

# a number, a party and a parameter before the units
ASKS_OF, OWES_BY = owes(128, where=op(43, var(1), party(1))), owes(0, within=var(0))


def lends(units):
    return agreement(inst(0, [lit(30), party(1)], [1]), [sized(units, both(ASKS_OF, OWES_BY), [1, 3], 1, 1)])


LENT = running(100, [joining(20), *(unit(lends(3), c, 100, [1], [30, 1]) for c in (ASKS_OF, OWES_BY))])
cause("units behind values and a parameter: a need of 3, the places, what is in sight, the breach")
accepts(3, lends(3))
refuses(15, lends(2))
opens((130, 1), lends(3), LENT)
tells(NOTHING, 3 + 2, lends(3), LENT, level(130), fulfilled(130, 130))
tells((130, 1), 3, lends(3), LENT, event(131), shown(131, 130, 1))
foresees((130, 1), 3, lends(3), LENT, event(110), altered(1, 110, LENT))
for i in (-1, 1):
    tells_nothing(7, 0, lends(3), altered(cell(1, 1), LENT[cell(1, 1)] + i, LENT), event(110))
cause("units behind eight values and four parameters, in a second template")
LAST = owes(131, within=var(7))
data = agreement(inst(1, [lit(i) for i in range(8)], [0, 1, 0, 1]),
                 [sized(9, NIL, [1] * 3, 2), sized(1, LAST, [1] * 8, 4)])
accepts(3, data)
opens((107, 2), data, running(100, [unit(data, LAST, 100, [0, 1, 0, 1], range(8))]))

# 64 obligations and the 63 joins of them are 127 units; no table has 128, since each join has two sides
FILLS = agreement(then_is(inst(1)), [one_unit(OWES), sized(127, many(64), declared=1)])
RENEWS = agreement(many(64), [one_unit(then_is(inst(0)))])
JUST_128 = agreement(both(inst(1), inst(0)), [one_unit(OWES), sized(126, many(63), declared=1)])


def filled(data, clause, a): return running(a, wide(64, unit(data, clause, a)), a)


cause("sized: a run that comes to its whole need by a reading, 127 units; it is fulfilled, or breached")
FILLS_NEXT = running(100, [unit(FILLS, then_is(inst(1)))])
accepts(1, FILLS)
opens((160, 1), FILLS, FILLS_NEXT)
tells((170, 1), 1 + (1 + 63 + 64 * 2), FILLS, FILLS_NEXT, level(110), filled(FILLS, OWES, 110))
tells(NOTHING, 127 + 64, FILLS, filled(FILLS, OWES, 110), level(120), fulfilled(120, 120))
tells((170, 1), 127, FILLS, filled(FILLS, OWES, 110), event(171), shown(171, 170, 1))
foresees((170, 1), 1 + (1 + 63 + 64 * 2), FILLS, FILLS_NEXT, level(110), filled(FILLS, OWES, 110))
cause("sized: a run that keeps its whole need, reading by reading")
accepts(1, RENEWS)
opens((160, 1), RENEWS, filled(RENEWS, then_is(inst(0)), 100))
for a in (100, 110, 160):
    tells((a + 70, 1), 127 + 64 * 2, RENEWS, filled(RENEWS, then_is(inst(0)), a), level(a + 10),
          filled(RENEWS, then_is(inst(0)), a + 10))
cause("sized: a main clause that needs 128 begins with 127 units; with a unit more declared it is 15")
accepts(1, JUST_128)
opens((160, 1), JUST_128, running(100, [
    joining(20), *spread(lambda a, b: [joining(20), *a, *b], [[unit(JUST_128, OWES)]] * 63), unit(JUST_128, OWES)]))
refuses(15, agreement(both(inst(1), inst(0)), [one_unit(OWES), sized(127, many(63), declared=1)]))
cause("sized: the same templates of kind 3 are accepted with a unit more, and begin with 11")
BESIDE_63 = agreement(both(inst(1), inst(0)), [template(OWES, declared=1), template(many(64), declared=1)])
accepts(1, BESIDE_63)
stays(11, BESIDE_63, ZEROS)
refuses(15, agreement(both(inst(1), inst(0)), [one_unit(OWES), sized(128, many(64), declared=1)]))
cause("sized: a table that no run reaches may need more: 11 by a reading all the same")
TWO_GROW = agreement(then_is(inst(0)), [sized(3, both(OWES, OWES), declared=1)])
MANY_GROW = running(100, wide(64, unit(TWO_GROW, then_is(inst(0)))))
tells_nothing(11, 127 + 64 * (1 + 3), TWO_GROW, MANY_GROW, level(110))
foresees_nothing(11, TWO_GROW, MANY_GROW, level(110), 127 + 64 * (1 + 3))
