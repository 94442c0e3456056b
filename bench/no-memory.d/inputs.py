"""The inputs over which each allocation is refused in turn, with what the program answers where none is."""

PIECES = """type v = vector 2 1 2 MPI_INT
commit v
buffer b count 16
pack p native 1 v b 0
take p 3
take p 3
take p 3
take p 3
close p
"""
CUT = """type c = contiguous 2 MPI_INT
commit c
buffer z zero 16
unpack u native 2 c z 0
give u 010203040506
show z
give u 0708
show z
"""
TREES = """type a = hindexed_block MPI_INT 1 0 8 16
normalise a
type b = hindexed_block MPI_INT 1 0 4 12
normalise b
type c = hindexed_block MPI_INT 1 0 4 100 104 200 204
normalise c
type d = hindexed_block MPI_INT 1 0 4 8 20 24 28 50
normalise d
normalise MPI_INT
type e = contiguous 0 MPI_INT
normalise e
type g = contiguous 64 MPI_BYTE
normalise g
type f = contiguous 1025 MPI_BYTE
normalise f
"""
GREATEST_TREE = """type g = contiguous 1024 MPI_BYTE
normalise g
"""
EVERY_COMMAND = """type t1 = contiguous 2 MPI_INT
type t2 = vector 2 1 2 MPI_INT
type t3 = hvector 2 1 8 MPI_INT
type t4 = indexed MPI_INT 1@0 2@2
type t5 = hindexed MPI_INT 1@0 2@8
type t6 = indexed_block MPI_INT 1 0 2
type t7 = hindexed_block MPI_INT 1 0 8
type t8 = struct 1@0@MPI_INT 1@4@MPI_BYTE
type t9 = resized 0 16 t8
type t10 = dup t9
type t11 = subarray c MPI_INT 4:2:1 2:1:0
type t12 = darray 2 0 fortran MPI_INT 4:cyclic:-:2
child t13 = t10 0
rebuild t14 = t11
commit t14
commit t8
free t13
info t14
map t14
envelope t14
contents t8
buffer b1 zero 64
buffer b2 count 64
buffer b3 hex 00ff
show b3
bytes external32 1 t8 b2 0
pack p native 1 t8 b2 0
take p 3
seek p 1
take p 4
unpack u external32 2 t14 b1 0
give u 010203040506
show b1
close u
close p
elements native 12 t1
weights 1 2 3 4 5 6
normalise t4
copy 1 t8 b2 0 1 t8 b1 0
export t8
import t15 = 64747731030000000200000001000000020006
reduce sum 2 MPI_INT b2 0 b1 0
reduceall min halves 2 MPI_INT 0 b1 b2 b1 b2
nonsense
# a comment
"""
CERTIFICATE = """dtcert 2
weights 1 3 2 1 2 2
map 3
entry MPI_INT 0
entry MPI_INT 8
entry MPI_INT 16
base 0
tree vector 3 1 8 leaf MPI_INT
cost 4
low 0 1 1
low 1 2 1
low 2 3 1
low 0 2 4
low 1 3 4
low 0 3 4
end
"""


def only(text, without):
    """The lines whose commands the program has."""
    return "".join(line for line in text.splitlines(keepends=True) if line.split()[0] not in without).encode()


def inputs(without):
    """Name, words and input of each, and how far one allocation that is refused lies behind the one before: 1, where they aren't too many."""
    certified = "".join(line for line in TREES.splitlines(keepends=True) if not line.endswith((" f\n", "1025 MPI_BYTE\n")))
    found = [
        ("pieces", ["run"], only(PIECES, without), 1),
        ("a cut element", ["run"], only(CUT, without), 1),
        ("least trees", ["run"], only(TREES, without), 1),
        ("the greatest least tree", ["run"], only(GREATEST_TREE, without), 61),
        ("every command", ["run"], only(EVERY_COMMAND, without), 1),
        ("a certificate written", ["certify", "a"], only(certified, without), 1),
        ("a certificate checked", ["check"], CERTIFICATE.encode(), 1),
        ("a certificate migrated", ["migrate"], CERTIFICATE.encode(), 1),
        ("an old one migrated", ["migrate"], CERTIFICATE.replace("dtcert 2", "dtcert 1").encode(), 1),
        ("totals", ["gen", "1"], b"", 997),
    ]
    return [it for it in found if it[1][0] not in without]
