/* What an MPI library answers to the cases of docs/LIBRARIES.md, a line each. It runs as one process:
 *     mpicc docs/libraries.c -o libraries && ./libraries
 * No check runs it: what two libraries answered is told in docs/LIBRARIES.md. */
#include <mpi.h>
#include <stdio.h>

static unsigned char buffer[64];

/* The bounds of a datatype, as `info` tells them. */
static void bounds(const char *what, MPI_Datatype type) {
    MPI_Aint lb, extent, true_lb, true_extent;
    MPI_Type_get_extent(type, &lb, &extent);
    MPI_Type_get_true_extent(type, &true_lb, &true_extent);
    printf("%s: lb %ld ub %ld extent %ld true_lb %ld true_ub %ld\n", what, (long)lb, (long)(lb + extent), (long)extent, (long)true_lb,
           (long)(true_lb + true_extent));
}

/* The packed bytes of some copies, the first of which begins at the origin of a buffer whose byte i is i. */
static void packs(const char *what, MPI_Datatype type, int count, int origin) {
    unsigned char packed[64];
    int size = 0;
    MPI_Type_commit(&type);
    MPI_Pack(buffer + origin, count, type, packed, sizeof packed, &size, MPI_COMM_SELF);
    printf("%s: bytes %d ", what, size);
    for (int i = 0; i < size; i++) printf("%02x", packed[i]);
    printf("\n");
}

/* A struct of two parts, one copy of each. */
static MPI_Datatype two(MPI_Aint first, MPI_Datatype a, MPI_Aint second, MPI_Datatype b) {
    int lengths[2] = {1, 1};
    MPI_Aint places[2] = {first, second};
    MPI_Datatype types[2] = {a, b}, made;
    MPI_Type_create_struct(2, lengths, places, types, &made);
    return made;
}

static void rounding(void) {
    MPI_Aint places[3] = {88, 70, 57};
    MPI_Datatype type, pair = two(0, MPI_INT, 4, MPI_BYTE);
    MPI_Type_create_hindexed_block(3, 1, places, MPI_INT, &type);
    bounds("hindexed_block 1 88 70 57", type);
    type = two(0, pair, 6, pair);
    bounds("struct of pairs at 0 and 6", type);
    packs("two of them", type, 2, 0);
    MPI_Type_create_hvector(2, 1, 6, MPI_INT, &type);
    bounds("hvector 2 1 6", type);
    packs("two of them", type, 2, 0);
}

static void steps(void) {
    MPI_Datatype type;
    MPI_Type_vector(3, 1, -1, MPI_BYTE, &type);
    bounds("vector 3 1 -1", type);
    packs("one from 2", type, 1, 2);
    MPI_Type_create_hvector(4, 0, -44, MPI_BYTE, &type);
    bounds("hvector 4 0 -44", type);
}

static void marks(void) {
    MPI_Datatype narrow, nothing, wide, type;
    MPI_Type_create_resized(MPI_INT, 0, 4, &narrow);
    bounds("struct of a resized int at 0 and an int at 12", two(0, narrow, 12, MPI_INT));
    packs("two of them", two(0, narrow, 12, MPI_INT), 2, 0);
    MPI_Type_contiguous(0, MPI_INT, &nothing);
    MPI_Type_create_resized(nothing, 0, 48, &wide);
    type = two(0, MPI_LONG, 0, wide);
    bounds("struct of a long and nothing of extent 48", type);
    packs("two of them", type, 2, 0);
}

static void counts(void) {
    MPI_Datatype nothing;
    MPI_Status status;
    int count = 0;
    MPI_Type_contiguous(0, MPI_INT, &nothing);
    MPI_Type_commit(&nothing);
    MPI_Status_set_elements(&status, MPI_BYTE, 4);
    MPI_Get_count(&status, nothing, &count);
    printf("copies of nothing in 4 bytes: %d, and MPI_UNDEFINED is %d\n", count, MPI_UNDEFINED);
}

static void reductions(void) {
    unsigned long one = 1, most = -1UL;
    MPI_Offset first = 1, second = -1;
    MPI_Reduce_local(&one, &most, 1, MPI_UNSIGNED_LONG, MPI_MAX);
    printf("max of MPI_UNSIGNED_LONG 1 and 2^64 - 1: %lu\n", most);
    MPI_Reduce_local(&first, &second, 1, MPI_OFFSET, MPI_MAX);
    printf("max of MPI_OFFSET 1 and -1: %lld\n", (long long)second);
}

int main(int argc, char **argv) {
    char version[MPI_MAX_LIBRARY_VERSION_STRING];
    int length;
    MPI_Init(&argc, &argv);
    MPI_Get_library_version(version, &length);
    printf("%.40s\n", version);
    for (int i = 0; i < 64; i++) buffer[i] = (unsigned char)i;
    rounding();
    steps();
    marks();
    counts();
    reductions();
    MPI_Finalize();
    return 0;
}
