/* Packs and unpacks nine layouts by this library, by MPI_Pack and MPI_Unpack, and copies as many bytes by memcpy. The packed bytes of both and
 * the buffers that are unpacked must be the same. Prints GB/s of packed bytes, the best of several rounds, in one run. */
#define _POSIX_C_SOURCE 200809L
#include "hozkari.h"
#include <mpi.h>
#include <stdio.h>
#include <stdlib.h>
#include <string.h>
#include <time.h>

enum { BYTES = 8 << 20, ROUNDS = 7, BLOCKS = 1024 };

static unsigned char *buffer, *ours, *theirs, *back, *again, *plain;
static dt_lib lib = DT_LIB_NULL;

static void must(const char *what, int answer) {
    if (answer == 0) return;
    printf("%s: %d\n", what, answer);
    MPI_Abort(MPI_COMM_WORLD, 1);
}

static double now(void) {
    struct timespec t;
    clock_gettime(CLOCK_MONOTONIC, &t);
    return (double)t.tv_sec + 1e-9 * (double)t.tv_nsec;
}

/* The shortest of some rounds, in seconds. */
#define BEST(seconds, call) \
    for (int round_ = 0; round_ < ROUNDS; round_++) { \
        double start_ = now(); \
        call; \
        double took_ = now() - start_; \
        if (round_ == 0 || took_ < seconds) seconds = took_; \
    }

static void our_pack(dt_type type, int count, size_t size) {
    size_t position = 0;
    must("pack", dt_pack(&lib, buffer, BYTES, 0, count, type, ours, size, &position, DT_NATIVE));
}

static void our_unpack(dt_type type, int count, size_t size) {
    size_t position = 0;
    must("unpack", dt_unpack(&lib, ours, size, &position, back, BYTES, 0, count, type, DT_NATIVE));
}

static void their_pack(MPI_Datatype type, int count, int size) {
    int position = 0;
    MPI_Pack(buffer, count, type, theirs, size, &position, MPI_COMM_SELF);
}

static void their_unpack(MPI_Datatype type, int count, int size) {
    int position = 0;
    MPI_Unpack(theirs, size, &position, again, count, type, MPI_COMM_SELF);
}

/* One layout, as both libraries have it. */
static void layout(const char *name, dt_type type, MPI_Datatype mpi, int count) {
    uint64_t one = 0;
    double pack = 0, unpack = 0, mpi_pack = 0, mpi_unpack = 0, copy = 0;
    must("commit", dt_type_commit(&lib, &type));
    MPI_Type_commit(&mpi);
    must("size", dt_type_size(&lib, type, &one));
    size_t size = (size_t)one * (size_t)count;
    memset(back, 0, BYTES);
    memset(again, 0, BYTES);
    BEST(pack, our_pack(type, count, size));
    BEST(mpi_pack, their_pack(mpi, count, (int)size));
    BEST(unpack, our_unpack(type, count, size));
    BEST(mpi_unpack, their_unpack(mpi, count, (int)size));
    BEST(copy, memcpy(plain, buffer, size));
    const double gb = (double)size * 1e-9;
    printf("| %s | %.1f | %.1f | %.1f | %.1f | %.1f |\n", name, gb / pack, gb / mpi_pack, gb / unpack, gb / mpi_unpack, gb / copy);
    if (memcmp(ours, theirs, size) != 0 || memcmp(back, again, BYTES) != 0) {
        printf("%s: the bytes differ\n", name);
        MPI_Abort(MPI_COMM_WORLD, 1);
    }
    must("free", dt_type_free(&lib, &type));
    MPI_Type_free(&mpi);
}

int main(int argc, char **argv) {
    static int lens[BLOCKS], disps[BLOCKS];
    static int64_t at[BLOCKS];
    static MPI_Aint mpi_at[BLOCKS];
    dt_type type;
    MPI_Datatype mpi;
    MPI_Init(&argc, &argv);
    must("new", dt_lib_new(&lib));
    buffer = malloc(BYTES), ours = malloc(BYTES), theirs = malloc(BYTES), back = malloc(BYTES), again = malloc(BYTES), plain = malloc(BYTES);
    if (!buffer || !ours || !theirs || !back || !again || !plain) return 1;
    for (int i = 0; i < BYTES; i++) buffer[i] = (unsigned char)(i * 7 + i / 251);
    memset(plain, 1, BYTES);
    printf("| layout | pack | MPI_Pack | unpack | MPI_Unpack | memcpy |\n| --- | --- | --- | --- | --- | --- |\n");

    must("contiguous", dt_type_contiguous(&lib, BYTES / 4, DT_INT, &type));
    MPI_Type_contiguous(BYTES / 4, MPI_INT, &mpi);
    layout("contiguous ints", type, mpi, 1);

    must("vector", dt_type_vector(&lib, 1024, 1, 2048, DT_INT, &type));
    MPI_Type_vector(1024, 1, 2048, MPI_INT, &mpi);
    layout("a column of ints", type, mpi, 1);

    must("vector", dt_type_vector(&lib, BYTES / 8, 1, 2, DT_INT, &type));
    MPI_Type_vector(BYTES / 8, 1, 2, MPI_INT, &mpi);
    layout("every second int", type, mpi, 1);

    must("vector", dt_type_vector(&lib, 1024, 16, 32, DT_INT64_T, &type));
    MPI_Type_vector(1024, 16, 32, MPI_INT64_T, &mpi);
    layout("blocks of 16 int64", type, mpi, 31);

    must("vector", dt_type_vector(&lib, 64, 8192, 16384, DT_INT, &type));
    MPI_Type_vector(64, 8192, 16384, MPI_INT, &mpi);
    layout("rows of 32 KiB", type, mpi, 1);

    for (int i = 0; i < BLOCKS; i++) lens[i] = 1 + i % 7, disps[i] = 12 * i + i % 3, at[i] = 64 * (int64_t)i, mpi_at[i] = 64 * (MPI_Aint)i;
    must("indexed", dt_type_indexed(&lib, BLOCKS, lens, disps, DT_INT, &type));
    MPI_Type_indexed(BLOCKS, lens, disps, MPI_INT, &mpi);
    layout("indexed, 1 to 7 ints", type, mpi, 128);

    must("hindexed_block", dt_type_create_hindexed_block(&lib, BLOCKS, 2, at, DT_INT64_T, &type));
    MPI_Type_create_hindexed_block(BLOCKS, 2, mpi_at, MPI_INT64_T, &mpi);
    layout("hindexed_block of 16 bytes", type, mpi, 100);

    {
        const int blocks[3] = {1, 2, 1};
        const int64_t places[3] = {0, 8, 24};
        const MPI_Aint mpi_places[3] = {0, 8, 24};
        const dt_type types[3] = {DT_INT, DT_INT64_T, DT_SHORT};
        MPI_Datatype mpi_types[3] = {MPI_INT, MPI_INT64_T, MPI_SHORT};
        must("struct", dt_type_create_struct(&lib, 3, blocks, places, types, &type));
        MPI_Type_create_struct(3, blocks, mpi_places, mpi_types, &mpi);
        layout("array of structs", type, mpi, BYTES / 32);
    }

    {
        const int sizes[3] = {128, 128, 128}, subsizes[3] = {100, 100, 100}, starts[3] = {14, 14, 14};
        must("subarray", dt_type_create_subarray(&lib, 3, sizes, subsizes, starts, DT_ORDER_C, DT_INT, &type));
        MPI_Type_create_subarray(3, sizes, subsizes, starts, MPI_ORDER_C, MPI_INT, &mpi);
        layout("a cube in a cube", type, mpi, 1);
    }
    must("free", dt_lib_free(&lib));
    MPI_Finalize();
    return 0;
}
