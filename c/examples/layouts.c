/* Datatypes of lists, and a pack session that feeds an unpack session in pieces of every length. */
#include "hozkari.h"
#include <stdio.h>
#include <string.h>

static int failed;

/* A line where two numbers that should be one aren't. */
static void wants(const char *what, long got, long wanted) {
    if (got != wanted) {
        printf("%s: %ld, wanted %ld\n", what, got, wanted);
        failed = 1;
    }
}

/* What travels from one buffer into another in pieces of this length, in this representation: all packed bytes, and the held ones. */
static void travel(dt_lib *lib, dt_type type, int count, const unsigned char *from, unsigned char *to, size_t bytes, size_t length,
                   dt_rep rep) {
    unsigned char piece[64];
    dt_session sends, receives;
    uint64_t total = 0, position = 0, elements = 0;
    size_t taken = 1;
    dt_receipt receipt = {0, 0};
    wants("open pack", dt_pack_open(lib, bytes, 0, count, type, rep, &sends), DT_SUCCESS);
    wants("open unpack", dt_unpack_open(lib, bytes, 0, count, type, rep, &receives), DT_SUCCESS);
    while (taken > 0) {
        wants("take", dt_session_take(lib, sends, from, bytes, piece, length, &taken), DT_SUCCESS);
        wants("give", dt_session_give(lib, receives, to, bytes, piece, taken, &receipt), DT_SUCCESS);
        elements += receipt.completed;
    }
    wants("progress", dt_session_progress(lib, receives, &total, &position), DT_SUCCESS);
    wants("all bytes", (long)position, (long)total);
    wants("held at the end", (long)receipt.held, 0);
    wants("elements", (long)elements, 4L * count);
    wants("more than all", dt_session_give(lib, receives, to, bytes, piece, 1, &receipt), DT_ERR_ROOM);
    wants("another buffer", dt_session_give(lib, receives, to, bytes - 1, piece, 0, &receipt), DT_ERR_ARG);
    wants("a session of the other kind", dt_session_take(lib, receives, from, bytes, piece, 1, &taken), DT_ERR_SESSION);
    wants("close", dt_session_close(lib, sends), DT_SUCCESS);
    wants("close", dt_session_close(lib, receives), DT_SUCCESS);
    wants("a closed session", dt_session_close(lib, receives), DT_ERR_SESSION);
}

int main(void) {
    dt_lib lib = DT_LIB_NULL;
    dt_type record, rows, corner;
    unsigned char from[96], to[96];
    uint64_t size = 0;
    int64_t lb = 0, extent = 0;
    const int one_two_one[3] = {1, 2, 1};
    const int64_t places[3] = {0, 8, 24};
    const dt_type types[3] = {DT_INT, DT_INT64_T, DT_SHORT};
    const int lens[2] = {2, 1}, disps[2] = {0, 5};
    const int sizes[2] = {4, 6}, subsizes[2] = {2, 2}, starts[2] = {1, 3};

    wants("new", dt_lib_new(&lib), DT_SUCCESS);
    wants("struct", dt_type_create_struct(&lib, 3, one_two_one, places, types, &record), DT_SUCCESS);
    wants("size", dt_type_size(&lib, record, &size), DT_SUCCESS);
    wants("22 bytes", (long)size, 22);
    wants("extent", dt_type_get_extent(&lib, record, &lb, &extent), DT_SUCCESS);
    wants("32 from record to record", extent, 32);
    wants("true extent", dt_type_get_true_extent(&lib, record, &lb, &extent), DT_SUCCESS);
    wants("26 to the last byte", extent, 26);
    wants("commit", dt_type_commit(&lib, &record), DT_SUCCESS);
    for (int i = 0; i < 96; i++) from[i] = (unsigned char)(i * 5 + 1);
    for (int rep = DT_NATIVE; rep <= DT_EXTERNAL32; rep++) {
        for (size_t length = 1; length <= 64; length++) {
            memset(to, 0, sizeof to);
            travel(&lib, record, 3, from, to, sizeof to, length, (dt_rep)rep);
            wants("a gap stays", to[4], 0);
            wants("an int", memcmp(to + 32, from + 32, 4), 0);
            wants("two int64", memcmp(to + 72, from + 72, 16), 0);
            wants("a short", memcmp(to + 88, from + 88, 2), 0);
        }
    }

    wants("indexed", dt_type_indexed(&lib, 2, lens, disps, record, &rows), DT_SUCCESS);
    wants("size", dt_type_size(&lib, rows, &size), DT_SUCCESS);
    wants("three records", (long)size, 66);
    wants("no blocks", dt_type_indexed(&lib, 0, NULL, NULL, record, &rows), DT_SUCCESS);
    wants("a negative length", dt_type_create_indexed_block(&lib, 2, -1, disps, DT_INT, &rows), DT_ERR_ARG);
    wants("subarray", dt_type_create_subarray(&lib, 2, sizes, subsizes, starts, DT_ORDER_C, DT_INT, &corner), DT_SUCCESS);
    wants("true extent", dt_type_get_true_extent(&lib, corner, &lb, &extent), DT_SUCCESS);
    wants("first byte", lb, 4 * (6 + 3));
    wants("a part outside", dt_type_create_subarray(&lib, 2, sizes, subsizes, sizes, DT_ORDER_C, DT_INT, &corner), DT_ERR_ARG);
    wants("too far", dt_type_create_hvector(&lib, 2, 1, INT64_MAX, DT_INT, &rows), DT_ERR_OVERFLOW);
    wants("close", dt_lib_free(&lib), DT_SUCCESS);
    if (!failed) printf("ok\n");
    return failed;
}
