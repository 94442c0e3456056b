/* What made a datatype, datatypes as bytes, least trees, counts of received bytes, copies, reductions, an array that is dealt out, and a
 * pack session that goes back. */
#include "hozkari.h"
#include <stdio.h>
#include <string.h>

static int failed;

/* A line where two numbers that should be one aren't. */
static void wants(const char *what, long got, long wanted) {
    if (got != wanted) {
        printf("%s: %ld, wanted %ld\n", what, got, wanted);
        failed = 1;
    }
}

/* Every other one of three ints, 12 bytes of 20. */
static dt_type spread(dt_lib *lib) {
    dt_type type = {0, 0};
    wants("vector", dt_type_vector(lib, 3, 1, 2, DT_INT, &type), DT_SUCCESS);
    wants("commit", dt_type_commit(lib, &type), DT_SUCCESS);
    return type;
}

static void contents(dt_lib *lib, dt_type type) {
    const int lens[2] = {1, 2};
    const int64_t places[2] = {-8, 40};
    const dt_type olds[2] = {DT_INT, type};
    dt_type record, types[2] = {DT_BYTE, DT_BYTE};
    dt_combiner combiner = DT_COMBINER_NAMED;
    dt_lengths lengths = {0, 0, 0};
    size_t integers = 0, addresses = 0, datatypes = 0;
    int64_t ints[4] = {7, 7, 7, 7}, addrs[2] = {0, 0};
    uint64_t size = 0;
    wants("struct", dt_type_create_struct(lib, 2, lens, places, olds, &record), DT_SUCCESS);
    wants("envelope", dt_type_get_envelope(lib, record, &integers, &addresses, &datatypes, &combiner), DT_SUCCESS);
    wants("combiner", combiner, DT_COMBINER_STRUCT);
    wants("integers", (long)integers, 3);
    wants("addresses", (long)addresses, 2);
    wants("datatypes", (long)datatypes, 2);
    wants("short lists", dt_type_get_contents(lib, record, 2, 2, 2, ints, addrs, types, &lengths), DT_ERR_ROOM);
    wants("integers that are needed", (long)lengths.integers, 3);
    wants("an integer after a refusal", ints[0], 7);
    wants("contents", dt_type_get_contents(lib, record, 4, 2, 2, ints, addrs, types, NULL), DT_SUCCESS);
    wants("parts", ints[0], 2);
    wants("length", ints[2], 2);
    wants("behind the integers", ints[3], 7);
    wants("address", addrs[0], -8);
    wants("address", addrs[1], 40);
    wants("a basic type is itself", dt_type_equal(types[0], DT_INT), 1);
    wants("another has a new number", dt_type_equal(types[1], type), 0);
    wants("size", dt_type_size(lib, types[1], &size), DT_SUCCESS);
    wants("bytes", (long)size, 12);
    wants("free", dt_type_free(lib, &types[1]), DT_SUCCESS);
    wants("basic", dt_type_get_contents(lib, DT_INT, 4, 2, 2, ints, addrs, types, &lengths), DT_ERR_BASIC);
    wants("free", dt_type_free(lib, &record), DT_SUCCESS);
}

static void texts(dt_lib *lib, dt_type type) {
    unsigned char bytes[32];
    char text[32];
    size_t length = 0;
    dt_tree tree = {0, 9, 0};
    dt_type again;
    int64_t lb = 9, extent = 0;
    const dt_weights heavy = {1, 3, 2, 1, 2, 1000001};
    wants("no room for bytes", dt_type_export(lib, type, bytes, 18, &length), DT_ERR_ROOM);
    wants("bytes that are needed", (long)length, 19);
    wants("export", dt_type_export(lib, type, bytes, sizeof bytes, &length), DT_SUCCESS);
    wants("bytes", memcmp(bytes, "dtw1\3\0\0\0\3\0\0\0\1\0\0\0\2\0\6", 19), 0);
    wants("cut bytes", dt_type_import(lib, bytes, 18, &again), DT_ERR_TEXT);
    wants("import", dt_type_import(lib, bytes, 19, &again), DT_SUCCESS);
    wants("extent", dt_type_get_extent(lib, again, &lb, &extent), DT_SUCCESS);
    wants("from int to int", extent, 20);
    wants("no room for a text", dt_type_least(lib, again, NULL, text, 24, &tree), DT_ERR_ROOM);
    wants("text that is needed", (long)tree.length, 25);
    wants("least", dt_type_least(lib, again, NULL, text, sizeof text, &tree), DT_SUCCESS);
    wants("tree", memcmp(text, "vector 3 1 8 leaf MPI_INT", 25), 0);
    wants("cost", (long)tree.cost, 4);
    wants("base", tree.base, 0);
    wants("a weight above a million", dt_type_least(lib, again, &heavy, text, sizeof text, &tree), DT_ERR_ARG);
    wants("free", dt_type_free(lib, &again), DT_SUCCESS);
}

static void counts(dt_lib *lib, dt_type type) {
    uint64_t count = 0;
    wants("elements", dt_get_elements(lib, 31, type, DT_NATIVE, &count), DT_SUCCESS);
    wants("of 31 bytes", (long)count, 7);
    wants("copies", dt_get_count(lib, 24, type, DT_EXTERNAL32, &count), DT_SUCCESS);
    wants("of 24 bytes", (long)count, 2);
    wants("cut copies", dt_get_count(lib, 31, type, DT_NATIVE, &count), DT_SUCCESS);
    wants("undefined", count == DT_UNDEFINED, 1);
    wants("too many bytes", dt_get_count(lib, UINT64_MAX, type, DT_NATIVE, &count), DT_ERR_ARG);
}

static void moves(dt_lib *lib, dt_type type) {
    const int from[5] = {1, 2, 3, 4, 5};
    const short shorts[3] = {1, 2, 3};
    int to[5] = {0, 0, 0, 0, 0}, sums[5] = {10, 20, 30, 40, 50};
    uint64_t elements = 0;
    wants("copy", dt_copy(lib, from, sizeof from, 0, 1, type, to, sizeof to, 4, 3, DT_INT, &elements), DT_SUCCESS);
    wants("elements", (long)elements, 3);
    wants("adjacent ints", memcmp(to, (int[5]){0, 1, 3, 5, 0}, sizeof to), 0);
    wants("too many", dt_copy(lib, from, sizeof from, 0, 1, type, to, sizeof to, 0, 2, DT_INT, &elements), DT_ERR_TRUNCATE);
    wants("other kinds", dt_copy(lib, shorts, sizeof shorts, 0, 3, DT_SHORT, to, sizeof to, 0, 3, DT_INT, &elements), DT_ERR_MATCH);
    wants("sum", dt_reduce_local(lib, from, sizeof from, 0, sums, sizeof sums, 0, 1, type, DT_SUM, &elements), DT_SUCCESS);
    wants("sums", memcmp(sums, (int[5]){11, 20, 33, 40, 55}, sizeof sums), 0);
    wants("least", dt_reduce_local(lib, from, sizeof from, 0, sums, sizeof sums, 0, 5, DT_INT, DT_MIN, &elements), DT_SUCCESS);
    wants("the lesser ones", memcmp(sums, from, sizeof sums), 0);
    wants("no operation", dt_reduce_local(lib, from, sizeof from, 0, sums, sizeof sums, 0, 1, type, (dt_op)9, &elements), DT_ERR_ARG);
    wants("outside", dt_reduce_local(lib, from, sizeof from, 4, sums, sizeof sums, 0, 1, type, DT_SUM, &elements), DT_ERR_OUTSIDE);
}

/* Six ints, dealt out in blocks of four to two processes: the last two are those of the second. */
static void dealt_out(dt_lib *lib) {
    const int gsizes[1] = {6}, dists[1] = {DT_DISTRIBUTE_BLOCK}, dargs[1] = {4}, psizes[1] = {2}, none[1] = {4};
    dt_type part;
    int64_t lb = 0, extent = 0;
    wants("darray", dt_type_create_darray(lib, 2, 1, 1, gsizes, dists, dargs, psizes, DT_ORDER_C, DT_INT, &part), DT_SUCCESS);
    wants("true extent", dt_type_get_true_extent(lib, part, &lb, &extent), DT_SUCCESS);
    wants("first byte", lb, 16);
    wants("bytes", extent, 8);
    wants("no distribution", dt_type_create_darray(lib, 2, 1, 1, gsizes, none, dargs, psizes, DT_ORDER_C, DT_INT, &part), DT_ERR_ARG);
    wants("no such rank", dt_type_create_darray(lib, 2, 2, 1, gsizes, dists, dargs, psizes, DT_ORDER_C, DT_INT, &part), DT_ERR_ARG);
}

static void back(dt_lib *lib, dt_type type) {
    const unsigned char from[20] = {1, 2, 3, 4, 0, 0, 0, 0, 5, 6, 7, 8, 0, 0, 0, 0, 9, 10, 11, 12};
    unsigned char piece[8];
    size_t taken = 0;
    dt_session sends;
    wants("open", dt_pack_open(lib, sizeof from, 0, 1, type, DT_NATIVE, &sends), DT_SUCCESS);
    wants("take", dt_session_take(lib, sends, from, sizeof from, piece, 8, &taken), DT_SUCCESS);
    wants("seek", dt_session_seek(lib, sends, 3), DT_SUCCESS);
    wants("take again", dt_session_take(lib, sends, from, sizeof from, piece, 4, &taken), DT_SUCCESS);
    wants("bytes from the fourth on", memcmp(piece, (unsigned char[4]){4, 5, 6, 7}, 4), 0);
    wants("past the end", dt_session_seek(lib, sends, 13), DT_ERR_ARG);
    wants("close", dt_session_close(lib, sends), DT_SUCCESS);
    wants("a closed session", dt_session_seek(lib, sends, 0), DT_ERR_SESSION);
}

int main(void) {
    dt_lib lib = DT_LIB_NULL;
    dt_type type;
    wants("new", dt_lib_new(&lib), DT_SUCCESS);
    type = spread(&lib);
    contents(&lib, type);
    texts(&lib, type);
    counts(&lib, type);
    moves(&lib, type);
    dealt_out(&lib);
    back(&lib, type);
    wants("close", dt_lib_free(&lib), DT_SUCCESS);
    if (!failed) printf("ok\n");
    return failed;
}
