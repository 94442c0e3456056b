/* One column of a matrix of ints: packed, looked at in both representations, and unpacked into another matrix. */
#include "hozkari.h"
#include <stdio.h>
#include <string.h>

static int failed;

/* A line where two numbers that should be one aren't. */
static void wants(const char *what, long got, long wanted) {
    if (got != wanted) {
        printf("%s: %ld, wanted %ld\n", what, got, wanted);
        failed = 1;
    }
}

int main(void) {
    dt_lib lib = DT_LIB_NULL;
    dt_type column, stale;
    int matrix[3][4] = {{1, 2, 3, 4}, {5, 6, 7, 8}, {9, 10, 11, 12}};
    int other[3][4] = {{0}};
    unsigned char packed[12];
    size_t position = 0;
    uint64_t size = 0;
    int64_t lb = 1, extent = 0;

    wants("a closed library", dt_type_commit(&lib, &(dt_type){0, 0}), DT_ERR_CLOSED);
    wants("new", dt_lib_new(&lib), DT_SUCCESS);
    wants("new again", dt_lib_new(&lib), DT_ERR_OPEN);
    wants("vector", dt_type_vector(&lib, 3, 1, 4, DT_INT, &column), DT_SUCCESS);
    wants("size", dt_type_size(&lib, column, &size), DT_SUCCESS);
    wants("bytes", (long)size, 12);
    wants("extent", dt_type_get_extent(&lib, column, &lb, &extent), DT_SUCCESS);
    wants("lb", lb, 0);
    wants("extent in bytes", extent, 36);

    wants("pack before commit", dt_pack(&lib, matrix, sizeof matrix, 4, 1, column, packed, sizeof packed, &position, DT_NATIVE),
          DT_ERR_UNCOMMITTED);
    wants("commit", dt_type_commit(&lib, &column), DT_SUCCESS);
    wants("pack", dt_pack(&lib, matrix, sizeof matrix, 4, 1, column, packed, sizeof packed, &position, DT_NATIVE), DT_SUCCESS);
    wants("position", (long)position, 12);
    wants("no room", dt_pack(&lib, matrix, sizeof matrix, 4, 1, column, packed, sizeof packed, &position, DT_NATIVE), DT_ERR_ROOM);
    wants("position after a refusal", (long)position, 12);
    wants("packed", memcmp(packed, (int[]){2, 6, 10}, 12), 0);

    position = 0;
    wants("unpack", dt_unpack(&lib, packed, sizeof packed, &position, other, sizeof other, 4, 1, column, DT_NATIVE), DT_SUCCESS);
    wants("row 0", other[0][1], 2);
    wants("row 1", other[1][1], 6);
    wants("row 2", other[2][1], 10);
    wants("beside", other[1][2], 0);

    position = 0;
    wants("external32", dt_pack(&lib, matrix, sizeof matrix, 4, 1, column, packed, sizeof packed, &position, DT_EXTERNAL32), DT_SUCCESS);
    wants("big end first", memcmp(packed, "\0\0\0\2\0\0\0\6\0\0\0\12", 12), 0);
    position = 0;
    wants("outside", dt_pack(&lib, matrix, sizeof matrix, 16, 1, column, packed, sizeof packed, &position, DT_NATIVE), DT_ERR_OUTSIDE);

    stale = column;
    wants("free", dt_type_free(&lib, &column), DT_SUCCESS);
    wants("a stale number", dt_type_size(&lib, stale, &size), DT_ERR_TYPE);
    wants("basic", dt_type_free(&lib, &DT_INT), DT_ERR_BASIC);
    wants("null", dt_type_size(NULL, DT_INT, &size), DT_ERR_ARG);
    wants("close", dt_lib_free(&lib), DT_SUCCESS);
    wants("close again", dt_lib_free(&lib), DT_ERR_CLOSED);
    if (!failed) printf("ok\n");
    return failed;
}
