/* A halo exchange between two processes. Each has a grid of ROWS by COLUMNS ints inside a frame of width 1, and sends its last inner columns
 * to the left frame of the other. The columns are packed by this library and travel as MPI_BYTE, in messages that are cut anywhere; the
 * receiver gives each to an unpack session as it comes. The same exchange by MPI's own datatypes must leave the same bytes. */
#include "hozkari.h"
#include <mpi.h>
#include <stdio.h>
#include <stdlib.h>
#include <string.h>

enum { ROWS = 13, COLUMNS = 9, WIDE = COLUMNS + 2, HIGH = ROWS + 2, PIECE = 7 };

static void must(const char *what, int answer) {
    if (answer == DT_SUCCESS) return;
    printf("%s: %d\n", what, answer);
    MPI_Abort(MPI_COMM_WORLD, 1);
}

/* A grid that differs from process to process and from place to place. */
static void fill(int *grid, int rank) {
    for (int i = 0; i < HIGH * WIDE; i++) grid[i] = (rank + 1) * 1000003 * (i + 17);
}

/* Where a column of the inner rows begins, in ints. */
static int column_at(int column) {
    return WIDE + column;
}

static void exchange_by_mpi(int *grid, int other) {
    MPI_Datatype column;
    MPI_Type_vector(ROWS, 1, WIDE, MPI_INT, &column);
    MPI_Type_commit(&column);
    MPI_Sendrecv(grid + column_at(COLUMNS), 1, column, other, 1, grid + column_at(0), 1, column, other, 1, MPI_COMM_WORLD,
                 MPI_STATUS_IGNORE);
    MPI_Type_free(&column);
}

static void exchange_in_pieces(dt_lib *lib, int *grid, int other, dt_rep rep) {
    dt_type column;
    dt_session sends, receives;
    unsigned char piece[PIECE], arrived[PIECE];
    const size_t bytes = (size_t)HIGH * WIDE * sizeof(int);
    must("vector", dt_type_vector(lib, ROWS, 1, WIDE, DT_INT, &column));
    must("commit", dt_type_commit(lib, &column));
    must("open pack", dt_pack_open(lib, bytes, 4 * column_at(COLUMNS), 1, column, rep, &sends));
    must("open unpack", dt_unpack_open(lib, bytes, 4 * column_at(0), 1, column, rep, &receives));
    for (;;) {
        size_t taken = 0;
        int came = 0;
        uint64_t total = 0, position = 0;
        MPI_Status status;
        dt_receipt receipt;
        must("take", dt_session_take(lib, sends, grid, bytes, piece, PIECE, &taken));
        MPI_Sendrecv(piece, (int)taken, MPI_BYTE, other, 2, arrived, PIECE, MPI_BYTE, other, 2, MPI_COMM_WORLD, &status);
        MPI_Get_count(&status, MPI_BYTE, &came);
        must("give", dt_session_give(lib, receives, grid, bytes, arrived, (size_t)came, &receipt));
        must("progress", dt_session_progress(lib, receives, &total, &position));
        if (position == total) break;
    }
    must("close", dt_session_close(lib, sends));
    must("close", dt_session_close(lib, receives));
    must("free", dt_type_free(lib, &column));
}

int main(int argc, char **argv) {
    int rank, size, differs = 0;
    int ours[HIGH * WIDE], theirs[HIGH * WIDE];
    dt_lib lib = DT_LIB_NULL;
    MPI_Init(&argc, &argv);
    MPI_Comm_rank(MPI_COMM_WORLD, &rank);
    MPI_Comm_size(MPI_COMM_WORLD, &size);
    if (size != 2) {
        printf("two processes are needed\n");
        MPI_Abort(MPI_COMM_WORLD, 1);
    }
    must("new", dt_lib_new(&lib));
    fill(theirs, rank);
    exchange_by_mpi(theirs, 1 - rank);
    for (int rep = DT_NATIVE; rep <= DT_EXTERNAL32; rep++) {
        fill(ours, rank);
        exchange_in_pieces(&lib, ours, 1 - rank, (dt_rep)rep);
        if (memcmp(ours, theirs, sizeof ours) != 0) differs = 1;
    }
    must("close", dt_lib_free(&lib));
    printf(differs ? "the grids differ\n" : "ok\n");
    MPI_Finalize();
    return differs;
}
