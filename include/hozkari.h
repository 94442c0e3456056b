/* MPI datatypes without MPI: a verified library behind calls that are named and ordered as those of MPI 4.1, chapter 5.
 *
 * Every call answers DT_SUCCESS, which is 0, or the number of a refusal, and a refusal changes nothing: neither the library nor what the
 * caller's pointers point to. The one exception is told at the three calls that fill lists or texts: where these are too short, DT_ERR_ROOM
 * is answered and the lengths that are needed are told. A call that is given a null pointer answers DT_ERR_ARG before anything else is
 * looked at.
 *
 * A library is one object, which holds the datatypes and the open sessions. All else are numbers: a number that was freed, or never made,
 * is answered by DT_ERR_TYPE or DT_ERR_SESSION, and no number is ever made twice.
 *
 * Buffers are told by a pointer and a length in bytes. Where MPI takes the address at which the first copy of a datatype begins, a call
 * here takes the buffer as a whole and an origin, the place in it at which the first copy begins: an element that would lie outside the
 * buffer is answered by DT_ERR_OUTSIDE. A buffer, and the packed bytes of one operation, have at most DT_BYTES_MAX bytes.
 *
 * What the caller owes, since nothing can look at it:
 *   - a dt_lib begins as DT_LIB_NULL, and from then on only these calls change it; it isn't copied;
 *   - a pointer with a length points to so many bytes, which may be read, and written where the pointer isn't const;
 *   - two pointers of one call, of which one isn't const, point to bytes that don't overlap; none points into a dt_lib;
 *   - one call at a time uses a dt_lib; several libraries may be used side by side by several threads;
 *   - malloc, realloc and free are those of one allocator, with blocks aligned as in glibc, and no call is made in a signal handler.
 */
#ifndef HOZKARI_H
#define HOZKARI_H

#include <stdbool.h>
#include <stddef.h>
#include <stdint.h>

#ifdef __cplusplus
extern "C" {
#endif

/* ---- answers */

enum {
    DT_SUCCESS = 0,
    DT_ERR_NO_MEM = 1,      /* memory ran out */
    DT_ERR_ARG = 2,         /* an argument is not one that the call takes, or a pointer is null */
    DT_ERR_TYPE = 3,        /* the number stands for no datatype: it was freed, or never made */
    DT_ERR_SESSION = 4,     /* the number stands for no open session of the kind that the call takes */
    DT_ERR_UNCOMMITTED = 5, /* the datatype is not committed */
    DT_ERR_BASIC = 6,       /* the datatype is basic, and the call takes none that are */
    DT_ERR_OVERFLOW = 7,    /* a bound or the size of the new datatype is out of range */
    DT_ERR_DEEP = 8,        /* the new datatype would be nested too deep */
    DT_ERR_HEAVY = 9,       /* the new datatype would have too many items */
    DT_ERR_OUTSIDE = 10,    /* an element lies outside the buffer */
    DT_ERR_OVERLAP = 11,    /* two elements that would be written have a common byte */
    DT_ERR_LARGE = 12,      /* a buffer, or the packed bytes, are more than DT_BYTES_MAX */
    DT_ERR_ROOM = 13,       /* there are fewer bytes than are needed, or fewer to come than are given */
    DT_ERR_SPENT = 14,      /* no more numbers can be made */
    DT_ERR_TRUNCATE = 15,   /* the source has more elements than the target */
    DT_ERR_MATCH = 16,      /* two elements of one number are of different kinds */
    DT_ERR_TEXT = 17,       /* the bytes are those of no datatype */
    DT_ERR_MANY = 18,       /* the datatype has more than 1,024 entries */
    DT_ERR_CLOSED = 20,     /* the library isn't open: dt_lib_new opens it */
    DT_ERR_OPEN = 21        /* the library is open, and dt_lib_new opens only one that isn't */
};

#define DT_BYTES_MAX 16777216

/* ---- the library */

/* The fields are the library's own. */
typedef struct {
    void *state;
    bool live;
} dt_lib;

/* A library that isn't open, as each one begins. */
#define DT_LIB_NULL {NULL, false}

/* ---- datatypes */

/* The number of a datatype. It is copied and compared as a whole (dt_type_equal), and its fields mean nothing to a program. */
typedef struct {
    size_t slot;
    uint64_t serial;
} dt_type;

#ifdef __cplusplus
#define DT_BASIC_TYPE(slot) (dt_type{slot, UINT64_MAX})
#else
#define DT_BASIC_TYPE(slot) ((dt_type){slot, UINT64_MAX})
#endif

/* The basic types, which are committed and can't be freed (MPI 4.1, section 3.2.2). Their sizes are those of 64-bit Unix. */
#define DT_BYTE DT_BASIC_TYPE(0)
#define DT_CHAR DT_BASIC_TYPE(1)
#define DT_SIGNED_CHAR DT_BASIC_TYPE(2)
#define DT_UNSIGNED_CHAR DT_BASIC_TYPE(3)
#define DT_SHORT DT_BASIC_TYPE(4)
#define DT_UNSIGNED_SHORT DT_BASIC_TYPE(5)
#define DT_INT DT_BASIC_TYPE(6)
#define DT_UNSIGNED DT_BASIC_TYPE(7)
#define DT_LONG DT_BASIC_TYPE(8)
#define DT_UNSIGNED_LONG DT_BASIC_TYPE(9)
#define DT_LONG_LONG DT_BASIC_TYPE(10)
#define DT_UNSIGNED_LONG_LONG DT_BASIC_TYPE(11)
#define DT_INT8_T DT_BASIC_TYPE(12)
#define DT_INT16_T DT_BASIC_TYPE(13)
#define DT_INT32_T DT_BASIC_TYPE(14)
#define DT_INT64_T DT_BASIC_TYPE(15)
#define DT_UINT8_T DT_BASIC_TYPE(16)
#define DT_UINT16_T DT_BASIC_TYPE(17)
#define DT_UINT32_T DT_BASIC_TYPE(18)
#define DT_UINT64_T DT_BASIC_TYPE(19)
#define DT_AINT DT_BASIC_TYPE(20)
#define DT_COUNT DT_BASIC_TYPE(21)
#define DT_OFFSET DT_BASIC_TYPE(22)

static inline bool dt_type_equal(dt_type a, dt_type b) {
    return a.slot == b.slot && a.serial == b.serial;
}

/* How packed bytes represent the elements: as they lie in memory, or as external32 of MPI 4.1, section 14.5.2. */
typedef enum { DT_NATIVE = 0, DT_EXTERNAL32 = 1 } dt_rep;

/* ---- the calls of the archive. They look at no null pointer: use the functions below. */

typedef struct {
    int64_t lb;
    int64_t extent;
} dt_c_extent;

int32_t dt_c_lib_new(dt_lib *lib);
int32_t dt_c_lib_free(dt_lib *lib);
int32_t dt_c_type_contiguous(dt_lib *lib, int32_t count, dt_type oldtype, dt_type *newtype);
int32_t dt_c_type_vector(dt_lib *lib, int32_t count, int32_t blocklength, int32_t stride, dt_type oldtype, dt_type *newtype);
int32_t dt_c_type_create_hvector(dt_lib *lib, int32_t count, int32_t blocklength, int64_t stride, dt_type oldtype, dt_type *newtype);
int32_t dt_c_type_create_resized(dt_lib *lib, dt_type oldtype, int64_t lb, int64_t extent, dt_type *newtype);
int32_t dt_c_type_indexed(dt_lib *lib, const int32_t *blocklengths, size_t blocks, const int32_t *displacements, size_t places,
                          dt_type oldtype, dt_type *newtype);
int32_t dt_c_type_create_hindexed(dt_lib *lib, const int32_t *blocklengths, size_t blocks, const int64_t *displacements, size_t places,
                                  dt_type oldtype, dt_type *newtype);
int32_t dt_c_type_create_indexed_block(dt_lib *lib, int32_t blocklength, const int32_t *displacements, size_t places, dt_type oldtype,
                                       dt_type *newtype);
int32_t dt_c_type_create_hindexed_block(dt_lib *lib, int32_t blocklength, const int64_t *displacements, size_t places, dt_type oldtype,
                                        dt_type *newtype);
int32_t dt_c_type_create_struct(dt_lib *lib, const int32_t *blocklengths, size_t blocks, const int64_t *displacements, size_t places,
                                const dt_type *types, size_t olds, dt_type *newtype);
int32_t dt_c_type_create_subarray(dt_lib *lib, const int32_t *sizes, size_t ndims, const int32_t *subsizes, size_t subs,
                                  const int32_t *starts, size_t places, bool fortran, dt_type oldtype, dt_type *newtype);
int32_t dt_c_type_create_darray(dt_lib *lib, int32_t size, int32_t rank, const int32_t *gsizes, size_t ndims, const int32_t *distribs,
                                size_t dists, const int32_t *dargs, size_t lengths, const int32_t *psizes, size_t procs, bool fortran,
                                dt_type oldtype, dt_type *newtype);
int32_t dt_c_type_dup(dt_lib *lib, dt_type oldtype, dt_type *newtype);
int32_t dt_c_type_commit(dt_lib *lib, dt_type datatype);
int32_t dt_c_type_free(dt_lib *lib, dt_type datatype);
int32_t dt_c_type_size(dt_lib *lib, dt_type datatype, uint64_t *size);
int32_t dt_c_type_get_extent(dt_lib *lib, dt_type datatype, dt_c_extent *bounds);
int32_t dt_c_type_get_true_extent(dt_lib *lib, dt_type datatype, dt_c_extent *bounds);
int32_t dt_c_pack(dt_lib *lib, const uint8_t *inbuf, size_t insize, int64_t origin, int32_t incount, dt_type datatype, uint8_t *outbuf,
                  size_t outsize, size_t *position, bool external32);
int32_t dt_c_unpack(dt_lib *lib, const uint8_t *inbuf, size_t insize, size_t *position, uint8_t *outbuf, size_t outsize, int64_t origin,
                    int32_t outcount, dt_type datatype, bool external32);

/* How many packed bytes a session has in all, and how many of them were passed. */
typedef struct {
    uint64_t total;
    uint64_t position;
} dt_c_progress;

/* What a piece came to: so many elements were completed, and so many bytes of a further one are held. */
typedef struct {
    uint64_t completed;
    uint64_t held;
} dt_receipt;

int32_t dt_c_pack_open(dt_lib *lib, size_t bufsize, int64_t origin, int32_t count, dt_type datatype, bool external32, uint64_t *session);
int32_t dt_c_unpack_open(dt_lib *lib, size_t bufsize, int64_t origin, int32_t count, dt_type datatype, bool external32,
                         uint64_t *session);
int32_t dt_c_session_take(dt_lib *lib, uint64_t session, const uint8_t *buffer, size_t bufsize, uint8_t *outbuf, size_t outsize,
                          size_t *taken);
int32_t dt_c_session_give(dt_lib *lib, uint64_t session, uint8_t *buffer, size_t bufsize, const uint8_t *piece, size_t piecesize,
                          dt_receipt *receipt);
int32_t dt_c_session_seek(dt_lib *lib, uint64_t session, uint64_t position);
int32_t dt_c_session_progress(dt_lib *lib, uint64_t session, dt_c_progress *progress);
int32_t dt_c_session_close(dt_lib *lib, uint64_t session);

/* What made a datatype, and how many integers, addresses and datatypes it was made of. */
typedef struct {
    uint64_t combiner;
    uint64_t integers;
    uint64_t addresses;
    uint64_t types;
} dt_c_envelope;

/* How many integers, addresses and datatypes the contents of a datatype are. */
typedef struct {
    uint64_t integers;
    uint64_t addresses;
    uint64_t types;
} dt_lengths;

/* What a leaf, a vector, an index, each of its places, a group, and each of its parts cost in a tree: at most 1,000,000 each. */
typedef struct {
    uint32_t leaf;
    uint32_t vector;
    uint32_t index;
    uint32_t place;
    uint32_t group;
    uint32_t part;
} dt_weights;

/* What a least tree costs, where it begins, and how many bytes its text has. */
typedef struct {
    uint64_t cost;
    int64_t base;
    size_t length;
} dt_tree;

int32_t dt_c_get_elements(dt_lib *lib, uint64_t bytes, dt_type datatype, bool external32, uint64_t *count);
int32_t dt_c_get_count(dt_lib *lib, uint64_t bytes, dt_type datatype, bool external32, uint64_t *count);
int32_t dt_c_type_get_envelope(dt_lib *lib, dt_type datatype, dt_c_envelope *envelope);
int32_t dt_c_type_get_contents(dt_lib *lib, dt_type datatype, int64_t *integers, size_t max_integers, int64_t *addresses,
                               size_t max_addresses, dt_type *types, size_t max_types, dt_lengths *lengths);
int32_t dt_c_type_export(dt_lib *lib, dt_type datatype, uint8_t *outbuf, size_t outsize, size_t *length);
int32_t dt_c_type_import(dt_lib *lib, const uint8_t *inbuf, size_t insize, dt_type *newtype);
int32_t dt_c_type_least(dt_lib *lib, dt_type datatype, const dt_weights *weights, uint8_t *outbuf, size_t outsize, dt_tree *tree);
int32_t dt_c_copy(dt_lib *lib, const uint8_t *inbuf, size_t insize, int64_t inorigin, int32_t incount, dt_type intype, uint8_t *outbuf,
                  size_t outsize, int64_t outorigin, int32_t outcount, dt_type outtype, uint64_t *elements);
int32_t dt_c_reduce_local(dt_lib *lib, const uint8_t *inbuf, size_t insize, int64_t inorigin, uint8_t *inoutbuf, size_t inoutsize,
                          int64_t inoutorigin, int32_t count, dt_type datatype, uint64_t op, uint64_t *elements);

/* No byte of a buffer, which may be told by a null pointer and 0. */
static inline const uint8_t *dt_c_in(const void *buf) {
    return buf ? (const uint8_t *)buf : (const uint8_t *)"";
}

static inline uint8_t *dt_c_out(void *buf, uint8_t *none) {
    return buf ? (uint8_t *)buf : none;
}

/* ---- opening and closing */

/* Opens a library, which begins as DT_LIB_NULL. DT_ERR_OPEN where it is open, DT_ERR_NO_MEM where memory ran out. No counterpart in MPI:
 * MPI_Init. */
static inline int dt_lib_new(dt_lib *lib) {
    return lib ? dt_c_lib_new(lib) : DT_ERR_ARG;
}

/* Closes a library and gives its memory back; it is DT_LIB_NULL again. DT_ERR_CLOSED where it isn't open. */
static inline int dt_lib_free(dt_lib *lib) {
    return lib ? dt_c_lib_free(lib) : DT_ERR_ARG;
}

/* ---- constructors (MPI 4.1, sections 5.1.2, 5.1.7 and 5.1.10)
 * Each puts the number of a new datatype, which isn't committed, into *newtype. Beside what is said at each: DT_ERR_TYPE where oldtype
 * stands for nothing; then the first that holds of DT_ERR_ARG, DT_ERR_OVERFLOW, DT_ERR_DEEP, DT_ERR_HEAVY; DT_ERR_SPENT; DT_ERR_NO_MEM. */

/* MPI_Type_contiguous. DT_ERR_ARG where count is negative. */
static inline int dt_type_contiguous(dt_lib *lib, int count, dt_type oldtype, dt_type *newtype) {
    return lib && newtype ? dt_c_type_contiguous(lib, count, oldtype, newtype) : DT_ERR_ARG;
}

/* MPI_Type_vector: blocks begin stride extents apart. DT_ERR_ARG where count or blocklength is negative. */
static inline int dt_type_vector(dt_lib *lib, int count, int blocklength, int stride, dt_type oldtype, dt_type *newtype) {
    return lib && newtype ? dt_c_type_vector(lib, count, blocklength, stride, oldtype, newtype) : DT_ERR_ARG;
}

/* MPI_Type_create_hvector: blocks begin stride bytes apart. DT_ERR_ARG where count or blocklength is negative. */
static inline int dt_type_create_hvector(dt_lib *lib, int count, int blocklength, int64_t stride, dt_type oldtype, dt_type *newtype) {
    return lib && newtype ? dt_c_type_create_hvector(lib, count, blocklength, stride, oldtype, newtype) : DT_ERR_ARG;
}

/* How the indices of an array follow one another: in C the last one runs fastest, in Fortran the first. */
typedef enum { DT_ORDER_C = 0, DT_ORDER_FORTRAN = 1 } dt_order;

/* MPI_Type_indexed: each list has count members. DT_ERR_ARG where count or a length is negative. */
static inline int dt_type_indexed(dt_lib *lib, int count, const int blocklengths[], const int displacements[], dt_type oldtype,
                                  dt_type *newtype) {
    static const int none = 0;
    if (!lib || !newtype || count < 0 || (count && (!blocklengths || !displacements))) return DT_ERR_ARG;
    if (!count) blocklengths = displacements = &none;
    return dt_c_type_indexed(lib, blocklengths, (size_t)count, displacements, (size_t)count, oldtype, newtype);
}

/* MPI_Type_create_hindexed: displacements in bytes. DT_ERR_ARG where count or a length is negative. */
static inline int dt_type_create_hindexed(dt_lib *lib, int count, const int blocklengths[], const int64_t displacements[], dt_type oldtype,
                                          dt_type *newtype) {
    static const int none = 0;
    static const int64_t nowhere = 0;
    if (!lib || !newtype || count < 0 || (count && (!blocklengths || !displacements))) return DT_ERR_ARG;
    if (!count) blocklengths = &none, displacements = &nowhere;
    return dt_c_type_create_hindexed(lib, blocklengths, (size_t)count, displacements, (size_t)count, oldtype, newtype);
}

/* MPI_Type_create_indexed_block. DT_ERR_ARG where count or blocklength is negative. */
static inline int dt_type_create_indexed_block(dt_lib *lib, int count, int blocklength, const int displacements[], dt_type oldtype,
                                               dt_type *newtype) {
    static const int none = 0;
    if (!lib || !newtype || count < 0 || (count && !displacements)) return DT_ERR_ARG;
    if (!count) displacements = &none;
    return dt_c_type_create_indexed_block(lib, blocklength, displacements, (size_t)count, oldtype, newtype);
}

/* MPI_Type_create_hindexed_block: displacements in bytes. DT_ERR_ARG where count or blocklength is negative. */
static inline int dt_type_create_hindexed_block(dt_lib *lib, int count, int blocklength, const int64_t displacements[], dt_type oldtype,
                                                dt_type *newtype) {
    static const int64_t nowhere = 0;
    if (!lib || !newtype || count < 0 || (count && !displacements)) return DT_ERR_ARG;
    if (!count) displacements = &nowhere;
    return dt_c_type_create_hindexed_block(lib, blocklength, displacements, (size_t)count, oldtype, newtype);
}

/* MPI_Type_create_struct: displacements in bytes, and an old type for each part. DT_ERR_TYPE where one of them stands for nothing,
 * DT_ERR_ARG where count or a length is negative. */
static inline int dt_type_create_struct(dt_lib *lib, int count, const int blocklengths[], const int64_t displacements[],
                                        const dt_type types[], dt_type *newtype) {
    static const int none = 0;
    static const int64_t nowhere = 0;
    static const dt_type nothing = {0, 0};
    if (!lib || !newtype || count < 0 || (count && (!blocklengths || !displacements || !types))) return DT_ERR_ARG;
    if (!count) blocklengths = &none, displacements = &nowhere, types = &nothing;
    return dt_c_type_create_struct(lib, blocklengths, (size_t)count, displacements, (size_t)count, types, (size_t)count, newtype);
}

/* MPI_Type_create_subarray: each list has ndims members. DT_ERR_ARG where ndims is less than 1, order is none of the two, a part has no
 * indices, or it doesn't lie in the array. */
static inline int dt_type_create_subarray(dt_lib *lib, int ndims, const int sizes[], const int subsizes[], const int starts[],
                                          dt_order order, dt_type oldtype, dt_type *newtype) {
    if (!lib || !newtype || ndims < 1 || !sizes || !subsizes || !starts || (order != DT_ORDER_C && order != DT_ORDER_FORTRAN))
        return DT_ERR_ARG;
    return dt_c_type_create_subarray(lib, sizes, (size_t)ndims, subsizes, (size_t)ndims, starts, (size_t)ndims, order == DT_ORDER_FORTRAN,
                                     oldtype, newtype);
}

/* How a dimension of an array is dealt out to processes: in blocks, in blocks in turn, or not at all. */
enum { DT_DISTRIBUTE_BLOCK = 1, DT_DISTRIBUTE_CYCLIC = 2, DT_DISTRIBUTE_NONE = 3 };

/* In the place of a length of blocks: its default. */
#define DT_DISTRIBUTE_DFLT_DARG (-1)

/* MPI_Type_create_darray: what the distribution of an array gives to process rank of size; each list has ndims members. DT_ERR_ARG where
 * ndims is less than 1, a distribution or order is none of its values, or the arguments aren't those of a distribution. */
static inline int dt_type_create_darray(dt_lib *lib, int size, int rank, int ndims, const int gsizes[], const int distribs[],
                                        const int dargs[], const int psizes[], dt_order order, dt_type oldtype, dt_type *newtype) {
    if (!lib || !newtype || ndims < 1 || !gsizes || !distribs || !dargs || !psizes || (order != DT_ORDER_C && order != DT_ORDER_FORTRAN))
        return DT_ERR_ARG;
    for (int i = 0; i < ndims; i++)
        if (distribs[i] < DT_DISTRIBUTE_BLOCK || distribs[i] > DT_DISTRIBUTE_NONE) return DT_ERR_ARG;
    return dt_c_type_create_darray(lib, size, rank, gsizes, (size_t)ndims, distribs, (size_t)ndims, dargs, (size_t)ndims,
                                   psizes, (size_t)ndims, order == DT_ORDER_FORTRAN, oldtype, newtype);
}

/* MPI_Type_create_resized: the old type with this lower bound and extent in place of its own. */
static inline int dt_type_create_resized(dt_lib *lib, dt_type oldtype, int64_t lb, int64_t extent, dt_type *newtype) {
    return lib && newtype ? dt_c_type_create_resized(lib, oldtype, lb, extent, newtype) : DT_ERR_ARG;
}

/* MPI_Type_dup, but that the new type isn't committed. */
static inline int dt_type_dup(dt_lib *lib, dt_type oldtype, dt_type *newtype) {
    return lib && newtype ? dt_c_type_dup(lib, oldtype, newtype) : DT_ERR_ARG;
}

/* ---- committing and freeing (MPI 4.1, section 5.1.9) */

/* MPI_Type_commit. A second time changes nothing. DT_ERR_TYPE where *datatype stands for nothing. */
static inline int dt_type_commit(dt_lib *lib, dt_type *datatype) {
    return lib && datatype ? dt_c_type_commit(lib, *datatype) : DT_ERR_ARG;
}

/* MPI_Type_free, but that *datatype keeps its number, which stands for nothing from then on. Datatypes made of it stay, and so do open
 * sessions. DT_ERR_TYPE where the number stands for nothing, DT_ERR_BASIC where the datatype is basic. */
static inline int dt_type_free(dt_lib *lib, dt_type *datatype) {
    return lib && datatype ? dt_c_type_free(lib, *datatype) : DT_ERR_ARG;
}

/* ---- sizes and bounds (MPI 4.1, sections 5.1.5 to 5.1.8). DT_ERR_TYPE where the number stands for nothing, DT_ERR_NO_MEM. */

/* MPI_Type_size: the bytes of all entries. */
static inline int dt_type_size(dt_lib *lib, dt_type datatype, uint64_t *size) {
    return lib && size ? dt_c_type_size(lib, datatype, size) : DT_ERR_ARG;
}

/* MPI_Type_get_extent: the lower bound, and from it to the upper bound, which may be negative. */
static inline int dt_type_get_extent(dt_lib *lib, dt_type datatype, int64_t *lb, int64_t *extent) {
    dt_c_extent bounds = {0, 0};
    if (!lib || !lb || !extent) return DT_ERR_ARG;
    int answer = dt_c_type_get_extent(lib, datatype, &bounds);
    if (answer == DT_SUCCESS) {
        *lb = bounds.lb;
        *extent = bounds.extent;
    }
    return answer;
}

/* MPI_Type_get_true_extent: the least displacement of an entry, and from it to the greatest end; 0 and 0 where there are none. */
static inline int dt_type_get_true_extent(dt_lib *lib, dt_type datatype, int64_t *true_lb, int64_t *true_extent) {
    dt_c_extent bounds = {0, 0};
    if (!lib || !true_lb || !true_extent) return DT_ERR_ARG;
    int answer = dt_c_type_get_true_extent(lib, datatype, &bounds);
    if (answer == DT_SUCCESS) {
        *true_lb = bounds.lb;
        *true_extent = bounds.extent;
    }
    return answer;
}

/* ---- what made a datatype (MPI 4.1, section 5.1.13) */

/* The constructors. DT_COMBINER_NAMED is that of the basic types. */
typedef enum {
    DT_COMBINER_NAMED = 0,
    DT_COMBINER_DUP = 1,
    DT_COMBINER_CONTIGUOUS = 2,
    DT_COMBINER_VECTOR = 3,
    DT_COMBINER_HVECTOR = 4,
    DT_COMBINER_INDEXED = 5,
    DT_COMBINER_HINDEXED = 6,
    DT_COMBINER_INDEXED_BLOCK = 7,
    DT_COMBINER_HINDEXED_BLOCK = 8,
    DT_COMBINER_STRUCT = 9,
    DT_COMBINER_SUBARRAY = 10,
    DT_COMBINER_DARRAY = 11,
    DT_COMBINER_RESIZED = 12
} dt_combiner;

/* MPI_Type_get_envelope: the constructor, and how many integers, addresses and datatypes the contents are. DT_ERR_TYPE where the number
 * stands for nothing, DT_ERR_NO_MEM. */
static inline int dt_type_get_envelope(dt_lib *lib, dt_type datatype, size_t *num_integers, size_t *num_addresses, size_t *num_datatypes,
                                       dt_combiner *combiner) {
    dt_c_envelope envelope = {0, 0, 0, 0};
    if (!lib || !num_integers || !num_addresses || !num_datatypes || !combiner) return DT_ERR_ARG;
    int answer = dt_c_type_get_envelope(lib, datatype, &envelope);
    if (answer == DT_SUCCESS) {
        *num_integers = (size_t)envelope.integers;
        *num_addresses = (size_t)envelope.addresses;
        *num_datatypes = (size_t)envelope.types;
        *combiner = (dt_combiner)envelope.combiner;
    }
    return answer;
}

/* MPI_Type_get_contents: the arguments of the constructor, in the lists and the order of the standard's tables. An order and a
 * distribution are the numbers of DT_ORDER_ and DT_DISTRIBUTE_, a length of blocks that is left to its default is DT_DISTRIBUTE_DFLT_DARG.
 * A basic old type has its own number; any other comes under a new number, which isn't committed and is the caller's to free. The rest of
 * each list stays. *lengths tells how many there are of each; it may be null.
 * DT_ERR_TYPE where the number stands for nothing; DT_ERR_BASIC where the datatype is basic, since no constructor made it; DT_ERR_ROOM
 * where a list is too short, and then *lengths tells what is needed, and nothing else changes; DT_ERR_SPENT; DT_ERR_NO_MEM. Where it
 * answers one of the last two, numbers that were made are free again. */
static inline int dt_type_get_contents(dt_lib *lib, dt_type datatype, size_t max_integers, size_t max_addresses, size_t max_datatypes,
                                       int64_t integers[], int64_t addresses[], dt_type datatypes[], dt_lengths *lengths) {
    int64_t no_integer, no_address;
    dt_type no_type;
    dt_lengths unasked = {0, 0, 0};
    if (!lib || (!integers && max_integers) || (!addresses && max_addresses) || (!datatypes && max_datatypes)) return DT_ERR_ARG;
    return dt_c_type_get_contents(lib, datatype, integers ? integers : &no_integer, max_integers, addresses ? addresses : &no_address,
                                  max_addresses, datatypes ? datatypes : &no_type, max_datatypes, lengths ? lengths : &unasked);
}

/* ---- datatypes as bytes, and least trees. MPI has no counterpart. */

/* Puts bytes that spell the datatype to the front of outbuf, and their number into *length. Any process reads them as the same datatype.
 * The rest of outbuf stays. DT_ERR_TYPE where the number stands for nothing; DT_ERR_ROOM where outbuf is too short, and then *length tells
 * what is needed, and nothing else changes; DT_ERR_NO_MEM. */
static inline int dt_type_export(dt_lib *lib, dt_type datatype, void *outbuf, size_t outsize, size_t *length) {
    uint8_t none;
    if (!lib || (!outbuf && outsize) || !length) return DT_ERR_ARG;
    return dt_c_type_export(lib, datatype, dt_c_out(outbuf, &none), outsize, length);
}

/* Makes the datatype that bytes spell. A basic one has its own number, any other comes under a new one, which isn't committed. DT_ERR_TEXT
 * where the bytes spell none, be they cut, longer, or not of dt_type_export; else DT_ERR_ARG, DT_ERR_OVERFLOW, DT_ERR_DEEP or DT_ERR_HEAVY
 * where one of the constructors that they spell refuses so; DT_ERR_SPENT; DT_ERR_NO_MEM. */
static inline int dt_type_import(dt_lib *lib, const void *inbuf, size_t insize, dt_type *newtype) {
    if (!lib || (!inbuf && insize) || !newtype) return DT_ERR_ARG;
    return dt_c_type_import(lib, dt_c_in(inbuf), insize, newtype);
}

/* A tree of vectors, indices and groups that places just the entries of the datatype, in their order, and than which no such tree costs
 * less: puts its text to the front of outbuf, without a zero behind it, and what it costs, the byte at which it begins and the length of
 * the text into *tree. A datatype without entries has the text `empty`. A null pointer for weights stands for {1, 3, 2, 1, 2, 2}.
 * DT_ERR_TYPE where the number stands for nothing; DT_ERR_ARG where a weight is above 1,000,000; DT_ERR_MANY; DT_ERR_ROOM where outbuf is
 * too short, and then *tree is told, and nothing else changes; DT_ERR_NO_MEM. */
static inline int dt_type_least(dt_lib *lib, dt_type datatype, const dt_weights *weights, char *outbuf, size_t outsize, dt_tree *tree) {
    static const dt_weights usual = {1, 3, 2, 1, 2, 2};
    uint8_t none;
    if (!lib || (!outbuf && outsize) || !tree) return DT_ERR_ARG;
    return dt_c_type_least(lib, datatype, weights ? weights : &usual, dt_c_out(outbuf, &none), outsize, tree);
}

/* ---- counts of received bytes (MPI 4.1, sections 3.2.5 and 5.1.11). Where MPI takes a status, a call here takes how many bytes came, and
 * how they represent the elements. DT_ERR_TYPE where the number stands for nothing, DT_ERR_ARG where there are more than 2^63 - 1 bytes or
 * rep is none of the two, DT_ERR_NO_MEM. */

/* Where there is no count, as MPI_UNDEFINED. */
#define DT_UNDEFINED UINT64_MAX

/* MPI_Get_elements: how many elements the bytes complete, from the first of the datatype on, over as many copies as they reach. An element
 * that is cut doesn't count, and a datatype without entries has none. */
static inline int dt_get_elements(dt_lib *lib, uint64_t bytes, dt_type datatype, dt_rep rep, uint64_t *count) {
    if (!lib || !count || (rep != DT_NATIVE && rep != DT_EXTERNAL32)) return DT_ERR_ARG;
    return dt_c_get_elements(lib, bytes, datatype, rep == DT_EXTERNAL32, count);
}

/* MPI_Get_count: how many copies of the datatype the bytes are, and DT_UNDEFINED where they aren't whole copies. Of a datatype without
 * entries no bytes are 0 copies. */
static inline int dt_get_count(dt_lib *lib, uint64_t bytes, dt_type datatype, dt_rep rep, uint64_t *count) {
    if (!lib || !count || (rep != DT_NATIVE && rep != DT_EXTERNAL32)) return DT_ERR_ARG;
    return dt_c_get_count(lib, bytes, datatype, rep == DT_EXTERNAL32, count);
}

/* ---- packing and unpacking at once (MPI 4.1, section 5.2)
 * The first that holds is answered: DT_ERR_TYPE; DT_ERR_UNCOMMITTED; DT_ERR_ARG where the count is negative or rep is none of the two;
 * DT_ERR_LARGE where the buffer of the datatype is too large; DT_ERR_OUTSIDE; DT_ERR_LARGE where the packed bytes are too many;
 * DT_ERR_OVERLAP, in dt_unpack alone; DT_ERR_ROOM; and DT_ERR_NO_MEM wherever it comes. */

/* MPI_Pack, MPI_Pack_external: puts the packed bytes of incount copies, the first of which begins at the place origin of inbuf, into outbuf
 * from the place *position on, and moves *position to their end. No other byte of outbuf changes. */
static inline int dt_pack(dt_lib *lib, const void *inbuf, size_t insize, int64_t origin, int incount, dt_type datatype, void *outbuf,
                          size_t outsize, size_t *position, dt_rep rep) {
    uint8_t none;
    if (!lib || (!inbuf && insize) || (!outbuf && outsize) || !position || (rep != DT_NATIVE && rep != DT_EXTERNAL32)) return DT_ERR_ARG;
    return dt_c_pack(lib, dt_c_in(inbuf), insize, origin, incount, datatype, dt_c_out(outbuf, &none), outsize, position,
                     rep == DT_EXTERNAL32);
}

/* MPI_Unpack, MPI_Unpack_external: sets the elements of outcount copies, the first of which begins at the place origin of outbuf, from the
 * packed bytes in inbuf from the place *position on, and moves *position to their end. No other byte of outbuf changes. */
static inline int dt_unpack(dt_lib *lib, const void *inbuf, size_t insize, size_t *position, void *outbuf, size_t outsize, int64_t origin,
                            int outcount, dt_type datatype, dt_rep rep) {
    uint8_t none;
    if (!lib || (!inbuf && insize) || (!outbuf && outsize) || !position || (rep != DT_NATIVE && rep != DT_EXTERNAL32)) return DT_ERR_ARG;
    return dt_c_unpack(lib, dt_c_in(inbuf), insize, position, dt_c_out(outbuf, &none), outsize, origin, outcount, datatype,
                       rep == DT_EXTERNAL32);
}

/* ---- copies and reductions. The buffers are two, and don't overlap. The first that holds is answered: DT_ERR_TYPE, DT_ERR_UNCOMMITTED
 * and DT_ERR_ARG where a count is negative, first of the source and then of the target; DT_ERR_LARGE where a buffer is too large;
 * DT_ERR_OUTSIDE; DT_ERR_OVERLAP where two elements of the target have a common byte; what is said at the call; and DT_ERR_NO_MEM wherever
 * it comes. */

/* Copies the elements of incount copies of intype in inbuf, in their order, to the places of those of outcount copies of outtype in
 * outbuf, as MPI_Sendrecv would between a process and itself, with no packed bytes between. No other byte of outbuf changes. *elements
 * tells how many they are. DT_ERR_TRUNCATE where there are more than in outbuf, then DT_ERR_MATCH where two of one number are of different
 * kinds. */
static inline int dt_copy(dt_lib *lib, const void *inbuf, size_t insize, int64_t inorigin, int incount, dt_type intype, void *outbuf,
                          size_t outsize, int64_t outorigin, int outcount, dt_type outtype, uint64_t *elements) {
    uint8_t none;
    if (!lib || (!inbuf && insize) || (!outbuf && outsize) || !elements) return DT_ERR_ARG;
    return dt_c_copy(lib, dt_c_in(inbuf), insize, inorigin, incount, intype, dt_c_out(outbuf, &none), outsize, outorigin, outcount, outtype,
                     elements);
}

/* The operations of a reduction (MPI 4.1, section 6.9.2), on integers: sums and products wrap in the kind's range, bytes are numbers
 * without a sign, and chars have one. DT_REPLACE takes the element of inbuf, DT_NO_OP leaves that of inoutbuf. */
typedef enum {
    DT_SUM = 0,
    DT_PROD = 1,
    DT_MIN = 2,
    DT_MAX = 3,
    DT_BAND = 4,
    DT_BOR = 5,
    DT_BXOR = 6,
    DT_REPLACE = 7,
    DT_NO_OP = 8
} dt_op;

/* MPI_Reduce_local: each element of count copies in inoutbuf becomes what the element of the same number in inbuf and it are joined to,
 * the one of inbuf first. No other byte of inoutbuf changes. *elements tells how many they are. DT_ERR_ARG, before all else, where op is
 * none of the above. */
static inline int dt_reduce_local(dt_lib *lib, const void *inbuf, size_t insize, int64_t inorigin, void *inoutbuf, size_t inoutsize,
                                  int64_t inoutorigin, int count, dt_type datatype, dt_op op, uint64_t *elements) {
    uint8_t none;
    if (!lib || (!inbuf && insize) || (!inoutbuf && inoutsize) || !elements) return DT_ERR_ARG;
    return dt_c_reduce_local(lib, dt_c_in(inbuf), insize, inorigin, dt_c_out(inoutbuf, &none), inoutsize, inoutorigin, count, datatype,
                             (uint64_t)op, elements);
}

/* ---- sessions: an operation whose packed bytes come in pieces of any length. MPI has no counterpart: MPI_Pack and MPI_Unpack go on only
 * at a whole datatype. A session keeps neither the buffer nor the datatype: each call is given the buffer, as it is then. */

/* The number of a session. */
typedef uint64_t dt_session;

/* Opens a session that packs count copies, the first of which begins at the place origin of a buffer of bufsize bytes. Refused as dt_pack
 * is, but for room; DT_ERR_SPENT where all numbers were used. */
static inline int dt_pack_open(dt_lib *lib, size_t bufsize, int64_t origin, int count, dt_type datatype, dt_rep rep, dt_session *session) {
    if (!lib || !session || (rep != DT_NATIVE && rep != DT_EXTERNAL32)) return DT_ERR_ARG;
    return dt_c_pack_open(lib, bufsize, origin, count, datatype, rep == DT_EXTERNAL32, session);
}

/* Opens a session that unpacks. Refused as dt_unpack is, but for room; DT_ERR_SPENT where all numbers were used. */
static inline int dt_unpack_open(dt_lib *lib, size_t bufsize, int64_t origin, int count, dt_type datatype, dt_rep rep,
                                 dt_session *session) {
    if (!lib || !session || (rep != DT_NATIVE && rep != DT_EXTERNAL32)) return DT_ERR_ARG;
    return dt_c_unpack_open(lib, bufsize, origin, count, datatype, rep == DT_EXTERNAL32, session);
}

/* Puts the next packed bytes of the buffer to the front of outbuf, as many as have room or are still to come, and puts their number into
 * *taken: 0 at the end. DT_ERR_SESSION where the number stands for no session that packs, DT_ERR_ARG where bufsize isn't that of opening.
 */
static inline int dt_session_take(dt_lib *lib, dt_session session, const void *buffer, size_t bufsize, void *outbuf, size_t outsize,
                                  size_t *taken) {
    uint8_t none;
    if (!lib || (!buffer && bufsize) || (!outbuf && outsize) || !taken) return DT_ERR_ARG;
    return dt_c_session_take(lib, session, dt_c_in(buffer), bufsize, dt_c_out(outbuf, &none), outsize, taken);
}

/* Gives the next packed bytes: the elements of the buffer that they complete are set, no other byte changes, and the bytes of an element
 * that isn't complete are held. DT_ERR_SESSION where the number stands for no session that unpacks, DT_ERR_ARG where bufsize isn't that of
 * opening, DT_ERR_ROOM where more is given than is still to come. */
static inline int dt_session_give(dt_lib *lib, dt_session session, void *buffer, size_t bufsize, const void *piece, size_t piecesize,
                                  dt_receipt *receipt) {
    uint8_t none;
    if (!lib || (!buffer && bufsize) || (!piece && piecesize) || !receipt) return DT_ERR_ARG;
    return dt_c_session_give(lib, session, dt_c_out(buffer, &none), bufsize, dt_c_in(piece), piecesize, receipt);
}

/* Lets a session that packs go on at any of its packed bytes, from 0 on, or at the end. DT_ERR_SESSION where the number stands for no
 * session that packs, DT_ERR_ARG where it has fewer packed bytes. */
static inline int dt_session_seek(dt_lib *lib, dt_session session, uint64_t position) {
    return lib ? dt_c_session_seek(lib, session, position) : DT_ERR_ARG;
}

/* How many packed bytes a session has in all, and how many of them were passed. DT_ERR_SESSION where the number stands for none. */
static inline int dt_session_progress(dt_lib *lib, dt_session session, uint64_t *total, uint64_t *position) {
    dt_c_progress progress = {0, 0};
    if (!lib || !total || !position) return DT_ERR_ARG;
    int answer = dt_c_session_progress(lib, session, &progress);
    if (answer == DT_SUCCESS) {
        *total = progress.total;
        *position = progress.position;
    }
    return answer;
}

/* Closes a session, at its end or before. DT_ERR_SESSION where the number stands for none. */
static inline int dt_session_close(dt_lib *lib, dt_session session) {
    return lib ? dt_c_session_close(lib, session) : DT_ERR_ARG;
}

#ifdef __cplusplus
}
#endif

#endif
