/* Tetrahedral meshes, by functions that are proved to keep what stands here. docs/LIBRARY.md says what is promised and where that is proved.

   For every call the caller owes: each address is that of as many items as the length behind it says, aligned for their type, and may be null
   where that length is 0; what a function writes is not const, overlaps nothing else that the call takes, and is touched by no other thread
   meanwhile; an address of a single value is not null. No call comes from a signal handler, or from the forked child of a process with threads.
   malloc, realloc and free are those of one allocator. Any number of threads may call at the same time: no call keeps anything. */
#ifndef TETGEN_H
#define TETGEN_H

#include <stdbool.h>
#include <stddef.h>
#include <stdint.h>

#ifdef __cplusplus
extern "C" {
#endif

enum {
    TETGEN_DONE = 0,
    TETGEN_BAD_INDEX = 4,  /* a facet, a polygon or a corner names what is not there */
    TETGEN_LIMIT = 5,      /* too many points, decimals or added points, or a coordinate too large or no number */
    TETGEN_FLAT = 6,       /* all points lie in one plane, as fewer than four do; or facets are not flat, or facets or segments cross */
    TETGEN_GRID_END = 7,   /* a segment needs more halvings */
    TETGEN_BUDGET_END = 8, /* as many points were added as allowed, and a segment is missing */
    TETGEN_NO_FILL = 9,    /* two facets cross one Delaunay tetrahedron, and no filling was found */
    TETGEN_NO_MEMORY = 10, /* out of memory */
    TETGEN_NO_ROOM = 20    /* an array of the caller is too short */
};

/* A point with whole coordinates, each at most 2^29 in size. */
typedef struct {
    int64_t x, y, z;
} tetgen_place;

/* A tetrahedron by the places of its corners in an array of points, from 0. The determinant of b - a, c - a, d - a is above 0: seen from d, the
   corners a, b, c turn counterclockwise. */
typedef struct {
    uint32_t a, b, c, d;
} tetgen_row;

/* Rows in a block of memory, which the caller frees by free(at) where len is not 0. */
typedef struct {
    tetgen_row *at;
    size_t len;
} tetgen_rows;

/* Writes the Delaunay list of n points to the front of rows, which has room for so many, and its length to count.

   TETGEN_DONE: the first *count rows are the Delaunay list, ascending: exactly the tetrahedra of the points that have every other point outside
   of their circumsphere, where ties are broken by the places of the points. Of equal points the first alone is a corner. Rows behind stay.
   On any other status rows stays as it was:
   TETGEN_LIMIT: there are more than 4,000,000 points, or a coordinate is over 2^29 in size; *count is 0.
   TETGEN_FLAT: all points lie in one plane; *count is 0.
   TETGEN_NO_MEMORY: *count is 0.
   TETGEN_NO_ROOM: *count is the length of the list, and room is less. 7 n rows are mostly enough. */
int32_t tetgen_delaunay_into(const tetgen_place *places, size_t n, tetgen_row *rows, size_t room, size_t *count);

/* Makes the Delaunay list of n points in a block of memory.

   TETGEN_DONE: out has a block with the list, of out->len rows. It is the list of tetgen_delaunay_into; what is proved is its length.
   TETGEN_LIMIT, TETGEN_FLAT, TETGEN_NO_MEMORY: as above; out stays as it was. */
int32_t tetgen_delaunay(const tetgen_place *places, size_t n, tetgen_rows *out);

/* A polygon: its corners are those from first to before past in the array of corners. */
typedef struct {
    size_t first, past;
} tetgen_polygon;

/* A facet: its polygons are those from first to before past in the array of polygons; its marker; and the points in its holes are those from
   first_hole to before past_hole in the array of such points. A point of the facet is left out of it where the same polygons go round it as round a
   point in a hole. */
typedef struct {
    size_t first, past;
    int64_t marker;
    size_t first_hole, past_hole;
} tetgen_facet;

/* How the mesh of a complex is made. The program's own numbers are TETGEN_OPTIONS. */
typedef struct {
    uint32_t halvings; /* how often the unit may be halved, where points are added on segments; over 18 counts as 18 */
    uint32_t budget;   /* how many points may be added on segments, at most 100,000,000 */
    bool keep_hull;    /* tetrahedra that no facet parts from the outside are kept */
    bool keep_facets;  /* coplanar facets that are joined over a common side stay apart */
    bool regions;      /* tetrahedra are marked by regions */
} tetgen_options;

#define TETGEN_OPTIONS {12, 100000, false, false, false}

/* A piecewise linear complex. Corners are places of points, from 0. What a path through no facet joins with a point of holes is carved away; each
   tetrahedron belongs to the first point of regions that such a path joins with it. */
typedef struct {
    const tetgen_place *points;
    size_t point_count;
    const uint32_t *corners;
    size_t corner_count;
    const tetgen_polygon *polygons;
    size_t polygon_count;
    const tetgen_facet *facets;
    size_t facet_count;
    const tetgen_place *facet_holes;
    size_t facet_hole_count;
    const tetgen_place *holes;
    size_t hole_count;
    const tetgen_place *regions;
    size_t region_count;
    tetgen_options options;
} tetgen_complex;

/* The region of a tetrahedron that is in none, and the neighbor where there is none. */
#define TETGEN_NO_REGION UINT32_MAX
#define TETGEN_NO_NEIGHBOR UINT32_MAX

/* A tetrahedron by the places of its corners in the points of a mesh, from 0, in the order of tetgen_row; the place of its region; and the places, in
   the list of tetrahedra, of its neighbors across the faces opposite a, b, c and d. */
typedef struct {
    uint32_t a, b, c, d;
    uint32_t region;
    uint32_t neighbors[4];
} tetgen_cell;

/* A face of a mesh by the places of its corners, and its marker: that of the first facet in which it lies, or 1 where it lies in none. */
typedef struct {
    uint32_t a, b, c;
    int64_t marker;
} tetgen_face;

/* How long the lists of a mesh are, and the halvings: its coordinates are whole numbers over 2^halvings. */
typedef struct {
    size_t points, cells, faces;
    uint32_t halvings;
} tetgen_counts;

/* Writes the mesh of a complex to the front of points, cells and faces, which have room for so many, and the lengths to counts.

   TETGEN_DONE: the lists are a mesh of the complex, exactly. points has all points of the complex, and those behind them that were added on
   segments; each coordinate is a whole number over 2^halvings, where the unit is halved as often as the options allow and all coordinates stay at
   most 2^29. cells has the tetrahedra, ascending: they fill what the facets enclose, but for the holes, have each facet as faces, and are locally
   Delaunay but at facets. faces has the faces on the hull and those that lie in facets, ascending. Of equal points the first alone is a corner.
   What lies behind stays.
   On any other status the three arrays stay as they were, and counts is 0 but for TETGEN_NO_ROOM:
   TETGEN_BAD_INDEX: a facet names a polygon or a point in a hole, a polygon a corner, or a corner a point that is not there.
   TETGEN_LIMIT: there are more than 4,000,000 points, or a coordinate is over 2^29 in size, or options.budget is over 100,000,000.
   TETGEN_FLAT, TETGEN_GRID_END, TETGEN_BUDGET_END, TETGEN_NO_FILL: there is no mesh, as their lines above say.
   TETGEN_NO_MEMORY.
   TETGEN_NO_ROOM: one of the arrays is shorter than its list; counts has the lengths. */
int32_t tetgen_mesh_into(const tetgen_complex *complex, tetgen_place *points, size_t point_room, tetgen_cell *cells, size_t cell_room,
                         tetgen_face *faces, size_t face_room, tetgen_counts *counts);

/* The lists of a mesh in blocks of memory, each of which the caller frees by free where its list is not empty. */
typedef struct {
    tetgen_place *points;
    size_t point_count;
    tetgen_cell *cells;
    size_t cell_count;
    tetgen_face *faces;
    size_t face_count;
    uint32_t halvings;
} tetgen_blocks;

/* Makes the mesh of a complex in blocks of memory.

   TETGEN_DONE: out has the lists of tetgen_mesh_into in blocks, and the halvings; what is proved are the lengths and the halvings.
   TETGEN_BAD_INDEX, .., TETGEN_NO_MEMORY: as above; out stays as it was. */
int32_t tetgen_mesh(const tetgen_complex *complex, tetgen_blocks *out);

/* A point with coordinates that are binary floats of 64 bits, as an array of three double lies in memory. */
typedef struct {
    double x, y, z;
} tetgen_float_place;

/* Writes n points to the front of places, which has room for so many, with each coordinate in units of 1 / 10^decimals: x 10^decimals, rounded to a
   whole number from its exact value, halves away from zero.

   TETGEN_DONE: so it is; what lies behind stays.
   On any other status places stays as it was:
   TETGEN_LIMIT: decimals is over 22, a rounded coordinate is over 2^29 in size, or a coordinate is infinite or no number.
   TETGEN_NO_ROOM: room is less than n. */
int32_t tetgen_places_of(const tetgen_float_place *points, size_t n, uint32_t decimals, tetgen_place *places, size_t room);

/* Writes the words for a status of the calls above to the front of room, without a zero behind them, where they fit, and answers how many bytes they
   have: "out of memory" for TETGEN_NO_MEMORY. A number that is no status has no words. What lies behind stays, and all of room where it is too
   short. A run over texts has its own messages. */
size_t tetgen_message(int32_t status, char *room, size_t room_size);

/* Bytes: a word, or the name of a file. */
typedef struct {
    const char *at;
    size_t len;
} tetgen_slice;

/* A file: its name and its bytes. */
typedef struct {
    const char *name;
    size_t name_len;
    const char *at;
    size_t len;
} tetgen_text;

/* What a run is to do: its words, as behind the name of the program; all files of its folder, of equal names the last; and the names of the files
   whose texts are wanted afterwards. */
typedef struct {
    const tetgen_slice *words;
    size_t word_count;
    const tetgen_text *files;
    size_t file_count;
    const tetgen_slice *wanted;
    size_t wanted_count;
} tetgen_task;

/* The length of a wanted file that is not there. */
#define TETGEN_NO_FILE SIZE_MAX

/* Runs the program tetgen on the words of the task, over a folder in memory that has the files of the task alone. No file of the system is read or
   written.

   The result is the exit status of the program (docs/MANUAL.md), 0 to 14. The program promises of its words, its folder and its streams what it
   promises on a disk: the status has its cause, the files are those of the mesh, and after a refusal all is as it was. But for TETGEN_NO_MEMORY,
   *count bytes at the front of room are what the run leaves, one text behind another: its lines, which go to standard output; its messages, which
   go to standard error; and each wanted file that its folder has then, in the order of the task. lengths[0] and lengths[1] are the lengths of the
   lines and of the messages, and lengths[2 + k] that of the wanted file k, or TETGEN_NO_FILE. A line or a message ends with a line feed.
   TETGEN_NO_MEMORY: nothing is written, and *count is 0.
   TETGEN_NO_ROOM: lengths has fewer than wanted_count + 2 items, or room has fewer bytes than *count, the number that the texts have; nothing is
   written. */
int32_t tetgen_run(const tetgen_task *task, size_t *lengths, size_t length_count, char *room, size_t room_size, size_t *count);

/* Runs the program tetfit, which meshes models as they are found and adds points for volumes and shapes, as tetgen_run does tetgen: with what tetfit
   promises on a disk, and within its limits. With the word -V the stages stand before the message, so there are messages after TETGEN_DONE too. Words
   that ask for the page or the version leave it among the lines. */
int32_t tetfit_run(const tetgen_task *task, size_t *lengths, size_t length_count, char *room, size_t room_size, size_t *count);

#ifdef __cplusplus
}
#endif

#endif
