/* The Delaunay list of a pyramid, in the caller's array and in a block of memory; the mesh of a tetrahedron with facets, and of a facet with a hole;
   points of floats; a run on a text, and one on a binary model with points added for shapes; and refusals of each. */
#include "tetgen.h"
#include <stdio.h>
#include <stdlib.h>
#include <string.h>

/* Ends the program where a call does otherwise than tetgen.h says. */
static void check(int holds, const char *what) {
    if (!holds) {
        fprintf(stderr, "example: %s\n", what);
        exit(1);
    }
}

static const tetgen_place PYRAMID[5] = {{0, 0, 0}, {2, 0, 0}, {2, 2, 0}, {0, 2, 0}, {1, 1, 2}};

static void in_an_array(void) {
    tetgen_row rows[4], before[4];
    size_t count = 7;
    memset(rows, 0xff, sizeof rows);
    memcpy(before, rows, sizeof rows);
    check(tetgen_delaunay_into(PYRAMID, 5, rows, 1, &count) == TETGEN_NO_ROOM && count == 2, "room for one row");
    check(tetgen_delaunay_into(PYRAMID, 5, NULL, 0, &count) == TETGEN_NO_ROOM && count == 2, "no room");
    check(tetgen_delaunay_into(PYRAMID, 4, rows, 4, &count) == TETGEN_FLAT && count == 0, "four points in a plane");
    check(tetgen_delaunay_into(NULL, 0, rows, 4, &count) == TETGEN_FLAT && count == 0, "no point");
    check(memcmp(rows, before, sizeof rows) == 0, "rows after a refusal");
    check(tetgen_delaunay_into(PYRAMID, 5, rows, 4, &count) == TETGEN_DONE && count == 2, "the pyramid");
    check(memcmp(rows + 2, before + 2, 2 * sizeof *rows) == 0, "rows behind the list");
    for (size_t i = 0; i < count; i++)
        printf("%u %u %u %u\n", rows[i].a, rows[i].b, rows[i].c, rows[i].d);
}

static void in_a_block(void) {
    tetgen_place far[5];
    tetgen_rows out = {NULL, 0};
    memcpy(far, PYRAMID, sizeof far);
    far[4].z = ((int64_t)1 << 29) + 1;
    check(tetgen_delaunay(far, 5, &out) == TETGEN_LIMIT && out.at == NULL && out.len == 0, "a coordinate that is too large");
    far[4].z = (int64_t)1 << 29;
    check(tetgen_delaunay(far, 5, &out) == TETGEN_DONE && out.len == 2, "the largest coordinate");
    free(out.at);
}

static const tetgen_place CORNERED[4] = {{0, 0, 0}, {4, 0, 0}, {0, 4, 0}, {0, 0, 4}};
static const uint32_t CORNERS[12] = {0, 1, 2, 0, 1, 3, 0, 2, 3, 1, 2, 3};
static const tetgen_polygon TRIANGLES[4] = {{0, 3}, {3, 6}, {6, 9}, {9, 12}};
static const tetgen_facet FACETS[4] = {{0, 1, 10, 0, 0}, {1, 2, 20, 0, 0}, {2, 3, 30, 0, 0}, {3, 4, -40, 0, 0}};
static const tetgen_place INSIDE[1] = {{1, 1, 1}};

static void of_a_complex(void) {
    tetgen_complex complex = {CORNERED, 4, CORNERS, 12, TRIANGLES, 4, FACETS, 4, NULL, 0, NULL, 0, INSIDE, 1, TETGEN_OPTIONS};
    tetgen_place points[5] = {{0, 0, 0}};
    tetgen_cell cells[2] = {{0, 0, 0, 0, 0, {0}}};
    tetgen_face faces[4] = {{0, 0, 0, 0}};
    tetgen_counts counts;
    complex.options.regions = true;
    complex.options.halvings = 1;
    check(tetgen_mesh_into(&complex, points, 5, cells, 2, NULL, 0, &counts) == TETGEN_NO_ROOM && counts.faces == 4, "no room for faces");
    complex.point_count = 3;
    check(tetgen_mesh_into(&complex, points, 5, cells, 2, faces, 4, &counts) == TETGEN_BAD_INDEX && counts.faces == 0, "a corner out of range");
    complex.facet_count = 0;
    check(tetgen_mesh_into(&complex, points, 5, cells, 2, faces, 4, &counts) == TETGEN_FLAT && points[1].x == 0, "three points");
    complex.point_count = complex.facet_count = 4;
    check(tetgen_mesh_into(&complex, points, 5, cells, 2, faces, 4, &counts) == TETGEN_DONE, "a tetrahedron");
    for (size_t i = 0; i < counts.points; i++)
        printf("%lld %lld %lld\n", (long long)points[i].x, (long long)points[i].y, (long long)points[i].z);
    for (size_t i = 0; i < counts.cells; i++)
        printf("%u %u %u %u in %u\n", cells[i].a, cells[i].b, cells[i].c, cells[i].d, cells[i].region);
    check(cells[0].neighbors[3] == TETGEN_NO_NEIGHBOR, "no neighbor");
    for (size_t i = 0; i < counts.faces; i++)
        printf("%u %u %u marked %lld\n", faces[i].a, faces[i].b, faces[i].c, (long long)faces[i].marker);
}

/* Two tetrahedra over a square of 4 by 4 and below it, whose one facet is the square with a hole in its middle. */
static const tetgen_place SQUARE[10] = {{0, 0, 0}, {4, 0, 0}, {4, 4, 0}, {0, 4, 0}, {1, 1, 0}, {3, 1, 0}, {3, 3, 0}, {1, 3, 0}, {2, 2, 4}, {2, 2, -4}};
static const uint32_t RINGS[8] = {0, 1, 2, 3, 4, 5, 6, 7};
static const tetgen_polygon TWO[2] = {{0, 4}, {4, 8}};
static const tetgen_facet RING[1] = {{0, 2, 7, 0, 1}};
static const tetgen_place MIDDLE[1] = {{2, 2, 0}};

static void in_blocks(void) {
    tetgen_complex complex = {SQUARE, 10, RINGS, 8, TWO, 2, RING, 1, MIDDLE, 1, NULL, 0, NULL, 0, TETGEN_OPTIONS};
    tetgen_blocks out = {NULL, 0, NULL, 0, NULL, 0, 0};
    size_t in_facet = 0;
    complex.options.keep_hull = true;
    complex.facet_hole_count = 0;
    check(tetgen_mesh(&complex, &out) == TETGEN_BAD_INDEX && out.points == NULL, "a point in a hole that is not there");
    complex.facet_hole_count = 1;
    check(tetgen_mesh(&complex, &out) == TETGEN_DONE && out.point_count == 10, "a square with a hole");
    for (size_t i = 0; i < out.face_count; i++)
        in_facet += out.faces[i].marker == 7;
    for (size_t i = 0; i < out.cell_count; i++)
        for (size_t k = 0; k < 4; k++) {
            uint32_t next = out.cells[i].neighbors[k];
            check(next == TETGEN_NO_NEIGHBOR || next < out.cell_count, "a neighbor");
        }
    printf("%zu faces in the ring\n", in_facet);
    free(out.points);
    free(out.cells);
    free(out.faces);
}

static void of_floats(void) {
    const tetgen_float_place floats[2] = {{0.125, -0.125, 0.1}, {1e-30, 2.675, 536870.912}};
    tetgen_float_place none = {0.0 / 0.0, 0, 0};
    tetgen_place places[2] = {{0, 0, 0}, {0, 0, 0}};
    check(tetgen_places_of(floats, 2, 4, places, 2) == TETGEN_LIMIT && tetgen_places_of(floats, 2, 23, places, 2) == TETGEN_LIMIT, "too large");
    check(tetgen_places_of(&none, 1, 0, places, 2) == TETGEN_LIMIT && tetgen_places_of(floats, 2, 2, places, 1) == TETGEN_NO_ROOM, "no number");
    check(places[0].x == 0 && places[1].y == 0 && tetgen_places_of(floats, 2, 2, places, 2) == TETGEN_DONE, "two points of floats");
    for (size_t i = 0; i < 2; i++)
        printf("%lld %lld %lld hundredths\n", (long long)places[i].x, (long long)places[i].y, (long long)places[i].z);
}

static void in_words(void) {
    char room[80] = "";
    check(tetgen_message(TETGEN_FLAT, room, 5) == 77 && room[0] == 0, "no room for words");
    check(tetgen_message(3, room, sizeof room) == 0 && room[0] == 0, "a number that is no status");
    check(tetgen_message(TETGEN_NO_MEMORY, room, sizeof room) == 13 && strcmp(room, "out of memory") == 0, "words");
}

#define SLICE(text) {text, sizeof(text) - 1}

static const char NODE[] = "5 3 0 0\n0 0 0 0\n1 2 0 0\n2 2 2 0\n3 0 2 0\n4 1 1 2\n";

/* Prints the texts of a run, one behind another. */
static void show(const char *room, const size_t *lengths, size_t length_count) {
    for (size_t k = 0; k < length_count; k++) {
        if (lengths[k] == TETGEN_NO_FILE) {
            printf("no file\n");
            continue;
        }
        fwrite(room, 1, lengths[k], stdout);
        room += lengths[k];
    }
}

static void over_texts(void) {
    const tetgen_slice words[2] = {SLICE("-n"), SLICE("p")};
    const tetgen_text files[1] = {{"p.node", 6, NODE, sizeof NODE - 1}};
    const tetgen_slice wanted[3] = {SLICE("p.1.ele"), SLICE("p.1.edge"), SLICE("p.1.neigh")};
    tetgen_task task = {words, 2, files, 1, wanted, 3};
    size_t lengths[5] = {0}, needed = 0, count = 0;
    check(tetgen_run(&task, lengths, 5, NULL, 0, &needed) == TETGEN_NO_ROOM && needed > 0, "no room for the texts");
    char *room = malloc(needed);
    check(room != NULL, "memory");
    check(tetgen_run(&task, lengths, 4, room, needed, &count) == TETGEN_NO_ROOM && count == needed, "no room for a length");
    check(lengths[0] == 0, "lengths after a refusal");
    check(tetgen_run(&task, lengths, 5, room, needed, &count) == TETGEN_DONE && count == needed, "the run");
    show(room, lengths, 5);
    free(room);
    char message[80];
    task = (tetgen_task){words, 2, NULL, 0, NULL, 0};
    check(tetgen_run(&task, lengths, 5, message, sizeof message, &count) == 2, "a folder with no file");
    show(message, lengths, 2);
    task = (tetgen_task){NULL, 0, NULL, 0, NULL, 0};
    check(tetgen_run(&task, lengths, 5, message, sizeof message, &count) == 1, "no word");
    show(message, lengths, 2);
}

/* A block of 1 by 1 by 4: the corner with the place x + 2 y + 4 z is (x, y, 4 z), and each triangle is seen from outside. */
static const unsigned char SIDES[12][3] = {{0, 2, 1}, {1, 2, 3}, {4, 5, 6}, {5, 7, 6}, {0, 1, 4}, {1, 5, 4},
                                           {2, 6, 3}, {3, 6, 7}, {0, 4, 2}, {2, 4, 6}, {1, 3, 5}, {3, 7, 5}};

#define BLOCK_SIZE (84 + 50 * 12)

/* Writes four bytes, the lowest first, and answers what is behind them. */
static char *put_bits(char *at, uint32_t bits) {
    for (int i = 0; i < 4; i++)
        *at++ = (char)(bits >> 8 * i);
    return at;
}

/* Writes the block as a binary .stl: the floats 0, 1 and 4 have the bits 0, 0x3f800000 and 0x40800000. */
static void put_block(char *model) {
    char *at = put_bits(memset(model, 0, BLOCK_SIZE) + 80, 12);
    for (int side = 0; side < 12; side++, at += 2) {
        at += 12;
        for (int k = 0; k < 3; k++) {
            unsigned corner = SIDES[side][k];
            at = put_bits(at, corner & 1 ? 0x3f800000 : 0);
            at = put_bits(at, corner & 2 ? 0x3f800000 : 0);
            at = put_bits(at, corner & 4 ? 0x40800000 : 0);
        }
    }
}

static void of_a_model(void) {
    char model[BLOCK_SIZE], message[200];
    const tetgen_slice words[3] = {SLICE("-q1.1"), SLICE("-a0.2"), SLICE("block.stl")}, bad[2] = {SLICE("-q0.5"), SLICE("block.stl")};
    const tetgen_text files[1] = {{"block.stl", 9, model, sizeof model}};
    const tetgen_slice wanted[1] = {SLICE("block.1.ele")};
    tetgen_task task = {words, 3, files, 1, wanted, 1};
    size_t lengths[3] = {0}, needed = 0, count = 0;
    put_block(model);
    check(tetfit_run(&task, lengths, 3, NULL, 0, &needed) == TETGEN_NO_ROOM && needed > 0 && lengths[0] == 0, "no room for the texts of a model");
    char *room = malloc(needed);
    check(room != NULL, "memory");
    check(tetfit_run(&task, lengths, 3, room, needed, &count) == TETGEN_DONE && count == needed, "the run on a model");
    check(lengths[1] == 0 && lengths[0] + lengths[2] == count, "the texts of a model");
    show(room, lengths, 1);
    free(room);
    task = (tetgen_task){bad, 2, files, 1, NULL, 0};
    check(tetfit_run(&task, lengths, 3, message, sizeof message, &count) == 1, "a ratio that is too small");
    show(message, lengths, 2);
    task = (tetgen_task){words, 3, NULL, 0, NULL, 0};
    check(tetfit_run(&task, lengths, 3, message, sizeof message, &count) == 2, "no model");
    show(message, lengths, 2);
}

int main(void) {
    in_an_array();
    in_a_block();
    of_a_complex();
    in_blocks();
    of_floats();
    in_words();
    over_texts();
    of_a_model();
    return 0;
}
