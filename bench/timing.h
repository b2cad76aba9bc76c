/* What the programs of bench/run have in common: the mesh file (oracle/src/timing.rs says what is in it), the clock, and the line that
   each prints. For C and C++. */
#include <math.h>
#include <stdint.h>
#include <stdio.h>
#include <stdlib.h>
#include <time.h>

/* The function that is timed stands under this name in each program, and callgrind counts what runs inside it. */
#ifdef __cplusplus
#define TIMED extern "C" __attribute__((noinline))
#else
#define TIMED __attribute__((noinline))
#endif

struct mesh {
    size_t points, faces;
    float *places;     /* x, y, z of each point */
    uint32_t *corners; /* three point numbers of each face */
};

/* Ends the program with a word about why. */
static inline void fail(const char *why) {
    fprintf(stderr, "bench: %s\n", why);
    exit(1);
}

/* Memory that has been written to once, so that the system has handed it out before anything is timed. */
static inline void *room(size_t bytes) {
    unsigned char *cells = (unsigned char *)malloc(bytes + 1);
    if (!cells) fail("no memory");
    for (size_t i = 0; i < bytes; i++) ((volatile unsigned char *)cells)[i] = 1;
    return cells;
}

/* The mesh of a file. */
static inline struct mesh read_mesh(const char *name) {
    FILE *file = fopen(name, "rb");
    uint32_t counts[2];
    struct mesh mesh;
    if (!file || fread(counts, 4, 2, file) != 2) fail("no mesh file");
    mesh.points = counts[0], mesh.faces = counts[1];
    mesh.places = (float *)room(12 * mesh.points);
    mesh.corners = (uint32_t *)room(12 * mesh.faces);
    if (fread(mesh.places, 12, mesh.points, file) != mesh.points || fread(mesh.corners, 12, mesh.faces, file) != mesh.faces)
        fail("the mesh file is cut short");
    fclose(file);
    return mesh;
}

/* The processor time of this process. */
static inline double processor_milliseconds(void) {
    struct timespec moment;
    clock_gettime(CLOCK_PROCESS_CPUTIME_ID, &moment);
    return moment.tv_sec * 1e3 + moment.tv_nsec * 1e-6;
}

/* Goes on with a sum over words, begun at SUM_BEGIN; the same as in oracle/src/timing.rs. */
#define SUM_BEGIN 2166136261u
static inline uint32_t sum_on(uint32_t sum, const void *words, size_t count) {
    const uint32_t *word = (const uint32_t *)words;
    for (size_t i = 0; i < count; i++) sum = (sum ^ word[i]) * 16777619u;
    return sum;
}
