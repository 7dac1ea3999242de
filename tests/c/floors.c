/* What a loop in C takes for two works of docs/SPEED.md, in nanoseconds, the least of many turns:
 *   cc -O3 -msse4.2 tests/c/floors.c -o floors && taskset -c 0 ./floors
 * texts   the loads alone of texts of 256 bytes, a megabyte of them: 16 bytes a load, one test a text
 * walk    the lengths of a row's eight values added up
 * table   the same row's places put into a table of places of four bytes, and each column taken from it by its number
 */
#define _POSIX_C_SOURCE 199309L
#include <emmintrin.h>
#include <stdint.h>
#include <stdio.h>
#include <stdlib.h>
#include <string.h>
#include <time.h>

enum { TEXT = 256, TEXTS = 4096, COLUMNS = 8, VALUE = 6, ROW = 2 + COLUMNS * (4 + VALUE), ROWS = 10000, TURNS = 200 };

struct place {
  uint32_t start, end;
};

static double now(void) {
  struct timespec t;
  clock_gettime(CLOCK_MONOTONIC, &t);
  return (double)t.tv_sec * 1e9 + (double)t.tv_nsec;
}

static uint32_t word(const unsigned char *at) {
  return (uint32_t)at[0] << 24 | (uint32_t)at[1] << 16 | (uint32_t)at[2] << 8 | at[3];
}

/* How many texts have only ASCII. */
static uint64_t texts(const unsigned char *bytes) {
  uint64_t found = 0;
  for (size_t text = 0; text < TEXTS; text++) {
    __m128i all = _mm_setzero_si128();
    for (size_t at = 0; at < TEXT; at += 16)
      all = _mm_or_si128(all, _mm_loadu_si128((const __m128i *)(bytes + text * TEXT + at)));
    found += _mm_movemask_epi8(all) == 0;
  }
  return found;
}

/* The end of a row's values, or 0 where a length passes it; each value goes to `each`. */
static uint64_t walk(const unsigned char *row, size_t size) {
  uint64_t sum = 0;
  size_t at = 2;
  for (unsigned left = (unsigned)(row[0] << 8 | row[1]); left > 0; left--) {
    if (size - at < 4) return 0;
    uint32_t len = word(row + at);
    at += 4;
    if ((int32_t)len < 0) continue;
    if (size - at < len) return 0;
    sum += len;
    at += len;
  }
  return sum;
}

static uint64_t table(const unsigned char *row, size_t size, struct place *places) {
  uint64_t sum = 0;
  size_t at = 2, count = 0;
  for (unsigned left = (unsigned)(row[0] << 8 | row[1]); left > 0; left--) {
    if (size - at < 4) return 0;
    uint32_t len = word(row + at);
    at += 4;
    if ((int32_t)len < 0) len = 0;
    if (size - at < len) return 0;
    places[count].start = (uint32_t)at;
    at += len;
    places[count++].end = (uint32_t)at;
  }
  for (size_t i = 0; i < COLUMNS; i++)
    if (i < count && places[i].start <= places[i].end && places[i].end <= size) sum += places[i].end - places[i].start;
  return sum;
}

int main(void) {
  unsigned char *bytes = malloc(TEXT * TEXTS), *rows = malloc((size_t)ROW * ROWS);
  struct place *places = malloc(sizeof *places * 65536);
  double least[3] = {1e12, 1e12, 1e12};
  uint64_t sum = 0;
  if (!bytes || !rows || !places) return 1;
  memset(bytes, 'a', TEXT * TEXTS);
  for (size_t row = 0; row < ROWS; row++) {
    unsigned char *at = rows + row * ROW;
    *at++ = 0;
    *at++ = COLUMNS;
    for (int i = 0; i < COLUMNS; i++, at += 4 + VALUE) memcpy(at, "\0\0\0\6column", 4 + VALUE);
  }
  for (int turn = 0; turn < TURNS; turn++) {
    double times[4];
    times[0] = now();
    sum += texts(bytes);
    times[1] = now();
    for (size_t row = 0; row < ROWS; row++) sum += walk(rows + row * ROW, ROW);
    times[2] = now();
    for (size_t row = 0; row < ROWS; row++) sum += table(rows + row * ROW, ROW, places);
    times[3] = now();
    double units[3] = {TEXTS, ROWS, ROWS};
    for (int i = 0; i < 3; i++) {
      double took = (times[i + 1] - times[i]) / units[i];
      if (took < least[i]) least[i] = took;
    }
  }
  printf("texts %.2f\nwalk %.2f\ntable %.2f, %.2f of the walk\n", least[0], least[1], least[2], least[2] / least[1]);
  return sum == 0;
}
