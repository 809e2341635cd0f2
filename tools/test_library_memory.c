/* Tests of the memory of sets, readers and writers, of which each allocation is counted, and refused in turn: test_library_memory
 * examples/worked.json. It is linked with --wrap=malloc,realloc,free. */
#include "fastcat.h"

#include <stdio.h>
#include <stdlib.h>
#include <string.h>

void *__real_malloc(size_t size);
void *__real_realloc(void *block, size_t size);
void __real_free(void *block);

static size_t held, left = SIZE_MAX; /* how many blocks there are, and how many may still be asked for */

void *__wrap_malloc(size_t size) {
  void *block = left > 0 ? __real_malloc(size) : NULL;
  if (left > 0 && left < SIZE_MAX) left--;
  if (block) held++;
  return block;
}

void *__wrap_realloc(void *block, size_t size) {
  void *moved = left > 0 ? __real_realloc(block, size) : NULL;
  if (left > 0 && left < SIZE_MAX) left--;
  if (moved && !block) held++;
  return moved;
}

void __wrap_free(void *block) {
  if (block) held--;
  __real_free(block);
}

static unsigned passed, failed;

static void expect(int holds, const char *what) {
  if (holds) {
    passed++;
  } else {
    failed++;
    printf("failed: %s\n", what);
  }
}

static uint8_t templates[1 << 16];
static size_t templates_length;
static const uint8_t stream[] = {0xf0, 0x81, 0x81, 0x41, 0xc2, 0xfe, 0x00, 0xe4};

static int works(struct fastcat_set *set) {
  struct fastcat_answer a;
  return fastcat_set_check(set, FASTCAT_STRICT, stream, sizeof stream, &a) == FASTCAT_DONE && a.written == sizeof stream;
}

/* Each allocation refused in turn, a set is made in the place of another, which stays until then. */
static void making(void) {
  struct fastcat_set set = {0};
  struct fastcat_answer a;
  size_t before = held, first = 0, turns = 0;
  left = SIZE_MAX;
  expect(fastcat_set_new(templates, templates_length, &set, &a) == FASTCAT_DONE, "a set");
  first = held;
  for (uint32_t status = FASTCAT_NO_MEMORY; status != FASTCAT_DONE; turns++) {
    left = turns;
    status = fastcat_set_new(templates, templates_length, &set, &a);
    left = SIZE_MAX;
    expect(status == a.status && (status == FASTCAT_DONE || status == FASTCAT_NO_MEMORY), "a status");
    expect(held == first && works(&set), "there is one set");
  }
  expect(turns > 10, "allocations are refused");
  fastcat_set_free(&set);
  expect(held == before, "all is freed");
}

static void sharing(void) {
  struct fastcat_set set = {0}, other = {0};
  struct fastcat_answer a;
  size_t before = held, one = 0;
  expect(fastcat_set_new(templates, templates_length, &set, &a) == FASTCAT_DONE, "a set to share");
  one = held;
  left = 0;
  expect(fastcat_set_share(&set, &other) == FASTCAT_NO_MEMORY && other.at == NULL && other.there == 0, "no share");
  left = SIZE_MAX;
  expect(held == one && works(&set), "a set that was not shared");
  expect(fastcat_set_share(&set, &other) == FASTCAT_DONE && held == one + 1, "a share is one block");
  left = 0;
  expect(fastcat_set_share(&other, &set) == FASTCAT_NO_MEMORY, "no share in the place of another");
  left = SIZE_MAX;
  expect(works(&set) && works(&other), "both are as they were");
  fastcat_set_free(&set);
  expect(works(&other), "the last share");
  fastcat_set_free(&other);
  expect(held == before, "the set is freed with its last share");
}

/* Each allocation refused in turn, the rooms stay as they are until the fields are put. */
static void fields(void) {
  static struct fastcat_field rows[64];
  static uint8_t names[256];
  struct fastcat_set set = {0};
  struct fastcat_answer a;
  struct fastcat_sizes sizes;
  size_t before = held, one = 0, turns = 0;
  expect(fastcat_set_new(templates, templates_length, &set, &a) == FASTCAT_DONE, "a set of fields");
  one = held;
  for (uint32_t status = FASTCAT_NO_MEMORY; status != FASTCAT_DONE; turns++) {
    left = turns;
    status = fastcat_set_fields(&set, rows, 64, names, 256, &sizes);
    left = SIZE_MAX;
    expect(held == one && works(&set), "the set stays");
    expect(status == FASTCAT_DONE ? sizes.templates == 17 && names[0] == 'Q'
                                  : status == FASTCAT_NO_MEMORY && sizes.fields == 0 && rows[0].length == 0 && names[0] == 0, "no fields");
  }
  expect(turns > 5, "allocations for fields are refused");
  fastcat_set_free(&set);
  expect(held == before, "all is freed behind fields");
}

/* Each allocation refused in turn, a reader is made and fed, and works behind a reset. */
static void reading(void) {
  struct fastcat_set set = {0};
  struct fastcat_answer a;
  struct fastcat_counts counts;
  struct fastcat_node nodes[8];
  uint8_t bytes[8];
  size_t first = held, turns = 0;
  expect(fastcat_set_new(templates, templates_length, &set, &a) == FASTCAT_DONE, "a set of readers");
  for (uint32_t status = FASTCAT_NO_MEMORY; status != FASTCAT_DONE; turns++) {
    struct fastcat_reader reader = {0};
    size_t before = held;
    left = turns;
    status = fastcat_reader_new(&set, 0, 0, &reader);
    if (status == FASTCAT_DONE) status = fastcat_reader_feed(&reader, stream, sizeof stream, &counts, &a);
    left = SIZE_MAX;
    expect(status == FASTCAT_DONE || status == FASTCAT_NO_MEMORY, "a status of a reader");
    if (reader.at) {
      expect(status == FASTCAT_DONE || (counts.messages == 0 && a.status == FASTCAT_NO_MEMORY &&
                                        fastcat_reader_finish(&reader, &a) == FASTCAT_NO_MEMORY), "want of memory is kept");
      expect(fastcat_reader_reset(&reader) == FASTCAT_DONE &&
                 fastcat_reader_feed(&reader, stream, sizeof stream, &counts, &a) == FASTCAT_DONE && counts.messages == 1, "a reset");
      left = 0;
      expect(fastcat_reader_take(&reader, nodes, 8, bytes, 8, &counts) == FASTCAT_DONE && counts.nodes == 5 && counts.bytes == 2,
             "what waits is taken without memory");
      left = SIZE_MAX;
    }
    fastcat_reader_free(&reader);
    expect(held == before && works(&set), "a reader is freed");
  }
  expect(turns > 5, "allocations of a reader are refused");
  fastcat_set_free(&set);
  expect(held == first, "all is freed behind readers");
}

/* Each allocation refused in turn, a writer is made and put to; refused, it has nothing of the message, which is put then. */
static void writing(void) {
  static const struct fastcat_node wrap[] = {
      {FASTCAT_MESSAGE, 2, 0, 0, 2, 0}, {FASTCAT_UINT32, 1, 1, 0, 0, 0}, {FASTCAT_UINT32, 2, 5, 0, 0, 0}};
  struct fastcat_set set = {0};
  struct fastcat_answer a;
  struct fastcat_counts counts;
  uint8_t room[16];
  size_t first = held, turns = 0;
  expect(fastcat_set_new(templates, templates_length, &set, &a) == FASTCAT_DONE, "a set of writers");
  for (uint32_t status = FASTCAT_NO_MEMORY; status != FASTCAT_DONE; turns++) {
    struct fastcat_writer writer = {0};
    size_t before = held;
    left = turns;
    status = fastcat_writer_new(&set, &writer);
    if (status == FASTCAT_DONE) status = fastcat_writer_put(&writer, wrap, 3, NULL, 0, &counts, &a);
    left = SIZE_MAX;
    expect(status == FASTCAT_DONE || status == FASTCAT_NO_MEMORY, "a status of a writer");
    if (writer.at && status != FASTCAT_DONE)
      expect(counts.used == 0 && counts.bytes == 0 && fastcat_writer_put(&writer, wrap, 3, NULL, 0, &counts, &a) == FASTCAT_DONE,
             "a message that is put again");
    if (writer.at) {
      left = 0;
      expect(counts.messages == 1 && fastcat_writer_take(&writer, room, sizeof room, &counts) == FASTCAT_DONE && counts.bytes > 2 &&
                 room[1] == 0x82, "its bytes are taken without memory");
      left = SIZE_MAX;
    }
    fastcat_writer_free(&writer);
    expect(held == before && works(&set), "a writer is freed");
  }
  expect(turns > 5, "allocations of a writer are refused");
  fastcat_set_free(&set);
  expect(held == first, "all is freed behind writers");
}

int main(int count, char **words) {
  FILE *file = count == 2 ? fopen(words[1], "rb") : NULL;
  if (!file) {
    fprintf(stderr, "use: test_library_memory examples/worked.json\n");
    return 2;
  }
  templates_length = fread(templates, 1, sizeof templates, file);
  fclose(file);
  making();
  sharing();
  fields();
  reading();
  writing();
  printf("C, memory: %u passed, %u failed\n", passed, failed);
  return failed != 0;
}
