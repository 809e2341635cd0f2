/* Reads a stream as nodes, in chunks of 65,536 bytes, and takes them: nodes TEMPLATES STREAM none|read, for bench/nodes.py.
 *
 * It prints how many messages, nodes and bytes of strings there were, and by how many bytes its greatest memory grew. `none` does
 * all but the reading. */
#include "fastcat.h"

#include <stdio.h>
#include <stdlib.h>
#include <string.h>

enum { CHUNK = 65536, NODES = 131072, BYTES = 1 << 21 };

static uint8_t *bytes_of(const char *name, size_t *length) {
  FILE *file = fopen(name, "rb");
  if (!file || fseek(file, 0, SEEK_END) || (*length = (size_t)ftell(file)) == (size_t)-1) exit(2);
  rewind(file);
  uint8_t *bytes = malloc(*length + 1);
  if (!bytes || fread(bytes, 1, *length, file) != *length) exit(2);
  fclose(file);
  return bytes;
}

/* The greatest memory so far, in bytes (that of getrusage begins with what started the program). */
static long greatest(void) {
  char line[256];
  long kilobytes = 0;
  FILE *file = fopen("/proc/self/status", "r");
  while (file && fgets(line, sizeof line, file))
    if (sscanf(line, "VmHWM: %ld", &kilobytes) == 1) break;
  if (file) fclose(file);
  return kilobytes * 1024;
}

int main(int count, char **words) {
  static struct fastcat_node nodes[NODES];
  static uint8_t bytes[BYTES];
  size_t text_length, length, at = 0;
  if (count != 4) return 2;
  uint8_t *text = bytes_of(words[1], &text_length), *stream = bytes_of(words[2], &length);
  struct fastcat_set set = {0};
  struct fastcat_answer answer;
  struct fastcat_reader reader = {0};
  struct fastcat_counts all = {0}, waiting, taken;
  if (fastcat_set_new(text, text_length, &set, &answer)) return 2;
  long before = greatest();
  if (fastcat_reader_new(&set, 0, 0, &reader)) return 2;
  while (at < length && strcmp(words[3], "read") == 0) {
    size_t chunk = length - at < CHUNK ? length - at : CHUNK;
    if (fastcat_reader_feed(&reader, stream + at, chunk, &waiting, &answer)) return 1;
    if (fastcat_reader_take(&reader, nodes, NODES, bytes, BYTES, &taken)) return 1;
    at += waiting.used;
    all.messages += taken.messages;
    all.nodes += taken.nodes;
    all.bytes += taken.bytes;
  }
  if (fastcat_reader_finish(&reader, &answer)) return 1;
  printf("%llu %llu %llu %ld\n", (unsigned long long)all.messages, (unsigned long long)all.nodes, (unsigned long long)all.bytes,
         greatest() - before);
  fastcat_reader_free(&reader);
  fastcat_set_free(&set);
  free(text);
  free(stream);
}
