/* Tests of readers and writers as C calls them: test_library_reader examples/worked.json examples/worked.hex NAME.json NAME.hex..,
 * whose streams are read in pieces of several sizes. What is told is held against the fields of the templates, and against what
 * fastcat_set_check counts; what is written, against what fastcat_set_canon writes. */
#include "fastcat.h"

#include <ctype.h>
#include <pthread.h>
#include <stdio.h>
#include <stdlib.h>
#include <string.h>

static unsigned passed, failed;

static void expect(int holds, const char *what) {
  if (holds) {
    passed++;
  } else {
    failed++;
    printf("failed: %s\n", what);
  }
}

/* ---- files */

static uint8_t *read_file(const char *name, size_t *length) {
  FILE *file = fopen(name, "rb");
  static uint8_t bytes[1 << 20];
  if (!file) exit(2);
  *length = fread(bytes, 1, sizeof bytes, file);
  fclose(file);
  uint8_t *copy = malloc(*length + 1);
  if (!copy) exit(2);
  memcpy(copy, bytes, *length);
  return copy;
}

/* The bytes that hex digits stand for, in place. */
static size_t from_hex(uint8_t *text, size_t length) {
  size_t count = 0;
  for (size_t i = 0; i < length; i++) {
    if (isspace(text[i])) continue;
    int digit = isdigit(text[i]) ? text[i] - '0' : tolower(text[i]) - 'a' + 10;
    text[count / 2] = (uint8_t)(count % 2 ? text[count / 2] << 4 | digit : digit);
    count++;
  }
  return count / 2;
}

/* ---- nodes and fields */

static struct fastcat_field fields[1 << 12];
static uint8_t names[1 << 16];
static struct fastcat_sizes sizes;

static const struct fastcat_field *template_of(uint32_t id) {
  for (const struct fastcat_field *f = fields; f < fields + sizes.fields; f = fastcat_next_field(f))
    if (f->optional && f->instruction == id) return f;
  return NULL;
}

static int are_of(const struct fastcat_node *node, const struct fastcat_node *end, const struct fastcat_field *field, uint64_t bytes);

/* A node is of its field, with all that are its own. */
static int is_of(const struct fastcat_node *node, const struct fastcat_field *field, uint64_t bytes) {
  if (node->instruction != field->instruction) return 0;
  if (node->kind == FASTCAT_ABSENT) return field->optional == 1 && node->number == 0 && node->mantissa == 0 && node->length == 0;
  if (node->kind != field->kind) return 0;
  const struct fastcat_node *end = fastcat_next(node);
  switch (node->kind) {
  case FASTCAT_ASCII: case FASTCAT_UNICODE: case FASTCAT_BYTES: return node->number + node->length <= bytes;
  case FASTCAT_GROUP: return are_of(node + 1, end, field, bytes);
  case FASTCAT_SEQUENCE: {
    uint64_t elements = 0;
    for (const struct fastcat_node *e = node + 1; e < end; e = fastcat_next(e), elements++)
      if (e->kind != FASTCAT_ELEMENT || !are_of(e + 1, fastcat_next(e), field, bytes)) return 0;
    return elements == node->number;
  }
  default: return node->length == 0;
  }
}

/* Nodes are of the fields that are a field's own. */
static int are_of(const struct fastcat_node *node, const struct fastcat_node *end, const struct fastcat_field *field, uint64_t bytes) {
  const struct fastcat_field *behind = fastcat_next_field(field);
  for (field++; field < behind; field = fastcat_next_field(field), node = fastcat_next(node))
    if (node >= end || !is_of(node, field, bytes)) return 0;
  return node == end;
}

static uint64_t messages_in(const struct fastcat_node *nodes, const struct fastcat_counts *taken) {
  uint64_t messages = 0;
  const struct fastcat_node *end = nodes + taken->nodes;
  for (const struct fastcat_node *m = nodes; m < end; m = fastcat_next(m), messages++) {
    const struct fastcat_field *t = m->kind == FASTCAT_MESSAGE ? template_of(m->instruction) : NULL;
    if (!t || !are_of(m + 1, fastcat_next(m), t, taken->bytes)) return UINT64_MAX;
  }
  return messages;
}

/* ---- readers */

static int is_empty(const struct fastcat_reader *reader) { return reader->at == NULL && reader->there == 0; }

/* Takes what waits, into rooms that are at first too short, and answers how many messages it is. */
static uint64_t take(struct fastcat_reader *reader, const struct fastcat_counts *waiting) {
  struct fastcat_counts taken;
  struct fastcat_node *nodes = malloc((waiting->nodes + 1) * sizeof *nodes);
  uint8_t *bytes = malloc(waiting->bytes + 1);
  if (!nodes || !bytes) exit(2);
  memset(nodes, 0xaa, (waiting->nodes + 1) * sizeof *nodes);
  memset(bytes, 0xaa, waiting->bytes + 1);
  if (waiting->nodes > 0)
    expect(fastcat_reader_take(reader, nodes, waiting->nodes - 1, bytes, waiting->bytes, &taken) == FASTCAT_ROOM_TOO_SHORT &&
               nodes[0].kind == 0xaaaaaaaa && bytes[0] == 0xaa, "a room that is a node too short");
  if (waiting->bytes > 0)
    expect(fastcat_reader_take(reader, nodes, waiting->nodes, bytes, waiting->bytes - 1, &taken) == FASTCAT_ROOM_TOO_SHORT &&
               nodes[0].kind == 0xaaaaaaaa && bytes[0] == 0xaa, "a room that is a byte too short");
  expect(fastcat_reader_take(reader, nodes, waiting->nodes, bytes, waiting->bytes, &taken) == FASTCAT_DONE &&
             taken.messages == waiting->messages && taken.nodes == waiting->nodes && taken.bytes == waiting->bytes &&
             nodes[waiting->nodes].kind == 0xaaaaaaaa && bytes[waiting->bytes] == 0xaa, "rooms that are just enough");
  uint64_t messages = messages_in(nodes, &taken);
  expect(messages == taken.messages, "each message is of its template");
  expect(fastcat_reader_take(reader, nodes, 0, bytes, 0, &taken) == FASTCAT_DONE && taken.nodes == 0, "nothing waits");
  free(nodes);
  free(bytes);
  return messages;
}

/* Feeds a stream in pieces, and answers how many messages it has. */
static uint64_t messages_of(struct fastcat_reader *reader, const uint8_t *stream, size_t length, size_t step) {
  struct fastcat_counts waiting;
  struct fastcat_answer answer;
  uint64_t messages = 0;
  for (size_t at = 0; at < length; at += (size_t)waiting.used) {
    size_t piece = length - at < step ? length - at : step;
    expect(fastcat_reader_feed(reader, stream + at, piece, &waiting, &answer) == FASTCAT_DONE && answer.status == 0, "a piece");
    messages += take(reader, &waiting);
  }
  expect(fastcat_reader_finish(reader, &answer) == FASTCAT_DONE, "the end of a stream");
  return messages;
}

static void streams(struct fastcat_set *set, const uint8_t *stream, size_t length) {
  struct fastcat_answer answer;
  struct fastcat_reader reader = {0};
  struct fastcat_counts waiting;
  expect(fastcat_set_check(set, 0, stream, length, &answer) == FASTCAT_DONE, "check");
  const uint64_t messages = answer.messages;
  expect(fastcat_reader_new(set, 0, 0, &reader) == FASTCAT_DONE && !is_empty(&reader), "a reader");
  for (size_t step = 1; step <= length; step++) {
    expect(messages_of(&reader, stream, length, step) == messages, "as many messages as check counts");
    expect(fastcat_reader_reset(&reader) == FASTCAT_DONE, "a reset");
  }
  /* A packet is a stream of its own, and can come again. */
  for (int i = 0; i < 2; i++)
    expect(fastcat_reader_packet(&reader, stream, length, &waiting, &answer) == FASTCAT_DONE && waiting.used == length &&
               take(&reader, &waiting) == messages, "a packet");
  /* What is cut is refused at its end, behind the messages before. */
  fastcat_reader_reset(&reader);
  expect(fastcat_reader_feed(&reader, stream, length - 1, &waiting, &answer) == FASTCAT_DONE &&
             take(&reader, &waiting) == messages - 1, "a stream that is cut");
  for (int i = 0; i < 2; i++)
    expect(fastcat_reader_finish(&reader, &answer) == FASTCAT_STREAM_REFUSED && answer.cause == FASTCAT_TRUNCATED &&
               answer.message == messages && answer.messages == messages - 1 && answer.status == FASTCAT_STREAM_REFUSED, "its end");
  expect(fastcat_reader_feed(&reader, stream, length, &waiting, &answer) == FASTCAT_STREAM_REFUSED &&
             answer.cause == FASTCAT_TRUNCATED && waiting.nodes == 0, "behind a fault");
  fastcat_reader_free(&reader);
  expect(is_empty(&reader), "a reader is freed");
  fastcat_reader_free(&reader);
}

/* ---- statuses */

/* A quote whose strings have two bytes; the next one, which repeats them; and a message of a template that is none. */
static const uint8_t quote[] = {0xf0, 0x81, 0x81, 0x41, 0xc2, 0xfe, 0x00, 0xe4};
static const uint8_t next_quote[] = {0x80, 0x80, 0x81}, unknown[] = {0xc0, 0xff};

/* A fault is answered behind the messages before it, and again until the reset. */
static void faults(struct fastcat_set *set) {
  struct fastcat_reader reader = {0};
  struct fastcat_counts waiting;
  struct fastcat_answer answer;
  uint8_t stream[sizeof quote + sizeof unknown];
  memcpy(stream, quote, sizeof quote);
  memcpy(stream + sizeof quote, unknown, sizeof unknown);
  expect(fastcat_reader_new(set, FASTCAT_STRICT, 0, &reader) == FASTCAT_DONE, "a strict reader");
  for (uint64_t turn = 0; turn < 2; turn++)
    expect(fastcat_reader_feed(&reader, stream, sizeof stream, &waiting, &answer) == FASTCAT_STREAM_REFUSED &&
               answer.cause == FASTCAT_D9 && answer.message == 2 && answer.messages == 1 && answer.offset == 9 &&
               waiting.messages == 1 && waiting.used == 0, "a fault, and the message before it");
  expect(take(&reader, &waiting) == 1, "the message before a fault");
  expect(fastcat_reader_finish(&reader, &answer) == FASTCAT_STREAM_REFUSED && answer.cause == FASTCAT_D9, "a fault is kept");
  expect(fastcat_reader_reset(&reader) == FASTCAT_DONE, "a reset");
  expect(fastcat_reader_feed(&reader, quote, sizeof quote, &waiting, &answer) == FASTCAT_DONE && waiting.messages == 1, "behind a reset");
  /* (2^40 bytes more than those before are refused unread, and that is not kept) */
  expect(fastcat_reader_feed(&reader, quote, (size_t)1 << 40, &waiting, &answer) == FASTCAT_STREAM_TOO_LONG && waiting.messages == 1 &&
             answer.status == FASTCAT_STREAM_TOO_LONG && answer.message == 0, "a stream that is too long");
  expect(fastcat_reader_feed(&reader, next_quote, sizeof next_quote, &waiting, &answer) == FASTCAT_DONE && waiting.messages == 2,
         "behind what is too long");
  /* what waits is forgotten by a reset, and stays by a packet that is refused */
  fastcat_reader_reset(&reader);
  expect(fastcat_reader_packet(&reader, quote, sizeof quote, &waiting, &answer) == FASTCAT_DONE && waiting.messages == 1, "a packet");
  expect(fastcat_reader_packet(&reader, stream, sizeof stream, &waiting, &answer) == FASTCAT_STREAM_REFUSED &&
             answer.message == 2 && waiting.messages == 2, "a packet that is refused");
  expect(fastcat_reader_packet(&reader, quote, sizeof quote, &waiting, &answer) == FASTCAT_DONE && waiting.messages == 3 &&
             take(&reader, &waiting) == 3, "the packet behind it");
  expect(fastcat_reader_packet(&reader, quote, sizeof quote - 1, &waiting, &answer) == FASTCAT_STREAM_REFUSED &&
             answer.cause == FASTCAT_TRUNCATED && waiting.messages == 0, "a packet that is cut");
  fastcat_reader_free(&reader);
}

/* Two quotes have two bytes of strings each, and a reader of one byte takes none. */
static void too_large(struct fastcat_set *set) {
  struct fastcat_reader reader = {0};
  struct fastcat_counts waiting;
  struct fastcat_answer answer;
  expect(fastcat_reader_new(set, 0, 2, &reader) == FASTCAT_DONE &&
             fastcat_reader_feed(&reader, quote, sizeof quote, &waiting, &answer) == FASTCAT_DONE && waiting.bytes == 2, "two bytes");
  /* (what the handle had is freed) */
  expect(fastcat_reader_new(set, 0, 1, &reader) == FASTCAT_DONE, "a reader in the place of another");
  for (int turn = 0; turn < 2; turn++)
    expect(fastcat_reader_feed(&reader, quote, sizeof quote, &waiting, &answer) == FASTCAT_MESSAGE_TOO_LARGE &&
               answer.status == FASTCAT_MESSAGE_TOO_LARGE && answer.message == 1 && answer.cause == FASTCAT_NO_CAUSE &&
               waiting.messages == 0, "a message that is too large");
  expect(fastcat_reader_finish(&reader, &answer) == FASTCAT_MESSAGE_TOO_LARGE, "it is kept");
  fastcat_reader_free(&reader);
}

/* Sizes of packets, as docs/FORMAT.md says it under "Recordings": of each its bytes, and what is told of it in a mode. */
static const struct {
  uint32_t mode;
  size_t length;
  uint8_t bytes[12];
  uint32_t status, cause;
  uint64_t used, size;
} sized[] = {
    {0, 1, {0x81}, FASTCAT_DONE, 0, 1, 1},
    {FASTCAT_STRICT, 3, {0xff, 0x80, 0x80}, FASTCAT_DONE, 0, 1, 127},
    {FASTCAT_STRICT, 2, {0x01, 0x80}, FASTCAT_DONE, 0, 2, 128},
    {FASTCAT_STRICT, 3, {0x03, 0x7f, 0xff}, FASTCAT_DONE, 0, 3, 65535},
    {0, 3, {0x04, 0x00, 0x80}, FASTCAT_STREAM_REFUSED, FASTCAT_LIMIT, 0, 0},
    {0, 10, {0x7f, 0x7f, 0x7f, 0x7f, 0x7f, 0x7f, 0x7f, 0x7f, 0x7f, 0xff}, FASTCAT_STREAM_REFUSED, FASTCAT_LIMIT, 0, 0},
    {0, 1, {0x80}, FASTCAT_STREAM_REFUSED, FASTCAT_D12, 0, 0},
    {0, 2, {0x00, 0x80}, FASTCAT_STREAM_REFUSED, FASTCAT_D12, 0, 0},
    {FASTCAT_STRICT, 2, {0x00, 0x80}, FASTCAT_STREAM_REFUSED, FASTCAT_R6, 0, 0},
    {0, 2, {0x00, 0x85}, FASTCAT_DONE, 0, 2, 5},
    {FASTCAT_STRICT, 2, {0x00, 0x85}, FASTCAT_STREAM_REFUSED, FASTCAT_R6, 0, 0},
    {0, 11, {0, 0, 0, 0, 0, 0, 0, 0, 0, 0x88, 0xff}, FASTCAT_DONE, 0, 10, 8},
    {0, 11, {0, 0, 0, 0, 0, 0, 0, 0, 0, 0, 0x88}, FASTCAT_STREAM_REFUSED, FASTCAT_LIMIT, 0, 0},
    {FASTCAT_STRICT, 10, {0}, FASTCAT_STREAM_REFUSED, FASTCAT_LIMIT, 0, 0},
    {FASTCAT_STRICT, 9, {0}, FASTCAT_STREAM_REFUSED, FASTCAT_TRUNCATED, 0, 0},
    {0, 2, {0x03, 0x7f}, FASTCAT_STREAM_REFUSED, FASTCAT_TRUNCATED, 0, 0},
    {0, 0, {0}, FASTCAT_STREAM_REFUSED, FASTCAT_TRUNCATED, 0, 0},
    {FASTCAT_BLOCKS, 1, {0x81}, FASTCAT_UNKNOWN_MODE, 0, 0, 0},
    {FASTCAT_PACKETS, 1, {0x81}, FASTCAT_UNKNOWN_MODE, 0, 0, 0},
};

static void sizes_of_packets(void) {
  for (size_t i = 0; i < sizeof sized / sizeof *sized; i++) {
    struct fastcat_counts packet;
    struct fastcat_answer answer, wanted = {0};
    /* (no more than the length is looked at) */
    uint8_t *bytes = malloc(sized[i].length + 1);
    if (!bytes) exit(2);
    memcpy(bytes, sized[i].bytes, sized[i].length);
    bytes = realloc(bytes, sized[i].length ? sized[i].length : 1);
    memset(&packet, 0xaa, sizeof packet);
    memset(&answer, 0xaa, sizeof answer);
    wanted.status = sized[i].status;
    wanted.cause = sized[i].cause;
    wanted.message = sized[i].status == FASTCAT_STREAM_REFUSED;
    expect(fastcat_packet_size(sized[i].mode, bytes, sized[i].length, &packet, &answer) == sized[i].status &&
               memcmp(&answer, &wanted, sizeof answer) == 0, "what is answered of a size");
    expect(packet.used == sized[i].used && packet.bytes == sized[i].size && packet.messages == 0 && packet.nodes == 0, "a size");
    free(bytes);
  }
}

/* A recording is read packet by packet. */
static void recordings(struct fastcat_set *set) {
  static const uint8_t recording[] = {0x88, 0xf0, 0x81, 0x81, 0x41, 0xc2, 0xfe, 0x00, 0xe4, 0x00, 0x88, 0xf0, 0x81, 0x81,
                                      0x41, 0xc2, 0xfe, 0x00, 0xe4, 0x80};
  struct fastcat_reader reader = {0};
  struct fastcat_counts packet, waiting;
  struct fastcat_answer answer;
  size_t at = 0;
  uint64_t messages = 0;
  expect(fastcat_reader_new(set, 0, 0, &reader) == FASTCAT_DONE, "a reader");
  while (fastcat_packet_size(0, recording + at, sizeof recording - at, &packet, &answer) == FASTCAT_DONE) {
    at += (size_t)packet.used;
    expect(fastcat_reader_packet(&reader, recording + at, (size_t)packet.bytes, &waiting, &answer) == FASTCAT_DONE, "its packet");
    messages += take(&reader, &waiting);
    at += (size_t)packet.bytes;
  }
  expect(messages == 2 && at == 19 && answer.cause == FASTCAT_D12, "two packets, and a size of zero");
  fastcat_reader_free(&reader);
}

/* A chunk that ends 100,000 messages is taken in several turns. */
static void much(struct fastcat_set *set) {
  enum { MANY = 100000 };
  struct fastcat_reader reader = {0};
  struct fastcat_counts waiting, taken;
  struct fastcat_answer answer;
  struct fastcat_node *nodes = malloc((1 << 17) * sizeof *nodes);
  size_t length = sizeof quote + (MANY - 1) * sizeof next_quote, at = 0;
  uint8_t *stream = malloc(length), bytes[16];
  if (!nodes || !stream) exit(2);
  memcpy(stream, quote, sizeof quote);
  for (size_t i = sizeof quote; i < length; i++) stream[i] = next_quote[(i - sizeof quote) % sizeof next_quote];
  expect(fastcat_reader_new(set, 0, 0, &reader) == FASTCAT_DONE, "a reader");
  uint64_t messages = 0, turns = 0;
  for (; at < length; turns++) {
    if (fastcat_reader_feed(&reader, stream + at, length - at, &waiting, &answer) != FASTCAT_DONE || waiting.used == 0) break;
    expect(waiting.nodes >= 65536 || at + waiting.used == length, "a call stops where 65,536 nodes wait");
    struct fastcat_counts full;
    expect(at + waiting.used == length ||
               (fastcat_reader_feed(&reader, stream + at + waiting.used, length - at - waiting.used, &full, &answer) == FASTCAT_DONE &&
                full.used == 0 && full.nodes == waiting.nodes), "nothing more is taken of a chunk");
    at += (size_t)waiting.used;
    uint8_t *room = malloc(waiting.bytes);
    expect(fastcat_reader_take(&reader, nodes, 1 << 17, bytes, 0, &taken) == FASTCAT_ROOM_TOO_SHORT && taken.nodes == waiting.nodes &&
               taken.messages == waiting.messages && taken.bytes == waiting.bytes, "what waits is told of rooms that are too short");
    expect(room && fastcat_reader_take(&reader, nodes, 1 << 17, room, waiting.bytes, &taken) == FASTCAT_DONE, "it is taken");
    messages += taken.messages;
    expect(nodes[1].number == messages - taken.messages + 1, "the first of them");
    free(room);
  }
  expect(at == length && messages == MANY && turns > 3, "all of a chunk");
  expect(fastcat_reader_finish(&reader, &answer) == FASTCAT_DONE, "its end");
  fastcat_reader_free(&reader);
  free(stream);
  free(nodes);
}

/* ---- writers */

static uint8_t written[1 << 16], canonical[1 << 16];

/* Reads a stream in pieces, and writes its messages again: their canonical bytes. */
static void written_again(struct fastcat_set *set, const uint8_t *stream, size_t length, size_t step) {
  struct fastcat_reader reader = {0};
  struct fastcat_writer writer = {0};
  struct fastcat_counts waiting, taken;
  struct fastcat_answer answer;
  static struct fastcat_node nodes[1 << 12];
  static uint8_t bytes[1 << 12];
  size_t count = 0;
  expect(fastcat_set_canon(set, 0, stream, length, canonical, sizeof canonical, &answer) == FASTCAT_DONE, "canon");
  const size_t wanted = (size_t)answer.written;
  expect(fastcat_reader_new(set, 0, 0, &reader) == FASTCAT_DONE && fastcat_writer_new(set, &writer) == FASTCAT_DONE, "a writer");
  for (size_t at = 0; at < length; at += (size_t)waiting.used) {
    size_t piece = length - at < step ? length - at : step;
    expect(fastcat_reader_feed(&reader, stream + at, piece, &waiting, &answer) == FASTCAT_DONE &&
               fastcat_reader_take(&reader, nodes, 1 << 12, bytes, 1 << 12, &taken) == FASTCAT_DONE, "a piece to write again");
    struct fastcat_counts put;
    expect(fastcat_writer_put(&writer, nodes, (size_t)taken.nodes, bytes, (size_t)taken.bytes, &put, &answer) == FASTCAT_DONE &&
               put.used == taken.nodes && put.messages == taken.messages && answer.messages == taken.messages, "messages are put");
    written[count] = 0xaa;
    if (put.bytes > 0)
      expect(fastcat_writer_take(&writer, written + count, (size_t)put.bytes - 1, &taken) == FASTCAT_ROOM_TOO_SHORT &&
                 taken.bytes == put.bytes && written[count] == 0xaa, "a room that is a byte too short");
    /* (what waits may stay) */
    if (at % 2 == 0) {
      expect(fastcat_writer_take(&writer, written + count, (size_t)put.bytes, &taken) == FASTCAT_DONE && taken.bytes == put.bytes, "bytes");
      count += (size_t)taken.bytes;
    }
  }
  expect(fastcat_writer_take(&writer, written + count, sizeof written - count, &taken) == FASTCAT_DONE, "the last bytes");
  count += (size_t)taken.bytes;
  expect(count == wanted && memcmp(written, canonical, wanted) == 0, "the canonical bytes");
  fastcat_reader_free(&reader);
  fastcat_writer_free(&writer);
  expect(writer.at == NULL && writer.there == 0, "a writer is freed");
  fastcat_writer_free(&writer);
}

/* A message of Const, whose constant is 7, and one of Wrap, of two numbers; the numbers of fields are not looked at. */
static const struct fastcat_node constant[] = {{FASTCAT_MESSAGE, 14, 0, 0, 3, 0}, {FASTCAT_UINT32, 0, 7, 0, 0, 0},
                                               {FASTCAT_ABSENT, 0, 0, 0, 0, 0}, {FASTCAT_UINT32, 0, 3, 0, 0, 0}},
                                 wrap[] = {{FASTCAT_MESSAGE, 2, 0, 0, 2, 0}, {FASTCAT_UINT32, 0, 1, 0, 0, 0},
                                           {FASTCAT_UINT32, 9, 5, 0, 0, 0}};

static uint32_t put(struct fastcat_writer *writer, const struct fastcat_node *nodes, size_t length, struct fastcat_counts *counts,
                    struct fastcat_answer *answer) {
  return fastcat_writer_put(writer, nodes, length, NULL, 0, counts, answer);
}

/* A message that is refused leaves nothing behind, and those before it stay. */
static void refused(struct fastcat_set *set) {
  struct fastcat_writer writer = {0};
  struct fastcat_counts counts;
  struct fastcat_answer answer;
  struct fastcat_node nodes[7];
  memcpy(nodes, wrap, sizeof wrap);
  memcpy(nodes + 3, constant, sizeof constant);
  expect(fastcat_writer_new(set, &writer) == FASTCAT_DONE && put(&writer, nodes, 7, &counts, &answer) == FASTCAT_DONE &&
             counts.messages == 2 && counts.used == 7, "two messages");
  const uint64_t both_bytes = counts.bytes;
  expect(fastcat_writer_reset(&writer) == FASTCAT_DONE && put(&writer, wrap, 3, &counts, &answer) == FASTCAT_DONE, "a message");
  const uint64_t one_bytes = counts.bytes;
  nodes[4].number = 8;
  fastcat_writer_reset(&writer);
  expect(put(&writer, nodes, 7, &counts, &answer) == FASTCAT_LINE_REFUSED && answer.cause == FASTCAT_NOT_CONSTANT && answer.message == 2 &&
             answer.template_id == 14 && answer.instruction == 1 && counts.used == 3 && counts.messages == 1 &&
             counts.bytes == one_bytes, "a constant that is another");
  nodes[4].number = 7;
  expect(put(&writer, nodes + 3, 4, &counts, &answer) == FASTCAT_DONE && counts.bytes == both_bytes, "the message put right");
  fastcat_writer_reset(&writer);
  /* lengths that are wrong, a node of another kind, one that is missing, and no message at all */
  static const struct { size_t node; uint32_t kind, length, cause; } wrong[] = {
      {0, FASTCAT_MESSAGE, 1, FASTCAT_MISMATCH}, {0, FASTCAT_MESSAGE, 3, FASTCAT_NO_CAUSE}, {0, FASTCAT_ELEMENT, 2, FASTCAT_NO_CAUSE},
      {1, FASTCAT_INT32, 0, FASTCAT_MISMATCH}, {2, FASTCAT_ABSENT, 0, FASTCAT_MISMATCH}, {1, 99, 0, FASTCAT_MISMATCH}};
  for (size_t i = 0; i < sizeof wrong / sizeof *wrong; i++) {
    memcpy(nodes, wrap, sizeof wrap);
    nodes[wrong[i].node].kind = wrong[i].kind;
    nodes[wrong[i].node].length = wrong[i].length;
    uint32_t status = wrong[i].cause == FASTCAT_NO_CAUSE ? FASTCAT_NO_MESSAGE : FASTCAT_LINE_REFUSED;
    expect(put(&writer, nodes, 3, &counts, &answer) == status && answer.status == status && answer.cause == wrong[i].cause &&
               answer.message == 1 && counts.used == 0 && counts.bytes == 0, "nodes that are no message of a template");
  }
  memcpy(nodes, wrap, sizeof wrap);
  expect(put(&writer, nodes, 2, &counts, &answer) == FASTCAT_NO_MESSAGE && counts.bytes == 0, "a node is missing");
  nodes[0].instruction = 99;
  expect(put(&writer, nodes, 3, &counts, &answer) == FASTCAT_LINE_REFUSED && answer.cause == FASTCAT_D9 && answer.template_id == 99,
         "no template");
  expect(put(&writer, nodes, 0, &counts, &answer) == FASTCAT_DONE && counts.messages == 0, "no nodes");
  /* a string that lies outside its bytes */
  const struct fastcat_node outside[] = {{FASTCAT_MESSAGE, 10, 0, 0, 1, 0}, {FASTCAT_ASCII, 1, 1, 0, 2, 0}};
  expect(fastcat_writer_put(&writer, outside, 2, (const uint8_t *)"xy", 2, &counts, &answer) == FASTCAT_LINE_REFUSED &&
             answer.cause == FASTCAT_MISMATCH && counts.bytes == 0, "a string outside");
  expect(fastcat_writer_put(&writer, outside, 2, (const uint8_t *)"xyz", 3, &counts, &answer) == FASTCAT_DONE && counts.messages == 1,
         "a string within");
  fastcat_writer_free(&writer);
}

static void handles(struct fastcat_set *set) {
  struct fastcat_reader none = {0};
  struct fastcat_set nothing = {0};
  struct fastcat_counts counts;
  struct fastcat_answer answer;
  expect(fastcat_reader_new(&nothing, 0, 0, &none) == FASTCAT_WRONG_HANDLE && is_empty(&none), "a reader of no set");
  expect(fastcat_reader_new(set, 4, 0, &none) == FASTCAT_UNKNOWN_MODE && is_empty(&none), "a reader in an unknown mode");
  expect(fastcat_reader_feed(&none, NULL, 0, &counts, &answer) == FASTCAT_WRONG_HANDLE, "no reader is fed");
  expect(fastcat_reader_packet(&none, NULL, 0, &counts, &answer) == FASTCAT_WRONG_HANDLE, "no reader takes a packet");
  expect(fastcat_reader_take(&none, NULL, 0, NULL, 0, &counts) == FASTCAT_WRONG_HANDLE, "nothing is taken of no reader");
  expect(fastcat_reader_finish(&none, &answer) == FASTCAT_WRONG_HANDLE, "no reader is finished");
  expect(fastcat_reader_reset(&none) == FASTCAT_WRONG_HANDLE && is_empty(&none), "no reader is reset");
  struct fastcat_writer no_writer = {0};
  uint8_t byte;
  expect(fastcat_writer_new(&nothing, &no_writer) == FASTCAT_WRONG_HANDLE && no_writer.at == NULL, "a writer of no set");
  expect(put(&no_writer, wrap, 3, &counts, &answer) == FASTCAT_WRONG_HANDLE && counts.used == 0, "no writer is put to");
  expect(fastcat_writer_take(&no_writer, &byte, 1, &counts) == FASTCAT_WRONG_HANDLE && counts.bytes == 0, "no writer is taken from");
  expect(fastcat_writer_reset(&no_writer) == FASTCAT_WRONG_HANDLE && no_writer.at == NULL, "no writer is reset");
}

/* A reader and a writer have shares of the templates of their own, in whatever order the handles are freed. */
static void shares(const uint8_t *text, size_t length) {
  for (int first = 0; first < 3; first++) {
    struct fastcat_set set = {0};
    struct fastcat_reader reader = {0};
    struct fastcat_writer writer = {0};
    struct fastcat_counts counts;
    struct fastcat_answer answer;
    expect(fastcat_set_new(text, length, &set, &answer) == FASTCAT_DONE && fastcat_reader_new(&set, 0, 0, &reader) == FASTCAT_DONE &&
               fastcat_writer_new(&set, &writer) == FASTCAT_DONE, "a reader and a writer of a set");
    if (first == 0) fastcat_set_free(&set);
    expect(fastcat_reader_feed(&reader, quote, sizeof quote, &counts, &answer) == FASTCAT_DONE && counts.messages == 1, "a reader's share");
    if (first == 1) fastcat_reader_free(&reader);
    expect(put(&writer, wrap, 3, &counts, &answer) == FASTCAT_DONE && counts.messages == 1, "a writer's share");
    if (first == 2) fastcat_writer_free(&writer);
    fastcat_set_free(&set);
    fastcat_writer_free(&writer);
    fastcat_reader_free(&reader);
  }
}

/* A set is no reader, and a reader no set: both are as they were. */
static void kinds(struct fastcat_set *set) {
  struct fastcat_reader reader = {0}, of_set;
  struct fastcat_set of_reader, other = {0};
  struct fastcat_sizes none;
  struct fastcat_counts counts;
  struct fastcat_answer answer;
  struct fastcat_node node;
  uint8_t byte;
  expect(fastcat_reader_new(set, FASTCAT_BLOCKS, 0, &reader) == FASTCAT_DONE, "a reader of blocks");
  /* (a handle is moved, and back) */
  of_set.at = set->at, of_set.there = set->there;
  of_reader.at = reader.at, of_reader.there = reader.there;
  expect(fastcat_reader_feed(&of_set, quote, sizeof quote, &counts, &answer) == FASTCAT_WRONG_HANDLE &&
             answer.status == FASTCAT_WRONG_HANDLE && counts.used == 0 && counts.messages == 0, "a set is fed");
  expect(fastcat_reader_packet(&of_set, quote, sizeof quote, &counts, &answer) == FASTCAT_WRONG_HANDLE, "a set takes a packet");
  expect(fastcat_reader_take(&of_set, &node, 1, &byte, 1, &counts) == FASTCAT_WRONG_HANDLE && counts.nodes == 0, "a set is taken from");
  expect(fastcat_reader_finish(&of_set, &answer) == FASTCAT_WRONG_HANDLE, "a set is finished");
  struct fastcat_writer as_writer;
  as_writer.at = of_reader.at, as_writer.there = of_reader.there;
  expect(put(&as_writer, wrap, 3, &counts, &answer) == FASTCAT_WRONG_HANDLE && counts.used == 0, "a reader is put to");
  expect(fastcat_writer_reset(&as_writer) == FASTCAT_WRONG_HANDLE, "a reader is reset as a writer");
  of_reader.at = as_writer.at, of_reader.there = as_writer.there;
  expect(fastcat_reader_reset(&of_set) == FASTCAT_WRONG_HANDLE, "a set is reset");
  set->at = of_set.at, set->there = of_set.there;
  expect(fastcat_set_check(set, 0, quote, sizeof quote, &answer) == FASTCAT_DONE && answer.messages == 1, "a set as it was");
  expect(fastcat_set_check(&of_reader, 0, quote, sizeof quote, &answer) == FASTCAT_WRONG_HANDLE, "a reader checks");
  expect(fastcat_set_share(&of_reader, &other) == FASTCAT_WRONG_HANDLE && other.at == NULL, "a reader is shared");
  expect(fastcat_set_fields(&of_reader, NULL, 0, NULL, 0, &none) == FASTCAT_WRONG_HANDLE, "a reader has no fields");
  reader.at = of_reader.at, reader.there = of_reader.there;
  static const uint8_t block[] = {0x88, 0xf0, 0x81, 0x81, 0x41, 0xc2, 0xfe, 0x00, 0xe4};
  expect(fastcat_reader_feed(&reader, block, sizeof block, &counts, &answer) == FASTCAT_DONE && take(&reader, &counts) == 1,
         "a reader as it was");
  fastcat_reader_free(&reader);
}

/* ---- threads */

static const uint8_t *shared_stream;
static size_t shared_length;

/* Reads the stream often with a reader of its own, and answers how many messages it had. */
static void *in_a_thread(void *given) {
  static uint64_t none;
  struct fastcat_set *set = given;
  struct fastcat_reader reader = {0};
  struct fastcat_counts waiting, taken;
  struct fastcat_answer answer;
  struct fastcat_node *nodes = malloc((1 << 17) * sizeof *nodes);
  uint8_t *bytes = malloc(1 << 21);
  uint64_t *messages = calloc(1, sizeof *messages);
  if (!nodes || !bytes || !messages || fastcat_reader_new(set, 0, 0, &reader) != FASTCAT_DONE) return &none;
  fastcat_set_free(set);
  for (int turn = 0; turn < 50; turn++) {
    for (size_t at = 0; at < shared_length; at += (size_t)waiting.used) {
      size_t piece = shared_length - at < 5 ? shared_length - at : 5;
      if (fastcat_reader_feed(&reader, shared_stream + at, piece, &waiting, &answer) != FASTCAT_DONE) break;
      if (fastcat_reader_take(&reader, nodes, 1 << 17, bytes, 1 << 21, &taken) != FASTCAT_DONE) break;
      if (messages_in(nodes, &taken) == taken.messages) *messages += taken.messages;
    }
    if (fastcat_reader_finish(&reader, &answer) != FASTCAT_DONE) *messages = 0;
    fastcat_reader_reset(&reader);
  }
  fastcat_reader_free(&reader);
  free(nodes);
  free(bytes);
  return messages;
}

static void threads(struct fastcat_set *set, const uint8_t *stream, size_t length) {
  struct fastcat_set shares[2] = {{0}, {0}};
  struct fastcat_answer answer;
  pthread_t running[2];
  shared_stream = stream;
  shared_length = length;
  expect(fastcat_set_check(set, 0, stream, length, &answer) == FASTCAT_DONE, "check");
  for (int i = 0; i < 2; i++)
    expect(fastcat_set_share(set, &shares[i]) == FASTCAT_DONE &&
               pthread_create(&running[i], NULL, in_a_thread, &shares[i]) == 0, "a thread");
  for (int i = 0; i < 2; i++) {
    void *messages = NULL;
    expect(pthread_join(running[i], &messages) == 0 && *(uint64_t *)messages == 50 * answer.messages, "a thread over a share");
    free(messages);
  }
}

int main(int count, char **words) {
  if (count < 3 || count % 2 == 0) {
    fprintf(stderr, "use: test_library_reader examples/worked.json examples/worked.hex NAME.json NAME.hex..\n");
    return 2;
  }
  for (int i = 1; i < count; i += 2) {
    struct fastcat_set set = {0};
    struct fastcat_answer answer;
    size_t templates_length, length;
    uint8_t *templates = read_file(words[i], &templates_length), *stream = read_file(words[i + 1], &length);
    length = from_hex(stream, length);
    expect(fastcat_set_new(templates, templates_length, &set, &answer) == FASTCAT_DONE, "a set");
    expect(fastcat_set_fields(&set, fields, sizeof fields / sizeof *fields, names, sizeof names, &sizes) == FASTCAT_DONE, "fields");
    streams(&set, stream, length);
    handles(&set);
    threads(&set, stream, length);
    static const size_t steps[] = {1, 2, 7, 1 << 16};
    for (size_t at = 0; at < sizeof steps / sizeof *steps; at++) written_again(&set, stream, length, steps[at]);
    /* (the worked templates come first) */
    if (i == 1) {
      faults(&set);
      shares(templates, templates_length);
      too_large(&set);
      much(&set);
      kinds(&set);
      refused(&set);
      sizes_of_packets();
      recordings(&set);
    }
    fastcat_set_free(&set);
    free(templates);
    free(stream);
  }
  printf("C, readers and writers: %u passed, %u failed\n", passed, failed);
  return failed != 0;
}
