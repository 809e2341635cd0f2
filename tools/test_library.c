/* Tests of the library as C calls it: test_library examples/worked.json tools/causes.txt. Expected values are those of README.md and
 * docs/FORMAT.md. */
#include "fastcat.h"

#include <ctype.h>
#include <pthread.h>
#include <stdio.h>
#include <stdlib.h>
#include <string.h>

static unsigned passed, failed;

static void expect(int holds, const char *what) {
  if (holds) {
    passed++;
  } else {
    failed++;
    printf("failed: %s\n", what);
  }
}

static uint8_t templates[1 << 16];
static size_t templates_length;

static const uint8_t one[] = {0xf0, 0x81, 0x81, 0x41, 0xc2, 0xfe, 0x00, 0xe4};
static const uint8_t overlong[] = {0xf0, 0x81, 0x00, 0x81, 0x41, 0xc2, 0xfe, 0x00, 0xe4};
static const uint8_t spelled_out[] = {0xf0, 0x81, 0x81, 0x41, 0xc2, 0xfe, 0x00, 0xe4,
                                      0xf8, 0x81, 0x82, 0x41, 0xc2, 0x80, 0x81, 0x80};
static const uint8_t canonical[] = {0xf0, 0x81, 0x81, 0x41, 0xc2, 0xfe, 0x00, 0xe4, 0x80, 0x80, 0x81};
static const uint8_t cut[] = {0xf0, 0x81, 0x81, 0x41, 0xc2, 0xfe, 0x00, 0xe4, 0x80};
static const uint8_t block[] = {0x88, 0xf0, 0x81, 0x81, 0x41, 0xc2, 0xfe, 0x00, 0xe4};
/* Two packets, the second behind a size of two bytes, and their canonical recording. */
static const uint8_t two_packets[] = {0x88, 0xf0, 0x81, 0x81, 0x41, 0xc2, 0xfe, 0x00, 0xe4,
                                      0x00, 0x88, 0xf0, 0x81, 0x81, 0x41, 0xc2, 0xfe, 0x00, 0xe4};
static const uint8_t canonical_packets[] = {0x88, 0xf0, 0x81, 0x81, 0x41, 0xc2, 0xfe, 0x00, 0xe4,
                                            0x88, 0xf0, 0x81, 0x81, 0x41, 0xc2, 0xfe, 0x00, 0xe4};
#define FIELDS "\"template\":\"Quote\",\"id\":1,\"fields\":{\"Seq\":1,\"Sym\":\"AB\",\"Px\":100e-2,\"Qty\":null}}\n"
static const char json[] = "{" FIELDS;
static const char packet_lines[] = "{\"packet\":1," FIELDS "{\"packet\":2," FIELDS;
static const char line[] = "1 Quote Seq=1 Sym=\"AB\" Px=100e-2 Qty=-\n";

/* All fields of an answer, so that none keeps what was there before. */
static int says(const struct fastcat_answer *a, uint32_t status, uint64_t messages, uint64_t read, uint64_t written,
                uint32_t cause, uint64_t message, uint64_t offset, uint32_t template_id, uint32_t instruction) {
  return a->status == status && a->messages == messages && a->read == read && a->written == written &&
         a->cause == cause && a->message == message && a->offset == offset && a->template_id == template_id &&
         a->instruction == instruction;
}

/* ---- a call with the text of templates, and with a set of them */

enum command { CANON, CHECK, SHOW, WRITE };

static uint32_t of_text(enum command command, const uint8_t *text, size_t text_length, uint32_t mode, const uint8_t *bytes,
                        size_t length, uint8_t *out, size_t out_length, struct fastcat_answer *a) {
  switch (command) {
  case CANON: return fastcat_canon(text, text_length, mode, bytes, length, out, out_length, a);
  case CHECK: return fastcat_check(text, text_length, mode, bytes, length, a);
  case SHOW: return fastcat_show(text, text_length, mode, bytes, length, out, out_length, a);
  default: return fastcat_write(text, text_length, mode, bytes, length, out, out_length, a);
  }
}

static uint32_t of_set(enum command command, struct fastcat_set *set, uint32_t mode, const uint8_t *bytes, size_t length,
                       uint8_t *out, size_t out_length, struct fastcat_answer *a) {
  switch (command) {
  case CANON: return fastcat_set_canon(set, mode, bytes, length, out, out_length, a);
  case CHECK: return fastcat_set_check(set, mode, bytes, length, a);
  case SHOW: return fastcat_set_show(set, mode, bytes, length, out, out_length, a);
  default: return fastcat_set_write(set, mode, bytes, length, out, out_length, a);
  }
}

static int is_empty(const struct fastcat_set *set) { return set->at == NULL && set->there == 0; }

/* The call with a set of the text, or the refusal of the text, writes and answers what the call with the text does. */
static uint32_t both(enum command command, const uint8_t *text, size_t text_length, uint32_t mode, const uint8_t *bytes,
                     size_t length, uint8_t *out, size_t out_length, struct fastcat_answer *answer) {
  static uint8_t other[1024];
  struct fastcat_set set = {0};
  struct fastcat_answer a;
  if (out_length > 0) memcpy(other, out, out_length);
  uint32_t status = of_text(command, text, text_length, mode, bytes, length, out, out_length, answer);
  memset(&a, 0x55, sizeof a);
  if (fastcat_set_new(text, text_length, &set, &a) == FASTCAT_DONE) {
    expect(says(&a, 0, 0, 0, 0, 0, 0, 0, 0, 0) && !is_empty(&set), "a set is made");
    memset(&a, 0x55, sizeof a);
    expect(of_set(command, &set, mode, bytes, length, other, out_length, &a) == status, "a set's status");
  }
  expect(memcmp(&a, answer, sizeof a) == 0, "a set's answer");
  expect(out_length == 0 || memcmp(other, out, out_length) == 0, "what is written with a set");
  fastcat_set_free(&set);
  expect(is_empty(&set), "a set is freed");
  return status;
}

static uint8_t room[512];

static uint32_t canon(const uint8_t *stream, size_t length, uint32_t mode, size_t room_length,
                      struct fastcat_answer *answer) {
  memset(room, 0xaa, sizeof room);
  memset(answer, 0xaa, sizeof *answer);
  return both(CANON, templates, templates_length, mode, stream, length, room, room_length, answer);
}

/* The room holds these bytes, and behind them what was there before. */
static int holds(const void *bytes, size_t length) {
  for (size_t i = length; i < sizeof room; i++)
    if (room[i] != 0xaa) return 0;
  return memcmp(room, bytes, length) == 0;
}

static void streams(void) {
  struct fastcat_answer a;
  expect(canon(spelled_out, sizeof spelled_out, 0, sizeof room, &a) == FASTCAT_DONE && says(&a, 0, 2, 16, 11, 0, 0, 0, 0, 0) &&
             holds(canonical, 11), "canon of two messages");
  expect(canon(spelled_out, sizeof spelled_out, 0, 11, &a) == FASTCAT_DONE && holds(canonical, 11), "a room that is just enough");
  expect(canon(spelled_out, sizeof spelled_out, 0, 10, &a) == FASTCAT_ROOM_TOO_SHORT && says(&a, 3, 0, 0, 11, 0, 0, 0, 0, 0) &&
             holds("", 0), "a room that is one byte too short");
  expect(canon(overlong, sizeof overlong, 0, sizeof room, &a) == FASTCAT_DONE && says(&a, 0, 1, 9, 8, 0, 0, 0, 0, 0) &&
             holds(one, 8), "an overlong integer");
  expect(canon(overlong, sizeof overlong, FASTCAT_STRICT, sizeof room, &a) == FASTCAT_STREAM_REFUSED &&
             says(&a, 1, 0, 0, 0, FASTCAT_R6, 1, 2, 1, 1) && holds("", 0), "an overlong integer at the strict level");
  expect(canon(cut, sizeof cut, 0, sizeof room, &a) == FASTCAT_STREAM_REFUSED &&
             says(&a, 1, 1, 0, 8, FASTCAT_TRUNCATED, 2, 9, 1, 3) && holds(one, 8), "a stream that is cut");
  expect(canon(cut, sizeof cut, 0, 7, &a) == FASTCAT_ROOM_TOO_SHORT && says(&a, 3, 0, 0, 8, 0, 0, 0, 0, 0) && holds("", 0),
         "a stream that is cut, and a short room");
  expect(canon(block, sizeof block, FASTCAT_BLOCKS, sizeof room, &a) == FASTCAT_DONE && says(&a, 0, 1, 9, 8, 0, 0, 0, 0, 0) &&
             holds(one, 8), "a block");
  expect(canon(block, sizeof block, FASTCAT_BLOCKS | FASTCAT_STRICT, sizeof room, &a) == FASTCAT_DONE && holds(one, 8),
         "a block at the strict level");
  expect(canon(one, sizeof one, 16, sizeof room, &a) == FASTCAT_UNKNOWN_MODE && says(&a, 5, 0, 0, 0, 0, 0, 0, 0, 0) &&
             holds("", 0), "an unknown mode");
  expect(canon(one, sizeof one, FASTCAT_BLOCKS | FASTCAT_PACKETS, sizeof room, &a) == FASTCAT_UNKNOWN_MODE, "packets of blocks");
  expect(canon(one, sizeof one, 0x80000001u, sizeof room, &a) == FASTCAT_UNKNOWN_MODE, "another unknown mode");
  expect(canon(NULL, 0, 0, sizeof room, &a) == FASTCAT_DONE && says(&a, 0, 0, 0, 0, 0, 0, 0, 0, 0) && holds("", 0), "no stream");
  expect(both(CANON, templates, templates_length, 0, one, 0, NULL, 0, &a) == FASTCAT_DONE, "no stream and no room");
  expect(both(CANON, templates, templates_length, 0, one, sizeof one, NULL, 0, &a) == FASTCAT_ROOM_TOO_SHORT, "no room");
}

static void others(void) {
  struct fastcat_answer a;
  memset(&a, 0xaa, sizeof a);
  expect(both(CHECK, templates, templates_length, 0, spelled_out, sizeof spelled_out, NULL, 0, &a) == FASTCAT_DONE &&
             says(&a, 0, 2, 16, 11, 0, 0, 0, 0, 0), "check");
  expect(both(CHECK, templates, templates_length, FASTCAT_STRICT, overlong, sizeof overlong, NULL, 0, &a) == FASTCAT_STREAM_REFUSED &&
             says(&a, 1, 0, 0, 0, FASTCAT_R6, 1, 2, 1, 1), "check at the strict level");
  memset(room, 0xaa, sizeof room);
  expect(both(SHOW, templates, templates_length, 0, one, sizeof one, room, sizeof line - 1, &a) == FASTCAT_DONE &&
             says(&a, 0, 1, 8, sizeof line - 1, 0, 0, 0, 0, 0) && holds(line, sizeof line - 1), "show");
  memset(room, 0xaa, sizeof room);
  expect(both(SHOW, templates, templates_length, 0, one, sizeof one, room, sizeof line - 2, &a) == FASTCAT_ROOM_TOO_SHORT &&
             holds("", 0), "show in a room that is one byte too short");
  expect(both(SHOW, templates, templates_length, 32, one, sizeof one, room, sizeof room, &a) == FASTCAT_UNKNOWN_MODE,
         "show in an unknown mode");
  memset(room, 0xaa, sizeof room);
  expect(both(SHOW, templates, templates_length, FASTCAT_JSON, one, sizeof one, room, sizeof room, &a) == FASTCAT_DONE &&
             says(&a, 0, 1, 8, sizeof json - 1, 0, 0, 0, 0, 0) && holds(json, sizeof json - 1), "show in JSON");

  /* The length alone is looked at. */
  expect(both(CHECK, templates, templates_length, 0, one, (size_t)1 << 40, NULL, 0, &a) == FASTCAT_STREAM_TOO_LONG &&
             says(&a, 6, 0, 0, 0, 0, 0, 0, 0, 0), "a stream that is too long");

  static const char cycle[] = "{\"templates\":[{\"name\":\"A\",\"instructions\":[{\"kind\":\"templateRef\",\"name\":\"A\"}]}]}";
  static const char tail[] = "{\"templates\":[{\"name\":\"A\",\"id\":1,\"instructions\":["
                             "{\"kind\":\"uInt32\",\"name\":\"B\",\"operator\":\"tail\"}]}]}";
  expect(fastcat_templates(templates, templates_length, &a) == FASTCAT_DONE && says(&a, 0, 0, 0, 0, 0, 0, 0, 0, 0), "templates");
  expect(fastcat_templates((const uint8_t *)"{", 1, &a) == FASTCAT_TEMPLATES_REFUSED &&
             says(&a, 2, 0, 0, 0, FASTCAT_S1, 0, 0, 0, 0), "templates that are no JSON");
  expect(fastcat_templates(NULL, 0, &a) == FASTCAT_TEMPLATES_REFUSED && says(&a, 2, 0, 0, 0, FASTCAT_S1, 0, 0, 0, 0), "no templates");
  expect(fastcat_templates((const uint8_t *)cycle, sizeof cycle - 1, &a) == FASTCAT_TEMPLATES_REFUSED &&
             says(&a, 2, 0, 0, 0, FASTCAT_CYCLE, 0, 0, 1, 0), "a cycle of references");
  expect(fastcat_templates((const uint8_t *)tail, sizeof tail - 1, &a) == FASTCAT_TEMPLATES_REFUSED &&
             says(&a, 2, 0, 0, 0, FASTCAT_S2, 0, 0, 1, 1), "an operator that does not apply");
  expect(both(CHECK, (const uint8_t *)tail, sizeof tail - 1, 0, one, sizeof one, NULL, 0, &a) == FASTCAT_TEMPLATES_REFUSED &&
             says(&a, 2, 0, 0, 0, FASTCAT_S2, 0, 0, 1, 1), "a check with templates that are refused");
}

/* How many packets are answered, and which one is refused. */
static int of_packets(const struct fastcat_answer *a, uint64_t packets, uint64_t packet) {
  return a->packets == packets && a->packet == packet;
}

static void recordings(void) {
  struct fastcat_answer a;
  expect(canon(two_packets, sizeof two_packets, FASTCAT_PACKETS, sizeof room, &a) == FASTCAT_DONE &&
             says(&a, 0, 2, 19, 18, 0, 0, 0, 0, 0) && of_packets(&a, 2, 0) && holds(canonical_packets, 18), "canon of two packets");
  expect(canon(two_packets, sizeof two_packets, FASTCAT_PACKETS, 18, &a) == FASTCAT_DONE && holds(canonical_packets, 18),
         "a room that is just enough for packets");
  expect(canon(two_packets, sizeof two_packets, FASTCAT_PACKETS, 17, &a) == FASTCAT_ROOM_TOO_SHORT &&
             says(&a, 3, 0, 0, 18, 0, 0, 0, 0, 0) && holds("", 0), "a room that is too short for packets");
  expect(canon(two_packets, sizeof two_packets, FASTCAT_PACKETS | FASTCAT_STRICT, sizeof room, &a) == FASTCAT_STREAM_REFUSED &&
             says(&a, 1, 0, 0, 9, FASTCAT_R6, 1, 9, 0, 0) && of_packets(&a, 1, 2) && holds(canonical_packets, 9),
         "a size that is too long at the strict level");
  memset(&a, 0xaa, sizeof a);
  expect(both(CHECK, templates, templates_length, FASTCAT_PACKETS, two_packets, sizeof two_packets, NULL, 0, &a) == FASTCAT_DONE &&
             says(&a, 0, 2, 19, 18, 0, 0, 0, 0, 0) && of_packets(&a, 2, 0), "check of two packets");
  expect(both(CHECK, templates, templates_length, FASTCAT_PACKETS, two_packets, 12, NULL, 0, &a) == FASTCAT_STREAM_REFUSED &&
             says(&a, 1, 0, 0, 0, FASTCAT_TRUNCATED, 1, 12, 0, 0) && of_packets(&a, 1, 2), "a recording that is cut");
  memset(room, 0xaa, sizeof room);
  expect(both(SHOW, templates, templates_length, FASTCAT_PACKETS | FASTCAT_JSON, two_packets, sizeof two_packets, room,
                      sizeof room, &a) == FASTCAT_DONE && says(&a, 0, 2, 19, sizeof packet_lines - 1, 0, 0, 0, 0, 0) &&
             of_packets(&a, 2, 0) && holds(packet_lines, sizeof packet_lines - 1), "show of two packets in JSON");
}

/* Lines are written into the room, whose length is given. */
static uint32_t write_lines(const char *lines, size_t length, uint32_t mode, size_t room_length,
                            struct fastcat_answer *answer) {
  memset(room, 0xaa, sizeof room);
  memset(answer, 0xaa, sizeof *answer);
  return both(WRITE, templates, templates_length, mode, (const uint8_t *)lines, length, room, room_length, answer);
}

/* What is shown of a stream in JSON is written again. */
static int is_written_again(const uint8_t *stream, size_t length, uint32_t mode, const uint8_t *bytes, size_t count,
                            uint64_t messages) {
  static uint8_t shown[1024];
  struct fastcat_answer a;
  if (both(SHOW, templates, templates_length, mode | FASTCAT_JSON, stream, length, shown, sizeof shown, &a) != FASTCAT_DONE)
    return 0;
  size_t size = (size_t)a.written;
  for (uint32_t json = 0; json <= FASTCAT_JSON; json += FASTCAT_JSON)
    if (write_lines((const char *)shown, size, mode | json, count, &a) != FASTCAT_DONE ||
        !says(&a, 0, messages, size, count, 0, 0, 0, 0, 0) || !of_packets(&a, 0, 0) || !holds(bytes, count))
      return 0;
  return 1;
}

static void lines(void) {
  struct fastcat_answer a;
  expect(is_written_again(spelled_out, sizeof spelled_out, 0, canonical, 11, 2), "two messages, shown and written");
  expect(is_written_again(two_packets, sizeof two_packets, FASTCAT_PACKETS, canonical_packets, 18, 2),
         "two packets, shown and written");
  expect(write_lines("", 0, 0, 0, &a) == FASTCAT_DONE && says(&a, 0, 0, 0, 0, 0, 0, 0, 0, 0) && holds("", 0), "no lines");
  expect(write_lines(json, sizeof json - 1, 0, 7, &a) == FASTCAT_ROOM_TOO_SHORT && says(&a, 3, 0, 0, 8, 0, 0, 0, 0, 0) &&
             holds("", 0), "a room that is one byte too short for a line");
  expect(write_lines(json, sizeof json - 1, 0, 8, &a) == FASTCAT_DONE && holds(one, 8), "a room of as many bytes as it says");
  expect(write_lines(packet_lines, sizeof packet_lines - 1, FASTCAT_PACKETS, 17, &a) == FASTCAT_ROOM_TOO_SHORT &&
             says(&a, 3, 0, 0, 18, 0, 0, 0, 0, 0) && holds("", 0), "a room that is too short for lines of packets");
  static const uint32_t unknown[] = {FASTCAT_STRICT, FASTCAT_BLOCKS, FASTCAT_BLOCKS | FASTCAT_PACKETS,
                                     FASTCAT_STRICT | FASTCAT_PACKETS, 16};
  for (size_t i = 0; i < sizeof unknown / sizeof *unknown; i++)
    expect(write_lines(json, sizeof json - 1, unknown[i], sizeof room, &a) == FASTCAT_UNKNOWN_MODE &&
               says(&a, 5, 0, 0, 0, 0, 0, 0, 0, 0) && holds("", 0), "a mode that lines have not");
  expect(write_lines("", (size_t)1 << 40, 0, sizeof room, &a) == FASTCAT_STREAM_TOO_LONG && says(&a, 6, 0, 0, 0, 0, 0, 0, 0, 0),
         "lines that are too long");
  memset(&a, 0xaa, sizeof a);
  expect(both(WRITE, (const uint8_t *)"{", 1, 0, (const uint8_t *)json, sizeof json - 1, room, sizeof room, &a) ==
             FASTCAT_TEMPLATES_REFUSED && says(&a, 2, 0, 0, 0, FASTCAT_S1, 0, 0, 0, 0), "lines with templates that are refused");

  /* The blank line is counted, and what stands before the refused one is written. */
  static const char mismatch[] = "{" FIELDS "\n{\"id\":1,\"fields\":{\"Seq\":2,\"Sym\":5,\"Px\":1}}\n";
  expect(write_lines(mismatch, sizeof mismatch - 1, 0, sizeof room, &a) == FASTCAT_LINE_REFUSED &&
             says(&a, 7, 0, 0, 8, FASTCAT_MISMATCH, 3, 0, 1, 2) && of_packets(&a, 0, 0) && holds(one, 8), "a number for a string");
  expect(write_lines(mismatch, sizeof mismatch - 1, 0, 7, &a) == FASTCAT_ROOM_TOO_SHORT &&
             says(&a, 3, 0, 0, 8, 0, 0, 0, 0, 0) && holds("", 0), "a line that is refused, and a short room");
  static const char other[] = "{" FIELDS "{\"template\":\"Const\",\"fields\":{\"K\":8,\"D\":3}}";
  expect(write_lines(other, sizeof other - 1, 0, sizeof room, &a) == FASTCAT_LINE_REFUSED &&
             says(&a, 7, 0, 0, 8, FASTCAT_NOT_CONSTANT, 2, 0, 14, 1) && holds(one, 8), "another value than the constant");
  expect(write_lines(json, sizeof json - 1, FASTCAT_PACKETS, sizeof room, &a) == FASTCAT_LINE_REFUSED &&
             says(&a, 7, 0, 0, 0, FASTCAT_LINE, 1, 0, 0, 0) && holds("", 0), "a line that says no packet");
  expect(write_lines(packet_lines, sizeof packet_lines - 1, 0, sizeof room, &a) == FASTCAT_LINE_REFUSED &&
             says(&a, 7, 0, 0, 0, FASTCAT_LINE, 1, 0, 0, 0) && holds("", 0), "a line that says a packet where none is asked for");
  static const char back[] = "{\"packet\":2," FIELDS "{\"packet\":1," FIELDS;
  expect(write_lines(back, sizeof back - 1, FASTCAT_PACKETS, sizeof room, &a) == FASTCAT_LINE_REFUSED &&
             says(&a, 7, 0, 0, 9, FASTCAT_LINE, 2, 0, 0, 0) && holds(canonical_packets, 9), "a line of a packet before the last");

  /* A string of 65,536 bytes. */
  static char much[1 << 17];
  size_t at = (size_t)sprintf(much, "{\"id\":1,\"fields\":{\"Seq\":1,\"Sym\":\"");
  memset(much + at, 'A', 65536);
  at += 65536;
  at += (size_t)sprintf(much + at, "\",\"Px\":1}}");
  expect(write_lines(much, at, 0, sizeof room, &a) == FASTCAT_LINE_REFUSED && says(&a, 7, 0, 0, 0, FASTCAT_LIMIT, 1, 0, 1, 2) &&
             holds("", 0), "a string that is too long");
}

/* ---- sets */

/* A set of no templates: no stream is canonicalised with it, but the one of no bytes. */
static const char nothing[] = "{\"templates\":[]}";

static void make(struct fastcat_set *set) {
  struct fastcat_answer a;
  expect(fastcat_set_new(templates, templates_length, set, &a) == FASTCAT_DONE, "a set");
}

static void make_of_nothing(struct fastcat_set *set) {
  struct fastcat_answer a;
  expect(fastcat_set_new((const uint8_t *)nothing, sizeof nothing - 1, set, &a) == FASTCAT_DONE, "a set of nothing");
}

/* The handle has the worked templates. */
static int is_worked(struct fastcat_set *set) {
  struct fastcat_answer a;
  memset(room, 0xaa, sizeof room);
  return fastcat_set_canon(set, 0, spelled_out, sizeof spelled_out, room, sizeof room, &a) == FASTCAT_DONE &&
         says(&a, 0, 2, 16, 11, 0, 0, 0, 0, 0) && holds(canonical, 11) && !is_empty(set);
}

/* Each call answers that the handle has no set, and does nothing else. */
static int has_none(struct fastcat_set *set) {
  struct fastcat_answer a;
  for (enum command command = CANON; command <= WRITE; command++) {
    memset(room, 0xaa, sizeof room);
    memset(&a, 0xaa, sizeof a);
    if (of_set(command, set, 0, one, sizeof one, room, sizeof room, &a) != FASTCAT_WRONG_HANDLE ||
        !says(&a, 8, 0, 0, 0, 0, 0, 0, 0, 0) || a.packets != 0 || a.packet != 0 || !holds("", 0) || !is_empty(set))
      return 0;
    /* Nothing else is looked at. */
    if (of_set(command, set, 16, one, (size_t)1 << 40, NULL, 0, &a) != FASTCAT_WRONG_HANDLE) return 0;
  }
  return 1;
}

static void empty_handles(void) {
  struct fastcat_set none = {0}, other = {0}, set = {0};
  make(&set);
  expect(has_none(&none), "a handle of zeros");
  expect(fastcat_set_share(&none, &other) == FASTCAT_WRONG_HANDLE && is_empty(&none) && is_empty(&other), "nothing is shared");
  expect(fastcat_set_share(&none, &set) == FASTCAT_WRONG_HANDLE && is_worked(&set), "nothing is put in the place of a set");
  fastcat_set_free(&none);
  expect(is_empty(&none), "a handle of zeros is freed");
  fastcat_set_free(&set);
  expect(has_none(&set), "a handle that was freed");
  fastcat_set_free(&set);
  expect(has_none(&set), "a handle that was freed twice");
}

static void sets(void) {
  struct fastcat_answer a;
  struct fastcat_set set = {0};
  make(&set);
  expect(is_worked(&set) && is_worked(&set), "a set is used again");
  expect(fastcat_set_canon(&set, 16, one, sizeof one, room, sizeof room, &a) == FASTCAT_UNKNOWN_MODE && is_worked(&set),
         "a set and an unknown mode");
  expect(fastcat_set_check(&set, 0, one, (size_t)1 << 40, &a) == FASTCAT_STREAM_TOO_LONG && is_worked(&set),
         "a set and a stream that is too long");
  expect(fastcat_set_canon(&set, 0, cut, sizeof cut, room, sizeof room, &a) == FASTCAT_STREAM_REFUSED && is_worked(&set),
         "a set behind a stream that is refused");
  memset(&a, 0xaa, sizeof a);
  expect(fastcat_set_new((const uint8_t *)"{", 1, &set, &a) == FASTCAT_TEMPLATES_REFUSED &&
             says(&a, 2, 0, 0, 0, FASTCAT_S1, 0, 0, 0, 0) && is_worked(&set), "a set behind a text that is refused");
  make_of_nothing(&set);
  expect(fastcat_set_check(&set, 0, one, sizeof one, &a) == FASTCAT_STREAM_REFUSED && a.cause == FASTCAT_D9,
         "a set in the place of another");
  fastcat_set_free(&set);
}

/* Shares are equals, and are freed in either order. */
static void shares(void) {
  struct fastcat_set first = {0}, second = {0}, third = {0};
  make(&first);
  expect(fastcat_set_share(&first, &second) == FASTCAT_DONE && is_worked(&first) && is_worked(&second), "a share");
  fastcat_set_free(&first);
  expect(has_none(&first) && is_worked(&second), "the first is freed first");
  expect(fastcat_set_share(&second, &third) == FASTCAT_DONE, "a share of a share");
  fastcat_set_free(&third);
  expect(has_none(&third) && is_worked(&second), "the second is freed first");
  make_of_nothing(&third);
  expect(fastcat_set_share(&second, &third) == FASTCAT_DONE && is_worked(&third), "a share in the place of another set");
  fastcat_set_free(&second);
  expect(is_worked(&third), "the share that is left");
  fastcat_set_free(&third);
}

/* Takes shares of its own and frees them, while another thread does. */
static void *in_a_thread(void *given) {
  struct fastcat_set *mine = given;
  uint8_t out[sizeof canonical];
  size_t right = 0;
  for (int i = 0; i < 500; i++) {
    struct fastcat_set another = {0};
    struct fastcat_answer a;
    if (fastcat_set_share(mine, &another) == FASTCAT_DONE &&
        fastcat_set_canon(&another, 0, spelled_out, sizeof spelled_out, out, sizeof out, &a) == FASTCAT_DONE &&
        memcmp(out, canonical, sizeof out) == 0)
      right++;
    fastcat_set_free(&another);
  }
  fastcat_set_free(mine);
  return right == 500 ? given : NULL;
}

static void threads(void) {
  struct fastcat_set set = {0}, shared[2] = {{0}, {0}};
  pthread_t running[2];
  make(&set);
  for (int i = 0; i < 2; i++)
    expect(fastcat_set_share(&set, &shared[i]) == FASTCAT_DONE &&
               pthread_create(&running[i], NULL, in_a_thread, &shared[i]) == 0, "a thread");
  fastcat_set_free(&set);
  for (int i = 0; i < 2; i++) {
    void *right = NULL;
    expect(pthread_join(running[i], &right) == 0 && right == &shared[i] && is_empty(&shared[i]), "a thread over a share");
  }
}

/* ---- the fields of a set */

/* Of every kind; a reference stands for its field wherever it stands. */
static const char fielded[] =
    "{\"templates\":[{\"name\":\"Common\",\"instructions\":[{\"kind\":\"uInt32\",\"name\":\"B\",\"presence\":\"optional\"}]},"
    "{\"name\":\"All\",\"id\":4294967295,\"instructions\":["
    "{\"kind\":\"uInt32\",\"name\":\"a\"},{\"kind\":\"uInt64\",\"name\":\"b\"},{\"kind\":\"int32\",\"name\":\"c\"},"
    "{\"kind\":\"int64\",\"name\":\"d\"},{\"kind\":\"decimal\",\"name\":\"e\"},"
    "{\"kind\":\"decimal\",\"name\":\"ff\",\"presence\":\"optional\","
    "\"exponent\":{\"operator\":\"copy\"},\"mantissa\":{\"operator\":\"delta\"}},"
    "{\"kind\":\"string\",\"name\":\"g\"},{\"kind\":\"string\",\"charset\":\"unicode\",\"name\":\"h\"},"
    "{\"kind\":\"byteVector\",\"name\":\"i\"},"
    "{\"kind\":\"group\",\"name\":\"j\",\"presence\":\"optional\",\"instructions\":["
    "{\"kind\":\"sequence\",\"name\":\"k\",\"instructions\":[{\"kind\":\"templateRef\",\"name\":\"Common\"}]},"
    "{\"kind\":\"uInt32\",\"name\":\"l\"}]},{\"kind\":\"templateRef\",\"name\":\"Common\"}]},"
    "{\"name\":\"Bare\",\"id\":0,\"instructions\":[]}]}";
static const struct { const char *name; uint32_t kind, instruction, optional, length; } wanted_fields[] = {
    {"Common", FASTCAT_MESSAGE, 0, 0, 1}, {"B", FASTCAT_UINT32, 1, 1, 0},
    {"All", FASTCAT_MESSAGE, 4294967295, 1, 14}, {"a", FASTCAT_UINT32, 1, 0, 0}, {"b", FASTCAT_UINT64, 2, 0, 0},
    {"c", FASTCAT_INT32, 3, 0, 0}, {"d", FASTCAT_INT64, 4, 0, 0}, {"e", FASTCAT_DECIMAL, 5, 0, 0},
    {"ff", FASTCAT_DECIMAL, 6, 1, 0}, {"g", FASTCAT_ASCII, 7, 0, 0}, {"h", FASTCAT_UNICODE, 8, 0, 0}, {"i", FASTCAT_BYTES, 9, 0, 0},
    {"j", FASTCAT_GROUP, 10, 1, 3}, {"k", FASTCAT_SEQUENCE, 11, 0, 1}, {"B", FASTCAT_UINT32, 12, 1, 0},
    {"l", FASTCAT_UINT32, 13, 0, 0}, {"B", FASTCAT_UINT32, 14, 1, 0}, {"Bare", FASTCAT_MESSAGE, 0, 1, 0}};
static const char wanted_names[] = "CommonBAllabcdeffghijkBlBBare";
enum { FIELDS_WANTED = sizeof wanted_fields / sizeof *wanted_fields, NAMES_WANTED = sizeof wanted_names - 1 };

static int has_sizes(const struct fastcat_sizes *sizes, uint64_t count, uint64_t of_fields, uint64_t of_names) {
  return sizes->templates == count && sizes->fields == of_fields && sizes->names == of_names;
}

static int is_untouched(const void *bytes, size_t length) {
  for (size_t i = 0; i < length; i++)
    if (((const uint8_t *)bytes)[i] != 0xaa) return 0;
  return 1;
}

static void fields(void) {
  static struct fastcat_field rows[FIELDS_WANTED + 1];
  static uint8_t names[NAMES_WANTED + 1];
  struct fastcat_set set = {0};
  struct fastcat_answer a;
  struct fastcat_sizes sizes;
  expect(sizeof *rows == 32, "a field has 32 bytes");
  expect(fastcat_set_new((const uint8_t *)fielded, sizeof fielded - 1, &set, &a) == FASTCAT_DONE, "a set of every kind of field");

  static const size_t short_rooms[][2] = {
      {0, 0}, {FIELDS_WANTED, NAMES_WANTED - 1}, {FIELDS_WANTED - 1, NAMES_WANTED}, {FIELDS_WANTED - 1, NAMES_WANTED + 1}};
  for (size_t i = 0; i < sizeof short_rooms / sizeof *short_rooms; i++) {
    memset(rows, 0xaa, sizeof rows);
    memset(names, 0xaa, sizeof names);
    memset(&sizes, 0xaa, sizeof sizes);
    expect(fastcat_set_fields(&set, rows, short_rooms[i][0], names, short_rooms[i][1], &sizes) == FASTCAT_ROOM_TOO_SHORT &&
               has_sizes(&sizes, 3, FIELDS_WANTED, NAMES_WANTED) && is_untouched(rows, sizeof rows) &&
               is_untouched(names, sizeof names), "rooms that are too short for fields");
  }
  expect(fastcat_set_fields(&set, NULL, 0, NULL, 0, &sizes) == FASTCAT_ROOM_TOO_SHORT, "no rooms for fields");
  for (size_t more = 0; more < 2; more++) {
    memset(rows, 0xaa, sizeof rows);
    memset(names, 0xaa, sizeof names);
    memset(&sizes, 0xaa, sizeof sizes);
    expect(fastcat_set_fields(&set, rows, FIELDS_WANTED + more, names, NAMES_WANTED + more, &sizes) == FASTCAT_DONE &&
               has_sizes(&sizes, 3, FIELDS_WANTED, NAMES_WANTED) && memcmp(names, wanted_names, NAMES_WANTED) == 0 &&
               is_untouched(rows + FIELDS_WANTED, sizeof *rows) && is_untouched(names + NAMES_WANTED, 1), "fields");
  }
  size_t at = 0;
  for (size_t i = 0; i < FIELDS_WANTED; i++) {
    size_t length = strlen(wanted_fields[i].name);
    expect(rows[i].kind == wanted_fields[i].kind && rows[i].instruction == wanted_fields[i].instruction &&
               rows[i].optional == wanted_fields[i].optional && rows[i].length == wanted_fields[i].length &&
               rows[i].name == at && rows[i].name_length == length, wanted_fields[i].name);
    at += length;
  }
  expect(fastcat_next_field(rows) == rows + 2 && fastcat_next_field(rows + 2) == rows + 17 &&
             fastcat_next_field(rows + 12) == rows + 16 && fastcat_next_field(rows + 17) == rows + FIELDS_WANTED, "the next field of a level");
  make_of_nothing(&set);
  expect(fastcat_set_fields(&set, NULL, 0, NULL, 0, &sizes) == FASTCAT_DONE && has_sizes(&sizes, 0, 0, 0), "no fields");
  fastcat_set_free(&set);
  memset(rows, 0xaa, sizeof rows);
  memset(&sizes, 0xaa, sizeof sizes);
  expect(fastcat_set_fields(&set, rows, FIELDS_WANTED, names, NAMES_WANTED, &sizes) == FASTCAT_WRONG_HANDLE &&
             has_sizes(&sizes, 0, 0, 0) && is_untouched(rows, sizeof rows) && is_empty(&set), "the fields of no set");
}

/* ---- causes */

/* The causes by the names of fastcat.h. */
#define CAUSE(name) {#name, FASTCAT_##name}
static const struct { const char *name; uint32_t number; } causes[] = {
  CAUSE(NO_CAUSE), CAUSE(D2), CAUSE(D4), CAUSE(D5), CAUSE(D6), CAUSE(D7), CAUSE(D9), CAUSE(D12), CAUSE(R1), CAUSE(R2),
  CAUSE(R6), CAUSE(R7), CAUSE(R8), CAUSE(R9), CAUSE(BLOCK_END), CAUSE(TRUNCATED), CAUSE(LIMIT), CAUSE(S1), CAUSE(S2),
  CAUSE(S3), CAUSE(S4), CAUSE(S5), CAUSE(D8), CAUSE(DUPLICATE_NAME), CAUSE(DUPLICATE_ID), CAUSE(CYCLE),
  CAUSE(TOO_DEEP), CAUSE(TOO_MANY), CAUSE(NOT_JSON), CAUSE(LINE), CAUSE(MEMBER), CAUSE(MISMATCH), CAUSE(D3),
  CAUSE(NOT_CONSTANT), CAUSE(TOO_SHORT)};
static int has_row[sizeof causes / sizeof *causes];

static uint32_t number_of(const char *name) {
  for (size_t i = 0; i < sizeof causes / sizeof *causes; i++)
    if (strcmp(causes[i].name, name) == 0) {
      has_row[i] = 1;
      return causes[i].number;
    }
  return UINT32_MAX;
}

/* The name of a cause for people is that of the header, without its signs between words. */
static int is_named(uint32_t number, const char *name) {
  const char *for_people = fastcat_cause_name(number);
  if (strcmp(name, "NO_CAUSE") == 0) return *for_people == 0;
  if (strcmp(name, "NOT_JSON") == 0) return strcmp(for_people, "Json") == 0;
  for (; *name; name++) {
    if (*name == '_') continue;
    if (toupper((unsigned char)*for_people++) != *name) return 0;
  }
  return *for_people == 0;
}

static void names(void) {
  static const char *const statuses[] = {"done", "stream refused", "templates refused", "room too short", "no memory",
                                         "unknown mode", "stream too long", "line refused", "wrong handle", "no message",
                                         "message too large"};
  for (uint32_t status = 0; status < sizeof statuses / sizeof *statuses; status++)
    expect(strcmp(fastcat_status_name(status), statuses[status]) == 0, statuses[status]);
  expect(strcmp(fastcat_status_name(sizeof statuses / sizeof *statuses), "unknown") == 0, "a status that is none");
  size_t known = 0;
  for (uint32_t cause = 0; cause < 1000; cause++)
    if (strcmp(fastcat_cause_name(cause), "unknown") != 0) known++;
  expect(known == sizeof causes / sizeof *causes, "the causes that have names");
}

/* Each row of the table is refused for its cause. */
static void table(FILE *file) {
  static char line[8192], over[8192], what[8192];
  char kind[16], name[32];
  unsigned number, mode;
  struct fastcat_answer a;
  while (fgets(line, sizeof line, file)) {
    if (line[0] == '#' || sscanf(line, "%15s %31s %u %u %8191[^\n]", kind, name, &number, &mode, what) != 5) continue;
    expect(number_of(name) == number && is_named(number, name), name);
    if (strcmp(kind, "over") == 0) {
      strcpy(over, what);
    } else if (strcmp(kind, "stream") == 0) {
      uint8_t stream[64];
      size_t length = 0;
      for (unsigned byte; length < sizeof stream && sscanf(what + 2 * length, "%2x", &byte) == 1; length++)
        stream[length] = (uint8_t)byte;
      expect(both(CHECK, (const uint8_t *)over, strlen(over), mode, stream, length, NULL, 0, &a) == FASTCAT_STREAM_REFUSED &&
                 a.cause == number, name);
    } else if (strcmp(kind, "line") == 0) {
      expect(both(WRITE, (const uint8_t *)over, strlen(over), mode, (const uint8_t *)what, strlen(what), room, sizeof room,
                           &a) == FASTCAT_LINE_REFUSED && a.cause == number && a.message == 1, name);
    } else {
      expect(fastcat_templates((const uint8_t *)what, strlen(what), &a) == FASTCAT_TEMPLATES_REFUSED && a.cause == number, name);
    }
  }
  for (size_t i = 0; i < sizeof causes / sizeof *causes; i++) expect(has_row[i], causes[i].name);
}

int main(int count, char **words) {
  FILE *file = count == 3 ? fopen(words[1], "rb") : NULL, *rows = count == 3 ? fopen(words[2], "r") : NULL;
  if (!file || !rows) {
    fprintf(stderr, "use: test_library examples/worked.json tools/causes.txt\n");
    return 2;
  }
  templates_length = fread(templates, 1, sizeof templates, file);
  fclose(file);
  streams();
  others();
  recordings();
  lines();
  empty_handles();
  sets();
  shares();
  threads();
  fields();
  names();
  table(rows);
  fclose(rows);
  printf("C: %u passed, %u failed\n", passed, failed);
  return failed != 0;
}
