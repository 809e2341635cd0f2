/* fastcat: FAST 1.1 streams and recordings in memory are canonicalised, checked and shown, and lines in JSON are written.
 *
 * A template text is JSON in UTF-8, lines are likewise, and a stream or a recording of packets is bytes; docs/FORMAT.md tells
 * of them. The templates of a call are a text, which it reads anew, or a set, which is read once (fastcat_set_new).
 *
 * Nothing is kept between calls but what handles have, of sets, readers and writers: threads may call the functions side by side, each
 * with rooms, an answer and handles of its own. A pointer whose length is 0 is not looked at. What a call is given and what it
 * is lent do not overlap.
 */
#ifndef FASTCAT_H
#define FASTCAT_H

#include <stddef.h>
#include <stdint.h>

#ifdef __cplusplus
extern "C" {
#endif

/* The version of this header, as a text and as a number (10,000 for each major version, 100 for each minor one, 1 for each
 * patch), and that of the library. */
#define FASTCAT_VERSION "0.2.0"
#define FASTCAT_VERSION_NUMBER 200
uint32_t fastcat_version(void);

/* How a stream is read and shown, or lines are written: the sum of these. A mode with any other bit is refused, and one with
 * blocks and packets; of fastcat_write one with strict or blocks. */
enum {
  /* Refuse entities that are longer than they need to be, and map bits that no instruction asked for (R6 to R9). */
  FASTCAT_STRICT = 1,
  /* Messages stand in blocks: a size, and as many bytes. */
  FASTCAT_BLOCKS = 2,
  /* fastcat_show writes a JSON text for each message. The other calls do with it what they do without: lines that are written
   * are JSON in any case. */
  FASTCAT_JSON = 4,
  /* The stream is a recording of packets: of each a size, and as many bytes, which are a stream of their own. Lines that are
   * written say the packets of their messages. */
  FASTCAT_PACKETS = 8
};

/* How a call ended. The first that fails is answered: the set, the mode, the size of the stream or the lines, the templates, the
 * stream or the lines. */
enum fastcat_status {
  FASTCAT_DONE = 0,
  /* The stream is refused: cause, message, offset, template and instruction say why and where, and packet of a recording. */
  FASTCAT_STREAM_REFUSED = 1,
  /* The templates are refused: cause, template and instruction say why and where. */
  FASTCAT_TEMPLATES_REFUSED = 2,
  /* What is to be written is more than the room, which is as it was: written says how many bytes it is. */
  FASTCAT_ROOM_TOO_SHORT = 3,
  /* Memory was refused. The room is as it was. */
  FASTCAT_NO_MEMORY = 4,
  /* The mode has a bit that says nothing. */
  FASTCAT_UNKNOWN_MODE = 5,
  /* The stream has 2^40 bytes or more, or the lines have. */
  FASTCAT_STREAM_TOO_LONG = 6,
  /* A line stands for no message, or for one that has no form behind those before: cause, template and instruction say why and
   * where, and message is the line's number, from 1. written says how many bytes of the lines before are in the room. Likewise
   * a message that comes as nodes, of which nothing is written. */
  FASTCAT_LINE_REFUSED = 7,
  /* The handle has nothing, or something else than the call is for; nothing was done. */
  FASTCAT_WRONG_HANDLE = 8,
  /* Nodes do not begin with a message and as many nodes as it says: message says which, from 1. */
  FASTCAT_NO_MESSAGE = 9,
  /* A message has more bytes of strings than its reader takes: message says which, from 1. */
  FASTCAT_MESSAGE_TOO_LARGE = 10
};

/* Why a stream, a line or templates are refused; docs/FORMAT.md, "Causes" and "Lines that are written". */
enum fastcat_cause {
  FASTCAT_NO_CAUSE = 0,
  /* Of a stream; D2, D4, D6, D9, R1 and LIMIT of a line too: */
  FASTCAT_D2 = 1,         /* an integer is out of its type's bounds */
  FASTCAT_D4 = 2,         /* the previous value is of another type than the field */
  FASTCAT_D5 = 3,         /* a mandatory field is left out, and no earlier value predicts it */
  FASTCAT_D6 = 4,         /* a mandatory field is left out or changed, and its previous value is empty */
  FASTCAT_D7 = 5,         /* a subtraction length is no int32, or takes more than there is */
  FASTCAT_D9 = 6,         /* no template has the identifier, or of a line the name */
  FASTCAT_D12 = 7,        /* the size of a block or of a packet is zero */
  FASTCAT_R1 = 8,         /* a decimal's exponent is outside -63..63, or its mantissa outside int64 */
  FASTCAT_R2 = 9,         /* a Unicode string is not UTF-8 */
  FASTCAT_R6 = 10,        /* strict: an integer, a length or a size has more bytes than it needs */
  FASTCAT_R7 = 11,        /* strict: a presence map has more bytes than it needs */
  FASTCAT_R8 = 12,        /* strict: a bit of a presence map is 1 that no instruction asked for */
  FASTCAT_R9 = 13,        /* strict: a string has a preamble that it does not need */
  FASTCAT_BLOCK_END = 14, /* a block or a packet ended inside a message */
  FASTCAT_TRUNCATED = 15, /* the stream ended inside a message, a block or a packet */
  FASTCAT_LIMIT = 16,     /* a limit is passed */
  /* Of templates: */
  FASTCAT_S1 = 101,             /* the text is not of the JSON profile, or a name is no name */
  FASTCAT_S2 = 102,             /* the operator does not apply to the type */
  FASTCAT_S3 = 103,             /* the initial value cannot be converted to the type */
  FASTCAT_S4 = 104,             /* a constant without an initial value */
  FASTCAT_S5 = 105,             /* a mandatory default without an initial value */
  FASTCAT_D8 = 106,             /* a reference names no template */
  FASTCAT_DUPLICATE_NAME = 107, /* an earlier template has the name */
  FASTCAT_DUPLICATE_ID = 108,   /* an earlier template has the identifier */
  FASTCAT_CYCLE = 109,          /* references lead from the template back to itself */
  FASTCAT_TOO_DEEP = 110,       /* groups and sequences nest in more than 8 levels */
  FASTCAT_TOO_MANY = 111,       /* more than 65,535 templates, or instructions behind replaced references */
  /* Of a line: */
  FASTCAT_NOT_JSON = 201,     /* it is no JSON text in UTF-8, or nests more than 128 levels */
  FASTCAT_LINE = 202,         /* it is JSON and no message; or its packet is missing, not asked for, or below the last one */
  FASTCAT_MEMBER = 203,       /* a member of its fields is not its template's, or is there once too often */
  FASTCAT_MISMATCH = 204,     /* a value is not of its field's type, or a mandatory one is left out */
  FASTCAT_D3 = 205,           /* a decimal does not have the exponent or the mantissa that its part must have */
  FASTCAT_NOT_CONSTANT = 206, /* a value is not the constant of its field */
  FASTCAT_TOO_SHORT = 207     /* a value is shorter than the earlier one whose end a tail changes */
};

/* The names of statuses and causes, as texts for people: "room too short"; and "D2", "BlockEnd" and the like, as the program
 * prints them. Of FASTCAT_NO_CAUSE it is the empty text, of a number that is none of these "unknown". */
static inline const char *fastcat_status_name(uint32_t status) {
  switch (status) {
  case FASTCAT_DONE: return "done";
  case FASTCAT_STREAM_REFUSED: return "stream refused";
  case FASTCAT_TEMPLATES_REFUSED: return "templates refused";
  case FASTCAT_ROOM_TOO_SHORT: return "room too short";
  case FASTCAT_NO_MEMORY: return "no memory";
  case FASTCAT_UNKNOWN_MODE: return "unknown mode";
  case FASTCAT_STREAM_TOO_LONG: return "stream too long";
  case FASTCAT_LINE_REFUSED: return "line refused";
  case FASTCAT_WRONG_HANDLE: return "wrong handle";
  case FASTCAT_NO_MESSAGE: return "no message";
  case FASTCAT_MESSAGE_TOO_LARGE: return "message too large";
  default: return "unknown";
  }
}

static inline const char *fastcat_cause_name(uint32_t cause) {
  switch (cause) {
  case FASTCAT_NO_CAUSE: return "";
  case FASTCAT_D2: return "D2";
  case FASTCAT_D4: return "D4";
  case FASTCAT_D5: return "D5";
  case FASTCAT_D6: return "D6";
  case FASTCAT_D7: return "D7";
  case FASTCAT_D9: return "D9";
  case FASTCAT_D12: return "D12";
  case FASTCAT_R1: return "R1";
  case FASTCAT_R2: return "R2";
  case FASTCAT_R6: return "R6";
  case FASTCAT_R7: return "R7";
  case FASTCAT_R8: return "R8";
  case FASTCAT_R9: return "R9";
  case FASTCAT_BLOCK_END: return "BlockEnd";
  case FASTCAT_TRUNCATED: return "Truncated";
  case FASTCAT_LIMIT: return "Limit";
  case FASTCAT_S1: return "S1";
  case FASTCAT_S2: return "S2";
  case FASTCAT_S3: return "S3";
  case FASTCAT_S4: return "S4";
  case FASTCAT_S5: return "S5";
  case FASTCAT_D8: return "D8";
  case FASTCAT_DUPLICATE_NAME: return "DuplicateName";
  case FASTCAT_DUPLICATE_ID: return "DuplicateId";
  case FASTCAT_CYCLE: return "Cycle";
  case FASTCAT_TOO_DEEP: return "TooDeep";
  case FASTCAT_TOO_MANY: return "TooMany";
  case FASTCAT_NOT_JSON: return "Json";
  case FASTCAT_LINE: return "Line";
  case FASTCAT_MEMBER: return "Member";
  case FASTCAT_MISMATCH: return "Mismatch";
  case FASTCAT_D3: return "D3";
  case FASTCAT_NOT_CONSTANT: return "NotConstant";
  case FASTCAT_TOO_SHORT: return "TooShort";
  default: return "unknown";
  }
}

/* What a call answers. Each call sets every field, to 0 where it has nothing to say of it. */
struct fastcat_answer {
  uint64_t messages;    /* the messages of the stream or the lines, or of a refused stream or packet those before its fault */
  uint64_t read;        /* the bytes of a stream or of lines that were read to their end */
  uint64_t written;     /* the bytes that were put into the room's front, or are needed; of fastcat_check the canonical bytes */
  uint64_t message;     /* the message at which the stream or the packet is refused, or the line that is, from 1 */
  uint64_t offset;      /* how many bytes of the stream stand before the piece that is refused */
  uint32_t status;      /* enum fastcat_status, which the call also returns */
  uint32_t cause;       /* enum fastcat_cause */
  uint32_t template_id; /* of a refused stream or line the template's identifier; of templates the place in the list, from 1 */
  uint32_t instruction; /* the instruction's number, from 1 */
  uint64_t packets;     /* the packets of a recording that is read, or of a refused one those before its refused packet */
  uint64_t packet;      /* the packet that is refused, from 1 */
};

/* Puts the canonical bytes of a stream into the front of the room. A room of as many bytes as the stream has is enough.
 * Of a refused stream the canonical bytes of the messages before the fault are put there. What is behind the bytes that
 * are written stays as it was. */
uint32_t fastcat_canon(const uint8_t *templates, size_t templates_length, uint32_t mode, const uint8_t *stream,
                       size_t stream_length, uint8_t *room, size_t room_length, struct fastcat_answer *answer);

/* Counts the messages of a stream, its bytes and its canonical bytes. */
uint32_t fastcat_check(const uint8_t *templates, size_t templates_length, uint32_t mode, const uint8_t *stream,
                       size_t stream_length, struct fastcat_answer *answer);

/* Puts a line for each message of a stream, of text or of JSON, into the front of the room, as fastcat_canon does its bytes. No
 * length is known to be enough: where the room is too short, try again with one of as many bytes as it says. */
uint32_t fastcat_show(const uint8_t *templates, size_t templates_length, uint32_t mode, const uint8_t *stream,
                      size_t stream_length, uint8_t *room, size_t room_length, struct fastcat_answer *answer);

/* Puts the canonical bytes of the messages that lines stand for into the front of the room, or with FASTCAT_PACKETS their
 * canonical recording. The lines are those of fastcat_show in JSON, or as a person writes them. Where a line is refused, the
 * bytes of those before it are put there. No length is known to be enough, as for fastcat_show. */
uint32_t fastcat_write(const uint8_t *templates, size_t templates_length, uint32_t mode, const uint8_t *lines,
                       size_t lines_length, uint8_t *room, size_t room_length, struct fastcat_answer *answer);

/* Checks a template text. */
uint32_t fastcat_templates(const uint8_t *templates, size_t templates_length, struct fastcat_answer *answer);

/* ---- templates that are read once */

/* A set of templates, by a handle of yours: zeros before the first call (struct fastcat_set set = {0}), and again once it was
 * freed. Its fields are the library's. A handle is lent to one call at a time, on any thread, and is not copied: two threads
 * that use the same templates have a handle each, by fastcat_set_share. */
struct fastcat_set {
  void *at;
  uint32_t there;
};

/* Reads a template text, and keeps its templates behind the handle; what the handle had before is freed. Where the text is
 * refused, or memory, the handle stays as it was. The text is not needed afterwards. */
uint32_t fastcat_set_new(const uint8_t *templates, size_t templates_length, struct fastcat_set *set,
                         struct fastcat_answer *answer);

/* Puts the same templates behind another handle too, of which both are equals: the templates lie in memory once, and are freed
 * with the last of them. What the other handle had before is freed. */
uint32_t fastcat_set_share(struct fastcat_set *set, struct fastcat_set *other);

/* Ends the handle, which is zeros again; a second call does nothing. */
void fastcat_set_free(struct fastcat_set *set);

/* These do with the templates of a set what fastcat_canon, fastcat_check, fastcat_show and fastcat_write do with a text's. */
uint32_t fastcat_set_canon(struct fastcat_set *set, uint32_t mode, const uint8_t *stream, size_t stream_length, uint8_t *room,
                           size_t room_length, struct fastcat_answer *answer);
uint32_t fastcat_set_check(struct fastcat_set *set, uint32_t mode, const uint8_t *stream, size_t stream_length,
                           struct fastcat_answer *answer);
uint32_t fastcat_set_show(struct fastcat_set *set, uint32_t mode, const uint8_t *stream, size_t stream_length, uint8_t *room,
                          size_t room_length, struct fastcat_answer *answer);
uint32_t fastcat_set_write(struct fastcat_set *set, uint32_t mode, const uint8_t *lines, size_t lines_length, uint8_t *room,
                           size_t room_length, struct fastcat_answer *answer);

/* ---- the fields that the messages of a set have */

/* What a field or a node of a message is: its type, or that it has others of its own. Behind each what a node of it says. */
enum fastcat_kind {
  FASTCAT_MESSAGE = 0,   /* a template, or a message of the one whose identifier is the instruction */
  FASTCAT_ABSENT = 1,    /* (of nodes alone) left out */
  FASTCAT_UINT32 = 2,    /* number */
  FASTCAT_UINT64 = 3,    /* number */
  FASTCAT_INT32 = 4,     /* mantissa */
  FASTCAT_INT64 = 5,     /* mantissa */
  FASTCAT_DECIMAL = 6,   /* mantissa times ten to the exponent */
  FASTCAT_ASCII = 7,     /* the length bytes from number on, of the bytes that came with the nodes; no zero ends them */
  FASTCAT_UNICODE = 8,   /* likewise, UTF-8 */
  FASTCAT_BYTES = 9,     /* likewise */
  FASTCAT_GROUP = 10,
  FASTCAT_SEQUENCE = 11, /* number: how many elements */
  FASTCAT_ELEMENT = 12   /* (of nodes alone) */
};

/* A field, of 32 bytes. */
struct fastcat_field {
  uint32_t kind;        /* enum fastcat_kind */
  uint32_t instruction; /* its number, from 1, as answers have it; of a template the identifier, or 0 */
  uint64_t name;        /* where its name begins in the names, ASCII; no zero ends it */
  uint64_t name_length; /* how many bytes it has */
  uint32_t optional;    /* 1 where messages may lack it, of a template where it has an identifier; else 0 */
  uint32_t length;      /* how many fields behind it are its own, those inside them too */
};

/* How many templates, fields (a template is one too) and bytes of names there are. */
struct fastcat_sizes {
  uint64_t templates, fields, names;
};

/* Puts the templates of a set into the front of the fields, each before its own fields, in the order of their values in a
 * message, a group or sequence before what is in it; references are replaced by what they stand for. So the field of
 * instruction n stands n places behind its template. Names go into the front of the names, one behind the other. Where a room
 * is too short, both are as they were. The sizes are told in that case too, and are 0 with any other status than
 * FASTCAT_DONE. */
uint32_t fastcat_set_fields(struct fastcat_set *set, struct fastcat_field *fields, size_t fields_length, uint8_t *names,
                            size_t names_length, struct fastcat_sizes *sizes);

/* The field behind this one and all that are its own: the next one of its level, if there is one. */
static inline const struct fastcat_field *fastcat_next_field(const struct fastcat_field *field) {
  return field + 1 + field->length;
}

/* ---- messages as nodes */

/* A node, of 32 bytes; what its kind says nothing of is 0. A message is nodes, depth first: a MESSAGE, a node for each field of its
 * template, in order, behind a GROUP its fields, and behind a SEQUENCE an ELEMENT for each element, each with its fields behind it. */
struct fastcat_node {
  uint32_t kind;        /* enum fastcat_kind */
  uint32_t instruction; /* the instruction's number, from 1; of a message the template's identifier */
  uint64_t number;
  int64_t mantissa;
  uint32_t length;      /* of a string its bytes; of a message, group, sequence or element how many nodes behind it are its own */
  int32_t exponent;
};

/* What waits in a reader or a writer after a call, or was taken from it: whole messages. Each call that takes these sets every
 * field. */
struct fastcat_counts {
  uint64_t used; /* how many bytes of a chunk were taken, 0 where it was refused; of nodes how many were written */
  uint64_t messages, nodes, bytes;
};

/* A reader at a place of a stream, by a handle as a set's: zeros before the first call, and again once it was freed. */
struct fastcat_reader {
  void *at;
  uint32_t there;
};

/* Puts a reader at the beginning of a stream behind the handle, in the mode 0, FASTCAT_STRICT, FASTCAT_BLOCKS or both; what the
 * handle had before is freed. A message whose strings have more than most_bytes is not read (0: 64 MiB). The reader has a
 * share of the templates, which are freed with the last handle that has one. */
uint32_t fastcat_reader_new(struct fastcat_set *set, uint32_t mode, uint64_t most_bytes, struct fastcat_reader *reader);

/* Takes bytes from the front of the next of the stream, however they are cut. The messages that they end wait in the reader. It
 * stops where 65,536 nodes or 1 MiB of strings wait: take them, and feed the rest, from waiting->used on. A refusal comes with
 * the messages before it, and is kept until the reset: later calls answer it again. FASTCAT_STREAM_TOO_LONG is not kept. */
uint32_t fastcat_reader_feed(struct fastcat_reader *reader, const uint8_t *chunk, size_t length, struct fastcat_counts *waiting,
                             struct fastcat_answer *answer);

/* The same with a packet, which is a stream of its own, from undefined entries; a refusal before is forgotten. Where all of it is
 * used, it has also ended; else take what waits, feed the rest, and end it by fastcat_reader_finish. */
uint32_t fastcat_reader_packet(struct fastcat_reader *reader, const uint8_t *packet, size_t length,
                               struct fastcat_counts *waiting, struct fastcat_answer *answer);

/* Reads the size that a recording begins with, in the mode 0 or FASTCAT_STRICT: packet->used is how many bytes the size takes, and
 * packet->bytes how many the packet has behind it, for fastcat_reader_packet. A size is refused as a stream is, in message 1 at
 * offset 0: as FASTCAT_TRUNCATED where it is not whole, and of no bytes. Ten bytes are enough. */
uint32_t fastcat_packet_size(uint32_t mode, const uint8_t *recording, size_t length, struct fastcat_counts *packet,
                             struct fastcat_answer *answer);

/* Puts the messages that wait, all or none, into the front of the rooms, and forgets them; where the rooms are too short, taken
 * says how much waits. A number that a string begins at is a place in these bytes. Rooms of 131,072 nodes, and of 1 MiB and
 * most_bytes, are always enough. */
uint32_t fastcat_reader_take(struct fastcat_reader *reader, struct fastcat_node *nodes, size_t nodes_length, uint8_t *bytes,
                             size_t bytes_length, struct fastcat_counts *taken);

/* The end of the stream: refused as Truncated inside a message or a block. What waits stays. */
uint32_t fastcat_reader_finish(struct fastcat_reader *reader, struct fastcat_answer *answer);

/* The beginning of a new stream, from undefined entries; what waits is forgotten, and a refusal too. */
uint32_t fastcat_reader_reset(struct fastcat_reader *reader);

/* Ends the handle, which is zeros again; a second call does nothing. */
void fastcat_reader_free(struct fastcat_reader *reader);

/* ---- messages of nodes written */

/* A writer at a place of a stream, by a handle as a set's: zeros before the first call, and again once it was freed. */
struct fastcat_writer {
  void *at;
  uint32_t there;
};

/* Puts a writer at the beginning of a stream behind the handle; what the handle had before is freed. It has a share of the
 * templates as a reader has. */
uint32_t fastcat_writer_new(struct fastcat_set *set, struct fastcat_writer *writer);

/* Writes the messages that the nodes are, one after the other, until one is refused: waiting->messages of them, of
 * waiting->used nodes. Their canonical bytes wait in the writer, behind those that waited; waiting->bytes of them are there. Of
 * nodes the instruction is not looked at but that of a MESSAGE. FASTCAT_NO_MESSAGE: the rest of the nodes does not begin with a
 * MESSAGE and as many nodes as it says. FASTCAT_LINE_REFUSED: that message has no template (FASTCAT_D9), is not of its shape
 * (FASTCAT_MISMATCH), or has no form behind those before. In both cases message says which it is of this call, from 1, and
 * nothing of it was written. */
uint32_t fastcat_writer_put(struct fastcat_writer *writer, const struct fastcat_node *nodes, size_t nodes_length,
                            const uint8_t *bytes, size_t bytes_length, struct fastcat_counts *waiting,
                            struct fastcat_answer *answer);

/* Puts the bytes that wait, all or none, into the front of the room, and forgets them; where the room is too short, taken->bytes
 * says how many wait. */
uint32_t fastcat_writer_take(struct fastcat_writer *writer, uint8_t *room, size_t room_length, struct fastcat_counts *taken);

/* The beginning of a new stream, from undefined entries; what waits is forgotten. */
uint32_t fastcat_writer_reset(struct fastcat_writer *writer);

/* Ends the handle, which is zeros again; a second call does nothing. */
void fastcat_writer_free(struct fastcat_writer *writer);

/* The node behind this one and all that are its own: the next field, element or message. */
static inline const struct fastcat_node *fastcat_next(const struct fastcat_node *node) {
  return node + 1 + (node->kind == FASTCAT_MESSAGE || node->kind >= FASTCAT_GROUP ? node->length : 0);
}

/* The field of a message, group or element that stands at a place, from 0. */
static inline const struct fastcat_node *fastcat_at(const struct fastcat_node *segment, size_t place) {
  const struct fastcat_node *node = segment + 1;
  while (place--) node = fastcat_next(node);
  return node;
}

#ifdef __cplusplus
}
#endif

#endif
