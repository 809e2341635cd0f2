/* Tests of the library as C++ calls it. */
#include "fastcat.h"

#include <cstdio>
#include <cstring>
#include <string>

namespace {

const char text[] = R"({"templates":[{"name":"T","id":5,"instructions":[{"kind":"uInt32","name":"A"}]}]})";
const char line[] = R"({"template":"T","fields":{"A":6}})";
const uint8_t wanted[] = {0xc0, 0x85, 0x86};

const uint8_t *bytes(const char *characters) { return reinterpret_cast<const uint8_t *>(characters); }

unsigned passed, failed;

void expect(bool holds, const char *what) {
  if (holds) {
    passed++;
  } else {
    failed++;
    std::printf("failed: %s\n", what);
  }
}

void texts() {
  uint8_t room[4] = {};
  fastcat_answer a{};
  expect(fastcat_templates(nullptr, 0, &a) == FASTCAT_TEMPLATES_REFUSED, "no templates");
  expect(fastcat_cause_name(a.cause) == std::string("S1") && fastcat_status_name(a.status) == std::string("templates refused"),
         "names");
  expect(fastcat_write(bytes(text), sizeof text - 1, FASTCAT_JSON, bytes(line), sizeof line - 1, room, sizeof room, &a) ==
             FASTCAT_DONE && a.messages == 1 && a.written == 3 && std::memcmp(room, wanted, 3) == 0, "write");
}

void sets() {
  fastcat_answer a{};
  fastcat_set set{}, share{};
  expect(fastcat_set_new(bytes(text), sizeof text - 1, &set, &a) == FASTCAT_DONE, "a set");
  expect(fastcat_set_share(&set, &share) == FASTCAT_DONE, "a share");
  fastcat_set_free(&set);
  expect(fastcat_set_check(&set, 0, wanted, 3, &a) == FASTCAT_WRONG_HANDLE, "a set that was freed");
  expect(fastcat_set_check(&share, 0, wanted, 3, &a) == FASTCAT_DONE && a.messages == 1, "its share");
  fastcat_field fields[2]{};
  fastcat_sizes sizes{};
  uint8_t names[2]{};
  expect(fastcat_set_fields(&share, fields, 2, names, 2, &sizes) == FASTCAT_DONE && sizes.fields == 2 && sizes.names == 2 &&
             fields[0].kind == FASTCAT_MESSAGE && fields[1].kind == FASTCAT_UINT32 &&
             fastcat_next_field(fields) == fields + 2 && std::memcmp(names, "TA", 2) == 0, "fields");
  fastcat_set_free(&share);
}

}  // namespace

int main() {
  texts();
  sets();
  std::printf("C++: %u passed, %u failed\n", passed, failed);
  return failed != 0;
}
