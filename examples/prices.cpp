// A feed handler: prints the entries of market data, as the packets of a feed come.
//
//   prices TEMPLATES.json RECORDING             packets of a file, each behind its size (tools/pcap-packets makes it of a capture)
//   prices TEMPLATES.json --udp PORT [GROUP]    datagrams of a port, of a multicast group where one is named; an empty one ends it
//
// A line is the packet's number, the symbol, the type of the entry, its price and its size. A packet that is refused is told on
// standard error, and the next one is read: each is a stream of its own.
#include <fastcat.h>

#include <arpa/inet.h>
#include <sys/socket.h>
#include <unistd.h>

#include <cstdio>
#include <cstdlib>
#include <fstream>
#include <functional>
#include <iterator>
#include <map>
#include <optional>
#include <stdexcept>
#include <string>
#include <string_view>
#include <vector>

namespace {

// ---- templates

using Bytes = std::vector<uint8_t>;

Bytes file_of(const std::string &name) {
  std::ifstream file(name, std::ios::binary);
  if (!file) throw std::runtime_error(name + " cannot be read");
  return Bytes(std::istreambuf_iterator<char>(file), {});
}

// Where a template's messages have what is printed: places among the fields of a message, or of an entry.
struct Columns {
  size_t entries;
  std::optional<size_t> symbol_of_message, symbol, type;
  size_t price, size;
};

class Templates {
 public:
  explicit Templates(const Bytes &text) {
    fastcat_answer answer;
    if (fastcat_set_new(text.data(), text.size(), &set_, &answer) != FASTCAT_DONE)
      throw std::runtime_error(std::string("templates: ") + fastcat_status_name(answer.status) + " " + fastcat_cause_name(answer.cause));
    fastcat_sizes sizes;
    fastcat_set_fields(&set_, nullptr, 0, nullptr, 0, &sizes);
    fields_.resize(sizes.fields);
    names_.resize(sizes.names);
    if (fastcat_set_fields(&set_, fields_.data(), fields_.size(), names_.data(), names_.size(), &sizes) != FASTCAT_DONE)
      throw std::bad_alloc();
    for (const fastcat_field *f = fields_.data(); f < fields_.data() + fields_.size(); f = fastcat_next_field(f))
      if (auto columns = columns_of(f)) columns_.emplace(f->instruction, *columns);
  }
  Templates(const Templates &) = delete;
  ~Templates() { fastcat_set_free(&set_); }

  fastcat_set *set() { return &set_; }

  // None of a template without prices.
  const Columns *columns(uint32_t id) const {
    auto found = columns_.find(id);
    return found == columns_.end() ? nullptr : &found->second;
  }

 private:
  std::string_view name(const fastcat_field *field) const {
    return {reinterpret_cast<const char *>(names_.data()) + field->name, static_cast<size_t>(field->name_length)};
  }

  // The place of a field of this name and kind, of those that are a field's own.
  std::optional<size_t> place(const fastcat_field *of, std::string_view wanted, uint32_t kind) const {
    size_t place = 0;
    const fastcat_field *behind = fastcat_next_field(of);
    for (const fastcat_field *f = of + 1; f < behind; f = fastcat_next_field(f), place++)
      if (f->kind == kind && name(f) == wanted) return place;
    return std::nullopt;
  }

  std::optional<Columns> columns_of(const fastcat_field *of) const {
    size_t at = 0;
    const fastcat_field *behind = fastcat_next_field(of);
    for (const fastcat_field *f = of + 1; f < behind; f = fastcat_next_field(f), at++) {
      if (f->kind != FASTCAT_SEQUENCE) continue;
      auto price = place(f, "MDEntryPx", FASTCAT_DECIMAL), size = place(f, "MDEntrySize", FASTCAT_DECIMAL);
      if (price && size)
        return Columns{at, place(of, "Symbol", FASTCAT_ASCII), place(f, "Symbol", FASTCAT_ASCII),
                       place(f, "MDEntryType", FASTCAT_ASCII), *price, *size};
    }
    return std::nullopt;
  }

  fastcat_set set_{};
  std::vector<fastcat_field> fields_;
  Bytes names_;
  std::map<uint32_t, Columns> columns_;
};

// ---- values

// A decimal with all its digits: 25000 and -2 are 250.00.
std::string decimal(int64_t mantissa, int32_t exponent) {
  std::string digits = std::to_string(mantissa);
  std::string sign = digits[0] == '-' ? "-" : "";
  digits.erase(0, sign.size());
  if (exponent >= 0) return sign + digits + (mantissa == 0 ? "" : std::string(static_cast<size_t>(exponent), '0'));
  size_t behind = static_cast<size_t>(-exponent);
  if (digits.size() <= behind) digits.insert(0, behind + 1 - digits.size(), '0');
  return sign + digits.insert(digits.size() - behind, ".");
}

std::string text_of(const fastcat_node *node, const Bytes &bytes) {
  if (node->kind == FASTCAT_ABSENT) return "-";
  if (node->kind == FASTCAT_DECIMAL) return decimal(node->mantissa, node->exponent);
  return {reinterpret_cast<const char *>(bytes.data()) + node->number, node->length};
}

// ---- packets

class Prices {
 public:
  explicit Prices(Templates &templates) : templates_(templates) {
    if (fastcat_reader_new(templates.set(), 0, 0, &reader_) != FASTCAT_DONE) throw std::bad_alloc();
  }
  Prices(const Prices &) = delete;
  ~Prices() { fastcat_reader_free(&reader_); }

  void packet(const uint8_t *packet, size_t length) {
    packets_++;
    fastcat_counts waiting;
    fastcat_answer answer;
    uint32_t status = fastcat_reader_packet(&reader_, packet, length, &waiting, &answer);
    print(waiting);
    // (more waits than a reader holds: only where a packet has thousands of fields)
    for (size_t at = waiting.used; status == FASTCAT_DONE && at < length; at += waiting.used) {
      status = fastcat_reader_feed(&reader_, packet + at, length - at, &waiting, &answer);
      print(waiting);
      if (status == FASTCAT_DONE && at + waiting.used == length) status = fastcat_reader_finish(&reader_, &answer);
    }
    if (status != FASTCAT_DONE)
      std::fprintf(stderr, "packet %llu: %s %s at message %llu, offset %llu\n", packets_, fastcat_status_name(status),
                   fastcat_cause_name(answer.cause), static_cast<unsigned long long>(answer.message),
                   static_cast<unsigned long long>(answer.offset));
  }

 private:
  void print(const fastcat_counts &waiting) {
    if (waiting.nodes > nodes_.size()) nodes_.resize(waiting.nodes);
    if (waiting.bytes > bytes_.size()) bytes_.resize(waiting.bytes);
    fastcat_counts taken;
    if (fastcat_reader_take(&reader_, nodes_.data(), nodes_.size(), bytes_.data(), bytes_.size(), &taken) != FASTCAT_DONE) return;
    for (const fastcat_node *m = nodes_.data(); m < nodes_.data() + taken.nodes; m = fastcat_next(m))
      if (const Columns *columns = templates_.columns(m->instruction)) print(m, *columns);
  }

  void print(const fastcat_node *message, const Columns &columns) {
    const fastcat_node *entries = fastcat_at(message, columns.entries), *behind = fastcat_next(entries);
    if (entries->kind == FASTCAT_ABSENT) return;
    for (const fastcat_node *entry = entries + 1; entry < behind; entry = fastcat_next(entry)) {
      auto text = [&](const fastcat_node *of, std::optional<size_t> place) {
        return place ? text_of(fastcat_at(of, *place), bytes_) : "-";
      };
      std::string symbol = columns.symbol ? text(entry, columns.symbol) : text(message, columns.symbol_of_message);
      std::printf("%llu %s %s %s %s\n", packets_, symbol.c_str(), text(entry, columns.type).c_str(), text(entry, columns.price).c_str(),
                  text(entry, columns.size).c_str());
    }
  }

  Templates &templates_;
  fastcat_reader reader_{};
  unsigned long long packets_ = 0;
  std::vector<fastcat_node> nodes_;
  Bytes bytes_;
};

void of_recording(const Bytes &recording, Prices &prices) {
  fastcat_counts packet;
  fastcat_answer answer;
  for (size_t at = 0; at < recording.size(); at += packet.bytes) {
    if (fastcat_packet_size(0, recording.data() + at, recording.size() - at, &packet, &answer) != FASTCAT_DONE)
      throw std::runtime_error(std::string("a size is refused: ") + fastcat_cause_name(answer.cause));
    at += packet.used;
    if (packet.bytes > recording.size() - at) throw std::runtime_error("the recording is cut");
    prices.packet(recording.data() + at, packet.bytes);
  }
}

void of_port(uint16_t port, const char *group, Prices &prices) {
  int from = socket(AF_INET, SOCK_DGRAM, 0);
  sockaddr_in here{};
  here.sin_family = AF_INET;
  here.sin_port = htons(port);
  if (from < 0 || bind(from, reinterpret_cast<sockaddr *>(&here), sizeof here) != 0) throw std::runtime_error("the port cannot be read");
  if (group) {
    ip_mreq wanted{};
    if (inet_pton(AF_INET, group, &wanted.imr_multiaddr) != 1 ||
        setsockopt(from, IPPROTO_IP, IP_ADD_MEMBERSHIP, &wanted, sizeof wanted) != 0)
      throw std::runtime_error("the group cannot be joined");
  }
  std::puts("ready");
  std::fflush(stdout);
  uint8_t packet[65536];
  for (ssize_t length; (length = recv(from, packet, sizeof packet, 0)) > 0; std::fflush(stdout))
    prices.packet(packet, static_cast<size_t>(length));
  close(from);
}

}  // namespace

int main(int count, char **words) {
  if (count < 3) {
    std::fprintf(stderr, "use: prices TEMPLATES.json RECORDING, or prices TEMPLATES.json --udp PORT [GROUP]\n");
    return 2;
  }
  try {
    Templates templates(file_of(words[1]));
    Prices prices(templates);
    if (std::string(words[2]) == "--udp" && count > 3) {
      of_port(static_cast<uint16_t>(std::atoi(words[3])), count > 4 ? words[4] : nullptr, prices);
    } else {
      of_recording(file_of(words[2]), prices);
    }
  } catch (const std::exception &error) {
    std::fprintf(stderr, "%s\n", error.what());
    return 1;
  }
}
