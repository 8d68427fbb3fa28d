// The values of the data sets in C++, and what the driver calls of a peer.
#pragma once
#include <cstddef>
#include <cstdint>
#include <cstdio>
#include <map>
#include <memory>
#include <optional>
#include <string>
#include <vector>

struct Number { uint32_t value; };
struct Words { std::string text; };
struct Record { uint8_t byte; std::string text; std::optional<std::vector<int32_t>> list; };
struct Numbers { std::vector<uint32_t> values; };
struct Row { uint64_t id; std::string name; std::vector<uint32_t> values; };
struct Rows { std::vector<Row> rows; };

struct Entries { std::map<uint32_t, uint32_t> entries; };
struct TextEntries { std::map<std::string, uint32_t> entries; };

// A chain of boxes. It is freed from the front, so that a long one needs no deep stack.
struct Node {
  std::unique_ptr<Node> next;
  Node() = default;
  explicit Node(std::unique_ptr<Node> next) : next(std::move(next)) {}
  Node(Node&&) = default;
  ~Node() { while (next) next = std::unique_ptr<Node>(std::move(next->next)); }
};

// The sets as the driver numbers them.
enum SetNumber { NUMBER, WORDS, RECORD, NUMBERS, ROWS, LIST, MAP, TEXT_MAP };
enum OperationNumber { WRITE_NEW, WRITE_REUSED, CHECK, READ, GET };

// How far apart in the list of keys two look-ups are.
constexpr size_t STRIDE = 7919;

// What a run answers where the peer refuses the bytes.
constexpr uint64_t REFUSED = UINT64_MAX;

// One set in one format. A run carries an operation out `count` times and answers a number that depends on each result.
struct Case {
  virtual ~Case() {}
  virtual uint64_t run(int operation, size_t count) = 0;
  virtual size_t bytes() const = 0;
};

inline Number make_number() { return {42}; }
inline Words make_words(size_t n) {
  Words w;
  if (n == 11) w.text = "hello world";
  else for (size_t i = 0; i < n; i++) w.text.push_back(char('a' + i % 26));
  return w;
}
inline Record make_record() { return {42, "hello world", std::vector<int32_t>{1, 2, 3, 4}}; }
inline uint32_t number(size_t i) { return uint32_t(i) * 2654435761u; }
inline Numbers make_numbers(size_t n) {
  Numbers v;
  for (size_t i = 0; i < n; i++) v.values.push_back(number(i));
  return v;
}
inline std::string make_name(size_t i) {
  char name[48];
  snprintf(name, sizeof name, "record-name-%08u", unsigned(i));
  return name;
}
inline Rows make_rows(size_t n) {
  Rows v;
  for (size_t i = 0; i < n; i++) {
    Row row{uint64_t(i) * 7919, make_name(i), {}};
    for (uint32_t k = 0; k < 8; k++) row.values.push_back(uint32_t(i) ^ (k * 77));
    v.rows.push_back(std::move(row));
  }
  return v;
}
inline Node make_list(size_t n) {
  std::unique_ptr<Node> front;
  for (size_t i = 0; i < n; i++) {
    auto node = std::make_unique<Node>();
    node->next = std::move(front);
    front = std::move(node);
  }
  return Node(std::move(front));
}

inline Entries make_entries(size_t n) {
  Entries v;
  for (size_t i = 0; i < n; i++) v.entries.emplace_hint(v.entries.end(), uint32_t(i) * 3, number(i));
  return v;
}
inline TextEntries make_text_entries(size_t n) {
  TextEntries v;
  for (size_t i = 0; i < n; i++) v.entries.emplace_hint(v.entries.end(), make_name(i), number(i));
  return v;
}

// Each value's root in a schema, whose namespace has it under the value's own name.
#define ROOT_OF(Value) template <> struct RootOf<::Value> { using Root = Value; };
#define ROOTS(schema)                                                                                                 \
  namespace schema {                                                                                                  \
  template <class Value> struct RootOf;                                                                               \
  ROOT_OF(Number) ROOT_OF(Words) ROOT_OF(Record) ROOT_OF(Numbers) ROOT_OF(Rows) ROOT_OF(Node)                         \
  }

// Hides from the compiler that a value is the same in each round.
template <class T> inline void hide(T const& value) { asm volatile("" : : "r"(&value) : "memory"); }

template <template <class> class Make> Case* make_case(int set, size_t size, bool limited) {
  switch (set) {
    case NUMBER: return new Make<Number>(make_number(), limited);
    case WORDS: return new Make<Words>(make_words(size), limited);
    case RECORD: return new Make<Record>(make_record(), limited);
    case NUMBERS: return new Make<Numbers>(make_numbers(size), limited);
    case ROWS: return new Make<Rows>(make_rows(size), limited);
    case LIST: return new Make<Node>(make_list(size), limited);
    default: return nullptr;
  }
}

// The calls of one peer. `more` makes the sets that only this one has.
#define PEER(name, Make, more)                                                                                              \
  extern "C" Case* name##_make(int set, size_t size, bool limited) {                                                  \
    Case* made = make_case<Make>(set, size, limited);                                                                 \
    return made ? made : more(set, size);                                                                             \
  }                                                                                                                   \
  extern "C" size_t name##_bytes(Case* c) { return c->bytes(); }                                                      \
  extern "C" uint64_t name##_run(Case* c, int operation, size_t count) { return c->run(operation, count); }           \
  extern "C" void name##_free(Case* c) { delete c; }
