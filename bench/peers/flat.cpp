// FlatBuffers: written by a builder from values, checked by a Verifier, read back by UnPack after a check. A sorted map is a vector of tables with a key.
#include "sets_generated.h"
#include "values.h"

using flatbuffers::FlatBufferBuilder;
using flatbuffers::Offset;

static Offset<flat::Number> put(FlatBufferBuilder& b, Number const& v) { return flat::CreateNumber(b, v.value); }
static Offset<flat::Words> put(FlatBufferBuilder& b, Words const& v) { return flat::CreateWords(b, b.CreateString(v.text)); }
static Offset<flat::Record> put(FlatBufferBuilder& b, Record const& v) {
  auto text = b.CreateString(v.text);
  Offset<flatbuffers::Vector<int32_t>> list = v.list ? b.CreateVector(*v.list) : 0;
  return flat::CreateRecord(b, v.byte, text, list);
}
static Offset<flat::Numbers> put(FlatBufferBuilder& b, Numbers const& v) { return flat::CreateNumbers(b, b.CreateVector(v.values)); }
static Offset<flat::Rows> put(FlatBufferBuilder& b, Rows const& v) {
  std::vector<Offset<flat::Row>> rows;
  rows.reserve(v.rows.size());
  for (auto const& row : v.rows) {
    auto name = b.CreateString(row.name);
    auto values = b.CreateVector(row.values);
    rows.push_back(flat::CreateRow(b, row.id, name, values));
  }
  return flat::CreateRows(b, b.CreateVector(rows));
}
static Offset<flat::Node> put(FlatBufferBuilder& b, Node const& v) {
  Offset<flat::Node> last = flat::CreateNode(b);
  for (Node const* node = v.next.get(); node; node = node->next.get()) last = flat::CreateNode(b, last);
  return last;
}

static Offset<flat::Entries> put(FlatBufferBuilder& b, Entries const& v) {
  std::vector<Offset<flat::Entry>> entries;
  entries.reserve(v.entries.size());
  for (auto const& [key, value] : v.entries) entries.push_back(flat::CreateEntry(b, key, value));
  return flat::CreateEntries(b, b.CreateVector(entries));
}
static Offset<flat::TextEntries> put(FlatBufferBuilder& b, TextEntries const& v) {
  std::vector<Offset<flat::TextEntry>> entries;
  entries.reserve(v.entries.size());
  for (auto const& [key, value] : v.entries) entries.push_back(flat::CreateTextEntry(b, b.CreateString(key), value));
  return flat::CreateTextEntries(b, b.CreateVector(entries));
}

ROOTS(flat)
namespace flat {
ROOT_OF(Entries) ROOT_OF(TextEntries)
}

template <class Value> struct Flat : Case {
  using Root = typename flat::RootOf<Value>::Root;
  Value value;
  bool limited;
  FlatBufferBuilder kept;
  std::vector<uint8_t> written;

  Flat(Value v, bool limited) : value(std::move(v)), limited(limited) {
    kept.Finish(put(kept, value));
    written.assign(kept.GetBufferPointer(), kept.GetBufferPointer() + kept.GetSize());
  }
  size_t bytes() const override { return written.size(); }

  // With its own limits (64 levels, a million tables), or with none to speak of.
  bool verify() const {
    flatbuffers::Verifier verifier(written.data(), written.size(), limited ? 64 : 1u << 31, limited ? 1000000 : 1u << 31);
    return verifier.VerifyBuffer<Root>(nullptr);
  }
  uint64_t once(int operation) {
    hide(value);
    hide(*written.data());
    switch (operation) {
      case WRITE_NEW: {
        FlatBufferBuilder fresh;
        fresh.Finish(put(fresh, value));
        hide(*fresh.GetBufferPointer());
        return fresh.GetSize();
      }
      case WRITE_REUSED: {
        kept.Clear();
        kept.Finish(put(kept, value));
        hide(*kept.GetBufferPointer());
        return kept.GetSize();
      }
      case CHECK: return verify() ? 1 : REFUSED;
      default: {
        if (!verify()) return REFUSED;
        std::unique_ptr<typename Root::NativeTableType> back(flatbuffers::GetRoot<Root>(written.data())->UnPack());
        hide(*back);
        return 1;
      }
    }
  }
  uint64_t run(int operation, size_t count) override {
    uint64_t total = 0;
    for (size_t i = 0; i < count; i++) {
      uint64_t one = once(operation);
      if (one == REFUSED) return REFUSED;
      total += one;
    }
    return total;
  }
};

// A sorted map, in which keys are also looked up.
template <class Value, class Key> struct FlatMap : Flat<Value> {
  std::vector<Key> keys;
  explicit FlatMap(Value v) : Flat<Value>(std::move(v), false) {
    for (auto const& [key, value] : this->value.entries) keys.push_back(key);
  }
  static uint32_t as_key(uint32_t key) { return key; }
  static char const* as_key(std::string const& key) { return key.c_str(); }

  uint64_t run(int operation, size_t count) override {
    if (operation != GET) return Flat<Value>::run(operation, count);
    hide(*this->written.data());
    auto entries = flatbuffers::GetRoot<typename Flat<Value>::Root>(this->written.data())->entries();
    uint64_t total = 0;
    size_t index = 0;
    for (size_t i = 0; i < count; i++) {
      if (auto entry = entries->LookupByKey(as_key(keys[index]))) total += entry->value();
      index = (index + STRIDE) % keys.size();
    }
    return total;
  }
};

static Case* make_map(int set, size_t size) {
  switch (set) {
    case MAP: return new FlatMap<Entries, uint32_t>(make_entries(size));
    case TEXT_MAP: return new FlatMap<TextEntries, std::string>(make_text_entries(size));
    default: return nullptr;
  }
}

PEER(flat, Flat, make_map)
