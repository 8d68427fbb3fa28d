// Cap'n Proto: written by a message builder from values. It has no check: each pointer is tested when it is followed, so its check is a tour that
// follows each pointer once and looks at no element of a list of numbers. Read back into values.
#include <capnp/message.h>
#include <capnp/serialize.h>
#include <kj/exception.h>
#include "sets.capnp.h"
#include "values.h"

static void put(proto::Number::Builder to, Number const& v) { to.setValue(v.value); }
static void put(proto::Words::Builder to, Words const& v) { to.setText(kj::StringPtr(v.text.data(), v.text.size())); }
template <class List, class Values> static void put_all(List to, Values const& values) {
  for (unsigned i = 0; i < values.size(); i++) to.set(i, values[i]);
}
static void put(proto::Record::Builder to, Record const& v) {
  to.setByte(v.byte);
  to.setText(kj::StringPtr(v.text.data(), v.text.size()));
  if (v.list) put_all(to.getList().initSome(v.list->size()), *v.list);
  else to.getList().setNone();
}
static void put(proto::Numbers::Builder to, Numbers const& v) { put_all(to.initValues(v.values.size()), v.values); }
static void put(proto::Rows::Builder to, Rows const& v) {
  auto rows = to.initRows(v.rows.size());
  for (unsigned i = 0; i < v.rows.size(); i++) {
    auto row = rows[i];
    row.setId(v.rows[i].id);
    row.setName(kj::StringPtr(v.rows[i].name.data(), v.rows[i].name.size()));
    put_all(row.initValues(v.rows[i].values.size()), v.rows[i].values);
  }
}
static void put(proto::Node::Builder to, Node const& v) {
  for (Node const* node = v.next.get(); node; node = node->next.get()) to = to.initNext();
}

static uint64_t tour(proto::Number::Reader from) { return from.getValue(); }
static uint64_t tour(proto::Words::Reader from) { return from.getText().size(); }
static uint64_t tour(proto::Record::Reader from) {
  auto list = from.getList();
  return from.getText().size() + (list.isSome() ? list.getSome().size() : 0);
}
static uint64_t tour(proto::Numbers::Reader from) { return from.getValues().size(); }
static uint64_t tour(proto::Rows::Reader from) {
  uint64_t total = 0;
  for (auto row : from.getRows()) total += row.getName().size() + row.getValues().size();
  return total;
}
static uint64_t tour(proto::Node::Reader from) {
  uint64_t total = 0;
  while (from.hasNext()) {
    from = from.getNext();
    total++;
  }
  return total;
}

template <class List> static auto load_all(List from) {
  std::vector<std::decay_t<decltype(from[0])>> values;
  values.reserve(from.size());
  for (auto value : from) values.push_back(value);
  return values;
}
static std::string load_text(capnp::Text::Reader from) { return std::string(from.begin(), from.size()); }
static Number load(proto::Number::Reader from) { return {from.getValue()}; }
static Words load(proto::Words::Reader from) { return {load_text(from.getText())}; }
static Record load(proto::Record::Reader from) {
  Record v{from.getByte(), load_text(from.getText()), {}};
  if (from.getList().isSome()) v.list = load_all(from.getList().getSome());
  return v;
}
static Numbers load(proto::Numbers::Reader from) { return {load_all(from.getValues())}; }
static Rows load(proto::Rows::Reader from) {
  Rows v;
  v.rows.reserve(from.getRows().size());
  for (auto row : from.getRows()) v.rows.push_back({row.getId(), load_text(row.getName()), load_all(row.getValues())});
  return v;
}
static Node load(proto::Node::Reader from) {
  Node front;
  Node* last = &front;
  while (from.hasNext()) {
    from = from.getNext();
    last->next = std::make_unique<Node>();
    last = last->next.get();
  }
  return front;
}

ROOTS(proto)

template <class Value> struct Proto : Case {
  using Root = typename proto::RootOf<Value>::Root;
  Value value;
  capnp::ReaderOptions options;
  kj::Array<capnp::word> written;
  kj::Array<capnp::word> kept;

  Proto(Value v, bool limited) : value(std::move(v)) {
    // Its own limits (64 levels, 64 MiB), or none to speak of.
    if (!limited) {
      options.traversalLimitInWords = uint64_t(1) << 40;
      options.nestingLimit = 1 << 30;
    }
    capnp::MallocMessageBuilder message;
    put(message.initRoot<Root>(), value);
    written = capnp::messageToFlatArray(message);
    kept = kj::heapArray<capnp::word>(written.size() + 64);
    memset(kept.begin(), 0, kept.size() * sizeof(capnp::word));
  }
  size_t bytes() const override { return written.size() * sizeof(capnp::word); }

  uint64_t once(int operation) {
    hide(value);
    hide(*written.begin());
    switch (operation) {
      case WRITE_NEW: {
        capnp::MallocMessageBuilder message;
        put(message.initRoot<Root>(), value);
        auto words = capnp::messageToFlatArray(message);
        hide(*words.begin());
        return words.size();
      }
      case WRITE_REUSED: {
        capnp::MallocMessageBuilder message(kept);
        put(message.initRoot<Root>(), value);
        auto segments = message.getSegmentsForOutput();
        hide(*segments[0].begin());
        return segments[0].size();
      }
      case CHECK: {
        capnp::FlatArrayMessageReader reader(written, options);
        return tour(reader.getRoot<Root>());
      }
      default: {
        capnp::FlatArrayMessageReader reader(written, options);
        Value back = load(reader.getRoot<Root>());
        hide(back);
        return 1;
      }
    }
  }
  uint64_t run(int operation, size_t count) override {
    uint64_t total = 0;
    try {
      for (size_t i = 0; i < count; i++) total += once(operation);
    } catch (kj::Exception const&) {
      return REFUSED;
    }
    return total;
  }
};

static Case* make_none(int, size_t) { return nullptr; }

PEER(proto, Proto, make_none)
