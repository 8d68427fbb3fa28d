# The data sets, for Cap'n Proto. A root is a struct, so a number and a text stand in one.
@0xb1f3a0c9d2e47586;

using Cxx = import "/capnp/c++.capnp";
$Cxx.namespace("proto");

struct Number { value @0 :UInt32; }
struct Words { text @0 :Text; }
struct Record {
  byte @0 :UInt8;
  text @1 :Text;
  list :union {
    none @2 :Void;
    some @3 :List(Int32);
  }
}
struct Numbers { values @0 :List(UInt32); }
struct Row {
  id @0 :UInt64;
  name @1 :Text;
  values @2 :List(UInt32);
}
struct Rows { rows @0 :List(Row); }
struct Node { next @0 :Node; }
