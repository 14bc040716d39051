// SPDX-License-Identifier: Apache-2.0
// A plugin for Ceph's erasure-coded pools over libcuzhaveli.a, compiled against the headers of the very Ceph that loads
// it. docs/CEPH.md tells how to build and use it, what is proved, and why reads are whole unless the profile asks.
//
// Profile: plugin=cuzhaveli k=2..31 m=2 [w=PRIME] [cell=64..4096] [reads=whole|partial]
//
// A chunk is a disk's part of stripes of the library: w sub-chunks, one for each row, so a sub-chunk is a cell. Cells
// longer than the library's are several stripes side by side: bytes [at, at + s) of every cell are one of them. All that
// is computed on bytes is done by the library's calls; here they are only put in their places.
#include <algorithm>
#include <cerrno>
#include <cstring>
#include <new>

#include "include/buffer.h"
#include "include/rados.h" // CEPH_PG_TYPE_ERASURE
#include "crush/CrushWrapper.h"
#include "erasure-code/ErasureCodeInterface.h"
#include "erasure-code/ErasureCodePlugin.h"
#include "ceph_ver.h"

#include <cuzhaveli.h>

using namespace ceph;
using std::map;
using std::ostream;
using std::pair;
using std::set;
using std::string;
using std::vector;
using Rows = vector<pair<int, int>>; // first row and number of rows, as Ceph names sub-chunks
using Ranges = map<int, Rows>;
using Chunks = map<int, bufferlist>;

namespace {

constexpr size_t PARITIES = 2;
constexpr size_t LEAST_DISKS = 2;
constexpr size_t CELL_UNIT = 64; // a cell is a multiple of it: the library's XOR goes by blocks of 64 bytes
constexpr unsigned ALIGNMENT = 64;
const string WHOLE = "whole", PARTIAL = "partial";

// Ceph's callers expect a number and no exception.
template <class F> int guarded(F work) noexcept
{
  try {
    return work();
  } catch (const std::bad_alloc &) {
    return -ENOMEM;
  } catch (...) {
    return -EIO;
  }
}

size_t count_rows(const Rows &rows)
{
  size_t all = 0;
  for (auto &range : rows)
    all += range.second;
  return all;
}

void add_row(Rows *rows, int row)
{
  if (!rows->empty() && rows->back().first + rows->back().second == row)
    rows->back().second++;
  else
    rows->emplace_back(row, 1);
}

set<int> names(const Chunks &chunks)
{
  set<int> all;
  for (auto &one : chunks)
    all.insert(one.first);
  return all;
}

bool has_all(const set<int> &available, const set<int> &want)
{
  return std::includes(available.begin(), available.end(), want.begin(), want.end());
}

// A stripe of the library: bytes [at, at + s) of every cell of the chunks, s = shape.cell_size.
struct Stripe {
  cuzhaveli_shape shape;
  size_t cell; // of the chunks
  size_t at;
  vector<uint8_t> bytes;

  uint8_t *row(size_t disk, size_t i) { return bytes.data() + CUZHAVELI_CELL(shape.width, i, disk) * shape.cell_size; }
  void put(size_t disk, const char *chunk, const Rows &rows) // the chunk holds these rows alone, one after another
  {
    for (auto &[first, n] : rows)
      for (int i = first; i < first + n; i++, chunk += cell)
        memcpy(row(disk, i), chunk + at, shape.cell_size);
  }
  void get(const uint8_t *column, char *chunk) const
  {
    for (size_t i = 0; i < shape.width; i++)
      memcpy(chunk + i * cell + at, column + i * shape.cell_size, shape.cell_size);
  }
};

class Code final : public ErasureCodeInterface {
  size_t p = 0, k = 0, unit = 0; // unit: of cells, in bytes
  bool partial = false;
  Rows whole;
  vector<Ranges> asked; // for each lost data disk the rows read of each other disk; empty where whole reads read no more
  ErasureCodeProfile profile_;
  string root, domain, device_class;
  vector<int> no_mapping;

  static string take(ErasureCodeProfile &profile, const char *name, const string &otherwise)
  {
    string &value = profile[name];
    if (value.empty())
      value = otherwise;
    return value;
  }

  static bool take_number(ErasureCodeProfile &profile, const char *name, size_t otherwise, size_t least, size_t most,
                          size_t *number, ostream *ss)
  {
    string text = take(profile, name, std::to_string(otherwise));
    bool digits = text.size() <= 6 && text.find_first_not_of("0123456789") == string::npos;
    *number = digits ? std::stoul(text) : 0;
    if (digits && *number >= least && *number <= most)
      return true;
    *ss << "cuzhaveli: " << name << "=" << text << " is not a number from " << least << " to " << most << std::endl;
    return false;
  }

  int take_shape(ErasureCodeProfile &profile, ostream *ss)
  {
    size_t m, least;
    if (!take_number(profile, "k", 5, LEAST_DISKS, CUZHAVELI_MAX_WIDTH, &k, ss) ||
        !take_number(profile, "m", PARITIES, PARITIES, PARITIES, &m, ss) ||
        !take_number(profile, "cell", CUZHAVELI_MAX_CELL_SIZE, CELL_UNIT, CUZHAVELI_MAX_CELL_SIZE, &unit, ss))
      return -EINVAL;
    for (least = k; cuzhaveli_balanced_plan(least, k, 0).answer.refusal != CUZHAVELI_OK;) // 31 is a width, k at most 31
      least++;
    if (!take_number(profile, "w", least, least, CUZHAVELI_MAX_WIDTH, &p, ss))
      return -EINVAL;
    if (cuzhaveli_balanced_plan(p, k, 0).answer.refusal != CUZHAVELI_OK) {
      *ss << "cuzhaveli: w=" << p << " is not one of 3, 5, 7, 11, 13, 17, 19, 23, 29, 31" << std::endl;
      return -EINVAL;
    }
    if (unit % CELL_UNIT) {
      *ss << "cuzhaveli: cell=" << unit << " is not a multiple of " << CELL_UNIT << std::endl;
      return -EINVAL;
    }
    return 0;
  }

  // The rows that the balanced plan reads of each disk, filled up to the busiest's number: ECUtil::decode cuts the parts of
  // all disks alike. Left empty where that reads as much as k whole chunks.
  int plan_reads(size_t lost, Ranges *ranges) const
  {
    vector<uint8_t> plan(CUZHAVELI_PLAN_BYTES(p)), list(CUZHAVELI_LIST_BYTES(p, k));
    auto balanced = cuzhaveli_balanced_plan(p, k, lost);
    cuzhaveli_plan_bytes(&balanced, p, plan.data());
    if (balanced.answer.refusal != CUZHAVELI_OK ||
        cuzhaveli_plan_list(p, k, lost, plan.data(), plan.size(), list.data(), list.size()).refusal != CUZHAVELI_OK)
      return -EINVAL;
    auto column = [&](size_t disk) { return list.begin() + disk * p; };
    size_t most = 0;
    for (size_t d = 0; d < k + PARITIES; d++)
      most = std::max<size_t>(most, std::count(column(d), column(d + 1), 1));
    if (most * (k + 1) >= k * p)
      return 0;
    for (size_t d = 0; d < k + PARITIES; d++) {
      if (d == lost)
        continue;
      auto mine = column(d);
      size_t more = most - std::count(mine, mine + p, 1);
      for (bool beside : {true, false}) // first next to what is read anyway, for fewer and longer reads
        for (size_t i = 0; i < p && more > 0; i++)
          if (!mine[i] && (!beside || (i > 0 && mine[i - 1]) || (i + 1 < p && mine[i + 1])))
            mine[i] = 1, more--;
      for (size_t i = 0; i < p; i++)
        if (mine[i])
          add_row(&(*ranges)[d], i);
    }
    return 0;
  }

  // The partial reads for this loss, or null where chunks are read whole.
  const Ranges *partial_reads(const set<int> &want, const set<int> &available) const
  {
    if (!partial || want.size() != 1 || available.size() != k + 1 || available.count(*want.begin()) ||
        *want.begin() >= (int)k || asked[*want.begin()].empty())
      return nullptr;
    return &asked[*want.begin()];
  }

  bool known(const set<int> &disks) const
  {
    return disks.empty() || (*disks.begin() >= 0 && *disks.rbegin() < (int)(k + PARITIES));
  }

  template <class F> int each_stripe(size_t chunk, F work) const
  {
    if (chunk == 0 || chunk % p)
      return -EINVAL;
    Stripe stripe{{p, k, 0}, chunk / p, 0, {}};
    for (; stripe.at < stripe.cell; stripe.at += stripe.shape.cell_size) {
      stripe.shape.cell_size = std::min<size_t>(CUZHAVELI_MAX_CELL_SIZE, stripe.cell - stripe.at);
      stripe.bytes.resize(CUZHAVELI_STRIPE_BYTES(stripe.shape));
      if (int r = work(stripe))
        return r;
    }
    return 0;
  }

  // Writes the lost chunks (one or two; a null pointer: not wanted) from parts of the others.
  int rebuild(const map<int, char *> &lost, const map<int, const char *> &from, const Ranges *reads, size_t size) const
  {
    vector<uint8_t> column;
    return each_stripe(size, [&](Stripe &stripe) -> int {
      auto &shape = stripe.shape;
      for (auto &[disk, chunk] : from)
        stripe.put(disk, chunk, reads ? reads->at(disk) : whole);
      auto first = *lost.begin(), last = *lost.rbegin();
      if (lost.size() == 2) {
        if (cuzhaveli_rebuild_two(shape, first.first, last.first, stripe.bytes.data(), stripe.bytes.size()).refusal !=
            CUZHAVELI_OK)
          return -EIO;
        for (auto &[disk, to] : lost)
          if (to)
            stripe.get(stripe.row(disk, 0), to);
        return 0;
      }
      column.resize(CUZHAVELI_COLUMN_BYTES(shape));
      if (cuzhaveli_rebuild_balanced(shape, first.first, stripe.bytes.data(), stripe.bytes.size(), column.data(),
                                     column.size()).refusal != CUZHAVELI_OK)
        return -EIO;
      if (first.second)
        stripe.get(column.data(), first.second);
      return 0;
    });
  }

  int decode_parts(const set<int> &want, const Chunks &chunks, Chunks *decoded, size_t chunk_size) const
  {
    const set<int> available = names(chunks);
    if (!known(want) || !known(available))
      return -EINVAL;
    if (has_all(available, want)) {
      for (int d : want)
        (*decoded)[d] = chunks.at(d);
      return 0;
    }
    if (available.size() < k)
      return -EIO;
    size_t given = chunks.begin()->second.length(), size = chunk_size ? chunk_size : given;
    const Ranges *reads = given == size ? nullptr : partial_reads(want, available);
    if (size % p || (given != size && (!reads || given != count_rows(reads->begin()->second) * (size / p))))
      return -EINVAL;
    Chunks held;
    map<int, char *> lost;
    map<int, const char *> from;
    for (int d = 0; d < (int)(k + PARITIES); d++) {
      auto found = chunks.find(d);
      if (found != chunks.end()) {
        if (found->second.length() != given)
          return -EINVAL;
        held[d] = found->second;
        from[d] = held[d].c_str();
      } else if (want.count(d)) {
        held[d].push_back(buffer::create_aligned(size, ALIGNMENT));
        lost[d] = held[d].c_str();
      } else {
        lost[d] = nullptr;
      }
    }
    int r = rebuild(lost, from, reads, size);
    for (int d : want)
      if (r == 0)
        (*decoded)[d] = std::move(held[d]);
    return r;
  }

  int least_reads(const set<int> &want, const set<int> &available, Ranges *minimum) const
  {
    if (!known(want) || !known(available))
      return -EINVAL;
    if (has_all(available, want)) {
      for (int d : want)
        (*minimum)[d] = whole;
      return 0;
    }
    if (available.size() < k)
      return -EIO;
    if (auto reads = partial_reads(want, available)) {
      *minimum = *reads;
      return 0;
    }
    size_t room = k; // data before P before Q, and whatever is wanted and there
    for (int d : available)
      if (room > 0 || want.count(d)) {
        (*minimum)[d] = whole;
        room -= room > 0;
      }
    return 0;
  }

  int cut(const bufferlist &in, Chunks *encoded) const
  {
    size_t chunk = get_chunk_size(in.length());
    for (size_t d = 0; d < k + PARITIES; d++) {
      size_t from = std::min<size_t>(d * chunk, in.length());
      size_t have = d < k ? std::min<size_t>(chunk, in.length() - from) : 0;
      bufferlist one;
      one.substr_of(in, from, have);
      if (have < chunk) { // the end of the object is filled up with zeros; P and Q get memory of their own
        bufferptr own(buffer::create_aligned(chunk, ALIGNMENT));
        if (have > 0)
          one.begin().copy(have, own.c_str());
        memset(own.c_str() + have, 0, chunk - have);
        one.clear();
        one.push_back(std::move(own));
      }
      (*encoded)[d] = std::move(one);
    }
    return chunk == 0 ? 0 : write_parity(encoded);
  }

  int write_parity(Chunks *encoded) const
  {
    vector<char *> chunk;
    for (size_t d = 0; d < k + PARITIES; d++) {
      auto found = encoded->find(d);
      if (found == encoded->end() || found->second.length() != encoded->begin()->second.length())
        return -EINVAL;
      chunk.push_back(found->second.c_str());
    }
    return each_stripe(encoded->begin()->second.length(), [&](Stripe &stripe) -> int {
      for (size_t d = 0; d < k; d++)
        stripe.put(d, chunk[d], whole);
      if (cuzhaveli_encode_stripe(stripe.shape, stripe.bytes.data(), stripe.bytes.size()).refusal != CUZHAVELI_OK)
        return -EINVAL;
      for (size_t d = k; d < k + PARITIES; d++)
        stripe.get(stripe.row(d, 0), chunk[d]);
      return 0;
    });
  }

  int take_profile(ErasureCodeProfile &profile, ostream *ss)
  {
    root = take(profile, "crush-root", "default");
    domain = take(profile, "crush-failure-domain", "host");
    device_class = take(profile, "crush-device-class", "");
    if (int r = take_shape(profile, ss))
      return r;
    string reads = take(profile, "reads", WHOLE);
    if (reads != WHOLE && reads != PARTIAL) {
      *ss << "cuzhaveli: reads=" << reads << " is neither " << WHOLE << " nor " << PARTIAL << std::endl;
      return -EINVAL;
    }
    if (profile.count("mapping")) {
      *ss << "cuzhaveli: mapping= is not known to this plugin; leave it out" << std::endl;
      return -EINVAL;
    }
    partial = reads == PARTIAL;
    whole = {{0, (int)p}};
    asked.assign(k, {});
    for (size_t d = 0; d < k; d++)
      if (int r = plan_reads(d, &asked[d]))
        return r;
    profile_ = profile;
    return 0;
  }

public:
  int init(ErasureCodeProfile &profile, ostream *ss) override
  {
    return guarded([&] { return take_profile(profile, ss); });
  }
  const ErasureCodeProfile &get_profile() const override { return profile_; }
  int create_rule(const string &name, CrushWrapper &crush, ostream *ss) const override
  {
    return guarded([&] {
      return crush.add_simple_rule(name, root, domain, device_class, "indep", CEPH_PG_TYPE_ERASURE, ss);
    });
  }
  unsigned int get_chunk_count() const override { return k + PARITIES; }
  unsigned int get_data_chunk_count() const override { return k; }
  unsigned int get_coding_chunk_count() const override { return PARITIES; }
  int get_sub_chunk_count() override { return p; }
  unsigned int get_chunk_size(unsigned int object_size) const override
  {
    size_t each = (object_size + k - 1) / k, chunk = p * unit;
    return (each + chunk - 1) / chunk * chunk;
  }
  const vector<int> &get_chunk_mapping() const override { return no_mapping; }

  int minimum_to_decode(const set<int> &want, const set<int> &available, Ranges *minimum) override
  {
    return guarded([&] { return least_reads(want, available, minimum); });
  }
  int minimum_to_decode_with_cost(const set<int> &want, const map<int, int> &available, set<int> *minimum) override
  {
    return guarded([&] {
      set<int> there;
      for (auto &one : available)
        there.insert(one.first);
      Ranges ranges;
      int r = least_reads(want, there, &ranges);
      for (auto &one : ranges)
        minimum->insert(one.first);
      return r;
    });
  }
  int encode(const set<int> &want, const bufferlist &in, Chunks *encoded) override
  {
    return guarded([&] {
      int r = known(want) ? cut(in, encoded) : -EINVAL;
      std::erase_if(*encoded, [&](auto &one) { return !want.count(one.first); });
      return r;
    });
  }
  int encode_chunks(const set<int> &, Chunks *encoded) override
  {
    return guarded([&] { return write_parity(encoded); });
  }
  int decode(const set<int> &want, const Chunks &chunks, Chunks *decoded, int chunk_size) override
  {
    return guarded([&] { return chunk_size < 0 ? -EINVAL : decode_parts(want, chunks, decoded, chunk_size); });
  }
  int decode_chunks(const set<int> &want, const Chunks &chunks, Chunks *decoded) override
  {
    return guarded([&] { return decode_parts(want, chunks, decoded, 0); });
  }
  int decode_concat(const Chunks &chunks, bufferlist *decoded) override
  {
    return guarded([&] {
      set<int> want;
      for (size_t d = 0; d < k; d++)
        want.insert(d);
      Chunks all;
      int r = decode_parts(want, chunks, &all, 0);
      for (auto &one : all)
        decoded->claim_append(one.second);
      return r;
    });
  }
};

class Plugin final : public ErasureCodePlugin {
  int factory(const string &, ErasureCodeProfile &profile, ErasureCodeInterfaceRef *erasure_code, ostream *ss) override
  {
    return guarded([&] {
      auto code = std::make_shared<Code>();
      int r = code->init(profile, ss);
      if (r == 0)
        *erasure_code = code;
      return r;
    });
  }
};

}

#define EXPORTED extern "C" __attribute__((visibility("default")))
EXPORTED const char *__erasure_code_version() { return CEPH_GIT_NICE_VER; }
EXPORTED int __erasure_code_init(char *name, char *)
{
  return guarded([&] {
    auto plugin = std::make_unique<Plugin>();
    int r = ErasureCodePluginRegistry::instance().add(name, plugin.get());
    if (r == 0)
      plugin.release();
    return r;
  });
}
