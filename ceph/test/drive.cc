// Drives the plugin without Ceph's daemons, as they would: reads parts of shards like ECBackend::handle_sub_read and has
// them decoded by Ceph's own ECUtil.cc, which is linked in. Every lost chunk of every width and number of data chunks,
// both ways to read; every pair of losses; profiles and arguments that must be refused. Prints the share that is read.
// usage: drive libec_cuzhaveli.so
#include <dlfcn.h>
#include <sys/resource.h>
#include <cstdio>
#include <cstdlib>
#include <iostream>
#include <random>
#include <sstream>
#include "include/buffer.h"
#include "erasure-code/ErasureCodePlugin.h"
#include "osd/ECUtil.h"
using namespace ceph;
using std::map;
using std::set;
using std::string;
using std::to_string;
using Ranges = map<int, std::vector<std::pair<int, int>>>;

static ErasureCodePlugin *plugin;
ErasureCodePluginRegistry ErasureCodePluginRegistry::singleton; // declared by Ceph's header; the daemons define it
ErasureCodePluginRegistry::ErasureCodePluginRegistry() = default;
ErasureCodePluginRegistry::~ErasureCodePluginRegistry() = default;
int ErasureCodePluginRegistry::add(const string &, ErasureCodePlugin *one) { plugin = one; return 0; }

#define MUST(x) do { if (!(x)) { printf("drive: line %d: %s\n", __LINE__, #x); exit(1); } } while (0)

static const int WIDTHS[] = {3, 5, 7, 11, 13, 17, 19, 23, 29, 31};
static const int STRIPES = 3; // of a shard
static std::mt19937 random_bytes(1);
static long rebuilds;

struct Pool {
  int p, k;
  unsigned chunk;
  ErasureCodeInterfaceRef code;
  ECUtil::stripe_info_t info;
  set<int> all;
  map<int, bufferlist> shards;

  Pool(int p, int k, unsigned cell, const char *reads)
    : p(p), k(k), chunk(p * cell), info(k, (uint64_t)k * p * cell)
  {
    ErasureCodeProfile profile{{"k", to_string(k)}, {"w", to_string(p)}, {"cell", "64"}, {"reads", reads}};
    MUST(plugin->factory("", profile, &code, &std::cerr) == 0 && profile == code->get_profile());
    MUST((int)code->get_chunk_count() == k + 2 && (int)code->get_data_chunk_count() == k);
    MUST(code->get_sub_chunk_count() == p && code->get_chunk_size(chunk * k) == chunk);
    for (int d = 0; d < k + 2; d++)
      all.insert(d);
    bufferptr film(buffer::create(chunk * k * STRIPES));
    for (unsigned i = 0; i + 4 <= film.length(); i += 4) {
      uint32_t word = random_bytes();
      memcpy(film.c_str() + i, &word, 4);
    }
    bufferlist in;
    in.append(film);
    MUST(ECUtil::encode(info, code, in, all, &shards) == 0);
  }

  // What the helper with these sub-chunks to read answers, as ECBackend::handle_sub_read does.
  bufferlist part(int disk, const std::vector<std::pair<int, int>> &ranges)
  {
    bufferlist out;
    for (unsigned m = 0; m < shards[disk].length(); m += chunk)
      for (auto &[first, n] : ranges) {
        bufferlist one;
        one.substr_of(shards[disk], m + first * (chunk / p), n * (chunk / p));
        out.claim_append(one);
      }
    return out;
  }

  // Rebuilds the wanted shards from the others, less the absent ones; gives the chunks' worth that was read, times p.
  size_t rebuild(const set<int> &want, const set<int> &absent)
  {
    set<int> have;
    for (int d : all)
      if (!want.count(d) && !absent.count(d))
        have.insert(d);
    Ranges least;
    MUST(code->minimum_to_decode(want, have, &least) == 0);
    map<int, bufferlist> parts, out;
    map<int, bufferlist *> to;
    size_t read = 0;
    for (auto &[d, ranges] : least) {
      MUST(have.count(d));
      parts[d] = part(d, ranges);
      read += parts[d].length() / STRIPES / (chunk / p);
    }
    for (int d : want)
      to[d] = &out[d];
    MUST(ECUtil::decode(info, code, parts, to) == 0);
    for (int d : want)
      MUST(out[d].contents_equal(shards[d]));
    rebuilds++;
    return read;
  }

  void pairs()
  {
    for (int x = 0; x < k + 2; x++)
      for (int y = x + 1; y < k + 2; y++) {
        MUST(rebuild({x, y}, {}) == (size_t)k * p);
        MUST(rebuild({x}, {y}) == (size_t)k * p && rebuild({y}, {x}) == (size_t)k * p);
        map<int, bufferlist> left = shards;
        left.erase(x), left.erase(y);
        bufferlist film, again; // a client's read
        for (int s = 0; s < STRIPES; s++)
          for (int d = 0; d < k; d++) {
            bufferlist one;
            one.substr_of(shards[d], s * chunk, chunk);
            film.claim_append(one);
          }
        MUST(ECUtil::decode(info, code, left, &again) == 0 && again.contents_equal(film));
        rebuilds++;
      }
  }
};

// For each k the width whose partial reads are the least, and their share of k whole chunks.
static map<int, std::pair<double, int>> best;

static void compare_widths(int p, int k, size_t most)
{
  double share = (double)most / k / p;
  if (!best.count(k) || share < best[k].first)
    best[k] = {share, p};
  if (k == p)
    printf("%d, %d, %zu of %d, %.3f\n", p, k + 1, most / (k + 1), p, share);
}

static void refused(const ErasureCodeProfile &profile, const string &message)
{
  ErasureCodeInterfaceRef code;
  ErasureCodeProfile mine = profile;
  std::ostringstream ss;
  int r = plugin->factory("", mine, &code, &ss);
  if (r != -EINVAL || code || ss.str() != "cuzhaveli: " + message + "\n") {
    printf("drive: a profile was answered by %d: %s(expected: %s)\n", r, ss.str().c_str(), message.c_str());
    exit(1);
  }
}

// Without memory a call answers a number: nothing is thrown across the interface.
static void without_memory()
{
  Pool pool(5, 5, 64, "whole");
  bufferlist in;
  in.append(buffer::create(pool.chunk * 200000));
  rlimit before{}, tight{1, RLIM_INFINITY}; // what is mapped stays
  MUST(getrlimit(RLIMIT_AS, &before) == 0);
  tight.rlim_max = before.rlim_max;
  map<int, bufferlist> out;
  MUST(setrlimit(RLIMIT_AS, &tight) == 0);
  int r = pool.code->encode(pool.all, in, &out);
  MUST(setrlimit(RLIMIT_AS, &before) == 0);
  MUST(r < 0);
}

static void defaults()
{
  ErasureCodeInterfaceRef code;
  ErasureCodeProfile profile{{"k", "8"}, {"packetsize", "2048"}}; // other plugins' settings are passed over
  MUST(plugin->factory("", profile, &code, &std::cerr) == 0);
  MUST(profile["reads"] == "whole" && profile["w"] == "11" && profile["m"] == "2" && profile["cell"] == "4096");
  MUST(code->get_chunk_size(1) == 11 * 4096 && code->get_chunk_size(8 * 11 * 4096 + 1) == 2 * 11 * 4096);
  Ranges least, eight;
  for (int d = 1; d <= 8; d++)
    eight[d] = {{0, 11}};
  MUST(code->minimum_to_decode({0}, {1, 2, 3, 4, 5, 6, 7, 8, 9}, &least) == 0 && least == eight); // whole, and not Q
  string text(100, 'x'), nothing(11 * 4096, '\0'), first = text + nothing.substr(100);
  bufferlist film; // shorter than a chunk: filled up with zeros, so P is the first chunk
  film.append(text);
  map<int, bufferlist> chunks;
  MUST(code->encode({0, 1, 7, 8}, film, &chunks) == 0 && chunks.size() == 4);
  MUST(chunks[0].to_str() == first && chunks[1].to_str() == nothing && chunks[7].to_str() == nothing);
  MUST(chunks[8].to_str() == first);
}

static void refusals()
{
  for (const char *bad : {"1", "32", "-3", "5x", "99999999999999999999"})
    refused({{"k", bad}}, string("k=") + bad + " is not a number from 2 to 31");
  refused({{"m", "3"}}, "m=3 is not a number from 2 to 2");
  refused({{"k", "8"}, {"w", "7"}}, "w=7 is not a number from 11 to 31");
  refused({{"k", "8"}, {"w", "12"}}, "w=12 is not one of 3, 5, 7, 11, 13, 17, 19, 23, 29, 31");
  refused({{"cell", "8192"}}, "cell=8192 is not a number from 64 to 4096");
  refused({{"cell", "100"}}, "cell=100 is not a multiple of 64");
  refused({{"reads", "some"}}, "reads=some is neither whole nor partial");
  refused({{"mapping", "D_DDD"}}, "mapping= is not known to this plugin; leave it out");
  for (const char *reads : {"whole", "partial"}) {
    Pool pool(5, 5, 64, reads);
    auto &code = pool.code;
    Ranges least;
    map<int, bufferlist> out, some = pool.shards, none;
    MUST(code->minimum_to_decode({0}, {1, 2, 3, 4}, &least) == -EIO && least.empty());
    MUST(code->minimum_to_decode({7}, {0, 1, 2, 3, 4}, &least) == -EINVAL);
    MUST(code->minimum_to_decode({0}, {-1, 1, 2, 3, 4}, &least) == -EINVAL);
    MUST(code->decode({0}, none, &out, pool.chunk) == -EIO && out.empty());
    some.erase(0);
    MUST(code->decode({0}, some, &out, -1) == -EINVAL);
    MUST(code->decode({0}, some, &out, pool.chunk) == -EINVAL && out.empty()); // of three chunks' length
    some[3].splice(0, 1);
    MUST(code->decode({0}, some, &out, 0) == -EINVAL && out.empty());
    MUST(code->encode_chunks(pool.all, &some) == -EINVAL);
    MUST(code->encode_chunks(pool.all, &none) == -EINVAL);
    MUST(code->encode({9}, pool.shards[0], &none) == -EINVAL && none.empty());
    bufferlist nothing;
    MUST(code->encode(pool.all, nothing, &none) == 0 && none.size() == 7 && none[6].length() == 0);
  }
}

// Any sets and lengths: an answer by a number, and where all that is given is right, wrong bytes never.
static void any_arguments()
{
  const int shapes[][2] = {{3, 2}, {5, 5}, {7, 6}};
  for (auto &[p, k] : shapes)
    for (const char *reads : {"whole", "partial"}) {
      Pool pool(p, k, 64, reads);
      auto some = [&](unsigned of) { return random_bytes() % of; };
      for (int call = 0; call < 5000; call++) {
        set<int> want;
        map<int, bufferlist> given, out;
        bool right = true;
        for (int d = -1; d < k + 4; d++) {
          bool there = d >= 0 && d < k + 2;
          if (there ? some(3) == 0 : some(40) == 0)
            want.insert(d);
          if (there ? some(4) == 0 : some(40) != 0)
            continue;
          const unsigned lengths[] = {pool.chunk, pool.chunk - 1, 0, 2 * pool.chunk, pool.chunk / p};
          unsigned length = lengths[some(30) ? 0 : some(5)];
          right = right && there && length == pool.chunk;
          bufferlist part;
          part.substr_of(pool.shards[there ? d : 0], 0, length);
          given[d].append(part.to_str()); // a copy: the last call writes
        }
        const int sizes[] = {(int)pool.chunk, 0, -1, 64, (int)pool.chunk / p, 2 * (int)pool.chunk};
        int size = sizes[some(10) ? some(2) : some(6)];
        Ranges least;
        set<int> have;
        for (auto &one : given)
          have.insert(one.first);
        pool.code->minimum_to_decode(want, have, &least);
        int r = some(2) ? pool.code->decode(want, given, &out, size) : pool.code->decode_chunks(want, given, &out);
        MUST(r <= 0);
        for (int d : want)
          if (r == 0 && right) {
            bufferlist first;
            first.substr_of(pool.shards[d], 0, pool.chunk);
            MUST(out.count(d) && out[d].contents_equal(first));
          }
        pool.code->encode_chunks(want, &given);
      }
    }
}

int main(int, char **argv)
{
  void *so = dlopen(argv[1], RTLD_NOW);
  if (!so) { puts(dlerror()); return 1; }
  char name[] = "cuzhaveli";
  MUST(((int (*)(char *, char *))dlsym(so, "__erasure_code_init"))(name, name) == 0 && plugin);
  defaults();
  refusals();
  without_memory();
  any_arguments();
  puts("k = w, helpers, sub-chunks read of each, a lost data chunk's reads over k whole chunks");
  for (int p : WIDTHS)
    for (int k = 2; k <= p; k++)
      for (unsigned cell : {64u, 4096u, 4160u, 8192u}) {
        if (cell > 64 && (p > 11 || (k != 2 && k != p)))
          continue;
        Pool whole(p, k, cell, "whole"), partial(p, k, cell, "partial");
        size_t most = 0;
        for (int lost = 0; lost < k + 2; lost++) {
          MUST(whole.rebuild({lost}, {}) == (size_t)k * p);
          size_t read = partial.rebuild({lost}, {});
          MUST(lost < k ? read <= (size_t)k * p : read == (size_t)k * p);
          if (lost < k)
            most = std::max(most, read);
        }
        if (p <= 7 || (k == p && cell == 64))
          whole.pairs(), partial.pairs();
        if (cell == 64)
          compare_widths(p, k, most);
      }
  for (auto &[k, one] : best)
    printf("%sk %d, w %d: %.3f", k == 2 ? "least reads: " : "; ", k, one.second, one.first);
  printf("\ndrive: %ld rebuilds alike, refusals as they should be\n", rebuilds);
}
