// Lists the plans of a model by Gecode, as `solve` does: the same model bytes from standard input, the same branching, the same
// strength of propagation, the same lines. Written apart from the solver; it shares no code with it.
//
//     list [rule=first|small] [copy=N] [quiet] < model
//
// copy=N copies every N-th node on the way down and recomputes the others; left out, it is Gecode's own distance (8). quiet
// shows only the last line, `done NODES PLANS`.
#include <gecode/int.hh>
#include <gecode/search.hh>

#include <cstdint>
#include <cstdio>
#include <cstdlib>
#include <cstring>
#include <string>
#include <vector>

using namespace Gecode;

namespace {

using Bytes = std::vector<uint8_t>;

enum class Rule { First, Small };

// The bytes of a model, read from the front. The solver says what is wrong with bytes that are no model; this only stops.
struct Reader {
  const Bytes& bytes;
  size_t at = 0;

  unsigned number(size_t size) {
    if (bytes.size() - at < size) {
      fprintf(stderr, "the bytes are no model\n");
      exit(2);
    }
    unsigned value = 0;
    for (size_t i = 0; i < size; i++) value |= unsigned(bytes[at++]) << (8 * i);
    return value;
  }
  bool done() const { return at == bytes.size(); }
};

class Plans : public Space {
  IntVarArray xs;

 public:
  Plans(const Bytes& bytes, Rule rule) {
    Reader in{bytes};
    while (!in.done()) {
      in.number(2);
      switch (in.number(2)) {
        case 1: windows(in); break;
        case 2: at_most(in); break;
        case 3: different(in); break;
        default: fprintf(stderr, "the bytes are no model\n"); exit(2);
      }
    }
    // Both make the children x = v, x != v, in this order.
    if (rule == Rule::First)
      branch(*this, xs, INT_VAR_NONE(), INT_VAL_MIN());
    else
      branch(*this, xs, INT_VAR_SIZE_MIN(), INT_VAL_MAX());
  }
  Plans(Plans& other) : Space(other) { xs.update(*this, other.xs); }
  Space* copy() override { return new Plans(*this); }

  void show(uint64_t number) const {
    printf("%llu:", (unsigned long long)number);
    for (int i = 0; i < xs.size(); i++) printf(" %d", xs[i].val());
    printf("\n");
  }

 private:
  void windows(Reader& in) {
    int n = in.number(1);
    xs = IntVarArray(*this, n);
    for (int i = 0; i < n; i++) {
      int low = in.number(1), high = in.number(1);
      xs[i] = IntVar(*this, low, high - 1);
    }
  }
  void at_most(Reader& in) {
    int count = in.number(1), bound = int32_t(in.number(4));
    IntArgs coefficients(count);
    IntVarArgs variables(count);
    for (int i = 0; i < count; i++) {
      variables[i] = xs[in.number(1)];
      coefficients[i] = int16_t(in.number(2));
    }
    linear(*this, coefficients, variables, IRT_LQ, bound, IPL_BND);
  }
  void different(Reader& in) {
    int count = in.number(1);
    IntVarArgs variables(count);
    for (int i = 0; i < count; i++) variables[i] = xs[in.number(1)];
    distinct(*this, variables, IPL_VAL);
  }
};

Bytes read_all(FILE* file) {
  Bytes bytes;
  for (int c; (c = getc(file)) != EOF;) bytes.push_back(uint8_t(c));
  return bytes;
}

}  // namespace

int main(int argc, char** argv) {
  Rule rule = Rule::First;
  Search::Options options;
  options.threads = 1;
  bool quiet = false;
  for (int i = 1; i < argc; i++) {
    std::string word = argv[i];
    if (word == "rule=first") rule = Rule::First;
    else if (word == "rule=small") rule = Rule::Small;
    else if (word.rfind("copy=", 0) == 0) options.c_d = unsigned(atoi(word.c_str() + 5));
    else if (word == "quiet") quiet = true;
    else {
      fprintf(stderr, "unknown word %s\n", word.c_str());
      return 2;
    }
  }
  Bytes bytes = read_all(stdin);
  Plans* root = new Plans(bytes, rule);
  DFS<Plans> search(root, options);
  delete root;
  uint64_t plans = 0;
  while (Plans* plan = search.next()) {
    if (!quiet) plan->show(plans);
    plans++;
    delete plan;
  }
  unsigned long long nodes = search.statistics().node;
  // A root that fails is no node to Gecode, and one to the solver.
  if (nodes == 0) nodes = 1;
  if (quiet) printf("done %llu %llu\n", nodes, (unsigned long long)plans);
  else printf("done %llu\n", nodes);
}
