// The grammar of jobs/folding.adp by a table for `strand` and one for `within`: the most pairs of bases that do not
// cross, with three bases or more within each. A fold is worth 1 more than what is within.
#include "common.hpp"

using Most = Spans<std::int16_t>;

constexpr int LOOP = 3;
// (a candidate is worth 0 at least, and a sum with none less)
constexpr std::int16_t NONE = -10000;

static bool pairs(char one, char other) {
  switch (one) {
    case 'a': return other == 'u';
    case 'c': return other == 'g';
    case 'g': return other == 'c' || other == 'u';
    case 'u': return other == 'a' || other == 'g';
    default: return false;
  }
}

struct Solved {
  Most strand, within;
};

static Solved solve(const Word& word) {
  const int letters = word.size();
  Solved solved{Most(letters, 0), Most(letters, NONE)};
  for (int start = letters - 1; start >= 0; start--) {
    std::int16_t* const strand = solved.strand[start];
    std::int16_t* const within = solved.within[start];
    const std::int16_t* const later = solved.within[start + 1];
    std::copy(solved.strand[start + 1] + start + 1, solved.strand[start + 1] + letters + 1, strand + start + 1);
    std::copy(later + start + 1, later + letters + 1, within + start + 1);
    if (start + LOOP <= letters) within[start + LOOP] = 0;
    for (int at = start + 1 + LOOP; at < letters; at++) {
      if (!pairs(word[start], word[at])) continue;
      raise<std::int16_t>(strand, 1 + later[at], solved.strand[at + 1], at + 1, letters);
      raise<std::int16_t>(within, 1 + later[at], solved.strand[at + 1], at + 1, letters);
    }
  }
  return solved;
}

static void add_strand(const Word& word, const Solved& solved, int start, int end, std::string& tree);
static void add_within(const Word& word, const Solved& solved, int start, int end, std::string& tree);

// Adds the first fold with a strand behind it that together have the score.
static void add_next(const Word& word, const Solved& solved, int start, int end, int score, std::string& tree) {
  const Most& strand = solved.strand;
  const std::int16_t* const later = solved.within[start + 1];
  int at = start + 1 + LOOP;
  while (!pairs(word[start], word[at]) || 1 + later[at] + strand[at + 1][end] != score) at++;
  ((tree += "next(pair(\"") += word[start]) += "\",";
  add_within(word, solved, start + 1, at, tree);
  ((tree += ",\"") += word[at]) += "\"),";
  add_strand(word, solved, at + 1, end, tree);
  tree += ')';
}

static void add_within(const Word& word, const Solved& solved, int start, int end, std::string& tree) {
  const Most& within = solved.within;
  if (within[start][end] == 0) {
    (tree += "loop(\"").append(word, start, end - start) += "\")";
  } else if (within[start + 1][end] == within[start][end]) {
    ((tree += "open(\"") += word[start]) += "\",";
    add_within(word, solved, start + 1, end, tree);
    tree += ')';
  } else {
    add_next(word, solved, start, end, within[start][end], tree);
  }
}

static void add_strand(const Word& word, const Solved& solved, int start, int end, std::string& tree) {
  const Most& strand = solved.strand;
  if (start == end) {
    tree += "end(\"\")";
  } else if (strand[start + 1][end] == strand[start][end]) {
    ((tree += "open(\"") += word[start]) += "\",";
    add_strand(word, solved, start + 1, end, tree);
    tree += ')';
  } else {
    add_next(word, solved, start, end, strand[start][end], tree);
  }
}

int main() {
  for (const Word& word : read_words()) {
    const Solved solved = solve(word);
    std::string tree;
    add_strand(word, solved, 0, word.size(), tree);
    write_report(solved.strand[0][word.size()], tree);
  }
}
