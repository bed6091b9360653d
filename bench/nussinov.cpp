// The grammar of jobs/folding.adp by one table (Nussinov): from three bases on `within` is worth what `strand` is. A
// fold is worth 1 more than what is within.
#include "common.hpp"

using Most = Spans<std::int16_t>;

constexpr int LOOP = 3;

static bool pairs(char one, char other) {
  switch (one) {
    case 'a': return other == 'u';
    case 'c': return other == 'g';
    case 'g': return other == 'c' || other == 'u';
    case 'u': return other == 'a' || other == 'g';
    default: return false;
  }
}

static Most solve(const Word& word) {
  const int letters = word.size();
  Most most(letters, 0);
  for (int start = letters - 1; start >= 0; start--) {
    std::int16_t* const row = most[start];
    const std::int16_t* const within = most[start + 1];
    std::copy(within + start + 1, within + letters + 1, row + start + 1);
    for (int at = start + 1 + LOOP; at < letters; at++) {
      if (pairs(word[start], word[at])) raise<std::int16_t>(row, 1 + within[at], most[at + 1], at + 1, letters);
    }
  }
  return most;
}

static void add_strand(const Word& word, const Most& most, int start, int end, std::string& tree);
static void add_within(const Word& word, const Most& most, int start, int end, std::string& tree);

static void add_next(const Word& word, const Most& most, int start, int end, std::string& tree) {
  int at = start + 1 + LOOP;
  while (!pairs(word[start], word[at]) || 1 + most[start + 1][at] + most[at + 1][end] != most[start][end]) at++;
  ((tree += "next(pair(\"") += word[start]) += "\",";
  add_within(word, most, start + 1, at, tree);
  ((tree += ",\"") += word[at]) += "\"),";
  add_strand(word, most, at + 1, end, tree);
  tree += ')';
}

static void add_within(const Word& word, const Most& most, int start, int end, std::string& tree) {
  if (most[start][end] == 0) {
    (tree += "loop(\"").append(word, start, end - start) += "\")";
  } else if (most[start + 1][end] == most[start][end]) {
    ((tree += "open(\"") += word[start]) += "\",";
    add_within(word, most, start + 1, end, tree);
    tree += ')';
  } else {
    add_next(word, most, start, end, tree);
  }
}

static void add_strand(const Word& word, const Most& most, int start, int end, std::string& tree) {
  if (start == end) {
    tree += "end(\"\")";
  } else if (most[start + 1][end] == most[start][end]) {
    ((tree += "open(\"") += word[start]) += "\",";
    add_strand(word, most, start + 1, end, tree);
    tree += ')';
  } else {
    add_next(word, most, start, end, tree);
  }
}

int main() {
  for (const Word& word : read_words()) {
    const Most most = solve(word);
    std::string tree;
    add_strand(word, most, 0, word.size(), tree);
    write_report(most[0][word.size()], tree);
  }
}
