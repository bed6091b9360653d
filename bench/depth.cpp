// The least height of a tree over a row of letters: s = leaf([any]) | join(s, [any], s), where a leaf is as high as its
// letter, `1` to `9`, and a join one higher than the higher of both sides. A letter stands between two neighbours.
#include "common.hpp"

using Least = Spans<std::int16_t>;

// (1 more than that is a number too)
constexpr std::int16_t NONE = 30000;

static void lower(std::int16_t* __restrict row, std::int16_t left, const std::int16_t* __restrict right, int first,
                  int last) {
  for (int end = first; end <= last; end++) {
    const std::int16_t higher = right[end] < left ? left : right[end];
    const std::int16_t height = 1 + higher;
    row[end] = height < row[end] ? height : row[end];
  }
}

static Least solve(const Word& word) {
  const int letters = word.size();
  Least least(letters, NONE);
  for (int start = letters - 1; start >= 0; start--) {
    std::int16_t* const row = least[start];
    row[start + 1] = word[start] - '0';
    // (each span with a tree has an odd number of letters)
    for (int at = start + 1; at + 1 < letters; at += 2) lower(row, row[at], least[at + 1], at + 2, letters);
  }
  return least;
}

static void add_tree(const Word& word, const Least& least, int start, int end, std::string& tree) {
  if (end - start == 1) {
    ((tree += "leaf(\"") += word[start]) += "\")";
    return;
  }
  int at = start + 1;
  while (1 + std::max(least[start][at], least[at + 1][end]) != least[start][end]) at += 2;
  tree += "join(";
  add_tree(word, least, start, at, tree);
  ((tree += ",\"") += word[at]) += "\",";
  add_tree(word, least, at + 1, end, tree);
  tree += ')';
}

int main() {
  for (const Word& word : read_words()) {
    const Least least = solve(word);
    std::string tree;
    add_tree(word, least, 0, word.size(), tree);
    write_report(least[0][word.size()], tree);
  }
}
