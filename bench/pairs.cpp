// The most pairs of `p` with `q` and of `r` with `s` that do not cross:
// s = nil("") | skip([any], s) | pair("p", s, "q", s) | pair("r", s, "s", s)
#include "common.hpp"

using Most = Spans<std::int16_t>;

static char closer(char letter) { return letter == 'p' ? 'q' : letter == 'r' ? 's' : 0; }

static Most solve(const Word& word) {
  const int letters = word.size();
  Most most(letters, 0);
  for (int start = letters - 1; start >= 0; start--) {
    std::int16_t* const row = most[start];
    const std::int16_t* const within = most[start + 1];
    std::copy(within + start + 1, within + letters + 1, row + start + 1);
    const char close = closer(word[start]);
    for (int at = start + 1; close && at < letters; at++) {
      if (word[at] == close) raise<std::int16_t>(row, 1 + within[at], most[at + 1], at + 1, letters);
    }
  }
  return most;
}

static void add_tree(const Word& word, const Most& most, int start, int end, std::string& tree) {
  if (start == end) {
    tree += "nil(\"\")";
    return;
  }
  if (most[start + 1][end] == most[start][end]) {
    ((tree += "skip(\"") += word[start]) += "\",";
    add_tree(word, most, start + 1, end, tree);
    tree += ')';
    return;
  }
  const char close = closer(word[start]);
  int at = start + 1;
  while (word[at] != close || 1 + most[start + 1][at] + most[at + 1][end] != most[start][end]) at++;
  ((tree += "pair(\"") += word[start]) += "\",";
  add_tree(word, most, start + 1, at, tree);
  ((tree += ",\"") += close) += "\",";
  add_tree(word, most, at + 1, end, tree);
  tree += ')';
}

int main() {
  for (const Word& word : read_words()) {
    const Most most = solve(word);
    std::string tree;
    add_tree(word, most, 0, word.size(), tree);
    write_report(most[0][word.size()], tree);
  }
}
