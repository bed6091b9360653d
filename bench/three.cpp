// Three open arguments: s = nil("") | skip([any], s) | join("p", s, m, s), m = mark("q") | both(m, "r", m); a join, a
// mark and both count 1 each.
#include "common.hpp"

using Most = Spans<std::int16_t>;

// (a candidate is worth 0 at least, and a sum with none less)
constexpr std::int16_t NONE = -10000;

struct Solved {
  Most all, marks;
};

static Solved solve(const Word& word) {
  const int letters = word.size();
  Solved solved{Most(letters, 0), Most(letters, NONE)};
  std::vector<std::int16_t> front(letters + 1);
  for (int start = letters - 1; start >= 0; start--) {
    std::int16_t* const mark = solved.marks[start];
    if (word[start] == 'q') mark[start + 1] = 1;
    for (int at = start + 1; at < letters; at++) {
      if (word[at] == 'r' && mark[at] >= 0) {
        raise<std::int16_t>(mark, 1 + mark[at], solved.marks[at + 1], at + 1, letters);
      }
    }
    std::int16_t* const row = solved.all[start];
    const std::int16_t* const rest = solved.all[start + 1];
    std::copy(rest + start + 1, rest + letters + 1, row + start + 1);
    if (word[start] != 'p') continue;
    // front: "p", s and m together, by the end of m, which begins with a `q`
    std::fill(front.begin(), front.end(), NONE);
    for (int at = start + 1; at < letters; at++) {
      if (word[at] == 'q') raise<std::int16_t>(front.data(), 1 + rest[at], solved.marks[at], at + 1, letters);
    }
    for (int at = start + 2; at <= letters; at++) {
      if (front[at] >= 0) raise<std::int16_t>(row, front[at], solved.all[at], at, letters);
    }
  }
  return solved;
}

static void add_mark(const Word& word, const Most& marks, int start, int end, std::string& tree) {
  if (end - start == 1) {
    tree += "mark(\"q\")";
    return;
  }
  const std::int16_t* const row = marks[start];
  int at = start + 1;
  while (word[at] != 'r' || row[at] < 0 || 1 + row[at] + marks[at + 1][end] != row[end]) at++;
  tree += "both(";
  add_mark(word, marks, start, at, tree);
  tree += ",\"r\",";
  add_mark(word, marks, at + 1, end, tree);
  tree += ')';
}

static void add_tree(const Word& word, const Solved& solved, int start, int end, std::string& tree) {
  const auto& [all, marks] = solved;
  if (start == end) {
    tree += "nil(\"\")";
    return;
  }
  if (all[start + 1][end] == all[start][end]) {
    ((tree += "skip(\"") += word[start]) += "\",";
    add_tree(word, solved, start + 1, end, tree);
    tree += ')';
    return;
  }
  for (int left = start + 1; left < end; left++) {
    for (int right = left + 1; right <= end; right++) {
      if (1 + all[start + 1][left] + marks[left][right] + all[right][end] != all[start][end]) continue;
      tree += "join(\"p\",";
      add_tree(word, solved, start + 1, left, tree);
      tree += ',';
      add_mark(word, marks, left, right, tree);
      tree += ',';
      add_tree(word, solved, right, end, tree);
      tree += ')';
      return;
    }
  }
}

int main() {
  for (const Word& word : read_words()) {
    const Solved solved = solve(word);
    std::string tree;
    add_tree(word, solved, 0, word.size(), tree);
    write_report(solved.all[0][word.size()], tree);
  }
}
