// Four open arguments: s = nil("") | skip([any], s) | quad(m, s, m, s), m = mark("q") | both([any], m); a quad, a mark
// and both count 1 each.
#include "common.hpp"

using Most = Spans<std::int16_t>;

// (a candidate is worth 0 at least, and a sum with none less)
constexpr std::int16_t NONE = -10000;

struct Solved {
  Most all, marks;
};

static Solved solve(const Word& word) {
  const int letters = word.size();
  Solved solved{Most(letters, 0), Most(letters, NONE)};
  std::vector<std::int16_t> two(letters + 1), three(letters + 1);
  for (int start = letters - 1; start >= 0; start--) {
    std::int16_t* const mark = solved.marks[start];
    if (word[start] == 'q') mark[start + 1] = 1;
    for (int end = start + 2; end <= letters; end++) {
      if (solved.marks[start + 1][end] >= 0) mark[end] = 1 + solved.marks[start + 1][end];
    }
    std::int16_t* const row = solved.all[start];
    const std::int16_t* const rest = solved.all[start + 1];
    std::copy(rest + start + 1, rest + letters + 1, row + start + 1);
    // two, three: so many arguments together, by the end of the last one
    std::fill(two.begin(), two.end(), NONE);
    std::fill(three.begin(), three.end(), NONE);
    for (int at = start + 1; at <= letters; at++) {
      if (mark[at] >= 0) raise<std::int16_t>(two.data(), mark[at], solved.all[at], at, letters);
    }
    for (int at = start + 1; at < letters; at++) {
      if (two[at] >= 0) raise<std::int16_t>(three.data(), two[at], solved.marks[at], at + 1, letters);
    }
    for (int at = start + 2; at <= letters; at++) {
      if (three[at] >= 0) raise<std::int16_t>(row, 1 + three[at], solved.all[at], at, letters);
    }
  }
  return solved;
}

static void add_mark(const Word& word, int start, int end, std::string& tree) {
  for (int at = start; at < end - 1; at++) ((tree += "both(\"") += word[at]) += "\",";
  tree += "mark(\"q\")";
  tree.append(end - 1 - start, ')');
}

static void add_tree(const Word& word, const Solved& solved, int start, int end, std::string& tree);

// Adds the first quad that has the score of the span.
static void add_quad(const Word& word, const Solved& solved, int start, int end, std::string& tree) {
  const auto& [all, marks] = solved;
  for (int first = start + 1; first < end; first++) {
    if (marks[start][first] < 0) continue;
    for (int second = first; second < end; second++) {
      const int left = 1 + marks[start][first] + all[first][second];
      for (int third = second + 1; third <= end; third++) {
        if (left + marks[second][third] + all[third][end] != all[start][end]) continue;
        tree += "quad(";
        add_mark(word, start, first, tree);
        tree += ',';
        add_tree(word, solved, first, second, tree);
        tree += ',';
        add_mark(word, second, third, tree);
        tree += ',';
        add_tree(word, solved, third, end, tree);
        tree += ')';
        return;
      }
    }
  }
}

static void add_tree(const Word& word, const Solved& solved, int start, int end, std::string& tree) {
  if (start == end) {
    tree += "nil(\"\")";
  } else if (solved.all[start + 1][end] == solved.all[start][end]) {
    ((tree += "skip(\"") += word[start]) += "\",";
    add_tree(word, solved, start + 1, end, tree);
    tree += ')';
  } else {
    add_quad(word, solved, start, end, tree);
  }
}

int main() {
  for (const Word& word : read_words()) {
    const Solved solved = solve(word);
    std::string tree;
    add_tree(word, solved, 0, word.size(), tree);
    write_report(solved.all[0][word.size()], tree);
  }
}
