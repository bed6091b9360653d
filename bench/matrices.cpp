// The least number of multiplications for a product of matrices, by the grammar of jobs/matrices.adp with products in
// its terms: a letter is a matrix, `a` small by small, `b` small by large, `c` large by small and `d` large by large.
#include "common.hpp"

using Least = Spans<std::int32_t>;

constexpr std::int32_t SIZES[] = {10, 100};

static int rows(char matrix) { return matrix == 'c' || matrix == 'd'; }
static int columns(char matrix) { return matrix == 'b' || matrix == 'd'; }

static std::int32_t price(const Word& word, int start, int at, int end) {
  return SIZES[rows(word[start])] * SIZES[rows(word[at])] * SIZES[columns(word[end - 1])];
}

static void lower(std::int32_t* __restrict row, std::int32_t left, const std::int32_t* __restrict prices,
                  const std::int32_t* __restrict right, int first, int last) {
  for (int end = first; end <= last; end++) {
    const std::int32_t cost = left + prices[end] + right[end];
    row[end] = cost < row[end] ? cost : row[end];
  }
}

static Least solve(const Word& word) {
  const int letters = word.size();
  Least least(letters, INT32_MAX);
  // prices: of a product from the start to each end, by the size in the middle
  std::vector<std::int32_t> prices[2];
  for (auto& row : prices) row.resize(letters + 1);
  for (int start = letters - 1; start >= 0; start--) {
    std::int32_t* const row = least[start];
    row[start + 1] = 0;
    for (int end = start + 1; end <= letters; end++) {
      const std::int32_t outer = SIZES[rows(word[start])] * SIZES[columns(word[end - 1])];
      for (int middle : {0, 1}) prices[middle][end] = outer * SIZES[middle];
    }
    for (int at = start + 1; at < letters; at++) {
      lower(row, row[at], prices[rows(word[at])].data(), least[at], at + 1, letters);
    }
  }
  return least;
}

// Where the first product is cut that costs what the span does: those with a small middle come first.
static int cut(const Word& word, const Least& least, int start, int end) {
  for (int middle : {0, 1}) {
    for (int at = start + 1; at < end; at++) {
      if (rows(word[at]) != middle) continue;
      if (least[start][at] + price(word, start, at, end) + least[at][end] == least[start][end]) return at;
    }
  }
  std::abort();
}

static void add_tree(const Word& word, const Least& least, int start, int end, std::string& tree) {
  if (end - start == 1) {
    ((tree += "one(\"") += word[start]) += "\")";
    return;
  }
  const int at = cut(word, least, start, end);
  for (int size : {rows(word[start]), rows(word[at]), columns(word[end - 1])}) tree += "sl"[size];
  tree += '(';
  add_tree(word, least, start, at, tree);
  tree += ',';
  add_tree(word, least, at, end, tree);
  tree += ')';
}

int main() {
  for (const Word& word : read_words()) {
    const Least least = solve(word);
    std::string tree = "all(";
    add_tree(word, least, 0, word.size(), tree);
    write_report(least[0][word.size()], tree += ')');
  }
}
