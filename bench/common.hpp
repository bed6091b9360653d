// What the programs share. Words come on standard input, a line each; of each word, which has a tree, they write what a
// report of `adp` says of it, but for the count of cells.
#pragma once

#include <algorithm>
#include <cstdint>
#include <cstdio>
#include <cstdlib>
#include <string>
#include <vector>

using Word = std::string;

inline std::vector<std::string> lines_of(std::FILE* file) {
  std::vector<std::string> lines;
  std::string open;
  std::vector<char> piece(1 << 16);
  while (std::size_t count = std::fread(piece.data(), 1, piece.size(), file)) {
    const char* const end = piece.data() + count;
    const char* start = piece.data();
    for (const char* stop; (stop = std::find(start, end, '\n')) != end; start = stop + 1) {
      lines.push_back(open.append(start, stop));
      open.clear();
    }
    open.append(start, end);
  }
  return lines;
}

inline std::vector<Word> read_words() { return lines_of(stdin); }

// The lines of the file that is named as the program's one argument.
inline std::vector<std::string> lines_of_argument(int count, char** arguments) {
  std::FILE* const file = count == 2 ? std::fopen(arguments[1], "r") : nullptr;
  if (!file) std::exit(2);
  const std::vector<std::string> lines = lines_of(file);
  std::fclose(file);
  return lines;
}

inline void write_report(long long score, const std::string& tree) {
  std::printf("score %lld\ntree ", score);
  std::fwrite(tree.data(), 1, tree.size(), stdout);
  std::putchar('\n');
}

// A score for each span of a word: a row for each start, of the ends from there on. Rows stand one behind the other.
template <class Score>
class Spans {
 public:
  Spans(std::size_t letters, Score score) : letters_(letters), scores_((letters + 1) * (letters + 2) / 2, score) {}
  Score* operator[](std::size_t start) { return scores_.data() + begin(start); }
  const Score* operator[](std::size_t start) const { return scores_.data() + begin(start); }

 private:
  // (less the start, so that a row is read by ends)
  std::size_t begin(std::size_t start) const { return start * (2 * letters_ + 1 - start) / 2; }

  std::size_t letters_;
  std::vector<Score> scores_;
};

// Raises a row to the sums of a number and another row, for the ends from `first` to `last`.
template <class Score>
void raise(Score* __restrict row, Score added, const Score* __restrict other, int first, int last) {
  for (int end = first; end <= last; end++) {
    const Score sum = added + other[end];
    row[end] = row[end] < sum ? sum : row[end];
  }
}
