// A text goes along states by their words, at a cost of 2 each: ordinary TABLE. Each line of the table has a state, a
// word and the next state, in the order of preference. A text may begin in each of the first BEGINS states, and end in
// each state.
#include "common.hpp"

constexpr int BEGINS = 10;
constexpr int STATES = 64;
constexpr int LETTERS = 26;
constexpr int COST = 2;
constexpr int NONE = 1 << 29;

struct Entry {
  int state, next;
  std::string word;
};

struct Trie {
  struct Node {
    int next[LETTERS] = {};
    std::vector<int> entries;
  };
  std::vector<Node> nodes{1};

  void add(const std::string& word, int entry) {
    int at = 0;
    for (char letter : word) {
      if (!nodes[at].next[letter - 'a']) {
        nodes[at].next[letter - 'a'] = nodes.size();
        nodes.emplace_back();
      }
      at = nodes[at].next[letter - 'a'];
    }
    nodes[at].entries.push_back(entry);
  }
};

struct Match {
  int start, entry;
};

// What the rest of a text costs from a place in a state, and by which word it goes on.
struct Rest {
  int cost, entry;
};

class Parser {
 public:
  explicit Parser(const std::vector<std::string>& lines) {
    for (const std::string& line : lines) {
      const std::size_t one = line.find(' '), other = line.rfind(' ');
      const std::string word = line.substr(one + 1, other - one - 1);
      trie_.add(word, entries_.size());
      entries_.push_back({std::atoi(line.c_str()), std::atoi(line.c_str() + other), word});
    }
  }

  void answer(const Word& text) {
    const int letters = text.size();
    seek_matches(text);
    // (of equal ones the first entry is preferred)
    for (auto match = matches_.rbegin(); match != matches_.rend(); ++match) {
      const Entry& entry = entries_[match->entry];
      const int cost = COST + rest(match->start + entry.word.size(), entry.next).cost;
      Rest& found = rest(match->start, entry.state);
      if (cost < found.cost || (cost == found.cost && cost < NONE && match->entry < found.entry)) {
        found = {cost, match->entry};
      }
    }
    int state = 0;
    for (int other = 1; other < BEGINS; other++) {
      if (rest(0, other).cost < rest(0, state).cost) state = other;
    }
    const int score = rest(0, state).cost;
    std::string tree = "go(";
    int depth = 1;
    for (int at = 0; at < letters; depth++) {
      const Entry& entry = entries_[rest(at, state).entry];
      ((tree += "word(\"") += entry.word) += "\",";
      at += entry.word.size();
      state = entry.next;
    }
    write_report(score, (tree += "a(\"\")").append(depth, ')'));
  }

 private:
  Rest& rest(int place, int state) { return rests_[place * STATES + state]; }

  void reach(int place, int state, int letters) {
    if (reached_[place] >> state & 1) return;
    reached_[place] |= std::uint64_t{1} << state;
    rest(place, state) = {place == letters ? 0 : NONE, -1};
  }

  // Lists the words that match where their state is reached, by starts.
  void seek_matches(const Word& text) {
    const int letters = text.size();
    matches_.clear();
    reached_.assign(letters + 1, 0);
    rests_.resize(std::max<std::size_t>(rests_.size(), (letters + 1) * STATES));
    for (int state = 0; state < BEGINS; state++) reach(0, state, letters);
    for (int start = 0; start < letters; start++) {
      if (!reached_[start]) continue;
      for (int at = start, node = 0; at < letters && (node = trie_.nodes[node].next[text[at] - 'a']); at++) {
        for (int number : trie_.nodes[node].entries) {
          const Entry& entry = entries_[number];
          if (!(reached_[start] >> entry.state & 1)) continue;
          matches_.push_back({start, number});
          reach(at + 1, entry.next, letters);
        }
      }
    }
  }

  std::vector<Entry> entries_;
  Trie trie_;
  std::vector<Match> matches_;
  std::vector<std::uint64_t> reached_;
  std::vector<Rest> rests_;
};

int main(int count, char** arguments) {
  Parser parser(lines_of_argument(count, arguments));
  for (const Word& text : read_words()) parser.answer(text);
}
