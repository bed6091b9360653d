// A text is parted into words of a dictionary at least cost: dictionary WORDS. Each line has the cost of a word and the
// word, and of equal ways that with the first one is preferred. A letter in none of them costs PLAIN. Words stand in
// rules of 62, each of which goes on with the next one.
#include "common.hpp"

constexpr int PLAIN = 20;
constexpr int IN_A_RULE = 62;
constexpr int LETTERS = 26;

struct Entry {
  int cost;
  std::string word;
};

struct Trie {
  struct Node {
    int next[LETTERS] = {};
    int entry = -1;
  };
  std::vector<Node> nodes{1};

  void add(const std::string& word, int entry) {
    int at = 0;
    for (char letter : word) {
      if (!nodes[at].next[letter - 'a']) {
        nodes[at].next[letter - 'a'] = nodes.size();
        nodes.emplace_back();
      }
      at = nodes[at].next[letter - 'a'];
    }
    nodes[at].entry = entry;
  }
};

static void answer(const std::vector<Entry>& entries, const Trie& trie, const Word& text) {
  const int letters = text.size();
  std::vector<int> costs(letters + 1, 0), choices(letters);
  for (int start = letters - 1; start >= 0; start--) {
    int least = PLAIN + costs[start + 1], choice = entries.size();
    for (int at = start, node = 0; at < letters && (node = trie.nodes[node].next[text[at] - 'a']); at++) {
      const int entry = trie.nodes[node].entry;
      if (entry < 0) continue;
      const int cost = entries[entry].cost + costs[at + 1];
      if (cost > least || (cost == least && entry > choice)) continue;
      least = cost;
      choice = entry;
    }
    costs[start] = least;
    choices[start] = choice;
  }
  std::string tree;
  int depth = 0;
  for (int at = 0; at < letters; depth++) {
    if (choices[at] == static_cast<int>(entries.size())) {
      ((tree += "plain(\"") += text[at++]) += "\",";
      continue;
    }
    const Entry& entry = entries[choices[at]];
    tree += "entry(";
    for (int rule = choices[at] / IN_A_RULE; rule > 0; rule--, depth++) tree += "further(";
    (((tree += "bits_") += std::to_string(entry.cost)) += "(\"") += entry.word;
    tree += "\",";
    depth++;
    at += entry.word.size();
  }
  write_report(costs[0], (tree += "end(\"\")").append(depth, ')'));
}

int main(int count, char** arguments) {
  std::vector<Entry> entries;
  Trie trie;
  for (const std::string& line : lines_of_argument(count, arguments)) {
    const std::size_t space = line.find(' ');
    trie.add(line.substr(space + 1), entries.size());
    entries.push_back({std::atoi(line.c_str()), line.substr(space + 1)});
  }
  for (const Word& text : read_words()) answer(entries, trie, text);
}
