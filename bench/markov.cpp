// The cheapest way through the states of a hidden Markov model (Viterbi): markov MODEL. The model has a line for each
// state: what each letter from `a` on costs it, a `|`, and its steps in the order of preference, each a cost and the
// next state. A way may begin in each of the first BEGINS states, and end in each state, at no cost.
#include "common.hpp"

constexpr int BEGINS = 64;
constexpr std::int32_t NONE = 1 << 29;

struct Step {
  int cost, next;
};

struct Model {
  int states = 0;
  std::vector<std::vector<int>> letters;
  std::vector<std::vector<Step>> steps;
};

static std::vector<int> numbers_of(const std::string& text) {
  std::vector<int> numbers;
  char* end = nullptr;
  for (const char* at = text.c_str();; at = end) {
    const int number = std::strtol(at, &end, 10);
    if (end == at) return numbers;
    numbers.push_back(number);
  }
}

static Model model_of(const std::vector<std::string>& lines) {
  Model model;
  model.states = lines.size();
  for (const std::string& line : lines) {
    const std::size_t bar = line.find('|');
    const std::vector<int> numbers = numbers_of(line.substr(bar + 1));
    std::vector<Step> steps;
    for (std::size_t at = 0; at + 1 < numbers.size(); at += 2) steps.push_back({numbers[at], numbers[at + 1]});
    model.letters.push_back(numbers_of(line.substr(0, bar)));
    model.steps.push_back(steps);
  }
  return model;
}

static std::int32_t least_rest(const std::vector<Step>& steps, const std::int32_t* later) {
  std::int32_t least = NONE;
  for (const Step& step : steps) {
    const std::int32_t rest = step.cost + later[step.next];
    least = rest < least ? rest : least;
  }
  return least;
}

static void answer(const Model& model, const Word& word) {
  const int letters = word.size(), states = model.states;
  // a row for each place: what the rest of the way costs from each state
  std::vector<std::int32_t> rests(letters * states);
  for (int at = letters - 1; at >= 0; at--) {
    for (int state = 0; state < states; state++) {
      const bool is_last = at == letters - 1;
      const std::int32_t* const later = is_last ? nullptr : &rests[(at + 1) * states];
      const std::int32_t rest = is_last ? 0 : least_rest(model.steps[state], later);
      rests[at * states + state] = model.letters[state][word[at] - 'a'] + rest;
    }
  }
  int state = std::min_element(rests.begin(), rests.begin() + std::min(BEGINS, states)) - rests.begin();
  const std::int32_t score = rests[state];
  std::string tree = "first(";
  for (int at = 0; at + 1 < letters; at++) {
    const std::int32_t rest = rests[at * states + state] - model.letters[state][word[at] - 'a'];
    for (const Step& step : model.steps[state]) {
      if (step.cost + rests[(at + 1) * states + step.next] != rest) continue;
      (((tree += "step_") += std::to_string(step.cost)) += "(\"") += word[at];
      tree += "\",";
      state = step.next;
      break;
    }
  }
  ((tree += "last(\"") += word.back()) += "\")";
  write_report(score, tree.append(letters, ')'));
}

int main(int count, char** arguments) {
  const Model model = model_of(lines_of_argument(count, arguments));
  for (const Word& word : read_words()) answer(model, word);
}
