# Explains the fault of a run, or why words have no tree: what is wrong, where, and what to do. The launcher runs it
# behind the fault's line, as `adp --explain`, with the words of the program as arguments and this in the environment:
# ADP_FAULT, the line; ADP_JOB, the file of the job (none where it could not be read), and ADP_NAME, what the user
# called it; ADP_COMMAND, the line of the command; ADP_CAUSE, why the input cannot be read; ADP_WORDS and ADP_FRONT, the
# file of more words and the number of lines before them; ADP_TREELESS, how many words have no tree, and the first of
# them; ADP_GUIDE, the file docs/FAULTS.md; ADP_LONGEST, the greatest length that the job admits, where that is known;
# ADP_REASON, why a line of a certificate is false, where that is known (ADP_JOB is the certificate then);
# ADP_COLOUR, for a terminal; ADP_BRIEF, where of a faulty command the cause alone is to be told, in a line.
#
# It needs no more than POSIX awk, and is to be run with LC_ALL=C: a letter is a byte.

BEGIN {
  fault = ENVIRON["ADP_FAULT"]
  job = ENVIRON["ADP_JOB"]
  name_of_job = name_of(ENVIRON["ADP_NAME"])
  job_lines = ENVIRON["ADP_FRONT"] == "" ? -1 : ENVIRON["ADP_FRONT"] + 0
  is_brief = ENVIRON["ADP_BRIEF"] != ""
  guide = ENVIRON["ADP_GUIDE"]
  if (ENVIRON["ADP_COLOUR"] != "") { bold = "\033[1m"; red = "\033[31m"; plain = "\033[0m" }
  MOST = "4611686018427387903"
  MOST_HEADER = 400000
  MOST_TOKENS = 60000
  MOST_NOTED = 20000
  MOST_ENTRIES = 4096
  MOST_SUM = 4294967295
  for (code = 1; code < 256; code++) code_of[sprintf("%c", code)] = code
  HEX = "0123456789ABCDEF"
  said_words = split("class sign algebra let rule grammar words", KEYWORDS, " ")
  MOST_EXPLAINED = 3
  MOST_STEPS = 200000
  fill_tables()
  count = split(fault, part, " ")
  if (fault == "") explain_treeless()
  if (part[1] != "fault") exit
  if (part[2] == "text" && part[3] == "line") explain_text(part[4] + 0, part[6] + 0, part[8])
  else if (part[2] == "grammar") explain_grammar(part[4] + 0, part[6])
  else if (part[2] == "limit") explain_limit(part[4] + 0, part[6] + 0, part[8])
  else if (part[2] == "certificate") explain_certificate(part[4] + 0)
  else if (part[2] == "usage") explain_usage()
  else explain_run()
  exit
}

# ---- Modes and options: a line for each

function fill_tables() {
  add_mode("best", "--algebra --workers --seed")
  add_mode("serial", "--algebra --workers --seed")
  add_mode("wins", "--algebra --workers --seed")
  add_mode("replay", "--algebra --workers --seed --schedule", "--schedule", "a schedule, which says who makes each " \
      "step: as `--schedule 0110`")
  add_mode("lex", "--algebra --then --workers --seed", "--then", "a second algebra, which decides among the trees that " \
      "are equal by the first: as `--then NAME`")
  add_mode("kbest", "--algebra --best", "--best", "a number, which says how many trees are listed: as `--best 5`")
  add_mode("cert", "--algebra --workers --seed")
  add_mode("verify", "--algebra")
  add_mode("big", "--workers --seed --size", "--size", "a size, which says how many letters are made: as `--size 400`")
  add_option("--algebra", "name")
  add_option("--then", "name")
  add_option("--workers", "number", "1", "32")
  add_option("--seed", "number", "0", "18446744073709551615")
  add_option("--schedule", "entries")
  add_option("--best", "number", "1", "64")
  add_option("--size", "number", "1", "2046")
  # of the launcher
  add_option("--words", "file")
  add_option("--only-words", "file")
  add_option("--certificates", "folder")
  add_option("--time-limit", "seconds")
}

# A mode with its options, and where there is one, the option that it needs with what it is.
function add_mode(name, its_options, needed, what,    list, i) {
  MODES[++said_modes] = name
  is_of[name, "--time-limit"] = 1
  if (name != "big" && name != "verify") is_of[name, "--words"] = is_of[name, "--only-words"] = 1
  if (name == "cert") is_of[name, "--certificates"] = 1
  for (i = split(its_options, list, " "); i; i--) is_of[name, list[i]] = 1
  if (needed != "") needed_by[name] = needed
  needed_as[name] = what
}

# An option with the sort of its value, and of a number the least and the greatest.
function add_option(name, sort_of_value, least, most) {
  OPTIONS[++said_options] = name
  value_of[name] = sort_of_value
  least_of[name] = least
  most_of[name] = most
}

# Names of a list, or of those modes in it that have an option, in words.
function in_a_row(list, last_word, of_option,    i, n, chosen, text) {
  for (i = 1; i in list; i++) if (of_option == "" || (list[i], of_option) in is_of) chosen[++n] = list[i]
  for (i = 1; i <= n; i++) text = text (i == 1 ? "" : i == n ? " " last_word " " : ", ") chosen[i]
  return text
}

# ---- What is written

function tell(text) { print wrapped(text, "") }

function name_of(path) { return path == "-" || path == "" ? "standard input" : path }

# Whether a line is one of the file of more words, by the number that it has behind the job.
function is_of_words_file(number) { return job_lines >= 0 && number > job_lines }

# A line of the job, or of the file of more words, by the number that it has in both together.
function place_of(number) {
  if (is_of_words_file(number)) return name_of(ENVIRON["ADP_WORDS"]) ", line " number - job_lines
  return name_of_job ", line " number
}

# A text in lines of at most 100 letters.
function wrapped(text, indent,    words, n, i, line, out) {
  n = split(text, words, " ")
  line = indent
  for (i = 1; i <= n; i++) {
    if (line != indent && length(line) + length(words[i]) >= 100) { out = out line "\n"; line = indent }
    line = line (line == indent ? "" : " ") words[i]
  }
  return out line
}

function hex(byte,    code) {
  code = byte in code_of ? code_of[byte] : 0
  return substr(HEX, int(code / 16) + 1, 1) substr(HEX, code % 16 + 1, 1)
}

function is_printable(byte) { return byte >= " " && byte <= "~" }

function printed(text,    out, i, byte) {
  if (text !~ /[^ -~]/) return text
  for (i = 1; i <= length(text); i++) {
    byte = substr(text, i, 1)
    out = out (is_printable(byte) ? byte : byte == "\t" ? "\\t" : byte == "\r" ? "\\r" : "\\x" hex(byte))
  }
  return out
}

# A line of the job with its number; where a column is told, a mark below it. Long lines are cut around it.
function show(number, text, column,    front, first, shown) {
  first = 1
  if (is_of_words_file(number)) number -= job_lines
  if (column > 70) first = column - 60
  front = (first > 1 ? ".." : "") printed(substr(text, first, column > 0 ? column - first : 0))
  shown = (first > 1 ? ".." : "") printed(substr(text, first, 100)) (length(text) >= first + 100 ? ".." : "")
  printf "%s%6d | %s%s\n", plain, number, shown, plain
  if (column > 0) printf "%6s | %s%s^%s\n", "", blanks(length(front)), red, plain
}

function blanks(count) { return sprintf("%" count "s", "") }

function quoted(text) { return "`" printed(length(text) > 60 ? substr(text, 1, 60) ".." : text) "`" }

function plural(count, word) { return count " " word (count == 1 ? "" : "s") }

# The n-th part of a text like "first argument".
function nth(n) { return n == 1 ? "first" : n == 2 ? "second" : n == 3 ? "third" : n == 4 ? "fourth" : n "th" }

# ---- What docs/FAULTS.md says

# Prints heading and prose of the section of a number below a chapter.
function tell_section(chapter, number,    line, here, there, fenced, text) {
  while ((getline line < guide) > 0) {
    if (line ~ /^## /) { here = index(line, "## " chapter) == 1; there = 0 }
    else if (line ~ /^### / && here) {
      there = index(line, "### " number ". ") == 1
      if (there) text = substr(line, length("### " number ". ") + 1) ". "
    } else if (there) {
      if (line ~ /^```/) fenced = !fenced
      else if (!fenced && line != "") text = text " " line
    }
    if (there && line ~ /^### / && index(line, "### " number ". ") != 1) there = 0
  }
  close(guide)
  tell_prose(text, "")
}

# Prints the prose of a chapter.
function tell_chapter(chapter,    line, here, fenced, text) {
  while ((getline line < guide) > 0) {
    if (line ~ /^## /) here = index(line, "## " chapter) == 1
    else if (line ~ /^```/) fenced = !fenced
    else if (here && !fenced && line != "") text = text " " line
  }
  close(guide)
  tell_prose(text, "")
}

# Prints the mend of a fault that is none of a job, from the guide's table.
function tell_row(line_of_fault,    line, cell) {
  while ((getline line < guide) > 0) {
    gsub(/\\\|/, "\001", line)
    split(line, cell, /[|]/)
    if (cell[2] ~ /adp/ && cell[3] == " `" line_of_fault "` ") { tell_prose(cell[4], ""); break }
  }
  close(guide)
}

# Prints a text of the guide, without what only a page can show: where links lead, and the names of the examples.
function tell_prose(text, indent) {
  if (text == "") return
  gsub(/ \(`(certificate|[a-z]+-[0-9]+)(-[a-z]+)?`\)/, "", text)
  gsub(/\]\([^)]*\)/, "", text)
  gsub(/\[/, "", text)
  gsub(/\001/, "|", text)
  gsub(/[*]or/, "or", text)
  print ""
  print bold "docs/FAULTS.md:" plain
  print wrapped(text, "  ")
}

# ---- Reading the job

# Reads the header into `header`, up to `words_line`, and goes on to a line where that stands behind. Tells what it read
# by `lines`, the number of lines, which counts to that line only.
function read_job(wanted,    line, number, bytes) {
  words_line = 0
  while ((getline line < job) > 0) {
    number++
    sub(/\r$/, "", line)
    if (number == wanted) wanted_line = line
    if (!words_line) {
      if (substr(line, 1, 1) != "#" && line !~ /^ *$/) {
        header[number] = line
        if (number > 1 && index(line, "words") && line ~ /^ *words *$/) words_line = number
      }
      bytes += length(line) + 1
    }
    lines = number
    if (words_line && number >= wanted) break
  }
  close(job)
  is_small = bytes <= MOST_HEADER
  is_third = header[1] == "adp 3"
  is_second = header[1] == "adp 2" || is_third
}

function header_end() { return words_line ? words_line : lines }

# ---- Tokens

# Finds the tokens of a line: `token` and where each begins, `column`, from 1 to `tokens`. Where a byte begins none, it
# is put behind them as if it were one, and `offence` is its number. Of a very long line only the front is looked at.
function find_tokens(text,    at, byte, rest, most) {
  tokens = offence = 0
  is_cut = length(text) > MOST_TOKENS
  if (is_cut) text = substr(text, 1, MOST_TOKENS)
  most = length(text)
  for (at = 1; at <= most && !offence; at += length(rest)) {
    while (substr(text, at, 1) == " ") at++
    if (at > most) break
    rest = substr(text, at, 300)
    if (!match_token(rest) || (RLENGTH == 300 && at + 300 <= most)) {
      rest = substr(text, at)
      match_token(rest)
    }
    tokens++
    column[tokens] = at
    if (RLENGTH < 1) { offence = tokens; RLENGTH = 1 }
    token[tokens] = rest = substr(rest, 1, RLENGTH)
  }
  column[tokens + 1] = most + 1
  token[tokens + 1] = ""
}

function match_token(rest,    byte) {
  byte = substr(rest, 1, 1)
  if (byte ~ /[A-Za-z0-9_]/) return match(rest, /^[A-Za-z0-9_]+/)
  if (byte == "\"") return match(rest, /^"([^"\\]|\\"|\\\\)*"/)
  if (byte == ".") return match(rest, /^\.\./)
  RLENGTH = index("=()[],|+*-", byte) > 0 ? 1 : -1
  return RLENGTH > 0
}

# ---- Shapes

# Whether a line has form. Where not, `wrong_at` is the column of what is wrong, and `wrong` says what. Where it has
# tokens, `shape` is its keyword and `declared` the word in the place of its name.
function has_form(number,    text) {
  text = parsed = header[number]
  shape = declared = wrong = ""
  strange_at = match(text, /[^ -~]/) ? RSTART : 0
  if (strange_at && !(is_third && text ~ /^ *rule /)) return fails_strange(text)
  find_tokens(text)
  at = 1
  if (parse_line() && !offence) return strange_at && !is_strange_within(text) ? fails_strange(text) : 1
  if (strange_at) return fails_strange(text)
  if (offence && at > offence) at = offence
  wrong_at = column[at]
  if (is_cut && at > tokens - 2) {
    wrong = "the line has " length(header[number]) " letters, and what is wrong stands behind the first " MOST_TOKENS
    return 0
  }
  if (at == offence && !is_told_better()) wrong = offending(text, column[offence])
  return 0
}

function fails_strange(text) {
  wrong_at = strange_at
  return fails(strange(text, strange_at))
}

# Whether each byte of a rule that is not printable ASCII stands in an alternative within another one: the line of that
# one's hidden rule is faulty then, and not this line.
function is_strange_within(text,    i, behind) {
  behind = 1
  for (i = 1; i <= alternatives; i++) {
    if (!outer[i] || outer[outer[i]]) continue
    if (substr(text, behind, column[alternative_at[i]] - behind) ~ /[^ -~]/) return 0
    behind = column[close_at[i]] + 1
  }
  return substr(text, behind) !~ /[^ -~]/
}

# Whether what is wrong at an offending byte was told by its place.
function is_told_better() { return wrong ~ /^(numbers are|there is no)/ || shape == "words" }

# What a byte is that is not printable ASCII, in words, and what to put there.
function strange(text, at,    byte, two, three) {
  byte = substr(text, at, 1)
  two = substr(text, at, 2)
  three = substr(text, at, 3)
  if (byte == "\t") return "a tab stands here: put spaces"
  if (byte == "\r") return "a carriage return stands here that is not directly before the end of its line"
  if (two == "\302\240") return "a no-break space stands here: put a space"
  if (three ~ /^\342\200[\230-\237]/) return "a typographic quote stands here: put \""
  if (three ~ /^\342\200[\220-\225]/ || three == "\342\210\222") return "a long dash or minus stands here: put -"
  if (three == "\342\200\246") return "an ellipsis of one letter stands here: put .."
  if (three == "\303\227" || two == "\302\267" || two == "\303\227") return "a times sign stands here: put *"
  if (three == "\357\273\277") return "a byte order mark stands here: save the file without it (UTF-8 without BOM)"
  if (byte >= "\302" && byte <= "\364") return "a letter stands here that is not ASCII; a job has none, so write " \
      "it otherwise, by one letter for each"
  return "the byte \\x" hex(byte) " stands here, which is not printable ASCII"
}

# What an offending byte of a header line is.
function offending(text, at,    byte, rest) {
  byte = substr(text, at, 1)
  rest = substr(text, at)
  if (byte == "\"") return open_quote(text, at)
  if (byte == "'") return "letters stand in double quotes: \"..\""
  if (byte == ";") return "no `;` ends a line"
  if (byte == "#") return "a comment has a line of its own, with `#` as its first byte"
  if (byte == ":") return "a `=` stands between a name and what it means, and no `:`"
  if (byte == ".") return "a `.` alone begins no token: numbers are whole, and a run has two dots, `..`"
  if (substr(rest, 1, 2) == "//" || substr(rest, 1, 2) == "/*") return "a comment begins with `#`, as the first byte " \
      "of its line"
  if (byte == "%" && at == 1) return "a comment begins with `#`"
  if (byte == "/") return "a `/` begins no token: alternatives have `|` between them, and there is no division"
  if (byte == ">" || byte == "<") return "a `" byte "` begins no token: a rule has `=` behind its name"
  if (byte == "{" || byte == "}") return "a `" byte "` begins no token: brackets are `(` `)` and `[` `]`"
  return "a `" byte "` begins no token"
}

# Why a quoted text does not end; `wrong_at` goes to a backslash that is in the way.
function open_quote(text, at,    i, byte) {
  for (i = at + 1; i <= length(text); i++) {
    byte = substr(text, i, 1)
    if (byte != "\\") continue
    byte = substr(text, i + 1, 1)
    if (byte != "\"" && byte != "\\") {
      wrong_at = i
      if (byte == "") return "a backslash stands at the end: write `\\\\` for a backslash, and close the text by `\"`"
      return "a `\\` stands before `" byte "`: in a quoted text only `\\\"` and `\\\\` are written so"
    }
    i++
  }
  return "this quoted text does not end on its line: a `\"` is missing, or one is too many before it"
}

function is_word(text) { return text ~ /^[A-Za-z0-9_]/ }
function is_name(text) { return text ~ /^[A-Za-z][A-Za-z0-9_]*$/ && length(text) <= 32 }
function is_digits(text) { return text ~ /^[0-9]+$/ }

# What stands at the parser's place, in words.
function seen() { return at > tokens ? "the line ends here" : quoted(token[at]) " stands here" }

function fails(text) { wrong = text; return 0 }

function eat(mark) {
  if (at <= tokens && token[at] == mark) { at++; return 1 }
  if (is_hyphened()) return fails_hyphened()
  return fails(seen() ", where `" mark "` should be")
}

# Whether a `-` stands within what was meant as a name.
function is_hyphened() {
  return token[at] == "-" && is_name(token[at - 1]) && is_word(token[at + 1]) && \
      column[at] == column[at - 1] + length(token[at - 1]) && column[at + 1] == column[at] + 1
}

function fails_hyphened() {
  return fails("a name has letters, digits and `_`, and no `-`: write " token[at - 1] "_" token[at + 1])
}

# A word that is wanted as something.
function eat_word(what) {
  if (at <= tokens && is_word(token[at])) { at++; return 1 }
  return fails(seen() ", where " what " should be")
}

function at_end(what) {
  if (at > tokens) return 1
  return fails(seen() ", where the line should end" what)
}

# Reads the line's tokens from the first one on: `at` is the place behind the last one that fits.
function parse_line(    word) {
  word = shape = token[1]
  declared = token[2]
  at = 2
  if (word == "words") return at_end("")
  if (word == "grammar") return eat_word("the rule of the whole word") && at_end(": it names one rule")
  if (word == "class") return parse_class()
  if (word == "sign") return parse_sign()
  if (word == "algebra") return parse_algebra()
  if (word == "let") return parse_let()
  if (word == "rule") return parse_rule()
  at = 1
  shape = ""
  if (word == "|") return fails("a line begins with `|`: a rule stands on one line with all its alternatives")
  if (word ~ /^[\/%;]/ || (word == "-" && token[2] == "-")) return fails("a comment begins with `#`, as the first " \
      "byte of its line")
  if (token[2] == "(") return fails("`let` is missing in front")
  if (token[2] == "=" && substr(token[3], 1, 1) == "\"") return fails("`class` is missing in front")
  if (is_name(word) && is_defined_behind()) return fails("`rule` is missing in front" (token[2] == "=" ? "" : \
      ", and a `=` stands behind the name") ": rule " word " = ..")
  word = meant_by(word)
  if (word == "") word = nearest(token[1], KEYWORDS)
  if (word != "") return fails("a line begins with " quoted(token[1]) ": is " quoted(word) " meant?")
  return fails("a line of the header begins with class, sign, algebra, let, rule, grammar or words")
}

# Whether the line goes on as definitions do in other languages.
function is_defined_behind(    rest) {
  rest = substr(parsed, column[1] + length(token[1]))
  return rest ~ /^ *(::=|:=|->|=>|=)/
}

# The keyword that is meant by a word of other languages.
function meant_by(word) {
  if (index(" axiom start main root goal entry ", " " word " ")) return "grammar"
  if (index(" end input inputs data strings word ", " " word " ")) return tokens > 1 ? "grammar" : "words"
  if (index(" alphabet letters charset set ", " " word " ")) return "class"
  if (index(" signature function operator constructor ", " " word " ")) return "sign"
  if (index(" production nonterminal ", " " word " ")) return "rule"
  return ""
}

function parse_class() {
  if (!(eat_word("the name of the class") && eat("="))) return 0
  items = 0
  while (at <= tokens || !items) {
    if (substr(token[at], 1, 1) != "\"" || at > tokens) {
      return fails(seen() ", where letters in quotes should be")
    }
    item_at[++items] = at++
    if (token[at] == "-") at++
    if (!is_word(token[at])) return fails(seen() ", where the weight of the letters before it should be: each " \
        "quoted text has a number behind it, as 0")
    weight_at[items] = at++
  }
  return 1
}

function parse_sign() {
  if (!(eat_word("the name of the sign") && eat("("))) return 0
  kinds = 0
  do {
    if (token[at] != "score" && token[at] != "token") {
      return fails(seen() ", where a kind should be: `token` for letters of the word, or `score` for a part with a " \
          "score")
    }
    kind[++kinds] = token[at++]
  } while (token[at] == "," && at++)
  if (token[at] == "score" || token[at] == "token") return fails("a `,` is missing before " quoted(token[at]))
  return eat(")") && at_end("")
}

function parse_algebra() {
  if (!eat_word("the name of the algebra")) return 0
  if (token[at] != "min" && token[at] != "max") return fails(seen() ", where `min` or `max` should be: whether the " \
      "least or the greatest score is best")
  at++
  return at_end("")
}

function parse_let() {
  if (!(eat_word("the name of a sign") && eat("("))) return 0
  variables = 0
  do {
    if (!eat_word("the name of a variable")) return 0
    variable[++variables] = token[at - 1]
    variable_at[variables] = at - 1
  } while (token[at] == "," && at++)
  if (!(eat(")") && eat("="))) return 0
  term_at = at
  return is_second ? parse_wide() : parse_term()
}

# A number, a variable, or a number, `*` and a variable; then `+` or `-` and so on.
function parse_term() {
  if (token[at] == "-") at++
  for (;;) {
    if (!parse_part()) return 0
    if (at > tokens) return 1
    if (token[at] != "+" && token[at] != "-") return behind_part()
    at++
  }
}

function parse_part() {
  if (token[at] == "(") return no_brackets()
  if (token[at] == "if" && is_word(token[at + 1])) return fails("a term has no conditions: give each case a sign of " \
      "its own, and let the rules say which may stand where")
  if (token[at] == "+" || token[at] == "-") return fails(seen() ", where a number or a variable should be: there " \
      "is one sign at a time, and no `+` in front")
  if (!eat_word("a number or a variable")) return 0
  if (token[at - 1] !~ /^[0-9]/ || token[at] != "*") return 1
  at++
  if (token[at] == "(") return no_brackets()
  if ((token[at] == "min" || token[at] == "max") && token[at + 1] == "(") return no_choice(token[at])
  if (token[at] ~ /^[0-9]/) return fails("there is no product of numbers: write the number that it is")
  return eat_word("a variable")
}

function no_functions(name,    j) {
  for (j = 1; j <= variables; j++) if (variable[j] == name) return no_brackets()
  if (name ~ /^(len|length|size|count|strlen)$/) return fails("a term has no functions: give the letters of the " \
      "class the weight 1, and a run of them is worth its length")
  return fails("a term has no functions, as `" name "`: it is a sum of numbers and of variables, each with a factor")
}

function no_brackets() { return fails("a term has no brackets in `adp 1`: multiply out, as 2*x + 2*y for 2*(x + y), " \
    "or write `adp 2` in line 1") }

function no_choice(name) { return fails("a term has no `" name "` in `adp 1`: write `adp 2` in line 1, or give each " \
    "case a sign of its own, and let the goal choose between the alternatives") }

# What is wrong behind a part of a term that is followed by no `+` and no `-`.
function behind_part(    before, behind) {
  before = token[at - 1]
  behind = token[at + 1]
  if (token[at] == "*") {
    if (before ~ /^[0-9]/ || token[at - 2] == "*") return fails("there is one factor and one variable in a product " \
        "in `adp 1`")
    if (behind ~ /^[0-9]/) return fails("a factor stands before its variable: write " behind "*" before)
    return fails("there is no product of two variables in `adp 1`, whose terms are sums: write `adp 2` in line 1")
  }
  if (token[at] == "(" && (before == "min" || before == "max")) return no_choice(before)
  if (token[at] == "(" && is_name(before)) return no_functions(before)
  if (token[at] == "(") return no_brackets()
  return behind_value(before)
}

# What is wrong behind a number or a variable, in any format.
function behind_value(before) {
  if (token[at] == "." && before ~ /^[0-9]/) return fails("numbers are whole: multiply all numbers of the algebra " \
      "by 10, 100 or more")
  if (token[at] == ".." && before ~ /^[0-9]/) return fails("numbers are whole, and a term has no dots")
  if (token[at] == "/") return fails("there is no division: multiply all numbers of the algebra so that each is whole")
  if (token[at] == "^") return fails("there is no power: write the number that it is")
  if (is_word(token[at])) return fails("`+`, `-` or `*` is missing before " quoted(token[at]))
  return fails(seen() ", where `+`, `-` or the end of the line should be")
}

# A term of the second format, as a tree: `term_root` is its top node. Of each node `operation` tells what it is, `+`,
# `-`, `*`, `max` or `min`, or `leaf` or `nought` (the 0 before a first `-`), `side` its two sides, and the tokens from
# `begins` to `ends` are its text, with the brackets round it. What is open waits on a stack: `open_nodes` nodes, and
# `opened` operations and brackets.
function parse_wide(    is_due, is_first, word) {
  nodes = open_nodes = opened = term_root = 0
  is_due = is_first = 1
  for (;;) {
    word = at > tokens ? "" : token[at]
    if (is_due && word == "-" && is_first) {
      add_leaf("nought")
      open_operation("-")
      is_first = 0
    } else if (is_due && (word == "(" || ((word == "max" || word == "min") && token[at + 1] == "("))) {
      bracket_at[opened + 1] = at
      open_operation(word == "(" ? "(" : word "(")
      if (word != "(") at++
      is_first = 1
    } else if (is_due) {
      if (!is_word(word)) return no_value(word)
      add_leaf("leaf")
      is_due = is_first = 0
    } else if (word == "+" || word == "-" || word == "*") {
      reduce(word == "*" ? 2 : 1)
      open_operation(word)
      is_due = 1
    } else if (word == ",") {
      reduce(0)
      if (stacked[opened] !~ /^m..\($/) return no_comma()
      stacked[opened] = substr(stacked[opened], 1, 3) ","
      is_due = is_first = 1
    } else if (word == ")") {
      reduce(0)
      if (!opened) return fails("this `)` closes no bracket")
      if (stacked[opened] ~ /\($/ && stacked[opened] != "(") return fails("`" substr(stacked[opened], 1, 3) \
          "` takes two, with a comma between them")
      close_bracket()
    } else if (word == "") {
      reduce(0)
      if (opened) return fails("a `)` is missing: the bracket at column " column[bracket_at[opened]] " does not close")
      term_root = waiting_node[1]
      return 1
    } else return behind_wide(token[at - 1])
    at++
  }
}

function add_leaf(sort_of_leaf) {
  operation[++nodes] = sort_of_leaf
  begins[nodes] = ends_at[nodes] = at
  waiting_node[++open_nodes] = nodes
}

function open_operation(what) {
  stacked[++opened] = what
  stacked_at[opened] = at
}

# Joins what binds as tightly as this, or more so, down to a bracket.
function reduce(least) {
  while (opened && stacked[opened] ~ /^[-+*]$/ && (stacked[opened] == "*" ? 2 : 1) >= least) join_sides(stacked[opened])
}

function join_sides(what) {
  operation[++nodes] = what
  joined_at[nodes] = stacked_at[opened--]
  side[nodes, 2] = waiting_node[open_nodes--]
  side[nodes, 1] = waiting_node[open_nodes]
  begins[nodes] = begins[side[nodes, 1]]
  ends_at[nodes] = ends_at[side[nodes, 2]]
  waiting_node[open_nodes] = nodes
}

function close_bracket(    first) {
  first = bracket_at[opened]
  if (stacked[opened] == "(") opened--
  else join_sides(substr(stacked[opened], 1, 3))
  begins[waiting_node[open_nodes]] = first
  ends_at[waiting_node[open_nodes]] = at
}

# What is wrong where a number, a variable or a bracket should be.
function no_value(word) {
  if (word == "-") return fails("a `-` stands here before a number or a variable: put brackets, as (-x)")
  if (word == "+") return fails("there is one sign at a time, and no `+` in front")
  if (word == ")" && token[at - 1] == "(") return fails("nothing stands in these brackets")
  return fails(seen() ", where a number, a variable or a bracket should be")
}

function no_comma() {
  return fails(opened ? stacked[opened] == "(" ? "a comma stands in brackets: is `max` or `min` meant?" : "`" \
      substr(stacked[opened], 1, 3) "` takes two: for three write " substr(stacked[opened], 1, 3) "(a, " \
      substr(stacked[opened], 1, 3) "(b, c))" : "a comma stands outside of `max(..)` and `min(..)`")
}

function behind_wide(before) {
  if (token[at] == "(" && before ~ /^[0-9]/) return fails("a `*` is missing before the bracket")
  if (token[at] == "(" && is_name(before) && !is_variable(before)) {
    if (before ~ /^(maximum|Max|MAX|greater)$/) return fails("is `max` meant?")
    if (before ~ /^(minimum|Min|MIN|lesser)$/) return fails("is `min` meant?")
    if (before ~ /^(len|length|size|count|strlen)$/) return fails("a term has no function " quoted(before) \
        ": give the letters of the class the weight 1, and a run of them is worth its length")
    return fails("a term has no functions but `max` and `min`, and none that is called " quoted(before))
  }
  if (token[at] == "(") return fails("`+`, `-` or `*` is missing before the bracket")
  return behind_value(before)
}

function is_variable(name,    j) {
  for (j = 1; j <= variables; j++) if (variable[j] == name) return 1
  return 0
}

# The text of a part of a term.
function part_text(node,    last) {
  last = ends_at[node]
  return substr(parsed, column[begins[node]], column[last] + length(token[last]) - column[begins[node]])
}

function parse_rule() {
  if (!eat_word("the name of the rule")) return 0
  if (token[at] != "=" && is_word(token[at]) && token[at + 1] == "=") return \
      fails("a name is one word: letters, digits and `_`")
  if (!eat("=")) return 0
  alternatives = tops = 0
  do {
    if (!parse_alternative()) return 0
  } while (token[at] == "|" && at++)
  if (at > tokens) return 1
  if (is_word(token[at])) return fails("a `|` is missing before " quoted(token[at]) ", or a name is in two words")
  return fails(seen() ", where `|` or the end of the line should be")
}

# An alternative of the rule, with those within it, which stand behind it in the order in which they begin. Those that
# are open wait on a stack: `opened` of them.
function parse_alternative(    i, top) {
  if (substr(token[at], 1, 1) == "\"" || token[at] == "[") return fails("an alternative is a sign with its " \
      "arguments in brackets, and no " (token[at] == "[" ? "letter" : "literal") " alone: give it a sign")
  if (!eat_word("an alternative")) return 0
  opened = 0
  top = add_alternative(at - 1)
  tops++
  if (is_hyphened()) return fails_hyphened()
  if (token[at] != "(") {
    if (at > tokens || token[at] == "|") return fails(quoted(token[at - 1]) \
        " is no alternative alone: an alternative is a sign with its arguments in brackets, as " token[at - 1] \
        "(\"\")" (is_rule_elsewhere(token[at - 1]) ? "; for the rule " token[at - 1] " take a sign with one score" : \
        ""))
    return eat("(")
  }
  at++
  while (opened) {
    i = stacked[opened]
    if (is_third && is_word(token[at]) && token[at + 1] == "(") {
      add_nested(i, ++arguments[i])
      at += 2
      continue
    }
    if (!parse_argument(i, ++arguments[i]) || !close_alternatives()) return 0
  }
  return parse_size(top)
}

function add_alternative(place,    i) {
  i = ++alternatives
  alternative_at[i] = place
  arguments[i] = size_at[i] = 0
  size_low[i] = size_high[i] = ""
  outer[i] = opened ? stacked[opened] : 0
  top_of[i] = opened ? top_of[stacked[opened]] : tops + 1
  stacked[++opened] = i
  return i
}

# The j-th argument of an alternative, which is one itself.
function add_nested(i, j) {
  argument_at[i, j] = at
  sort[i, j] = "nested"
  low[i, j] = high[i, j] = ""
  argument[i, j] = add_alternative(at)
}

# What stands behind an argument: the alternatives that end there are closed.
function close_alternatives() {
  while (opened) {
    if (token[at] == ",") { at++; return 1 }
    if (token[at] != ")") return fails_behind_argument()
    close_at[stacked[opened--]] = at++
    if (opened && token[at] == "with") return fails("an alternative within another one has no size: put it behind " \
        "the outermost one, or give this one a rule of its own")
  }
  return 1
}

function fails_behind_argument() {
  if (token[at] == "(" && is_third) return fails("an alternative within another one begins with a sign, and " \
      quoted(token[at - 1]) " is none")
  if (token[at] == "(") return fails("an argument is a rule, letters in quotes, or a class in square brackets: a " \
      "nested " quoted(token[at - 1] "(..)") " needs a rule of its own, or `adp 3` in line 1")
  if (token[at] == "|" && is_third) return fails("`|` stands here, where `)` should be: an argument is one " \
      "alternative, and several need a rule of their own")
  if (is_word(token[at]) || token[at] == "[" || substr(token[at], 1, 1) == "\"") return \
      fails("a `,` is missing before " quoted(token[at]))
  return eat(")")
}

# The size of an alternative, where it has one.
function parse_size(i) {
  if (token[at] ~ /^(with|size|sizes|minsize|maxsize|length|suchthat)$/ && (!is_second || token[at] != "with" || \
      token[at + 1] != "size")) return fails_size()
  if (token[at] != "with") return 1
  size_at[i] = at
  at += 2
  if (!eat_word("the least number of letters")) return 0
  size_low[i] = token[at - 1]
  if (token[at] != "..") return fails("two dots stand behind the least number of letters: with size " size_low[i] \
      ".., or with size " size_low[i] ".." size_low[i] " for just so many")
  at++
  if (is_word(token[at])) size_high[i] = token[at++]
  return 1
}

function fails_size(    low) {
  low = token[at + 2] == "(" && is_digits(token[at + 3]) ? token[at + 3] : "2"
  if (!is_second) return fails("an alternative has no size in `adp 1`: write `adp 2` in line 1")
  if (token[at + 1] == "minsize") return fails("a least number of letters is written: with size " low "..")
  if (token[at + 1] == "maxsize") return fails("a greatest number of letters is written: with size 0.." low)
  return fails("what letters an alternative may cover is written: with size 2..5, or: with size 2..")
}

function is_rule_elsewhere(word,    number) {
  for (number in header) if (header[number] ~ ("^ *rule +" word "[ =]")) return 1
  return 0
}

function parse_argument(i, j) {
  argument_at[i, j] = at
  low[i, j] = high[i, j] = ""
  if (substr(token[at], 1, 1) == "\"" && at <= tokens && at != offence) { sort[i, j] = "literal"; argument[i, j] = \
      token[at++]; return 1 }
  if (is_word(token[at])) { sort[i, j] = "rule"; argument[i, j] = token[at++]; return 1 }
  if (token[at] != "[") return fails(seen() ", where an argument should be: a rule, letters in quotes, " (is_third ? \
      "a class in square brackets, or an alternative" : "or a class in square brackets"))
  at++
  if (token[at] ~ /^[0-9]/) return class_first()
  if (!eat_word("the name of a class")) return 0
  sort[i, j] = "letter"
  argument[i, j] = token[at - 1]
  if (token[at] == "]") { at++; return 1 }
  sort[i, j] = "run"
  if (token[at] == ",") return fails(is_digits(token[at + 1]) ? "no `,` stands behind the class: [" argument[i, j] \
      " 2..5]" : "a `]` is missing behind " quoted(argument[i, j]))
  if (token[at] == ")" || token[at] == "|") return fails("a `]` is missing behind " quoted(argument[i, j]))
  if (!is_word(token[at])) return fails(seen() ", where `]` or the least number of letters should be")
  low[i, j] = token[at++]
  if (token[at] == "-") return fails("two dots stand between the bounds of a run: [" argument[i, j] " " low[i, j] "..]")
  if (token[at] == "." || token[at] == "]" || token[at] == ",") return fails("a run has two dots: [" argument[i, j] \
      " " low[i, j] ".." low[i, j] "] for just so many letters")
  if (!eat("..")) return 0
  if (is_word(token[at])) high[i, j] = token[at++]
  return eat("]")
}

# ---- What a header declares

# Parses all lines of the header, and keeps what each declares: `line_of[sort, name]`, `lacks_form[number]`, the kinds
# of each sign, the lets of each algebra's section, and the alternatives of each rule.
function read_header(    number, section, noted) {
  if (is_read) return
  is_read = 1
  for (number = 2; number <= header_end(); number++) {
    if (!(number in header)) continue
    if (!is_small && number != wanted_number) {
      if (++noted <= MOST_NOTED) note_lightly(number)
      continue
    }
    if (!has_form(number)) {
      lacks_form[number] = 1
      match(header[number], /^ *[A-Za-z0-9_]+/)
      continue
    }
    if (shape == "algebra") { section = number; sections[++sections_count] = number }
    else if (shape == "let") note_let(number, section)
    else if (shape == "sign") note_sign(number)
    else if (shape == "rule") note_rule(number)
    if (shape != "let" && !((shape, declared) in line_of)) {
      line_of[shape, declared] = number
      names_of[shape] = names_of[shape] " " declared
    }
  }
  declare_hidden()
}

# Hidden rules come last, and one whose name a rule has already is `taken`, by the line of that rule.
function declare_hidden(    n, name) {
  # (in a header that is too long to be read whole, their numbers are not known)
  if (!is_small) return
  for (n = 1; n <= hidden_count; n++) {
    name = "h_" n
    if (("rule", name) in line_of) { taken[name] = line_of["rule", name]; continue }
    line_of["rule", name] = hidden_line[name]
    rules[++rules_count] = name
  }
}

# What a line declares by its first two words alone, in a header that is too long to be read whole.
function note_lightly(number,    word) {
  split(header[number], word, /[ (=]+/)
  if (!((word[1], word[2]) in line_of)) line_of[word[1], word[2]] = number
}

function note_let(number, section) {
  if (!((section, declared) in let_of)) let_of[section, declared] = number
  lets[++lets_count] = number
  let_section[number] = section
  let_sign[number] = declared
}

function note_sign(number,    j) {
  if (("sign", declared) in line_of) return
  signs[++signs_count] = declared
  kinds_of[declared] = kinds
  for (j = 1; j <= kinds; j++) kind_of[declared, j] = kind[j]
}

# Keeps the alternatives of a rule, and a hidden rule for each one within another.
function note_rule(number,    i, name, is_new) {
  is_new = !(("rule", declared) in line_of)
  if (is_new) {
    rules[++rules_count] = declared
    alternatives_of[declared] = tops
  }
  for (i = 1; i <= alternatives; i++) {
    if (outer[i]) hidden_count++
    hidden_name[i] = outer[i] ? "h_" hidden_count : ""
  }
  for (i = 1; i <= alternatives; i++) {
    name = hidden_name[i]
    if (name == "") { if (is_new) note_alternative(i, declared, top_of[i]); continue }
    hidden_line[name] = number
    hidden_column[name] = column[alternative_at[i]]
    alternatives_of[name] = 1
    note_alternative(i, name, 1)
  }
}

function note_alternative(i, rule, a,    j) {
  sign_of[rule, a] = token[alternative_at[i]]
  arguments_of[rule, a] = arguments[i]
  size_low_of[rule, a] = size_low[i]
  size_high_of[rule, a] = size_high[i]
  for (j = 1; j <= arguments[i]; j++) {
    is_nested[rule, a, j] = sort[i, j] == "nested"
    sort_of[rule, a, j] = is_nested[rule, a, j] ? "rule" : sort[i, j]
    argument_of[rule, a, j] = is_nested[rule, a, j] ? hidden_name[argument[i, j]] : argument[i, j]
    low_of[rule, a, j] = low[i, j]
    high_of[rule, a, j] = high[i, j]
  }
}

# The line of a shape that was meant to declare a name and has no form; 0 where there is none.
function meant_line(word, name, first, last,    number) {
  for (number = first; number <= last; number++) {
    if (number in lacks_form && header[number] ~ ("^[ \t]*" word "[ \t]+" name "([^A-Za-z0-9_]|$)")) return number
  }
  return 0
}

# Shows a line without form, and what is wrong with it.
function show_wrong(number) {
  has_form(number)
  show(number, header[number], wrong_at)
  tell(sentence(wrong))
  if (shape == "rule" && at > tokens && goes_on(number + 1)) tell("The rule goes on in line " number + 1 ": a rule " \
      "stands on one line, with all its alternatives.")
}

# Whether a line of the header goes on with what the one before began.
function goes_on(number,    list) {
  if (!(number in header) || number == words_line) return 0
  split(header[number], list, " ")
  return !is_one_of(list[1], KEYWORDS)
}

function sentence(text) { return toupper(substr(text, 1, 1)) substr(text, 2) (text ~ /[.?:"]$/ ? "" : ".") }

# ---- Names that are alike

# The name of a list that is most like a word; nothing where none is like it.
function nearest(word, names,    i, best, least, most, found) {
  least = length(word) < 4 ? 1 : 2
  for (i = 1; i in names; i++) {
    if (names[i] == word) continue
    if (tolower(names[i]) == tolower(word)) return names[i]
    most = distance(word, names[i])
    if (most <= least && (most < least || best == "")) { best = names[i]; least = most }
  }
  return best
}

# How many letters have to be put in, left out, exchanged, or swapped with their neighbour.
function distance(one, other,    i, j, n, m, cost, row, least) {
  n = length(one)
  m = length(other)
  if (n - m > 2 || m - n > 2) return 9
  for (j = 0; j <= m; j++) row[0, j] = j
  for (i = 1; i <= n; i++) {
    row[i, 0] = i
    for (j = 1; j <= m; j++) {
      cost = substr(one, i, 1) != substr(other, j, 1)
      least = row[i - 1, j - 1] + cost
      if (row[i - 1, j] + 1 < least) least = row[i - 1, j] + 1
      if (row[i, j - 1] + 1 < least) least = row[i, j - 1] + 1
      if (i > 1 && j > 1 && substr(one, i, 1) == substr(other, j - 1, 1) && substr(one, i - 1, 1) == substr(other, \
          j, 1) && row[i - 2, j - 2] + 1 < least) least = row[i - 2, j - 2] + 1
      row[i, j] = least
    }
  }
  return row[n, m]
}

function like(word, sort,    list, found) {
  split(names_of[sort], list, " ")
  found = nearest(word, list)
  return found == "" ? "" : ": is " quoted(found) " of line " line_of[sort, found] " meant?"
}

# ---- Faults of the text

function explain_text(number, kind_number, counted) {
  if (job == "") return
  wanted_number = number
  read_job(number)
  print ""
  print bold place_of(number) ":" plain
  if (kind_number == 1) tell_first_line()
  else if (kind_number == 2) tell_strange_byte(number)
  else if (kind_number == 3) {
    show_wrong(number)
    if (!words_line) tell("(The job has no line `words`, behind which the words stand.)")
  }
  else if (kind_number == 4) tell_name(number)
  else if (kind_number == 5) tell_number(number)
  else if (kind_number == 6) tell_open_quote(number)
  else if (kind_number == 10) tell_no_words(number)
  else {
    read_header()
    if (number in header) has_form(number)
    if (kind_number == 7) tell_twice(number)
    else if (kind_number == 8) tell_letters(number)
    else if (kind_number == 9) tell_let(number)
    else if (kind_number == 11) tell_axiom(number)
    else if (kind_number == 12) tell_undeclared(number)
    else if (kind_number == 13) tell_arguments(number)
    else if (kind_number == 14) tell_run(number)
    else if (kind_number == 15) tell_incomplete(number)
    else if (kind_number == 16) tell_count(number, counted)
    else if (kind_number == 17) tell_variable_twice(number)
    else show(number, wanted_line, 0)
  }
  tell_section("Faults of the text", kind_number)
}

# Whether a line has bytes that stand in no text of any language: one in ten, or more.
function is_no_text(line,    i, n, byte, strange_bytes) {
  n = length(line) < 200 ? length(line) : 200
  for (i = 1; i <= n; i++) {
    byte = substr(line, i, 1)
    if (!(byte in code_of) || (code_of[byte] < 32 && byte !~ /[\t\r]/) || byte == "\177") strange_bytes++
    else if (byte >= "\200" && byte < "\302" && (i == 1 || substr(line, i - 1, 1) < "\200")) strange_bytes++
  }
  return strange_bytes * 10 > n
}

function tell_first_line() {
  if (lines == 0) { tell("The job is empty."); return }
  if (is_no_text(wanted_line) && wanted_line !~ /^\377\376|^\376\377|^a?$/) {
    tell("This is no text: a job is lines of letters, digits and marks that can be read.")
    return
  }
  show(1, wanted_line, 1)
  if (wanted_line ~ /^\357\273\277/) tell(sentence(strange(wanted_line, 1)))
  else if (wanted_line ~ /^\377\376|^\376\377/ || wanted_line ~ /^a?$/ && lines > 1 && wanted_line != "") \
      tell("The file seems to be UTF-16: save it as plain text, ASCII or UTF-8.")
  else if (wanted_line ~ /^[ \t]*$/) tell("The first line is empty: `adp 1`, `adp 2` or `adp 3` has to be the very " \
      "first one.")
  else if (wanted_line ~ /^#/) tell("A comment stands first: `adp 1`, `adp 2` or `adp 3` has to be the very first " \
      "line.")
  else if (tolower(wanted_line) ~ /^[ \t]*adp[ \t]*[123][ \t]*$/) tell("Only `adp " (wanted_line ~ /1/ ? 1 : \
      wanted_line ~ /2/ ? 2 : 3) "` itself will do: small letters, one space, and none before or behind.")
  else if (wanted_line ~ /^adp [0-9]+$/) tell("This program reads the formats `adp 1`, `adp 2` and `adp 3`.")
  else if (wanted_line == "cert") tell("This is a certificate, and no job: `adp verify FILE` checks it, and " \
      "tools/table.html draws it.")
  else if (wanted_line ~ /^word [0-9]+$/) tell("This is a report, and no job: tools/view.html and tools/report show it.")
  else tell("A job begins with the line `adp 1`, `adp 2` or `adp 3`.")
}

function tell_strange_byte(number,    text) {
  text = wanted_line
  if (is_no_text(text)) { tell("This line is no text: many of its bytes are no letters, digits or marks."); return }
  if (!match(text, /[^ -~]/)) { show(number, text, 0); return }
  wrong_at = RSTART
  show(number, text, wrong_at)
  tell(sentence(strange(text, wrong_at)))
  if (words_line && number > words_line) tell(is_of_words_file(number) ? "This line is a word: each line of this " \
      "file is one." : "This line is a word: all that stands behind the line `words` (line " words_line ") is words.")
}

# A word in the place of a name that is none.
function tell_name(number,    i, word, place) {
  has_form(number)
  place = 0
  if (declared != "" && !is_name(declared)) place = 2
  for (i = 1; !place && i <= tokens; i++) {
    if (is_word(token[i]) && !is_name(token[i]) && is_in_place_of_name(i)) place = i
  }
  if (!place) { show(number, header[number], 0); return }
  word = token[place]
  show(number, header[number], column[place])
  if (length(word) > 32) tell(quoted(word) " has " length(word) " letters, and a name at most 32.")
  else tell(quoted(word) " is no name: a name begins with a letter.")
}

function is_in_place_of_name(place,    before) {
  before = token[place - 1]
  if (shape == "let") return place < term_at || token[place] !~ /^[0-9]/
  if (shape == "rule") return before != ".." && !(is_word(before) && token[place - 2] == "[") && \
      !is_bound_of_size(place)
  return 0
}

# A number that is none, or too great.
function tell_number(number,    i, word, place) {
  has_form(number)
  for (i = 1; !place && i <= tokens; i++) {
    word = token[i]
    if (!is_word(word) || !is_in_place_of_number(i)) continue
    if (!is_digits(word) || is_more(word, bound_of_number(i))) place = i
  }
  show(number, header[number], place ? column[place] : 0)
  word = token[place]
  if (!place) tell("The sum of the plain numbers, or of the factors of one variable, passes " MOST \
      ", which is 2^62 - 1.")
  else if (is_digits(word)) tell(quoted(word) " is more than " bound_of_number(place) ".")
  else if (word ~ /^[0-9]+[eE][0-9]+$/) tell("There are no exponents: write " written_out(word) ".")
  else if (word ~ /^[0-9]+[A-Za-z]/ && shape == "let") tell(quoted(word) \
      " is neither a number nor a name: a `*` stands between a factor and its variable.")
  else tell(quoted(word) " is no number: a number is digits alone.")
}

# A number with an exponent as digits.
function written_out(word,    half) {
  split(word, half, /[eE]/)
  return half[2] + 0 > 18 ? "it in digits" : half[1] substr("000000000000000000", 1, half[2])
}

function is_in_place_of_number(place) {
  if (shape == "class") return place > 3
  if (shape == "let") return place >= term_at && token[place] ~ /^[0-9]/
  if (shape == "rule") return token[place - 1] == ".." || (is_word(token[place - 1]) && token[place - 2] == "[") || \
      is_bound_of_size(place)
  return 0
}

# Whether this is the lower bound of an alternative's size.
function is_bound_of_size(place,    i) {
  for (i = 1; i <= alternatives; i++) if (size_at[i] && size_at[i] + 2 == place) return 1
  return 0
}

function bound_of_number(place) { return shape == "rule" ? "1000000" : MOST }

# Whether one number in digits is more than another.
function is_more(one, other) {
  sub(/^0+/, "", one)
  return length(one) > length(other) || (length(one) == length(other) && ("x" one) > ("x" other))
}

function tell_open_quote(number,    place) {
  find_tokens(header[number])
  wrong_at = column[offence]
  place = open_quote(header[number], wrong_at)
  show(number, header[number], wrong_at)
  tell(sentence(place))
}

function tell_no_words(number,    i, word, found) {
  tell("The job has " plural(lines, "line") ", and none of them is `words`.")
  for (i = 2; i <= lines && !found; i++) {
    if (!(i in header)) continue
    word = header[i]
    gsub(/[^A-Za-z]/, "", word)
    if (tolower(word) == "words" || tolower(word) == "word") found = i
  }
  if (found) {
    show(found, header[found], 1)
    tell("The line has to be the word `words` alone.")
  }
}

function tell_twice(number,    i, j, first, place) {
  place = 2
  first = line_of[shape, declared]
  if (shape == "let") {
    for (i = 2; i <= variables; i++) for (j = 1; j < i; j++) if (variable[i] == variable[j]) place = variable_at[i]
    show(number, header[number], column[place])
    tell("The variable " quoted(token[place]) " stands twice: give each argument a name of its own.")
    return
  }
  if (shape == "rule" && !(first && first < number) && has_told_taken(number)) return
  show(number, header[number], column[place])
  if (first && first < number) {
    tell("The " shape " " quoted(declared) " was declared before:")
    show(first, header[first], 0)
  }
}

# Tells of an alternative of the line whose hidden rule has the name of a declared one; 0 where there is none.
function has_told_taken(number,    n, name) {
  if (!is_small) return 0
  for (n = 1; n <= hidden_count; n++) {
    name = "h_" n
    if (hidden_line[name] != number || !(name in taken)) continue
    show(number, header[number], hidden_column[name])
    tell("This alternative within another one is the hidden rule " quoted(name) ", and a rule of that name is " \
        "declared:")
    show(taken[name], header[taken[name]], index(header[taken[name]], name))
    tell("Give that rule another name.")
    return 1
  }
  return 0
}

# A class with a letter twice, or with none.
function tell_letters(number,    i, j, text, letter, at_of, letters) {
  for (i = 1; i <= items; i++) {
    text = token[item_at[i]]
    for (j = 2; j < length(text); j++) {
      letter = substr(text, j, 1)
      if (letter == "\\") letter = substr(text, ++j, 1)
      letters++
      if (letter in at_of) {
        show(number, header[number], column[item_at[i]] + j - 1)
        tell("The letter " quoted(letter) " stood before already, at column " at_of[letter] ".")
        return
      }
      at_of[letter] = column[item_at[i]] + j - 1
    }
  }
  show(number, header[number], 0)
  if (!letters) tell("The class has no letter.")
}

function tell_let(number,    section, first) {
  section = let_section[number]
  first = let_of[section, declared]
  show(number, header[number], 0)
  if (!section) {
    tell("No `algebra` line with form stands above it.")
    section = first_like("algebra", number)
    if (section) show_wrong(section)
    else if (sections[1]) tell("The first one is line " sections[1] ": put this line below it.")
  } else if (first && first < number) {
    tell("In the algebra of line " section " the sign " quoted(declared) " has a `let` already:")
    show(first, header[first], 0)
    tell("A second algebra begins with an `algebra` line of its own.")
  }
}

# The first line without form before a line that begins with a word, or with one that is like it; 0 where there is none.
function first_like(word, last,    i, front, list) {
  list[1] = word
  for (i = 2; i < last; i++) {
    if (!(i in lacks_form)) continue
    find_tokens(header[i])
    front = token[1]
    if (front == word || nearest(front, list) != "") return i
  }
  return 0
}

function tell_axiom(number,    first, near) {
  show(number, header[number], 0)
  first = 0
  for (near = 2; near < number && !first; near++) if (header[near] ~ /^ *grammar [^=]*$/ && !(near in lacks_form)) \
      first = near
  if (shape == "grammar" && first) {
    tell("A job has one `grammar` line, and this is the second. The first:")
    show(first, header[first], 0)
    return
  }
  near = first_like("grammar", number)
  if (near) {
    tell("No line `grammar RULE` with form stands above it. This one was meant for it:")
    show_wrong(near)
  } else {
    tell("No line `grammar RULE` stands above it" (rules_count ? ": perhaps `grammar " rules[1] \
        "`, with the rule of the whole word." : "."))
  }
}

# Says of a name that is not declared what may be meant.
function tell_missing(sort, name, place, what,    near, other) {
  tell(sentence(what "the " sort " " quoted(name) " is not declared" like(name, sort)))
  near = meant_line(sort, name, 2, header_end())
  if (near) {
    tell("Line " near " was meant to declare it:")
    show_wrong(near)
    has_form(wanted_number)
    return
  }
  if (tell_among_words(sort, name)) return
  if (sort == "rule" && ("class", name) in line_of) tell(quoted(name) " is a class: write [" name \
      "], and give its sign a `token` there.")
  else if (sort == "class" && ("rule", name) in line_of) tell(quoted(name) \
      " is a rule: it stands without square brackets.")
  else if (sort == "sign" && ("rule", name) in line_of) tell(quoted(name) \
      " is a rule: a rule is an argument, and no alternative.")
  else if (sort == "rule" && ("sign", name) in line_of) tell(quoted(name) \
      " is a sign: it needs a rule of its own, as `rule r = " name "(..)`.")
}

function tell_undeclared(number,    i, j, at_token, told, names) {
  if (shape == "grammar") {
    show(number, header[number], column[2])
    tell_missing("rule", declared, 2, "")
  } else if (shape == "let") tell_undeclared_in_let(number)
  else if (shape == "rule") {
    if (strange_at) { tell_strange_within(number); return }
    for (i = 1; i <= alternatives && told < 4; i++) {
      at_token = alternative_at[i]
      if (!(("sign", token[at_token]) in line_of)) told += tell_undeclared_in_rule(number, "sign", token[at_token], \
          at_token, (outer[i] ? "within" : "in") " alternative " top_of[i] " ")
      for (j = 1; j <= arguments[i] && told < 4; j++) {
        if (sort[i, j] == "literal" || sort[i, j] == "nested") continue
        names = sort[i, j] == "rule" ? "rule" : "class"
        at_token = argument_at[i, j] + (names == "class")
        if (!((names, argument[i, j]) in line_of)) told += tell_undeclared_in_rule(number, names, argument[i, j], \
            at_token, place_of_alternative(i, "in") ", ")
      }
    }
  }
}

# Tells of a byte in an alternative within another one: the hidden rule is not declared for it.
function tell_strange_within(number) {
  show(number, header[number], strange_at)
  tell(sentence(strange(header[number], strange_at)))
  tell("It stands in an alternative within another one, whose hidden rule is not declared for want of form.")
}

# Where an alternative of the line at hand stands, in words that begin with `in` or `In`, and the alternative.
function place_of_alternative(i, word) {
  if (!outer[i]) return word " alternative " top_of[i] ", " shown_alternative(i)
  return (word == "in" ? "within" : "Within") " alternative " top_of[i] ", in " shown_alternative(i)
}

# An alternative of the line at hand as what a sentence is about, and a mark behind it, which may be none.
function alternative_in_words(i, mark) {
  if (outer[i]) return "Within alternative " top_of[i] (mark == ":" ? "," : "") " " shown_alternative(i) mark
  return "Alternative " top_of[i] ", " shown_alternative(i) (mark == "" ? "," : mark)
}

function tell_undeclared_in_rule(number, sort_of_name, name, at_token, what) {
  if ((sort_of_name, name) in is_told) return 0
  is_told[sort_of_name, name] = 1
  show(number, header[number], column[at_token])
  tell_missing(sort_of_name, name, at_token, what)
  return 1
}

function tell_undeclared_in_let(number,    i, j, is_there, list) {
  if (!(("sign", declared) in line_of)) {
    show(number, header[number], column[2])
    tell_missing("sign", declared, 2, "")
    return
  }
  for (j = 1; j <= variables; j++) list[j] = variable[j]
  for (i = term_at; i <= tokens; i++) {
    if (token[i] !~ /^[A-Za-z_]/) continue
    if (is_second && (token[i] == "max" || token[i] == "min") && token[i + 1] == "(") continue
    is_there = 0
    for (j = 1; j <= variables; j++) if (variable[j] == token[i]) is_there = 1
    if (is_there) continue
    show(number, header[number], column[i])
    j = nearest(token[i], list)
    tell("The variable " quoted(token[i]) " does not stand in brackets behind " quoted(declared) (j == "" ? "." : \
        ": is " quoted(j) " meant?"))
    return
  }
}

# An alternative of the line at hand, as it stands.
function shown_alternative(i,    text, last) {
  if (outer[i]) return quoted(substr(header[wanted_number], column[alternative_at[i]], column[close_at[i]] - \
      column[alternative_at[i]] + 1))
  for (last = i + 1; last <= alternatives && outer[last]; last++) continue
  last = last <= alternatives ? column[alternative_at[last]] : length(header[wanted_number]) + 1
  text = substr(header[wanted_number], column[alternative_at[i]], last - column[alternative_at[i]])
  sub(/[ |]*$/, "", text)
  return quoted(text)
}

function tell_arguments(number,    i, j, sign, wanted, told) {
  if (shape == "let") {
    show(number, header[number], column[3])
    tell("The sign " quoted(declared) " has " plural(kinds_of[declared], "argument") ", and this `let` has " \
        plural(variables, "variable") ":")
    show(line_of["sign", declared], header[line_of["sign", declared]], 0)
    return
  }
  for (i = 1; i <= alternatives && told < 4; i++) {
    sign = token[alternative_at[i]]
    if (!(("sign", sign) in line_of)) continue
    wanted = kinds_of[sign]
    if (arguments[i] != wanted) {
      show(number, header[number], column[alternative_at[i]])
      tell(alternative_in_words(i, "") " has " plural(arguments[i], "argument") ", and its sign " wanted ":")
      show(line_of["sign", sign], header[line_of["sign", sign]], 0)
      told++
      continue
    }
    for (j = 1; j <= wanted && told < 4; j++) {
      if ((sort[i, j] ~ /^(rule|nested)$/) == (kind_of[sign, j] == "score")) continue
      show(number, header[number], column[argument_at[i, j]])
      tell(alternative_in_words(i, ":") " its " nth(j) " argument is " in_words(i, j) ", and there the sign " \
          quoted(sign) " wants a " kind_of[sign, j] ":")
      show(line_of["sign", sign], header[line_of["sign", sign]], 0)
      tell(kind_of[sign, j] == "score" ? "A `score` is a part with a tree of its own: put a rule " (is_third ? \
          "or an alternative " : "") "there" (sort[i, j] == "literal" ? "." : ", as `rule r = s([" argument[i, j] \
          "])`.") : \
          "A `token` is letters of the word: put letters in quotes, or a class in square brackets" ((("class", \
          argument[i, j]) in line_of) ? ", as [" argument[i, j] "]." : "."))
      told++
    }
  }
}

# What should stand for a run whose bounds stand before its class.
function class_first(    bounds) {
  for (bounds = at; token[bounds] == ".." || is_digits(token[bounds]); bounds++) continue
  return fails("the class stands first, and its bounds behind it: [" (is_word(token[bounds]) ? token[bounds] : \
      "letter") " " token[at] ".." (bounds == at + 3 ? token[at + 2] : "") "]")
}

function in_words(i, j) {
  if (sort[i, j] == "rule") return "the rule " quoted(argument[i, j])
  if (sort[i, j] == "nested") return "the alternative " shown_alternative(argument[i, j])
  if (sort[i, j] == "literal") return "the literal " quoted(argument[i, j])
  return sort[i, j] == "run" ? "a run of the class " quoted(argument[i, j]) : "a letter of the class " \
      quoted(argument[i, j])
}

function tell_run(number,    i, j) {
  for (i = 1; i <= alternatives; i++) for (j = 1; j <= arguments[i]; j++) {
    if (high[i, j] == "" || high[i, j] + 0 >= low[i, j] + 0) continue
    show(number, header[number], column[argument_at[i, j]])
    tell(place_of_alternative(i, "In") ", the run goes from " low[i, j] + 0 " to " high[i, j] + 0 \
        " letters: write [" argument[i, j] " " high[i, j] + 0 ".." low[i, j] + 0 "], or [" argument[i, j] " " low[i, \
        j] + 0 "..] for " low[i, j] + 0 " and more.")
    return
  }
  for (i = 1; i <= alternatives; i++) {
    if (size_high[i] == "" || size_high[i] + 0 >= size_low[i] + 0) continue
    show(number, header[number], column[size_at[i]])
    tell("The size of alternative " top_of[i] ", " shown_alternative(i) ", goes from " size_low[i] + 0 " to " \
        size_high[i] + 0 " letters: write with size " size_high[i] + 0 ".." size_low[i] + 0 ", or with size " \
        size_low[i] + 0 ".. for " size_low[i] + 0 " and more.")
    return
  }
}

# A term of the second format that names a variable twice.
function tell_variable_twice(number,    i, first) {
  for (i = term_at; i <= tokens; i++) {
    if (token[i] !~ /^[A-Za-z]/ || ((token[i] == "max" || token[i] == "min") && token[i + 1] == "(")) continue
    if (!(token[i] in first)) { first[token[i]] = i; continue }
    show(number, header[number], column[i])
    tell("The variable " quoted(token[i]) " stands here again, and at column " column[first[token[i]]] " before. In `" \
        header[1] "` a term names each variable once: " once_for(token[i], first[token[i]], i) ".")
    return
  }
}

# How a variable that stands at two places of a term can be named once.
function once_for(name, one, two) {
  if (token[two - 1] == "*" && token[two - 2] == name) return "there are no squares; of a token, a class of its own " \
      "can have them as weights"
  if (token[one - 1] ~ /^[(,]$/ || token[two - 1] ~ /^[(,]$/) return "put what both have outside, as max(x, y) + 1 " \
      "for max(x + 1, y + 1)"
  return "add up its factors, as 3*" name " for " name " + 2*" name ", or put it outside of brackets, as " name \
      "*(y + z)"
}

function tell_count(number, counted,    what, most, mend) {
  show(number, number in header ? header[number] : wanted_line, 0)
  if (words_line && number > words_line) { what = "words"; most = 65536; mend = \
      "tools/spread asks any number, in as many runs as they take." }
  else if (shape == "class") { what = "classes"; most = 64 }
  else if (shape == "sign" && counted == kinds) { what = "arguments of a sign"; most = 4; mend = \
      "Make it two signs, with a rule between them." }
  else if (shape == "sign") { what = "signs"; most = 256 }
  else if (shape == "algebra") { what = "algebras"; most = 16 }
  else if (shape == "let") {
    what = "leaves of a term, which are its numbers, its variables and a 0 for each first `-`"; most = 32
    mend = "Add up numbers that stand side by side, or make it two signs, with a rule between them."
  }
  else if (counted != 129) { what = "alternatives of a rule"; most = 64; mend = \
      "Divide them between two rules, of which a sign with one score in the first names the second." }
  else {
    what = "rules"; most = 128
    if (hidden_count) mend = "An alternative within another one counts as a rule: give one that stands at several " \
        "places a rule of its own."
  }
  tell("These are " counted " " what ", and there may be at most " most ". " mend)
}

# Signs without a `let`: for each the line that was meant, or what stands in its place.
function tell_incomplete(number,    i, last, told, missing) {
  show(number, header[number], 0)
  if (shape != "algebra") {
    i = first_like("algebra", number)
    tell("No `algebra` line with form stands above it" (i ? ". This one was meant to be one:" : \
        ", as `algebra cost min`."))
    if (i) show_wrong(i)
    return
  }
  last = section_end(number)
  for (i = 1; i <= signs_count; i++) {
    if ((number, signs[i]) in let_of) continue
    missing++
    if (told < 4) told += tell_lacking(signs[i], number, last)
  }
  if (missing > told) tell("And " plural(missing - told, "sign") " more.")
}

function section_end(number,    i) {
  for (i = 1; i <= sections_count; i++) if (sections[i] > number) return sections[i] - 1
  return header_end()
}

function tell_lacking(sign, number, last,    near, i) {
  near = meant_line("let", sign, number + 1, last)
  if (!near) near = misspelt_let(sign, number + 1, last)
  if (near) {
    tell("Here the sign " quoted(sign) " lacks its `let`. This line was meant for it:")
    show_wrong(near)
    return 1
  }
  for (i = 1; i <= lets_count && !near; i++) {
    if (let_section[lets[i]] == number && !(("sign", let_sign[lets[i]]) in line_of) && is_like(sign, \
        let_sign[lets[i]])) near = lets[i]
  }
  if (near) {
    tell("Here the sign " quoted(sign) " lacks its `let`. This line has one for " quoted(let_sign[near]) \
        ", which is no sign:")
    show(near, header[near], index(header[near], let_sign[near]))
    return 1
  }
  tell("Here the sign " quoted(sign) " of line " line_of["sign", sign] \
      " lacks its `let`: no line between this one and line " last + 1 " begins with `let " sign "`.")
  if (tell_among_words("let", sign)) return 1
  for (i = 1; i <= lets_count; i++) if (let_sign[lets[i]] == sign) {
    tell("(Line " lets[i] " has one, but " (let_section[lets[i]] ? "it belongs to the algebra of line " \
        let_section[lets[i]] : "it stands above all algebras") ".)")
    break
  }
  return 1
}

# Tells of a line that would declare a name, but stands behind the line `words`; 0 where there is none.
function tell_among_words(word, name,    line, number, found) {
  while ((getline line < job) > 0 && number < words_line + MOST_NOTED) {
    number++
    if (number <= words_line || !words_line || line !~ ("^ *" word " +" name "([^A-Za-z0-9_]|$)")) continue
    found = number
    break
  }
  close(job)
  if (!found) return 0
  tell("This line begins so, but stands behind the line `words` (line " words_line "), where each line is a word:")
  sub(/\r$/, "", line)
  show(found, line, 0)
  return 1
}

function is_like(one, other,    list) {
  list[1] = one
  return nearest(other, list) != ""
}

# A line without form whose first word is like `let` and whose second one is this sign.
function misspelt_let(sign, first, last,    i) {
  for (i = first; i <= last; i++) {
    if (!(i in lacks_form)) continue
    find_tokens(header[i])
    if (token[2] == sign && token[1] != "sign" && is_like("let", token[1])) return i
    if (token[1] == sign && token[2] == "(") return i
  }
  return 0
}

# ---- Faults of the grammar

function explain_grammar(kind_number, name,    number) {
  if (job == "") return
  read_job(1)
  wanted_number = -1
  read_header()
  print ""
  if (kind_number == 1) tell_algebras(name)
  else if (kind_number == 2) tell_unproductive(name)
  else if (kind_number == 3) tell_loop(name)
  else if (kind_number == 4 && is_second) tell_falling(name)
  else if (kind_number == 4) tell_negative(name)
  else if (kind_number == 5) tell_impossible(name)
  else if (kind_number == 6 && is_second) tell_second_format(name)
  else if (kind_number == 6) tell_other_factors(name)
  tell_section("Faults of the grammar", kind_number)
}

function tell_algebras(name,    list, n, i) {
  n = split(names_of["algebra"], list, " ")
  print bold name_of_job " has no algebra `" name "`." plain
  tell("It has " (n == 1 ? "one:" : "these:"))
  for (i = 1; i <= n; i++) show(line_of["algebra", list[i]], header[line_of["algebra", list[i]]], 0)
  i = nearest(name, list)
  if (i != "") tell("Is " (given_value("--algebra") == name ? "--algebra " : "--then ") i " meant?")
}

function head_of(sort, name,    number) {
  number = line_of[sort, name]
  print bold name_of_job ", line " number ":" plain
  show(number, header[number], name in hidden_column ? hidden_column[name] : 0)
  if (name in hidden_column) tell("The rule " quoted(name) " is an alternative within another one, " spelled(name, 1) \
      ".")
}

# A rule in words: a hidden one by its alternative.
function shown_rule(rule) { return rule in hidden_line && !(rule in taken) ? spelled(rule, 1) : quoted(rule) }

# The least length of each rule's trees, up to a great number: `least[rule]`; none where a rule has no tree.
function find_least(    i, a, rule, sum, has_changed) {
  do {
    has_changed = 0
    for (i = 1; i <= rules_count; i++) {
      rule = rules[i]
      for (a = 1; a <= alternatives_of[rule]; a++) {
        sum = least_of_alternative(rule, a)
        if (sum >= 0 && size_high_of[rule, a] != "" && sum > size_high_of[rule, a] + 0) continue
        if (sum >= 0 && sum < size_low_of[rule, a] + 0) sum = size_low_of[rule, a] + 0
        if (sum >= 0 && (!(rule in least) || sum < least[rule])) { least[rule] = sum; has_changed = 1 }
      }
    }
  } while (has_changed)
}

function least_of_alternative(rule, a,    j, sum, one) {
  for (j = 1; j <= arguments_of[rule, a]; j++) {
    one = least_of_argument(rule, a, j)
    if (one < 0) return -1
    sum += one
  }
  return sum > MOST_SUM ? MOST_SUM : sum
}

function least_of_argument(rule, a, j,    which) {
  which = sort_of[rule, a, j]
  if (which == "literal") return letters_of(argument_of[rule, a, j])
  if (which == "letter") return 1
  if (which == "run") return low_of[rule, a, j] + 0
  return argument_of[rule, a, j] in least ? least[argument_of[rule, a, j]] : -1
}

function letters_of(literal) {
  literal = substr(literal, 2, length(literal) - 2)
  gsub(/\\["\\]/, "x", literal)
  return length(literal)
}

# An alternative of a rule of the grammar, in words.
function spelled(rule, a) { return quoted(spelling(rule, a)) }

function spelling(rule, a,    j, text) {
  for (j = 1; j <= arguments_of[rule, a]; j++) text = text (j > 1 ? ", " : "") spelled_argument(rule, a, j)
  return sign_of[rule, a] "(" text ")" (size_low_of[rule, a] == "" ? "" : " with size " size_low_of[rule, a] ".." \
      size_high_of[rule, a])
}

function spelled_argument(rule, a, j,    which) {
  if (is_nested[rule, a, j]) return spelling(argument_of[rule, a, j], 1)
  which = sort_of[rule, a, j]
  if (which == "letter") return "[" argument_of[rule, a, j] "]"
  if (which == "run") return "[" argument_of[rule, a, j] " " low_of[rule, a, j] ".." high_of[rule, a, j] "]"
  return argument_of[rule, a, j]
}

function tell_unproductive(rule,    a, j, n, told) {
  head_of("rule", rule)
  if (!is_small) return
  find_least()
  n = alternatives_of[rule]
  for (a = 1; a <= n && a <= 6; a++) {
    for (j = 1; j <= arguments_of[rule, a]; j++) if (least_of_argument(rule, a, j) < 0) {
      tell("Alternative " a ", " spelled(rule, a) ", needs a tree of " (argument_of[rule, a, j] == rule ? \
          "the rule itself." : (is_nested[rule, a, j] ? "" : "the rule ") quoted(spelled_argument(rule, a, j)) \
          ", which has none."))
      break
    }
    if (j > arguments_of[rule, a]) tell("Alternative " a ", " spelled(rule, a) ", has " \
        plural(least_of_alternative(rule, a), "letter") " at least, and its size allows " size_high_of[rule, a] + 0 " at most.")
  }
  if (n > 6) tell("And so on: none of the " n " alternatives ends.")
}

# Whether a tree of one rule can be a tree of another with nothing beside it: by the edge's alternative, else 0.
function edge(from, to,    a, j, k, is_alone) {
  for (a = 1; a <= alternatives_of[from]; a++) for (j = 1; j <= arguments_of[from, a]; j++) {
    if (sort_of[from, a, j] != "rule" || argument_of[from, a, j] != to) continue
    is_alone = 1
    for (k = 1; k <= arguments_of[from, a]; k++) if (k != j && least_of_argument(from, a, k) != 0) is_alone = 0
    if (is_alone) { edge_argument = j; return a }
  }
  return 0
}

# Tells a way from the rule back to itself, found breadth first.
function tell_loop(rule,    queue, first, last, here, i, came, by, way, steps) {
  head_of("rule", rule)
  if (!is_small) return
  find_least()
  queue[first = last = 1] = rule
  for (; first <= last; first++) {
    here = queue[first]
    for (i = 1; i <= rules_count; i++) {
      if (rules[i] in came || !edge(here, rules[i])) continue
      came[rules[i]] = here
      queue[++last] = rules[i]
    }
    if (rule in came) break
  }
  if (!(rule in came)) return
  here = rule
  do { way[++steps] = here; here = came[here] } while (here != rule)
  way[steps + 1] = rule
  for (i = steps + 1; i > 1; i--) {
    by = edge(way[i], way[i - 1])
    tell(shown_rule(way[i]) " leads to " (way[i] == way[i - 1] ? "itself" : shown_rule(way[i - 1])) \
        (way[i] in hidden_line ? "" : " by its alternative " by ", " spelled(way[i], by)) \
        empty_beside(way[i], by, edge_argument) ".")
  }
}

function empty_beside(rule, a, alone,    j, text) {
  for (j = 1; j <= arguments_of[rule, a]; j++) if (j != alone && argument_of[rule, a, j] != "\"\"") text = text \
      (text == "" ? "" : " and ") quoted(spelled_argument(rule, a, j))
  return text == "" ? "" : ", where " text " can be empty"
}

# The `let` of a sign under the algebra that scores, and the variable with a negative factor.
function tell_negative(sign,    section, number, j, i, negative) {
  section = chosen_section()
  number = let_of[section, sign]
  if (!number) return
  print bold name_of_job ", line " number ":" plain
  wanted_number = number
  has_form(number)
  for (j = 1; j <= variables; j++) {
    if (kind_of[sign, j] != "score") continue
    for (i = term_at; i <= tokens; i++) if (token[i] == variable[j] && is_negative(i)) {
      show(number, header[number], column[i])
      tell("The variable " quoted(variable[j]) " is a score, since the sign has `" kind_of[sign, j] "` in its " \
          nth(j) " place, and the factors of it sum up to less than 0.")
      return
    }
  }
  show(number, header[number], 0)
}

function is_negative(i) {
  if (token[i - 1] == "*") i -= 2
  return token[i - 1] == "-"
}

# ---- Signs of terms of the second format

# Reads the `let` of a sign in an algebra: its line, and its term as a tree.
function read_let(section, sign,    number) {
  number = let_of[section, sign]
  if (number) has_form(number)
  return number
}

# The kind of the argument that a leaf names; nothing where it is a number.
function kind_of_leaf(sign, node,    j) {
  for (j = 1; j <= variables; j++) if (variable[j] == token[begins[node]]) return kind_of[sign, j]
  return ""
}

function is_leaf(node) { return operation[node] == "leaf" || operation[node] == "nought" }

# The first leaf of a part that names a score; 0 where there is none.
function named_score(sign, node,    found) {
  if (is_leaf(node)) return operation[node] == "leaf" && kind_of_leaf(sign, node) == "score" ? node : 0
  found = named_score(sign, side[node, 1])
  return found ? found : named_score(sign, side[node, 2])
}

# The least part for which a part is not known not to be negative; 0 where it is known.
function maybe_negative(sign, node,    one, two) {
  if (operation[node] == "leaf") {
    one = kind_of_leaf(sign, node)
    return one == "token" && negative_class || one == "score" && negative_sign != "" ? node : 0
  }
  if (operation[node] == "nought") return 0
  if (operation[node] == "-") return node
  one = maybe_negative(sign, side[node, 1])
  two = maybe_negative(sign, side[node, 2])
  if (operation[node] == "max") return one && two ? is_leaf(one) && is_leaf(two) ? node : is_leaf(one) ? two : one : 0
  return one ? one : two
}

# Finds the first class with a negative weight, and the first sign whose term is not known not to be negative.
function find_signs(section,    number, i, name) {
  negative_class = 0
  negative_sign = ""
  for (number = 2; number <= header_end() && !negative_class; number++) {
    if (!(number in header) || header[number] !~ /^ *class[ ]/ || !has_form(number)) continue
    for (i = 1; i <= items; i++) if (token[weight_at[i] - 1] == "-" && token[weight_at[i]] + 0 > 0) {
      negative_class = number
      break
    }
  }
  for (i = 1; i <= signs_count && name == ""; i++) {
    if (read_let(section, signs[i]) && maybe_negative(signs[i], term_root)) name = signs[i]
  }
  negative_sign = name
}

# The least part of a term that is not monotone; 0 where it is.
function falling(sign, node,    one) {
  if (is_leaf(node)) return 0
  if (operation[node] == "*" && !named_score(sign, node)) return 0
  one = falling(sign, side[node, 1])
  if (one) return one
  if (operation[node] == "-") return named_score(sign, side[node, 2]) ? node : 0
  one = falling(sign, side[node, 2])
  if (one) return one
  if (operation[node] != "*") return 0
  return falling_side(sign, node) ? node : 0
}

# The side of a product that could be negative, where the other names a score; 0 where there is none.
function falling_side(sign, node,    k) {
  for (k = 1; k <= 2; k++) if (named_score(sign, side[node, 3 - k]) && maybe_negative(sign, side[node, k])) return \
      side[node, k]
  return 0
}

# The `let` of a sign whose term is not monotone, the part at fault, and why it is.
function tell_falling(sign,    section, number, part, off, score) {
  section = chosen_section()
  find_signs(section)
  number = read_let(section, sign)
  if (!number) return
  print bold name_of_job ", line " number ":" plain
  part = falling(sign, term_root)
  if (!part) { show(number, header[number], 0); return }
  if (operation[part] == "-") {
    off = side[part, 2]
    score = named_score(sign, off)
    show(number, header[number], column[begins[score]])
    tell("Here " quoted(part_text(off)) " is taken off" (off == score ? ", a score" : ", which names the score " \
        quoted(part_text(score))) ": a greater " quoted(part_text(score)) " would make the term lesser.")
    return
  }
  off = falling_side(sign, part)
  show(number, header[number], column[begins[off]])
  tell("In the product " quoted(part_text(part)) " the side " quoted(part_text(off)) " could be negative, and a " \
      "greater " quoted(part_text(named_score(sign, off == side[part, 1] ? side[part, 2] : side[part, 1]))) \
      " would then make the term lesser. " why_negative(sign, off))
  tell_source(section, sign, maybe_negative(sign, off))
}

# Why a part could be negative, in words.
function why_negative(sign, node,    part) {
  part = maybe_negative(sign, node)
  if (operation[part] == "-") return "A difference is never known not to be negative: write max(" \
      bare(part_text(part)) ", 0), where it may be raised to 0."
  if (operation[part] == "max") return "Neither side of " quoted(part_text(part)) " is known not to be negative: " \
      "write max(" bare(part_text(part)) ", 0), where it may be raised to 0."
  if (kind_of_leaf(sign, part) == "token") return "The token " quoted(part_text(part)) " could be, since a class of " \
      "the job has a negative weight:"
  return "The score " quoted(part_text(part)) " could be, since a `let` of the algebra is not known to give 0 or more:"
}

# A text without the brackets round it.
function bare(text) { return text ~ /^\(.*\)$/ ? substr(text, 2, length(text) - 2) : text }

# Shows the class or the `let` by which a token or a score could be negative.
function tell_source(section, sign, part,    number, other, found) {
  if (!is_leaf(part)) return
  if (kind_of_leaf(sign, part) == "token") { show(negative_class, header[negative_class], 0); return }
  other = negative_sign
  # (scores are taken as not negative where the terms are judged)
  negative_sign = ""
  number = read_let(section, other)
  found = maybe_negative(other, term_root)
  show(number, header[number], column[begins[found]])
  if (!is_leaf(found)) tell(why_negative(other, found))
  else {
    tell("Here the token " quoted(part_text(found)) " could be negative, since a class of the job has a negative " \
        "weight:")
    show(negative_class, header[negative_class], 0)
  }
}

# The alternatives of a rule that no length fits.
function tell_impossible(rule,    a, j, sum, one) {
  head_of("rule", rule)
  if (!is_small) return
  find_least()
  find_greatest()
  for (a = 1; a <= alternatives_of[rule]; a++) {
    sum = least_of_alternative(rule, a)
    if (size_high_of[rule, a] != "" && sum > size_high_of[rule, a] + 0) tell("Alternative " a ", " spelled(rule, a) \
        ", has " plural(sum, "letter") " at least" beside(rule, a, "least") ", and its size allows " \
        size_high_of[rule, a] + 0 " at most.")
    sum = 0
    for (j = 1; j <= arguments_of[rule, a] && sum >= 0; j++) {
      one = most_of_argument(rule, a, j)
      sum = one < 0 ? -1 : sum + one
    }
    if (sum >= 0 && sum < size_low_of[rule, a] + 0) tell("Alternative " a ", " spelled(rule, a) ", has " plural(sum, \
        "letter") " at most" beside(rule, a, "most") ", and its size asks for " size_low_of[rule, a] + 0 " at least.")
  }
}

# The greatest length of an argument; -1 where it has no bound.
function most_of_argument(rule, a, j,    one) {
  if (sort_of[rule, a, j] == "run") return high_of[rule, a, j] == "" ? -1 : high_of[rule, a, j] + 0
  one = greatest_of_argument(rule, a, j)
  return sort_of[rule, a, j] == "rule" && one > 4000 ? -1 : one
}

# What each argument has, where there are several.
function beside(rule, a, which,    j, text, one) {
  if (arguments_of[rule, a] < 2) return ""
  for (j = 1; j <= arguments_of[rule, a]; j++) {
    one = which == "least" ? least_of_argument(rule, a, j) : most_of_argument(rule, a, j)
    text = text (text == "" ? "" : " and ") one
  }
  return " (" text ")"
}

# A job of the second format in the mode lex.
function tell_second_format(sign,    number) {
  print bold name_of_job ", line 1:" plain
  show(1, header[1], 0)
  tell("In the mode lex both algebras add the scores of parts as they are, in the format `adp 1`; a job in `" \
      header[1] "` is refused there whatever its terms are, at its first sign, " quoted(sign) ". Where no term has a " \
      "product of two variables, brackets, `max` or `min`, and no alternative a size" (is_third ? " or another one " \
      "within" : "") ", write `adp 1` in line 1.")
}

# The value of an option of the command; nothing where it is not given.
function given_value(option,    i) {
  for (i = 2; i < ARGC - 1; i += 2) if (ARGV[i] == option) return ARGV[i + 1]
  return ""
}

# The line of the algebra that scores.
function chosen_section(    name) {
  name = given_value("--algebra")
  return name == "" ? sections[1] : line_of["algebra", name]
}

# The line of the algebra that decides among equals; 0 where there is none, or where it is the one that scores.
function second_section(    name) {
  name = given_value("--then")
  return name == "" || line_of["algebra", name] == chosen_section() ? 0 : line_of["algebra", name] + 0
}

# The `let` lines of a sign, in both algebras of a pair, with the score whose factor is another than 1.
function tell_other_factors(sign) {
  tell_other_factor(sign, chosen_section(), "the first algebra")
  if (second_section()) tell_other_factor(sign, second_section(), "the second algebra")
}

function tell_other_factor(sign, section, which,    number, j, i, factor, place) {
  number = let_of[section, sign]
  if (!number) return
  wanted_number = number
  has_form(number)
  for (j = 1; j <= variables; j++) {
    if (kind_of[sign, j] != "score") continue
    factor = place = 0
    for (i = term_at; i <= tokens; i++) if (token[i] == variable[j]) {
      factor += factor_at(i)
      if (!place || factor_at(i) != 1) place = i
    }
    if (factor == 1) continue
    print bold name_of_job ", line " number ":" plain
    show(number, header[number], place ? column[place] : 0)
    tell("In " which " the variable " quoted(variable[j]) ", which is a score, " (place ? "has the factor " factor : \
        "is left out") ", and here each score has the factor 1" (place ? "." : ": write `+ " variable[j] "`."))
    return
  }
}

# The factor of a variable of a term at this place.
function factor_at(i,    first) {
  first = token[i - 1] == "*" ? i - 2 : i
  return (token[first - 1] == "-" ? -1 : 1) * (first == i ? 1 : token[first])
}

# ---- Limits

function explain_limit(number, kind_number, size,    longest) {
  if (job == "") return
  read_job(1)
  wanted_number = words_line + number
  wanted_line = ""
  read_word(wanted_number)
  print ""
  print bold place_of(wanted_number) ", word " number " of " plural(length(wanted_line), "letter") ":" plain
  show(wanted_number, wanted_line, 0)
  longest = ENVIRON["ADP_LONGEST"]
  if (kind_number > 1 && longest ~ /^[0-9]+$/ && longest + 0 < length(wanted_line)) \
      tell("This job admits a word of " plural(longest, "letter") ", and none of " longest + 1 ".")
  else if (kind_number > 1 && longest == "none") tell("This job admits no word of any length.")
  read_header()
  if (is_small && kind_number == 2) tell_cells(length(wanted_line))
  else if (is_small && kind_number == 3) tell_doubling()
  else if (is_small && kind_number == 4 && ARGV[1] == "lex") tell_both()
  else if (is_small && kind_number == 4 && is_second) tell_products()
  else if (is_small && kind_number == 4) tell_factors()
  else if (kind_number == 5 || kind_number == 6) tell_lists(size, kind_number)
  else if (is_small && kind_number == 7) tell_joined(size)
  tell_section("Limits of a word", kind_number)
}

# How many trees could be listed at most.
function tell_lists(size, kind_number,    i, asked, of_one, most) {
  for (i = 1; i < ARGC - 1; i++) if (ARGV[i] == "--best") asked = ARGV[i + 1] + 0
  if (asked < 1) return
  of_one = size / asked
  most = int(4194304 / of_one)
  tell((kind_number == 5 ? "A word of this length could have " plural(of_one, "cell") ", each with " asked \
      " trees." : "A tree of a word of this length could have " plural(of_one, "node") ", and " asked \
      " such trees are asked for.") " This limit admits `--best " most "`.")
  if (is_small && kind_number == 5) tell_cells(length(wanted_line))
}

function read_word(number,    line, at_line) {
  while ((getline line < job) > 0) if (++at_line == number) { wanted_line = line; break }
  close(job)
  sub(/\r$/, "", wanted_line)
}

# The greatest length of each rule's trees: `greatest[rule]`, 4001 where it is more, or has no bound.
function find_greatest(    round, i, a, j, sum, one, rule, has_changed) {
  for (i = 1; i <= rules_count; i++) greatest[rules[i]] = -1
  for (round = 0; round <= rules_count + 1; round++) {
    has_changed = 0
    for (i = 1; i <= rules_count; i++) {
      rule = rules[i]
      for (a = 1; a <= alternatives_of[rule]; a++) {
        sum = 0
        for (j = 1; j <= arguments_of[rule, a] && sum >= 0; j++) {
          one = greatest_of_argument(rule, a, j)
          sum = one < 0 ? -1 : sum + one
        }
        if (sum > 4001) sum = 4001
        if (sum > greatest[rule] && round > rules_count) sum = 4001
        if (size_high_of[rule, a] != "" && sum > size_high_of[rule, a] + 0) sum = size_high_of[rule, a] + 0
        if (sum > greatest[rule]) { greatest[rule] = sum; has_changed = 1 }
      }
    }
    if (!has_changed) return
  }
}

function greatest_of_argument(rule, a, j,    which) {
  which = sort_of[rule, a, j]
  if (which == "literal") return letters_of(argument_of[rule, a, j])
  if (which == "letter") return 1
  if (which == "run") return high_of[rule, a, j] == "" ? 4001 : high_of[rule, a, j] + 0
  return argument_of[rule, a, j] in greatest ? greatest[argument_of[rule, a, j]] : -1
}

# Which rules are reached, and which of them are free of the word's front or of its end: `is_free[rule, side]`.
function find_anchors(    has_changed, i, a, j, k, rule, other, axiom) {
  axiom = axiom_of_job()
  is_reached[axiom] = 1
  do {
    has_changed = 0
    for (i = 1; i <= rules_count; i++) {
      rule = rules[i]
      if (!(rule in is_reached)) continue
      for (a = 1; a <= alternatives_of[rule]; a++) for (j = 1; j <= arguments_of[rule, a]; j++) {
        if (sort_of[rule, a, j] != "rule") continue
        other = argument_of[rule, a, j]
        if (!(other in is_reached)) { is_reached[other] = 1; has_changed = 1 }
        for (k = 1; k <= arguments_of[rule, a]; k++) {
          if (k < j && greatest_of_argument(rule, a, k) != 0) has_changed += frees(other, "front", rule, a)
          if (k > j && greatest_of_argument(rule, a, k) != 0) has_changed += frees(other, "end", rule, a)
        }
        if ((rule, "front") in is_free) has_changed += frees(other, "front", rule, a)
        if ((rule, "end") in is_free) has_changed += frees(other, "end", rule, a)
      }
    }
  } while (has_changed)
}

function frees(rule, side, by, a) {
  if ((rule, side) in is_free) return 0
  if (side == "end") freed_by[rule] = "in " spelled(by, a) (by in hidden_line ? "" : " of the rule " quoted(by)) \
      (((by, "end") in is_free) && ends_with(by, a, rule) ? ", which does not go to the end itself" : \
      ", where something stands behind it")
  is_free[rule, side] = 1
  return 1
}

function ends_with(rule, a, other,    n) {
  n = arguments_of[rule, a]
  return sort_of[rule, a, n] == "rule" && argument_of[rule, a, n] == other
}

function axiom_of_job(    number) {
  for (number = 2; number <= header_end(); number++) if (number in header && header[number] ~ /^ *grammar /) {
    find_tokens(header[number])
    return token[2]
  }
}

# How many cells a rule has in a word of n letters.
function cells_of(rule, n,    l, high_length, sum) {
  if (!(rule in least)) return 0
  high_length = greatest[rule] < n ? greatest[rule] : n
  for (l = least[rule]; l <= high_length; l++) {
    if ((rule, "front") in is_free && (rule, "end") in is_free) sum += n - l + 1
    else if ((rule, "front") in is_free || (rule, "end") in is_free) sum++
    else sum += l == n
  }
  return sum + 0
}

# The rules with most cells, and what frees them.
function tell_cells(n,    i, rule, told, most, best, cells, is_shown) {
  find_least()
  find_greatest()
  find_anchors()
  for (i = 1; i <= rules_count; i++) cells[rules[i]] = cells_of(rules[i], n)
  tell("The rules with most cells in it:")
  for (told = 0; told < 4; told++) {
    most = 0
    for (i = 1; i <= rules_count; i++) if (!(rules[i] in is_shown) && cells[rules[i]] > most) { most = \
        cells[rules[i]]; best = rules[i] }
    if (most <= n + 1 && told > 0 || most == 0) break
    is_shown[best] = 1
    tell("  " shown_rule(best) ", " most " cells: " (((best, "end") in is_free && (best, "front") in is_free) ? \
        "for each pair of places, since it is named " freed_by[best] "." : "one for each place."))
  }
}

# Alternatives that name two rules or more that can be empty.
function tell_doubling(    i, a, j, rule, names, told) {
  find_least()
  for (i = 1; i <= rules_count && told < 3; i++) {
    rule = rules[i]
    for (a = 1; a <= alternatives_of[rule] && told < 3; a++) {
      names = 0
      for (j = 1; j <= arguments_of[rule, a]; j++) if (sort_of[rule, a, j] == "rule" && least_of_argument(rule, a, \
          j) == 0) names++
      if (names < 2) continue
      if (!told++) tell("These alternatives name several rules that can be empty:")
      show(line_of["rule", rule], rule in hidden_line ? ".. " spelling(rule, 1) " .." : rule " = .. " \
          spelling(rule, a) " ..", 0)
    }
  }
}

# The `let` lines with a factor above 1 for a score; where there is none, those with the greatest numbers.
function tell_factors(    i, j, number, sign, section, told, best, widest, width) {
  section = chosen_section()
  for (i = 1; i <= lets_count; i++) {
    number = lets[i]
    if (let_section[number] != section) continue
    sign = let_sign[number]
    has_form(number)
    for (j = term_at; j <= tokens; j++) {
      if (token[j] ~ /^[0-9]/ && length(token[j]) > width) { width = length(token[j]); widest = number }
      if (token[j] != "*" || token[j - 1] + 0 < 2 || !is_score(sign, token[j + 1])) continue
      if (!told++) tell("A factor above 1 for a score multiplies at each step:")
      if (told < 5) show(number, header[number], column[j - 1])
      break
    }
  }
  if (!told && widest) {
    tell("No factor of a score is above 1: what makes it so great is the numbers, as here, or weights of classes:")
    show(widest, header[widest], 0)
  }
}

# The `let` lines of the second format with a product of a score; where there is none, the one with the greatest number.
function tell_products(    i, number, section, node, k, told) {
  section = chosen_section()
  for (i = 1; i <= lets_count; i++) {
    number = lets[i]
    if (let_section[number] != section || !has_form(number)) continue
    for (node = 1; node <= nodes; node++) {
      if (operation[node] != "*") continue
      for (k = 1; k <= 2 && !named_score(let_sign[number], side[node, k]); k++) continue
      if (k > 2 || token[begins[side[node, 3 - k]]] == "1") continue
      if (!told++) tell("A product of a score multiplies at each step, and each of its sides counts as 1 at least:")
      if (told < 5) show(number, header[number], column[joined_at[node]])
      break
    }
  }
  if (!told) tell_greatest(section, "chosen")
}

# How far the numbers of two algebras in one are over, and the greatest of each.
function tell_joined(size,    is_told, times) {
  is_told = is_more("9223372036854775808", size)
  times = is_told ? int(size / MOST * 100 + 1) / 100 : 2
  tell("The greatest number of both algebras in one is " (is_told ? size ", " times " times" : \
      "9223372036854775808 or more, at least twice") " what it may be. It is a number of the first algebra, times " \
      "more than twice the greatest score that the second one could give to a word of this length. So divide the " \
      "numbers of one of them by more than " times ": the scores by both in one have to be in range too.")
  tell_greatest(chosen_section(), "first")
  if (second_section()) tell_greatest(second_section(), "second")
}

# Which scores are too great where there are two algebras, and the greatest number of each.
function tell_both() {
  tell("In the mode lex the limit holds for the scores by each of the two algebras, and for those by both in one. " \
      "Where `best --algebra NAME` takes the word by each of them alone, it is the last: divide the numbers of one.")
  tell_greatest(chosen_section(), "first")
  if (second_section()) tell_greatest(second_section(), "second")
}

# The `let` line of an algebra with the greatest number.
function tell_greatest(section, which,    i, j, number, best, at_best, greatest_number) {
  for (i = 1; i <= lets_count; i++) {
    number = lets[i]
    if (let_section[number] != section) continue
    has_form(number)
    for (j = term_at; j <= tokens; j++) if (is_digits(token[j]) && is_more(token[j], greatest_number)) {
      greatest_number = token[j]
      best = number
      at_best = column[j]
    }
  }
  if (!best) return
  tell("The greatest number of the " which " algebra:")
  show(best, header[best], at_best)
}

function is_score(sign, name,    j) {
  for (j = 1; j <= variables; j++) if (variable[j] == name) return kind_of[sign, j] == "score"
  return 0
}

# ---- Words without a tree

function explain_treeless(    list, n, i, more) {
  n = split(ENVIRON["ADP_TREELESS"], list, " ")
  if (n < 2 || job == "") return
  read_job(1)
  wanted_number = -1
  read_header()
  if (is_small) find_letters()
  if (is_small) find_slots()
  for (i = 2; i <= n && i <= MOST_EXPLAINED + 1; i++) tell_treeless(list[i])
  for (; i <= n; i++) more = more (more == "" ? "" : ", ") list[i]
  if (more != "") {
    print ""
    tell((more ~ /,/ ? "The words " more (list[1] > n - 1 ? " and so on, " list[1] " in all, have" : " have") : \
        "Word " more " has") " no tree either.")
  }
  print ""
  tell("(docs/GUIDE.md, what `none` means, has two ways to find the letter that is in the way.)")
}

# What a word looks like, why it has no tree, and how far trees follow it.
function tell_treeless(number,    text, unknown, letter) {
  wanted_line = ""
  read_word(words_line + number)
  text = wanted_line
  print ""
  print bold place_of(words_line + number) ", word " number " of " plural(length(text), "letter") " has no tree:" plain
  if (!is_small) { show(words_line + number, text, 0); return }
  find_reach(text)
  unknown = first_unknown(text)
  letter = unknown ? unknown : reach < length(text) && !gave_up ? reach + 1 : 0
  show(words_line + number, text, letter)
  if (tell_looks(text, letter)) return
  if (!tell_blanks(text, letter)) {
    if (unknown) tell_unknown(text, unknown)
    if (letter) tell_range(substr(text, letter, 1))
  }
  tell_reach(text)
  tell_refused()
}

# Which letters stand in some class, and which in some literal of a rule.
function find_letters(    number, i, j, letter, text) {
  for (number = 2; number <= header_end(); number++) {
    if (!(number in header) || header[number] !~ /^ *class[ ]/ || !has_form(number)) continue
    for (i = 1; i <= items; i++) {
      text = unquoted(token[item_at[i]])
      for (j = 1; j <= length(text); j++) {
        letter = substr(text, j, 1)
        in_class[declared, letter] = is_known[letter] = 1
        if (j > 2 && substr(text, j - 1, 1) == "-" && substr(text, j - 2, 1) < letter) {
          ranges[++ranges_count] = number
          range_of[ranges_count] = substr(text, j - 2, 3)
          range_class[ranges_count] = declared
        }
      }
    }
  }
  for (i = 1; i <= rules_count; i++) for (number = 1; number <= alternatives_of[rules[i]]; number++) {
    for (j = 1; j <= arguments_of[rules[i], number]; j++) if (sort_of[rules[i], number, j] == "literal") {
      text = unquoted(argument_of[rules[i], number, j])
      for (letter = 1; letter <= length(text); letter++) is_known[substr(text, letter, 1)] = 1
    }
  }
}

function unquoted(literal) {
  literal = substr(literal, 2, length(literal) - 2)
  gsub(/\\"/, "\"", literal)
  gsub(/\\\\/, "\\", literal)
  return literal
}

function first_unknown(text,    i) {
  for (i = 1; i <= length(text); i++) if (!(substr(text, i, 1) in is_known)) return i
  return 0
}

# Tells what a line that was meant otherwise looks like; 0 where it is a word.
function tell_looks(text, letter) {
  if (text ~ /^>/ && letter == 1) return has_told("It looks like the first line of a sequence in FASTA: behind the " \
      "line `words` each line is a word. `tools/fasta words FILE` makes words of such a file.")
  if (text ~ /^ *(adp [0-9]+|(class|sign|algebra|let|rule|grammar) .*|words) *$/) return has_told("It looks like a " \
      "line of a header, but behind the line `words` (line " words_line ") each line is a word: a file has one job.")
  if (text ~ /^#/ && letter == 1) return has_told("It looks like a comment, but behind the line `words` each line is " \
      "a word.")
  if (text ~ /^".*"$/ && letter == 1) return has_told("It stands in quotes, and they belong to the word: words are " \
      "written without.")
  return 0
}

# Tells of blanks that are easily overlooked; 0 where there are none.
function tell_blanks(text, letter) {
  if (text == "") return has_told("It is empty: a blank line behind the line `words` is a word.")
  if (text ~ /^ +$/) return has_told("It is blanks alone: a blank line behind the line `words` is a word.")
  if (text ~ / $/ && letter && substr(text, letter) ~ /^ +$/) return has_told("A blank stands at its end, and " \
      "belongs to it.")
  if (text ~ /^ / && letter == 1) return has_told("A blank stands at its front, and belongs to it.")
  return 0
}

function has_told(text) { tell(text); return 1 }

function tell_unknown(text, place,    letter, other, i, more) {
  letter = substr(text, place, 1)
  other = letter == tolower(letter) ? toupper(letter) : tolower(letter)
  for (i = place + 1; i <= length(text); i++) if (!(substr(text, i, 1) in is_known)) more++
  tell("Letter " place ", " quoted(letter) ", " (more ? "and " more " more behind it stand" : "stands") " in no " \
      "class and in no literal of the job." (other != letter && (other in is_known) ? " " quoted(other) \
      " does: capital letters count." : ""))
}

# Tells of a class that seems to be meant as a range that has the letter.
function tell_range(letter,    i, first, last) {
  for (i = 1; i <= ranges_count; i++) {
    first = substr(range_of[i], 1, 1)
    last = substr(range_of[i], 3, 1)
    if (letter <= first || letter >= last || (range_class[i], letter) in in_class) continue
    tell("The class " quoted(range_class[i]) " of line " ranges[i] " has the letters " quoted(first) ", `-` and " \
        quoted(last) ": there are no ranges, so write out each letter that it has.")
    return
  }
}

function tell_reach(text,    n, could) {
  n = length(text)
  if (gave_up) {
    tell(gave_up < 2 ? "How far trees follow the word is not told: there are too many ways to begin it." : \
        "Trees can begin with the letters 1 to " gave_up - 1 "; how far they follow the word beyond was not looked at.")
    return
  }
  could = expected_in_words()
  if (reach == 0) tell(n == 0 ? "A word could begin with " could "." : "No tree begins with letter 1: " could \
      " could stand there.")
  else if (reach < n) tell("Trees can begin with " (reach == 1 ? "letter 1" : "the letters 1 to " reach) ", " \
      quoted(last_letters(substr(text, 1, reach))) ", and with no letter more: behind could stand " could ".")
  else tell("Trees can begin with the whole word, but none ends with it: behind could stand " could ".")
}

# Tells of an alternative that ends as far as trees go, and whose size is in the way.
function tell_refused() { if (refused_at == reach && !gave_up) tell("The alternative " refused ".") }

function last_letters(text) { return length(text) > 30 ? ".." substr(text, length(text) - 29) : text }

function expected_in_words(    i, text) {
  for (i = 1; i <= expected_count && i <= 8; i++) text = text (i == 1 ? "" : i == expected_count ? " or " : ", ") \
      expected[i]
  return text (expected_count > 8 ? " and more" : "")
}

# The grammar as slots: for each argument of each alternative one, and one behind the last; the next one follows it.
function find_slots(    i, a, j, rule) {
  for (i = 1; i <= rules_count; i++) {
    rule = rules[i]
    for (a = 1; a <= alternatives_of[rule]; a++) {
      first_slot[rule, a] = slots + 1
      for (j = 1; j <= arguments_of[rule, a]; j++) {
        slot_sort[++slots] = sort_of[rule, a, j]
        slot_name[slots] = slot_sort[slots] == "literal" ? unquoted(argument_of[rule, a, j]) : argument_of[rule, a, j]
        slot_low[slots] = slot_sort[slots] == "letter" ? 1 : low_of[rule, a, j] + 0
        slot_high[slots] = slot_sort[slots] == "letter" ? 1 : high_of[rule, a, j] == "" ? 1000000 : high_of[rule, a, \
            j] + 0
      }
      slot_sort[++slots] = "end"
      slot_low[slots] = size_low_of[rule, a] + 0
      slot_high[slots] = size_high_of[rule, a] == "" ? 1000000 : size_high_of[rule, a] + 0
      slot_name[slots] = rule
      slot_alternative[slots] = a
    }
  }
}

# How many letters of a text can be the front of a word with a tree: `reach`, and what could stand behind them,
# `expected`. The grammar is followed from its axiom on, position by position, over all alternatives at once. A goal is
# a rule at a position, with the slots that go on behind it. Where that is more than so many steps, `gave_up` is the
# position that was come to, and 1.
function find_reach(text,    n, p, k, pair) {
  split("", goals); split("", is_goal); split("", goal_rule)
  split("", frames); split("", frames_count); split("", is_frame)
  split("", heirs); split("", heirs_count); split("", is_heir)
  split("", ends); split("", ends_count); split("", is_end)
  split("", waiting); split("", waiting_count); split("", is_seen); split("", run_end)
  reach = expected_count = steps = gave_up = goals_count = 0
  refused_at = -1
  n = length(text)
  add_frame(goal_at(axiom_of_job(), 0), 0, 0)
  for (p = 0; p <= n; p++) for (k = 1; k <= waiting_count[p] + 0; k++) {
    if (steps > MOST_STEPS) { gave_up = p + 1; return }
    split(waiting[p, k], pair, " ")
    take_slot(pair[1] + 0, pair[2] + 0, p, text, n)
  }
}

function goal_at(rule, p,    a) {
  if ((rule, p) in is_goal) return is_goal[rule, p]
  is_goal[rule, p] = ++goals_count
  goal_rule[goals_count] = rule
  goal_from[goals_count] = p
  for (a = 1; a <= alternatives_of[rule]; a++) wait_at(first_slot[rule, a], goals_count, p)
  return is_goal[rule, p]
}

function wait_at(slot, goal, p) {
  steps++
  if ((slot, goal, p) in is_seen) return
  is_seen[slot, goal, p] = 1
  waiting[p, ++waiting_count[p]] = slot " " goal
}

# The slot 0 stands behind the axiom.
function take_slot(slot, goal, p, text, n,    which, name, most, length_of, last, other) {
  if (slot == 0) { expect(p, "the word's end"); return }
  which = slot_sort[slot]
  name = slot_name[slot]
  if (which == "end") {
    if (p - goal_from[goal] >= slot_low[slot] && p - goal_from[goal] <= slot_high[slot]) end_goal(goal, p)
    else if (p > refused_at || p == refused_at && goal_from[goal] <= refused_from) {
      refused_at = p
      refused_from = goal_from[goal]
      refused = spelled(name, slot_alternative[slot]) " of the rule " quoted(name) " ends there, but its size does " \
          "not allow its " plural(p - goal_from[goal], "letter")
    }
  }
  else if (which == "rule") {
    other = goal_at(name, p)
    if (slot_sort[slot + 1] == "end" && slot_low[slot + 1] == 0 && slot_high[slot + 1] == 1000000) add_heir(goal, other)
    else add_frame(other, slot + 1, goal)
  } else if (which == "literal") {
    length_of = length(name)
    for (most = 0; most < length_of && substr(text, p + most + 1, 1) == substr(name, most + 1, 1); ) most++
    if (most == length_of) come_to(p + most, slot, goal)
    else expect(p + most, (most ? quoted(substr(name, most + 1)) " of " : "") quoted("\"" name "\""))
  } else {
    last = end_of_run(name, p, text, n)
    if (last - p > slot_high[slot]) last = p + slot_high[slot]
    for (other = p + slot_low[slot]; other <= last; other++) come_to(other, slot, goal)
    if (last - p < slot_high[slot]) expect(last, "a letter of the class " quoted(name))
  }
}

# How far letters of a class go from a position on.
function end_of_run(class, p, text, n,    i, last) {
  if (!((class, p) in run_end)) {
    for (last = p; last < n && ((class, substr(text, last + 1, 1)) in in_class); ) last++
    for (i = p; i <= last; i++) run_end[class, i] = last
  }
  return run_end[class, p]
}

function come_to(p, slot, goal) {
  if (p > reach) { reach = p; expected_count = 0 }
  wait_at(slot + 1, goal, p)
}

function expect(p, what,    i) {
  if (p > reach) { reach = p; expected_count = 0 }
  if (p < reach) return
  for (i = 1; i <= expected_count; i++) if (expected[i] == what) return
  expected[++expected_count] = what
}

# A goal has come to its end at a position: what stands behind it goes on there.
function end_goal(goal, p,    i, pair) {
  if ((goal, p) in is_end) return
  is_end[goal, p] = 1
  ends[goal, ++ends_count[goal]] = p
  for (i = 1; i <= frames_count[goal] + 0; i++) {
    split(frames[goal, i], pair, " ")
    wait_at(pair[1] + 0, pair[2] + 0, p)
  }
}

# What goes on behind a goal goes on behind its heirs too, which are the last of its arguments.
function add_frame(goal, slot, behind,    queue, first, last, i) {
  queue[first = last = 1] = goal
  for (; first <= last; first++) {
    goal = queue[first]
    steps++
    if ((goal, slot, behind) in is_frame) continue
    is_frame[goal, slot, behind] = 1
    frames[goal, ++frames_count[goal]] = slot " " behind
    for (i = 1; i <= ends_count[goal] + 0; i++) wait_at(slot, behind, ends[goal, i])
    for (i = 1; i <= heirs_count[goal] + 0; i++) queue[++last] = heirs[goal, i]
  }
}

function add_heir(goal, heir,    i, pair) {
  if (goal == heir || (goal, heir) in is_heir) return
  is_heir[goal, heir] = 1
  heirs[goal, ++heirs_count[goal]] = heir
  for (i = 1; i <= frames_count[goal] + 0; i++) {
    split(frames[goal, i], pair, " ")
    add_frame(heir, pair[1] + 0, pair[2] + 0)
  }
}

# ---- The command

function explain_usage(    i, word, given, is_told) {
  if (!is_brief) {
    print ""
    print bold "The command: " printed(ENVIRON["ADP_COMMAND"]) plain
  }
  word = ARGV[1]
  if (ARGC == 1) tell_cause("The first word is the mode: " in_a_row(MODES, "or") ", as in `adp best " (name_of_job == \
      "standard input" ? "FILE" : name_of_job) "`.")
  else if (!is_one_of(word, MODES)) tell_mode(word)
  else {
    for (i = 2; i < ARGC && !is_told; i += 2) is_told = tell_option(word, ARGV[i], i + 1 < ARGC, ARGV[i + 1], given)
    if (!is_told && (word in needed_by) && !(needed_by[word] in given)) tell_cause("The mode " word " needs " \
        needed_as[word] ".")
  }
  if (!is_brief) tell_row("fault usage")
}

# Tells the cause of a faulty command; where it is to be brief, in one line and as the launcher speaks.
function tell_cause(text) {
  if (!is_brief) { tell(text); return }
  sub(/\.$/, "", text)
  print "adp: " tolower(substr(text, 1, 1)) substr(text, 2) " (adp --help says more)"
}

function is_one_of(word, list,    i) {
  for (i in list) if (list[i] == word) return 1
  return 0
}

function tell_mode(word,    near) {
  near = nearest(word, MODES)
  if (near != "") tell_cause("The mode " quoted(word) " is none: is " quoted(near) " meant?")
  else if (word ~ /^-./) tell_cause(quoted(word) " stands first, where the mode has to be: " in_a_row(MODES, "or") \
      ". Options follow it.")
  else if (is_file(word)) tell_cause("The mode stands before the file: adp best " printed(word))
  else tell_cause("The first word is the mode, " in_a_row(MODES, "or") ", and not " quoted(word) ".")
}

function is_file(path,    line, got) {
  got = (getline line < path)
  close(path)
  return got >= 0
}

# Tells what is wrong with an option and its value; 0 where nothing is.
function tell_option(mode, word, has_value, value, given,    text) {
  text = word ~ /^--/ ? wrong_option(mode, word, has_value, value, given) : wrong_word(mode, word)
  given[word] = 1
  if (text == "") return 0
  tell_cause(text)
  return 1
}

# Why a word stands where only an option or a file may stand.
function wrong_word(mode, word,    near, i) {
  if (word ~ /^-[a-z]/) {
    near = "--algebra"
    for (i = said_options; i; i--) if (index(OPTIONS[i], "-" word) == 1) near = OPTIONS[i]
    return quoted(word) " is no option: options have two dashes and a whole word, as " near "."
  }
  if (mode == "big" && (word == "-" || is_file(word))) return "The mode big reads no job, and takes no file: " \
      quoted(word) " is too much."
  if (word ~ /[.\/]/) return "There is no file " quoted(word) "."
  return quoted(word) " is no file that is there, and no option: options begin with `--`."
}

function wrong_option(mode, word, has_value, value, given,    near) {
  if (word ~ /=/) return quoted(word) ": a space stands between an option and its value, and no `=`."
  if (!is_one_of(word, OPTIONS)) {
    near = nearest(word, OPTIONS)
    return quoted(word) " is no option: " (near == "" ? "there are " in_a_row(OPTIONS, "and") "." : "is " near \
        " meant?")
  }
  if (!((mode, word) in is_of)) {
    near = in_a_row(MODES, "and", word)
    if (mode == "kbest" && word == "--then") return "The option --then is of the mode lex alone: for lists by two " \
        "algebras tools/two-wishes writes a job that has both in one."
    return "The option " word " is of the mode" (near ~ / / ? "s " near ", and not of " mode "." : " " near " alone.")
  }
  if (word in given) return "The option " word " stands twice."
  if (!has_value) return "The option " word " has no value behind it."
  return wrong_value(word, value)
}

# The first line of a file, without a carriage return at its end.
function first_line_of(path,    line) {
  if ((getline line < path) < 1) line = ""
  close(path)
  sub(/\r$/, "", line)
  return line
}

# How often a word stands in the command.
function how_often(word,    list, n, i, count) {
  n = split(ENVIRON["ADP_COMMAND"], list, " ")
  for (i = 1; i <= n; i++) if (list[i] == word) count++
  return count + 0
}

function stands_twice(word) {
  if (how_often(word) > 1 || word !~ /words$/) return "The option " word " stands twice."
  return "The options --words and --only-words can't stand together."
}

function is_seconds(value,    half) {
  split(value, half, /\./)
  return value ~ /^[0-9]+(\.[0-9]+)?$/ && value ~ /[1-9]/ && length(half[1]) < 10 && length(half[2]) < 7
}

# Why this is no value of the option. (One of the launcher's that is faultless is the second of its kind.)
function wrong_value(word, value) {
  if (value_of[word] == "name") return is_name(value) ? "" : quoted(value) " is no name: a name begins with a " \
      "letter, and has at most 32 letters, digits and `_`."
  if (value_of[word] == "entries") {
    if (value ~ /^[0-9a-v]+$/ && length(value) <= MOST_ENTRIES) return ""
    if (length(value) > MOST_ENTRIES) return "A schedule has at most " MOST_ENTRIES " characters, and this one has " \
        length(value) "."
    return "A schedule is digits and small letters from a to v, one for each step, for the evaluators 0 to 31, and " \
        "not " quoted(value) "."
  }
  if (value_of[word] == "file") {
    if (value == "-") return "Standard input is the job, or its words, and not both."
    if (!is_file(value)) return "There is no file " quoted(value) ", for " word "."
    if (first_line_of(value) ~ /^adp [0-9]+$/) return "The file " quoted(value) " is a job, and no file of words."
    return stands_twice(word)
  }
  if (value_of[word] == "folder") {
    if (value == "") return "The folder of " word " has no name."
    return how_often(word) > 1 ? stands_twice(word) : "The option " word " takes the words of one job, and several " \
        "jobs are named."
  }
  if (value !~ /^[0-9]/ && is_file(value)) return "The option " word " lacks its value: the file " quoted(value) \
      " stands in its place."
  if (value_of[word] == "seconds") {
    if (is_seconds(value)) return stands_twice(word)
    return "The value of " word " is seconds, as 60 or 0.5, above 0 and below 1000000000, with six decimal places at " \
        "most, and not " quoted(value) "."
  }
  if (!is_digits(value)) return "The value of " word " is digits alone, and not " quoted(value) "."
  if (is_more(value, most_of[word]) || value + 0 < least_of[word] + 0) return "The value of " word " lies between " \
      least_of[word] " and " most_of[word] ", and is not " quoted(value) "."
  return ""
}

# Faults of reading, writing and memory.
# What is wrong with a line of a certificate was found by tools/check-certificate; without it the line is shown alone.
function explain_certificate(number,    line, at) {
  print ""
  print bold name_of_job ", line " number ":" plain
  if (ENVIRON["ADP_REASON"] != "") print ENVIRON["ADP_REASON"]
  else {
    while (at < number && (getline line < job) > 0) at++
    close(job)
    if (at == number) show(number, line)
    tell("Why it is false tells tools/check-certificate --explain, which needs Python.")
  }
  tell_chapter("False lines of a certificate")
}

function explain_run() {
  print ""
  print bold (ARGV[1] == "big" ? "adp big" : name_of_job) ":" plain
  if (ENVIRON["ADP_CAUSE"] != "") tell(sentence(ENVIRON["ADP_CAUSE"]))
  tell_row(fault)
}
