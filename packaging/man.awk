# Makes a manual page of the help of a tool, which stands on standard input. Every text is the help's own: its first line is the name, the
# lines behind `Usage:` the synopsis, `Example:`, `Examples:`, `Limits:` and `Exit status:` begin sections, and the rest is the description.
# Of indented lists each entry is a paragraph; those of options and of names, which stand behind the usage, have sections of their own.
#
# Usage: awk -v version=VERSION -v others=TOOLS -f man.awk     TOOLS are the tools that it refers to

# escaped TEXT: with each byte that has a meaning of its own there
function escaped(text) {
  gsub(/\\/, "\\e", text)
  gsub(/-/, "\\-", text)
  gsub(/`/, "\\(ga", text)
  gsub(/'/, "\\(aq", text)
  gsub(/\^/, "\\(ha", text)
  gsub(/~/, "\\(ti", text)
  gsub(/"/, "\\(dq", text)
  return text ~ /^\./ ? "\\&" text : text
}

function trimmed(text) {
  sub(/^ +/, "", text)
  sub(/ +$/, "", text)
  return text
}

# head TEXT: the head of an entry, the words of an option in bold letters and its values in italic ones
function head(text, words, count, index_, line) {
  count = split(text, words, " ")
  for (index_ = 1; index_ <= count; index_++)
    line = line (index_ > 1 ? " " : "") (words[index_] ~ /^[A-Z"]/ && text !~ /^[A-Z][a-z]/ ? "\\fI" : "\\fB") escaped(words[index_]) "\\fR"
  return line
}

# add SECTION TEXT: adds lines to a section of the page
function add(section, text) {
  texts[section] = texts[section] text "\n"
}

# text_column: where the texts of the list begin that is gathered: behind the first two blanks of an entry, or where an entry goes on
function text_column(index_, line) {
  for (index_ = 1; index_ <= entries; index_++) {
    line = entry[index_]
    if (match(line, /^   +/) || match(line, /^  [^ ]+( [^ ]+)*  +/))
      return RLENGTH
  }
  return 0
}

# end_list: adds the gathered list. Where there is no blank before the column, the line is a head alone.
function end_list(column, index_, line, is_head, section) {
  column = text_column()
  for (index_ = 1; index_ <= entries; index_++) {
    line = entry[index_]
    if (line !~ /^   /) {
      is_head = length(line) <= column || substr(line, column, 1) != " "
      section = list_section != "" ? list_section : line ~ /^  -/ ? "OPTIONS" : "OPERANDS"
      add(section, ".TP\n" head(trimmed(is_head ? line : substr(line, 1, column))))
      if (is_head)
        continue
      line = substr(line, column + 1)
    }
    add(section, escaped(trimmed(line)))
  }
  if (entries)
    list_section = "DESCRIPTION"
  entries = 0
}

# example TEXT: adds a command line
function example(text) {
  add("EXAMPLES", ".nf\n.B " escaped(text) "\n.fi")
}

# end_paragraph: adds the gathered paragraph to the section that its first words name
function end_paragraph(items, count, index_, rest) {
  if (paragraph == "")
    return
  if (sub(/^Example: /, "", paragraph))
    example(paragraph)
  else if (sub(/^Limits: /, "", paragraph))
    add("LIMITS", escaped(toupper(substr(paragraph, 1, 1)) substr(paragraph, 2)))
  else if (sub(/^Exit status: /, "", paragraph)) {
    rest = ""
    if (match(paragraph, /\. /)) {
      rest = ".PP\n" escaped(substr(paragraph, RSTART + 2)) "\n"
      paragraph = substr(paragraph, 1, RSTART)
    }
    sub(/\.$/, "", paragraph)
    count = split(paragraph, items, "; ")
    for (index_ = 1; index_ <= count; index_++)
      add("EXIT STATUS", ".TP\n.B " substr(items[index_], 1, 1) "\n" escaped(substr(items[index_], 3)))
    texts["EXIT STATUS"] = texts["EXIT STATUS"] rest
  } else if (paragraph ~ /^[A-Z][a-z]+:$/)
    list_section = toupper(substr(paragraph, 1, length(paragraph) - 1))
  else
    add("DESCRIPTION", (texts["DESCRIPTION"] == "" ? "" : ".PP\n") escaped(paragraph))
  paragraph = ""
}

# usage_line TEXT: a line of the synopsis, with the tool in bold letters
function usage_line(text, name) {
  name = text
  sub(/ .*/, "", name)
  add("SYNOPSIS", (texts["SYNOPSIS"] == "" ? "" : ".br\n") "\\fB" escaped(name) "\\fR" escaped(substr(text, length(name) + 1)))
}

NR == 1 {
  tool = $1
  sub(/:$/, "", tool)
  what = $0
  sub(/^[^ ]* /, "", what)
  sub(/\.$/, "", what)
  next
}

/^Usage: / {
  is_usage = 1
  usage_line(substr($0, 8))
  next
}

is_usage && /^ +\[/ { # the line before goes on
  add("SYNOPSIS", escaped(trimmed($0)))
  next
}

is_usage && /^ / {
  usage_line(trimmed($0))
  next
}

{ is_usage = 0 }

/^Examples: / { # each line is one
  is_example = 1
  example(substr($0, 11))
  next
}

is_example && /^ / {
  example(trimmed($0))
  next
}

{ is_example = 0 }

/^$/ {
  end_list()
  end_paragraph()
  next
}

/^  / {
  end_paragraph()
  entry[++entries] = $0
  next
}

{
  end_list()
  paragraph = paragraph (paragraph == "" ? "" : " ") $0
}

END {
  end_list()
  end_paragraph()
  printf ".TH %s 1 \"\" \"%s\" \"Zoomapron\"\n.ad l\n.nh\n.SH NAME\n%s \\- %s\n", toupper(escaped(tool)), version, escaped(tool), escaped(what)
  count = split("SYNOPSIS DESCRIPTION TOOLS OPERANDS OPTIONS LIMITS EXIT_STATUS EXAMPLES", sections, " ")
  for (place = 1; place <= count; place++) {
    section = sections[place]
    sub(/_/, " ", section)
    if (texts[section] != "")
      printf ".SH %s\n%s", section, texts[section]
  }
  printf ".SH SEE ALSO\n"
  count = split(others, names, " ")
  for (place = 1; place <= count; place++)
    printf ".BR %s (1)%s\n", escaped(names[place]), place < count ? "," : ""
}
