# What the installed scripts share. A script sets these, and then reads this file, which runs the program:
#
#   here   the folder of the script
#   tool   the name of its tool; in the script icestorm it is empty, and the first argument names the tool
#
# What the arguments have already isn't passed again. What is wrong with them is told by the program.
# shellcheck shell=sh disable=SC2154

program=$here/../libexec/icestorm/icestorm

# know TOOL: what is special about a tool; status 1 if there is no such tool
#
#   values   the options with a value, apart from --layout
#   special  some of these words: `layout`, the tool gets the layout file of real chips; `database`, its chip database is looked for where
#            the arguments name none; `images`, the tool takes two images after it; `verbose`, the stock tool has -v, which is passed over;
#            an option without a value, it gets this option
know() {
  values='' special=''
  case $1 in
  icepack | iceunpack) special='layout verbose' ;;
  icemulti) values='-p -a -A -o' special='--as-stock verbose' ;;
  icebram) values=-s special='--by-mode verbose' ;;
  icebox_explain) values=-t special='layout database' ;;
  icebox_diff) special='layout database images' ;;
  icebox_stat) special='layout database --all-pins' ;;
  icebox_plan) values='-p -d' special='layout database --all-pins' ;;
  icebox_vlog) values='-n -p -d --names' special='layout database --used-inputs --all-pins --register-clocks' ;;
  icesplit | vlogrun | vlogsweep | selfrun) ;;
  *) return 1 ;;
  esac
}

# stop LINE: ends with a line on standard error, and the exit status of input that can't be read
stop() {
  printf '%s: %s\n' "$tool" "$1" >&2
  exit 3
}

# has WORD: whether the word is one of those of the tool
has() {
  case " $special " in *" $1 "*) ;; *) return 1 ;; esac
}

# note: what the installed tool does beside the program's, for its help, a line for each paragraph
note() {
  always='' last='' it=it
  for word in $special; do
    case $word in -*) always=$always${last:+${always:+, }$last} last=$word ;; esac
  done
  if [ -n "$last" ]; then
    [ -z "$always" ] || it=them
    printf '\nThe installed %s always has %s. ' "$tool" "$always${always:+ and }$last"
    printf 'The program itself, libexec/icestorm/icestorm where the tools are installed, runs without %s.\n' "$it"
  fi
  ! has layout || printf '\nThe installed %s takes --layout standard for the standard layout, and ./standard for a file of that name.\n' "$tool"
  ! has verbose || printf '\nThe installed %s takes -v, as the stock one, and passes it over.\n' "$tool"
  has database || return 0
  if has images; then
    which='If there are two names, and the first is no chip database, it takes the database of the device of A, or of B if A is no file'
  else
    which="If there is no name, or the only one is no chip database, it takes the database of the image's device"
  fi
  printf '\nThe installed %s needs no DB. %s: chipdb-1k.txt or chipdb-8k.txt. ' "$tool" "$which"
  printf 'The variable ICEBOX_CHIPDB names its folder. Without the variable the folder is share/icestorm/chipdb where the tools are installed, '
  printf 'or else /usr/share/fpga-icestorm/chipdb.\n'
  case $tool in
  icebox_vlog | icebox_plan)
    printf '\nWhere it takes the database by itself, -p without -d is for the package that the stock tools take: tq144 of a 1k, ct256 of an 8k.\n'
    ;;
  esac
}

# print_help [TOOL]: the program's help, or that of a tool, whose examples need no layout file here, and the note
print_help() {
  text=$("$program" "$@" --help) || exit
  text=$(printf '%s\n' "$text" | sed 's/ --layout silicon\.layout / /' && note | fold -s -w 80 | sed 's/ *$//')
  printf '%s\n' "$text" 2>/dev/null || {
    printf '%s: write failed: standard output\n' "$tool" >&2
    exit 4
  }
}

# look: looks at `word`, which is one of the arguments, in their order. `kept` is what becomes of it: yes, no, or pair if it is the value of a
# --layout that wasn't kept. Counts the names, and keeps the last two and their places; tells which options are given, and whether
# `--layout standard` was taken out.
look() {
  kept=yes
  case $is_value,$is_behind,$word in
  layout,*)
    is_value=no kept=pair
    [ "$layouts,$word" != 1,standard ] || kept=no standard=yes
    ;;
  yes,*) is_value=no ;;
  no,no,--) is_behind=yes ;;
  no,no,-?*) look_at_option ;;
  *) names=$((names + 1)) before=$name before_place=$place name=$word place=$((index + 1)) ;;
  esac
}

# look_at_option: the same for an option
look_at_option() {
  case $word in
  --layout) ! has layout || layouts=$((layouts + 1)) is_value=layout kept=no ;;
  --layout=*)
    layouts=$((layouts + 1))
    [ "$layouts,$word" != 1,--layout=standard ] || ! has layout || kept=no standard=yes
    ;;
  --*) ;;
  *v*) ! has verbose || take_out_verbose ;;
  esac
  case " $values " in *" $word "*) is_value=yes ;; esac
  given="$given$word "
}

# take_out_verbose: takes -v out of a word of short options; what stands behind an option with a value is the value
take_out_verbose() {
  rest=${word#-} word=-
  while [ -n "$rest" ]; do
    letter=${rest%"${rest#?}"} rest=${rest#?}
    [ "$letter" = v ] || word=$word$letter
    case " $values " in *" -$letter "*)
      word=$word$rest
      break
      ;;
    esac
  done
  [ "$word" != - ] || kept=no
}

# is_given OPTION: whether an option, or one that begins so, stands among the arguments, before any --
is_given() {
  case $given in *" $1"*) ;; *) return 1 ;; esac
}

# device_words: what stands behind the first .device of a text or a database on standard input: of a database it is more than a name
device_words() {
  LC_ALL=C sed -n '/^\.device[[:blank:]]/{s/^[^[:blank:]]*[[:blank:]]*//;p;q;}' | tr -d '\000\015'
}

is_database() {
  device_words <"$1" | grep -q '[^[:blank:]][[:blank:]]\{1,\}[^[:blank:]]'
}

# find_device IMAGE: the device of a text or a bitstream. Where it names none the image has a fault, and any database leads to it.
find_device() {
  device=$(device_words <"$1")
  [ -n "$device" ] || device=$("$program" iceunpack <"$1" 2>/dev/null | device_words)
  device=${device%%[!0-9a-z]*}
  device=${device:-1k}
}

# is_file NAME, is_stream NAME: whether a name can be read, often or once
is_file() {
  [ -f "$1" ] && [ -r "$1" ]
}

is_stream() {
  [ -r "$1" ] && [ ! -f "$1" ] && [ ! -d "$1" ]
}

# find_database: the database of the device
find_database() {
  for folder in "${ICEBOX_CHIPDB:-$share/chipdb}" "${ICEBOX_CHIPDB:-/usr/share/fpga-icestorm/chipdb}"; do
    db=$folder/chipdb-$device.txt
    case $db in -*) db=./$db ;; esac
    [ ! -r "$db" ] || return 0
  done
  [ -z "${ICEBOX_CHIPDB-}" ] || stop "there is no chipdb-$device.txt in $ICEBOX_CHIPDB, which the variable ICEBOX_CHIPDB names"
  stop "there is no chipdb-$device.txt in $share/chipdb or $folder; the variable ICEBOX_CHIPDB may name another folder"
}

# take_copy: makes standard input a copy of itself, and finds the device of the image there
take_copy() {
  copy=$(mktemp) || stop "the input can't be read into a temporary file"
  trap 'rm -f "$copy"' EXIT
  trap 'exit 130' HUP INT TERM
  head -c 16777217 >"$copy" || stop "the input can't be read into $copy" # a byte more than the program takes
  find_device "$copy"
  exec <"$copy"
  rm -f "$copy"
  trap - EXIT HUP INT TERM
}

# find_device_of_two: the device of the images `before` and `name`: of the first that is a file, unless that is a chip database. If none is, it is
# that of the first that can be read once, and a copy of it is standard input: of the second if that is standard input already.
find_device_of_two() {
  for image in "$before" "$name"; do
    is_file "$image" || continue
    is_database "$image" || find_device "$image"
    return
  done
  set -- "$before_place" "$before" "$place" "$name"
  case $name in /dev/stdin | */fd/0) set -- "$3" "$4" "$1" "$2" ;; esac
  is_stream "$2" || shift 2
  if is_stream "$2"; then
    copied=$1
    exec <"$2"
    take_copy
  else
    device=1k
  fi
}

# find_device_of_one: the device of the image `name`, unless that is a chip database. If it can be read once, standard input is a copy of it.
find_device_of_one() {
  if is_file "$name"; then
    is_database "$name" || find_device "$name"
  elif is_stream "$name"; then
    copied=$place
    exec <"$name"
    take_copy
  fi
}

# tell_more: after the line of a refusal, where more is told of its cause
tell_more() {
  causes=" $("$program" --explain | tr '\n' ' ')"
  while :; do
    part=${said##*: }
    for word in "${part%% *}" "${part##* }"; do
      case $causes in
      *" $word "*)
        echo "icestorm --explain $word tells more" >&2
        return
        ;;
      esac
    done
    [ "$part" != "$said" ] || return 0
    said=${said%: *}
  done
}

# run ARGUMENT...: runs the program in place of the script; but if standard error is a terminal the script stays, for a line after a refusal
run() {
  { [ -t 2 ] && (: >&1) 2>/dev/null; } || exec "$program" "$@"
  status=0
  { said=$("$program" "$@" 2>&1 >&3 3>&-) || status=$?; } 3>&1
  [ -z "$said" ] || printf '%s\n' "$said" >&2
  [ $status -ne 1 ] || tell_more
  exit $status
}

if [ -z "$tool" ]; then
  know "${1-}" || case $#,${1-} in
  1,--help)
    tool=icestorm
    print_help
    exit
    ;;
  *) exec "$program" "$@" ;;
  esac
  tool=$1
  shift
else
  know "$tool" || exit 3
fi

case $#,${1-} in
1,--help)
  print_help "$tool"
  exit
  ;;
1,--version) exec "$program" "$tool" --version ;;
esac
[ -n "$special" ] || run "$tool" "$@"

! has layout || share=$(CDPATH='' cd -- "$here/../share/icestorm" && pwd) || exit 3

names=0 place=0 before_place=0 before='' name='' given=' ' layouts=0 standard=no index=0 is_value=no is_behind=no
for word in "$@"; do
  shift
  look
  case $kept in
  yes)
    set -- "$@" "$word"
    index=$((index + 1))
    ;;
  pair)
    set -- "$@" --layout "$word"
    index=$((index + 2))
    ;;
  esac
done
[ $is_value != layout ] || set -- "$@" --layout
[ $standard = no ] || [ $layouts -eq 1 ] || run "$tool" --layout standard "$@"

device='' copied=0
if has images; then
  [ $names -ne 2 ] || find_device_of_two
elif has database; then
  case $names in
  0) [ -t 0 ] || take_copy ;;
  1) find_device_of_one ;;
  esac
fi
if [ "$copied" -gt 0 ]; then
  # standard input takes the place of the name; a missing name stands for it too, but not to icebox_diff
  index=0
  for word in "$@"; do
    shift
    index=$((index + 1))
    if [ $index -ne "$copied" ]; then
      set -- "$@" "$word"
    elif has images; then
      set -- "$@" /dev/stdin
    fi
  done
fi
if [ -n "$device" ]; then
  find_database
  set -- "$db" "$@"
  # a pin file is one for the usual package, as the stock tools have it
  if is_given -p && ! is_given -d; then
    case $device in
    1k) set -- -d tq144 "$@" ;;
    8k) set -- -d ct256 "$@" ;;
    esac
  fi
fi

for flag in $special; do
  case $flag in -*) is_given "$flag" || set -- "$flag" "$@" ;; esac
done
[ $layouts,$standard != 0,no ] || ! has layout || set -- --layout "$share/silicon.layout" "$@"
run "$tool" "$@"
