#!/usr/bin/env bash
# Refuses each call on files in turn, and lets reads and writes take one byte at a time. Each run tells by hand what it says, reads and
# writes, in that order. From this follows what each refusal has to leave, byte for byte: status 3; the output up to there, with the
# report of a file; a file that becomes longer as it was, while its new end is refused; else a file with a front of its new bytes and
# after it what it had there, and its new end; all else as it was, modes and times too. Where none is refused, the whole run. It runs the
# program that `make` built, from anywhere, and needs a C compiler. The last line counts the runs, by whole calls and by single bytes.
set -uo pipefail
export LC_ALL=C TZ=UTC
cd "$(dirname "$0")" || exit 1
. ../rows.sh
program=$(cd ../.. && pwd)/crates/ed_main/out/ed_main
work=$(mktemp -d)
trap 'rm -rf "$work"' EXIT
if ! [ -x "$program" ] || ! cc -shared -fPIC -O1 -o "$work/files.so" files.c; then
  echo "the program is not built, or there is no C compiler"
  echo "0 passed, 1 failed"
  exit 1
fi

# The files that each run finds. Their time lies in the past, so that a write shows.
declare -A before=([F]=$'a\nb\nc\n' [E]='' [G]=$'uvw\nxyz' [A]=$'1d\nw\nq\n' [B]=$'$p\nQ\n')
declare -A has written met
before[CERT]=$(<../verifier/first.cert)$'\n'
before[WRONG]=${before[CERT]/final 0 2/final 0 1}
past='640 981173106.0000000000'
mkdir "$work/before"
for name in "${!before[@]}"; do
  printf '%s' "${before[$name]}" >"$work/before/$name"
done
chmod 640 "$work/before"/*
touch -d '2001-02-03 04:05:06' "$work/before"/*

# The steps of a run. What comes of each is said for a refused call of the kind `kind`, in the file of the number `where` or the output,
# after `place` bytes of it. With that call the steps are over.
says() { # TEXT
  local text
  printf -v text "$1"
  output+=$text
  size=$((size + ${#text}))
  if [ "$where" = output ] && [ "$place" -lt ${#output} ]; then
    output=${output:0:place}
    over=yes
  fi
}

# The next file is opened, and one of its calls is refused. A refused closing is none: what was written is synced by then.
meets_refusal() {
  number=$((number + 1))
  [ "$where" = "$number" ] && [ "$kind" != close ] && over=yes
}

# The next file is opened to be written, and one of its calls is refused. Where files are spared, one that can't be opened to be read too, or not
# be read then, is written all the same.
meets_refused_write() {
  meets_refusal || return 1
  [ "$spared" ] || return 0
  case $kind in
  open) number=$((number + 1)) ;;
  read) ;;
  *) return 0 ;;
  esac
  over=
  unread=yes
  return 1
}

# A certificate is read. Of one that can't be, nothing is said.
takes() { # NAME
  meets_refusal
}

reads() { # NAME
  if meets_refusal; then output+=$report; fi
}

writes() { # NAME TEXT
  local name=${1%% *} text is_new= meets=meets_refused_write
  printf -v text "${1#* }"
  size=$((size + ${#text}))
  local old=${has[$name]-}
  local end=${#old}
  syncs=$((syncs + 1))
  if [ "$end" -gt 0 ] && [ "$end" -lt ${#text} ]; then syncs=$((syncs + 1)); fi
  [ "${has[$name]+there}" ] || is_new=yes
  # Where there is no file, the first opening doesn't find one, and the second makes it.
  if [ "$is_new" ]; then
    if meets_refused_write; then
      output+=$report
      return
    fi
    meets=meets_refusal
  fi
  if ! $meets; then
    has[$name]=$text
    written[$name]=yes
    # The folder is synced if that can be, and a new name of a file is there anyway.
    if [ "$is_new" ]; then number=$((number + 1)) syncs=$((syncs + 1)); fi
  elif [ "$kind" != open ] && [ "$kind" != stat ]; then
    has[$name]=$(leaves && echo .)
    has[$name]=${has[$name]%.}
    written[$name]=yes
  elif [ "$kind" = stat ]; then
    [ "${has[$name]+there}" ] || written[$name]=yes
    has[$name]=$old
  fi
  if [ "$over" ]; then output+=$report; fi
}

# A file is given the bytes that it has already.
spares() { # NAME
  unread=
  if meets_refused_write; then
    output+=$report
  elif [ "$unread" ]; then
    written[$1]=yes
  fi
}

# What a file with the bytes `old` has when a write of `text` was refused.
leaves() {
  if [ ${#text} -le "$end" ]; then
    if [ "$kind" = fsync ]; then printf '%s' "$text"; else printf '%s' "${text:0:place}${old:place}"; fi
  elif [ "$kind" = fsync ] && [ "$place" = "$end" ]; then
    printf '%s' "$text"
  elif [ "$place" -lt "$end" ]; then
    printf '%s' "${text:0:place}${old:place}${text:end}"
  elif [ "$uncut" ]; then
    printf '%s' "$old${text:end:place-end}"
  else
    printf '%s' "$old"
  fi
}

# Help mode is turned on.
helps() {
  report=$'?\nfile refused\n'
}

# What the run leaves: its status, its output, and the bytes of each file.
foresee() { # KIND WHERE PLACE
  local kind=$1 where=$2 place=$3 number=0 over= report=$'?\n' step name
  output=
  size=0
  syncs=0
  has=()
  written=()
  for name in "${!before[@]}"; do has[$name]=${before[$name]}; done
  if [ "$where" = input ]; then over=yes; fi
  for step in "${steps[@]}"; do
    if [ "$over" ]; then break; fi
    "${step%% *}" "${step#* }"
  done
  status=$ends
  if [ "$over" ]; then status=3; fi
  opens=$number
}

is_foreseen() {
  local found name mode time files=0
  IFS= read -r -d '' found <"$work/output"
  [ "$got" = "$status" ] && [ "$found" = "$output" ] || return 1
  while read -r name mode time; do
    files=$((files + 1))
    IFS= read -r -d '' found <"$name"
    [ "${has[$name]-no such file}" = "$found" ] || return 1
    [ "${written[$name]-}" ] || [ "$mode $time" = "$past" ] || return 1
    [ -z "${before[$name]-}" ] || [ "$mode" = "${past% *}" ] || return 1
  done < <(find . -type f -printf '%f %m %T@\n')
  [ "$files" = "${#has[@]}" ]
}

# Runs the program with these words of the library, and tells what was refused.
meets() { # REFUSE BYTES
  rm -rf "$work/in"
  cp -a "$work/before" "$work/in"
  cd "$work/in" || exit 1
  got=0
  REFUSE=$1 BYTES=$2 LD_PRELOAD=$work/files.so "$program" $words <"$work/script" >"$work/output" 2>"$work/errors" || got=$?
  local line
  refused=
  while read -r line; do
    case $line in refused\ *) refused=${line#* } ;; esac
  done <"$work/errors"
  foresee ${refused:-none none 0}
  is_foreseen
}

# Refuses the calls of a kind one after the other, until none is left to refuse: that is a whole run.
each_is_refused() { # KIND BYTES
  local call=0
  calls=0
  while :; do
    calls=$call
    call=$((call + 1))
    meets "$1 $call" "$2" || return 1
    if [ -z "$refused" ]; then return 0; fi
  done
}

# Whether each call was really met: a file is opened once for each step on it, and synced once for each that writes it, or twice where it
# becomes longer. A new one is looked for first, and then made, and its folder is opened and synced.
are_all_met() {
  local step writes=0
  for step in "${steps[@]}"; do
    case $step in writes\ *) writes=$((writes + 1)) ;; esac
  done
  [ "${met[open]} ${met[fsync]}" = "$opens $syncs" ] && [ "${met[read]}" -gt 0 ] && [ "${met[write]}" -ge "$writes" ]
}

# Whole calls first, then by single bytes.
is_told_right() {
  local kind
  met=()
  for kind in $kinds; do
    each_is_refused "$kind" '' || return 1
    met[$kind]=$calls
  done
  are_all_met || return 1
  for kind in read write 'read write'; do
    meets '' "$kind" || return 1
  done
  for kind in $bytewise; do
    each_is_refused "$kind" 'read write' || return 1
    met[$kind]=$((met[$kind] + calls))
    [ "$kind" != write ] || [ "$calls" = "$size" ] || return 1
  done
}

# on NAME STATUS SCRIPT WORDS STEP..: the run has these steps and ends so.
on() {
  local name=$1
  ends=$2
  words=$4
  printf "$3" >"$work/script"
  shift 4
  steps=("$@")
  if is_told_right; then
    pass
    echo "$name: ${met[open]} opens, ${met[read]} reads, ${met[write]} writes and all else, each refused once"
  else
    fail "$name: status $got and not $status, or another output, file or number of calls, with this refused: ${refused:-nothing}"
    cat "$work/output"
  fi
}

# The kinds of calls that are refused, and those that are by single bytes too.
kinds='open stat read write ftruncate fsync close'
bytewise='read write'
uncut=
spared=
on 'w of all lines' 0 '2d\nw\n,p\nq\n' 'edit F' \
  'reads F' 'says 6\n' 'writes F a\nc\n' 'says 4\na\nc\n'
on 'w of fewer bytes' 0 '1,2c\nz\n.\nw\n1p\nq\n' 'edit -s F' \
  'reads F' 'writes F z\nc\n' 'says z\n'
on 'w of more bytes' 0 '$a\nmore\n.\nw\nq\n' 'edit -s G' \
  'reads G' 'writes G uvw\nxyz\nmore\n'
on 'w of one byte more' 0 '1s/$/!/\nw\nq\n' 'edit -s F' \
  'reads F' 'writes F a!\nb\nc\n'
on 'w to an empty file' 0 'f\n1w E\nq\n' 'edit F' \
  'reads F' 'says 6\nF\n' 'writes E a\n' 'says 2\n'
on 'w of a range to a new file' 0 '2,3w H\nq\n' 'edit F' \
  'reads F' 'says 6\n' 'writes H b\nc\n' 'says 4\n'
on 'w of a range over another file' 0 '1p\n1,2w G\n3p\nq\n' 'edit -s F' \
  'reads F' 'says a\n' 'writes G a\nb\n' 'says c\n'
on 'w of a range to the file' 1 '3d\n1s/a/x/\n1w\nq\n' 'edit F' \
  'reads F' 'says 6\n' 'writes F x\n' 'says 2\n?\n'
on 'two writes of a file' 0 '2d\nw\n1d\nw\n1p\nq\n' 'edit -s F' \
  'reads F' 'writes F a\nc\n' 'writes F c\n' 'says c\n'
on 'writes of three files' 0 'w H\n1d\nw G\nw\nq\n' 'edit F' \
  'reads F' 'says 6\n' 'writes H a\nb\nc\n' 'says 6\n' 'writes G b\nc\n' 'says 4\n' 'writes F b\nc\n' 'says 4\n'
on 'writes in a list' 0 'g/[bc]/.w H\n.n\nq\n' 'edit -s F' \
  'reads F' 'writes H b\n' 'writes H c\n' 'says 3\tc\n'
on 'r' 0 '1r G\n,p\nw\nq\n' 'edit F' \
  'reads F' 'says 6\n' 'reads G' 'says 7\na\nuvw\nxyz\nb\nc\n' 'writes F a\nuvw\nxyz\nb\nc\n' 'says 14\n'
on 'e' 0 '1d\nw\ne G\n,p\nw\nq\n' 'edit F' \
  'reads F' 'says 6\n' 'writes F b\nc\n' 'says 4\n' 'reads G' 'says 7\nuvw\nxyz\n' 'writes G uvw\nxyz\n' 'says 8\n'
on 'E and an r of no file' 3 '1d\nE G\n1p\nr H\nw\n' 'edit -s F' \
  'reads F' 'reads G' 'says uvw\n' 'reads H' 'says ?\n'
on 'a start file that is missing' 0 'a\nx\n.\nw\nq\n' 'edit H' \
  'reads H' 'writes H x\n' 'says 2\n'
on 'no start file' 0 'a\nx\ny\n.\n,p\nw H\nq\n' 'edit -s' \
  'says x\ny\n' 'writes H x\ny\n'
on 'help mode' 0 'H\n1p\nr G\n5p\nw\n' 'edit -s F' \
  'reads F' helps 'says a\n' 'reads G' 'says xyz\n' 'writes F a\nb\nc\nuvw\nxyz\n'
on 'a fault in help mode' 1 'H\n9p\nw\n' 'edit F' \
  'reads F' 'says 6\n?\ninvalid address\n'
on 'changes that are not written' 1 '1d\nq\n' 'edit F' \
  'reads F' 'says 6\n?\n'
on 'a prompt' 0 '2d\nw\nq\n' 'edit -p > F' \
  'reads F' 'says 6\n>>' 'writes F a\nc\n' 'says 4\n>'

# Files that have the bytes already are left alone.
spared=yes
on 'w of what the file has' 0 'w\n,p\nq\n' 'edit --unchanged F' \
  'reads F' 'says 6\n' 'spares F' 'says 6\na\nb\nc\n'
on 'w of as many other bytes' 0 '1s/a/x/\nw\n1p\nq\n' 'edit --unchanged -s F' \
  'reads F' 'writes F x\nb\nc\n' 'says x\n'
on 'w of more bytes, and again' 0 '$a\nmore\n.\nw\nw\n1p\nq\n' 'edit --unchanged -s F' \
  'reads F' 'writes F a\nb\nc\nmore\n' 'spares F' 'says a\n'
on 'w to a new file, and again' 0 '2,3w H\n2,3w H\nq\n' 'edit --unchanged -s F' \
  'reads F' 'writes H b\nc\n' 'spares H'
spared=

# A new end that is refused and can't be cut off.
export UNCUT=yes
uncut=yes
kinds=${kinds/ftruncate /}
on 'w of more bytes that stay' 0 '$a\nmore\n.\nw\n,p\nq\n' 'edit -s G' \
  'reads G' 'writes G uvw\nxyz\nmore\n' 'says uvw\nxyz\nmore\n'
on 'w to a new file that stays' 0 '2,3w H\nq\n' 'edit F' \
  'reads F' 'says 6\n' 'writes H b\nc\n' 'says 4\n'
unset UNCUT
uncut=
kinds='open stat read write ftruncate fsync close'

# A certificate has too many bytes to refuse each.
bytewise=write
on 'check' 0 '1d\nw\nq\n' 'check CERT' 'takes CERT' 'says accepted\n'
on 'check of another certificate' 1 '1d\nw\nq\n' 'check WRONG' 'takes WRONG' 'says refused: command 4\n'
on 'explain' 0 '1d\nw\nq\n' 'explain CERT' 'takes CERT' 'says 1: 1 to 3 lines, at the last one | 1d\n2: 0 to 2 lines, at line 0 to 1, changed | w\n3: 0 to 2 lines, at line 0 to 1 | q\n'
on 'run' 0 '1d\nw\nq\n' 'run CERT F' \
  'takes CERT' 'reads F' 'says 6\n' 'writes F b\nc\n' 'says 4\n'
on 'run -s' 0 '1d\nw\nq\n' 'run CERT -s F' \
  'takes CERT' 'reads F' 'writes F b\nc\n'
on 'run of another certificate' 1 '1d\nw\nq\n' 'run WRONG F' 'takes WRONG' 'says refused: command 4\n'
on 'run over another file' 4 '1d\nw\nq\n' 'run CERT G' 'takes CERT' 'says start outside the certificate\n'
on 'vouch that cannot' 1 '1d\nw\nq\n' 'vouch --min 0 --max 3 F' 'says cannot: command 1: invalid address\n'
on 'vouch of two scripts' 0 '' 'vouch --min 1 --max 3 -f A -f B F' 'takes A' 'takes B'
on 'vouch of two scripts that cannot for one' 1 '' 'vouch --min 1 --max 3 -f F -f B F' 'takes F' 'takes B'
bytewise=
on 'vouch' 0 '1d\nw\nq\n' 'vouch --min 1 --max 3 F' "says ${before[CERT]}"
printf -v long '%0100000d' 0
on 'more than one read takes' 0 "a\n$long\n.\nw H\nr H\n,p\nQ\n" 'edit -s' \
  "writes H $long\n" 'reads H' "says $long\n$long\n"
counted
