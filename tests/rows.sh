# To be sourced by scripts with rows, which are counted.
passed=0
failed=0

pass() {
  passed=$((passed + 1))
}

# fail TEXT: a row isn't so, which is told.
fail() {
  failed=$((failed + 1))
  echo "$1"
}

# holds NAME COMMAND..: the command succeeds.
holds() {
  local name=$1
  shift
  if "$@"; then pass; else fail "$name: not so"; fi
}

# The last line of a script, and its status.
counted() {
  echo "$passed passed, $failed failed"
  [ "$failed" -eq 0 ]
}

# alike GOT: whether a file has what comes on standard input. Where PAIRS names a folder, both texts are left there with the place of the
# row that was called with the expected one, for tests/bless.
alike() {
  if [ -z "${PAIRS:-}" ]; then
    cmp -s - "$1"
    return
  fi
  local pair
  pair=$(mktemp "$PAIRS/XXXXXX")
  echo "$0:${BASH_LINENO[-2]}" >"$pair"
  cat >"$pair.wanted"
  cat "$1" >"$pair.got"
  cmp -s "$pair.wanted" "$pair.got"
}
