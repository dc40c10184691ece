# Sourced by the tests here: the proved program, and a folder of their own that goes at the end.
set -u
top=$(cd "$(dirname "${BASH_SOURCE[0]}")/.." && pwd)
program=${BCVUTIL:-$top/crates/bcvutil/out/bcvutil}
if [ ! -x "$program" ]; then
  echo "$(basename "$0"): wants the proved program (./run --proved bcvutil --version), or one that BCVUTIL names" >&2
  exit 77
fi
work=$(mktemp -d)
trap 'rm -rf "$work"' EXIT

# fail TEXT: the test ends here.
fail() {
  echo "$(basename "$0"): $1" >&2
  exit 1
}

# publishes CLIENT WORD..: the command ends with status 0; another publisher's many versions may make it try again.
publishes() {
  local client=$1 said
  shift
  for _ in $(seq 1 50); do
    said=$("$program" "$work/store" "$client" "$@" 2>"$work/fault.$$") && { echo "$said"; return 0; }
    case $said in contended*) continue ;; esac
    fail "$* ended with '$said' and '$(cat "$work/fault.$$")'"
  done
  fail "$* found no turn"
}

# header_only FILE: makes a database of two pages of 4096 bytes, which holds a header and zeros.
header_only() {
  { printf 'SQLite format 3\0\020\0'; head -c $((8192 - 18)) /dev/zero; } >"$1"
}
