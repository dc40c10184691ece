#!/usr/bin/env bash
# A publisher's five minutes: each line that is typed, with what it writes. It works in a folder of its own, which goes at the
# end, and wants sqlite3 to make the database. The program is `./run bcvutil`, or the one that BCVUTIL names.
set -eu
here=$(cd "$(dirname "${BASH_SOURCE[0]}")" && pwd)
work=$(mktemp -d)
trap 'rm -rf "$work"' EXIT
cd "$work"

bcvutil() {
  if [ -n "${BCVUTIL:-}" ]; then "$BCVUTIL" "$@"; else "$here/../run" bcvutil "$@"; fi
}

pairs() {
  "$here/pairs" "$@"
}

while IFS= read -r line <&3; do
  echo "\$ $line"
  eval "$line"
done 3<<'END'
mkdir store client reader
bcvutil store client create 65536 86400
sqlite3 shop.db "create table item(name, price); insert into item values ('tea', 3), ('cake', 5)"
bcvutil store client new shop < shop.db
bcvutil store reader list
bcvutil store reader read shop 0 16777216 > changed.db
sqlite3 changed.db "update item set price = 4 where name = 'tea'"
pairs shop.db changed.db | bcvutil store client commit shop 2
bcvutil store client list
bcvutil store client upload shop
bcvutil store client copy shop shop-2
bcvutil store client cleanup
bcvutil store reader list
bcvutil store reader read shop-2 0 16777216 > copy.db
sqlite3 copy.db "select * from item"
END
