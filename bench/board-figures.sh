#!/bin/sh
# What a board costs over many rules, in seconds of a processor and kilobytes: a chain, in which each rule copies what the one
# before it made; a fan, whose rules copy one source each; and one rule with so many inputs. Each is told for an opening
# alone, for one claim, and for all that can be run. The words are the numbers of rules; none: 4096, 16384 and 65536.
# It runs the program of the rows of a board (crates/tup_board_rows, after rt run there) over rows that it makes.
set -eu
program=$(cd "$(dirname "$0")/.." && pwd)/crates/tup_board_rows/out/tup_board_rows
work=$(mktemp -d)
trap 'rm -rf "$work"' EXIT
cd "$work"
if [ $# -eq 0 ]; then set -- 4096 16384 65536; fi
for count; do
    for kind in chain fan wide; do
        for orders in '=' '; claim 0 = 0' '; all 0 = over'; do
            awk -v count="$count" -v kind="$kind" -v orders="$orders" 'BEGIN {
                for (at = 0; at < count; at++) {
                    print "source f" at " x ="
                    files = files " f" at
                    numbers = numbers " " at
                }
                for (at = 0; kind != "wide" && at < count; at++) {
                    from = "f" (kind == "chain" ? at : 0)
                    to = "f" (at + 1)
                    print "rule . \"cp " from " " to "\" " from " \"\" " to " ="
                }
                if (kind == "wide") {
                    print "rule . \"cp f0 all\" \"" substr(files, 2) "\" \"\" all ="
                    numbers = " 0"
                }
                print "run \"" substr(numbers, 2) "\" stop - " orders
            }' > board.rows
            /usr/bin/time -f "$kind of $count, orders '$orders': %U s, %M KB" "$program" > said
            grep -v ' 0 differ$' said || true
        done
    done
done
