#!/usr/bin/env bash
# Each crates/NAME/refused/*.edit must be refused by the compiler, with the one error that its line 'error: CODE: TEXT' names.
#
# An edit has a line 'file: src/x.rt', one or more pairs of lines 'old: TEXT' and 'new: TEXT', and the line 'error:'. Each old TEXT
# stands in the file exactly once. The compiler judges before any proof, so each takes seconds; the unedited text is for `rt ci`.
# Nothing is written in the checkout.
set -euo pipefail
cd "$(dirname "$0")/.."
work=$(mktemp -d)
trap 'rm -rf "$work"' EXIT
tar cf - --exclude=out crates.txt crates | tar xf - -C "$work"
good=0 bad=0

# The value of the edit's one line with this word.
line_of() { sed -n "s/^$1: //p" "$2"; }

# Writes the text of a file with the edit's pairs in their order put in; fails where an old text does not stand there exactly once.
edited() {
    awk '
        NR == FNR && sub(/^old: /, "") { old[++n] = $0; next }
        NR == FNR && sub(/^new: ?/, "") { new[n] = $0; next }
        NR != FNR { text = text $0 "\n" }
        END {
            if (!n) exit 3
            for (i = 1; i <= n; i++) {
                at = index(text, old[i])
                rest = substr(text, at + length(old[i]))
                if (!at || index(rest, old[i])) exit 3
                text = substr(text, 1, at - 1) new[i] rest
            }
            printf "%s", text
        }' "$1" "$2"
}

for edit in crates/*/refused/*.edit; do
    crate=$(dirname "$(dirname "$edit")")
    file=$crate/$(line_of file "$edit")
    if ! edited "$edit" "$file" >"$work/text"; then
        echo "refused: $edit: BAD EDIT"
        bad=$((bad + 1))
        continue
    fi
    cp "$work/text" "$work/$file"
    # `--only ''`: no function's proof. The limit is for a text that the compiler takes, where the libraries below would be proved first.
    (cd "$work/$crate" && timeout 300 rt check --only '') >"$work/log" 2>&1 || true
    cp "$file" "$work/$file"
    said=$(sed -nE 's/^[^ ]+: error\[([^]]*)\]: /\1: /p; s/^error\[([^]]*)\]: /\1: /p' "$work/log")
    text=${said%%: note: *}
    text=${text%%: help: *}
    if [ "$text" = "$(line_of error "$edit")" ] && [ "$(grep -cE '(^|: )error(\[|:)' "$work/log")" = 1 ]; then
        echo "refused: $edit: $text"
        good=$((good + 1))
    else
        echo "refused: $edit: NOT AS WANTED"
        tail -n 5 "$work/log"
        bad=$((bad + 1))
    fi
done
echo "refused by the compiler: $good, not as wanted: $bad"
[ "$bad" = 0 ] && [ "$good" != 0 ]
