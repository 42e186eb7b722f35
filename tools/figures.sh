#!/bin/sh
# The figures of docs/FIGURES.md that come from the repository alone: lines of code, definitions and proofs per crate and in all; how many wrong
# versions are tried, and the facts that must fail in them; and of the last run of tools/test.sh what the whole took, the largest part first. (rt says
# no seconds of a crate.)
set -u
cd "$(dirname "$0")/.." || exit 2

# lines that are neither blank nor a comment
lines() { find "$@" -type f \( -name '*.rt' -o -name '*.antt' \) -exec cat {} + 2>/dev/null | grep -vcE '^[[:space:]]*(//.*|--.*)?$'; }

{
    for crate in $(sed 's/#.*//' crates.txt | sed -n 's/^\([a-z_][a-z0-9_]*\)\( *staticlib\)\{0,1\} *:.*/\1/p'); do
        edits=$(find "crates/$crate/must-fail" -name '*.edit' 2>/dev/null | wc -l)
        facts=$(cat "crates/$crate"/must-fail/*.edit 2>/dev/null | grep -Ec '^(# )?fails: ')
        printf '%s | ' "$crate" "$(lines "crates/$crate/src")" "$(lines "crates/$crate/specs")" "$(lines "crates/$crate/proofs")" "$edits"
        echo "$facts"
    done
} | awk -F' [|] ' '
    BEGIN {
        print "| crate | code | definitions | proofs | must-fail edits | facts that fail |"
        print "|---|---|---|---|---|---|"
    }
    { print "| " $0 " |"; for (i = 2; i <= 6; i++) all[i] += $i }
    END { printf "| all %d |", NR; for (i = 2; i <= 6; i++) printf " %d |", all[i]; print "" }'
echo
if [ -f target/times.txt ]; then
    sort -rn target/times.txt | awk '
        function shown(s) { return s < 60 ? s " s" : int(s / 60) " min " s % 60 " s" }
        { took[NR] = $1; all += $1; sub(/^[0-9]* /, ""); part[NR] = $0 }
        END { print "The last run of tools/test.sh took " shown(all) ":"; for (i = 1; i <= NR; i++) print "- " part[i] ": " shown(took[i]) }'
else
    echo "(for the time of each part run tools/test.sh first)"
fi
