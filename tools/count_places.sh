#!/bin/sh
# Prints how many lines of crates/*/src/*.rt, or of the proofs, have each form that docs/DESIGN-PASS.md counts.
# With the argument -l it prints the lines themselves. Run it at the top of the repository.
show() {
    label=$1
    shift
    if [ "$LIST" ]; then
        echo "== $label"
        "$@"
    else
        printf '%5d  %s\n' "$("$@" | wc -l)" "$label"
    fi
}
lines() { grep -nE "$1" crates/*/src/*.rt; }
# names of functions that stand more than once
names() { grep -ohE 'fn [a-z_0-9]+' crates/*/src/*.rt | sort | uniq -d; }
# facts that three or more contracts ask for or say, with the names of what they speak of left out
facts() {
    grep -hE '^ *(requires|ensures)' crates/*/src/*.rt |
        sed -E 's/^ *(requires|ensures)( [a-z_]+)? \{ (.*) \}$/\3/; s/[a-z_]+\.(now|old|new)(\.[a-z]+)*/X/g' |
        sort | uniq -c | awk '$1 >= 3'
}
answers() { find crates/*/proofs -name Answers.antt; }
proof_lines() { find crates/*/proofs -name '*.antt' -exec cat {} +; }

LIST=
[ "$1" = -l ] && LIST=yes
show '1 enums' lines '^ *(pub(\(crate\))? )?enum '
show '1 errors handed on by hand' lines 'if let Err\(|=> Err\(|let Ok\(.*else|=> return Err'
show '1 flags' lines '[a-z]: bool\b'
show '1 number codes' lines 'attributes: (0x|u8)'
show '2 names of functions that stand twice' names
show '3 loops' lines "^ *('[a-z]+: )?(while|loop|for) .*\{$"
show '3 indexes counted by hand' lines "^ *('[a-z]+: )?(while|loop)\b|enumerate\(\)|for [a-z_]+ in .*\.\.|for [a-z]+ in (from|first)"
show '4 comparisons, conversions and printing by hand' lines 'fn (same|same_bytes|refusal|words|push_hex|hex_digit|hex_value|hex_pair|two|left|right|spaces|heard|pass_up|to_field|fit_text|is_hex_digit|is_letter|is_printable|all_digits|all_plain)\b'
show '5 facts in three or more contracts' facts
show '6 lengths beside buffers, tables in one array' lines 'count: usize,|blocks: u32,$|: \[u8; 24\]|^    first: &'
show '7 choices by an enum' lines 'match (kind|form|medium|mode|what) '
[ "$LIST" ] || {
    show '8 answer files' answers
    show '8 lines of proofs' proof_lines
}
