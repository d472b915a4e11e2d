#!/bin/bash
# Counts, in src/ of a commit (HEAD if none is named), the lines at which an older form may stand, a row for each point
# of docs/DESIGN-PASS.md; with -l it lists them. A line is a place to look at, and not yet a place to change.
cd "$(dirname "$0")/.." || exit 1
list=; [ "$1" = -l ] && { list=1; shift; }
at=${1:-HEAD}

look() { # a name, and a pattern
    local hits; hits=$(git grep -nP -e "$2" "$at" -- 'crates/*/src/*.rt' | grep -vP '^[^:]*:[^:]*:\d+:\s*//')
    printf '%4d  %s\n' "$(printf '%s' "$hits" | grep -c '')" "$1"
    [ -n "$list" ] && [ -n "$hits" ] && printf '%s\n' "$hits" | sed 's/^[^:]*:/      /'
}

look '1 enums of our own'                      '^\s*(pub(\(crate\))? )?enum '
look '1 an error in an Option'                 'Option<\w*Fault>'
look '1 fields and parameters with a number for a kind' '\b(layer|refusal|letter|kind|code): *u\d+'
look '1 functions that answer a number of a case' 'fn (refusal|number|index|field)\(&self\)'
look '1 a length or 0 that stands for none'    'fn (find|begun|begin|lawful_front|due_front|end_of|runs_until)\b|Ok\(_\) => 0'
look '2 functions of one shape: counting a front, holding to a bound, look-up, printing, adding, test helpers' \
     'fn (\w*_front|next|running|beats|is_beaten|may_begin|may_finish|print_(fault|entry)|add_(fault|entry)|read_(number|minutes)|refused|not_closed|not_booked)\b'
look '3 loops over a range or with a test of their own' '\bwhile\b|for \w+ in [^{]*\.\.'
look '3 loops with a place counted beside'     '\.enumerate\(\)|^\s*\w+ \+= 1;'
look '4 conversions: From, casts, read and printed by hand' '^impl(<.*>)? From<|\bas (u8|u16|u32|u64|usize|char|i64)\b|fn (read_kind|digit|width|put_number|fault_cells)\b'
look '4 order by hand'                         'fn (sooner|no_worse)\b|\(Some\(\w+\), (Some|None)'
look '5 facts asked for in a contract'         '^\s*requires '
look '5 parameters that travel together'       'out: &mut \[u8\], at: usize|at: usize, end: usize|hours: &H, (goal: &G, )?fleet|goal: &G, fleet|station: u32, (from|begin): u32, (length|end|to): u32'
look '6 arrays in a type or a value'           '\[\w+(::\w+\(\))?; *\w+\]'
look '6 a length beside them'                  '\b(len|count|depth|rows): usize'
look '7 choices of a step to run'              '^\s*match \w+ \{'
proofs=$(git ls-tree -r --name-only "$at" crates | grep -P '/(proofs)/.*\.antt$')
printf '%4d  8 proof files\n%4d  8 their lines\n' "$(printf '%s\n' "$proofs" | wc -l)" \
    "$(printf '%s\n' "$proofs" | while read -r f; do git show "$at:$f"; done | wc -l)"
