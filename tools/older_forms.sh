#!/usr/bin/env bash
# Counts the places where an older form stands in the sources of the crates, one line to a form. Tests are left out.
#   tools/older_forms.sh [FOLDER]     the folder of a checkout, else this one
#   tools/older_forms.sh --show WORD  the places of the forms whose line has WORD
show=
if [ "$1" = --show ]; then show=$2; shift 2; fi
cd "${1:-$(dirname "$0")/..}" || exit 1
mapfile -t src < <(find crates -path 'crates/*/src/*.rt' ! -path '*/out/*' ! -name '*tests.rt' | sort)
count() {
    if [ -n "$show" ]; then
        case $1 in *"$show"*) grep -nE "$2" "${src[@]}" ;; esac
    else
        printf '%5d  %s\n' "$(cat "${src[@]}" | grep -cE "$2")" "$1"
    fi
}
count 'results: error handed on by an arm'          '^\s*Err\(\w+\) => (return )?Err\((\w+|refused\.1|Stop::Memory)\)|^\s*Err\(refused\) => return'
count 'results: error handed on by if let'          'if let Err\('
count 'results: fault written out with its line'    '(Err\(|&|Some\()Fault \{'
count 'results: None handed on by let else'         'else \{ return None|^\s*None => None,'
count 'twins: names of small functions that stood twice' 'fn (used|zero|row_of|row_at|hour_of|result_of|filled|taken_in|open_end|read_count|end_at|end_before)\b'
count 'loops: for over a range of numbers'        '^\s*(.\w+: )?for \w+ in [^{]*\.\.'
count 'loops: while'                              '^\s*while '
count 'loops: sum, count or fold in a mut local'  'let mut (sum|count|left|area|n|shown|next|end|best|lowest|i|more|before): ?|let mut (sum|count|left|area|n|shown|next|end|best|lowest|i|more|before) ='
count 'by hand: widening by as'                     ' as (u64|u128)\b'
count 'by hand: range by two comparisons'           '< 1 \|\| \w+(\.\w+)* > |(^|[^=])[><]=? \d+ \|\|'
count 'by hand: fields compared one by one'         'self\.\w+ != other\.\w+'
count 'facts: facts of requires joined by ×'      '^\s*requires.*×'
count 'facts: requires'                           '^\s*requires '
count 'buffers: array cut by its count'             '\[0\.\.[a-z_.]*(count|posted)\b'
count 'buffers: place handed on beside its output'  'out: &mut \[u8\], at: usize'
count 'switches: step chosen by a parameter'         'run: Run\b|strict: bool'
lines() { find crates -path "*/$1/*.antt" ! -path '*/out/*' -print0 | xargs -0 cat | wc -l; }
[ -n "$show" ] || printf "%5d  proofs: lines\n" "$(lines proofs)"
[ -n "$show" ] || printf '%5d  proofs: files of answers and invariants\n' "$(find crates -path 'crates/*/proofs/*/*' -name '*.antt' ! -path '*/out/*' | wc -l)"
