# Scripts with wide trees, which are no deeper for it.

# wide NAME PREFIX PART TIMES SUFFIX: a check of a script with so many of a part prints ok
wide() {
    { printf '%s' "$2"; yes "$3" | head -n "$4" | tr -d '\n'; printf '%s' "$5"; } > "$scratch/script"
    asks ''
    ends "a check of $1" 0 "" check "$scratch/script"
    holds "what a check of $1 prints" ok
}

wide "a sum of 32,001" 'int f(int i) { return i' '+i' 32000 '; }'
wide "a sum of 32,001 of two types" 'int64 f(int i, int64 l) { return i' '+l+i' 16000 '; }'
wide "21,001 conditions" 'bool f(bool b) { return b' '||b' 21000 '; }'
wide "16,001 calls in a row" 'class A { A@ n() { return this; } A@ m() { return n()' '.n()' 16000 '; } }'
wide "60,000 statements" 'void f() { ' ';' 60000 '}'
wide "8,000 blocks" 'void f() { ' '{int a;}' 8000 '}'
