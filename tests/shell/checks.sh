# Scripts in files, checked by `ashd check`. A load is refused with the same line.

# checks STATUS LINE SOURCE: a check of this source, whose bytes printf writes, ends so and prints this line, and a load is
# refused with this line too; where a check prints ok, it gets an answer
checks() {
    printf "$3" > "$scratch/script"
    asks ''
    ends "a check of $3" "$1" "" check "$scratch/script"
    printf '%s\n' "$2" | cmp -s - "$scratch/output"
    verdict $? "what a check of $3 prints"
    printf 'load m %s\n' "$(wc -c < "$scratch/script")" > "$scratch/input"
    cat "$scratch/script" >> "$scratch/input"
    printf '\n' >> "$scratch/input"
    ends "a load of $3" 0 "" try --budget 1000 --counters 0
    case $2/$(cat "$scratch/output") in
        "ok/ok seq 1" | "refused "*"/$2") verdict 0 "the reply to a load of $3" ;;
        *) verdict 1 "the reply to a load of $3: $(cat "$scratch/output")" ;;
    esac
}

checks 0 "ok" ""
checks 0 "ok" "int n = 2;"
checks 0 "ok" "int n = 2; int f(int k) { n += k; return n; }"
checks 0 "ok" "bool b = true; int64 n = 3; class A { int k; }"
checks 0 "ok" "class Box { Counter@ c; }"
checks 0 "ok" "Counter@ g; int a = tally(3);"
checks 0 "ok" "int f() { for (;;) { } return 1; }"
checks 0 "ok" "interface I { void m(); } class A : I { void m() { } } I@ i = A(); A@ a = cast<A>(i);"
checks 0 "ok" "array<int> a(3); int f(int i) { return a[i]; }"
checks 1 "refused 101 BadCharacter 4" 'int "'
checks 1 "refused 101 BadCharacter 2" 'ab\377\376'
checks 1 "refused 101 BadCharacter 6" '// \303\244 \300'
checks 1 "refused 102 UnclosedComment 0" '/* x'
checks 1 "refused 103 NumberTooLarge 11" 'uint64 x = 18446744073709551616;'
checks 1 "refused 104 Unexpected 7" 'int f( {'
checks 1 "refused 105 Unsupported float 0" 'float x;'
checks 1 "refused 104 Unexpected 6" 'array<array<int>> a;'
checks 1 "refused 301 UnknownName 11" 'void f() { x = 1; }'
checks 1 "refused 302 UnknownType 0" 'Foo x;'
checks 1 "refused 302 UnknownType 10" 'class A : I { }'
checks 1 "refused 303 NameTaken 11" 'int a; int a;'
checks 1 "refused 303 NameTaken 4" 'int tally = 1;'
checks 1 "refused 304 TypeMismatch 9" 'bool b = 1;'
checks 1 "refused 304 TypeMismatch 35" 'interface I { int v(); } class A : I { }'
checks 1 "refused 304 TypeMismatch 27" 'class A { } A@ a = cast<A>(null);'
checks 1 "refused 304 TypeMismatch 24" 'array<int> a; int n = a[true];'
checks 1 "refused 305 WrongArgumentCount 28" 'void g(int k) {} void f() { g(); }'
checks 1 "refused 306 NotAssignable 11" 'void f() { 1 = 2; }'
checks 1 "refused 307 NoReturn 4" 'int f() { }'
checks 1 "refused 308 Misplaced 11" 'void f() { break; }'
checks 1 "refused 309 CyclicType B" 'class A { B@ b; } class B { B@ n; }'
checks 1 "refused 309 CyclicType A B" 'class A { B b; } class B { A@ a; }'
checks 1 "refused 309 CyclicType A" 'interface I { void g(); } class A : I { I@ n; void g() {} }'
checks 1 "refused 309 CyclicType A" 'class A { array<A@> all; }'
checks 1 "refused 312 ConstantOutOfRange 34" 'void f(int k) { switch (k) { case 2147483648: } }'
checks 1 "refused 313 DuplicateCase 42" 'void f(int k) { switch (k) { case 1: case 1: } }'

asks ''
printf 'int f() { }' > "$scratch/script"
ends "a file after --" 1 "" check -- "$scratch/script"
ends "check without a file" 2 "ashd: usage" check
ends "check of two files" 2 "ashd: usage" check "$scratch/script" "$scratch/script"
ends "check with a budget" 2 "ashd: usage" check "$scratch/script" --budget 1
ends "check with an unknown option" 2 "ashd: usage" check --fast "$scratch/script"
ends "check of a file that is not there" 1 "ashd: 605 Read" check "$scratch/none"
holds "no line of a file that is not there" ""
ends "check of an empty name" 1 "ashd: 605 Read" check ""
ends "check of a folder" 1 "ashd: 605 Read" check "$scratch"
holds "no line of a folder" ""
head -c 65536 /dev/zero | tr '\0' ' ' > "$scratch/script"
ends "check of 65,536 bytes" 0 "" check "$scratch/script"
holds "65,536 spaces are a script" ok
printf ' ' >> "$scratch/script"
ends "check of 65,537 bytes" 1 "" check "$scratch/script"
holds "65,537 bytes are too long" "refused 107 SourceTooLong"
printf '\377\n' >> "$scratch/script"
ends "check of more bytes" 1 "" check "$scratch/script"
holds "more bytes are too long, whatever they are" "refused 107 SourceTooLong"
ends "check of a file without an end" 1 "" check /dev/zero
holds "a file without an end is too long" "refused 107 SourceTooLong"
"$ashd" check /dev/null > /dev/full 2> "$scratch/error"
[ $? -eq 1 ] && [ "$(cat "$scratch/error")" = "ashd: 606 Write" ]
verdict $? "check whose line can't be written"
