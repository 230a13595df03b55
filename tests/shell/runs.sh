# Runs of scripts. Each folder of tests/rows that is named below has rows of its own form: the replies, a bar, and what is asked.
# In a source `\n` is a line feed.
. tests/shell/asking.sh

# fits PLACE COUNT COUNT: a row has as many results as operands
fits() {
    [ "$2" -eq "$3" ] || verdict 1 "$1: $2 results of $3 operands"
}

# call PLACE RESULT FUNCTION ARGUMENT..: a call that gives a value, or raises an exception on the first line
call() {
    local result=$2
    [[ $result = Divide* ]] && result="exception $result $3 1"
    ask "$1" "$result" "call m ${*:3}"
}

# The operators of one type, by which a file of tests/rows/integers is called. A row has the results, a bar, the left operand,
# the operator and the right operands; or the operator and the operands that it is before. What can be an assignment is tried
# on a local, a global, a field and an element too. In these functions T is the type and O the operator.
places='class P { T v; } T g; P p; array<T> l(1);'
computing="$places"' T value(T a, T b) { return a O b; } T stored(T a, T b) { return a O= b; }
T local(T a, T b) { a O= b; return a; } T global(T a, T b) { g = a; g O= b; return g; }
T field(T a, T b) { p.v = a; p.v O= b; return p.v; } T element(T a, T b) { l[0] = a; l[0] O= b; return l[0]; }'
stepping="$places"' T value(T a) { return O a; } T before(T a) { O a; return a; } T after(T a) { a O; return a; }
bool old(T a) { T b = a; return a O == b; } T global(T a) { g = a; O g; return g; }
T field(T a) { p.v = a; p.v O; return p.v; } T element(T a) { l[0] = a; O l[0]; return l[0]; }'
comparing='bool value(T a, T b) { return a O b; }'

# script FORM TYPE OPERATOR: the functions for an operator of a type, on one line, in $source
script() {
    source=${1//T/$2}
    source=${source//O/"$3"}
    source=${source//$'\n'/ }
}

# integers PLACE RESULTS OPERANDS: the rows of the type $type
integers() {
    local form forms=(value) index left=() results source words
    read -r -a results <<< "$2"
    read -r -a words <<< "$3"
    if [[ ${words[0]} = *[0-9] ]]; then
        left=("${words[0]}")
        words=("${words[@]:1}")
    fi
    case ${#left[@]}${words[0]} in
        0-) script "${type#u} value(T a) { return O a; }" "$type" - ;;
        0[+~]) script "T value(T a) { return O a; }" "$type" "${words[0]}" ;;
        0*)
            script "$stepping" "$type" "${words[0]}"
            forms=(value before after global field element)
            ;;
        1[\<\>] | 1*=) script "$comparing" "$type" "${words[0]}" ;;
        *)
            script "$computing" "$type" "${words[0]}"
            forms=(value stored local global field element)
            ;;
    esac
    words=("${words[@]:1}")
    fits "$1" ${#results[@]} ${#words[@]}
    ask_load "$1" ok m "$source"
    for index in "${!words[@]}"; do
        for form in "${forms[@]}"; do
            call "$1" "${results[index]}" "$form" "${left[@]}" "${words[index]}"
        done
        [[ $source != *' old('* ]] || call "$1" true old "${words[index]}"
    done
    ask "$1" ok "discard m"
}

for file in $(chosen tests/rows/integers/*.rows); do
    type=${file##*/}
    type=${type%.rows}
    anew
    rows_of "$file" integers
    check_run "$file"
done

# Two integer types. A row of tests/rows/mixed has the type and the results, a bar, the left type, an operand of it, the operator,
# the right type and operands of it.

# mixed PLACE RESULTS OPERANDS: the results stay in a type that has all of them
mixed() {
    local index left operand operator results right type wide words
    read -r type results <<< "$2"
    read -r -a results <<< "$results"
    read -r left operand operator right words <<< "$3"
    read -r -a words <<< "$words"
    fits "$1" ${#results[@]} ${#words[@]}
    wide=int64
    case $type in bool | uint64) wide=$type ;; esac
    ask_load "$1" ok m "$type f($left a, $right b) { return a $operator b; } $wide w($left a, $right b) { return a $operator b; }"
    for index in "${!words[@]}"; do
        call "$1" "${results[index]}" f "$operand" "${words[index]}"
        call "$1" "${results[index]}" w "$operand" "${words[index]}"
    done
    ask "$1" ok "discard m"
}
all_rows mixed mixed

# Conversions. A row of tests/rows/conversions has the results, a bar, the type from which, the type to which, and the values.
converting='class P { T v; } T g; P p; array<T> l(1); T same(T a) { return a; } T explicit(F a) { return T(a); }
T result(F a) { return a; } T initial(F a) { T x = a; return x; } T bracket(F a) { T x(a); return x; }
T local(F a) { T x; x = a; return x; } T global(F a) { g = a; return g; } T field(F a) { p.v = a; return p.v; }
T element(F a) { l[0] = a; return l[0]; } T argument(F a) { return same(a); } T stored(F a) { T x; return x = a; }
T added(F a) { array<T> k; k.insertLast(a); return k[0]; }'

# conversions PLACE RESULTS CONVERSION: each place in which a value converts
conversions() {
    local index form from to results words source
    read -r -a results <<< "$2"
    read -r from to words <<< "$3"
    read -r -a words <<< "$words"
    fits "$1" ${#results[@]} ${#words[@]}
    source=${converting//F/$from}
    source=${source//T/$to}
    ask_load "$1" ok m "${source//$'\n'/ }"
    for form in explicit result initial bracket local global field element argument stored added; do
        for index in "${!words[@]}"; do
            call "$1" "${results[index]}" "$form" "${words[index]}"
        done
    done
    ask "$1" ok "discard m"
}
all_rows conversions conversions

# Expressions that have no variables. A row of tests/rows/expressions has the value, a bar, and the expression.

# expression PLACE VALUE EXPRESSION
expression() {
    local type=int
    case $2 in true | false) type=bool ;; esac
    ask_load "$1" ok m "$type f() { return $3; }"
    call "$1" "$2" f
    ask "$1" ok "discard m"
}
all_rows expressions expression

# A row of tests/rows/run has the replies, a bar, the requests, a bar and the script, or several with a # between two of them;
# between replies and between requests is a semicolon. It is a run of its own. The first request is a load of the first script
# as the module m, where none is written. `load k 2` loads the second one as k, `f 1` calls a function of m, `get n` and
# `discard` are of m where no module is named, and `budget 5` comes first and sets the budget. At `reopen` the run ends, and
# another one over the same store goes on; it has no reply.

# request TEXT: the request that a row writes so, in $request
request() {
    case $1 in
        'call '* | 'object '* | seq | snapshot | 'discard '* | 'get '*' '*) request=$1 ;;
        discard) request='discard m' ;;
        'get '*) request="get m ${1#get }" ;;
        *) request="call m $1" ;;
    esac
}

# ask_text PLACE TEXT: a request of a row, with the next of the replies in $outcomes
ask_text() {
    local module outcome=${outcomes[0]-none} request which
    outcomes=("${outcomes[@]:1}")
    case $2 in
        load | 'load '*)
            read -r _ module which <<< "$2"
            ask_load "$1" "$outcome" "${module:-m}" "${sources[${which:-1} - 1]}"
            ;;
        *)
            request "$2"
            ask "$1" "$outcome" "$request"
            ;;
    esac
}

# list TEXT SIGN: the parts of a text between two of which are this sign and a space, in $parts
list() {
    IFS=$2 read -r -a parts <<< "${1//$2 /$2}"
}

# run PLACE REPLIES REQUESTS-AND-SCRIPT
run() {
    local budget=$budget host=(try) number=0 outcomes parts sources text texts
    list "$2" ';'
    outcomes=("${parts[@]}")
    list "${3%% | *}" ';'
    texts=("${parts[@]}")
    text=${3#* | }
    IFS='#' read -r -d '' -a sources <<< "${text//\\n/$'\n'}"
    sources[-1]=${sources[-1]%$'\n'}
    if [[ ${texts[0]} = 'budget '* ]]; then
        budget=${texts[0]#budget }
        texts=("${texts[@]:1}")
    fi
    if [[ ${texts[0]} != load* ]]; then
        texts=(load "${texts[@]}")
        outcomes=(ok "${outcomes[@]}")
    fi
    if [[ " ${texts[*]} " = *' reopen '* ]]; then
        rm -rf "$scratch/store"
        mkdir "$scratch/store"
        asks ''
        ends "$1: a new store" 0 "" create "$scratch/store"
        host=(serve "$scratch/store")
    fi
    anew
    for text in "${texts[@]}"; do
        if [ "$text" = reopen ]; then
            check_run "$1" "$number"
            anew
        else
            ask_text "$1" "$text"
        fi
    done
    check_run "$1" "$number"
    [ ${#outcomes[@]} -eq 0 ]
    verdict $? "$1: more replies than requests: ${outcomes[*]}"
}
for file in $(chosen tests/rows/run/*.rows); do
    rows_of "$file" run
done
printf -v zeros ' 0%.0s' {1..4096}
run "an array with 4,096 elements" "ok; exception ArrayLimit f 1; object 1 array count 1$zeros" \
    "f 4096; f 4097; object 1 | array<int> a; void f(uint n) { a.resize(n); }"

# limit PLACE REPLIES REQUESTS-AND-SCRIPT: the same as run, with the function `hold` in the script, and 5,000 ticks
limit() {
    run "$1" "$2" "budget 5000; ${3%% | *} | $holding${3#* | }"
}
for file in $(chosen tests/rows/limits/*.rows); do
    rows_of "$file" limit
done

# Ticks. A row of tests/rows/ticks has how a request ends with each budget from 0 on, with a comma between two of these: the
# function and the line where it is aborted, and at last its reply, which stays the same with each greater budget. Then come a
# bar, the request, a bar and the script. All rows of a file are in one run for each budget.

# tick PLACE ENDS REQUEST-AND-SCRIPT: the row, with the budget of the next run
tick() {
    local ending outcomes=() parts request source=${3#* | } texts=()
    list "$2" ,
    ending=${parts[-1]}
    if [ "$budget" -lt $((${#parts[@]} - 1)) ]; then
        ending="aborted ${parts[budget]}"
    fi
    [ ${#parts[@]} -le "$most" ] || most=${#parts[@]}
    source=${source//\\n/$'\n'}
    request=${3%% | *}
    if [ "$request" = load ]; then
        ask_load "$1, budget $budget" "$ending" m "$source"
    else
        ask_load "$1, budget $budget" ok m "$source"
        ask "$1, budget $budget" "$ending" "call m $request"
    fi
    case $request/$ending in
        load/aborted* | load/exception*) ask "$1, budget $budget" "refused 401 NoModule" "discard m" ;;
        *) ask "$1, budget $budget" ok "discard m" ;;
    esac
}
for file in $(chosen tests/rows/ticks/*.rows); do
    most=1
    for ((budget = 0; budget <= most; budget++)); do
        anew
        rows_of "$file" tick
        check_run "$file, budget $budget"
    done
done
budget=1000
