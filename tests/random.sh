#!/usr/bin/env bash
# Makes small random programs, each with tables and a schedule, runs each of them by `plain` and by `run`, and compares the
# part files, the round and the word of the end. Where `run` has another status than 0, the schedule must have its cause; that
# a program, a table or a schedule is refused is a failure, too.
#
#     tests/random.sh [COUNT [SEED [losses]]]
#
# There are COUNT cases, 400 where it is not given. They have the seeds SEED, SEED + 1 and so on, from 1 on where it is not
# given. A seed makes the same case on each machine: `tests/random.sh 1 17` runs the one of seed 17 alone. With `losses` the
# schedules lose nodes, too. A case that fails has a line with its seed and its folder, which is kept. HALOOP is the path of the
# program, in place of bin/haloop. The last line counts the cases; the status is 0 only where none failed.

set -u
export LC_ALL=C # texts are bytes

cases=${1:-400} first=${2:-1} losses=${3:-}
top=$(dirname -- "$(dirname -- "$(readlink -f -- "${BASH_SOURCE[0]}")")")
haloop=$(readlink -f -- "${HALOOP:-$top/bin/haloop}")

stop() {
    echo "random.sh: $*" >&2
    exit 1
}

if [ $# -gt 3 ] || [[ ! "$cases $first $losses" =~ ^[0-9]+' '[0-9]+' '(losses)?$ ]]; then
    stop 'usage: random.sh [COUNT [SEED [losses]]]'
fi

# Random choices. They set variables and print nothing, for to take what is printed would be one process more.

# begin_draws SEED: from here on the seed tells what is drawn. The first numbers of neighbouring seeds are alike.
begin_draws() {
    generator=$1
    draw 2
    draw 2
}

# draw COUNT: sets $drawn to a number from 0 to COUNT - 1. It is made of the high bits of numbers of 64 bits, each of which is
# made of the one before.
draw() {
    generator=$((generator * 6364136223846793005 + 1442695040888963407))
    drawn=$(((((generator >> 18) ^ generator) >> 27 & 0xffffffff) % $1))
}

# chance COUNT OF: holds COUNT times out of OF.
chance() {
    draw "$2"
    [ "$drawn" -lt "$1" ]
}

# any WORD..: sets $one to one of the words; one that stands twice comes twice as often.
any() {
    draw $#
    one=${*:drawn+1:1}
}

# Tables. The kinds of a record are the words int and text, with that of the key first.

# some_kinds [KEY]: sets $kinds to those of a record with up to two fields, most often one.
some_kinds() {
    any int int text
    kinds=${1:-$one}
    any 0 1 1 1 1 2
    set -- $one
    while [ "$1" -gt 0 ]; do
        any int int text
        kinds+=" $one"
        set -- $(($1 - 1))
    done
}

# some_value KIND: sets $one. There are so few values that keys of different tables meet.
some_value() {
    if [ "$1" = text ]; then
        any '' a b c d ab ba ca 'a b' 7 -3 12 07 '~'
    elif chance 1 40; then
        any 9223372036854775807 -9223372036854775808
    else
        draw 25
        one=$((drawn - 12))
    fi
}

# make_table NUMBER: writes its file, and says of it what a program says.
make_table() {
    local records=0 record kind line text=
    chance 1 12 || { draw 31 && records=$drawn; }
    for ((record = 0; record < records; record++)); do
        line=
        for kind in ${table_kinds[$1]}; do
            some_value "$kind"
            line+=$'\t'$one
        done
        text+=${line#?}$'\n'
    done
    printf %s "$text" >"t$1.tsv"
    table_records[$1]=$records
    tables+="table t$1 \"t$1.tsv\" (${table_kinds[$1]// /, });"$'\n'
}

# Functions. In them $ints and $texts have the names in scope, by their kinds.

# Calls that give a number, a text or a test, with the kinds of their arguments. Those that keep more of what they are given
# come more often, so that a record that is missed shows in the end.
int_calls=('add int int' 'add int int' 'add int int' 'sub int int' 'sub int int' 'max int int' 'min int int' 'pick int int int'
    'mul int int' 'div int int' 'rem int int' 'len text' 'num text' 'eq int int' 'le text text')
text_calls=('cat text text' 'cat text text' 'txt int' 'txt int' 'cut text int int' 'pick int text text')
test_calls=('lt int int' 'ge int int' 'gt text text' 'le text text' 'ne int int' 'eq text text' 'not int' 'and int int' 'or int int')

# some_literal KIND: sets $made to a literal of this kind.
some_literal() {
    if [ "$1" = int ]; then any -3 -1 0 1 2 2 3 5 7 100 9223372036854775807; else any '""' '"a"' '"b c"' '"12"'; fi
    made=$one
}

# some_name KIND: sets $made to what a name in scope gives of this kind, the last most often, or else to a literal.
some_name() {
    local -n names=$1s
    if chance 1 7; then
        some_literal "$1"
    elif [ ${#names[@]} -gt 0 ]; then
        any "${names[@]}" "${names[-1]}"
        made=$one
    elif [ "$1" = int ]; then
        any "len(${texts[-1]})" "num(${texts[-1]})"
        made=$one
    else
        made="txt(${ints[-1]})"
    fi
}

# some_call DEPTH CALL..: sets $made to one of the calls, whose arguments have at most so many calls within one another.
some_call() {
    local depth=$1 call kind arguments='' before=
    shift
    any "$@"
    call=${one%% *}
    for kind in ${one#* }; do
        some_expression "$kind" "$depth"
        # A call of the same twice, as lt(k, k), often says nothing of it.
        [ "$made" != "$before" ] || some_literal "$kind"
        before=$made arguments+=", $made"
    done
    made="$call(${arguments#??})"
}

# some_expression KIND DEPTH: sets $made to an expression of this kind, with at most so many calls within one another.
some_expression() {
    if [ "$2" -eq 0 ] || chance 2 5; then
        some_name "$1"
    elif [ "$1" = int ]; then
        some_call $(($2 - 1)) "${int_calls[@]}"
    else
        some_call $(($2 - 1)) "${text_calls[@]}"
    fi
}

# some_emit KINDS: sets $made to the emit of a record of these kinds. Its key is that of the function or one of a few values, for
# else each round could leave more keys than the one before.
some_emit() {
    local kind=${1%% *} arguments
    if [ "$kind" = "$key_kind" ] && { [ "$keeps_key" = yes ] || chance 1 3; }; then
        arguments=k
    elif [ "$kind" = int ]; then
        some_expression int 1
        arguments="rem($made, 9)"
    else
        some_expression text 1
        arguments="cut($made, 0, 1)"
    fi
    for kind in ${1#"$kind"}; do
        some_expression "$kind" 1
        arguments+=", $made"
    done
    made="emit($arguments);"
    if chance 1 8; then
        local emit=$made
        some_call 0 "${test_calls[@]}"
        made="if ($made) { $emit }"
    fi
}

# begin_function KEY: the scope of a function whose key is of this kind, and which may use the round.
begin_function() {
    key_kind=$1 keeps_key=no ints=() texts=()
    add_name k "$1"
    ! chance 1 6 || add_name round int
    ! chance 1 2 || keeps_key=yes
}

add_name() {
    if [ "$2" = int ]; then ints+=("$1"); else texts+=("$1"); fi
}

# end_function SORT TEXT: adds a function of this sort to the program, and sets $used to its name.
end_function() {
    used=$1$((++function_count))
    functions+="$1 $used$2"$'\n'
}

# make_map FROM TO: sets $used to a map from records of some kinds to those of others; where they are the same, to `same` most
# often.
make_map() {
    local ints texts key_kind keeps_key kind parameters='' number=0 body
    used=same
    [ "$1" != "$2" ] || chance 1 3 || return 0
    begin_function "${1%% *}"
    for kind in $1; do
        if [ "$number" -gt 0 ]; then
            add_name "v$number" "$kind"
            parameters+=", v$number: $kind"
        fi
        number=$((number + 1))
    done
    some_emit "$2"
    body=$made
    if chance 1 4; then
        some_emit "$2"
        body+=" $made"
    fi
    end_function map "(k: $key_kind$parameters) -> (${2// /, }) { $body }"
}

# begin_stream LETTER KINDS: its fields come into scope, and $loop is the head of a loop over them.
begin_stream() {
    local kind number=0 names=
    for kind in $2; do
        if [ "$number" -gt 0 ]; then
            add_name "$1$number" "$kind"
            names+=", $1$number"
        fi
        number=$((number + 1))
    done
    loop="for (${names#??}) in $1"
}

# name_streams KINDS..: sets $heads to what the head of a function says of streams of these kinds.
name_streams() {
    local letter fields
    heads=
    for letter in a b c d; do
        [ $# -gt 0 ] || break
        fields=${1#* }
        [ "$fields" != "$1" ] || fields=
        heads+=", $letter: (${fields// /, })"
        shift
    done
    heads=${heads#??}
}

# fold_streams KIND KINDS..: sets $made to statements that make the variable n of this kind out of streams of these kinds. It is
# in scope behind them.
fold_streams() {
    local text letter kind=$1 outer_ints outer_texts
    shift
    some_name "$kind"
    text="let n = $made;"
    outer_ints=("${ints[@]}") outer_texts=("${texts[@]}")
    for letter in a b c d; do
        [ $# -gt 0 ] || break
        begin_stream "$letter" "$1"
        some_expression "$kind" 1
        if [ "$kind" = int ]; then any add add sub max; else any cat; fi
        text+=" $loop { set n = $one(n, $made); }"
        ints=("${outer_ints[@]}") texts=("${outer_texts[@]}")
        shift
    done
    add_name n "$kind"
    made=$text
}

# emit_streams FORM TO KINDS..: sets $made to statements that emit a record of the kinds TO for each field list of streams of
# these kinds; where FORM is `few`, for the first few of each stream.
emit_streams() {
    local form=$1 to=$2 text='' letter outer_ints outer_texts
    shift 2
    if [ "$form" = few ]; then
        text='let n = 0; '
        ints+=(n)
    fi
    outer_ints=("${ints[@]}") outer_texts=("${texts[@]}")
    for letter in a b c d; do
        [ $# -gt 0 ] || break
        begin_stream "$letter" "$1"
        some_emit "$to"
        if [ "$form" = few ]; then
            text+="set n = 0; $loop { if (lt(n, 3)) { $made } set n = add(n, 1); } "
        else
            text+="$loop { $made } "
        fi
        ints=("${outer_ints[@]}") texts=("${outer_texts[@]}")
        shift
    done
    made=${text% }
}

# join_streams TO KINDS KINDS..: sets $made to statements that emit a record for each pair of field lists of the first two of
# streams of these kinds.
join_streams() {
    local outer
    begin_stream a "$2"
    outer=$loop
    begin_stream b "$3"
    some_emit "$1"
    made="$outer { $loop { $made } }"
}

# make_reduce FORM TO KINDS..: sets $used to a reduce from streams of these kinds to records of the kinds TO.
make_reduce() {
    local ints texts key_kind keeps_key form=$1 to=$2 body
    shift 2
    begin_function "${1%% *}"
    case $form in
        fold)
            any "${to##* }" "${to##* }" "${to##* }" int text
            fold_streams "$one" "$@"
            body=$made
            some_emit "$to"
            body+=" $made"
            ;;
        join) join_streams "$to" "$@" && body=$made ;;
        *) emit_streams "$form" "$to" "$@" && body=$made ;;
    esac
    name_streams "$@"
    end_function reduce "(k: $key_kind; $heads) -> (${to// /, }) { $body }"
}

# make_partition KEY: sets $used to a partition for keys of this kind.
make_partition() {
    local ints texts key_kind keeps_key
    begin_function "$1"
    some_expression int 2
    end_function partition "(k: $1) { give($made); }"
}

# make_distance KINDS: sets $used to a distance for records of these kinds. The round is not known in it.
make_distance() {
    local ints=() texts=() body
    add_name k "${1%% *}"
    fold_streams int "$1" "$1"
    body=$made
    any n 'max(n, sub(0, n))'
    name_streams "$1" "$1"
    end_function distance "(k: ${1%% *}; $heads) { $body give($one); }"
}

# Programs.

# add_source TEXT FROM TO: a source of a step, whose records of the kinds FROM are made a stream of the kinds TO.
add_source() {
    make_map "$2" "$3"
    steps+=" $1 by $used;"
}

# add_tables COUNT: draws so many tables as sources of a step, with a round in which they are read or without one.
add_tables() {
    local source
    for ((source = 1; source <= $1; source++)); do
        draw "$table_count"
        words[source]="table t$drawn" from[source]=${table_kinds[drawn]}
        chance 1 5 || continue
        draw $((rounds + 1))
        words[source]+=" round $((drawn + 1))"
    done
}

# choose_streams STYLE TO: sets $streams to the kinds of the streams of a step that leaves records of the kinds TO: `alike` has
# these for all streams, `hop` those that this reduce takes, and `own` any, for a reduce of the program's own.
choose_streams() {
    local source key=${from[0]%% *}
    streams=()
    case $1 in
        alike) for source in "${!from[@]}"; do streams+=("$2"); done ;;
        hop) streams=("$key int" "$key ${2%% *}") ;;
        own)
            chance 3 4 || { any int text && key=$one; }
            for source in "${!from[@]}"; do
                some_kinds "$key"
                # Some maps are to be `same`.
                [ "${from[source]%% *}" != "$key" ] || chance 1 2 || kinds=${from[source]}
                streams+=("$kinds")
            done
            ;;
    esac
}

# choose_reduce STYLE TO: sets $used to a reduce for the streams. What is read again must stay small: the last step leaves a few
# records for each key, and at most one step makes records of pairs.
choose_reduce() {
    local forms=(fold fold fold few)
    [ "$last" = yes ] || forms+=(all)
    [ "$last" = yes ] || [ "$joined" = yes ] || [ ${#streams[@]} -lt 2 ] || forms+=(join join)
    [ "$1" != alike ] || forms=(least least "${forms[@]}")
    [ "$1" != alike ] || [ "$last" = yes ] || forms+=(every)
    [ "$1" != hop ] || forms=(hop)
    any "${forms[@]}"
    [[ $one != @(hop|join) ]] || joined=yes
    case $one in
        hop | least | every) used=$one ;;
        *) make_reduce "$one" "$2" "${streams[@]}" ;;
    esac
}

# add_step NUMBER: the step of this number, which reads records of the kinds $left, and sets them to those that it leaves.
add_step() {
    local last=no style to source from=("$left") words=(state) streams=()
    [ "$1" -eq 1 ] || words=(prev)
    [ "$1" -lt "$step_count" ] || last=yes
    any alike alike own own hop
    style=$one
    [ "$style" != hop ] || { [ "$last" = no ] && [ "$joined" = no ]; } || style=alike
    any 0 1 1 2 3
    [ "$style" != hop ] || one=1
    add_tables "$one"
    to=${table_kinds[start]}
    if [ "$style" = hop ]; then
        any int "${from[1]##* }"
        to="$one int"
    elif [ "$last" = no ] && chance 1 2; then
        some_kinds
        to=$kinds
    fi
    steps+='step {'
    choose_streams "$style" "$to"
    for source in "${!from[@]}"; do add_source "${words[source]}" "${from[source]}" "${streams[source]}"; done
    choose_reduce "$style" "$to"
    steps+=" reduce $used;"
    if chance 1 4; then
        make_partition "${streams[0]%% *}"
        steps+=" partition $used;"
    fi
    steps+=$' }\n'
    left=$to
}

# make_program: writes p.hal and the files of its tables.
make_program() {
    local table step step_count function_count=0 start left joined=no ends=exact caches='' cache functions='' steps=''
    any 1 2 2 2 3 4
    table_count=$one tables='' table_kinds=() table_records=()
    some_kinds
    for ((table = 0; table < table_count; table++)); do
        # Kinds that are those of the state, too, make sources that need no map.
        table_kinds[table]=$kinds
        make_table "$table"
        chance 1 2 || some_kinds
    done
    draw "$table_count"
    start=$drawn left=${table_kinds[start]}
    draw 4
    parts=$((drawn + 1))
    any 1 2 3 5 8 12
    rounds=$one
    any 1 1 2 2 3
    step_count=$one
    for ((step = 1; step <= step_count; step++)); do add_step "$step"; done
    if chance 1 3; then
        make_distance "${table_kinds[start]}"
        any 0 1 5 50 1000
        ends="below $one by $used"
    fi
    for cache in reducer_input reducer_output mapper_input; do
        chance 1 2 || caches+="cache $cache;"$'\n'
    done
    printf '%s\n' "program random;" "parts $parts;" "rounds $rounds;" "stop $ends;" \
        "$caches$tables${functions}begin t$start;" "$steps" >p.hal
}

# Schedules.

# setting WORD VALUE..: adds a line of the head with one of these values, and sets the variable of the word to it. The value
# `none` leaves the line out.
setting() {
    local word=$1
    shift
    any "$@"
    [ "$one" = none ] || head+="$word $one"$'\n'
    printf -v "$word" %s "$one"
}

# make_head: the settings, with the values that those have which are left out.
make_head() {
    local several=(none 1)
    head=
    if [ -z "$losses" ]; then
        setting nodes 1 2 3 3 4 5 8
    else
        setting nodes 2 3 3 4 5 8
        several+=(none)
    fi
    [ "$nodes" -lt 2 ] || several+=(2 2)
    [ "$nodes" -lt 3 ] || several+=(3)
    [ "$nodes" -lt 5 ] || several+=(5)
    setting copies "${several[@]}"
    [ "$copies" != none ] || copies=$((nodes < 3 ? nodes : 3))
    setting slots none 1 2 3
    setting block none 1 2 3 5 10
    [ "$block" != none ] || block=10000
    setting attempts none 1 2 3 5
    [ "$attempts" != none ] || attempts=4
    setting keep none 1 2 3 5
}

# some_node STATE: sets $node to one that is `up` or `down`, as is asked for; where there is none, and now and then, to any.
some_node() {
    local fitting=()
    for ((node = 0; node < nodes; node++)); do
        [ "${states[node]}" != "$1" ] || fitting+=("$node")
    done
    if [ ${#fitting[@]} -eq 0 ] || chance 1 10; then
        draw "$nodes"
        node=$drawn
    else
        any "${fitting[@]}"
        node=$one
    fi
}

# is_gone NODE: whether the blocks that were put on the node at the beginning cannot be had from it, as the events are now.
is_gone() {
    [ "${states[$1]}" = down ] || [ "${wiped[$1]}" = yes ]
}

# may_lose NODE: whether no more than $spare nodes are gone, once this one is lost.
may_lose() {
    local node gone=0
    ! is_gone "$1" || return 0
    for ((node = 0; node < nodes; node++)); do
        ! is_gone "$node" || gone=$((gone + 1))
    done
    [ "$gone" -lt "$spare" ]
}

# add_event WORD NUMBER: adds the event, and follows what it does to nodes.
add_event() {
    events+="$1 $2"$'\n'
    case $1 in
        fail) fails=$((fails + 1)) ;;
        lose) states[$2]=down ;;
        back) states[$2]=up ;;
        wipe) [ "${states[$2]}" = up ] || wiped[$2]=yes ;;
    esac
}

# some_event: adds an event, or several failures in a row.
some_event() {
    local word number times=1 choices=('done' 'done' 'done' 'done' fail fail round)
    [ -z "$losses" ] || choices+=(round lose lose lose back back wipe)
    any "${choices[@]}"
    word=$one
    case $word in
        round) draw 3 && number=$((round += drawn)) ;;
        back | wipe) some_node down && number=$node ;;
        *) some_node up && number=$node ;;
    esac
    if [ "$word" = fail ]; then
        [ "$fails" -lt "$most_fails" ] || return 0
        # So many in a row may be all of one task.
        [ "$most_fails" -lt "$attempts" ] || times=$attempts
    fi
    [ "$word" != lose ] || may_lose "$number" || return 0
    for ((; times > 0; times--)); do add_event "$word" "$number"; done
}

# make_schedule: writes s.txt. In most cases no task can fail too often and each block stays on a node that is up.
make_schedule() {
    local head event_count round=1 node most_fails spare events=
    make_head
    fails=0 states=() wiped=()
    for ((node = 0; node < nodes; node++)); do states[node]=up wiped[node]=no; done
    most_fails=$((attempts - 1)) spare=$((copies - 1))
    ! chance 1 8 || most_fails=100
    ! chance 1 3 || spare=$nodes
    draw 25
    for ((event_count = drawn; event_count > 0; event_count--)); do some_event; done
    printf %s "$head$events" >s.txt
}

# Runs and what is to come of them.

is_wrong() {
    wrong=${wrong:+$wrong; }$1
}

count() {
    counts[$1]=$((${counts[$1]-0} + 1))
}

# run COMMAND WORDS..: runs the program, and sets $status and $said. It may take 20 seconds of a processor and 4 GB.
run() {
    (
        ulimit -t 20 -v 4000000
        exec "$haloop" "$@" >"said.$1" 2>>errors
    )
    status=$?
    read_file "said.$1" && said=$bytes
}

# read_file PATH: sets $bytes to what is in the file. Fails where there is none.
read_file() {
    bytes=
    [ -f "$1" ] || return 1
    IFS= read -r -d '' bytes <"$1" # fails, as there is no NUL
    return 0
}

# is_block_gone TABLE BLOCK: whether there is such a block, and behind the last event none of the nodes on which it was put is up
# with it.
is_block_gone() {
    local copy
    [ "$1" -lt "$table_count" ] && [ $(($2 * block)) -lt "${table_records[$1]}" ] || return 1
    for ((copy = 0; copy < copies; copy++)); do
        is_gone $((($1 + $2 + copy) % nodes)) || return 1
    done
}

# has_cause: whether the schedule has the cause of the status of `run`, and of what it said. Nothing else changes the files of
# the nodes, so no read misses and status 9 has none.
has_cause() {
    case $status in
        0) return 0 ;;
        5)
            [[ $said =~ ^'error: block t'([0-9]+)' '([0-9]+)' lost'$'\n'$ && ${states[*]} == *up* ]] &&
                is_block_gone "${BASH_REMATCH[1]}" "${BASH_REMATCH[2]}"
            ;;
        6) [[ $said =~ ^'error: task '(map|reduce|test)[.0-9]+' failed'$'\n'$ ]] && [ "$fails" -ge "$attempts" ] ;;
        7) [[ $said == $'error: no node up\n' && ${states[*]} != *up* ]] ;;
        *) return 1 ;;
    esac
}

# compare_parts: whether both left the same part files.
compare_parts() {
    local part name plain_bytes
    for ((part = 0; part < parts; part++)); do
        printf -v name 'part-%05d' "$part"
        read_file "plain/$name" || is_wrong "plain leaves no $name"
        plain_bytes=$bytes
        read_file "run/$name" || is_wrong "run leaves no $name"
        [ "$bytes" = "$plain_bytes" ] || is_wrong "$name differs"
    done
}

# try_case SEED: makes a case in a fresh folder, which is kept under its seed where something is wrong.
try_case() {
    local wrong='' status said bytes plain_said
    mkdir "$work/case" && cd "$work/case" || exit 1
    begin_draws "$1"
    make_program
    make_schedule
    run plain p.hal plain
    plain_said=$said
    if [ "$status" -eq 0 ] && [[ $said =~ ^'rounds '[0-9]+$'\n''end '(fixpoint|close|limit)$'\n'$ ]]; then
        count "${BASH_REMATCH[1]}"
    else
        is_wrong "plain has status $status: ${said%$'\n'}"
    fi
    run run p.hal s.txt run
    if ! has_cause; then
        is_wrong "run has status $status: ${said%$'\n'}"
    elif [ "$status" -ne 0 ]; then
        [ ! -e run ] || is_wrong "run has status $status and leaves files"
    else
        [ "${said#"$plain_said"}" != "$said" ] || is_wrong 'round or end differ'
        compare_parts
        [[ $said == *$'\nstruck 0\n'* ]] || is_wrong 'a read missed'
    fi
    count "$status"
    if [ -n "$wrong" ]; then
        echo "FAILED seed $1: $wrong ($work/$1)"
        failed=$((failed + 1))
        mv "$work/case" "$work/$1"
    else
        rm -r "$work/case"
    fi
}

# The first call builds the program where needed, and says on the standard error how far it is.
[ -n "$("$haloop")" ] || stop "$haloop gives no program"
work=$(mktemp -d) || exit 1
trap 'cd / && rm -rf "$work/case" && rmdir --ignore-fail-on-non-empty "$work"' EXIT
trap 'exit 1' HUP INT TERM

declare -A counts=([fixpoint]=0 [close]=0 [limit]=0 [0]=0 [5]=0 [6]=0 [7]=0)
failed=0
for ((seed = 10#$first; seed < 10#$first + 10#$cases; seed++)); do try_case "$seed"; done
echo "plain ended with fixpoint ${counts[fixpoint]}, close ${counts[close]}, limit ${counts[limit]};" \
    "run with status 0 ${counts[0]}, 5 ${counts[5]}, 6 ${counts[6]}, 7 ${counts[7]}"
echo "$((10#$cases)) cases, $failed failed"
[ "$failed" -eq 0 ]
