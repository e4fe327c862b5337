#!/usr/bin/env bash
# Drives the program through the cases of tests/rows/*.rows, each in a folder of its own, and compares its
# status, its standard output and the bytes of the files that it leaves. tests/rows/README.md has what a case
# may say. Prints a line for each case; the status is 0 only where none failed. Words name the files of cases
# to run, in place of all; HALOOP is the path of the program, in place of bin/haloop.

set -u
export LC_ALL=C # texts are bytes

top=$(dirname -- "$(dirname -- "$(readlink -f -- "${BASH_SOURCE[0]}")")")
haloop=$(readlink -f -- "${HALOOP:-$top/bin/haloop}")

work=$(mktemp -d) || exit 1
trap 'cd / && rm -rf "$work"' EXIT
trap 'exit 1' HUP INT TERM

# The bodies of words that are defined, and their names; the names of the body at work, and those of all.
declare -A bodies=() heads=() given=() named=([mark]='$' [top]="$top" [haloop]="$haloop")
# The word to which the lines with | in front belong, what it is about, and the text so far.
name='' cases=0 failed=0 taker='' about='' text=''
none=$'\001' # stands for a cell that a row does not have

stop() {
    echo "rows.sh: ${name:+$name: }$*" >&2
    exit 1
}

# Ends the case before, and begins one in a fresh folder.
begin_case() {
    end_case
    name=$1 wrong='' called=0 looked=0 edits=p.hal seconds=10 memory=unlimited sink=$work/said
    declare -gA lines=() counts=() changed=()
    mkdir "$work/$cases" && cd "$work/$cases" || exit 1
    obey "$begins"
}

end_case() {
    [ -n "$name" ] || return 0
    [ "$called" -gt 0 ] && [ "$looked" -eq "$called" ] || is_wrong 'a status is not looked at'
    if [ -z "$wrong" ]; then
        echo "ok $name"
    else
        echo "FAILED $name: $wrong"
        failed=$((failed + 1))
    fi
    cases=$((cases + 1))
}

is_wrong() {
    wrong=${wrong:+$wrong; }$1
}

# spell TEXT: writes the bytes that it stands for. <<N:FORM>> is the form N times, %d in it the number of each.
spell() {
    local rest=$1 count form
    while [[ $rest == *'<<'*:*'>>'* ]]; do
        printf %b "${rest%%'<<'*}"
        rest=${rest#*'<<'} count=${rest%%:*} rest=${rest#*:}
        printf -v form %b "${rest%%'>>'*}"
        rest=${rest#*'>>'}
        COUNT=$count FORM=$form awk 'BEGIN {
            ORS = ""; count = ENVIRON["COUNT"]; form = ENVIRON["FORM"]
            if (form ~ /%d/) for (number = 1; number <= count; number++) printf form, number
            else for (; count; count = int(count / 2)) { if (count % 2) print form; form = form form }
        }'
    done
    printf %b "$rest"
}

# Sets $path to the path that a text stands for.
spell_path() {
    path=$1
    [[ $1 != *['<\']* ]] || path=$(spell "$1.") path=${path%.}
}

# Writes the files that changed since the last call.
write_files() {
    local file number whole
    for file in "${!changed[@]}"; do
        whole=
        for ((number = 1; number <= ${counts[$file]}; number++)); do whole+=${lines[$file:$number]}; done
        spell "$whole" >"$file"
    done
    changed=()
}

# call TEXT: runs the program with these words, as the shell reads them. Past $seconds it has status 124.
call() {
    local words
    eval "words=($1)"
    write_files
    : >"$work/said"
    (
        ulimit -v "$memory"
        if [ "$sink" = closed ]; then exec >&-; else exec >"$sink"; fi
        exec timeout --foreground "$seconds" "$haloop" "${words[@]}"
    )
    status=$? called=$((called + 1))
}

# wants PATH TEXT WHAT: a file with these bytes, or a folder where the path ends with a slash.
wants() {
    local is wanted
    printf -v wanted %b "$2"
    if [[ $1 == */ ]]; then
        [ -d "$1" ] || is_wrong "no folder $3"
    elif [ ! -f "$1" ]; then
        is_wrong "no file $3"
    # Most texts are compared with no other program; read fails where there is no NUL.
    elif [[ $2 == *@('<<'|'\0')* ]] || IFS= read -r -d '' is <"$1" || [ "$is" != "$wanted" ]; then
        spell "$2" | cmp -s - "$1" || is_wrong "$3 is $(od -An -c "$1" | head -n 4 | tr -s ' \n' ' ')"
    fi
}

# add_text LINE: a line of the text, with its end unless \c stands there.
add_text() {
    local line=$1'\n'
    [[ $1 != *'\c' || $1 == *'\\c' ]] || line=${1%'\c'}
    [ -n "$taker" ] || stop "a text that belongs to nothing: $1"
    text+=$line
    [ "$taker" = file ] || return 0
    counts[$path]=$((${counts[$path]} + 1))
    lines[$path:${counts[$path]}]=$line
}

# Does what the word before asks for, now that its text is whole.
take_text() {
    local word=$taker line=${edits-}:$about
    taker=
    case $word in
        line | before | after)
            [ -v "lines[$line]" ] || stop "no line $line"
            [ "$word" != before ] || text+=${lines[$line]}
            [ "$word" != after ] || text=${lines[$line]}$text
            lines[$line]=$text changed[$edits]=1
            ;;
        says) wants "$work/said" "$text" 'standard output' ;;
        says_first) head -c "$(spell "$text" | wc -c)" "$work/said" >"$work/first" && wants "$work/first" "$text" 'its beginning' ;;
        wants) spell_path "$about" && wants "$path" "$text" "$path" ;;
    esac
}

# fill LINE: sets $line to it, with the texts of its names in their places. Fails where a row has no such cell.
fill() {
    local rest=$1 word
    line=
    while [[ $rest == *'$'* ]]; do
        line+=${rest%%'$'*} rest=${rest#*'$'}
        [[ $rest =~ ^[A-Za-z_0-9]* ]]
        word=${BASH_REMATCH[0]:-mark}
        rest=${rest#"${BASH_REMATCH[0]}"}
        line+=${given[$word]-${named[$word]?"$name: no such name"}}
    done
    line+=$rest
    [[ $line != *$none* ]]
}

# expand BODY NAMES MARK TEXT: does what the body says, where each name stands for a piece of the text between two
# marks, and the last name for all that is left.
expand() {
    local word='' left=$4$3
    local -A given=()
    for word in $2; do
        given[$word]=${left%%"$3"*}
        [ -n "$left" ] || given[$word]=$none
        left=${left#*"$3"}
    done
    [ -z "$word" ] || [ -z "$left" ] || given[$word]+=$3${left%"$3"}
    obey "$1"
}

# Takes the next lines of obey into $taken, up to one of this form, which is then $line.
take_up_to() {
    taken=
    while [ "$at" -lt "${#orders[@]}" ]; do
        line=${orders[at++]}
        [[ $line != $1 ]] || return 0
        taken+=${taken:+$'\n'}$line
    done
}

# each NAMES: does what the lines up to `with` say, for each row behind it.
each() {
    local body row rows
    take_up_to 'with*' && body=$taken
    if [ "$line" = with ]; then take_up_to ''; else taken=$(cd "$top" && eval "${line#'with $'}"); fi
    mapfile -t rows <<<"${taken:?"$name: no rows"}"
    for row in "${rows[@]}"; do
        fill "$row"
        expand "$body" "$1" '|' "$line"
    done
}

# obey TEXT: does what its lines say, one after the other.
obey() {
    local orders at=0 line taken
    mapfile -t orders <<<"$1"
    while [ "$at" -lt "${#orders[@]}" ]; do
        line=${orders[at++]}
        [[ $line != *'$'* ]] || fill "$line" || continue
        case $line in
            '' | '#'*) ;;
            '|'*) add_text "${line:2}" ;;
            *' '*) order "${line%% *}" "${line#* }" ;;
            *) order "$line" '' ;;
        esac
    done
}

# order WORD REST: does what one line of obey says.
order() {
    local word rest=$2 first=${2%% *} other=${2#* }
    [ "$first" != "$rest" ] || other=
    # The text of the word before may go on in rows, and in what is defined.
    [[ $1 == each || -v bodies[$1] ]] || take_text
    case $1 in
        each) each "$rest" ;;
        by) take_up_to "$none" && for word in $rest; do named[by]=$word && obey "$taken"; done ;;
        define) take_up_to '' && bodies[$first]=$taken heads[$first]=$other ;;
        let) named[$first]=$other ;;
        case) begin_case "$rest" ;;
        begins | edits | seconds | memory | sink) printf -v "$1" %s "$rest" ;;
        file) taker=file text='' && spell_path "$rest" && counts[$path]=0 changed[$path]=1 ;;
        line | before | after) taker=$1 about=$first text='' && [ -z "$other" ] || add_text "$other" ;;
        keep) line=${lines[$edits:$rest]-} && lines[$edits:$rest]=${line%'\n'} counts[$edits]=$rest changed[$edits]=1 ;;
        folder) spell_path "$rest" && write_files && rm -f "$path" && mkdir -p "$path" ;;
        remove) spell_path "$rest" && write_files && rm -r "$path" ;;
        move) spell_path "$other" && write_files && mv "$first" "$path" ;;
        call) call "$rest" ;;
        status) looked=$((looked + 1)) && [ "$status" -eq "$rest" ] || is_wrong "status $status in place of $rest" ;;
        says | says_first | wants) taker=$1 about=$rest text= ;;
        absent) [ ! -e "$rest" ] || is_wrong "$rest is there" ;;
        count) set -- "$first"/* && [ $# -eq "$other" ] || is_wrong "$# files in $first in place of $other" ;;
        shell) write_files && called=$((called + 1)) looked=$((looked + 1)) && sh -c "$rest" >/dev/null || is_wrong "failed: $rest" ;;
        *) expand "${bodies[$1]?"$name: no such word"}" "${heads[$1]}" ' ' "$rest" ;;
    esac
}

# The first call builds the program where needed, and says on the standard error how far it is.
[ -n "$("$haloop")" ] || stop "$haloop gives no program"

cd "$top/tests/rows" && [ $# -gt 0 ] || set -- *.rows
for file in common "$@"; do
    begins='' lines_of_file=$(cat "$top/tests/rows/$file") || exit
    obey "$lines_of_file"
    take_text
done
end_case
echo "$((cases - failed)) passed, $failed failed"
[ "$failed" -eq 0 ]
