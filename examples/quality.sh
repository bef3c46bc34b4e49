#!/usr/bin/env bash
# Checks quality rules. A rule is a query for the concepts that break it: the rule is kept if the answer is `OK 0`.
#
#     quality.sh QUERY FOLDER [FOLDER ..]
#     quality.sh --rules FILE FOLDER [FOLDER ..]
#
# The first form checks one rule, and prints all concepts that break it.
#
# The second form checks the rules of a file, one a line, and loads the release once. A comment of the language can name
# a rule: `/* no Delta */ 103007`. Blank lines, and lines that begin with `#`, are passed over. For each broken rule the
# script prints a line `FILE:LINE: N RULE`, where N is the number of concepts that break it, and then the first ten of
# these, each after two spaces.
#
# The status is 0 if all rules are kept, and 1 if a rule is broken. It is 2 if the words, the file, the release or a
# query is refused; if that is a query of a file, the script still checks the other rules.
set -euo pipefail
program=${HOSECRAG:-$(dirname "${BASH_SOURCE[0]}")/../hosecrag}

refuse() {
    echo "quality.sh: $*" >&2
    exit 2
}

# Checks the rule $1 over the folders that follow.
check_rule() {
    local query=$1 answer
    shift
    answer=$(printf '%s\n' "$query" | "$program" query "$@") || exit 2
    case $answer in
        'OK 0') ;;
        OK\ *)
            tail -n +2 <<<"$answer"
            exit 1
            ;;
        *) refuse "the query was refused: $answer" ;;
    esac
}

# Checks the rules of the file $1 over the folders that follow.
check_rules() {
    local file=$1 lines rules=() places=() place answers answer count status=0
    shift
    if [ -d "$file" ] || [ ! -r "$file" ]; then refuse "cannot read the file of rules: $file"; fi
    mapfile -t lines <"$file"
    for place in "${!lines[@]}"; do
        if [[ ${lines[place]} =~ ^[[:space:]]*(#|$) ]]; then continue; fi
        rules+=("${lines[place]%$'\r'}")
        places+=($((place + 1)))
    done
    if [ "${#rules[@]}" -eq 0 ]; then refuse "the file has no rule: $file"; fi
    answers=$(printf '%s\n' "${rules[@]}" | "$program" query "$@" --first 10) || exit 2
    for place in "${!rules[@]}"; do
        IFS= read -r answer
        case $answer in
            'OK 0') ;;
            OK\ *)
                count=${answer#OK }
                echo "$file:${places[place]}: $count ${rules[place]}"
                head_of "$((count < 10 ? count : 10))"
                if [ "$status" -eq 0 ]; then status=1; fi
                ;;
            *)
                echo "quality.sh: $file:${places[place]}: the query was refused: $answer" >&2
                status=2
                ;;
        esac
    done <<<"$answers"
    exit "$status"
}

# Prints the next $1 lines of the answers, each after two spaces.
head_of() {
    local line number
    for ((number = 0; number < $1; number++)); do
        IFS= read -r line
        echo "  $line"
    done
}

if [ $# -eq 0 ]; then refuse "no rule is given"; fi
if [ "$1" != --rules ]; then
    check_rule "$@"
elif [ $# -eq 1 ]; then
    refuse "no file of rules is given"
else
    check_rules "${@:2}"
fi
