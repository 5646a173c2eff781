# What bin/score and bin/parts/score-row share: the rows of the table.
# shellcheck shell=bash disable=SC2034
export LC_ALL=C

# Sets `text` to a text as JSON writes it.
json_text() {
    local place char code
    text=${1//\\/\\\\}
    text=${text//\"/\\\"}
    if [[ $text == *[[:cntrl:]]* ]]; then
        for place in {1..31} 127; do
            printf -v code '\\0%03o' "$place"
            printf -v char %b "$code"
            printf -v code '\\u%04x' "$place"
            text=${text//"$char"/"$code"}
        done
    fi
    text=\"$text\"
}

# Sets `fields` to the fields of a line, between tabs; some may be empty.
split_fields() {
    local rest=$1
    fields=()
    while [[ $rest == *$'\t'* ]]; do
        fields+=("${rest%%$'\t'*}")
        rest=${rest#*$'\t'}
    done
    fields+=("$rest")
}

# Sets `head` to what a row begins with: row_head FORMAT NUMBER DOMAIN PROBLEM PLAN.
row_head() {
    if [ "$1" = json ]; then
        local text key
        head="{\"line\":$2"
        for key in domain problem plan; do
            json_text "$3"
            head+=",\"$key\":$text"
            shift
        done
        head+=','
    else
        printf -v head '%s\t' "${@:2:4}"
    fi
}

# Sets `tail` to what a row ends with, while no best value is known: row_tail FORMAT DIRECTION BY.
row_tail() {
    if [ "$1" = json ]; then
        local text
        json_text "$3"
        tail="\"direction\":${2:+\"}${2:-null}${2:+\"},\"best\":null,\"score\":null,\"by\":$text}"
    else
        tail=$2$'\t\t\t'$3
    fi
}

# Sets `row` to the row of a line that was not judged: bare_row FORMAT HEAD STATUS VERDICT BY.
bare_row() {
    local tail text
    row_tail "$1" '' "$5"
    if [ "$1" = json ]; then
        json_text "$4"
        row="$2\"status\":$3,\"verdict\":$text,\"steps\":null,\"cost\":null,\"metric\":null,\"violated\":{},$tail"
    else
        row="$2$3"$'\t'"$4"$'\t\t\t\t\t'"$tail"
    fi
}
