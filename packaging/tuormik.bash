# Completion of tuormik's command lines, for bash. Commands, options and values are those that the tool's own help tells:
#
#     tuormik --help           a line a command: two spaces, its name of one or two words, two spaces or more, what it does
#     tuormik COMMAND --help   a line an option: two spaces, --option, its values, a comma and its short name; two spaces or more, or the
#                              end of the line. 'tuormik help TOPIC' stands there where more options are told elsewhere.
#
# A value is itself where it is in small letters (one|another where there are several), and a file's name where it ends in FILE or FOLDER.
# Other values are not completed; every other word is a file's name.

# The commands, one a line.
_tuormik_commands() {
    "$1" --help 2>/dev/null | sed -nE 's/^  ([a-z][a-z-]*( [a-z][a-z-]*)?)  +[^ ].*/\1/p'
}

# The help of a command, and those to which it leads.
_tuormik_help() {
    local text topic
    text=$("$@" --help 2>/dev/null)
    printf '%s\n' "$text"
    while read -ra topic; do
        "$1" help "${topic[@]}" 2>/dev/null
    done < <(sed -nE "s/.*'tuormik help ([a-z][a-z ]*)'.*/\1/p" <<<"$text")
}

# The options of a help, one a line with its values after it; under its short name too, if it has one.
_tuormik_options() {
    sed -nE '/^  --[a-z]/ { s/^  //; s/  .*//; /, -/ { h; s/, -.*//p; g; s/^[^ ]*(.*), (-.*)/\2\1/ }; p }'
}

# Offers those of the words, one a line, that go on with what is typed, and no file's name.
_tuormik_offer() {
    local typed=$1 word
    compopt +o default
    while read -r word; do
        [[ -n $word && $word == "$typed"* ]] && COMPREPLY+=("$word")
    done
}

# The next words of the commands that begin with those given.
_tuormik_next() {
    local commands=$1 given command
    shift
    given=${*:+$* }
    while read -r command; do
        [[ $command == "$given"* ]] && command=${command#"$given"} && echo "${command%% *}"
    done <<<"$commands"
}

# Offers what an option takes as its value in a place, counted from 1; fails where it takes none there.
_tuormik_offer_value() {
    local options=$1 typed=$2 option=$3 place=$4 fields values=()
    while read -ra fields; do
        [[ ${fields[0]-} == "$option" && -n ${fields[place]-} ]] && values+=("${fields[place]}")
    done <<<"$options"
    case ${values[*]-} in
    '') return 1 ;;
    *FILE | *FOLDER) ;;
    *[a-z]*) _tuormik_offer "$typed" < <(printf '%s\n' "${values[@]}" | tr '|' '\n') ;;
    *) _tuormik_offer "$typed" </dev/null ;;
    esac
}

_tuormik() {
    local IFS=$' \t\n' tool=${COMP_WORDS[0]/#\~\//$HOME/} typed=${COMP_WORDS[COMP_CWORD]} words=() word commands next command options back
    COMPREPLY=()
    # --option=value is three words here
    for word in "${COMP_WORDS[@]:1:COMP_CWORD-1}"; do
        [[ $word == = ]] || words+=("$word")
    done
    [[ $typed != = ]] || typed=

    commands=$(_tuormik_commands "$tool")
    if [[ ${words[0]-} == help ]]; then
        _tuormik_offer "$typed" < <(_tuormik_next "$commands" "${words[@]:1}")
        return
    fi
    next=$(_tuormik_next "$commands" "${words[@]}")
    if [[ ${#words[@]} -eq 0 || -n $next ]]; then
        _tuormik_offer "$typed" <<<"$next"
        return
    fi

    command=("${words[0]}")
    grep -qxF -- "${words[*]:0:2}" <<<"$commands" && command=("${words[@]:0:2}")
    options=$(_tuormik_help "$tool" "${command[@]}" | _tuormik_options)
    for ((back = 1; back < ${#words[@]}; back++)); do
        [[ ${words[-back]} == -* ]] || continue
        _tuormik_offer_value "$options" "$typed" "${words[-back]}" "$back" && return
        break
    done
    [[ $typed != -* ]] || _tuormik_offer "$typed" < <(cut -d ' ' -f 1 <<<"$options" | sort -u)
}

complete -o default -F _tuormik tuormik
