#!/bin/bash
# Drives an application: client.sh SOURCE.json, then inputs on standard input, one a line.
# It prints what the program answers: of each input its edits and its report, or `refused`.
show=$(dirname "$(readlink -f "$0")")/../../show
coproc app { exec "$show" --stream; }
number=$app_PID

# Writes a line, and prints those that answer it: as many reports and refusals as are said.
ask() {
    left=$2
    { printf '%s\n' "$1" >&"${app[1]}"; } 2>/dev/null
    while [ "$left" -gt 0 ] && { IFS= read -r line <&"${app[0]}"; } 2>/dev/null; do
        printf '%s\n' "$line"
        case $line in
            "fault "*) left=0 ;;
            "report "* | refused) left=$((left - 1)) ;;
        esac
    done
}

# No text of JSON has a newline in it, so that one may be a space. The build has an answer, and so
# has each input that stands in the source.
ask "$(tr '\n' ' ' <"$1")" $((1 + $(jq '.inputs // [] | length' "$1")))
while IFS= read -r given; do ask "$given" 1; done
{ exec {app[1]}>&-; } 2>/dev/null
wait "$number"
