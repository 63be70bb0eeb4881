# This file tests each run that a page of transcripts/programs/ shows.

# Checks one run of the page. The arguments are the line at which the run ends, its input, its status, its output, the text of its
# file before it, its standard error, and the text of its file after it. With --unproved it writes the run down as a case for `rt try`.
run() {
    if [ -z "$unproved" ]; then
        rm -rf "$room/files/"*
        [ -z "$5" ] || printf %b "$5" >"$room/files/$file"
        serve "$2"
        check "$page:$1" "$3" "$4" "$6" "$7"
    elif [ -z "$file" ]; then
        printf %b "$2" >"$room/cases/$1"
        printf %b "$4" >"$room/cases/$1.stdout"
        echo "case=$1 run=ended status=$3 runners=. output=expected proved=no" >>"$room/wanted"
    fi
}

# Checks the run that was just read, if there is one.
page_run() {
    [ -z "$input" ] || run "$number" "$input" "${ended:-$([ -z "$errors" ] && echo 0 || echo 2)}" "$output" "$before" "$errors" "$after"
    input="" output="" errors="" ended="" file="" before="" after=""
}

# Checks all runs of the page. The first sign of a line says what the line is:
#
#   >   a line of input            !   a line of standard error
#   *   the status                 $   the name of the file
#   <   a line of the file before  =   a line of the file afterwards
#   ?   a bad line, which is tested with a line feed and without one
#
# Other lines after the input are the output. A blank line ends a run.
page_runs() {
    local line number=0 input="" output="" errors="" ended="" before="" after=""
    file=""
    while IFS= read -r line || [ -n "$line" ]; do
        number=$((number + 1))
        case "$line" in
        "? "*)
            line=${line#"? "}
            run "$number" "${line%\\c}\n" 2 "" "" "bad line 1; wanted:\n$listed" ""
            run "$number-without-feed" "${line%\\c}" 2 "" "" "bad line 1; wanted:\n$listed" ""
            ;;
        ">") input+="\n" ;;
        "> "*) input+="${line#"> "}\n" ;;
        "! "*) errors+="${line#"! "}\n$listed" ;;
        "* "*) ended=${line#"* "} ;;
        "$ "*) file=${line#"$ "} ;;
        "<") before+="\n" ;;
        "< "*) before+="${line#"< "}\n" ;;
        "=") after+="\n" ;;
        "= "*) after+="${line#"= "}\n" ;;
        "") page_run ;;
        *) [ -z "$input" ] || output+="$line\n" ;;
        esac
    done <"$page"
    page_run
}
