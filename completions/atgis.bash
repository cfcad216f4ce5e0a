# Completes the words of atgis and atgis-many in bash: options and their values, the words of a query, and names of files.
# A query of more than one word is completed in quotes, as in: atgis 'select where in <TAB>

# Splits the line up to the cursor: words are those before the cursor's, word is the cursor's without its quotes, quote
# is the quote that is open.
_atgis_split() {
    local line=${COMP_LINE:0:COMP_POINT} at one is_word=
    words=() word='' quote=''
    for ((at = 0; at < ${#line}; at++)); do
        one=${line:at:1}
        if [[ $quote && $one == "$quote" ]]; then
            quote=''
        elif [[ $one == "\\" && $quote != "'" ]]; then
            ((at++))
            word+=${line:at:1} is_word=1
        elif [[ $quote ]]; then
            word+=$one
        elif [[ $one == [\'\"] ]]; then
            quote=$one is_word=1
        elif [[ $one == [[:space:]] ]]; then
            if [[ $is_word ]]; then words+=("$word"); fi
            word='' is_word=
        else
            word+=$one is_word=1
        fi
    done
}

# The texts that a query may go on as.
_atgis_query() {
    local text=$1 string='"([^"\\]|\\.)*"' before brackets kind
    local kinds='POINT LINESTRING POLYGON MULTIPOINT MULTILINESTRING MULTIPOLYGON GEOMETRYCOLLECTION'
    if [[ $text != *' '* ]]; then
        printf '%s\n' select count area extent hull join
        return
    fi
    before=${text% *}
    brackets=${before//[^()]/}
    while [[ $brackets == *'()'* ]]; do brackets=${brackets//'()'/}; done
    case $before in
    select | count | area | extent | hull | join)
        printf '%s\n' "$before where in box(" "$before where meets " "$before where has \""
        ;;
    *' where' | *' and') printf '%s\n' "$before in box(" "$before meets " "$before has \"" ;;
    *' in') printf '%s\n' "$before box(" ;;
    *' meets')
        printf '%s\n' "$before box("
        for kind in $kinds; do printf '%s\n' "$before $kind ("; done
        ;;
    *' has' | *' =') printf '%s\n' "$before \"" ;;
    *)
        if [[ $before =~ \ has\ $string$ ]]; then
            printf '%s\n' "$before = \""
        elif [[ $before =~ \ =\ $string$ || ($before == *')' && ! $brackets) ]]; then
            printf '%s\n' "$before and in box(" "$before and meets " "$before and has \""
        fi
        ;;
    esac
}

_atgis() {
    local words word quote options='--form --coords --digits --blocks --workers --feed' flags='' count=0 most=3
    local forms='geojson wkt seq' at option='' head='' is_end=
    local -a found=()
    if [[ ${1##*/} == atgis-many ]]; then
        options='--form --coords --digits --part --jobs --journal --dask' flags='--each --features --faults'
        forms+=' lines' most=1000000
    fi
    _atgis_split
    for ((at = 1; at < ${#words[@]}; at++)); do
        if [[ $option ]]; then
            option=''
        elif [[ ! $is_end && ${words[at]} == -- ]]; then
            is_end=1
        elif [[ ! $is_end && " $options " == *" ${words[at]} "* ]]; then
            option=${words[at]}
        elif [[ $is_end || ${words[at]} != -* || ($flags && ${words[at]} == --faults) ]]; then
            ((count++))
        fi
    done
    if [[ ! $option && ! $is_end && $word == --*=* ]]; then
        option=${word%%=*} head=$option=
    fi
    case $option in
    --form) mapfile -t found < <(compgen -W "$forms") ;;
    --coords) found=(exact round) ;;
    --digits) found=(7 9) ;;
    --blocks) found=(1 16 64 256 1024 4096) ;;
    --workers) found=(1 2 4 8 16 32 64) ;;
    --feed) found=(1 4096 65536 1048576) ;;
    --part) found=(16M 64M 128M) ;;
    --jobs) found=(1 2 4 8 16 32 64) ;;
    --journal) mapfile -t found < <(compgen -f -- "$word") ;;
    --dask) found=(tcp://) ;;
    *)
        if [[ ! $is_end && $word == -* ]]; then
            mapfile -t found < <(compgen -W "$options $flags --")
        elif ((count == 0)); then
            mapfile -t found < <(_atgis_query "$word")
        elif ((count < most)); then
            mapfile -t found < <(compgen -f -- "$word")
            if [[ $word == @* && ! $flags ]]; then found+=(@in @w: @g:); else compopt -o filenames 2>/dev/null; fi
        fi
        ;;
    esac
    _atgis_reply "$2"
}

# Replies with what begins as the word does, less the part of it that the shell keeps as it stands. A single reply would
# end the open quotes of a query, so it gets a second one beside it.
_atgis_reply() {
    local kept=${word%"$1"} one
    COMPREPLY=()
    for one in "${found[@]}"; do
        if [[ $head$one == "$word"* ]]; then
            one=$head$one
            COMPREPLY+=("${one#"$kept"}")
        fi
    done
    if [[ ${#COMPREPLY[@]} -ne 1 ]]; then return; fi
    if [[ $quote && ${COMPREPLY[0]} == *[\(\"\ ] ]]; then COMPREPLY+=("${COMPREPLY[0]}...");
    elif [[ ${COMPREPLY[0]} == *: ]]; then compopt -o nospace 2>/dev/null; fi
}

complete -F _atgis atgis atgis-many
