# Completes the words of atgis and atgis-many in fish: options and their values, the words of a query, and names of files.

# How many words before the cursor's are neither options nor their values.
function __atgis_count
    set -l count 0
    set -l is_value 0
    set -l is_end 0
    for word in (commandline -opc)[2..-1]
        if test $is_value = 1
            set is_value 0
        else if test $is_end = 0; and test "$word" = --
            set is_end 1
        else if test $is_end = 0; and contains -- $word --form --coords --digits --blocks --workers --feed --part --jobs \
                --journal --dask
            set is_value 1
        else if test $is_end = 1; or test "$word" = --faults; or not string match -q -- '-*' $word
            set count (math $count + 1)
        end
    end
    echo $count
end

# The texts that a query may go on as.
function __atgis_query
    set -l text (commandline -ct | string replace -r '^[\'"]' '' | string replace -ra '\\\\(.)' '$1')
    if not string match -q -- '* *' $text
        printf '%s\t%s\n' select 'the offsets at which features begin' count 'how many features there are' \
            area 'twice the area of all polygons' extent 'the least and greatest coordinates' \
            hull 'the corners of the convex hull' join 'the pairs of features of two files that meet'
        return
    end
    set -l before (string replace -r ' [^ ]*$' '' -- $text)
    set -l string '"([^"\\\\]|\\\\.)*"'
    set -l opened (string replace -ra '[^(]' '' -- $before | string length)
    set -l closed (string replace -ra '[^)]' '' -- $before | string length)
    set -l next
    if string match -qr '^(select|count|area|extent|hull|join)$' -- $before
        set next 'where in box(' 'where meets ' 'where has "'
    else if string match -qr ' (where|and)$' -- $before
        set next 'in box(' 'meets ' 'has "'
    else if string match -qr ' in$' -- $before
        set next 'box('
    else if string match -qr ' meets$' -- $before
        set next 'box(' {POINT,LINESTRING,POLYGON,MULTIPOINT,MULTILINESTRING,MULTIPOLYGON,GEOMETRYCOLLECTION}' ('
    else if string match -qr ' (has|=)$' -- $before
        set next '"'
    else if string match -qr " has $string\$" -- $before
        set next '= "'
    else if string match -qr " = $string\$" -- $before
        set next 'and in box(' 'and meets ' 'and has "'
    else if string match -qr '\)$' -- $before; and test "$opened" = "$closed"
        set next 'and in box(' 'and meets ' 'and has "'
    end
    for one in $next
        echo $before $one
    end
end

complete -c atgis -x -l form -a 'geojson wkt seq' -d 'the form of all files'
complete -c atgis -x -l coords -a 'exact round' -d 'refuse or round coordinates with more decimals'
complete -c atgis -x -l digits -a '7 9' -d 'how many decimals a coordinate has'
complete -c atgis -x -l blocks -a '1 16 64 256 1024 4096' -d 'how many pieces a file is cut into, 1 to 4096'
complete -c atgis -x -l workers -a '1 2 4 8 16 32 64' -d 'how many workers read at once, 1 to 64'
complete -c atgis -x -l feed -a '1 4096 65536 1048576' -d 'take a file in chunks of so many bytes, 1 to 1048576'
complete -c atgis -n 'test (__atgis_count) = 0' -f -a '(__atgis_query)'
complete -c atgis -n 'contains (__atgis_count) 1 2' -a '@in @w: @g:'
complete -c atgis -n 'test (__atgis_count) -gt 2' -f

complete -c atgis-many -x -l form -a 'geojson wkt seq lines' -d 'the form of all files'
complete -c atgis-many -x -l coords -a 'exact round' -d 'refuse or round coordinates with more decimals'
complete -c atgis-many -x -l digits -a '7 9' -d 'how many decimals a coordinate has'
complete -c atgis-many -x -l part -a '16M 64M 128M' -d 'how many bytes a part has'
complete -c atgis-many -x -l jobs -a '1 2 4 8 16 32 64' -d 'how many runs of atgis there are at once'
complete -c atgis-many -l each -d 'print the answer of each file'
complete -c atgis-many -l features -d 'print the features and not their offsets'
complete -c atgis-many -l faults -d 'print all faults of the files'
complete -c atgis-many -r -l journal -d 'keep the answers of parts in a file'
complete -c atgis-many -x -l dask -a 'tcp://' -d 'run on the machines of a Dask scheduler'
complete -c atgis-many -n 'test (__atgis_count) = 0' -f -a '(__atgis_query)'
