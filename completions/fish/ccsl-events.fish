# Completions of ccsl-events for fish: lay this file into ~/.config/fish/completions.

# the keys that do not stand in the line yet
function __ccsl_events_keys
    set -l line (commandline -opc)
    for key in events trace out gaps
        string match -q -- "$key=*" $line; or echo "$key="
    end
end

# KEY=FILE for the files with an ending, and the folders
function __ccsl_events_files
    set -l value (string replace -r "^$argv[1]=" "" -- (commandline -ct))
    for name in (__fish_complete_path $value | string replace -r "\t.*" "")
        if string match -qr "(/|$argv[2])\$" -- $name
            echo "$argv[1]=$name"
        end
    end
end

complete -c ccsl-events -f
complete -c ccsl-events -a "(__ccsl_events_keys)"
complete -c ccsl-events -a "gaps=skip"
complete -c ccsl-events -n "string match -q 'events=*' -- (commandline -ct)" -a "(__ccsl_events_files events .events)"
complete -c ccsl-events -n "string match -q 'trace=*' -- (commandline -ct)" -a "(__ccsl_events_files trace .vcd)"
complete -c ccsl-events -n "string match -q 'out=*' -- (commandline -ct)" -a "(__ccsl_events_files out .vcd)"
