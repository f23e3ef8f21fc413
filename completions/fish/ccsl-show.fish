# Completions of ccsl-show for fish: lay this file into ~/.config/fish/completions.

function __ccsl_show_has_no_command
    test (count (commandline -opc)) -eq 1
end

function __ccsl_show_command_is
    set -l words (commandline -opc)
    test (count $words) -ge 2; and contains -- $words[2] $argv
end

# the keys that do not stand in the line yet
function __ccsl_show_keys
    set -l line (commandline -opc)
    for key in $argv
        string match -q -- "$key=*" $line; or echo "$key="
    end
end

# KEY=FILE for the files with an ending, and the folders
function __ccsl_show_files
    set -l value (string replace -r "^$argv[1]=" "" -- (commandline -ct))
    for name in (__fish_complete_path $value | string replace -r "\t.*" "")
        if string match -qr "(/|$argv[2])\$" -- $name
            echo "$argv[1]=$name"
        end
    end
end

complete -c ccsl-show -f
complete -c ccsl-show -n __ccsl_show_has_no_command -a help -d "Say what the program takes"
complete -c ccsl-show -n __ccsl_show_has_no_command -a check -d "Say whether a specification is accepted"
complete -c ccsl-show -n __ccsl_show_has_no_command -a simulate -d "Make a run of a specification"
complete -c ccsl-show -n __ccsl_show_has_no_command -a certify -d "Say whether no step is left behind a trace"
complete -c ccsl-show -n __ccsl_show_has_no_command -a trial -d "Simulate and judge a chain of clocks"
complete -c ccsl-show -n __ccsl_show_has_no_command -a periodic -d "Say whether a relation holds between two filters"
complete -c ccsl-show -n __ccsl_show_has_no_command -a judge -d "Say whether a trace is a run of a specification"
complete -c ccsl-show -n __ccsl_show_has_no_command -a explain -d "Say which items block every step behind a trace"
complete -c ccsl-show -n __ccsl_show_has_no_command -a session -d "Try a specification step by step"
complete -c ccsl-show -n "__ccsl_show_command_is check" -a "(__ccsl_show_keys spec color)"
complete -c ccsl-show -n "__ccsl_show_command_is simulate" -a "(__ccsl_show_keys spec policy seed steps trace cert)"
complete -c ccsl-show -n "__ccsl_show_command_is judge" -a "(__ccsl_show_keys spec trace workers waves picture color)"
complete -c ccsl-show -n "__ccsl_show_command_is certify" -a "(__ccsl_show_keys spec trace cert waves picture color)"
complete -c ccsl-show -n "__ccsl_show_command_is explain" -a "(__ccsl_show_keys spec trace cert waves picture color)"
complete -c ccsl-show -n "__ccsl_show_command_is session" -a "(__ccsl_show_keys spec policy seed)"
complete -c ccsl-show -n "__ccsl_show_command_is periodic" -a "(__ccsl_show_keys left right relation)"
complete -c ccsl-show -n "__ccsl_show_command_is periodic" -a "relation=precedes relation=subclock relation=excludes relation=on"
complete -c ccsl-show -n "__ccsl_show_command_is trial" -a "(__ccsl_show_keys clocks steps seed workers)"
complete -c ccsl-show -n "__ccsl_show_command_is simulate session" -a "policy=min policy=max policy=seeded"
complete -c ccsl-show -n "__ccsl_show_command_is check judge certify explain" -a "color=always color=never color=auto"
complete -c ccsl-show -n "__ccsl_show_command_is check simulate judge certify explain session; and string match -q 'spec=*' -- (commandline -ct)" \
    -a "(__ccsl_show_files spec .ccsl)"
complete -c ccsl-show -n "__ccsl_show_command_is simulate judge certify explain; and string match -q 'trace=*' -- (commandline -ct)" \
    -a "(__ccsl_show_files trace .vcd)"
complete -c ccsl-show -n "__ccsl_show_command_is simulate certify explain; and string match -q 'cert=*' -- (commandline -ct)" \
    -a "(__ccsl_show_files cert .cert)"
complete -c ccsl-show -n "__ccsl_show_command_is judge certify explain; and string match -q 'waves=*' -- (commandline -ct)" \
    -a "(__ccsl_show_files waves .vcd)"
complete -c ccsl-show -n "__ccsl_show_command_is judge certify explain; and string match -q 'picture=*' -- (commandline -ct)" \
    -a "(__ccsl_show_files picture .svg)"
