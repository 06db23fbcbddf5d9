# Completion of whatif for fish: put this file into ~/.config/fish/completions.

set -l commands report explain sweep slack rescue ends failures try compare draw page check serve console export many import fleet new help

# The words after the command that are no options and no option's value.
function __whatif_places
    set -l words (commandline -opc)
    set -l found
    set -l at 2
    while test $at -le (count $words)
        switch $words[$at]
            case --top --want --within --by --as --workers --trace --unit --stage --origin --what --format
                set at (math $at + 1)
            case '-?*'
            case '*'
                set -a found $words[$at]
        end
        set at (math $at + 1)
    end
    string join \n -- $found[2..-1]
end

function __whatif_has_places
    test (count (__whatif_places)) -eq $argv[1]
end

# The stages of the recording in a file, as `report` names them.
function __whatif_stages
    set -l whatif (commandline -opc)[1]
    set -l file (__whatif_places)[1]
    test -f "$file"; and env WHATIF_NO_BUILD=1 $whatif report $file 2>/dev/null | string replace -r ' .*' '' | tail -n +2
end

# The ids of the traces in a file, as `import --list` names them.
function __whatif_traces
    set -l whatif (commandline -opc)[1]
    set -l file (__whatif_places)[1]
    test -f "$file"; and env WHATIF_NO_BUILD=1 $whatif import --list $file 2>/dev/null | string replace -r ' .*' ''
end

complete -c whatif -f
complete -c whatif -n "not __fish_seen_subcommand_from $commands" -a report -d 'Print each stage of a recording'
complete -c whatif -n "not __fish_seen_subcommand_from $commands" -a explain -d 'Print how a stage ended, and why it is late or pending'
complete -c whatif -n "not __fish_seen_subcommand_from $commands" -a sweep -d 'Print which stages would make a stage complete sooner'
complete -c whatif -n "not __fish_seen_subcommand_from $commands" -a slack -d 'Print how many ticks longer each stage may run before a stage completes otherwise'
complete -c whatif -n "not __fish_seen_subcommand_from $commands" -a rescue -d 'Print which single changes would have made a stage complete with a value'
complete -c whatif -n "not __fish_seen_subcommand_from $commands" -a ends -d 'Print what came of each timeout, and of each call that completes or cancels a stage'
complete -c whatif -n "not __fish_seen_subcommand_from $commands" -a failures -d 'Print where each failure arose, which stages it reached, and which did not hand it on'
complete -c whatif -n "not __fish_seen_subcommand_from $commands" -a try -d 'Print what would come of changes, made together'
complete -c whatif -n "not __fish_seen_subcommand_from $commands" -a compare -d 'Print what made a stage late in one run that was not late in another'
complete -c whatif -n "not __fish_seen_subcommand_from $commands" -a draw -d 'Write a picture of a recording'
complete -c whatif -n "not __fish_seen_subcommand_from $commands" -a page -d 'Write a page that tells of a recording, for the ticket of an incident'
complete -c whatif -n "not __fish_seen_subcommand_from $commands" -a check -d 'Print every fault of a recording'
complete -c whatif -n "not __fish_seen_subcommand_from $commands" -a serve -d 'Answer the steps that come on standard input'
complete -c whatif -n "not __fish_seen_subcommand_from $commands" -a console -d 'Answer the lines that a person says'
complete -c whatif -n "not __fish_seen_subcommand_from $commands" -a export -d 'Write the version that a script made last, as a recording'
complete -c whatif -n "not __fish_seen_subcommand_from $commands" -a many -d 'Answer several scripts at once'
complete -c whatif -n "not __fish_seen_subcommand_from $commands" -a import -d 'Write the recording that a trace makes'
complete -c whatif -n "not __fish_seen_subcommand_from $commands" -a fleet -d 'Print what many traces came to'
complete -c whatif -n "not __fish_seen_subcommand_from $commands" -a new -d 'Print a recording to begin with'
complete -c whatif -n "not __fish_seen_subcommand_from $commands" -a help -d 'Print help'
complete -c whatif -n "not __fish_seen_subcommand_from help" -s h -l help -d 'Print help'
complete -c whatif -n "not __fish_seen_subcommand_from $commands" -s V -l version -d 'Print the version'

complete -c whatif -n "__fish_seen_subcommand_from report explain sweep slack rescue ends failures try compare draw page check serve console export import; and __whatif_has_places 0" -F
complete -c whatif -n "__fish_seen_subcommand_from fleet" -F
complete -c whatif -n "__fish_seen_subcommand_from compare page export; and __whatif_has_places 1" -F
complete -c whatif -n "__fish_seen_subcommand_from explain sweep slack rescue try; and __whatif_has_places 1" -a '(__whatif_stages)'
complete -c whatif -n "__fish_seen_subcommand_from compare; and __whatif_has_places 2" -a '(__whatif_stages)'
complete -c whatif -n "__fish_seen_subcommand_from sweep" -l top -x -d 'Print the first N stages alone'
complete -c whatif -n "__fish_seen_subcommand_from sweep" -l want -x -a value -d 'Print the stages alone by which the stage then completes with a value'
complete -c whatif -n "__fish_seen_subcommand_from sweep" -l queued -d 'Make the queues alone shorter'
complete -c whatif -n "__fish_seen_subcommand_from sweep" -l by -x -d 'Leave P percent of the times'
complete -c whatif -n "__fish_seen_subcommand_from slack" -l within -x -d 'Print the stages alone that may run no more than D ticks longer'
complete -c whatif -n "__fish_seen_subcommand_from rescue" -l by -x -d 'The tick by which the stage is to have a value'
complete -c whatif -n "__fish_seen_subcommand_from rescue" -l as -x -d 'The value that stands in place of an exception'
complete -c whatif -n "__fish_seen_subcommand_from rescue" -l top -x -d 'Print the first N changes alone'
complete -c whatif -n "__fish_seen_subcommand_from failures" -l origin -x -a '(__whatif_stages)' -d 'Print the failure that arose in this stage alone'
complete -c whatif -n "__fish_seen_subcommand_from report explain sweep slack rescue ends failures try compare draw page serve console export many import fleet" -l quiet -d 'Leave explanations and warnings out'
complete -c whatif -n "__fish_seen_subcommand_from report explain sweep slack rescue ends failures try compare draw page check serve console export many" -l strict -d 'End with status 1 where there is a warning'
complete -c whatif -n "__fish_seen_subcommand_from fleet" -l strict -d 'End with status 1 at the first trace that is not counted'
complete -c whatif -n "__fish_seen_subcommand_from try" -l stage -x -a '(__whatif_stages)' -d 'Tell what comes of it for this stage'
complete -c whatif -n "__fish_seen_subcommand_from try" -l save -d 'Write the recording that the changes make'
complete -c whatif -n "__fish_seen_subcommand_from try" -l draw -d 'Write a picture of what the changes make'
complete -c whatif -n "__fish_seen_subcommand_from draw" -l stage -x -a '(__whatif_stages)' -d 'Draw the path of this stage'
complete -c whatif -n "__fish_seen_subcommand_from draw" -l what -x -a 'all path' -d 'Which stages have a row'
complete -c whatif -n "__fish_seen_subcommand_from page" -l stage -x -a '(__whatif_stages)' -d 'The stage that the page is about'
complete -c whatif -n "__fish_seen_subcommand_from draw" -l from -x -d 'The first tick that is drawn'
complete -c whatif -n "__fish_seen_subcommand_from draw" -l to -x -d 'The last tick that is drawn'
complete -c whatif -n "__fish_seen_subcommand_from draw" -l min -x -d 'Leave out the stages that took less'
complete -c whatif -n "__fish_seen_subcommand_from draw" -l group -x -a 'service' -d 'By what rows stand together'
complete -c whatif -n "__fish_seen_subcommand_from draw" -l script -r -F -d 'Draw the version that a script makes'
complete -c whatif -n "__fish_seen_subcommand_from draw" -l version -x -d 'Which of its versions is drawn'
complete -c whatif -n "__fish_seen_subcommand_from draw" -l format -x -a 'svg trace' -d 'An SVG file, or trace events'
complete -c whatif -n "__fish_seen_subcommand_from report explain sweep slack rescue ends failures try compare serve many import fleet" -l format -x -a 'text json' -d 'Text for people, or JSON for programs'
complete -c whatif -n "__fish_seen_subcommand_from many" -F
complete -c whatif -n "__fish_seen_subcommand_from console" -l steps -d 'Print the steps that the lines say, as a script'
complete -c whatif -n "__fish_seen_subcommand_from many" -l workers -x -a '(seq 16)' -d 'How many threads compute for each script'
complete -c whatif -n "__fish_seen_subcommand_from import" -l list -d 'Print which traces the file has'
complete -c whatif -n "__fish_seen_subcommand_from import" -l each -d 'Write the recording of every trace, each on one line'
complete -c whatif -n "__fish_seen_subcommand_from import" -l trace -x -a '(__whatif_traces)' -d 'Which trace, where the file has several'
complete -c whatif -n "__fish_seen_subcommand_from import fleet" -l unit -x -a 'us ns ms' -d 'The unit of ticks'
complete -c whatif -n "__fish_seen_subcommand_from import fleet" -l clocks -x -a 'inferred as-told' -d 'Whether clocks that a trace contradicts are moved'
complete -c whatif -n "__fish_seen_subcommand_from import fleet" -l calls -x -a 'inferred as-told' -d 'Whether calls may have been tried again or given up'
complete -c whatif -n "__fish_seen_subcommand_from fleet" -l reply -x -d 'The span whose end is the reply of its trace'
complete -c whatif -n "__fish_seen_subcommand_from fleet" -l by -x -a 'span service' -d 'By what spans are counted together'
complete -c whatif -n "__fish_seen_subcommand_from fleet" -l try -x -d 'Print what the replies come to where a change is made to a group'
complete -c whatif -n "__fish_seen_subcommand_from fleet" -l slowest -x -d 'Print what each group did for the slowest P percent'
complete -c whatif -n "__fish_seen_subcommand_from fleet" -l workers -x -a '(seq 16)' -d 'How many threads count at once'
complete -c whatif -n "__fish_seen_subcommand_from fleet" -l part -d 'Write the summary in place of the answer'
complete -c whatif -n "__fish_seen_subcommand_from fleet" -l join -d 'The files hold summaries'
complete -c whatif -n "__fish_seen_subcommand_from new; and __whatif_has_places 0" -a 'first timeout timer retry fallback breaker cache queue race batch'
complete -c whatif -n "__fish_seen_subcommand_from help; and __whatif_has_places 0" -a "$commands"
