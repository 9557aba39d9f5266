# Completion of the Python commands' verbs, options and file names, for fish. Written by completions/write.py.
function __inrc2pb_help
    set -l words (commandline -opc)
    set -l first
    if string match -q '*inrc2pb-roster' -- $words[1]
        set first $words[2]
    else if string match -q '*inrc2pb-solve' -- $words[1]
        set first (string match -r -- '^--(?:inrc2|model|answer)$' $words)[-1]
    end
    command $words[1] $first --help 2> /dev/null
end
# The verb of inrc2pb-plan follows its folder.
function __inrc2pb_awaits_verb
    set -l words (commandline -opc)
    test (count $words) -eq (string match -q '*inrc2pb-plan' -- $words[1]; and echo 2; or echo 1)
end
for name in inrc2pb-plan inrc2pb-roster inrc2pb-solve
    complete -c $name -n 'string match -q -- "-*" (commandline -ct)' \
        -a '(__inrc2pb_help | string replace -rf "^ +(?:-h, )?(--[a-zA-Z0-9-]+).*" "\$1")'
end
for name in inrc2pb-plan inrc2pb-roster
    complete -c $name -n __inrc2pb_awaits_verb -f -a '(__inrc2pb_help | string replace -rf "^  ([a-z]+) .*" "\$1")'
end
