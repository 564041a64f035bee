# Completion of ptext-parts for fish: its steps and options, and the words of a tool as completion/ptext.fish has them.

# __ptext_parts_words: what can be at the cursor
function __ptext_parts_words
    set -l words (commandline -opc)[2..-1]
    set -l now (commandline -ct)
    set -l steps plan run whole
    if set -q words[1]
        set steps
        if contains -- $words[1] run whole
            __fish_complete_path $now
            return
        else if test $words[1] = plan
            set -q words[2]; or return
            set -e words[1..2]
        end
    end
    while set -q words[1]; and string match -qr '^-[ij]' -- $words[1]
        if string match -qr '^-.$' -- $words[1]
            if not set -q words[2]
                test $words[1] = -i; and __fish_complete_path $now
                return
            end
            set -e words[1]
        end
        set -e words[1]
    end
    printf '%s\n' $steps
    set -q words[1]; or printf '%s\n' -i\t'The file that is standard input' -j\t'Parts at a time' --help
    complete -C "ptext $(string escape -- $words | string join ' ') $now"
end

complete -c ptext-parts -f -a '(__ptext_parts_words)'
