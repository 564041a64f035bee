# Completion of ptext for fish: the tools, the options of each, files, and the classes of tr. Options come before
# operands.

# __ptext_is TOOL..: whether the first word is one of these
function __ptext_is
    set -l words (commandline -opc)
    set -q words[2]; and contains -- $words[2] $argv
end

# __ptext_options TOOL..: whether the first word is one of these, and no operand is before the cursor
function __ptext_options
    __ptext_is $argv; or return
    set -l words (commandline -opc)
    set -l valued
    switch $words[2]
        case cut
            set valued bcdf
        case paste
            set valued d
        case join
            set valued 12aeotv
        case uniq
            set valued fs
    end
    set -l at 3
    while set -q words[$at]
        string match -qr '^-.' -- $words[$at]; and test $words[$at] != --; or return
        # A letter with a value at the end of a word takes the next word.
        if test -n "$valued"; and string match -qr "^-[^$valued]*[$valued]\$" -- $words[$at]
            set at (math $at + 1)
        end
        set at (math $at + 1)
    end
end

# __ptext_classes: where the word at the cursor ends in "[:" and letters, the classes that go on so
function __ptext_classes
    set -l front (string match -r '^[\'"]?(.*)\[:[a-z]*$' -- (commandline -ct))
    set -q front[2]; or return
    for class in alnum alpha blank cntrl digit graph lower print punct space upper xdigit
        echo $front[2]"[:$class:]"
    end
end

function __ptext_has_no_tool
    set -l words (commandline -opc)
    test (count $words) = 1
end

complete -c ptext -f
complete -c ptext -n __ptext_has_no_tool -a cut -d 'Select bytes or fields of each line'
complete -c ptext -n __ptext_has_no_tool -a paste -d 'Put lines side by side'
complete -c ptext -n __ptext_has_no_tool -a join -d 'Join lines of two files that have a field in common'
complete -c ptext -n __ptext_has_no_tool -a comm -d 'Show which lines two sorted files have in common'
complete -c ptext -n __ptext_has_no_tool -a uniq -d 'Write one line of each run of equal lines'
complete -c ptext -n __ptext_has_no_tool -a tr -d 'Replace, delete and squeeze bytes'
complete -c ptext -n '__ptext_is cut paste join comm uniq' -F
complete -c ptext -n '__ptext_options cut paste join comm uniq' -s z -d 'Lines end with byte 0'
complete -c ptext -n '__ptext_options comm join' -s r -d 'Descending order'

complete -c ptext -n '__ptext_options cut' -s b -x -d 'Select bytes'
complete -c ptext -n '__ptext_options cut' -s c -x -d 'Select characters'
complete -c ptext -n '__ptext_options cut' -s f -x -d 'Select fields'
complete -c ptext -n '__ptext_options cut' -s d -x -d 'The delimiter, one byte'
complete -c ptext -n '__ptext_options cut' -s n -d 'Changes nothing'
complete -c ptext -n '__ptext_options cut' -s s -d 'Leave out lines without the delimiter'

complete -c ptext -n '__ptext_options paste' -s d -x -d 'The delimiters'
complete -c ptext -n '__ptext_options paste' -s s -d 'One file after another'

complete -c ptext -n '__ptext_options join' -s a -x -a '1 2' -d 'Add lines of this file that pair with none'
complete -c ptext -n '__ptext_options join' -s v -x -a '1 2' -d 'Only lines of this file that pair with none'
complete -c ptext -n '__ptext_options join' -s e -x -d 'What fills empty fields'
complete -c ptext -n '__ptext_options join' -s o -x -d 'The fields that are written'
complete -c ptext -n '__ptext_options join' -s t -x -d 'The separator, one byte'
complete -c ptext -n '__ptext_options join' -s 1 -x -d 'The join field of the first file'
complete -c ptext -n '__ptext_options join' -s 2 -x -d 'The join field of the second file'

complete -c ptext -n '__ptext_options comm' -s 1 -d 'Without lines of the first file alone'
complete -c ptext -n '__ptext_options comm' -s 2 -d 'Without lines of the second file alone'
complete -c ptext -n '__ptext_options comm' -s 3 -d 'Without common lines'

complete -c ptext -n '__ptext_options uniq' -s c -d 'Counts before the lines'
complete -c ptext -n '__ptext_options uniq' -s d -d 'Only repeated lines'
complete -c ptext -n '__ptext_options uniq' -s u -d 'Only lines that are not repeated'
complete -c ptext -n '__ptext_options uniq' -s f -x -d 'Fields to ignore'
complete -c ptext -n '__ptext_options uniq' -s s -x -d 'Bytes to ignore'

complete -c ptext -n '__ptext_options tr' -s c -d 'The complement of the first string'
complete -c ptext -n '__ptext_options tr' -s C -d 'The complement of the first string'
complete -c ptext -n '__ptext_options tr' -s d -d 'Delete'
complete -c ptext -n '__ptext_options tr' -s s -d 'Squeeze repeats'
complete -c ptext -n '__ptext_is tr' -a '(__ptext_classes)'
