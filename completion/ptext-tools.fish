# Completion for fish of the tool that this file is named after, if the first in PATH is ptext's (libexec/ptext/bin).
# Otherwise fish's own file completes it.

set -l tool (string replace -r '^.*/(.*)\.fish$' '$1' -- (status filename))
if string match -q "*/ptext/bin/$tool" -- (realpath -- (command -s $tool; or echo /) 2>/dev/null)
    complete -c $tool -f -w "ptext $tool"
else if test -e "$__fish_data_dir/completions/$tool.fish"
    source "$__fish_data_dir/completions/$tool.fish"
end
