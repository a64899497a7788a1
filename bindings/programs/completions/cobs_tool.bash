# bash completion for cobs_tool
complete -W 'show encode decode' cobs_tool
