# Completion of workload(1) for fish.

complete -c workload -l threads -d 'Run a script on threads'
complete -c workload -l replies -d 'Show the reply of each line of a script'
complete -c workload -l input-lines -d 'Number the lines as in the input'
complete -c workload -l explain -d 'Explain a fault of the input'
complete -c workload -s h -l help -d 'Show a help text'
complete -c workload -s V -l version -d 'Show the version'
