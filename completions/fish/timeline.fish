# Completion of timeline(1) for fish.

complete -c timeline -l text -d 'Draw in letters'
complete -c timeline -l explain -d 'Explain a refused report'
complete -c timeline -s h -l help -d 'Show a help text'
complete -c timeline -s V -l version -d 'Show the version'
