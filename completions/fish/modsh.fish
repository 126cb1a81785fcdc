# Completion of modsh(1) for fish.

complete -c modsh -f -a "catalogue=\t'Descriptions of modules' dep=\t'Lines of modules.dep' alias=\t'Lines of modules.alias' conf=\t'Lines of modprobe.d'"
complete -c modsh -n "string match -q '*=*' -- (commandline -ct)" -F
complete -c modsh -l workers -x -d 'How many workers the session has'
complete -c modsh -l explain -d 'Explain more on standard error'
complete -c modsh -l fail -d 'End with status 1 if a reply was an error'
complete -c modsh -l lint -d 'List lines without effect or about nothing'
complete -c modsh -s h -l help -d 'Show a help text'
complete -c modsh -s V -l version -d 'Show the version'
