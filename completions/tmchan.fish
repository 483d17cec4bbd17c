# Completions of tmchan for fish. tests/manual compares them with the program.

set -l commands encode decode report trace bits erased certify check word soak
set -l first "not __fish_seen_subcommand_from $commands"
set -l any "__fish_seen_subcommand_from $commands"

complete -c tmchan -f

complete -c tmchan -n $first -a encode -d 'transfer frames to CADUs or symbols'
complete -c tmchan -n $first -a decode -d 'soft symbols to frames, with a report'
complete -c tmchan -n $first -a report -d 'the report alone'
complete -c tmchan -n $first -a trace -d 'the windows of the soft decoder'
complete -c tmchan -n $first -a bits -d 'the received bits, eight an octet'
complete -c tmchan -n $first -a erased -d 'words with erased symbols to codewords'
complete -c tmchan -n $first -a certify -d 'a certificate of what the soft decoder finds'
complete -c tmchan -n $first -a check -d 'a certificate, tested without the decoder'
complete -c tmchan -n $first -a word -d 'one word in hexadecimal to the nearest codeword'
complete -c tmchan -n $first -a soak -d 'generated frames through both ends'

complete -c tmchan -n $any -l code -x -a 'rs16 rs8 none' -d 'outer code'
complete -c tmchan -n $any -l depth -x -a '1 2 3 4 5 8' -d 'interleaving depth'
complete -c tmchan -n $any -l length -x -d 'octets of a frame'
complete -c tmchan -n $any -l inner -x -a 'none 1/2 2/3 3/4 5/6 7/8' -d 'rate of the convolutional code'
complete -c tmchan -n $any -l invert -x -a 'on off' -d 'second sums sent inverted'
complete -c tmchan -n $any -l randomize -x -a 'on off' -d 'pseudo-randomizer'
complete -c tmchan -n $any -l basis -x -a 'dual poly' -d 'symbols of the outer code'
complete -c tmchan -n $any -l tolerance -x -d 'wrong bits with which a marker matches'
complete -c tmchan -n $any -l repair -x -d 'wrong symbols of a codeword that are repaired'
complete -c tmchan -n $any -l soft -x -a 'u8 i8' -d 'octets of a symbol'
complete -c tmchan -n $any -l start -x -a 'zero any' -d 'first register of the convolutional code'
complete -c tmchan -n $any -l skip -x -d 'symbols that are dropped first'
complete -c tmchan -n $any -l workers -x -d 'workers that decode side by side'
complete -c tmchan -n $any -l limit -x -d 'octets that are read at most'
complete -c tmchan -n $any -l fly -x -d 'places in a row taken without a marker'
complete -c tmchan -n $any -l keep -x -d 'steps of a window that are kept'
complete -c tmchan -n $any -l ahead -x -d 'steps a window looks ahead'
complete -c tmchan -n $any -l phase -x -a 'given find follow' -d 'symbol at which the pattern begins'
complete -c tmchan -n $any -l polarity -x -a 'given find' -d 'inverted markers'
complete -c tmchan -n $any -l batch -x -d 'codeblocks that are repaired and handed over at once'
complete -c tmchan -n $any -l pack -x -a 'on off' -d 'eight bits an octet without an inner code'
complete -c tmchan -n $any -l verify -x -d 'further markers that verify a place'
complete -c tmchan -n $any -l rescan -x -a 'on off' -d 'markers inside codeblocks too'
complete -c tmchan -n $any -l bad -x -a 'drop pass' -d 'frames with an uncorrectable column'

complete -c tmchan -n '__fish_seen_subcommand_from soak' -l seed -x -d 'seed of the generator'
complete -c tmchan -n '__fish_seen_subcommand_from soak' -l frames -x -d 'frames that are generated'
complete -c tmchan -n '__fish_seen_subcommand_from soak' -l hits -x -d 'symbols of each codeword that are changed'
