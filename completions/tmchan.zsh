#compdef tmchan
# Completions of tmchan for zsh. tests/manual compares them with the program.

local -a commands options soak_options

commands=(
    'encode:transfer frames to CADUs or symbols'
    'decode:soft symbols to frames, with a report'
    'report:the report alone'
    'trace:the windows of the soft decoder'
    'bits:the received bits, eight an octet'
    'erased:words with erased symbols to codewords'
    'certify:a certificate of what the soft decoder finds'
    'check:a certificate, tested without the decoder'
    'word:one word in hexadecimal to the nearest codeword'
    'soak:generated frames through both ends'
)

options=(
    '--code=[outer code]:code:(rs16 rs8 none)'
    '--depth=[interleaving depth]:depth:(1 2 3 4 5 8)'
    '--length=[octets of a frame]:octets: '
    '--inner=[rate of the convolutional code]:rate:(none 1/2 2/3 3/4 5/6 7/8)'
    '--invert=[second sums sent inverted]:switch:(on off)'
    '--randomize=[pseudo-randomizer]:switch:(on off)'
    '--basis=[symbols of the outer code]:basis:(dual poly)'
    '--tolerance=[wrong bits with which a marker matches]:bits 0 to 8: '
    '--repair=[wrong symbols of a codeword that are repaired]:symbols: '
    '--soft=[octets of a symbol]:form:(u8 i8)'
    '--start=[first register of the convolutional code]:start:(zero any)'
    '--skip=[symbols that are dropped first]:symbols 0 to 15: '
    '--workers=[workers that decode side by side]:workers 1 to 64: '
    '--limit=[octets that are read at most]:octets: '
    '--fly=[places in a row taken without a marker]:places 0 to 15: '
    '--keep=[steps of a window that are kept]:steps 64 to 65536: '
    '--ahead=[steps a window looks ahead]:steps 0 to 4096: '
    '--phase=[symbol at which the pattern begins]:phase:(given find follow)'
    '--polarity=[inverted markers]:polarity:(given find)'
    '--batch=[codeblocks that are repaired and handed over at once]:codeblocks 1 to 4096: '
    '--pack=[eight bits an octet without an inner code]:switch:(on off)'
    '--verify=[further markers that verify a place]:markers 0 to 7: '
    '--rescan=[markers inside codeblocks too]:switch:(on off)'
    '--bad=[frames with an uncorrectable column]:frames:(drop pass)'
)

soak_options=(
    '--seed=[seed of the generator]:seed: '
    '--frames=[frames that are generated]:frames 0 to 1000000: '
    '--hits=[symbols of each codeword that are changed]:symbols: '
)

if (( CURRENT == 2 )); then
    _describe -t commands command commands
else
    shift words
    (( CURRENT-- ))
    case $words[1] in
    soak) _arguments $options $soak_options ;;
    word) _arguments $options ':word in hexadecimal: ' ;;
    encode | decode | report | trace | bits | erased | certify | check) _arguments $options ;;
    esac
fi
