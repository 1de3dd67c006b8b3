# Why a file is refused, for each number that a run of a fresh machine on a whole image can answer.

# NUMBER: the reason.
reason() {
    case $1 in
    12) echo 'the file is shorter than two words, or than its header' ;;
    13) echo 'the tag, which is the first word, is not 1' ;;
    14) echo 'the number of segments is not 1 to 8' ;;
    15) echo 'a segment starts in the header, has more than 4,096 words or ends past the file' ;;
    18) echo 'the set of characters does not have 760 bytes' ;;
    19) echo 'the input ends in the middle of a word, or is longer than 65,536 bytes' ;;
    21) echo 'a word was to come from an odd address' ;;
    22) echo 'a word was to come from a segment that the file does not have' ;;
    23) echo 'a word was to come from past the end of its segment' ;;
    24) echo 'a word has a code that is not built' ;;
    25) echo 'a data word came before any mode was set' ;;
    26) echo 'the second word of a long vector or an absolute point has bit 15 set' ;;
    27) echo 'X or Y would go below -4,096 or above 4,095' ;;
    32) echo 'a character has a code that is not 32 to 126' ;;
    esac
}
