# plot FILE.., or plot < FILE. The program prints a line for each file.
case ${1:-} in
--) shift ;;
- | [!-]* | '') ;;
*) fail "there is no option $1; 'roadparsnip help plot' lists all." ;;
esac
if [ $# -eq 0 ]; then
    [ ! -t 0 ] || fail 'call it as roadparsnip plot FILE.., or as roadparsnip plot < FILE.'
    set -- -
fi
need_input "$@"

make_ready plot
# the links of names, where there are any, go with the program's end
trap '[ -z "$links" ] || rm -rf "$links"' EXIT
trap 'exit 2' HUP INT TERM
run_program "$@"
[ -z "$links" ] || rm -rf "$links"
trap - EXIT HUP INT TERM
count=$#
status=0
while IFS= read -r line; do
    case $line in
    unread)
        unread "$1"
        status=2
        ;;
    *)
        if [ "$count" -eq 1 ]; then printf '%s\n' "$line"; else printf '%s\t%s\n' "$line" "$1"; fi 2>/dev/null || fail 'the line could not be written.'
        [ "${line%% *}" -le 2 ] || [ "$status" -eq 2 ] || status=1
        ;;
    esac
    shift
done <<END
$answers
END
exit "$status"
