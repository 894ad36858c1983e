# Rows of suite/notices, which sources this: the program over sockets.

# sockets
export PATIENCE=3
sockets=$top/suite/sockets
passes 'sockets' "$sockets" "$right" captures=echo_dcmtk,two_hospitals loopback=two_hospitals many resets half deaf exits console \
    file repeats listen browser artim peers
passes 'callers of the console' "$sockets" "$right" callers
passes 'between pages' env PATIENCE=20 "$sockets" "$right" between
notices 'pages that are found anew' 'images: what was there when it began' env PATIENCE=20 "$sockets" \
    "$(server pages-found-anew)" between=images
for one in captures=echo_dcmtk histories pages between many shares deaf resets half long=1000000 stops=1 repeats idle listen console file callers \
    browser artim peers quiet log; do
    notices "sockets: stops_at_once: $one" "${one%=*}" "$sockets" "$stops_at_once" $one
    notices "a server that stops: $one" '' "$sockets" "$(server "socket-stops-at:$([ $one = listen ] && echo 1 || echo 3)")" $one
done
notices 'sockets: stops_at_once: exits' 'serve --port' "$sockets" "$stops_at_once" exits
for one in prints_nothing prints_half stops_half_way fails_at_the_end tells_more; do
    notices "loopback: $one" 'loopback of two_hospitals' "$sockets" "${!one}" loopback=two_hospitals
done
notices 'an answer that lacks an octet' 'echo_dcmtk: ' "$sockets" "$(server socket-drops-an-octet)" captures=echo_dcmtk
notices 'an answer to another connection' 'two_hospitals: ' "$sockets" "$(server socket-answers-another)" captures=two_hospitals
notices 'connections that stay open' 'echo_dcmtk: ' "$sockets" "$(server socket-never-closes)" captures=echo_dcmtk
notices 'answers that are dropped where they wait' deaf "$sockets" "$(server socket-drops-what-waits)" deaf
notices 'a server that waits for one' deaf "$sockets" "$(server socket-waits-for-one)" deaf
notices 'a server that holds 32' many "$sockets" "$(server socket-holds:32)" many
notices 'a server that holds 100' 'a 65th is not served' "$sockets" "$(server socket-holds:100)" many
notices 'a server that answers one hospital first' 'it waits for few of them' env PATIENCE=20 "$sockets" "$right" shares
notices 'a close that loses the last PDU' 'who goes on sending' "$sockets" "$right" lingering
notices 'a server that a reset stops' 'resets: it goes on' "$sockets" "$(server socket-stops-at-a-reset)" resets
notices 'associations that outlast their connection' half "$sockets" "$(server socket-keeps-what-ended)" half
notices 'a server that spins' 'idle without connections' "$sockets" "$(server socket-spins)" idle
notices 'rows that are kept after the answer' SIG "$sockets" "$(server socket-forgets)" stops=1
notices 'another exit status' 'SIGTERM 0: the exit status' "$sockets" "$(server socket-ends-with:0)" stops=1
notices 'orders that are answered and forgotten' 'an open association sees it' "$sockets" \
    "$(server console-forgets-orders)" console
notices 'a caller that stays after a bad line' "the line b''" "$sockets" "$(server console-goes-on)" console
notices 'a longest line that is lost to the next one' 'a line of the greatest length, with the next line' "$sockets" \
    "$(server console-cuts-long-lines)" console
notices 'a shorter line that is the longest' 'an entry of the greatest length, with the next line' "$sockets" \
    "$(server console-line-of:2097000)" console
notices 'a longer line that is taken' 'a line that is longer, with the next line' "$sockets" "$(server console-line-of:2097410)" console
notices 'a console for everybody' "the console's file is its owner's alone" "$sockets" "$(server console-for-all)" file
notices 'a console that is taken from another server' 'a console that is in use' "$sockets" "$(server console-takes:use)" file
notices 'a file that is no socket, and is taken away' 'a console at a file that is no socket' "$sockets" \
    "$(server console-takes:file)" file
notices 'a socket that was left behind, and stays' file "$sockets" "$(server console-takes:nothing)" file
notices 'a hundred callers' 'a ninth caller waits' "$sockets" "$(server console-holds:100)" callers
notices 'a caller that is silent for long' 'callers that are silent for a minute' "$sockets" "$(server console-waits:90)" callers
notices 'a caller that is let go soon' 'callers that are silent for a minute' "$sockets" "$(server console-waits:40)" callers
if command -v curl > "$work/nothing"; then
    notices 'a POST that orders' 'a POST changes nothing' "$sockets" "$(server console-goes-on)" browser
fi
notices 'repeats that find nothing kept' 'an N-CREATE, turn 1' "$sockets" "$(server socket-forgets)" repeats
# unheard OPTION COUNT: the built program without an option, which has so many words
unheard() {
    around "unheard_${1#--}" "$(printf 'words=(); while [ $# -gt 0 ]; do
        if [ "$1" = %s ]; then shift %s; else words+=("$1"); shift; fi; done; exec "$program" "${words[@]}"' "$1" "$2")"
}
notices 'silent connections that are kept' 'an association that is silent is given up' env PATIENCE=20 "$sockets" \
    "$(unheard --quiet 2)" quiet
notices 'an association that nobody asks for in time' 'a modality beside' "$sockets" "$(unheard --artim 2)" artim
notices 'an ARTIM timer of any time' '0 is never' "$sockets" "$(around artim_of_2 'words=("$@"); for at in "${!words[@]}"; do
    [ "${words[$at]}" != --artim ] || words[$((at + 1))]=2; done; exec "$program" "${words[@]}"')" artim
notices 'an address with any number of connections' 'a fourth connection of an address' "$sockets" \
    "$(unheard --peer-connections 2)" peers
notices 'an address that is not listened at' listen "$sockets" "$(unheard --listen 2)" listen
notices 'a log that is not written' 'an association of a hospital' "$sockets" "$(unheard --log 1)" log
notices 'a log of other words' 'an association that comes with its release' "$sockets" \
    "$(around other_words 'exec "$program" "$@" 2> >(sed -u "s/ context$/ contexts/" >&2)')" log
passes 'a log that goes through another program' "$sockets" "$(around same_words 'exec "$program" "$@" 2> >(sed -u "" >&2)')" log
notices 'a log without its times' 'an association of a hospital' "$sockets" \
    "$(around no_times 'exec "$program" "$@" 2> >(sed -u "s/^[^ ]*Z //" >&2)')" log
notices 'a log without what is lost' 'lines that are lost are counted' "$sockets" \
    "$(around none_lost 'exec "$program" "$@" 2> >(sed -u "/ lines are lost$/d" >&2)')" log
notices 'a log file that is not written' 'to a file, an association of a hospital' "$sockets" "$(unheard --log-file 2)" log
notices 'a log in another order' 'no other lines' "$sockets" \
    "$(around other_order 'exec "$program" "$@" 2> >(sed -u "/Z 2 aborted/{h;d};/Z 4 /{p;x}" >&2)')" log
notices 'accepts that fail and end nothing' 'a connection that cannot be accepted ends it' "$sockets" \
    "$(around unrefused 'LD_PRELOAD= exec "$program" "$@"')" exits
notices 'an accept that fails for a time and ends all' 'a connection that is accepted later' "$sockets" \
    "$(around refused_for_good '[ -z "${REFUSE_ERROR:-}" ] || export REFUSE_ERROR=28; exec "$program" "$@"')" exits
notices 'another exit status of a port that is taken' 'a port that is taken' "$sockets" \
    "$(around another_status 'case " $* " in *" --turns "*) "$program" "$@"; status=$?; [ $status != 5 ] || status=4; exit $status ;;
    *) exec "$program" "$@" ;; esac')" exits
