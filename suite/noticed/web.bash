# Rows of suite/notices, which sources this: the web front.

# the web front
front=$top/suite/web
passes 'the web front' "$front" "$right" page keys rights anew hospitals searches entries looks methods hosts viewers grammar slow many metrics backup
passes 'pages of the web front' env PATIENCE=60 "$front" "$right" arrays pages
for one in page keys rights anew hospitals searches entries arrays pages peaks looks methods hosts viewers grammar slow many metrics backup log line memory proxies curl; do
    notices "the web front: stops_at_once: $one" "$one" "$front" "$stops_at_once" "$one"
done
notices 'a page of other octets' '/page.js' "$front" "$(server 'web-page-with:PAGE:LEAF')" page
notices 'a head without its policy' '/page.css' "$front" "$(server web-without:Content-Security-Policy)" page
notices 'a key that opens all' "another institution's" "$front" "$(server web-key-of-anybody)" keys
notices 'a key that may do all' 'NORTH read: POST /NORTH/worklist: without the right' "$front" "$(server web-key-of-any-right)" rights
notices 'a key that was taken back' 'its keys count, and no others' "$front" "$(server web-keeps-keys)" anew
notices 'keys that a bad file takes away' 'a bad line changes nothing' "$front" "$(server web-forgets-keys)" anew
notices 'rows of another institution' 'the studies of SOUTH' "$front" "$(server web-rows-of-the-first)" hospitals
notices 'two hospitals that share rows, over HTTP' 'both are filled alike' "$front" "$(server shares-rows)" hospitals
notices 'pages of another length' 'a hundred studies' "$front" "$(server web-pages-of:99)" searches
notices 'a key of searches that is not met' 'a search' "$front" "$(server key-not-met:0010,0020)" searches
notices 'a refusal that is told as done' 'an entry that is the same again' "$front" "$(server web-refuses-as:201)" entries
notices 'arrays of any length' 'large items come once each' env PATIENCE=60 "$front" "$(server web-arrays-of:99999999)" arrays
notices 'a page that does not say that it is cut' 'large items come once each' env PATIENCE=60 "$front" \
    "$(server web-tells-no-rest)" arrays
notices 'data sets of any length' 'steps: rows of spaces come once each' env PATIENCE=60 "$front" \
    "$(server web-fills-pages-with:99999999)" pages
notices 'a page that does not say that it is filled' 'worklist: rows of spaces come once each' env PATIENCE=60 "$front" \
    "$(server web-is-filled-by-count)" pages
# (the model's server holds all rows)
notices 'pages that take the memory of all rows' 'the memory of pages of steps does not grow' env PATIENCE=60 "$front" \
    "$right" peaks
notices 'an entry that is not kept' 'entries' "$front" "$(server socket-forgets)" entries
notices 'JSON that is no entry' 'JSON, plain' "$front" "$(server web-reads-no-json)" entries
notices 'a place that is not told' 'the place of what is wrong' "$front" "$(server web-tells-no-place)" entries
notices 'a look that withdraws' 'what is kept is as before' "$front" "$(server web-look-withdraws)" looks
notices 'a method of any name' 'a method' "$front" "$(server web-takes-any-method)" methods
notices 'a body after HEAD' 'HEAD has no body' "$front" "$(server web-sends-a-body-to-head)" methods
notices 'a host of any name' 'Host evil.example' "$front" "$(server web-takes-any-host)" hosts
notices 'a viewer of any origin' 'the origin https://viewer' "$front" "$(server web-shares-with-anybody)" viewers
notices 'a path that goes up' 'a path that goes up' "$front" "$(server web-paths-go-up)" methods
notices 'a connection that stays open' 'it is closed at once' "$front" "$(server web-stays-open)" grammar
notices 'a close that loses the last response' 'who goes on sending is answered' "$front" "$right" lingering
notices 'a body that is awaited without a key' 'no 100 Continue' "$front" "$(server web-bids-anybody-go-on)" grammar
notices 'a form that is not accepted' 'rs/studies' "$front" "$(server web-gives-what-is-not-accepted)" searches
notices 'a name that is looked for in UTF-8 only' 'a name as' "$front" "$(server web-asks-in-utf8-only)" searches
notices 'two hosts' 'a head with two Hosts' "$front" "$(server web-takes-two-hosts)" grammar
notices 'a front that waits for one' 'slow' "$front" "$(server web-waits-for-one)" slow
notices 'a front that closes one connection of seven' '100 at once' "$front" "$(server web-closes-each:7)" many
notices 'rejections that are not counted' 'associations rejected' "$front" "$(server web-counts-no:rejected)" metrics
notices 'refusals that are not counted' 'requests by kind and status' "$front" "$(server web-counts-no-requests:401)" metrics
notices 'turns that are not counted' 'turns that serve the web front' "$front" "$(server web-counts-no-turns)" metrics
notices 'a backup of nothing' 'backup' "$front" "$(server web-copies-nothing)" backup
notices 'a log without the web front' log "$front" "$(unheard --log-file 2)" log
notices 'a log that has no line of a request' line "$front" "$(unheard --log-file 2)" line
notices 'a log without proxies' 'proxies' "$front" "$(unheard --log-file 2)" proxies
if command -v chromium > "$work/nothing"; then
    passes 'the page in a browser' env PATIENCE=20 "$front" "$right" lists items browser
    notices 'a page that makes markup of text' 'markup in a name stays text' env PATIENCE=20 "$front" \
        "$(server web-page-with:textContent:innerHTML)" lists
    notices 'a page in another order' 'the worklist opens on today, in the order of time' env PATIENCE=20 "$front" \
        "$(server 'web-page-with:(a > b) - (a < b):0')" lists
    notices 'a page that reads one response of several' 'twelve items of 1 MB' env PATIENCE=20 "$front" \
        "$(server 'web-page-with:while (part.isFull:while (false')" lists
    notices 'a page that asks nothing before it withdraws' 'a question before an item is withdrawn' env PATIENCE=20 "$front" \
        "$(server 'web-page-with:showModal:toString')" items
    notices 'a page that changes more than what was edited' 'and nothing else' env PATIENCE=20 "$front" \
        "$(server 'web-page-with:structuredClone(draft.base):{}')" items
    notices 'a page without its policy' 'an inline script is refused' env PATIENCE=20 "$front" \
        "$(server web-without:Content-Security-Policy)" browser
    notices 'a page that stays open' 'after ten the rows are gone' env PATIENCE=20 "$front" \
        "$(server 'web-page-with:IDLE = 10:IDLE = 20')" browser
fi

notices 'two hospitals that share rows, over sockets' 'round ' "$sockets" "$(server shares-rows)" histories
notices 'connections in another order' 'loopback of two_hospitals' "$sockets" "$(server loopback-sorts-by-text)" \
    loopback=two_hospitals
