# Rows of suite/notices, which sources this: captures, scenes, words and keys.

notices 'a thousand fragments at most, in scenes' 'captures/store_pixelmed in fragments of 1' "$run" "$(server fragments-at-most:1000)" \
    fragments store_pixelmed

# plays that stop, or of which nothing or only a part is printed
for one in prints_nothing prints_half stops_half_way fails_at_the_end tells_more; do
    notices "captures: $one" captures/echo_dcmtk "$run" "${!one}" captures echo_dcmtk
    notices "scenes: $one" suite/scenes/two_hospitals: "$run" "${!one}" scenes two_hospitals
    notices "fragments: $one" 'captures/store_pixelmed in fragments of 7' "$run" "${!one}" fragments store_pixelmed
    notices "plays: $one" 'many events' "$run" "${!one}" plays events
    notices "cuts: $one" 'echo, ended after each octet' "$run" "${!one}" cuts echo
    notices "isolation: $one" '' "$top/suite/isolation" "${!one}" 1
    notices "keys: $one" 'the play' "$top/suite/keys" "${!one}"
done
notices 'a report that prints nothing' 'captures/day_at_a_modality, reported' "$run" "$prints_nothing" captures day_at_a_modality
notices 'a report that stops' 'suite/scenes/two_hospitals, reported' "$run" "$stops_half_way" scenes two_hospitals
notices 'a report that fails at its end' 'captures/day_at_a_modality, reported' "$run" "$report_fails" captures day_at_a_modality
for one in configurations words files streams; do
    notices "$one: stops_at_once" '' "$run" "$stops_at_once" $one
done

# a server that stops for all at a data set that cannot be read
passes 'unreadable data sets' "$run" "$right" scenes unreadable_data_sets
for service in store find worklist create set; do
    for syntax in explicit implicit; do
        notices "a server that stops at an unreadable data set: $service in $syntax" suite/scenes/unreadable_data_sets \
            "$run" "$(server "stop-at-unreadable:$service:$syntax")" scenes unreadable_data_sets
    done
done
passes 'histories' "$top/suite/isolation" "$right" 2
notices 'a server that stops, among histories' 'a play: exit 4' "$top/suite/isolation" "$(server stop-at-unreadable:store:explicit)" 4
notices 'a server that refuses histories' 'a play: exit 3' "$top/suite/isolation" "$(around refuses 'exit 3')" 2
notices 'rows that are shared' 'SOUTH first' "$top/suite/isolation" "$(server shares-rows)" 2

# what is counted
passes 'counts of each kind' "$run" "$right" scenes counts_of_each_kind
notices 'a report that stops above one' captures/day_at_a_modality "$run" "$(server report-stops-above-one)" captures day_at_a_modality
for kind in studies series images entries steps; do
    notices "a report that counts to one: $kind" suite/scenes/counts_of_each_kind \
        "$run" "$(server "report-counts-to-one:$kind")" scenes counts_of_each_kind
done

# entries that steps start
passes 'started entries' "$run" "$right" scenes started_entries started_entries_are_counted
for one in starts-none starts-every-value starts-of-all refused-starts started-is-free started-stays-started; do
    notices "started entries: $one" 'suite/scenes/started_entries:' "$run" "$(server $one)" scenes started_entries
done
notices 'an entry whose step is discontinued' 'suite/scenes/started_entries:' "$run" "$(server discontinued-unstarts)" \
    scenes started_entries
notices 'started entries that are not counted' 'suite/scenes/started_entries_are_counted' "$run" "$(server started-not-counted)" \
    scenes started_entries_are_counted
notices 'started entries that stay on the worklist' captures/day_at_a_modality "$run" "$(server starts-none)" captures day_at_a_modality
notices 'steps that start nothing, among histories' 'history' "$top/suite/isolation" "$(server starts-none)" 12
notices "steps that start all hospitals' entries, among histories" 'history' "$top/suite/isolation" "$(server starts-of-all)" 12

# limits that no hospital has
passes 'many associations' "$run" "$right" plays connections
notices 'a limit of 64 associations over all' 'many connections' "$run" "$(server limit-over-all:64)" plays connections
notices 'a limit of 256 associations over all' 'many connections' "$run" "$(server limit-over-all:256)" plays connections
passes 'many events' "$run" "$right" plays events
notices 'a limit of 4,096 events' 'many events' "$run" "$(server events-at-most:4096)" plays events
notices 'a limit of 100 answers' 'which of a thousand studies' "$run" "$(server answers-at-most:100)" plays studies
notices 'a limit of 64 studies of no patient' 'which of a thousand studies' "$run" "$(server silent-at-most:0010,0020:64)" plays studies
notices 'a limit of 512 studies of no day' 'which of a thousand studies' "$run" "$(server silent-at-most:0008,0020:512)" plays studies
notices 'answers that are not in order' 'which of a thousand studies' "$run" "$(server answers-in-turn)" plays studies

# searches in pages
for one in pages pages_of_each_kind searches_cancelled searches_left_open searches_that_end searches_in_one_piece \
    searches_in_pieces searches_of_two; do
    passes "$one" "$run" "$right" scenes $one
done
notices 'a page of 65' 'suite/scenes/pages' "$run" "$(server page-of:65)" scenes pages
notices 'a page of 63' 'suite/scenes/pages' "$run" "$(server page-of:63)" scenes pages
notices 'answers that are found anew for each page' 'suite/scenes/searches_of_two' "$run" "$(server pages-found-anew)" \
    scenes searches_of_two
notices 'answers that another message drops' 'suite/scenes/searches_left_open' "$run" "$(server drops-what-is-left)" \
    scenes searches_left_open
notices 'a C-CANCEL of another search' 'suite/scenes/searches_cancelled' "$run" "$(server cancels-any)" scenes searches_cancelled
notices 'answers after a release' 'suite/scenes/searches_that_end' "$run" "$(server answers-before-release)" \
    scenes searches_that_end
notices 'a last response that comes twice' 'suite/scenes/pages' "$run" "$(server last-response-twice)" scenes pages
passes 'pages over sockets' "$top/suite/sockets" "$right" pages captures=searches_cancelled loopback=searches_of_two
notices 'a C-CANCEL of another search, over sockets' 'a C-CANCEL of another search' "$top/suite/sockets" "$(server cancels-any)" \
    pages

# configurations
cut='[ -z "$file" ] || { head -c SIZE "$file" | tac | sed "0,/^.*\[\[institution\]\]/d" | tac > "$made/cut"; set -- "$1" "$2" "$made/cut"; }
    exec "$program" "$@"'
notices 'a configuration cut at 4,096 octets' 'many connections' \
    "$run" "$(around cut_4096 "${cut/SIZE/4096}")" plays connections
notices 'a configuration cut at 65,536 octets' 'a long configuration' "$run" "$(around cut_65536 "${cut/SIZE/65536}")" files
part='[ -z "$file" ] || { cat "$file" > "$made/part" 2> /dev/null; set -- "$1" "$2" "$made/part"; }; exec "$program" "$@"'
partly=$(around partly "$part")
notices 'a folder that counts as an empty configuration' 'a folder as a configuration' "$run" "$partly" files
notices 'no file that counts as an empty configuration' 'no configuration file' "$run" "$partly" files
notices 'a part that counts as the configuration' 'a configuration that is torn' "$run" "$partly" files
notices 'an institution without routes that is served' 'an institution without routes' "$run" \
    "$(around routeless 'if [ -f "$file" ] && grep -qF "routes = []" "$file"; then exec "$program"; fi; exec "$program" "$@"')" files
taken=$(around taken '[ ! -s "$file" ] || exec "$program"; exec "$program" "$@"')
notices 'configurations that are all taken' suite/refused_configurations/name_taken "$run" "$taken" configurations name_taken

# captures and outputs
partly_read=$(around partly_read 'cat 2> /dev/null | "$program" "$@"')
notices 'a part that counts as the capture' 'a capture that is torn' "$run" "$partly_read" streams
notices 'an input that counts as empty' 'an input that cannot be read' "$run" "$partly_read" streams
notices 'a capture that is cut' 'a capture that is too long' "$run" \
    "$(around cut_capture 'head -c 67108864 | "$program" "$@"')" streams
notices 'an output that is not looked at' 'an output that cannot be written' "$run" \
    "$(around unseen_output '"$program" "$@" | cat 2> /dev/null; exit ${PIPESTATUS[0]}')" streams

# words
notices 'a usage that is a question mark' 'the usage after' "$run" \
    "$(around question_mark '"$program" "$@" 2> "$made/told"; status=$?
    if [ $status = 1 ]; then echo "?"; else cat "$made/told"; fi >&2; exit $status')" words
other_version=$(around other_version '"$program" "$@" 2> "$made/told"; status=$?; sed "s/^dq_server 0/dq_server 1/" "$made/told" >&2; exit $status')
notices 'another version' "the words '--version'" "$run" "$other_version" words
# tells_no WORDS: the built program without the lines of usage that have these words
tells_no() {
    around "without_${1//[^a-z]/}" '"$program" "$@" 2> "$made/told"; status=$?; grep -v -e "'"$1"'" "$made/told" >&2; exit $status'
}
notices 'a usage without an option' "the usage after 'replay --help'" "$run" "$(tells_no --config)" words
for one in --config --new --store --port --turns --listen --artim --quiet --peer-connections --web --web-keys --web-listen --web-host --web-origin --web-proxy --web-peer-connections --console --log --log-file; do
    notices "a usage of serve without $one" "the usage after 'serve --help'" "$run" "$(tells_no "  $one ")" words
done
for one in 'help serve' 'loopback --help' 'help loopback'; do
    notices "a usage without --config, after '$one'" "the usage after '$one'" "$run" "$(tells_no '  --config ')" words
done
for one in replay report serve loopback migrate check copy; do
    notices "a usage without $one" "the usage after '--help'" "$run" "$(tells_no "^  $one ")" words
done
notices 'a help without its version' 'does not begin with the version' "$run" "$(tells_no '^Newtiron')" words
notices 'words that are not looked at' "the words 'foo'" "$run" "$(around every_word '"$program"')" words

# keys
passes 'keys' "$top/suite/keys" "$right"
notices 'a key of an entry that is struck' 'entry: 0040,2017' "$top/suite/keys" "$(server key-struck:ENTRY:0040,2017)"
notices 'a key of a step that is struck' 'Scheduled Procedure Step: 0040,0012' \
    "$top/suite/keys" "$(server key-struck:ENTRY/0040,0100:0040,0012)"
notices 'a key of a code that is struck' 'Scheduled Protocol Code: 0008,0103' \
    "$top/suite/keys" "$(server key-struck:ENTRY/0040,0100/0040,0008:0008,0103)"
notices 'a key of a reference that is struck' 'Referenced Patient: 0008,1155' \
    "$top/suite/keys" "$(server key-struck:ENTRY/0008,1120:0008,1155)"
notices 'a key that is not listed' 'entry: 0040,2400' "$top/suite/keys" "$(server key-taken:ENTRY:0040,2400)"
notices 'a key that is not met' 'entry: 0038,0050' "$top/suite/keys" "$(server key-not-met:0038,0050)"
notices 'a key of an image that is struck' 'IMAGE: 0028,0011' "$top/suite/keys" "$(server key-struck:IMAGE:0028,0011)"
notices 'an attribute that is not kept' 'the record is not kept' "$top/suite/keys" "$(server attribute-dropped:SERIES:0018,0015)"
