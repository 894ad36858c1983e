# Rows of suite/notices, which sources this: the documents.

# what the documents show of a terminal
documents=$top/suite/documents
passes 'documents that are played' env PROGRAM="$program" "$documents" played
for one in prints_nothing prints_half stops_half_way stops_at_once fails_at_the_end tells_more report_fails; do
    notices "documents: $one" 'GUIDE.md: ./run report' env PROGRAM="${!one}" "$documents" played
done
notices 'documents: two hospitals that share rows' 'GUIDE.md: findscu -S -aet CT2' env PROGRAM="$(server shares-rows)" "$documents" played
notices 'documents: orders that are forgotten' 'GUIDE.md: findscu -W' env PROGRAM="$(server console-forgets-orders)" "$documents" played
notices 'documents: steps that start nothing' 'GUIDE.md: findscu -W' env PROGRAM="$(server starts-none)" "$documents" played
notices 'documents: a migration that loses a row' 'OPERATING.md: dq_server report' env PROGRAM="$(server migrates-without-a-row)" \
    "$documents" played
if command -v Orthanc > /dev/null && command -v storescu > /dev/null; then
    silent=$(documents silent "sed -i 's/^   SendToModality.*/   print(instance)/' CONNECT.md")
    notices 'documents: a PACS that forwards nothing' 'CONNECT: what Orthanc is sent' env PROGRAM="$program" "$silent/documents" forwarded
fi
notices 'documents: no program' 'played: there is no program' env PROGRAM=/nowhere "$documents" played
none=$(without commands 'cp -r "$top/docs" "$top/README.md" ..; sed -i "s/^    \$ findscu/    findscu/" ../docs/GUIDE.md')
notices 'documents: commands that are not marked' 'GUIDE.md: what is no terminal' env PROGRAM="$program" "$none/documents" played
none=$(without terminals 'cp -r "$top/docs" "$top/README.md" ..; sed -i "s/^    \$.*//" ../docs/GUIDE.md')
notices 'documents: a terminal that is lost' 'played: ' env PROGRAM="$program" "$none/documents" played
none=$(without true_words 'cp -r "$top/docs" "$top/README.md" ..; sed -i "s/entries 1 steps 1$/entries 1 steps 2/" ../docs/GUIDE.md')
notices 'documents: a page that shows other lines' 'GUIDE.md: ./run report' env PROGRAM="$program" "$none/documents" played
none=$(without callers 'mkdir ../crates; ln -s "$top"/crates/* ../crates; rm ../crates/dq_pdu; cp -r "$top/crates/dq_pdu" ../crates
    sed -i "s/let taken = slot.take/let done = slot.take/" ../crates/dq_pdu/CALLING.md')
notices 'documents: a caller that stands nowhere' 'dq_pdu/CALLING.md: crates/dq_core' "$none/documents" callers

# pages that name what is not there, or quote what no law says
pages=$(documents same ':')
passes 'claims of the pages' "$pages/documents" claims
pages=$(documents clause "sed -i '0,/\`stopped\`, \`unchanged\`, \`fault\`/s//\`stopped\`, \`unturned\`, \`fault\`/' PROVED.md")
notices 'a clause that is not there' 'PROVED: the sources do not say: | `Server::step`' "$pages/documents" claims
pages=$(documents function "sed -i 's/laws::owners_stay/laws::owners_go/' PROVED.md")
notices 'a law that is not there' 'PROVED: the sources do not say: | `laws::owners_go`' "$pages/documents" claims
pages=$(documents definition "sed -i '/^| Levels /s/\`stands_whole\`/\`stands_half\`/' DEFINITIONS.md")
notices 'a definition that is not there' 'DEFINITIONS: the sources do not say: | Levels' "$pages/documents" claims
pages=$(documents rule "sed -i 's/\`value_meets\`/\`value_met\`/' DEFINITIONS.md")
notices 'a rule that is elsewhere' 'DEFINITIONS: Values of dq_match does not define value_met' "$pages/documents" claims
pages=$(documents promise "sed -i 's/strangers_are/strangers_were/; s/runs_are_isolated/runs_were_isolated/' PROMISES.md")
notices 'a promise by a law that is not there' 'PROMISES: nothing is called laws::runs_were_isolated' "$pages/documents" claims
pages=$(documents elsewhere "sed -i 's/(\`ran\`, \`stopped\`)/(\`ran\`, \`stands\`)/' PROMISES.md")
notices 'a clause of another function' 'PROMISES: dq_core::run has no clause stands' "$pages/documents" claims
pages=$(documents quote "sed -i 's/IsPrefix some more ⊎ IsPrefix more some/IsPrefix some more/' PROMISES.md")
notices 'a quote that no law says' 'PROMISES: not word for word in crates/dq_core/src/laws.rt' "$pages/documents" claims
pages=$(documents twice "sed -i 's/^| \`is_uid\`.*/&\n&/' PROVED.md")
notices 'a row that is there twice' 'PROVED: the sources do not say' "$pages/documents" claims
pages=$(documents to_read "sed -i 's/dq_core: Owners/dq_core: Rivers/' PROMISES.md")
notices 'a definition to read that is not there' 'PROMISES: dq_core has no definitions Rivers' "$pages/documents" claims

# pages that list other numbers than the sources have, that link to nothing, or leave the package's reader without one
pages=$(documents true ':')
passes 'facts and links of the pages' "$pages/documents" facts links
# wrong_pages NAME WORDS PART COMMANDS: pages that these commands change
wrong_pages() {
    notices "$1" "$2" "$(documents "${1// /_}" "$4")/documents" "$3"
}
wrong_pages 'a refusal without an answer' 'TROUBLESHOOTING.md: refused ' facts "sed -i '/^| .refused 4/d' TROUBLESHOOTING.md"
wrong_pages 'a configuration that is never refused so' 'TROUBLESHOOTING.md: config ' facts "sed -i 's/^| .config 6/| \`config 8/' TROUBLESHOOTING.md"
wrong_pages 'a number of stores that is lost' 'STORES.md: store N' facts "sed -i '/^| 4 | A row/d' STORES.md"
wrong_pages 'a status without an answer' 'TROUBLESHOOTING.md: nothing on status 0117' facts "sed -i s/0117/0118/ TROUBLESHOOTING.md"
wrong_pages 'an option that is not explained' 'OPERATING.md: no row of' facts "sed -i '/^| .--quiet S/d' OPERATING.md"
wrong_pages 'a class that is not stated' 'CONFORMANCE.md: no row of MR Image' facts "sed -i 's/^| MR Image/| NM Image/' CONFORMANCE.md"
wrong_pages 'a class that is not served' 'CONFORMANCE.md: 1.2.840.10008.5.1.4.1.1.20 is not served' facts \
    "sed -i 's/^| MR Image Storage.*/&\n| NM Image Storage | 1.2.840.10008.5.1.4.1.1.20 | no | yes |/' CONFORMANCE.md"
wrong_pages 'a class that README lacks' 'README.md: nothing on Ultrasound' facts "sed -i 's/Ultrasound and //' ../README.md"
wrong_pages 'a recipe for what is not there' 'CHANGING.md: KEPT_ITEMS' facts "sed -i 's/KEPT_ATTRIBUTES/KEPT_ITEMS/' CHANGING.md"
wrong_pages 'another limit' 'README.md: not 64 connections' facts "sed -i 's/64 connections/60 connections/' ../README.md"
wrong_pages 'a figure that was not measured' 'README.md: 232 µs does not' facts "sed -i 's/231 µs/232 µs/' ../README.md"
wrong_pages 'a page that README leaves out' "README.md: its map leaves out docs/MORE.md" facts "echo '# More' > MORE.md"
wrong_pages 'a path of one machine' 'TROUBLESHOOTING.md: /home/me/rows.db' facts "echo 'See /home/me/rows.db.' >> TROUBLESHOOTING.md"
wrong_pages 'a number of a requirement' 'TROUBLESHOOTING.md: D17' facts "echo 'See D17.' >> TROUBLESHOOTING.md"
wrong_pages 'fewer wrong bodies' 'TESTED.md: ' facts 'rm ../wrong_bodies; mkdir ../wrong_bodies'
wrong_pages 'a link to no page' 'README.md: there is no docs/GUIDES.md' links "sed -i 's/docs.GUIDE.md/docs\/GUIDES.md/' ../README.md"
wrong_pages 'a link to no heading' 'CHANGING.md: CHANGING.md has no heading a-tags' links "sed -i 's/#a-tag)/#a-tags)/' CHANGING.md"
wrong_pages 'a page that the package lacks' 'STORES.md: the package lacks GUIDE.md' links "echo '[The guide](GUIDE.md)' >> STORES.md"
wrong_pages 'a file that is named and not there' 'OPERATING.md: there is no tools/packages' links "sed -i 's/.tools.package./\`tools\/packages\`/' OPERATING.md"
wrong_pages 'an error of another number' 'dq_core/CALLING.md: no row of Fault 2, Store' facts 'rm ../crates; mkdir ../crates
    ln -s "$top"/crates/* ../crates; rm ../crates/dq_core; mkdir ../crates/dq_core; ln -s "$top"/crates/dq_core/src ../crates/dq_core
    sed "s/^| 2 | .Store/| 4 | \`Store/" "$top/crates/dq_core/CALLING.md" > ../crates/dq_core/CALLING.md'
