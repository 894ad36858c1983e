# Rows of suite/notices, which sources this: stores.

# stores
passes 'stores' "$top/suite/stores" "$right" written=two_hospitals adopted=two_hospitals
passes 'plays over stores' "$top/suite/stores" "$right" played=scenes
notices 'rows that are kept in memory alone' '--new: each play is over a store' "$top/suite/stores" \
    "$(around in_memory_alone 'case ${*: -2:1} in --new | --store) set -- "${@:1:$#-2}" ;; esac; exec "$program" "$@"')" played=scenes
notices 'a store without patients' 'keys_of_each_kind: rows' "$top/suite/stores" "$(server store-without-patients)" \
    written=keys_of_each_kind
notices 'a store with patients of entries' 'started_entries: rows' "$top/suite/stores" \
    "$(server store-with-entry-patients)" written=started_entries
notices 'a store without an index' 'two_hospitals: tables' "$top/suite/stores" "$(server store-without-an-index)" \
    written=two_hospitals
notices 'a store that is always taken' 'replay of no table kept' "$top/suite/stores" \
    "$(around always_taken '"$program" "$@" 2> "$made/told"; status=$?
    if [ $status = 4 ]; then echo done; status=0; else cat "$made/told" >&2; fi; exit $status')" refused
notices 'a journal that is passed over' 'a journal that a crash left behind' "$top/suite/stores" \
    "$(around passes_journals 'if [ -e "${*: -1}-journal" ]; then exit 0; fi; exec "$program" "$@"')" refused
taken_empty=$(around taken_empty 'if [ "${*: -2:1}" = --store ]; then
    rm -f "${@: -1}" "${@: -1}-wal"; set -- "${@:1:$#-2}" --new "${@: -1}"; fi; exec "$program" "$@"')
notices 'a store whose rows are not taken' 'two_hospitals: kept, and in memory' "$top/suite/stores" "$taken_empty" \
    adopted=two_hospitals
notices 'a cut store that is taken' 'cut at ' "$top/suite/stores" "$taken_empty" truncated
notices 'a store that is not looked at' "report of a study's key" "$top/suite/stores" "$(server store-unchecked)" "refused=a study's key"
notices 'a store that failed, and is passed over' 'sync ' "$top/suite/stores" "$(server store-fault-passed-over)" torn=sync
notices 'changes that are kept late' sync "$top/suite/stores" "$(server store-kept-late)" torn=sync
notices 'rows that are kept one by one' sync "$top/suite/stores" "$(server store-kept-by-row)" torn=sync
notices 'a store that is not closed' 'closed: replay --new' "$top/suite/stores" "$(around not_closed 'case $1 in
    replay | report) "$program" "$@" > /dev/full || { status=$?; [ "$status" = 4 ] && exit 0; exit "$status"; } ;;
    *) exec "$program" "$@" ;; esac')" closed
passes 'migrations' "$top/suite/stores" "$right" migrated=two_hospitals unmigrated half_migrated=sync
notices 'a store of version 1 that is taken' 'suite/version_1: report over the old store' "$top/suite/stores" \
    "$(server old-store-is-taken)" migrated=two_hospitals
for one in none-started by-id-alone without-steps-ended without-a-row; do
    notices "a migration: $one" 'suite/version_1: rows' "$top/suite/stores" "$(server "migrates-$one")" migrated=two_hospitals
done
notices 'a migration that empties the old store' 'suite/version_1: the old store stays' "$top/suite/stores" \
    "$(server migrates-and-empties)" migrated=two_hospitals
notices 'a report of what was migrated that fails at its end' 'suite/version_1: report: ' "$top/suite/stores" "$report_fails" \
    migrated=two_hospitals
notices 'a migration of version 2' 'no migration: version 2' "$top/suite/stores" "$(server migrates-any-version)" unmigrated
notices 'a migration onto a store' 'no migration: onto a store of version 2' "$top/suite/stores" "$(server migrates-over-rows)" \
    unmigrated
notices 'a migration row by row' sync "$top/suite/stores" "$(server migrates-row-by-row)" half_migrated=sync
notices 'a migration that is only told' 'suite/version_1: rows' "$top/suite/stores" "$(around only_told 'if [ "$1" = migrate ]
    then [ $# = 5 ] && "$program" replay --new "$5" < /dev/null > "$made/told" && echo migrated; else exec "$program" "$@"; fi')" \
    migrated=two_hospitals
passes 'copies' "$top/suite/stores" "$right" checked=two_hospitals duplicated=two_hospitals unduplicated half_duplicated=sync
notices 'a copy without a row' 'two_hospitals, whole: copied' "$top/suite/stores" "$(server copies-without-a-row)" duplicated=two_hospitals
notices 'a copy of all rows' 'two_hospitals, NORTH: copied' "$top/suite/stores" "$(server copies-all)" duplicated=two_hospitals
notices 'a copy that empties the old store' 'two_hospitals, whole: the old store stays' "$top/suite/stores" "$(server copies-and-empties)" \
    duplicated=two_hospitals
notices 'a copy row by row' sync "$top/suite/stores" "$(server migrates-row-by-row)" half_duplicated=sync
notices 'a copy onto a store' 'no copy: onto a store' "$top/suite/stores" "$(server migrates-over-rows)" unduplicated
notices 'a check that counts nothing' 'two_hospitals: checked' "$top/suite/stores" \
    "$(around counts_none 'if [ "$1" = check ]; then set -- "${@:1:3}"; fi; exec "$program" "$@"')" checked=two_hospitals
notices 'a check that takes anything' 'name_taken.toml, checked' "$run" "$(server checks-anything)" checks
notices 'a check that tells no place' 'name_taken.toml, checked' "$run" "$(server check-tells-no-place)" checks
notices 'a check of another limit' 'hospitals.toml, checked' "$run" "$(server check-lists-another-limit)" checks
notices 'a check without words' 'name_taken.toml, checked' "$run" "$(around no_words '"$program" "$@" 2> "$made/told"; status=$?
    tail -n 1 "$made/told" >&2; exit $status')" checks
none=$(without version_1 'sed -i "/^[0-9a-f]* /d" version_1/rows.octets')
notices 'no kept store' 'suite/version_1 is a store' "$none/stores" "$right" migrated=two_hospitals
notices 'no kept store to migrate in part' half_migrated "$none/stores" "$right" half_migrated=sync
for one in written=two_hospitals adopted=two_hospitals played=captures refused truncated flipped killed torn=sync closed \
    migrated=two_hospitals unmigrated half_migrated=sync checked=two_hospitals duplicated=two_hospitals unduplicated \
    half_duplicated=sync; do
    notices "stores: stops_at_once: $one" '' "$top/suite/stores" "$stops_at_once" $one
done
for one in written=two_hospitals adopted=two_hospitals torn=sync; do
    notices "stores: stops_half_way: $one" '' "$top/suite/stores" "$stops_half_way" $one
done
