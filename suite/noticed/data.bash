# Rows of suite/notices, which sources this: refused memory and data sets.

# refused memory
# refused_by FAULT PART [EXPECTED]: the suite of refused memory, as words of a command, on a small program in C that allocates
# with this fault, prints what is expected, and stands for the program and for its tests
refused_by() {
    local file=$made/memory_$1
    "${CC:-cc}" -O0 -D"FAULT=$1" -o "$file" "$top/suite/wrong/memory.c"
    command=(env "LINES_OF=$top/suite/${3:-replay/echo}.expected" MOST_ALLOCATIONS=40 "$top/suite/refused" "$file" "$file" "$2")
}

refused_by 0 'an echo'
passes 'refused memory' "${command[@]}"
refused_by 1 'an echo'
notices 'a refusal that changes nothing' 'an echo, refusals that are told' "${command[@]}"
refused_by 2 'an echo'
notices 'another fault' 'an echo with allocation' "${command[@]}"
refused_by 3 'an echo'
notices 'another line' 'an echo with allocation' "${command[@]}"
refused_by 4 'an echo'
notices 'status 0 after a refusal' 'an echo with allocation' "${command[@]}"
refused_by 5 'an echo'
notices 'a run that does not go through' 'an echo: the run did not go through' "${command[@]}"
refused_by 6 'an echo'
notices 'a run without allocations' 'an echo, allocations' "${command[@]}"
over='two_hospitals over a store'
refused_by 0 "$over" scenes/two_hospitals
passes 'refused memory over a store' "${command[@]}"
refused_by 3 "$over" scenes/two_hospitals
notices 'another line, over a store' "$over with allocation" "${command[@]}"
refused_by 4 "$over" scenes/two_hospitals
notices 'status 0 after a refusal, over a store' "$over with allocation" "${command[@]}"
refused_by 2 'the test'
notices 'a test that fails' 'tests::' "${command[@]}"
refused_by 5 'the test'
notices 'a test that does not go through' 'tests::servers::a_server_without_memory_stops: the run' "${command[@]}"
refused_by 6 'the test'
notices 'a test without allocations' 'tests::servers::a_server_without_memory_stops, allocations' "${command[@]}"

# data sets
for one in kept faults representations cuts sifted pieces long json readings names refused; do
    notices "trials of which none is told: $one" '' "$top/suite/data_sets" "$(around "silent_$one" '"$trials" > /dev/null')" $one
done
notices 'trials of which the last is not told' 'representations' "$top/suite/data_sets" "$(around all_but_one '"$trials" | head -n -1')" \
    representations
notices 'elements that are not marked' 'pieces' "$top/suite/data_sets" "$(around unmarked '"$trials" | sed "s/others$/all/"')" pieces
notices 'a list of tags that is not heeded' 'sifted' "$top/suite/data_sets" \
    "$(around unheeded 'sed "s/^sift none/sift storage/" | "$trials"')" sifted
notices 'numbers that are text in JSON' 'clients.in as JSON' "$top/suite/data_sets" \
    "$(around numbers_as_text '"$trials" | sed -E "s/(\"US\",\"Value\":\[)([0-9]+)/\1\"\2\"/"')" json
notices 'another place of what is wrong in JSON' json/readings "$top/suite/data_sets" \
    "$(around other_place '"$trials" | sed "s/^json vr 00100010$/json vr 00100020/"')" readings
notices 'an attribute that is named twice' 'names of attributes' "$top/suite/data_sets" \
    "$(around other_tag '"$trials" | sed "s/^16 32$/16 16/"')" names
notices 'a fault that is not told' 'nested with allocation' "$top/suite/data_sets" "$(around untold '"$trials" 2> /dev/null')" refused
wrong=$(without other_number 'ln -s "$top/crates" ../crates; sed -i "s/0020 LO PatientID/0022 LO PatientID/" newtiron_suite/model/dictionary.py')
notices 'a tag of the code with another number' 'dictionary' "$wrong/data_sets" "$trials" dictionary
wrong=$(without other_constants 'mkdir -p ../crates/dq_vr; cp -r "$top"/crates/dq_vr/src "$top"/crates/dq_vr/specs ../crates/dq_vr/
    sed -i "s/ROWS: Tag/LINES: Tag/; s/(ROWS,/(LINES,/" ../crates/dq_vr/src/tags.rt')
notices 'a constant with another name than its keyword' 'dictionary' "$wrong/data_sets" "$trials" dictionary
notices 'trials that do without any memory' 'nested, refusals that are told' env MOST_ALLOCATIONS=60 "$top/suite/data_sets" \
    "$(around without_any 'LD_PRELOAD= "$trials"')" refused
