# Rows of suite/notices, which sources this: suites that have nothing, or less, to compare.

# suites that have nothing, or less, to compare
none=$(without generator ': > newtiron_suite/model/make_data_sets.py')
for one in faults representations cuts sifted pieces; do
    notices "a generator that makes no data sets: $one" "$one: 0 were compared" "$none/data_sets" "$trials" $one
done
half=$(without half "sed -i 's/for syntax, octets in lines/for syntax, octets in list(lines/; s/words\[1:\]):/words[1:]))[::2]:/' newtiron_suite/model/make_data_sets.py")
notices 'a generator that makes half the data sets' 'faults: 372 were compared' "$half/data_sets" "$trials" faults
none=$(without data 'rm -r scenes replay refused_configurations datasets; mkdir scenes replay refused_configurations datasets
    rm ../captures; mkdir ../captures; : > newtiron_suite/model/make_plays.py; : > command_lines')
for one in captures scenes fragments configurations checks words; do
    notices "no data: $one" "$one: " "$none/run" "$program" $one
done
notices 'no data: cuts' 'echo is not cut' "$none/run" "$program" cuts
notices 'no data: files' 'files: ' "$none/run" "$program" files
notices 'no data: streams' 'an output that cannot be written' "$none/run" "$program" streams
notices 'no data: sockets' 'captures: 0 were played' "$none/sockets" "$right" captures
notices 'no data: loopback' 'captures of loopback: 0 were played' "$none/sockets" "$right" loopback
notices 'no data: streams that end over sockets' half "$none/sockets" "$right" half
notices 'no data: stores that are written' 'stores that were written' "$none/stores" "$right" written
notices 'no data: stores that are adopted' 'stores that were adopted' "$none/stores" "$right" adopted
notices 'no data: plays over stores' '--new: scenes' "$none/stores" "$right" played=scenes
notices 'no data: stores of which an octet is changed' flipped "$none/stores" "$right" flipped
notices 'no data: stores that are migrated' 'stores of scenes that were migrated' "$none/stores" "$right" migrated
notices 'no data: stores that are checked' 'stores that were checked' "$none/stores" "$right" checked
notices 'no data: stores that are copied' 'stores that were copied' "$none/stores" "$right" duplicated
notices 'no data: variants' 'variants: recorded clients' "$none/hostile" "$right" '' variants
notices 'no data: fragments' 'fragments: clients and lines' "$none/hostile" "$right" '' fragments
notices 'no long plays' 'which of a thousand studies' "$none/run" "$program" plays
notices 'no kept data sets' 'kept data sets: 0 were compared' "$none/data_sets" "$trials" kept
notices 'no data sets of clients' 'cuts: 0 were compared' "$none/data_sets" "$trials" cuts
notices 'no nested data set' 'nested' "$none/data_sets" "$trials" refused
# one play that is lost
fewer=$(without one_play 'rm scenes/titles.scene replay/cancel.capture refused_configurations/name_taken.toml shown/both.in.shown
    sed -i "/^usage: foo/d" command_lines; sed -i 1,20d refused_scenes; sed -i 5d datasets/examples.in datasets/examples.expected')
for one in captures scenes configurations checks words; do
    notices "a play that is lost: $one" "$one: " "$fewer/run" "$program" $one
done
notices 'a play that is lost: captures over sockets' 'captures: ' "$fewer/sockets" "$right" captures
notices 'a play that is lost: loopback' 'captures of loopback: ' "$fewer/sockets" "$right" loopback
notices 'a play that is lost: stores' 'stores that were written' "$fewer/stores" "$right" written
for one in texts refusals rounds exact; do
    notices "a play that is lost: $one" "$one: " "$fewer/shows" $one
done
notices 'a data set that is lost' 'kept data sets: ' "$fewer/data_sets" "$trials" kept
fewer=$(without scenes 'rm replay/bad_*.capture refused_configurations/[a-n]*; sed -i "/replay/d" command_lines')
for one in captures configurations words; do
    notices "less data: $one" "$one: " "$fewer/run" "$program" $one
done
none=$(without histories "sed -i 's/^    return before + mixed(.*/    return []/' newtiron_suite/model/histories.py")
notices 'no histories' '0 events of' "$none/isolation" "$program" 2
notices 'no histories over sockets' 'events of histories' "$none/sockets" "$right" histories
none=$(without rounds ':')
notices 'no rounds of histories' '0 events of 0 histories' "$none/isolation" "$program" 0
none=$(without keys "sed -i 's/0038,0500 LO Patient State//' keys")
notices 'keys that are not typed' 'the lists of keys' "$none/keys" "$program"
none=$(without questions "sed -i 's/^        questions.ask_of(level)/        level.name == \"STUDY\" or questions.ask_of(level)/' keys")
notices 'keys that are not asked for' 'the questions' "$none/keys" "$program"
none=$(without level "sed -i '/^        Level(.Referenced Study/d' keys")
notices 'a level that is not there' 'the lists of keys' "$none/keys" "$program"
