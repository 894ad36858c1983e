# Rows of suite/notices, which sources this: hostile peers.

# hostile peers
# wrong_hostile NAME WORDS FAULT PART..: this part of them with a server of this fault
wrong_hostile() {
    local name=$1 words=$2 fault=$3
    shift 3
    notices "$name" "$words" "$top/suite/hostile" "$(server "$fault")" '' "$@"
}

passes 'hostile peers' "$top/suite/hostile" "$right" '' octets=200 variants=250 fragments longest stuck deaf resets=40
passes 'what hostile peers cost' "$top/suite/hostile" "$program" '' opens=1000 'pieces=64 that stop' 'sizes=128 contexts' \
    'wild=PatientID: any ones'
wrong_hostile 'another reason of an abort' 'variants from 0' abort-reason:2 variants=250
wrong_hostile 'variants over sockets' 'variants over sockets' socket-drops-an-octet variants=250
wrong_hostile 'what a piece leaves is dropped' 'octets octet by octet' drops-the-rest octets=20
wrong_hostile 'a thousand fragments at most' 'store_pixelmed in fragments of one octet' fragments-at-most:1000 fragments
wrong_hostile 'another greatest length' 'a request of 65536 octets' longest-pdu:65000 longest
wrong_hostile 'a server that waits for whole PDUs' stuck socket-waits-for-whole-pdus stuck
wrong_hostile 'a server that waits until its answers are read' deaf socket-waits-for-one deaf
wrong_hostile 'answers that are dropped where nobody reads' 'one that reads at last' socket-drops-what-waits deaf
wrong_hostile 'a server that reads on' 'the memory of searches' socket-reads-on deaf
wrong_hostile 'a server that a reset stops, at random' 'another institution is served' socket-stops-at-a-reset resets=40
wrong_hostile 'associations that outlast a reset' 'resets leave nothing behind' socket-keeps-what-ended resets=40
wrong_hostile 'a hundred opens at most' 'opens: answered' opens-at-most:100 opens=2000
wrong_hostile 'events that look at all that are held' 'opens: growth' looks-at-all-held opens=8000
wrong_hostile 'PDUs that cost their square' 'fragments of one octet together: answered' dear-pdus \
    'pieces=fragments of one octet together'
wrong_hostile 'wild cards that are tried one after the other' 'PatientID: runs and octets that do not fit: answered' nothing \
    'wild=PatientID: runs and octets that do not fit'
for one in prints_nothing prints_half stops_half_way fails_at_the_end tells_more; do
    notices "hostile peers: $one" 'a request of 65536 octets' "$top/suite/hostile" "${!one}" '' longest
done
for one in octets=20 variants=20 fragments stuck deaf resets=40 pieces sizes wild; do
    notices "hostile peers: stops_at_once: $one" '' "$top/suite/hostile" "$stops_at_once" '' "$one"
done
for one in prints_nothing prints_half stops_half_way fails_at_the_end; do
    notices "costs: $one" 'echoes: answered' "$top/suite/hostile" "${!one}" '' opens=1000
done
wrong_hostile 'no streams' 'octets: streams' nothing octets=0
wrong_hostile 'no variants' 'variants: all are compared' nothing variants=0
wrong_hostile 'no resets' 'resets: ' nothing resets=0
notices 'no opens' 'opens: answered' "$top/suite/hostile" "$program" '' opens=0
notices 'no rows of costs' 'rows that are measured' "$top/suite/hostile" "$program" '' wild=none
