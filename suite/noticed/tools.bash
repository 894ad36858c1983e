# Rows of suite/notices, which sources this: the tools.

# what is sent to the console
sends=$top/suite/sends
passes 'sends' "$sends" "$right" table lines files=300 orders watch unanswered stopped=3 lost=2
for one in orders watch unanswered stopped=1 lost=1; do
    notices "sends: stops_at_once: $one" "${one%=*}" "$sends" "$stops_at_once" $one
done
# sends_wrongly NAME COMMAND: the suites with the tool changed by this command of sed
sends_wrongly() {
    without "$1" "rm ../tools; cp -r '$top/tools' ..; sed -i '$2' ../tools/send_entry.py"
}
wrong=$(sends_wrongly other_tag 's/0020 LO PatientID/0021 LO PatientID/; s/0021 LO IssuerOfPatientID/0020 LO IssuerOfPatientID/')
notices 'a keyword of another tag' 'the table of keywords' "$wrong/sends" "$right" table
notices 'a value of another tag' 'an entry' "$wrong/sends" "$right" lines
wrong=$(sends_wrongly no_padding 's/        value += (b" " if vr in TEXT.*/        pass/')
notices 'values that are not padded' 'an entry' "$wrong/sends" "$right" lines
wrong=$(sends_wrongly implicit 's/"1.2.840.10008.1.2": False/"1.2.840.10008.1.2": True/')
notices 'Implicit that is read as Explicit' 'implicit, ' "$wrong/sends" "$right" files=10
wrong=$(sends_wrongly any_order 's/ or tag <= last//')
notices 'elements in any order' 'explicit, changed' "$wrong/sends" "$right" files=2000
wrong=$(sends_wrongly other_words 's/there is no such entry/there is an entry/')
notices 'a refusal in other words' 'the same withdrawal' "$wrong/sends" "$right" orders
wrong=$(sends_wrongly imports 's/^import argparse/import argparse, newtiron_suite/')
notices 'a tool that needs the suites' 'a copy of the tool alone' "$wrong/sends" "$right" orders
wrong=$(sends_wrongly at_once 's/if before.get(name) == state and/if/')
notices 'a file that is taken while it is written' 'a file that grows' "$wrong/sends" "$right" watch
wrong=$(sends_wrongly over_others 's/        while target.exists() or .*/        while False:/')
notices 'a file that is moved over another' 'done' "$wrong/sends" "$right" watch
wrong=$(sends_wrongly no_reason 's/^        if place == self.refused:/        if False:/')
notices 'a refusal without a reason' 'refused' "$wrong/sends" "$right" watch
wrong=$(sends_wrongly no_time 's/if answer == "refused 3" and before:/if False:/')
notices 'a file that was sent before, and is not told so' 'a file that was sent before' "$wrong/sends" "$right" unanswered
wrong=$(sends_wrongly moved_first 's/^        digest, mark = .*/        (self.folder \/ name).rename(self.done \/ name); digest, mark = "", {}/')
notices 'a file that is moved before it is sent' 'lost' "$wrong/sends" "$right" lost=3
wrong=$(sends_wrongly given_up 's/^            self.is_lost = True/            return "refused"/')
notices 'an entry that is refused where no server is' 'lost' "$wrong/sends" "$right" lost=3
wrong=$(sends_wrongly no_mark 's/^        self.move(name, state, self.done if.*/        os._exit(1)/')
notices 'a tool that ends before it moves' 'stopped' "$wrong/sends" "$right" stopped=2
none=$(without no_changed "sed -i 's/ROUNDS or 2000/0/' sends")
notices 'no files that are changed' 'changed files, some of each kind' "$none/sends" "$right" files

# the tools, as users run them
passes 'the tools' "$top/suite/tools"
tools_wrongly() {
    notices "tools: $1" "$2" "$(without "tools_${1// /_}" "rm ../tools; cp -r '$top/tools' ..; sed -i '$4' $5")/tools" "$3"
}
tools_wrongly 'values that are not padded' 'readable lines: the line' send_entry \
    's/        value += (b" " if vr in TEXT.*/        pass/' ../tools/send_entry.py
tools_wrongly 'a refusal with another status' 'an item that is kept: what is printed' send_entry \
    's/"refused": 1}/"refused": 2}/' ../tools/send_entry.py
tools_wrongly 'a report that is cut' 'a report: what is printed' send_entry \
    's/iter(lambda: self.socket.recv(4096), b"")/[self.socket.recv(64)]/' ../tools/send_entry.py
tools_wrongly 'a digest of something else' 'the digest of the token' web_key 's/sha256/sha512/' ../tools/web_key
tools_wrongly 'a file that all may read' "a new file is its owner" web_key 's/0o600/0o644/' ../tools/web_key
tools_wrongly 'a PDU that is not known' 'the end of an association' show \
    's/0x06: .A-RELEASE-RP., //' newtiron_suite/model/names.py

# what the checkers of Python find
if command -v mypy > "$work/nothing"; then
    checked=$(without checked ':')
    echo 'x: int = "text" + "'"$(printf 'x%.0s' {1..100})"'"' > "$checked/newtiron_suite/faulty.py"
    notices 'a line that is too long' 'suite/newtiron_suite/faulty.py: lines' "$checked/python" lines
    notices 'a type that is wrong' mypy "$checked/python" types
fi

# what is shown, and what composing refuses
shows=$(without shown ':')
for one in texts refusals rounds exact replies torn; do
    passes "shows: $one" "$shows/shows" $one
done
none=$(without nothing_shown 'rm -r shown scenes replay; mkdir shown scenes replay; rm ../captures; mkdir ../captures
    : > refused_scenes; : > refused_entries')
for one in texts refusals rounds exact replies torn; do
    notices "nothing to show: $one" "$one: 0 were compared" "$none/shows" $one
done
wrong=$(without wrong_texts "sed -i 's/temporary-congestion/local-limit-exceeded/' shown/each_reply.in.shown")
notices 'a reason by another name' 'each_reply.in as it is shown: line 1' "$wrong/shows" texts
wrong=$(without wrong_errors "sed -i 's/octet 9/octet 8/' shown/bad_lines.in.errors")
notices 'another octet that is bad' 'bad_lines.in, what is told' "$wrong/shows" texts
wrong=$(without wrong_refusals "sed -i 's/raise BadScene(word, f\"{name} stands a second time\")/pass/' newtiron_suite/model/compose.py")
notices 'a keyword that may stand twice' "refused_scenes, line 1: 'Modality=MR'" "$wrong/shows" refusals
wrong=$(without wrong_rounds "sed -i 's/zeros:{len(value)}/zeros:{len(value) - 2}/' newtiron_suite/model/described.py")
notices 'a value that is shown shorter' 'data_limits again' "$wrong/shows" rounds
wrong=$(without wrong_words "sed -i 's/made == \\[octets\\]/False/; s/is_exact: bool = False/is_exact: bool = True/' newtiron_suite/model/shown.py shows")
notices 'octets where there are words' 'titles in words' "$wrong/shows" rounds
wrong=$(without wrong_octets "sed -i 's/made == \\[octets\\]/bool(made)/' newtiron_suite/model/shown.py")
notices 'words of other octets' 'echo_dcmtk.capture, exactly' "$wrong/shows" exact
wrong=$(without wrong_replies "sed -i 's/0x06: .A-RELEASE-RP., //' newtiron_suite/model/names.py")
notices 'a PDU that is not known' 'echo_dcmtk.expected is read' "$wrong/shows" replies
wrong=$(without wrong_rest "sed -i 's/            yield from self.left()/            self.octets.clear()/' newtiron_suite/model/shown.py")
notices 'octets that are lost' 'torn ' "$wrong/shows" torn
