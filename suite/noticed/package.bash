# Rows of suite/notices, which sources this: the package.

# what is made into a package, and what it does to a machine
export SOURCE_DATE_EPOCH=1720170000
package=$(packages same ':')
passes 'the package' "$package" "$program"
notices 'package: a program without help' 'there are commands' "$package" /bin/true help
notices 'package: a program that serves nobody' "the unit's command is ready" "$package" /bin/true installed
# changed_package NAME WORDS PART COMMANDS: a package that these commands change
changed_package() {
    notices "package: $1" "$2" "$(packages "${1// /_}" "$4")" "$program" "$3"
}
changed_package 'another unit than is shown' 'the unit of OPERATING' shown "sed -i s/5/6/ dq_server.service"
changed_package 'a version that is cut' 'the version 1.10.0' versions "sed -i 's/heading\[1\]/heading[1][:5]/' ../tools/package"
changed_package 'a version that is released too early' 'the version 1.1.0~20240705090000' versions "sed -i 's/not released yet/not yet/' ../tools/package"
notices 'package: a program of another version' "the program's version" "$package" "$other_version" versions
changed_package 'a file that all may write' 'the files' contents "sed -i 's/0o644/0o666/' ../tools/package"
changed_package 'a configuration that an update takes' 'its configuration' contents "sed -i 's/== \"etc/== \"opt/' ../tools/package"
changed_package 'the time of the day' 'the same octets again' contents "sed -i 's/gmtime(epoch)/gmtime()/; s/%Y-%m-%d\"/%H:%M:%S\"/' ../tools/package"
changed_package 'an option that the page lacks' 'the page on serve' help "sed -i 's/^.BI .*artim.*/Gives up/' dq_server.1"
changed_package 'nothing is completed' 'commands are completed' help "sed -i 's/COMPREPLY/REPLIES/' dq_server.bash"
changed_package 'a page in another language' 'man on dq_server.1.gz' pages "sed -i 's/^.SS report/.NO &/' dq_server.1"
changed_package 'no group' 'a user and a group' installed "sed -i /addgroup/d postinst"
changed_package 'a folder that all may read' "the store's folder" installed "sed -i s/750/755/ postinst"
changed_package 'another port' "the unit's command is ready" installed "sed -i s/11112/11113/ dq_server.service"
changed_package 'a console of its own' "the console is the group's" installed "sed -i s/660/600/ dq_server.service"
changed_package 'a service that goes on' 'the service is stopped' installed "sed -i s/remove/upgrade/ prerm"
changed_package 'rows that go at a purge' 'rows stay with their user' installed "sed -i 's/! rmdir/! rm -r/' postrm"
changed_package 'a user that stays' 'users and groups go' installed "sed -i '/deluser --quiet/d' postrm"
