#!/bin/sh
# Installs a Debian package over this system as it is, without the kit and with what changes kept in memory, uses it and
# removes it. release/try_release runs it in a mount namespace of its own:
#
#     unshare -m --propagation private sh in_chroot.sh PACKAGE REPOSITORY
#
# The status is 77 where no such copy of the system can be made.
package=$1 repository=$2

fail() {
    echo "$1"
    exit 1
}

has() {
    command -v "$1" >/dev/null || { echo "SKIPPED: $2, since $1 is not on the path"; return 1; }
}

room=$(mktemp -d) && mount -t tmpfs tmpfs "$room" || exit 77
mkdir "$room/changes" "$room/work" "$room/system"
mount -t overlay overlay -o "lowerdir=/,upperdir=$room/changes,workdir=$room/work" "$room/system" || exit 77
system=$room/system
mount -t proc proc "$system/proc" && mount --bind /dev "$system/dev" || exit 77
cp "$package" "$system/lpd.deb" || exit 77
# A system without the kit and the repository, and which minds manual pages.
rm -rf "$system/opt/rattle" "$system/usr/local/bin/rt" "$system/etc/dpkg/dpkg.cfg.d" "$system$repository"

inside() {
    chroot "$system" env -i PATH=/usr/sbin:/usr/bin:/sbin:/bin LC_ALL=C.UTF-8 HOME=/root "$@" </dev/null
}

if inside sh -c 'command -v rt || command -v lpd' >/dev/null; then fail "the copy of the system has the kit, or lpd"; fi
inside dpkg -i /lpd.deb >"$room/said" 2>&1 || fail "dpkg -i: $(cat "$room/said")"
answer=$(inside sh -c 'lpd solve < /usr/share/doc/lpd/examples/models/diet.mps | head -n 1')
[ "$answer" = "OPTIMAL 92.5" ] || fail "the installed program answers '$answer'"
said=$(inside lpd --help) || fail "lpd --help of the installed program fails"
case $said in
*"man lpd"*) ;;
*) fail "the usage of the installed program does not name man lpd: $said" ;;
esac
case $said in
*"./lpd build"*) fail "the usage of the installed program names ./lpd build" ;;
esac
if has man "man lpd of the package"; then
    inside man --warnings -P cat lpd >"$room/page" 2>"$room/warnings" || fail "man lpd: $(cat "$room/warnings")"
    [ ! -s "$room/warnings" ] || fail "man lpd warns: $(cat "$room/warnings")"
    grep -q 'solve linear programs exactly' "$room/page" || fail "man lpd shows another page: $(head -n 5 "$room/page")"
fi
if has bash "the completion of the package"; then
    # as bash-completion finds it: by the name of the command, in this folder
    completes='. /usr/share/bash-completion/completions/lpd; complete -p lpd >&2; COMP_WORDS=(lpd so) COMP_CWORD=1; _lpd; echo "${COMPREPLY[@]}"'
    found=$(inside bash -c "$completes" 2>/dev/null)
    [ "$found" = solve ] || fail "bash completes 'lpd so' to '$found'"
fi
if has systemd-analyze "the unit of the package"; then
    inside systemd-analyze verify --man=no lpd@7007.service >"$room/said" 2>&1 || fail "systemd-analyze verify: $(cat "$room/said")"
    ! grep -q lpd "$room/said" || fail "systemd-analyze verify: $(cat "$room/said")"
fi
inside dpkg -L lpd | while read -r path; do [ ! -f "$system$path" ] || echo "$path"; done >"$room/files"
inside dpkg -r lpd >"$room/said" 2>&1 || fail "dpkg -r: $(cat "$room/said")"
while read -r path; do [ ! -e "$system$path" ] || fail "dpkg -r leaves $path"; done <"$room/files"
