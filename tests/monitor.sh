#!/bin/bash
# Runs a monitor of Ceph 18.2.7, the server process that keeps the map of a cluster, for the tests that need a monitor.
# The monitor runs in a folder of its own, and listens only on the loopback interface.
#
#     tests/monitor.sh install|start|osds|stop FOLDER
#
# The script needs root. `install` installs the system Debian 13 in FOLDER, with the packages ceph-mon, ceph-common and
# ceph-base. This takes 800 MB. If the program `debootstrap` is missing, `install` first installs it on the machine.
# `start` starts a monitor with an empty store. The monitor knows ten OSDs (the server processes of disks), but they
# don't run. `osds` then starts these OSDs and a manager of Ceph, so that pools can have data. Each OSD stores up to
# 1 GB in memory. `stop` ends all these processes. They see only FOLDER (`chroot`), and have mounts of /proc that
# disappear with them. So no mount is left, and FOLDER may be removed after `stop`.
#
# For `install`, FOLDER must be new or empty, or have the mark that an earlier `install` has put there. The script
# writes and removes nothing in a folder that has other files and no mark, and the other commands need the mark.
# `start` replaces the monitor's store and Ceph's configuration in FOLDER.
set -euo pipefail
unset CDPATH

fail() {
    echo "monitor.sh: $*" >&2
    exit 1
}

[ $# -eq 2 ] || { echo "usage: monitor.sh install|start|osds|stop FOLDER" >&2; exit 2; }
root=$(realpath -m "$2")
mark=$root/.crushedit-monitor
[ "$root" != / ] || fail "the root folder is no folder for a monitor"
export DEBIAN_FRONTEND=noninteractive LC_ALL=C.UTF-8
osds=10

# Runs a command in the folder, with its own mount of /proc, which disappears when the last process of the command
# ends.
within() {
    unshare --mount sh -c 'mount -t proc proc "$0/proc" && exec chroot "$0" "$@"' "$root" "$@"
}

# Ends the process whose id is in a file, if the process runs in the folder. Fails if the process hasn't ended after
# ten seconds.
end() {
    [ -s "$1" ] || return 0
    local pid
    pid=$(cat "$1")
    [ "$(readlink "/proc/$pid/root")" = "$root" ] || return 0
    kill "$pid"
    for _ in $(seq 100); do
        [ -e "/proc/$pid" ] || return 0
        sleep 0.1
    done
    fail "the process $pid of $1 doesn't end"
}

stop() {
    local file
    for file in "$root"/mon/osd*/pid "$root/mon/mgr/pid" "$root/mon/pid"; do
        end "$file"
    done
}

case $1 in
install) [ -e "$mark" ] || [ -z "$(ls -A "$root" 2>/dev/null)" ] || fail "$root isn't empty, and monitor.sh hasn't made it" ;;
start | osds | stop) [ -e "$mark" ] || fail "monitor.sh hasn't installed a monitor in $root" ;;
esac

case $1 in
install)
    mkdir -p "$root"
    touch "$mark"
    command -v debootstrap >/dev/null || { apt-get update -qq; apt-get install -y -qq debootstrap; }
    [ -x "$root/usr/bin/apt-get" ] || debootstrap --variant=minbase trixie "$root" http://deb.debian.org/debian
    cp /etc/resolv.conf "$root/etc/resolv.conf"
    within apt-get update -qq
    within apt-get install -y -qq --no-install-recommends ceph-mon ceph-common ceph-base
    within ceph-mon --version
    ;;
start)
    stop
    rm -rf "$root/mon"
    mkdir -p "$root/mon/data" "$root/etc/ceph"
    # With `none` in place of `cephx`, a client may send a command before it knows the fsid, and Ceph then sometimes
    # refuses the command.
    cat >"$root/etc/ceph/ceph.conf" <<END
[global]
fsid = $(cat /proc/sys/kernel/random/uuid)
mon initial members = a
mon host = [v1:127.0.0.1:6789]
public network = 127.0.0.0/8
auth cluster required = cephx
auth service required = cephx
auth client required = cephx
mon data = /mon/data
log file = /mon/log
run dir = /mon
mon data avail crit = 1
mon data avail warn = 1
paxos propose interval = 0.005
paxos min wait = 0.005
END
    within sh -e >"$root/mon/told" 2>&1 <<'END' || { cat "$root/mon/told" >&2; exit 1; }
cd /mon
admin=/etc/ceph/ceph.client.admin.keyring
ceph-authtool --create-keyring keyring --gen-key -n mon. --cap mon 'allow *'
ceph-authtool --create-keyring $admin --gen-key -n client.admin --cap mon 'allow *' --cap osd 'allow *'
ceph-authtool keyring --import-keyring $admin
monmaptool --create --clobber --add a 127.0.0.1 --fsid "$(sed -n 's/^fsid = //p' /etc/ceph/ceph.conf)" monmap
ceph-mon --mkfs -i a --monmap monmap --keyring keyring
ceph-mon -i a --pid-file /mon/pid
END
    for _ in $(seq "$osds"); do
        within ceph osd new "$(cat /proc/sys/kernel/random/uuid)" >/dev/null
    done
    within ceph --version
    ;;
osds)
    # Unpacks only the files of the packages, because their services must not be set up.
    if [ ! -x "$root/usr/bin/ceph-osd" ]; then
        within sh -ec 'cd "$(mktemp -d)"; apt-get -qq download "$@"; for file in *.deb; do dpkg-deb -x "$file" /; done' sh \
            ceph-osd ceph-mgr ceph-mgr-modules-core libfuse3-4 libsqlite3-mod-ceph libpython3.13 libpython3.13-stdlib \
            libboost-python1.83.0
    fi
    # With these settings, an OSD that starts changes neither its place nor its class in the map.
    cat >>"$root/etc/ceph/ceph.conf" <<END
osd objectstore = memstore
memstore device bytes = 1073741824
osd crush update on start = false
osd class update on start = false
END
    within sh -e >"$root/mon/told" 2>&1 <<'END' || { cat "$root/mon/told" >&2; exit 1; }
cd /mon
ceph auth caps client.admin mon 'allow *' osd 'allow *' mgr 'allow *'
mkdir mgr
ceph auth get-or-create mgr.x mon 'allow profile mgr' osd 'allow *' mds 'allow *' >mgr/keyring
ceph-mgr -i x --mgr-data /mon/mgr --keyring /mon/mgr/keyring --pid-file /mon/mgr/pid --log-file /mon/mgr/log
ceph osd dump | sed -n 's/^osd\.\([0-9]*\) .* \([0-9a-f-]*\)$/\1 \2/p' >osds
while read -r id uuid; do
    mkdir "osd$id"
    ceph auth get-or-create "osd.$id" mon 'allow profile osd' mgr 'allow profile osd' osd 'allow *' >"osd$id/keyring" </dev/null
    set -- -i "$id" --osd-data "/mon/osd$id" --keyring "/mon/osd$id/keyring" --log-file "/mon/osd$id/log"
    ceph-osd --mkfs --osd-uuid "$uuid" "$@" </dev/null
    ceph-osd "$@" --pid-file "/mon/osd$id/pid" </dev/null
done <osds
END
    for _ in $(seq 60); do
        within ceph osd stat | grep -q "$osds up" && break
        sleep 1
    done
    within ceph osd stat
    ;;
stop)
    stop
    ;;
*)
    echo "monitor.sh: $1 is none of install, start, osds, stop" >&2
    exit 2
    ;;
esac
