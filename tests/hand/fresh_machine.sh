#!/usr/bin/env bash
# fresh_machine.sh FOLDER [CPUS ..]: times the first commands of a new user in a clean Debian system. It makes the
# system in FOLDER with debootstrap, with the tools that the README names, and mounts the Rattle kit there read-only.
# CPUS is a list of processors as taskset takes it. Without CPUS there are two lists: 0-3 and then 0,1. For each list
# the script clones the repository anew, and removes what rt ci stored in the system. Then it runs ./respath --try,
# ./origins --try, ./check --quick and ./respath. It prints the wall time of each command. COMMANDS in the environment
# names other commands, one a line. Run by hand, as root: it takes an hour and more.
set -u
folder=${1:?usage: fresh_machine.sh FOLDER [CPUS ..]}
shift
top=$(cd "$(dirname "$0")/../.." && pwd) || exit 1
rt=$(command -v rt) || { echo "fresh_machine.sh: rt is not on the PATH" >&2; exit 1; }
kit=$(dirname "$(dirname "$(readlink -f "$rt")")")
[ $# -gt 0 ] || set -- 0-3 0,1
default='echo "cover v4 192.0.2.0/25, 192.0.2.128-192.0.2.255" | ./respath --try
printf "AS64496,192.0.2.0/23,24\n" >vrps.csv; echo "192.0.2.0/25 AS64496" | ./origins --try --why vrps.csv
./check --quick
echo "cover v4 192.0.2.0/25, 192.0.2.128-192.0.2.255" | ./respath'
commands=${COMMANDS-$default}

[ -e "$folder/usr" ] ||
    debootstrap --variant=minbase --include=python3,git,procps bookworm "$folder" >"$folder.log" 2>&1 || {
    echo "fresh_machine.sh: debootstrap failed: see $folder.log" >&2
    exit 1
}
folder=$(readlink -f "$folder")
unmount() { umount -l "$folder$kit" "$folder/proc" "$folder/dev/pts" "$folder/dev" 2>/dev/null; }
trap unmount EXIT
mkdir -p "$folder$kit"
mount --bind -o ro "$kit" "$folder$kit" && mount -t proc proc "$folder/proc" && mount --bind /dev "$folder/dev" &&
    mount --bind /dev/pts "$folder/dev/pts" || exit 1

status=0
for cpus; do
    clone=$folder/root/pigyelund
    rm -rf "$clone" "$folder${kit%/*}/rattle-kept"
    git clone -q "$top" "$clone" || exit 1
    while IFS= read -r command; do
        began=$(date +%s.%N)
        chroot "$folder" /usr/bin/env -i HOME=/root PATH="$kit/bin:/usr/sbin:/usr/bin:/sbin:/bin" \
            taskset -c "$cpus" bash -c "cd /root/pigyelund && $command" </dev/null >"$folder/tmp/said" 2>&1
        ended=$?
        tail -n 3 "$folder/tmp/said"
        printf 'processors %s: %.0f s, status %s: %s\n' "$cpus" "$(echo "$(date +%s.%N) $began" | awk '{ print $1 - $2 }')" \
            "$ended" "$command"
        [ "$ended" -eq 0 ] || status=1
    done <<<"$commands"
done
exit "$status"
