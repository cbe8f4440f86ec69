# SPDX-License-Identifier: MIT
# clean_root.sh PLACE HIDDEN TOOLCHAIN COMMANDS [FILE..]: runs commands as root of a Debian that has
# what packages of Debian brought to this machine, and nothing else: no network, nothing below
# /usr/local, /opt and other folders of the machine's own, and nothing below HIDDEN, where the
# checkout is. TOOLCHAIN is a folder that it has too, with commands in bin/, or nothing. The files
# lie in root's home, in which the commands are typed.
#
# It has to be the first process of new namespaces for mounts, processes and the network, as
# clean_root.py starts it: what it mounts ends with them. What the commands write goes to memory,
# and is gone at their end.
set -eu
place=$1 hidden=$2 toolchain=$3 commands=$4
shift 4

mount -t tmpfs -o mode=755 none "$place"
root=$place/root
mkdir "$root"

# Debian's folders, which are written to in memory, and its links to some of these.
for it in etc usr var; do
    mkdir -p "$root/$it" "$place/written/$it" "$place/work/$it"
    mount -t overlay -o "lowerdir=/$it,upperdir=$place/written/$it,workdir=$place/work/$it" none \
        "$root/$it"
done
for it in /bin /sbin /lib /lib32 /lib64 /libx32; do
    [ ! -L "$it" ] || cp -P "$it" "$root"
done

# What a machine has of its own is empty.
(cd "$root" && mkdir dev home media mnt opt proc root run srv tmp && chmod 1777 tmp)
for it in usr/local var/cache/apt var/lib/apt/lists var/tmp "$hidden"; do
    [ ! -d "$root/$it" ] || mount -t tmpfs -o mode=755 none "$root/$it"
done
mount --rbind /dev "$root/dev"
mount -t proc none "$root/proc"

if [ -n "$toolchain" ] && [ ! -d "$root/$toolchain" ]; then
    mkdir -p "$root/$toolchain"
    mount --bind -o ro "$toolchain" "$root/$toolchain"
fi
[ $# -eq 0 ] || cp -- "$@" "$root/root"
chmod 700 "$root/root"

path=/usr/local/sbin:/usr/local/bin:/usr/sbin:/usr/bin:/sbin:/bin
exec chroot "$root" /usr/bin/env -i HOME=/root LC_ALL=C.UTF-8 \
    PATH="${toolchain:+$toolchain/bin:}$path" sh -euc "cd
$commands"
