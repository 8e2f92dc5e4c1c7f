#!/bin/sh
# Makes machine files for a trial of tools/fleet: N of them in a folder, each one of examples/machines that was made for GENERIC
# of examples/amd64, without some of its leaves and with some cards that nobody has a driver for. The same words make the
# same files. Usage: examples/fleet.sh FOLDER N [SEED]
[ $# -ge 2 ] || { sed -n 's/^# .*Usage/usage/p' "$0" >&2; exit 2; }
here=$(cd "$(dirname "$0")" && pwd) || exit 1
mkdir -p "$1" || exit 1
LC_ALL=C awk -v folder="$1" -v many="$2" -v state="${3:-1}" -v here="$here/machines/" '
BEGIN {
    bases = split("box virtual laptop server", base, " ")
    for (b = 1; b <= bases; b++) read_base(base[b])
    cards = split("Intel I226-V Ethernet (ethernet network)|AMD Cryptographic Coprocessor (encrypt/decrypt crypto)|" \
        "Realtek RTL8852BE Wireless (miscellaneous network)|NVIDIA GeForce RTX 4060 (VGA display)|" \
        "Intel 400 Series MEI (miscellaneous communications)|Mellanox ConnectX-6 (ethernet network)|" \
        "Broadcom MegaRAID 9500 (RAID mass storage)|Google Edge TPU (undefined system)", card, "|")
    for (n = 1; n <= many; n++) put_machine(sprintf("%s/%05d", folder, n))
}
# A number from 0 to below n, the same with every awk.
function chance(n) { state = (state * 16807) % 2147483647; return state % n }
function read_base(name,   line, word) {
    while ((getline line < (here name)) > 0) {
        split(line, word, " ")
        text[name, ++lines[name]] = line
        if (word[1] == "spot") is_parent[name, word[3]] = 1
        spot[name, lines[name]] = word[1] == "spot" ? word[2] : word[1] == "match" && word[3] != "*" ? word[3] : ""
    }
    close(here name)
}
function put_machine(file,   name, k, c, gone, at) {
    name = base[chance(bases) + 1]
    at = name == "server" ? "pb0" : "pci0"
    print "# made by examples/fleet.sh of " name >file
    for (k = 1; k <= lines[name]; k++) {
        c = spot[name, k]
        if (c != "" && !(c in gone)) gone[c] = !((name, c) in is_parent) && chance(100) < 20
        if (c == "" || !gone[c]) print text[name, k] >file
    }
    for (c = 1; c <= cards; c++)
        if (chance(1000) < 150 / c) print "spot card" c " " at " pci dev=" 32 + c " function=0   # " card[c] >file
    close(file)
}'
