# For the scripts beside it: makes the file of sales, and measures programs on it. They set `rows` and `runs`, and source this file.

top=$(cd "$(dirname "${BASH_SOURCE[0]}")/.." && pwd)
program=$top/crates/dfx_program/out/dfx_program
mkdir -p "$top/bench/out"
cd "$top/bench/out"

# Builds the program where it is missing or old, and calls it without words, which it refuses.
{ "$top/dfx" 2>&1 | grep -v 'words refused' >&2; } || true
[ -x "$program" ] || exit 1

cat >make.py <<'MAKE'
import sys
names = ["Anna Moore", "Ravi Singh", '"Costa, Bruno"', "Chen Wei", "Fatima Haddad", '"Olu ""Ade"" Adeyemi"', "Maria Rossi", ""]
notes = ["paid in two parts", "", '"ring twice, second floor"', "replaces an earlier order"]
quantities = ["", *(str(it * 7919 % 1000 - 20) for it in range(96))]
tails = [f",{quantities[it % 97]},{names[it % 8]},{notes[it % 4]}\n" for it in range(97 * 8)]
with open("sales.csv", "w", encoding="utf-8", newline="") as file:
    file.write("id,qty,name,note\n")
    for start in range(0, int(sys.argv[1]), 10000):
        stop = min(start + 10000, int(sys.argv[1]))
        file.write("".join(f"{1000000000 + it}{tails[it % len(tails)]}" for it in range(start, stop)))
MAKE

# The records of that file behind its header, and where an answer is written.
cat >sales.py <<'SALES'
import csv, sys
records = csv.reader(open("sales.csv", encoding="utf-8", newline=""))
next(records)
answer = csv.writer(sys.stdout, lineterminator="\n")
SALES

cat >sales_sqlite.sql <<'SQLITE'
CREATE TABLE sales (id INTEGER, qty INTEGER, name TEXT, note TEXT);
.import --csv --skip 1 sales.csv sales
.mode list
.separator ,
.headers on
SQLITE

cat >usage.py <<'USAGE'
import resource, subprocess, sys
ended = subprocess.run(sys.argv[2:])
used = resource.getrusage(resource.RUSAGE_CHILDREN)
with open(sys.argv[1], "w") as file:
    print(used.ru_utime, used.ru_stime, used.ru_maxrss, file=file)
sys.exit(ended.returncode)
USAGE

cat >table.py <<'TABLE'
import os, statistics
megabytes = os.path.getsize("sales.csv") / 1e6
runs = {}
for line in open("runs.txt"):
    who, *numbers = line.rsplit(" ", 3)
    runs.setdefault(who, []).append([float(it) for it in numbers])
rows = {who: [statistics.median(column) for column in list(zip(*all))[:2]] + [max(it[2] for it in all)] for who, all in runs.items()}
print(f"{'':12}{'seconds':>9}{'times dfx':>11}{'MB/s':>8}{'processor s':>13}{'peak MB':>9}")
for who, (seconds, processor, kilobytes) in rows.items():
    ratio, speed = seconds / rows["dfx"][0], megabytes / seconds
    print(f"{who:12}{seconds:9.3f}{ratio:11.2f}{speed:8.0f}{processor:13.2f}{kilobytes / 1000:9.0f}")
TABLE

# Runs the words from the third on into the file that the second names, and keeps what that took of time and memory.
measure() {
    local who=$1 answer=$2 before after
    shift 2
    before=$(date +%s%N)
    if [ -x /usr/bin/time ]; then
        /usr/bin/time -o usage.txt -f '%U %S %M' "$@" >"$answer"
    else
        python3 usage.py usage.txt "$@" >"$answer"
    fi
    after=$(date +%s%N)
    awk -v who="$who" -v ns=$((after - before)) '{ printf "%s %.3f %.2f %d\n", who, ns / 1e9, $1 + $2, $3 }' usage.txt |
        tee -a runs.txt
}

same() {
    cmp "$1" answer.dfx || { echo "$1 differs from the answer of dfx" >&2; exit 1; }
}

# One run each of dfx on a script, of python3 on another, and, where it is there, of sqlite3 on a select behind the import.
measure_engines() {
    measure dfx answer.dfx "$program" query "$1"
    measure "python3 csv" answer.python python3 "$2"
    same answer.python
    if command -v sqlite3 >/dev/null; then
        measure sqlite3 answer.sqlite sqlite3 :memory: ".read sales_sqlite.sql" ".read $3"
        same answer.sqlite
    fi
}

python3 make.py "$rows"
echo "sales.csv: $(wc -c <sales.csv) bytes, $rows rows; $(nproc) processors; who, seconds, processor seconds, peak KB:"
rm -f runs.txt
