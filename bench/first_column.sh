#!/usr/bin/env bash
# Times the proved program on a CSV file of more than 100 MB, of which it writes one column, beside others in the same run:
# `wc -l`, which only reads the file; python3's module csv, with each BIGINT field tested by int(); and sqlite3, where it is there,
# which imports the file and selects the column. All but wc have to write the same bytes.
#
#   bench/first_column.sh [ROWS [RUNS]]        2,500,000 rows and 3 runs of each, which alternate, where nothing is said
#
# It prints each run, and then the medians of seconds (with their ratio to dfx) and of processor seconds, and the highest peak of
# memory. Files stay in bench/out/.
set -euo pipefail
rows=${1:-2500000}
runs=${2:-3}
. "$(dirname "$0")/common.sh"

cat >column.sql <<'SCRIPT'
CREATE EXTERNAL TABLE sales (id BIGINT, qty BIGINT, name VARCHAR, note VARCHAR) STORED AS CSV LOCATION 'sales.csv';
SELECT id FROM sales;
SCRIPT

cat >column.py <<'SELECT'
from sales import answer, records
answer.writerow(["id"])
for id, qty, name, note in records:
    if id:
        int(id)
    if qty:
        int(qty)
    answer.writerow([id])
SELECT

cat >column_sqlite.sql <<'SQLITE'
SELECT id FROM sales;
SQLITE

for _ in $(seq "$runs"); do
    measure_engines column.sql column.py column_sqlite.sql
    measure "wc -l" lines.txt wc -l sales.csv
done
echo "medians of $runs runs:"
python3 table.py
