#!/usr/bin/env bash
# Times the proved program on a filter and a projection of a CSV file of 70 MB, beside others in the same run: python3's module
# csv; sqlite3, where it is there, which imports the file first; and PostgreSQL, where `psql` reaches a server, which copies the file into a
# temporary table first. All have to write the same bytes.
#
#   bench/filter.sh [ROWS [RUNS]]        1,560,000 rows and 3 runs of each, which alternate, where nothing is said
#
# It prints each run, and then the medians of seconds (with their ratio to dfx) and of processor seconds (without those of a server), and
# the highest peak of memory. Files stay in bench/out/.
set -euo pipefail
rows=${1:-1560000}
runs=${2:-3}
. "$(dirname "$0")/common.sh"

cat >filter.sql <<'SCRIPT'
CREATE EXTERNAL TABLE sales (id BIGINT, qty BIGINT, name VARCHAR, note VARCHAR) STORED AS CSV LOCATION 'sales.csv';
SELECT id, qty * 2 + 1 AS odd FROM sales WHERE qty > 100 AND name <> 'Chen Wei';
SCRIPT

cat >filter.py <<'SELECT'
from sales import answer, records
answer.writerow(["id", "odd"])
for id, qty, name, note in records:
    if id:
        int(id)
    if qty and int(qty) > 100 and name and name != "Chen Wei":
        answer.writerow([id, int(qty) * 2 + 1])
SELECT

# (an empty field that sqlite3 imports is an empty text, which is greater than any number)
cat >filter_sqlite.sql <<'SQLITE'
SELECT id, qty * 2 + 1 AS odd FROM sales WHERE qty <> '' AND qty > 100 AND name <> '' AND name <> 'Chen Wei';
SQLITE

cat >filter_postgres.sql <<'POSTGRES'
CREATE TEMPORARY TABLE sales (id BIGINT, qty BIGINT, name TEXT, note TEXT);
\copy sales FROM 'sales.csv' WITH (FORMAT csv, HEADER)
\copy (SELECT id, qty * 2 + 1 AS odd FROM sales WHERE qty > 100 AND name <> 'Chen Wei') TO STDOUT WITH (FORMAT csv, HEADER)
POSTGRES

for _ in $(seq "$runs"); do
    measure_engines filter.sql filter.py filter_sqlite.sql
    if psql -c 'SELECT 1' >/dev/null 2>&1; then
        measure PostgreSQL answer.postgres psql -q -f filter_postgres.sql
        same answer.postgres
    fi
done
echo "medians of $runs runs:"
python3 table.py
