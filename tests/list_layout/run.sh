#!/bin/sh
# run.sh: the programs list_layout and list_rdma_layout, as `make` built them, on stored bodies, long inputs, and reads and writes that fail (faults.c).
set -e
cd "$(dirname "$0")/../.."
mkdir -p target/tests
gcc -std=c11 -O1 -Wall -Wextra -Werror -shared -fPIC -o target/tests/faults.so tests/list_layout/faults.c -ldl
python3 tests/list_layout/run.py build/list_layout tests/list_layout/cases.txt target/tests/faults.so
python3 tests/list_layout/run.py build/list_rdma_layout tests/list_layout/rdma_cases.txt target/tests/faults.so
