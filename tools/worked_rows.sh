#!/usr/bin/env bash
# The worked examples (../shared, which is no part of the repository) on a program: worked_rows.sh PROGRAM, from the top of the repository.
exec python3 ../shared/run_rows.py --bin "$1" --stage 20 --words check,once,run,sample,save \
    --lines plan,drop,add,change,withdraw,load,report,work,trace,file,owed,open,try --prefixes
