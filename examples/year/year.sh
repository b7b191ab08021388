#!/usr/bin/env bash
# A year from an empty folder to December: year.sh DIR, from the top of the repository.
set -eu
dir=$1 from=examples/year
close() {
    papledger "$dir" load "$from/$1.csv"
    papledger "$dir" file "$2"
}
papledger "$dir" new
papledger "$dir" plan 2026-01-01 $from/tax.xml $from/tax.toml
close january 2026-01
close february 2026-02
# In March it is found that Anna's pay in February was 3,200 euros: the difference is filed with March.
papledger "$dir" set anna 2026-02 PAY=320000
papledger "$dir" owed
close march 2026-03
close april 2026-04
close may 2026-05
close june 2026-06
# A new flowchart from July on. What it changes is told before it is put.
papledger "$dir" load $from/july.csv
papledger "$dir" try 2026-07-01 $from/tax_july.xml $from/tax.toml
papledger "$dir" plan 2026-07-01 $from/tax_july.xml $from/tax.toml
papledger "$dir" file 2026-07
close august 2026-08
close september 2026-09
# Ben left at the end of August, and nobody said so: what September had of him is given back with October.
papledger "$dir" withdraw ben 2026-09
close october 2026-10
# Chris gets a bonus with the pay of November.
papledger "$dir" load $from/november.csv
papledger "$dir" set chris 2026-11 BONUS=100000
papledger "$dir" file 2026-11
close december 2026-12
papledger "$dir" owed
papledger "$dir" totals
