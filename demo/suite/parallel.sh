#!/bin/sh
# A suite by GNU parallel: three shares of the tests at a time. From the top of the project:
#   demo/suite/parallel.sh
# On several machines, which have the project in the same folder and lab in LAB_HOME, and return their results:
#   demo/suite/parallel.sh --sshlogin one,two,three --workdir "$PWD" --return 'suite-{}.xml' --env LAB_HOME
export LAB_HOME="${LAB_HOME:-.}"
rm -f suite-1.xml suite-2.xml suite-3.xml
parallel -j 3 "$@" '$LAB_HOME/tools/suite -j 1 --shard {}/3 --junit suite-{}.xml demo/suite' ::: 1 2 3 >suite.txt 2>&1
exec "$LAB_HOME/tools/suite" --merge --junit suite.xml suite-1.xml suite-2.xml suite-3.xml
