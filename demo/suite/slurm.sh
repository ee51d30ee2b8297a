#!/bin/sh
# A suite in Slurm: an array of jobs, each of which tries a share of the tests. From the top of the project:
#   sbatch --wait --array=1-3 demo/suite/slurm.sh; tools/suite --merge --junit suite.xml suite-*.xml
# In a project of your own give LAB_HOME=/opt/lab, where lab stands on each node. The folder is one that all nodes share.
#SBATCH --job-name=suite
#SBATCH --output=suite-%a.txt
shard=$SLURM_ARRAY_TASK_ID
exec "${LAB_HOME:-.}/tools/suite" -j "${SLURM_CPUS_PER_TASK:-1}" \
  --shard "$shard/$SLURM_ARRAY_TASK_COUNT" --junit "suite-$shard.xml" "${TESTS:-demo/suite}"
