#!/bin/sh
#SBATCH --array=1-8
#SBATCH --cpus-per-task=1
#SBATCH --requeue
# Many seeds by a cluster's queue: each task of the job array places the seed of its number. From any folder:
#     sbatch --array=1-100 seeds/seeds.sbatch ARCH NET [OPTION OF vplace place ..]
# A task that is begun again goes on from its last checkpoint. Afterwards `SEEDS="$(seq 1 100)" sh seeds/run.sh`, with the same words and in the
# same folder, prints the costs and keeps the best placement. vplace has to be on the path of each node; a task says where it is not.
set -u

fail() {
    echo "seeds.sbatch: $*" >&2
    exit 2
}

task=${SLURM_ARRAY_TASK_ID:-}
[ -n "$task" ] || fail 'no task number: start this with sbatch --array=1-100'
# The queue runs a copy of this file from elsewhere, in the folder where sbatch was called, and knows where the file was.
here=$(dirname -- "$0")
if [ ! -f "$here/one.sh" ]; then
    file=$(scontrol show job "${SLURM_JOB_ID:-}" | sed -n 's/^ *Command=\([^ ]*\).*/\1/p' | head -n 1)
    here=$(dirname -- "$file")
fi
[ -f "$here/one.sh" ] || fail "one.sh is not in $here on $(uname -n)"
exec sh "$here/one.sh" "$task" "$@"
