# shellcheck shell=bash
# The commit that the files of this clone are, and its time. To be sourced at the top of the clone.
# shellcheck disable=SC2034  # The scripts use both.

# The commit's name, with `-dirty` if a file has other contents or git does not know it; `unknown` outside a clone.
commit=unknown
commit_time=$(date -r CHANGELOG.md +%s)
if [ -e .git ]; then
    commit=$(git describe --always --abbrev=40 --exclude="*") || commit=unknown
    [ -z "$(git --no-optional-locks status --porcelain)" ] || commit=$commit-dirty
    commit_time=$(git log -1 --format=%ct) || commit_time=$(date -r CHANGELOG.md +%s)
fi

# sum_of PROGRAM..: the checksum of these programs.
sum_of() { cat "$@" | sha256sum | cut -d ' ' -f 1; }

# is_committed: whether the files have not changed since the commit.
is_committed() { [[ $commit != unknown && $commit != *-dirty ]]; }

# Archives and packages of one commit, kit and result of the gate are the same bytes: their files have the commit's time.
export SOURCE_DATE_EPOCH=${SOURCE_DATE_EPOCH:-$commit_time}
