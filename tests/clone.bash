# Read by the scripts that make a release: `clone`, whose one commit has the files as they stand here, and `built`, the program that the
# release takes. The commit is of a time to come, which no file has by itself.
built=$program
unset GLIBC_TUNABLES GIT_DIR GIT_WORK_TREE GIT_INDEX_FILE
export SCHEMA_SERVER=$built GIT_CONFIG_GLOBAL=/dev/null GIT_CONFIG_SYSTEM=/dev/null
export GIT_AUTHOR_NAME=A GIT_AUTHOR_EMAIL=a@example.org GIT_AUTHOR_DATE=2037-01-02T03:04:05Z
export GIT_COMMITTER_NAME=A GIT_COMMITTER_EMAIL=a@example.org GIT_COMMITTER_DATE=2037-01-02T03:04:05Z
clone=$folder/clone
mkdir -p "$clone/crates" && cp -r .gitignore CHANGELOG.md README.md docs examples share tests "$clone" || exit 2
[ ! -f LICENSE ] || cp LICENSE "$clone" || exit 2
git -C "$clone" init -q -b main && git -C "$clone" add -A && git -C "$clone" commit -qm 'A version' || exit 2
