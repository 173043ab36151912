# Functions that scripts of bin/ and tools/ share; they source this file.

# kit_of FILE: prints which kit built FILE, as tools/build-if-old stored it; nothing where none is stored, or FILE was made anew since.
kit_of() {
  if [ -f "$1.kit" ] && [ ! "$1" -nt "$1.kit" ]; then
    cat "$1.kit"
  fi
}

# commit_of CHECKOUT: prints its commit, with '-dirty' where a file of it is changed or one that it does not track is among the sources;
# 'unknown' where CHECKOUT is not the top of a git checkout.
commit_of() (
  head='' changes=''
  if [ -e "$1/.git" ] && command -v git >/dev/null; then
    # Within a hook these variables name the hook's repository.
    # shellcheck disable=SC2046
    unset $(git rev-parse --local-env-vars)
    head=$(git -C "$1" rev-parse --verify --quiet HEAD 2>/dev/null) || head=''
  fi
  if [ -z "$head" ]; then
    echo unknown
    exit
  fi
  changes=$(git --no-optional-locks -C "$1" status --porcelain --untracked-files=no &&
    git -C "$1" ls-files --others --exclude-standard -- crates bin tools) || changes=unknown
  echo "$head${changes:+-dirty}"
)

# read_sheet PROGRAM FILE: sets `text` to the sheet that PROGRAM gives for FILE. It fails where FILE cannot be opened, or the system reports
# an error while PROGRAM reads it, which PROGRAM then prints. That a file was cut short is not seen.
read_sheet() {
  text=$("$1" <"$2") && [[ $text == 'file refused '* || $text == clearance*separation*congestion* ]]
}
