# Which crates the repository has, and which of them a change concerns. Other scripts read this in at the top of the repository.

# The names of the repository's crates, the lowest first.
every_crate() {
  sed -n 's/^\([a-z0-9_]*\)[^:#]*:.*/\1/p' crates.txt
}

# The crates of the product, the lowest first.
product_crates() {
  sed '/^# how it is called/,$d' crates.txt | sed -n 's/^\([a-z0-9_]*\)[^:#]*:.*/\1/p'
}

# These crates, and those that stand on them, the lowest first.
with_crates_above() {
  local found=" $* " before= name below each
  while [ "$found" != "$before" ]; do
    before="$found"
    while IFS=: read -r name below; do
      name="${name%% *}"
      for each in $below; do
        [[ "$found" == *" $name "* || "$found" != *" $each "* ]] || found+="$name "
      done
    done < <(grep '^[a-z]' crates.txt)
  done
  every_crate | grep -xf <(printf '%s\n' $found)
}

# The files that differ from a revision, those too that git doesn't know yet.
changed_files() {
  git diff --name-only --no-renames "$1" -- && git ls-files --others --exclude-standard
}

# The crates in which these files lie.
crates_of() {
  printf '%s\n' "$@" | sed -n 's,^crates/\([^/]*\)/.*,\1,p' | sort -u | grep -xf <(every_crate)
}
