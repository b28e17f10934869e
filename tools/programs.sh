# Finds the file of a program of this repository. Sourced, with `top` set to the repository's folder.

# The variables that are set here neither come from the environment nor go there. Those that change how commands read their
# arguments are unset too.
unset IFS CDPATH ENV BASH_ENV GREP_OPTIONS GREP_COLOR POSIXLY_CORRECT
unset program programs loader most_bytes bytes caches cache file
unset first dist_file dist_sources processor glibc kit built_file built_sources

# The programs that users run: each is a crate and a file in dist/.
programs='pathfinder lab'

# An argument with which the program NAME does nothing and succeeds, if it runs at all.
trial_word() {
  case $1 in
    lab) echo /dev/null ;;
    *) echo --help ;;
  esac
}

# The loader that the programs in dist/ name. It comes with the C library, so it shows that the machine is another one.
loader=/lib64/ld-linux-x86-64.so.2

# Prints the size and the time of the last change of each file and folder that standard input names, one per line. It passes at
# most $1 bytes of names at once. It ends the shell that calls it, one of a pipe or of $(..).
list_files() {
  export LC_ALL=C
  cd "$top" && exec xargs -d '\n' -s "$1" stat -L -c '%n %s %.9Z' -- 2>/dev/null
}

# Prints how many bytes of names fit at once: few on a small stack.
most_bytes=1000000
bytes_at_once() {
  case $(ulimit -s) in
    ? | ?? | ???) echo 16384 ;;
    *) echo "$most_bytes" ;;
  esac
}

# Whether the files that the folder $1 names are as it says, with at most $2 bytes of names at once.
are_as_kept() {
  { echo "$program" && list_files "$2" <"$1/program.names"; } 2>/dev/null | cmp -s - "$1/program"
}

# Whether the result that a folder keeps for the program NAME still holds. Then `program` is its file, relative to `top`, and
# never any other file than these two. The stack size is checked only if it may be too small: that takes another process.
is_kept() {
  read -r program 2>/dev/null <"$1/program" || return 1
  case $program in
    "dist/$2" | "crates/$2/out/$2") ;;
    *) return 1 ;;
  esac
  are_as_kept "$1" "$most_bytes" || { bytes=$(bytes_at_once) && [ "$bytes" != "$most_bytes" ] && are_as_kept "$1" "$bytes"; }
}

# Sets `cache` to the folder in which the caller keeps the result for the program NAME of this clone, and `caches` to the one
# that has the folders of all clones. Fails if the caller has no cache folder.
name_cache() {
  case ${XDG_CACHE_HOME-} in
    /*) caches=$XDG_CACHE_HOME/pathfinder ;;
    *) caches=${HOME-}/.cache/pathfinder ;;
  esac
  case ${XDG_CACHE_HOME-},${HOME-} in
    /* | *,/*) cache=$caches/clones$(cd -P "$top" && pwd)/$1 ;;
    *) return 1 ;;
  esac
}

# Whether these files are the caller's own, and nobody else may write to them.
are_own() {
  for file; do
    [ -O "$file" ] || return 1
  done
  [ -z "$(find "$@" -prune \( -perm -020 -o -perm -002 \) 2>&1)" ]
}

# Sets `program` to the file of the program NAME. The result is kept next to the build's output, or if the caller can't write
# there, in the caller's cache folder. It holds until one of the files or folders that decided it changes: then tools/program
# examines their contents, and builds if it must.
find_program() {
  if is_kept "$top/crates/$1/out" "$1" || {
    name_cache "$1" && are_own "$caches" "$cache/program" "$cache/program.names" && is_kept "$cache" "$1"
  }; then
    program=$top/$program
  else
    program=$("$top/tools/program" "$1") || exit 1
  fi
}

sum_of() {
  sha256sum 2>/dev/null <"$1" | cut -d ' ' -f 1
}

# Whether the program NAME was built here from the sources with this checksum: tools/build records both checksums.
is_built() {
  [ -x "$top/crates/$1/out/$1" ] && read -r built_file built_sources 2>/dev/null <"$top/crates/$1/out/built" &&
    [ "$built_sources" = "$2" ] && [ "$(sum_of "$top/crates/$1/out/$1")" = "$built_file" ]
}

# Sets what dist/MANIFEST has for the program NAME; nothing if it has no line for it.
read_manifest() {
  while read -r first dist_file dist_sources processor glibc kit; do
    [ "$first" != "$1" ] || return 0
  done 2>/dev/null <"$top/dist/MANIFEST"
  dist_file= dist_sources= processor= glibc= kit=
}
