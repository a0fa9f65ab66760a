# What bin/pcom, bin/pint and bin/at_hand go by to tell that nothing changed, without reading a file: sourced, with the
# top of the repository in `top`.

# The version that the programs tell of themselves.
version=0.1.0

# The sizes and times of all that a program is built from, and of those that were built.
files_of() (
  cd "$top" && shopt -s nullglob
  find crates.txt crates/*/{src,specs,proofs,c} out/{proved,tried}/"$1" -printf '%p %s %T@ %C@ %i\n' 2> /dev/null
  true
)

# The same of the kit's command; nothing where none is on the path.
kit_file() {
  local rt
  rt=$(type -P rt) && stat -L -c '%n %s %.9Y %.9Z %i' "$rt"
}
