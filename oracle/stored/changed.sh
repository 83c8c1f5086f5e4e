# changed.sh BUILD HEADER CALLS, in a folder with the originals and the program that stores calls:
# whether the stored calls tell wrong originals from the right ones. Each edit of changed.txt is made
# to an original, the program is built anew by BUILD and run, and what it writes has to differ from
# CALLS; unchanged it has to write CALLS again. A program that stops has told the difference too.
set -eu
build=$1 header=$2 calls=$3 left=0 told=0
$build
./store "$header" again > /dev/null
cmp "$calls" again
while IFS='|' read -r name file edit; do
  case $name in '' | '#'*) continue ;; esac
  cp "$file" right
  sed -i "$edit" "$file"
  if cmp -s "$file" right; then
    echo "the edit changes nothing: $name" >&2
    exit 1
  fi
  $build 2> words || { cat words >&2; exit 1; }
  if ! ./store "$header" again > /dev/null 2>&1; then
    found='told: the program stops'
  elif cmp -s "$calls" again; then
    found='NOT TOLD'
  else
    found='told'
  fi
  case $found in told*) told=$((told + 1)) ;; *) left=$((left + 1)) ;; esac
  echo "$name: $found"
  cp right "$file"
done < changed.txt
echo "$told told, $left not"
test "$left" = 0
