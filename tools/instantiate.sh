#!/usr/bin/env bash
# instantiate.sh COUNT NAME [small] prints a C++ source with COUNT instantiations of containers,
# sorting and streams, in the namespace NAME. A small source has no regular expression.
set -euo pipefail
count=$1 name=$2 size=${3:-}
headers=(algorithm functional map regex sstream string unordered_map vector)
last=' + (int)std::regex_match(std::to_string(seed), std::regex("[0-9]+"))'
if [ "$size" = small ]; then
    headers=(algorithm functional map sstream string unordered_map vector)
    last=''
fi
for header in "${headers[@]}"; do echo "#include <$header>"; done
echo "namespace $name {"
cat "$(dirname "$0")/instantiated.hpp"
echo 'int run(int seed) {'
echo '    int sum = 0;'
for ((n = 0; n < count; n++)); do echo "    sum += work<$n>(seed);"; done
echo "    return sum$last;"
echo '}'
echo '}'
