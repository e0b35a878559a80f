#!/bin/sh
# Unpacks rust/check/fuzz/corpus.hex, a recipe a line, to files in a folder: unpack.sh FOLDER. Earlier files in it go.
set -eu
cd "$(dirname "$0")/../../.."
rm -rf "$1"
mkdir -p "$1"
perl -e '
    my $folder = shift;
    while (my $line = <STDIN>) {
        chomp $line;
        open(my $file, ">:raw", "$folder/$.") or die "$folder/$.: $!\n";
        print $file pack("H*", $line);
        close($file) or die "$folder/$.: $!\n";
    }' "$1" <rust/check/fuzz/corpus.hex
