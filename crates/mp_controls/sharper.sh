#!/bin/sh
# Strengthens the statement of each law by one in a copy of the crates and checks that the law's own
# proof is refused there: sh sharper.sh [LAW..]. Each line tells the edit and what the check said. Ends
# with 1 where one was proved, and with 2 where the check gave no answer or refuses the laws as they are.
set -u
here=$(cd "$(dirname "$0")" && pwd)
copy=$(mktemp -d)
for crate in mp_model mp_laws; do
    mkdir -p "$copy/crates/$crate"
    (cd "$here/../$crate" && cp -r src specs proofs "$copy/crates/$crate")
done
printf 'mp_model:\nmp_laws: mp_model\n' > "$copy/crates.txt"
cp "$here/../../HANDLES" "$copy"
cd "$copy/crates/mp_laws" || exit 1
cp -r specs proofs ..
rt check > "$copy/log" 2>&1
if ! grep -q '^logic=proved' "$copy/log"; then
    echo "the laws are not proved as they stand: see $copy/log"
    exit 2
fi
proved=0
for edit in "$here"/sharper/*.edit; do
    name=$(basename "$edit" .edit)
    law=${name%%.*}
    if [ $# -gt 0 ]; then
        case " $* " in *" $law "*) ;; *) continue ;; esac
    fi
    perl -e '
        my ($file, $text, $old);
        sub finish { return unless defined $file; open(my $f, ">", $file) or die; print $f $text; close $f; }
        open(my $lines, "<", $ARGV[0]) or die;
        for (<$lines>) {
            chomp;
            if (s/^file: //) { finish(); $file = $_; open(my $f, "<", $file) or die; local $/; $text = <$f>; }
            elsif (s/^old: //) { $old = $_; }
            elsif (s/^new: ?//) { my $n = () = $text =~ /\Q$old\E/g; die "$ARGV[0]: stands nowhere: $old\n" if $n == 0; my $new = $_; $text =~ s/\Q$old\E/$new/g; }
        }
        finish();' "$edit" || exit 1
    rt check --only "$law" > "$copy/log" 2>&1
    if grep -q "^fn mp_laws::$law: proved" "$copy/log"; then
        echo "$name: PROVED"
        proved=1
    elif grep -q 'error:' "$copy/log"; then
        echo "$name: refused: $(grep -m 1 'error:' "$copy/log" | cut -c 1-160)"
    else
        echo "$name: no answer: see $copy/log"
        exit 2
    fi
    rm -r specs proofs
    cp -r ../specs ../proofs .
done
rm -r "$copy"
exit $proved
